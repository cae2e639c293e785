#!/usr/bin/env python3
"""Writes the test vectors of crate `run_hub_vectors`: its `stdin`, and in `stdout` what it must print.

    tests/hub/make_vectors.py crates [COUNT] [SEED]    # the examples of examples.txt, and COUNT random histories

A record (two bytes of length before it) is kind, N, K, the first id in four bytes, and then the calls, each 40 bytes long: a letter
(`S` submission, `N` turn, `P` report, `C` cancel, `F` failure, `R` restart), a byte (the number of commands, the code, or the device),
and then four bytes of id, two of setting, or four for each command; all low byte first. Or kind 1 and a book. What is printed for it are
the lines of document 01's line program; of a book, a line for each routine and then `end`, or the refusal. The output of the examples is
that of document 01, or was worked out from document 02; the model must give it too. That of the histories is the model's.

Two more letters are readings of due settings. `V`, and a device: `due` and its setting. `L`, a number of entries and two bytes: all due
settings into the first so many entries (document 02, item 14) of a list of 40 that holds the two bytes' number everywhere; printed are the
refusal, if there is one, and `list` with all 40. They stand in COUNT further histories, which end with a list of each length from 0 to 40
in turn, one of N entries and one of N - 1.

One more letter is a call that no line makes: `K`, and the new pass limit (document 02, item 13), which prints `limited` and it, or the
refusal. It stands in COUNT further histories.
"""
import os
import random
import sys
from collections import Counter

HERE = os.path.dirname(os.path.abspath(__file__))
ROOT = os.path.dirname(os.path.dirname(HERE))
sys.path.insert(0, os.path.join(ROOT, "tests", "rules"))

from histories import history  # noqa: E402
from model import Hub, Refused  # noqa: E402
from reach import WANTED, reached  # noqa: E402

LETTERS = {"submit": b"S", "turn": b"N", "report": b"P", "cancel": b"C", "failure": b"F", "restart": b"R", "limit": b"K",
           "one": b"V", "list": b"L"}
CALL_SIZE = 40
LIST_ROOM = 40
LIMITS = 0.15


# ---- examples

def examples():
    """Of each example its input lines and its output lines."""
    found, part = [], None
    with open(os.path.join(HERE, "examples.txt"), encoding="utf-8") as text:
        for line in text.read().split("\n"):
            if line.startswith("#"):
                part = None
            elif line == "--":
                part = found[-1][1]
            elif line:
                if part is None:
                    found.append(([], []))
                    part = found[-1][0]
                part.append(line)
    return found


def call_of(words):
    letter, numbers = words[0], [int(w) for w in words[1:]]
    if letter == "S":
        return ("submit", [tuple(numbers[i:i + 3]) for i in range(0, len(numbers), 3)])
    if letter == "D":
        return ("report", numbers[0], 0)
    if letter == "B":
        return ("report", numbers[0], 1)
    return ({"N": "turn", "P": "report", "C": "cancel", "F": "failure", "R": "restart"}[letter], *numbers)


# ---- bytes

def low_first(number, size):
    return (number % 256 ** size).to_bytes(size, "little")


def call_bytes(call):
    word = call[0]
    if word == "submit":
        body = bytes([len(call[1])]) + b"".join(bytes([d, t]) + low_first(s, 2) for d, t, s in call[1])
    elif word in ("failure", "limit"):
        body = bytes([call[1]])
    elif word == "restart":
        body = bytes([call[1]]) + low_first(call[2], 2)
    elif word == "one":
        body = bytes([call[1]])
    elif word == "list":
        body = bytes([call[1]]) + low_first(call[2], 2)
    elif word == "report":
        body = bytes([call[2]]) + low_first(call[1], 4)
    else:
        body = b"\0" + low_first(call[1], 4)
    return (LETTERS[word] + body).ljust(CALL_SIZE, b"\0")


def record(opening, calls):
    n, k, first = opening
    body = bytes([0, n, k]) + low_first(first, 4) + b"".join(call_bytes(c) for c in calls)
    return low_first(len(body), 2) + body


# ---- words

def back_text(backs):
    return " ".join(["back", str(len(backs))] + [f"{d} {s}" for d, s in backs])


def answer_text(a):
    if a[0] in ("placed", "down", "up"):
        return f"{a[0]} {a[1]} after {a[2]}"
    if a[0] == "wait":
        return f"wait {a[1]} on {a[2]}"
    if a[0] == "send":
        return f"send {a[1]} {a[2][0]} {a[2][2]}"
    if a[0] == "aborted" or (a[0] == "skipped" and a[2]):
        return f"{a[0]} {a[1]} {back_text(a[2])}"
    if a[0] == "skipped":
        return f"skipped {a[1]}"
    return " ".join(str(x) for x in a)


def device_lines(lines):
    return [f"device {d} down" if s is None else f"device {d} up {s}" for d, s in enumerate(lines)]


def list_lines(hub, lent, before):
    """What is printed of a reading into the first entries of a list."""
    first, rest = [before] * lent, [before] * (LIST_ROOM - lent)
    lines = []
    try:
        hub.settings(first)
    except Refused as refusal:
        lines = [answer_text(refusal.answer)]
    return lines + [" ".join(["list"] + [str(s) for s in first + rest])]


def call_lines(hub, call):
    if call[0] == "one":
        return [f"due {hub.due(call[1])}"]
    if call[0] == "list":
        return list_lines(hub, *call[1:])
    return [answer_text(a) for a in hub.call(call)]


def output(opening, calls):
    """What the model prints."""
    try:
        hub = Hub(*opening)
    except Refused as refusal:
        return [answer_text(refusal.answer)]
    lines = ["opened"]
    for call in calls:
        lines += call_lines(hub, call)
    return lines + device_lines(hub.lines())


# ---- readings

def any_reading(rng, n):
    if rng.random() < 0.3:
        return ("one", rng.choice([0, n - 1, n, 31, 32, 255, rng.randrange(n)]))
    return ("list", rng.choice([0, n - 1, n, n + 1, LIST_ROOM, rng.randrange(LIST_ROOM + 1)]), rng.choice([7, -1, 20000, -32768, 32767]))


def with_readings(rng, index):
    """A history with readings among the calls and at the end, where the length is the index's: 41 in a row have all lengths."""
    opening, calls, _, _ = history(rng)
    mixed = []
    for call in calls:
        mixed.append(call)
        if rng.random() < 0.25:
            mixed.append(any_reading(rng, opening[0]))
    return opening, mixed + [("list", index % (LIST_ROOM + 1), -7), ("list", opening[0], 8), ("list", opening[0] - 1, 9)]


# ---- all vectors

def all_histories(count, seed):
    """Plain ones, so many with readings, and so many with new pass limits."""
    rng = random.Random(seed)
    for _ in range(count):
        yield history(rng)[:2]
    rng = random.Random(f"readings {seed}")
    for index in range(count):
        yield with_readings(rng, index)
    rng = random.Random(f"limits {seed}")
    for _ in range(count):
        yield history(rng, LIMITS)[:2]


def check_reach(count, seed):
    """The histories reach all that conditions bring."""
    counts = Counter()
    for opening, calls in all_histories(count, seed):
        counts += reached(opening, [call for call in calls if call[0] not in ("one", "list")])
    for name in WANTED:
        print(f"{counts[name]:6} {name}")
    missing = [name for name in WANTED if counts[name] == 0]
    if missing:
        raise SystemExit(f"never reached: {missing}")


def vectors(count, seed):
    """The records and the lines that are printed for them."""
    records, lines = [], []
    for given, expected in examples():
        if given[0].startswith("book"):
            book = bytes.fromhex(given[0][len("book"):])
            records.append(low_first(len(book) + 1, 2) + b"\1" + book)
        else:
            opening = tuple(int(w) for w in given[0].split()[1:])
            calls = [call_of(line.split()) for line in given[1:]]
            if output(opening, calls) != expected:
                raise SystemExit("the model disagrees with the example:\n" + "\n".join(output(opening, calls)))
            records.append(record(opening, calls))
        lines += expected
    for opening, calls in all_histories(count, seed):
        records.append(record(opening, calls))
        lines += output(opening, calls)
    return b"".join(records), "".join(line + "\n" for line in lines).encode()


def main():
    if len(sys.argv) < 2:
        print("usage: tests/hub/make_vectors.py crates [COUNT] [SEED]")
        return 2
    count = int(sys.argv[2]) if len(sys.argv) > 2 else 60
    seed = int(sys.argv[3]) if len(sys.argv) > 3 else 4
    given, expected = vectors(count, seed)
    check_reach(count, seed)
    crate = os.path.join(sys.argv[1], "run_hub_vectors")
    os.makedirs(crate, exist_ok=True)
    for name, content in (("stdin", given), ("stdout", expected)):
        with open(os.path.join(crate, name), "wb") as f:
            f.write(content)
    print(f"{len(examples())} examples and 3 times {count} histories, seed {seed}: {len(given)} bytes in, {len(expected)} out")
    return 0


if __name__ == "__main__":
    sys.exit(main())

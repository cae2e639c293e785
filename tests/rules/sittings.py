"""Sittings, stored and random, and what the model says of each line: its answers, its reason if it is unread, and the order after it."""
from histories import history
from lines import Program, examples, lines_of, why_unread


class Expected:
    """A sitting's lines, what the model prints of each, its order and devices after each (of a long sitting after some alone), and the
    reasons of unread ones."""

    def __init__(self, sitting, states_of=None):
        program = Program()
        self.sitting, self.lines, self.answers, self.states, self.reasons = sitting, lines_of(sitting), [], [], []
        for number, line in enumerate(self.lines, 1):
            self.reasons.append(why_unread(line, program.hub is not None))
            self.answers.append(program.line(line))
            told = program.hub is not None and (states_of is None or number in states_of)
            self.states.append((*program.hub.order(), program.hub.lines()) if told else None)
        self.ends = program.end()
        self.key = "".join(line + "\n" for answers in [*self.answers, self.ends] for line in answers).encode()

    def text(self):
        return self.sitting.decode()


# ---- stored and random ones

def line_of(call):
    """A call's line; a report of another code than 0 and 1 has none."""
    if call[0] == "submit":
        return " ".join(["S"] + [str(n) for command in call[1] for n in command])
    if call[0] == "report":
        return f"{'DB'[call[2]]} {call[1]}" if call[2] < 2 else None
    letter = {"turn": "N", "cancel": "C", "failure": "F", "restart": "R"}[call[0]]
    return " ".join([letter] + [str(n) for n in call[1:]])


def damaged(rng, line):
    """The line as slips of the hand leave it, or something else in its place."""
    words = line.split(" ")
    place = rng.randrange(len(words))
    other = lambda new: " ".join(words[:place] + new + words[place + 1:])
    return rng.choice([
        line + " ", " " + line, line.replace(" ", "  ", 1), line[:1].lower() + line[1:], line + "\t", "é" + line, "", line + " 0" * 64,
        line + " 7", " ".join(words[:-1]), other(["x"]), other(["-"]), other(["+1"]), other([words[place] + "-"]), other(["256"]),
        other(["-1"]), other(["4294967296"]), other(["32768"]), other(["-32769"]), other(["007"]), "Z 1", line[:1], other([]), "O 1",
        "O 33 0 1", "O 0 0 1", "O 2 9 1", "O 2 0 0", "S 0 1 1 1", line.replace(" ", "", 1), line.replace(" ", "\u00a0", 1), "水 1",
        "</textarea>",
    ])


def stored_sittings():
    """Those of the stored examples that are lines alone."""
    of_lines = [given for given, _ in examples() if not any(line.startswith(("book", "P")) for line in given)]
    return ["".join(line + "\n" for line in given).encode() for given in of_lines]


def random_sitting(rng):
    lines = []
    if rng.random() < 0.2:
        lines += [rng.choice(["N 1", "S", "F 0", "O 40 1 1", "C 1"]) for _ in range(3)]
    for _ in range(rng.choice([1, 1, 1, 2, 3])):
        opening, calls, _, _ = history(rng)
        lines += ["O %d %d %d" % opening] + [line_of(call) for call in calls if line_of(call)]
    slips = rng.choice([0, 0.03, 0.2])
    mixed = []
    for line in lines:
        if rng.random() < slips:
            mixed.append(damaged(rng, line))
        mixed.append(line)
    return "\n".join(mixed).encode() + rng.choice([b"\n", b"\n", b""])


# Lines on both sides of each limit.
EDGES = [line.encode() for line in (
    "R 0 -32768", "R 0 -32769", "R 0 32767", "R 0 32768", "R 255 0", "R 256 0", "R -0 0", "R 0 -0", "R 0 -", "S 0 0 -32768", "S 0 0 32768",
    "S 0 256 0", "S 256 0 0", "S 255 255 32767", "N 4294967295", "N 4294967296", "D -1", "B 00000000000000000000000000000004294967295",
    "C 4294967296", "F 255", "F 256", "F 0 0", "F", "R 0", "R 0 0 0", "O 255 255 4294967295", "O 256 0 1", "O 0 256 1", "O 1 1 4294967296",
    "O 1 1", "O 1 1 1 1", "S", "S 0", "S 0 0", "s", "o", "N", "n 1", "x", "NN 1", "N 1 ", " N 1", "N  1", "N\t1", "N 1\r", "\r", " ", "",
    "N " + "0" * 126, "N " + "0" * 127, "x" * 128, "x" * 129, "N ~", "N \x7f", "N \x1f", "S" + " 0 0 1" * 21, "S" + " 0 0 1" * 22)]


def damaged_bytes(rng):
    """A line of any bytes but byte 10, most of them near a call."""
    line = bytearray(rng.choice(["O 3 2 1", "S 0 0 50 1 0 20", "S", "N 12", "D 1", "B 4294967295", "C 7", "F 31", "R 0 -15"]).encode())
    kind = rng.randrange(8)
    if kind == 0:
        line = bytearray(rng.randbytes(rng.randrange(140)))
    elif kind == 1:
        line = bytearray(damaged(rng, line.decode()).encode())
    elif kind == 2:
        line += b" 0 1 5" * rng.choice([1, 7, 19, 20, 21, 22])
        line += b"0" * rng.randrange(12)
    for _ in range(rng.choice([0, 0, 1, 1, 2, 4])):
        place = rng.randrange(len(line) + 1)
        line[place:place + rng.randrange(2)] = rng.choice([
            b" ", b"-", b"0", b"9", b"99999", b"\r", b"\0", b"\t", b"\x7f", b"\xc3\xa9", b"n", b"N", b""])
    return bytes(line).replace(b"\n", b"")


# ---- what they bring out

def reached(expected, counts):
    """What a sitting brings out."""
    before = None
    for line, answers, reason, state in zip(expected.lines, expected.answers, expected.reasons, expected.states):
        words = answers[0].split(" ")
        counts[" ".join(words[:2]) if words[0] in ("refused", "not") else words[0]] += 1
        if words[0] == "aborted":
            counts[f"aborted by {line[:1].decode()}"] += 1
            counts["an abort whose events stay"] += has_events(before, int(words[1]))
        if answers[-1].split(" ")[0] in ("down", "up"):
            counts["event after 0" if answers[-1].endswith(" after 0") else "event after a routine"] += 1
        if words[0] == "skipped" and len(words) > 2:
            counts["skipped with a setting sent back"] += 1
        if reason:
            counts[f"unread: {reason}"] += 1
        before = state
    counts["a later opening"] += sum(answers == ["opened"] for answers in expected.answers) > 1


def has_events(state, rid):
    """Whether events follow the routine."""
    ids = [item[1] if item[0] == "routine" else None for item in state[0]] + [0]
    return ids[ids.index(rid) + 1] is None


WANTED = ["opened", "placed", "wait", "send", "done", "skipped", "held", "not held", "committed", "aborted by N", "aborted by B",
          "aborted by C", "aborted by F", "aborted by R", "an abort whose events stay", "event after 0", "event after a routine",
          "skipped with a setting sent back", "a later opening"] + [
    f"refused {number}" for number in (1, 2, 3, 4, 5, 6, 7, 8, 9, 10, 11, 12, 14, 15, 16, 17, 22)] + [
    "unread: " + reason for reason in (
        "longer than 128 bytes", "an empty line", "a character that no line has, such as a tab or an accented letter", "a space at its end",
        "a space at its start", "two spaces together", "a lower-case letter for the call", "no call of that name", "too few words",
        "too many words", "a word that is no number", "a number outside its width", "no hub yet")]

#!/usr/bin/env python3
"""Compares the definitions of crate `rules` with the model beside this file, on random histories.

    tests/rules/compare.py [COUNT] [SEED]

Writes COUNT histories (100 if none is given), every other with new pass limits, as examples of crate `rules`, with the answers and device
lines of the model and all due settings read into a list, into a temporary copy of the crates, and has the checker compute each. The seed
is printed. Exit status 0: all agree.
"""
import os
import random
import shutil
import subprocess
import sys
import tempfile

from histories import CALLS, history
from model import Refused

ROOT = os.path.dirname(os.path.dirname(os.path.dirname(os.path.abspath(__file__))))

LONGEST_LIST = 40
LIMITS = 0.15


# ---- as text of the definitions

def whole(z):
    return f"pos {z}" if z >= 0 else f"negsuc {-z - 1}"


def listed(items):
    return "[]" if not items else "(" + " ∷ ".join(items) + " ∷ [])"


def command(c):
    return f"record {{ device = {c[0]}; tag = {c[1]}; setting = {whole(c[2])} }}"


def call_text(c):
    if c[0] == "submit":
        return f"submit {listed([command(x) for x in c[1]])}"
    if c[0] == "restart":
        return f"restart {c[1]} ({whole(c[2])})"
    return " ".join([c[0]] + [str(x) for x in c[1:]])


def answer_text(a):
    if a[0] == "refused":
        return f"refused (numbered {a[1]})" if len(a) == 2 else f"refused (indexed {a[1]} {a[2]})"
    if a[0] == "send":
        return f"send {a[1]} ({command(a[2])})"
    if a[0] in ("skipped", "aborted"):
        return f"{a[0]} {a[1]} {listed([f'back {d} ({whole(s)})' for d, s in a[2]])}"
    if a[0] == "not held":
        return f"not_held {a[1]}"
    return " ".join(str(x) for x in a)


def example(i, h):
    (n, k, first), calls, answers, hub = h
    settings = [f"Some ({whole(s)})" if s is not None else "None" for s in hub.lines()]
    return f"""
abbrev c{i} : List Call
c{i} = {listed([call_text(c) for c in calls])}

h{i} : Holds (record {{ devices = {n}; pass_limit = {k}; first_id = {first};
  calls = c{i};
  answers = {listed([listed([answer_text(x) for x in a]) for a in answers])};
  settings = {listed(settings)} }})
unfolding calc
h{i} = (refl, refl, refl)
""" + reading(i, n, k, first, hub)


def reading(i, n, k, first, hub):
    """All due settings into a list, of one length after another (document 02, item 14)."""
    size = i % (LONGEST_LIST + 1)
    lent, verdict = [7] * size, "Ok tt"
    try:
        hub.settings(lent)
    except Refused as refusal:
        verdict = f"Err (numbered {refusal.answer[1]})"
    return f"""
l{i} : let s = state_after (new_hub {n} {k} {first}) c{i} in
  (list_check s {size} ≡ {verdict}) × (list_after s (replicate {size} (pos 7)) ≡ {listed([whole(s) for s in lent])})
unfolding calc all_due list_check list_after
l{i} = (refl, refl)
"""


HEADER = """-- Random histories, with the answers of an independent model.
use Rattle.std.specs.Prelude.{◌≡◌, refl, List, [], ◌∷◌, pos, negsuc, replicate, None, Some, Ok, Err}
use Rattle.rules_routine.specs.Refusals.{numbered, indexed}
use Rattle.rules.specs.AllDue.{all_due, list_check, list_after}
use Rattle.rules.specs.Open.{new_hub}
use Rattle.rules.specs.Calls.{state_after}
use Rattle.rules.specs.Answers.{Call, submit, turn, report, failure, restart, cancel, limit}
use Rattle.rules.specs.Answers.{refused, placed, wait, send, held, not_held, done, skipped, committed, aborted, down, up, limited}
use Rattle.rules.specs.Examples.{calc, Holds, back}
"""


def main():
    count = int(sys.argv[1]) if len(sys.argv) > 1 else 100
    seed = int(sys.argv[2]) if len(sys.argv) > 2 else random.SystemRandom().randrange(10**9)
    print(f"{count} histories of {CALLS} calls, seed {seed}")
    rng = random.Random(seed)
    with tempfile.TemporaryDirectory() as folder:
        crates = os.path.join(folder, "crates")
        for name in ("rules_routine", "rules"):
            shutil.copytree(os.path.join(ROOT, "crates", name), os.path.join(crates, name), ignore=shutil.ignore_patterns("out"))
        rules = os.path.join(crates, "rules")
        shutil.rmtree(os.path.join(rules, "proofs"))
        shutil.rmtree(os.path.join(rules, "must-fail"))
        with open(os.path.join(folder, "crates.txt"), "w") as f:
            f.write("rules_routine:\nrules: rules_routine\n")
        with open(os.path.join(rules, "specs", "Lib.antt"), "a") as f:
            f.write("mod Histories\n")
        with open(os.path.join(rules, "specs", "Histories.antt"), "w") as f:
            f.write(HEADER + "".join(example(i, history(rng, LIMITS if i % 2 else 0)) for i in range(count)))
        run = subprocess.run(["rt", "check"], cwd=rules, stdin=subprocess.DEVNULL, text=True, capture_output=True)
    output = run.stdout + run.stderr
    if run.returncode != 0 or "logic=proved" not in output:
        print("\n".join(line[:400] for line in output.splitlines() if "error" in line) or output[-2000:])
        return 1
    print("all agree")
    return 0


if __name__ == "__main__":
    sys.exit(main())

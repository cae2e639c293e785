#!/usr/bin/env python3
"""The places of a function's code, as its proof names them, and the goals that are asked at each.

    tools/places.py NAME FUNCTION    # FUNCTION as a path below proofs/, such as reading/check_all

What is known at a place, and the fields of `c` there, a check prints with each goal: leave a hole, and run
`rt check --only FUNCTION --allow-holes`.
"""
import glob
import os
import re
import subprocess
import sys
import tempfile

PLACE = re.compile(r"^abbrev pub (\S+) : Type 0\n\S+ =\n?\s+Lts\.", re.M)
GOAL = re.compile(r"^abbrev pub (\S+) : Type 0\n\S+ =\n?\s+Past\.At\s+(\S+)", re.M)


def outline(text):
    asked = {}
    for goal, place in GOAL.findall(text):
        asked.setdefault(place, []).append(goal)
    places = [place for place in PLACE.findall(text) if not place.startswith("the-fitted-")]
    for place in dict.fromkeys(places + list(asked)):
        print(f"{place:40} {' '.join(asked.get(place, []))}".rstrip())


def main():
    if len(sys.argv) != 3:
        print(__doc__)
        return 2
    name, function = sys.argv[1:]
    crate = os.path.join(os.path.dirname(os.path.dirname(os.path.abspath(__file__))), "crates", name)
    with tempfile.TemporaryDirectory() as folder:
        command = ["rt", "check", "--generated", folder, "--start", function.replace("/", "::")]
        run = subprocess.run(command, cwd=crate, stdin=subprocess.DEVNULL, capture_output=True, text=True)
        found = glob.glob(f"{folder}/Rattle*{name}*proofs/{function}/Goals.antt")
        if not found:
            print(run.stdout + run.stderr, file=sys.stderr)
            return 1
        with open(found[0], encoding="utf-8") as file:
            outline(file.read())
    return 0


if __name__ == "__main__":
    sys.exit(main())

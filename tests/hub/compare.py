#!/usr/bin/env python3
"""Compares the running hub with the model of tests/rules, on random histories.

    tests/hub/compare.py [COUNT] [SEED] [PROGRAM]

Runs target/bin/run_hub_vectors, which `tools/build` builds, or another, on COUNT histories (2000 if no number is given), COUNT with
readings of due settings, and COUNT with new pass limits. The seed is printed. Exit status 0: all agree.
"""
import os
import random
import subprocess
import sys

from make_vectors import ROOT, vectors

BATCH = 250


def main():
    count = int(sys.argv[1]) if len(sys.argv) > 1 else 2000
    seed = int(sys.argv[2]) if len(sys.argv) > 2 else random.SystemRandom().randrange(10**9)
    print(f"3 times {count} histories, seed {seed}")
    program = sys.argv[3] if len(sys.argv) > 3 else os.path.join(ROOT, "target", "bin", "run_hub_vectors")
    for start in range(0, count, BATCH):
        given, expected = vectors(min(BATCH, count - start), seed + start)
        printed = subprocess.run([program], input=given, capture_output=True, check=True).stdout
        if printed != expected:
            for i, (a, b) in enumerate(zip(printed.split(b"\n"), expected.split(b"\n"))):
                if a != b:
                    print(f"seed {seed + start}, line {i + 1}: printed {a!r}, expected {b!r}")
                    break
            return 1
    print("all agree")
    return 0


if __name__ == "__main__":
    sys.exit(main())

#!/usr/bin/env python3
"""The edit loop of a crate: runs `rt check --allow-holes` in it, writes each proof file that the check offers, prints errors and goals.

    tools/goals.py NAME [PART] [LINES]             # only of files whose path has PART; at most LINES lines
    tools/goals.py --over LIB,LIB NAME [PART] ..   # over libraries of the repository that may have holes themselves

A library that NAME builds on is else taken as proved. Those given by --over, with all that stands between them and NAME, are read as
source; the others have to be built (`rt lib` in their folders).
"""
import os
import re
import shutil
import subprocess
import sys

OFFER = re.compile(r"help: write (\S+) with these lines")
SETTLED = re.compile(r"(fn|struct|enum|impl) .*: (proved|no holes)$|(logic|statements|library|crate|axioms|rt:|help: write) ")


def write_offers(folder, text):
    """Writes the offered proof files that are not there yet."""
    lines, offers = [], []
    for line in text.split("\n"):
        found = OFFER.match(line)
        if found:
            lines = []
            offers.append((os.path.join(folder, found.group(1)), lines))
        elif offers and line.startswith("    "):
            lines.append(line[4:])
    for path, lines in offers:
        if not os.path.exists(path):
            os.makedirs(os.path.dirname(path), exist_ok=True)
            with open(path, "w", encoding="utf-8") as out:
                out.write("\n".join(lines).rstrip("\n") + "\n")
            print("wrote", os.path.relpath(path))


def shown(text, part, most):
    """The blocks of files whose path has the part, with short names."""
    text = re.sub(r"\bRattle\.[a-z_]+\.(specs|proofs)\.(declared\.)?", "", text)
    on, count = False, 0
    for line in text.split("\n"):
        if line[:1].strip():
            on = not SETTLED.match(line) and (part in line.replace("::", "/") or line.startswith(("logic=", "holes=")))
        if on:
            print(line[:700])
            count += 1
            if count >= most:
                return


def needs():
    """By crate, what crates.txt says that it builds on."""
    with open("crates.txt", encoding="utf-8") as listed:
        lines = [line.partition(":") for line in listed if re.match(r"\w", line)]
    return {name.split()[0]: rest.split() for name, _, rest in lines}


def below(name, known):
    """What a crate is built on, each behind what it names itself."""
    found = []
    for need in known[name]:
        found += [one for one in below(need, known) + [need] if one not in found] if need in known else []
    return found


def command(name, over):
    """The check of a crate, run in its folder, the libraries of `over` and those between passed as source."""
    if not over:
        return ["rt", "check", "--allow-holes"]
    kit, known = os.path.dirname(os.path.dirname(os.path.realpath(shutil.which("rt")))), needs()
    root = "main" if os.path.exists(f"crates/{name}/src/main.rt") else "lib"
    words = [f"{kit}/bin/rattle", "check", "--crate-name", name, f"src/{root}.rt"]
    words += ["--extern", f"std={kit}/rlibs/std.rlib", "--extern", f"core={kit}/rlibs/core.rlib", "-L", f"dependency={kit}/rlibs"]
    for lib in below(name, known):
        if lib in over or set(over) & set(below(lib, known)):
            words += ["--lib", f"{lib}:{','.join(['core', 'std', *known[lib]])}=../{lib}/src/lib.rt"]
        else:
            words += ["--extern", f"{lib}=../{lib}/out/rlib/{lib}.rlib", "-L", f"dependency=../{lib}/out/rlib"]
    words += ["--antt-project", f"{kit}/rattle/logic/antt-project.json", "--logic-built", f"{kit}/logic_built"]
    return words + ["--jobs", "2", "--links", f"{name}=", "--incremental", "out/over", "--allow-holes"]


def main():
    words, over = sys.argv[1:], []
    if words[:1] == ["--over"]:
        over, words = words[1].split(","), words[2:]
    if not words:
        print(__doc__)
        return 2
    os.chdir(os.path.dirname(os.path.dirname(os.path.abspath(__file__))))
    name, part, most = (words + ["", ""])[:2] + [int(words[2]) if len(words) > 2 else 80]
    folder = os.path.join("crates", name)
    os.makedirs(os.path.join(folder, "out"), exist_ok=True)
    run = subprocess.run(command(name, over), cwd=folder, stdin=subprocess.DEVNULL, capture_output=True, text=True)
    text = run.stdout + run.stderr
    write_offers(folder, text)
    shown(text, part, most)
    return 0


if __name__ == "__main__":
    sys.exit(main())

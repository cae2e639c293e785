#!/usr/bin/env python3
"""Spells the repository's own definitions and lemmas by the table beside this script: snake case, a dash only between two names.

usage: tools/respell.py [FOLDER]     once, after port.py, at the top of the repository

Turned: the code of .antt files, the clauses and imports of .rt files, the texts of must-fail edits, and code spans of the pages. A name
with capitals inside turns in comments too. Names of Rust code, strings, and the labels that Rattle makes (in a folder of proofs/, a name
that the file declares at a type of `tie`, and what stands behind a dot there) keep their spelling.
"""
import os
import re
import sys

HERE = os.path.dirname(os.path.realpath(__file__))
with open(os.path.join(HERE, "respell.tsv"), encoding="utf-8") as rows:
    TABLE = dict(row.rstrip("\n").split("\t") for row in rows)
WORD = re.compile(r"[^\s(){}.;,@\"«»`:|\[\]]+")
QUIET = re.compile(r'"(?:[^"\\\n]|\\.)*"|(?<![^\s(){}.;,@"«»])--[^\n]*')
LABEL = re.compile(r"(?m)^([^\s:]+) : tie\.Need")
SPAN = re.compile(r"`[^`\n]+`")
CLAUSE = re.compile(r"\b(?:requires|ensures|ghost)\*?\s*(?:\w+\s*:?\s*)?\{|ghost use [^;]*;")


def word(w, keep=()):
    return w if w in keep else TABLE.get(w, w)


def words(text, keep=(), dots=True):
    def one(m):
        w = m.group(0)
        if not dots and "-" in w and m.start() and text[m.start() - 1] == ".":
            return w
        return word(w, keep)

    return WORD.sub(one, text)


def camel(text):
    """A comment: names with capitals inside, and code spans."""
    text = SPAN.sub(lambda m: words(m.group(0)), text)
    return WORD.sub(lambda m: m.group(0) if "-" in m.group(0) else camel_word(m), text)


def antt(text, path):
    folder = re.search(r"/proofs/.+/[^/]+\.antt$", path)
    keep = set(LABEL.findall(text)) if folder else ()
    out, at = [], 0
    for m in QUIET.finditer(text):
        out.append(words(text[at : m.start()], keep, not folder))
        out.append(m.group(0) if m.group(0).startswith('"') else camel(m.group(0)))
        at = m.end()
    out.append(words(text[at:], keep, not folder))
    return "".join(out)


def clause_end(text, at):
    depth = 0
    while at < len(text):
        depth += {"{": 1, "}": -1}.get(text[at], 0)
        at += 1
        if not depth:
            break
    return at


def rt(text):
    out, at = [], 0
    for m in CLAUSE.finditer(text):
        if m.start() < at:
            continue
        out.append(camel_lines(text[at : m.start()]))
        end = m.end() if m.group(0).endswith(";") else clause_end(text, m.end() - 1)
        out.append(words(text[m.start() : end]))
        at = end
    out.append(camel_lines(text[at:]))
    return "".join(out)


def camel_lines(text):
    return re.sub(r"//[^\n]*", lambda m: camel(m.group(0)), text)


def camel_word(m):
    return word(m.group(0)) if re.search("[a-z][A-Z]", m.group(0)) else m.group(0)


def edit(text):
    rows, of = [], ""
    for row in text.splitlines(keepends=True):
        if row.startswith("file:"):
            of = row.split(":", 1)[1].strip()
        elif row.startswith(("old:", "new:")):
            row = row[:4] + (words(row[4:]) if of.endswith(".antt") else WORD.sub(camel_word, row[4:]))
        rows.append(row)
    return "".join(rows)


def page(text):
    return SPAN.sub(lambda m: words(m.group(0)), text)


def main(top):
    for folder, dirs, files in os.walk(top):
        dirs[:] = sorted(d for d in dirs if d not in ("out", "target", ".git", "landings"))
        for name in sorted(files):
            path = os.path.join(folder, name)
            turn = None
            if "/crates/" in path and name.endswith(".antt"):
                turn = lambda t: antt(t, path)
            elif "/crates/" in path and name.endswith(".rt"):
                turn = rt
            elif "/crates/" in path and name.endswith(".edit"):
                turn = edit
            elif name.endswith(".md") and name not in ("PORT.md",):
                turn = page
            if not turn:
                continue
            with open(path, encoding="utf-8") as f:
                old = f.read()
            new = turn(old)
            if new != old:
                with open(path, "w", encoding="utf-8") as f:
                    f.write(new)


if __name__ == "__main__":
    main(os.path.realpath(sys.argv[1] if len(sys.argv) > 1 else "."))

#!/usr/bin/env python3
"""Names that nothing uses, which the check does not tell.

    tools/unused.py                everything below crates/: names that a file brings in by `use` and does not use, and what a file of
                                   specs/, proofs/ or src/ declares and nothing leads to
    tools/unused.py FILE...        only what these files bring in and do not use
    tools/unused.py --fix FILE...  takes that out

What is there for its own sake, and all that it names, is in use: the theorems that docs/STATEMENTS.md lists, what contracts name, the
proofs that the check asks for, files of examples and controls, and of the code programs and what C calls. A guess from the text: prove
afterwards. Exit status 1: something was found.
"""
import os
import re
import sys

TOOLS = os.path.dirname(os.path.abspath(__file__))
sys.path[:0] = [TOOLS]
from specification_page import statements  # noqa: E402
from specification_page.scope import words_of  # noqa: E402
from specification_page.source import BLOCK, SIGNATURE, paths_used, tokens_of  # noqa: E402

GROUP = re.compile(r"^((?:ghost )?use )([^\s{;:]+)\.\{([^}]*)\}(;?)\n", re.M)
CODE_USE = re.compile(r"^use [^;]*;\n", re.M)
TRAITS = (("std", "io", "Read"),)  # brought in for their methods, which no text tells

# ---- what a file brings in


def is_used(name, code, words):
    name = name.split(" as ")[-1].strip()
    if name == "[]":
        return name in code
    if "◌" in name:  # an operator: each of its words stands somewhere
        return all(any(part in word for word in words) for part in words_of(name))
    return name in words


def without_unused(name, text):
    code = GROUP.sub("", text)
    code = re.sub(r"(--|//)[^\n]*", "", CODE_USE.sub("", code) if name.endswith(".rt") else code)
    words = set(re.split(r"[\s()\[\]{};,.]+", code))
    found = []

    def group(match):
        names = [n.strip() for n in match.group(3).split(",") if n.strip()]
        kept = [n for n in names if is_used(n, code, words)]
        found.extend(n for n in names if n not in kept)
        return f"{match.group(1)}{match.group(2)}.{{{', '.join(kept)}}}{match.group(4)}\n" if kept else ""

    def code_use(match):
        paths = paths_used(match.group())
        kept = [path for path in paths if tuple(path) in TRAITS or re.search(rf"\b{path[-1]}\b", code)]
        found.extend("::".join(path) for path in paths if path not in kept)
        return match.group() if len(kept) == len(paths) else "".join(f"use {'::'.join(path)};\n" for path in kept)

    text = GROUP.sub(group, text)
    if name.endswith(".rt"):
        text = CODE_USE.sub(code_use, text)
    return text, found


def brought_in(names, root="", fix=False):
    """A message for each file that brings in what it does not use."""
    for name in names:
        path = os.path.join(root, name)
        after, found = without_unused(name, read(path))
        if found:
            yield f"{name}: brought in and not used: {', '.join(found)}"
            if fix:
                with open(path, "w", encoding="utf-8") as file:
                    file.write(after)


def read(name):
    with open(name, encoding="utf-8") as file:
        return file.read()


# ---- what is declared

# Files, and names in others, that are there to be checked by themselves.
EXAMPLES = re.compile(r"/(Examples|Controls|Worlds|Schedules|Starred|Refuted)\.antt$")
CONTROLS = {("crates/rules_promises/proofs/RoundsExist.antt", "wrong_rules_show")}
MODULE = re.compile(r"Rattle\.(\w+)\.(specs|proofs)\.(\S+)")
ASKED = re.compile(r"/proofs/.+/(Answers|Invariants|Proof)\.antt$")  # of a function, what the check asks for
ITEM = re.compile(r"(?:pub )?(?:extern \"C\" )?(struct|enum|const|fn) (\w+)")
PATH = re.compile(r"\b(?:[a-z_][a-z0-9_]*::)+\w+")


class Declared:
    """A declaration: where it stands, and the words of its text."""

    def __init__(self, path, name, line, text="", block=False, public=False):
        self.path, self.name, self.line, self.text, self.block, self.public = path, name, line, text, block, public
        self.root = False

    def __str__(self):
        return f"{self.path}:{self.line}: {self.name}"


def declarations(path, text):
    """Those of an .antt file, those in modules of it too; the header of a module belongs to each declaration in it."""
    found, current = [], None
    modules, header = [(0, "")], None  # how far in what a module holds stands, and its header
    for number, line in enumerate(text.split("\n"), 1):
        line = re.sub(r"(^|\s)--.*", "", line).rstrip()
        bare = line.strip()
        indent = len(line) - len(bare)
        if not bare or bare.startswith(("use ", "mod ", "pub mod ", "infix")):
            continue
        if header is None:
            while indent < modules[-1][0]:
                modules.pop()
        elif header.endswith("where"):
            modules.append((indent, header))
            header = None
        inside = indent == modules[-1][0]
        if header is not None or inside and bare.startswith("module "):
            header, current = f"{header or ''} {bare}", None
            continue
        match = (BLOCK.match(bare) or SIGNATURE.match(bare)) if inside else None
        if match:
            header_text = "".join(text for _, text in modules)
            current = Declared(path, match.group(3), number, header_text, match.re is BLOCK, "pub " in bare[: match.end()])
            found.append(current)
        if current:
            current.text += "\n" + line
    return found


def constructors(declared):
    """The cases of a data type, which bring it into use."""
    if declared.block:
        return re.findall(r"^\s+(?:pub )?([^\s(){}.;,@\"]+) :", declared.text, re.M)
    return []


class Proofs:
    """All declarations of specs/ and proofs/, and which of them lead to which."""

    def __init__(self, root):
        self.root = root
        self.files = {path: read(os.path.join(root, path)) for path in listed(root, ".antt")}
        self.declared = {path: declarations(path, text) for path, text in self.files.items()}
        self.here = {path: self.names_of(path) for path in self.files}  # what the words of a file mean
        self.brought = {path: self.names_brought(text) for path, text in self.files.items()}

    def names_of(self, path):
        names = {}
        for one in self.declared[path]:
            for name in [one.name] + constructors(one):
                names.setdefault(name, []).append(one)
        return names

    def names_brought(self, text):
        """By word: declarations of other files. A module with a name of its own, `use M as N`, brings `N.name`."""
        names = {}
        for module, inside in re.findall(r"^(?:ghost )?use ([^\s{;]+)\.\{([^}]*)\}", text, re.M):
            for part in filter(str.strip, inside.split(",")):
                name, _, other = part.strip().partition(" as ")
                names[(other or name).strip()] = self.of(module).get(name.strip(), [])
        for module, other in re.findall(r"^use (\S+) as (\S+)$", text, re.M):
            names.update({f"{other}.{name}": found for name, found in self.of(module).items()})
        return names

    def of(self, module):
        match = MODULE.fullmatch(module)
        path = f"crates/{match.group(1)}/{match.group(2)}/{match.group(3).replace('.', '/')}.antt" if match else ""
        return self.here.get(path) or (self.names_of(path) if path in self.files else {})

    def named(self, one):
        """The declarations that the text of one names."""
        words = set()
        last = ""
        for token in tokens_of(one.text):
            words.add(token.text.strip("«»"))
            if token.kind == "field":
                words.add(last + token.text)
            last = token.text
        here, brought = self.here[one.path], self.brought[one.path]
        for names in (here, brought):
            for name, found in names.items():
                if all(part in words for part in words_of(name)):
                    yield from found

    def roots(self, theorems):
        """What is there for its own sake."""
        stated = CONTROLS | {(f"crates/{path}.antt", name) for name, path, *_ in theorems}
        contracts = [self.names_brought(read(os.path.join(self.root, path))) for path in listed(self.root, ".rt")]
        yield from (one for names in contracts for found in names.values() for one in found)
        for path, found in self.declared.items():
            for one in found:
                if EXAMPLES.search(path) or one.public and ASKED.search(path) or (path, one.name) in stated:
                    yield one

    def unused(self, theorems):
        reached = set()
        todo = list(self.roots(theorems))
        while todo:
            one = todo.pop()
            if one not in reached:
                reached.add(one)
                todo += self.named(one)
        return [one for found in self.declared.values() for one in found if one not in reached]


def code_items(path, text):
    """Those of an .rt file: each begins at the left edge."""
    found, marked = [], False
    for number, line in enumerate(text.split("\n"), 1):
        line = re.sub(r"//.*", "", line)
        match = ITEM.match(line)
        if match:
            found.append(Declared(path, match.group(2), number))
            found[-1].root = marked or match.group(2) == "main"
        elif re.match(r"\w", line):  # a `use`, a `mod`
            continue
        marked = line.startswith("#[unsafe(no_mangle)]") or marked and not match
        if found:
            found[-1].text += line + "\n"
    return found


def unused_code(root):
    """Structs, enums, constants and functions that neither a program nor C leads to, nor a definition or proof names."""
    files = {path: read(os.path.join(root, path)) for path in listed(root, ".rt")}
    items = {path: code_items(path, text) for path, text in files.items()}
    crates = {}
    for path, found in items.items():
        crates.setdefault(path.split("/")[1], []).extend(found)
    proofs = "\n".join(read(os.path.join(root, path)) for path in listed(root, ".antt"))
    named_by_proofs = re.findall(r"Rattle\.(\w+)\.specs\.declared\.([\w.]+)", proofs)
    declared = {(crate, name) for crate, path in named_by_proofs for name in path.split(".")}

    def named(one):
        """In its own crate by the word, in another by the path to it; a `use` may have brought in its last part or its first."""
        own, words = one.path.split("/")[1], set(re.findall(r"\w+", one.text))
        yield from (other for other in crates[own] if other.name in words)
        brought = {path[-1]: "::".join(path) for path in paths_used(files[one.path])}
        paths = [brought[word] for word in words & set(brought)]
        for path in PATH.findall(one.text):
            first, rest = path.split("::", 1)
            paths.append(f"{brought.get(first, first)}::{rest}")
        for path in paths:
            yield from (other for other in crates.get(path.split("::")[0], []) if other.name == path.split("::")[-1])

    every = [one for found in items.values() for one in found]
    todo = [one for one in every if one.root or (one.path.split("/")[1], one.name) in declared]
    reached = set()
    while todo:
        one = todo.pop()
        if one not in reached:
            reached.add(one)
            todo += named(one)
    return [one for one in every if one not in reached]


def listed(root, ending):
    """Those of src/, specs/ and proofs/; what a check keeps in a crate's out/ is none."""
    found = []
    for crate in os.listdir(os.path.join(root, "crates")):
        for part in ("src", "specs", "proofs"):
            for folder, _, names in os.walk(os.path.join(root, "crates", crate, part)):
                found += [os.path.relpath(os.path.join(folder, name), root) for name in names if name.endswith(ending)]
    return sorted(found)


def theorems_of(root):
    with open(os.path.join(root, statements.PAGE), encoding="utf-8") as page:
        return statements.theorems(page.read())


def everything(root):
    """A message for each thing below crates/ that nothing uses."""
    yield from brought_in(listed(root, ".antt") + listed(root, ".rt"), root)
    for one in Proofs(root).unused(theorems_of(root)) + unused_code(root):
        yield f"{one}: nothing uses it"


def main():
    words = sys.argv[1:]
    fix = words[:1] == ["--fix"]
    found = brought_in(words[1:] if fix else words, fix=fix) if words else everything(os.path.dirname(TOOLS))
    status = 0
    for message in found:
        print(message)
        status = 1
    return status


if __name__ == "__main__":
    sys.exit(main())

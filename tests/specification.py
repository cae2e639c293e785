#!/usr/bin/env python3
"""Tests tools/specification: that the page is whole, that its links lead somewhere, that docs/STATEMENTS.md says what it shows, and that
tool and test fail where they should.

    tests/specification.py FOLDER    an empty folder to work in

It reads definitions, code and papers by itself: nothing of tools/ is used but the page.
"""
import os
import re
import shutil
import subprocess
import sys
from collections import Counter
from functools import lru_cache
from html.parser import HTMLParser
from urllib.parse import unquote

ROOT = os.path.dirname(os.path.dirname(os.path.abspath(__file__)))
CONTRACTS = ["rules_routine", "book_layout", "book_read", "book_write", "book_copy", "hub", "line", "line_c", "line_parts", "line_hints"]
CHAPTERS = ["reading", "refusals", "book", "rules", "order", "serial", "world", "demand-3", "waiting", "lines", "running", "contracts",
            "values", "examples", "parts"]
TEXTS = ("code", "marked", "kind", "said", "first")
SIGNS = {"i": ("-- ", "-- ", ""), "a": ("", "⟪", "⟫"), "b": ("", "⟪", "⟫")}  # a tag's sign in plain text, and in marked text
USE = re.compile(r"^(?:ghost )?use Rattle\.(?!std\.)(\w+)\.(specs|proofs)\.([^\s{]+)\.\{([^}]*)\}", re.M)
WORD = r"[^\s(){}.;,@\"«»]+"
STATEMENTS, DECISIONS = "docs/STATEMENTS.md", "docs/DECISIONS.md"


def read(root, path):
    with open(os.path.join(root, path), encoding="utf-8") as file:
        return file.read()


# ---- the page


class Page(HTMLParser):
    """The page's tags, ids and links; for each block of class d the links of its code and its text, once with links in ⟪⟫, and its first
    paragraph."""

    def __init__(self, text):
        super().__init__(convert_charrefs=True)
        self.problems, self.stack, self.ids, self.links, self.blocks, self.order = [], [], [], [], {}, []
        for found in re.finditer(r"&(?!(?:amp|lt|gt|quot|#x27);)|<(?!/?[a-z][a-z0-9]*[\s>]|!DOCTYPE)", text):
            self.problems.append(f"not escaped: {text[found.start() : found.start() + 40]!r}")
        self.feed(text)
        self.close()
        self.problems += [f"<{tag}> is not closed" for tag, _ in self.stack]

    def block(self):
        return next((b for _, b in reversed(self.stack) if b is not None), None)

    def handle_starttag(self, tag, attrs):
        attrs = dict(attrs)
        block = None
        if "id" in attrs:
            self.ids.append(attrs["id"])
        if "d" in attrs.get("class", "").split():
            block = self.blocks[attrs["id"]] = {"classes": attrs["class"].split(), "links": set(), "pairs": []} | dict.fromkeys(TEXTS, "")
            block["paragraphs"] = 0
            self.order.append(attrs["id"])
        if "href" in attrs:
            self.links.append(attrs["href"])
            if self.in_code():
                self.block()["links"].add(unquote(attrs["href"][1:]))
                self.block()["pairs"].append([unquote(attrs["href"][1:]), ""])
        if tag in ("script", "link", "img", "iframe"):
            self.problems.append(f"the page has a <{tag}>")
        if tag not in ("meta",):
            self.stack.append((tag, block))
        if tag == "p" and self.block() is not None:
            self.block()["paragraphs"] += 1
        if self.in_code() and tag in SIGNS:
            self.block()["code"] += SIGNS[tag][0]
            self.block()["marked"] += SIGNS[tag][1]

    def handle_endtag(self, tag):
        if not self.stack or self.stack[-1][0] != tag:
            self.problems.append(f"</{tag}> closes {self.stack[-1][0] if self.stack else 'nothing'}, line {self.getpos()[0]}")
        else:
            if tag in SIGNS and self.in_code():
                self.block()["marked"] += SIGNS[tag][2]
            self.stack.pop()

    def in_code(self):
        return self.block() is not None and any(tag == "pre" for tag, _ in self.stack)

    def handle_data(self, data):
        if self.in_code():
            self.block()["code"] += data
            self.block()["marked"] += data
            if self.stack[-1][0] == "a":
                self.block()["pairs"][-1][1] += data
        elif self.block() is not None and self.stack[-1][0] in ("b", "span"):
            self.block()["kind" if self.stack[-1][0] == "b" else "said"] += data
        elif self.block() is not None and self.block()["paragraphs"] == 1 and any(tag == "p" for tag, _ in self.stack):
            self.block()["first"] += data

    def faults(self):
        """What is wrong with tags, ids and links."""
        known = set(self.ids)
        found = list(self.problems)
        found += [f"{name}: the id stands twice" for name, count in Counter(self.ids).items() if count > 1]
        dead = [href for href in sorted(set(self.links)) if not href.startswith("#") or unquote(href[1:]) not in known]
        return found + [f"{href}: leads nowhere" for href in dead]


# ---- what definitions and code say


def says_one_proof(text):
    """Whether all that a file declares are lemmas that a fact has one proof at most: they are cited by types, and not on the page."""
    found = declarations(text)
    return bool(found) and all(one["mark"] == "theorem" and re.search(r"→ IsProp \([^()]*\)$", signature(one)) for one in found)


def spec_files(root):
    for crate in sorted(os.listdir(os.path.join(root, "crates"))):
        folder = os.path.join(root, "crates", crate, "specs")
        for name in sorted(os.listdir(folder)) if os.path.isdir(folder) else []:
            if name.endswith(".antt") and name != "Lib.antt" and not says_one_proof(read(root, f"crates/{crate}/specs/{name}")):
                yield crate, name[:-5]


@lru_cache(maxsize=None)
def declarations(text):
    """Name, mark and text of each declaration, in the file's order."""
    found, current = [], None
    for line in text.split("\n"):
        match = re.match(rf"((?:unfoldable |abbrev )*)(pub )?(?:(record|data) ({WORD})|({WORD})(?: \{{[^}}=]*\}})? :(?: |$))", line)
        if line.startswith("--") or re.match(r"use |pub mod |module |infix", line):
            current = None
        elif match and not line[:1].isspace():
            name = match.group(4) or match.group(5)
            mark = match.group(3) or match.group(1).strip() or "theorem"
            current = {"name": name, "mark": mark, "public": bool(match.group(2)), "lines": [line]}
            found.append(current)
        elif current is not None:
            current["lines"].append(line)
    return found


def signature(declaration):
    lines = declaration["lines"]
    end = next((n for n, line in enumerate(lines) if n and line[:1].strip()), len(lines))
    return "\n".join(lines[:end])


def own_names(prefix, text):
    """Names that a file defines, constructors too, with their ids."""
    found = {}
    for declaration in declarations(text):
        found[declaration["name"]] = f"{prefix}.{declaration['name']}"
        if declaration["mark"] == "data":
            for name in re.findall(rf"^  ({WORD}) :", "\n".join(declaration["lines"]), re.M):
                found[name] = f"{prefix}.{declaration['name']}.{name}"
    return found


def uses(text):
    """Names that a file brings in from definitions and declared values: the name here, and its id on the page."""
    found = {}
    for crate, part, rest, names in USE.findall(text):
        for entry in names.split(","):
            name, _, other = entry.strip().partition(" as ")
            found[other or name] = crate, part, rest, name
    return found


@lru_cache(maxsize=None)
def place(root, crate, part, rest, name):
    """The id of such a name. A constructor's stands below that of its data type."""
    if rest.startswith("declared."):
        path = rest[9:].removesuffix(".TheVariants")
        return f"code.{crate}.{path}" + (f".{name}" if rest.endswith(".TheVariants") else "")
    prefix = f"{crate}.{rest}" if part == "specs" else f"{crate}.proofs.{rest}"
    text = read(root, f"crates/{crate}/{part}/{rest}.antt")
    owner = None
    for declaration in declarations(text):
        if declaration["name"] == name:
            return f"{prefix}.{name}"
        if declaration["mark"] == "data" and re.search(rf"^  {re.escape(name)} :", "\n".join(declaration["lines"]), re.M):
            owner = declaration["name"]
    return f"{prefix}.{owner}.{name}"


def parts_of(name):
    """The words by which a name is used: an operator has several."""
    return [part for part in name.split("◌") if part]


def words_in(text):
    """The words of a text but comments, quoted texts, fields behind a dot and labels of records."""
    text = re.sub(r'--[^\n]*|"(?:[^"\\]|\\.)*"', "", text)
    return set(re.findall(WORD, re.sub(rf"\.{WORD}|(?<=[{{;])\s*{WORD} =|^  (?:pub )?{WORD} :", " ", text, flags=re.M)))


def named_theorems(root):
    """The theorems that STATEMENTS and TRUST name."""
    proved = {}
    for crate in os.listdir(os.path.join(root, "crates")):
        for part in ("proofs", "specs"):
            folder = os.path.join(root, "crates", crate, part)
            for name in [n for n in os.listdir(folder) if n.endswith(".antt")] if os.path.isdir(folder) else []:
                for found, kind in re.findall(r"^pub (\S+) :[ \n]+(.*)$", read(root, f"crates/{crate}/{part}/{name}"), re.M):
                    proved.setdefault(found, set()).add(kind)
    words = set(re.findall(r"`([^`\n]+)`", read(root, STATEMENTS) + read(root, "docs/TRUST.md")))
    return {w for w in words if w in proved and (re.search("[_-]", w) or any(re.fullmatch(r"[A-Z]\w+", kind) for kind in proved[w]))}


def listed_theorems(text):
    """The theorems that STATEMENTS lists: name, the files of its proof and of the definitions, and its sentence."""
    groups = re.split(r"^About `([^`]*)`, proved in `([^`]*)`:\n\n", text, flags=re.M)[1:]
    found = []
    for about, proof, rest in zip(groups[::3], groups[1::3], groups[2::3]):
        for name, said in re.findall(r"^- `([^`]*)`: (.*(?:\n  .*)*)", re.split(r"\n(?![- ])", rest)[0], re.M):
            found.append((name, proof, about, re.sub(r"\s+", " ", said.replace("`", ""))))
    return found


@lru_cache(maxsize=None)
def words_of_crates(root):
    """Every word of definitions and code."""
    found = set()
    for crate in os.listdir(os.path.join(root, "crates")):
        for part in ("specs", "src"):
            folder = os.path.join(root, "crates", crate, part)
            for name in os.listdir(folder) if os.path.isdir(folder) else []:
                found |= set(re.findall(r"[\w-]+", read(folder, name)))
    return found


# ---- the checks: each gives what is wrong


def check_definitions(root, page):
    """Each definition of specs/ is there once, in its file's order, with its whole text; what it uses is there, and linked."""
    found, count = [], 0
    for crate, file in spec_files(root):
        text = read(root, f"crates/{crate}/specs/{file}.antt")
        used = {name: place(root, *target) for name, target in uses(text).items()}
        missing = {name: target for name, target in used.items() if target not in page.known}
        found += [f"{crate}/{file} uses {name}, and {target} is not on the page" for name, target in missing.items()]
        own = own_names(f"{crate}.{file}", text)
        names = []
        for declaration in declarations(text):
            count += 1
            names.append(f"{crate}.{file}.{declaration['name']}")
            block = page.blocks.get(names[-1])
            if block is None:
                found.append(f"{names[-1]} is not on the page")
                continue
            source = signature(declaration) if declaration["mark"] == "theorem" else "\n".join(declaration["lines"])
            found += compare(names[-1], source, block["code"])
            others = {name: target for name, target in own.items() if not target.startswith(names[-1])}
            found += unlinked(names[-1], source, used | others, block) + bound_and_linked(names[-1], block["marked"])
            found += misled(names[-1], used, block)
        shown = [name for name in page.order if name in set(names)]
        if shown != names:
            found.append(f"{crate}/{file}: the definitions stand in another order, or twice")
    return found, count


def compare(name, source, shown):
    plain = lambda text: re.sub(r"\s+", " ", re.sub(r"--\s*", "-- ", text).replace("`", "")).strip()
    shown = re.sub(r"^infix[^\n]*\n", "", shown)
    return [] if plain(source) == plain(shown) else [f"{name}: another text than the file's:\n{source}\n{shown}"]


def unlinked(name, source, used, block):
    """Names that the text has from elsewhere, and no link to them. `(x : A)` and `f x =` bind another x, unless x is a constructor."""
    words = words_in(source)
    bound = set(" ".join(re.findall(rf"[({{]((?:{WORD} )+):", source)).split())
    heads = words_in("\n".join(re.findall(r"^\S[^\n=]* = ", source, re.M)))
    bound |= {here for here, target in used.items() if here in heads and target.count(".") == 2}
    return [f"{name}: no link to {target}" for here, target in used.items()
            if all(part in words for part in parts_of(here)) and here not in bound and target not in block["links"]]


def misled(name, used, block):
    """Links that lead to a thing of another name than they show; `as` gives one."""
    found = []
    for target, word in block["pairs"]:
        last = target.split(".")[-1]
        if word.strip("«»") != last and word not in parts_of(last) and target not in [t for n, t in used.items() if word in parts_of(n)]:
            found.append(f"{name}: {word} leads to {target}")
    return found


def bound_and_linked(name, marked):
    """Names that a clause, a λ or `(x : A)` binds, and links on them all the same. A record's label may have the name of its value."""
    found, clauses = [], [[]]
    for line in re.sub(r"--[^\n]*", "", marked).split("\n"):
        if line[:1].strip() and line[0] not in "})":
            clauses.append([])
        clauses[-1].append(line)
    for clause in ("\n".join(lines) for lines in clauses):
        head, _, body = clause.partition(" =") if not re.match(r"[^=]* :\s", clause) else ("", "", clause)
        bound = words_in(re.sub(r"⟪[^⟫]*⟫", "", head))
        for names, others in re.findall(rf"[({{]((?:{WORD} )+):|λ ([^.()]*)\.", body):
            bound |= set(names.split() + others.split())
        linked = set(re.findall(r"(?<!\.)⟪([^⟫]*)⟫(?! =)", body))
        found += [f"{name}: a link on {word}, which is bound there" for word in sorted(linked & bound)]
    return found


def check_theorems(root, page):
    """The theorems shown are in their files, said whole and without proof; none that the papers name is missing; no lemma is shown."""
    found, names = [], set()
    for name, block in page.blocks.items():
        if block["kind"] == "Theorem":
            names.add(name.split(".")[-1])
    found += [fault for name, block in page.blocks.items() if "t" in block["classes"] for fault in misplaced(root, name, block)]
    found += [f"STATEMENTS or TRUST names the theorem {name}, and it is not on the page" for name in sorted(named_theorems(root) - names)]
    for name, block in page.blocks.items():
        if ".proofs." not in name:
            continue
        crate, _, file, short = name.split(".", 3)
        text = read(root, f"crates/{crate}/proofs/{file}.antt")
        declaration = next((d for d in declarations(text) if d["name"] == short), None)
        if declaration is None:
            found.append(f"{name}: there is no such thing in proofs/")
        elif declaration["mark"] == "theorem" and block["kind"] != "Theorem":
            found.append(f"{name} is a lemma, and on the page")
        else:
            source = signature(declaration) if declaration["mark"] == "theorem" else "\n".join(declaration["lines"])
            found += compare(name, source, block["code"])
            cited = {n: t for n, t in uses(text).items() if all(part in words_in(source) for part in parts_of(n))}
            found += unlinked(name, source, {n: place(root, *t) for n, t in cited.items()}, block)
    return found, len(names)


def misplaced(root, name, block):
    """A theorem or example stands at the place that is told."""
    file, line = re.fullmatch(r"(?:Proved|Computed) in (\S+), line (\d+)", block["said"]).groups()
    there = read(root, file).split("\n")[int(line) - 1]
    return [] if re.match(rf"(?:pub )?{re.escape(name.split('.')[-1])} :", there) else [f"{name} is not at {file}, line {line}"]


def check_statements(root, page, text):
    """STATEMENTS lists the theorems of the page, each with its file and its sentence; what else it names is there."""
    shown = {}
    for name, block in page.blocks.items():
        if block["kind"] == "Theorem":
            crate, *rest = name.split(".")
            proof = f"crates/{crate}/proofs/{rest[1]}.antt" if rest[0] == "proofs" else f"crates/{crate}/specs/{rest[0]}.antt"
            shown[rest[-1]] = proof, re.sub(r"\s+", " ", block["first"]).strip()
    listed = {name: (proof, said) for name, proof, _, said in listed_theorems(text)}
    found = [f"{STATEMENTS} lacks the theorem {name}" for name in shown if name not in listed]
    found += [f"{STATEMENTS} lists {name}, which is no theorem of the page" for name in listed if name not in shown]
    found += [f"{STATEMENTS} says of {name}: {listed[name]}; the page: {shown[name]}"
              for name in shown if name in listed and shown[name] != listed[name]]
    words = set(re.findall(r"`([^`\n]+)`", text)) - {"specs/", "proofs/", "src/", "src/lib.rt"} - set(listed)
    files = {word for word in words if "/" in word}
    gone = [file for file in sorted(files) if not os.path.exists(os.path.join(root, file))]
    found += [f"{STATEMENTS} names {file}, and there is no such file" for file in gone]
    unknown = sorted(words - files - words_of_crates(root))
    return found + [f"{STATEMENTS} names {word}, which neither definitions nor code have" for word in unknown]


def check_decisions(text):
    """DECISIONS has each number once, under the subject that its last section names."""
    body, _, index = text.partition("## Where a number stands\n")
    stands = {}
    for subject, part in re.findall(r"^## ([^\n(]*?)(?: \([^\n]*\))?\n(.*?)(?=^## |\Z)", body, re.M | re.S):
        for number, other in re.findall(r"(?:^|; )(?:\*\*(\d+)\. |(\d+): (?:see|superseded by) )", part, re.M):
            stands.setdefault(int(number or other), []).append(subject)
    named = {}
    for first, last, subject in re.findall(r"(\d+)(?:(?: to |, )(\d+))? \*([^*]*)\*", " ".join(index.split())):
        named |= dict.fromkeys(range(int(first), int(last or first) + 1), subject)
    found = [f"DECISIONS has {number} {len(subjects)} times" for number, subjects in stands.items() if len(subjects) > 1]
    found += [f"DECISIONS has no {number}" for number in range(1, max(stands) + 1) if number not in stands]
    return found + [f"DECISIONS has {number} under {subjects[0]}, and its last section says {named.get(number)}"
                    for number, subjects in stands.items() if named.get(number) != subjects[0]]


def check_rooms(crates, text):
    """ARCHITECTURE has a row for each crate, once, and no other; a crate's name begins with a layer's."""
    crates = re.findall(r"^(\w+)[^:#\n]*:", crates, re.M)
    rows = Counter(name for first in re.findall(r"^\| (`[^|]*) \|", text.partition("## The way of a line")[0], re.M)
                   for name in re.findall(r"`(\w+)`", first))
    layers = re.findall(r"^\*\*(\w+)\*\*: ", text, re.M)
    found = [f"ARCHITECTURE has {rows[crate]} rows for the crate {crate}" for crate in crates if rows[crate] != 1]
    found += [f"ARCHITECTURE has a row for {crate}, which is no crate" for crate in rows if crate not in crates]
    return found + [f"{crate} begins with no layer's name" for crate in crates if crate.split("_")[0] not in layers]


def check_values(root, page):
    """What is shown of the code stands in it."""
    found = []
    for name, block in page.blocks.items():
        if name.startswith("code."):
            crate = name.split(".")[1]
            folder = os.path.join(root, "crates", crate, "src")
            texts = [read(folder, file).replace("//", "-- ") for file in os.listdir(folder)]
            shown = re.sub(r"\s+", " ", block["code"]).strip()
            if not any(shown in re.sub(r"\s+", " ", text) for text in texts):
                found.append(f"{name}: another text than the code's")
    return found


def contract_heads(text):
    """Each public function's name, and its text up to its body."""
    for start in re.finditer(r'^pub (?:extern "C" )?fn (\w+)', text, re.M):
        yield start.group(1), text[start.start() : text.index("\n{", start.start())]


def check_contracts(root, page):
    """Each public function is there with its contract, and each definition that the contract cites is linked."""
    found, count = [], 0
    for crate in CONTRACTS:
        if not os.path.isdir(os.path.join(root, "crates", crate)):
            continue
        for module in ["lib", *re.findall(r"^pub mod (\w+);", read(root, f"crates/{crate}/src/lib.rt"), re.M)]:
            text = read(root, f"crates/{crate}/src/{module}.rt")
            used = {name: place(root, *target) for name, target in uses(text).items()}
            for name, head in contract_heads(text):
                count += 1
                here = f"call.{crate}.{name}" if module == "lib" else f"call.{crate}.{module}.{name}"
                if here not in page.blocks:
                    found.append(f"{here} is not on the page")
                else:
                    found += compare(here, head, page.blocks[here]["code"])
                    found += unlinked(here, head, used, page.blocks[here]) + misled(here, used, page.blocks[here])
    return found, count


def check(root, text, papers=None):
    """What is wrong with the page and the papers, some of which may be given; and what was counted."""
    page = Page(text)
    paper = lambda path: (papers or {}).get(path) or read(root, path)
    page.known = set(page.ids)
    faults = page.faults()
    if [name[8:] for name in page.ids if name.startswith("chapter-")] != CHAPTERS:
        faults.append("the chapters stand in another order")
    definitions, count = check_definitions(root, page)
    theorems, proved = check_theorems(root, page)
    contracts, calls = check_contracts(root, page)
    contracts += check_values(root, page) + check_statements(root, page, paper(STATEMENTS))
    contracts += check_decisions(paper(DECISIONS)) + check_rooms(paper("crates.txt"), read(root, "docs/ARCHITECTURE.md"))
    said = f"{count} definitions and examples, {proved} theorems, {calls} contracts, {len(page.links)} links, {len(page.ids)} places"
    return faults + definitions + theorems + contracts, said


# ---- that tool and test fail where they should


def copy_tree(root, to):
    for crate in os.listdir(os.path.join(root, "crates")):
        for part in ("specs", "proofs", "src"):
            folder = os.path.join(root, "crates", crate, part)
            if os.path.isdir(folder):
                shutil.copytree(folder, os.path.join(to, "crates", crate, part))
    shutil.copytree(os.path.join(root, "tools"), os.path.join(to, "tools"), ignore=shutil.ignore_patterns("__pycache__"))
    os.mkdir(os.path.join(to, "docs"))
    for file in ("crates.txt", STATEMENTS):
        shutil.copy(os.path.join(root, file), os.path.join(to, file))


def made(root, out):
    """Runs the tool of this tree: its status and what it says."""
    run = subprocess.run([os.path.join(root, "tools", "specification"), out], capture_output=True, text=True)
    return run.returncode, run.stdout + run.stderr


def edited(tree, path, old, new):
    """The file with a part changed, which has to be there; gives what it was."""
    before = read(tree, path)
    assert old in before, f"{path}: {old}"
    with open(os.path.join(tree, path), "w", encoding="utf-8") as file:
        file.write(before.replace(old, new, 1))
    return before


def restore(tree, path, text):
    with open(os.path.join(tree, path), "w", encoding="utf-8") as file:
        file.write(text)


EDITS = [  # what is changed, and what the tool then says
    ("crates/rules_routine/specs/Limits.antt", "abbrev pub max_sequence : ℕ\nmax_sequence = 16\n", "", "`max_sequence`"),
    ("crates/rules_promises/proofs/Theorem.antt", "pub demand_3 : Statement", "pub demand_three : Statement", "`demand_3`"),
    ("crates/rules/specs/Due.antt", "due s d = after_members d", "due s d = after_all d", "`after_all`"),
    ("crates/rules_routine/src/lib.rt", "pub struct Command {", "pub struct Order {", "`Command`"),
    ("docs/STATEMENTS.md", "- `demand_3`: ", "- `demand_4`: ", "`demand_4`"),
    ("docs/STATEMENTS.md", "- `replay`: ", "- `demand_3`: ", "`demand_3` twice"),
    ("docs/STATEMENTS.md", "- `replay`: ", "- replay: ", "no theorem with what it says"),
    ("docs/STATEMENTS.md", "About `crates/rules/specs/Replay.antt`, proved", "About `Replay.antt`, proved", "no such group"),
]


def must_fail(root, scratch):
    tree, out = os.path.join(scratch, "tree"), os.path.join(scratch, "wrong.html")
    copy_tree(root, tree)
    for path, old, new, says in EDITS:
        before = edited(tree, path, old, new)
        status, said = made(tree, out)
        assert status == 1 and says in said, f"{path}, changed: the tool ends with {status} and says {said}"
        assert not os.path.exists(out), f"{path}, changed: the tool wrote a page"
        restore(tree, path, before)
    os.rename(os.path.join(tree, "crates/rules/specs/World.antt"), os.path.join(tree, "World"))
    status, said = made(tree, out)
    assert status == 1 and "World" in said, f"without World.antt the tool ends with {status} and says {said}"
    os.rename(os.path.join(tree, "World"), os.path.join(tree, "crates/rules/specs/World.antt"))
    lemmas = "crates/hub_state/specs/Props.antt"
    before = read(tree, lemmas)
    restore(tree, lemmas, before + "\nabbrev pub extra : ℕ\nextra = 7\n")
    status, said = made(tree, out)
    assert status == 1 and "IsProp" in said, f"a definition beside the lemmas of {lemmas}: the tool ends with {status} and says {said}"
    restore(tree, lemmas, before)
    extra = "-- A file in no list. Assumes nothing.\nuse Rattle.std.specs.Prelude.{ℕ}\n\nabbrev pub extra : ℕ\nextra = 7\n"
    restore(tree, "crates/rules/specs/Extra.antt", extra)
    status, said = made(tree, out)
    assert status == 0 and 'id="rules.Extra.extra"' in read("", out), f"a new file is not on the page: {said}"


WRONG = [  # small pages, and what the test says of them
    ('<p id="a"><a href="#b">b</a></p>', "leads nowhere"),
    ('<p><a href="http://elsewhere/">b</a></p>', "leads nowhere"),
    ('<p id="a"></p><p id="a"></p>', "stands twice"),
    ("<p><b>a</p></b>", "closes"),
    ("<p>", "is not closed"),
    ("<p>a & b</p>", "not escaped"),
    ("<p>a < b</p>", "not escaped"),
    ("<p><script>a</script></p>", "has a <script>"),
]
HARM = [  # changes of the page, and what the test says of them
    (r'id="rules_routine\.Limits\.max_sequence"', 'id="rules_routine.Limits.most"', "rules_routine.Limits.max_sequence is not on the page"),
    (r'<div class="d t" id="rules_promises\.proofs\.Theorem\.demand_3">.*?</div>\n', "", "theorem demand_3, and it is not"),
    (r'<a href="#rules\.Due\.due">due</a>', "due", "no link to rules.Due.due"),
    (r'(id="rules_promises\.proofs\.Theorem\.replay"><b>)Theorem', r"\1Lemma", "replay is a lemma"),
    (r"(<dfn>|<b>)max_devices(</dfn>|</b>) = 32", "max_devices = 33", "another text than the file's"),
    (r'(has_set</b>.*?λ x\..*?</a> d )x ', r'\1<a href="#rules.State.Step">x</a> ', "a link on x, which is bound there"),
    (r"(Proved in crates/rules_promises/proofs/Theorem\.antt, line )\d+", r"\g<1>1",
     "is not at crates/rules_promises/proofs/Theorem.antt, line 1"),
    (r"enum <b>Refusal</b>", "enum <b>Refusals</b>", "code.rules_routine.refusals.Refusal: another text"),
    (r'id="chapter-(order|serial)"', lambda found: 'id="chapter-%s"' % {"order": "serial", "serial": "order"}[found[1]], "another order"),
    (r'href="#rules\.State\.Member\.steps"', 'href="#rules.State.Member.id"', "steps leads to rules.State.Member.id"),
    (r'id="call\.hub\.submit"', 'id="call.hub.submits"', "call.hub.submit is not on the page"),
]


AMISS = [  # changes of docs/STATEMENTS.md, and what the test says of them
    ("- `any_order`: From every hub", "- `any_order`: From some hub", "says of any_order"),
    ("- `rounds_exist`: ", "- rounds_exist: ", "lacks the theorem rounds_exist"),
    ("- `told-is-held`: ", "- `told-is-kept`: ", "lists told-is-kept, which is no theorem"),
    ("proved in `crates/hub/proofs/Links.antt`", "proved in `crates/hub/proofs/Theorem.antt`", "says of links_are_the_sequence"),
    ("`crates/rules/specs/World.antt`", "`crates/rules/specs/Worlds.antt`", "there is no such file"),
    ("`number_of`", "`number_for`", "names number_for, which neither"),
]


def must_be_seen(root, text):
    """Papers that say something else than the page."""
    statements = read(root, STATEMENTS)
    for old, new, _ in AMISS:
        assert old in statements, f"{STATEMENTS}: {old}"
        statements = statements.replace(old, new)
    decisions = read(root, DECISIONS).replace("**5. ", "**4. ", 1).replace("15 to 19", "15 to 18", 1)
    crates = read(root, "crates.txt") + "\nshed: hub\n"
    faults, _ = check(root, text, {STATEMENTS: statements, DECISIONS: decisions, "crates.txt": crates})
    expected = [says for _, _, says in AMISS]
    expected += ["DECISIONS has 4 2 times", "DECISIONS has no 5", "19 under The rules, and its last section says None"]
    expected += ["0 rows for the crate shed", "shed begins with no layer's name"]
    for says in expected:
        assert any(says in fault for fault in faults), f"the test does not say: {says}; it says {faults[:9]}"
    return len(expected)


def must_show(root, text):
    for page, says in WRONG:
        faults = Page(page).faults()
        assert any(says in fault for fault in faults), f"the test does not say of {page}: {says}; it says {faults}"
    for old, new, says in HARM:
        text, count = re.subn(old, new, text, flags=re.S)
        assert count, f"nothing was changed that should show as: {says}"
    faults, _ = check(root, text)
    for _, _, says in HARM:
        assert any(says in fault for fault in faults), f"the test does not say: {says}; it says {faults[:5]}"
    return len(WRONG) + len(HARM)


def main():
    scratch = sys.argv[1]
    out = os.path.join(scratch, "specification.html")
    status, said = made(ROOT, out)
    print(said.strip())
    if status:
        return 1
    text = read("", out)
    faults, counted = check(ROOT, text)
    if faults:
        print("\n".join(faults))
        return 1
    print(f"{counted}: all there, all linked")
    shown = must_show(ROOT, text) + must_be_seen(ROOT, text)
    must_fail(ROOT, scratch)
    print(f"{len(EDITS) + 2} changed trees are refused, a new file is picked up, {shown} faults of pages and papers are seen")
    return 0


if __name__ == "__main__":
    sys.exit(main())

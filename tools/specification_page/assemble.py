"""Puts the page together: chapters, sections, theorems, contracts, values."""
import html
import re

from specification_page.book import Missing
from specification_page.frame import framed
from specification_page.library import LIBRARY
from specification_page.render import Render, escaped, link
from specification_page.scope import Definition, Scope


class Page:
    def __init__(self, book, chapters, examples, parts, contracts, values, theorems):
        self.book = book
        book.give_code_types()
        self.render = Render(book, LIBRARY)
        self.chapters, self.examples = chapters, examples
        self.parts, self.contracts, self.values = parts, contracts, values
        self.listed = {(crate, file) for *_, sections in [*self.chapters, examples] for crate, file, _ in sections}
        for crate, file in sorted(self.listed):
            if (crate, "specs", file) not in book.files:
                raise Missing(f"there is no file crates/{crate}/specs/{file}.antt")
        self.shown = {}  # place: what it is
        self.counts = {"definitions": 0, "theorems": 0, "examples": 0, "contracts": 0, "values": 0}
        self.by_name = {}
        for (_, part, _), found in book.definitions.items():
            for definition in found.values():
                self.by_name.setdefault(definition.name, []).append(definition)
        self.functions = self.public_functions()
        self.in_words = {}  # what a theorem says, by its place
        self.theorems = [self.theorem_named(*theorem) for theorem in theorems]
        self.proofs = {}  # of a statement, by its place
        for theorem, _ in self.theorems:
            self.proofs.setdefault(statement_place(theorem), []).append(theorem)
        self.contents = []  # chapters: id, title, sections
        self.glance = []  # theorems with what they say in words

    def theorem_named(self, name, path, section, words):
        crate, part, file = path.split("/")
        self.book.load(crate, part, file)
        definition = self.book.definitions[crate, part, file].get(name)
        if definition is None or definition.kind != "theorem" or not definition.item.public:
            raise Missing(f"crates/{path}.antt has no public theorem `{name}`")
        if tuple(section.split(".")) not in self.listed:
            raise Missing(f"the theorem `{name}` is to stand in {section}, which is no section")
        self.in_words[definition.place] = words
        return definition, section

    # ---- what a word between backquotes means

    def resolver(self, crate, scope, definition=None, path=None):
        """Gives the place of a word, or None. A word that is bound in the definition that it is about has none."""
        inside = set(re.findall(r"[^\s(){}.;,]+", " ".join(definition.item.lines))) if definition else set()

        def resolve(pieces, n):
            word = pieces[n]
            if definition and word in definition.members:
                return definition.members[word].place
            if definition and word in self.render.plain:
                return None
            called = [piece.rsplit("::", 1)[0] for piece in pieces[1 : n + 1 : 2] if piece in self.functions]
            target = scope.names.get(word) if scope else None
            return (self.functions.get(word) or called and self.functions.get(f"{called[-1]}::{word}")
                    or self.target_place(target) or self.theorem_place(word) or self.functions.get(f"{path}::{word}")
                    or self.section_place(crate, word, pieces[n + 1 : n + 3]) or (self.only_place(word) if word not in inside else None))

        return resolve

    def target_place(self, target):
        if target is None or target.place is None or ".proofs." in target.place:
            return None
        self.render.cited.setdefault(target.place, target)
        return target.place

    def theorem_place(self, word):
        return next((d.place for d, _ in self.theorems if d.name == word), None)

    def section_place(self, crate, word, behind):
        """Of a file's name; `of crate` behind it says of which crate."""
        match = re.fullmatch(r"(?:specs/)?(\w+)\.antt", word)
        if match and behind and behind[0] == " of crate " and len(behind) > 1:
            crate = behind[1]
        elif match and behind and behind[0].startswith(" of crates "):
            return None
        return f"section-{crate}.{match.group(1)}" if match and (crate, "specs", match.group(1)) in self.book.files else None

    def only_place(self, word):
        """Of a name with a capital or a hyphen that only one definition has."""
        found = self.by_name.get(word, []) if re.search(r"[A-Z-]", word) else []
        return found[0].place if len(found) == 1 else None

    # ---- sections

    def show(self, place, what):
        if place in self.shown:
            raise Missing(f"{place} would stand twice on the page")
        self.shown[place] = what

    def definition(self, definition):
        self.show(definition.place, definition)
        for member in definition.members.values():
            self.show(member.place, member)
        self.counts["definitions"] += 1
        proofs = self.proofs.get(definition.place, [])
        self.render.links += len(proofs)
        proved = "".join(f'<p class="proved">Proved: {link(d.place, f"<code>{d.name}</code>")}</p>' for d in proofs)
        code, prose = self.code_and_prose(definition)
        return f'<div class="d" id="{html.escape(definition.place)}">{prose}{code}{proved}</div>\n'

    def code_and_prose(self, definition):
        code = self.render.code(definition)
        crate = definition.path.split("/")[1]
        return code, self.render.prose(definition.item.comment, self.resolver(crate, definition.scope, definition))

    def theorem(self, definition):
        self.show(definition.place, definition)
        code, prose = self.code_and_prose(definition)
        line = definition.item.line
        if any(d is definition for d, _ in self.theorems):
            self.counts["theorems"] += 1
            self.glance.append((definition, self.in_words[definition.place]))
            prose = f"<p>{self.render.words(self.in_words[definition.place], None)}</p>{prose}"
            kind, place = "Theorem", f"Proved in {definition.path}, line {line}"
        else:
            self.counts["examples"] += 1
            kind, place = "By computation", f"Computed in {definition.path}, line {line}"
        return (f'<div class="d t" id="{html.escape(definition.place)}"><b>{kind}</b>{prose}{code}'
                f'<span class="place">{place}</span></div>\n')

    def section(self, crate, file, title):
        source = self.book.files[crate, "specs", file]
        scope = self.book.scopes[crate, "specs", file]
        resolve = self.resolver(crate, scope)
        here = f"section-{crate}.{file}"
        parts = [self.render.prose(source.intro, resolve)]
        for item in source.items:
            if item.kind == "heading":
                parts.append(f"<h4>{self.render.words(item.comment[0], resolve)}</h4>\n")
            elif item.kind == "text":
                parts.append(self.render.prose(item.comment, resolve))
            elif item.kind in ("definition", "record", "data"):
                parts.append(self.definition(self.book.definitions[crate, "specs", file][item.name]))
            elif item.kind == "theorem":
                parts.append(self.theorem(self.book.definitions[crate, "specs", file][item.name]))
        parts += self.proved(f"{crate}.{file}")
        path = f"crates/{crate}/specs/{file}.antt"
        self.contents[-1][2].append((here, title))
        return here, title, path, "".join(parts)

    def proved(self, section):
        """The theorems about a section, and the definitions of proofs/ that their statements use."""
        found = [d for d, s in self.theorems if s == section and "/proofs/" in d.path]
        if not found:
            return []
        statements = [self.theorem(definition) for definition in found]
        used = self.used_in_proofs()
        return ["<h4>what is proved of it</h4>\n", *statements, *used]

    def used_in_proofs(self):
        found = []
        while True:
            missing = [t for place, t in list(self.render.cited.items()) if ".proofs." in place and place not in self.shown]
            missing = [t.definition for t in missing if t.definition is not None]
            if not missing:
                break
            definition = missing[0]
            if definition.kind == "theorem":
                raise Missing(f"{definition.path}: `{definition.name}` is a lemma, and a statement on the page uses it")
            found.append((definition, self.definition(definition)))
        order = {}
        found.sort(key=lambda pair: (order.setdefault(pair[0].path, len(order)), pair[0].item.line))
        return ["<h4>what these statements use</h4>\n", *(text for _, text in found)] if found else []

    def chapter(self, name, title, intro, body):
        sections = " · ".join(link(here, escaped(heading)) for here, heading in self.contents[-1][2])
        return (f'<section><h2 id="chapter-{name}">{escaped(title)}</h2><p class="lead">{escaped(intro)}</p>\n'
                f'<p class="sections">{sections}</p>\n{body}</section>\n')

    def begin(self, name, title):
        self.contents.append((f"chapter-{name}", title, []))

    def plain_chapter(self, name, title, intro, sections):
        self.begin(name, title)
        parts = []
        for crate, file, heading in sections:
            here, heading, path, text = self.section(crate, file, heading)
            parts.append(f'<h3 id="{here}">{escaped(heading)} <small>{path}</small></h3>\n{text}')
        return self.chapter(name, title, intro, "".join(parts))

    def folded_chapter(self, name, title, intro, sections):
        self.begin(name, title)
        parts = []
        for crate, file, heading in sections:
            here, heading, path, text = self.section(crate, file, heading)
            opens = " open" if any(section == f"{crate}.{file}" for _, section in self.theorems) else ""
            heading = f"<summary>{escaped(heading)} <small>{path}</small></summary>"
            parts.append(f'<details class="fold" id="{here}"{opens}>{heading}\n{text}</details>\n')
        return self.chapter(name, title, intro, "".join(parts))

    def left_over(self):
        order = re.findall(r"^(\w+)[^:#\n]*:", self.book.text("crates.txt"), re.M)
        left = [key for key in self.book.spec_files() if key not in self.listed]
        left.sort(key=lambda key: (order.index(key[0]) if key[0] in order else len(order), key))
        return [(crate, file, f"{crate}: {file}") for crate, file in left]

    # ---- the public functions

    def public_modules(self, crate):
        for module in ("lib", *re.findall(r"^pub mod (\w+);", self.book.text(f"crates/{crate}/src/lib.rt"), re.M)):
            yield module, self.book.code_files[crate, module]

    def public_functions(self):
        found = {}
        for crate in self.contracts[3]:
            if crate in self.book.crates:
                for module, file in self.public_modules(crate):
                    for item in file.items:
                        if item.kind == "fn" and item.public:
                            path = crate if module == "lib" else f"{crate}::{module}"
                            found[f"{path}::{item.name}"] = f"call.{path.replace('::', '.')}.{item.name}"
        return found

    def contract_chapter(self):
        name, title, intro, crates = self.contracts
        self.begin(name, title)
        parts = []
        for crate in crates:
            if crate not in self.book.crates:
                continue
            for module, file in self.public_modules(crate):
                path = crate if module == "lib" else f"{crate}::{module}"
                text = self.contracts_in(crate, module, file, path)
                if text:
                    here = f"section-call.{path.replace('::', '.')}"
                    self.contents[-1][2].append((here, path))
                    parts.append(f'<h3 id="{here}"><code>{path}</code> <small>crates/{crate}/src/{module}.rt</small></h3>\n{text}')
        return self.chapter(name, title, intro, "".join(parts))

    def contracts_in(self, crate, module, file, path):
        scope = Scope(f"crates/{crate}/src/{module}.rt", lambda scope: self.fill_from_code(scope, crate, module))
        resolve, parts, functions = self.resolver(crate, scope, path=path), [], 0
        for item in file.items:
            if item.kind == "heading":
                parts.append(f"<h4>{self.render.words(item.comment[0], resolve)}</h4>\n")
            elif item.kind == "text" and functions:
                parts.append(self.render.prose(item.comment, resolve))
            elif item.kind == "fn" and item.public:
                place = self.functions[f"{path}::{item.name}"]
                self.show(place, item)
                functions += 1
                code = self.render.contract(crate, module, item, scope)
                parts.append(f'<div class="d c" id="{place}"><b>{escaped(path)}::{escaped(item.name)}</b>'
                             f"{self.render.prose(item.comment, resolve)}{code}</div>\n")
        self.counts["contracts"] += functions
        return (self.render.prose(file.intro, resolve) + "".join(parts)) if functions else ""

    def fill_from_code(self, scope, crate, module):
        for used, name, here in self.book.code_files[crate, module].uses:
            scope.add(here, self.book.target(used, name, here))

    # ---- the values of the code

    def value_chapter(self):
        name, title, intro = self.values
        self.begin(name, title)
        texts = {}
        while True:
            cited = [getattr(t, "definition", None) or t for p, t in list(self.render.cited.items()) if p.startswith("code.")]
            cited = [d for d in cited if isinstance(d, Definition) and d.place not in self.shown]
            if not cited:
                break
            for definition in cited:
                if definition.place not in self.shown:
                    texts[definition.place] = definition, self.value(definition)
        order = re.findall(r"^(\w+)[^:#\n]*:", self.book.text("crates.txt"), re.M)
        parts, last = [], None

        def place(value):
            (crate, module), line = value[0].scope, value[0].item.line
            return order.index(crate), module != "lib", module, line

        for definition, text in sorted(texts.values(), key=place):
            crate, module = definition.scope
            if (crate, module) != last:
                last = crate, module
                path = crate if module == "lib" else f"{crate}::{module}"
                here = f"section-code.{path.replace('::', '.')}"
                self.contents[-1][2].append((here, path))
                parts.append(f'<h3 id="{here}"><code>{path}</code> <small>{definition.path}</small></h3>\n')
            parts.append(text)
        return self.chapter(name, title, intro, "".join(parts))

    def value(self, definition):
        self.show(definition.place, definition)
        for member in definition.members.values():
            self.show(member.place, member)
        self.counts["values"] += 1
        prose = self.render.prose(definition.item.comment, self.resolver(definition.scope[0], None, definition))
        return f'<div class="d" id="{definition.place}">{prose}{self.render.declaration(definition)}</div>\n'

    # ---- the page

    def text(self):
        chapters = [self.plain_chapter(*chapter) for chapter in self.chapters]
        contracts = self.contract_chapter()
        later = self.contents
        self.contents = []
        examples = self.folded_chapter(*self.examples)
        parts = self.plain_chapter(*self.parts, self.left_over())
        last, self.contents = self.contents, later
        values = self.value_chapter()
        self.contents += last
        self.check()
        body = "".join([*chapters, contracts, values, examples, parts])
        return framed(self, body)

    def check(self):
        problems = list(dict.fromkeys(self.book.names.problems))
        problems += [f"{place} is cited and not on the page" for place in self.render.cited if place not in self.shown]
        if problems:
            raise Missing("\nspecification: ".join(problems))

    def summary(self):
        counts = ", ".join(f"{number} {name}" for name, number in self.counts.items())
        untold = len(self.book.names.untold)
        return f"specification: {counts}, {self.render.links} links; {untold} fields whose record is not told"


def statement_of(theorem):
    """The one name that a theorem's statement is, if it is one."""
    match = re.fullmatch(r"(?:pub )?\S+ : (\S+)", theorem.signature().strip())
    return match.group(1) if match else None


def statement_place(theorem):
    target = theorem.scope.names.get(statement_of(theorem))
    return target.place if target else None

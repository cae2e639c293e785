"""All files that the page may need, their definitions, and what the words of each file mean."""
import os
import re

from specification_page.scope import Definition, Member, Scope, Target, Type
from specification_page.source import read_antt, read_code
from specification_page.walk import Names

MODULE = re.compile(r"Rattle\.([a-z_0-9]+)\.(specs|proofs)\.(.+)")
DECLARED = re.compile(r"declared\.((?:\w+\.)*?)(\w+)(\.TheVariants)?$")
LIBRARY_CONSTRUCTORS = {"true", "false", "zero", "suc", "none", "some", "pos", "negsuc", "[]", "◌∷◌", "refl"}


class Missing(Exception):
    pass


def only_props(text):
    """Whether a file has nothing but lemmas that a fact has one proof at most, which types cite: no definition, and nothing to read."""
    lemmas = set()
    for line in text.split("\n"):
        if line and not line[0].isspace() and not line.startswith(("--", "use ")):
            signature = re.match(r"(?:pub )?(\S+) : .*→ IsProp \([^()]*\)$", line)
            if signature:
                lemmas.add(signature.group(1))
            elif line.split()[0] not in lemmas:
                return False
    return bool(lemmas)


class Book:
    def __init__(self, root):
        self.root = root
        self.names = Names()
        self.files = {}  # (crate, part, file): File
        self.scopes = {}
        self.definitions = {}  # (crate, part, file): {name: Definition}
        self.code = {}  # (crate, module): {name: Definition}
        self.code_files = {}
        self.crates = sorted(os.listdir(os.path.join(root, "crates")))
        for crate in self.crates:
            for module in self.listed(crate, "src", ".rt"):
                self.load_code(crate, module)
        for crate in self.crates:
            for file in self.listed(crate, "specs", ".antt"):
                if not only_props(self.text(f"crates/{crate}/specs/{file}.antt")):
                    self.load(crate, "specs", file)

    def listed(self, crate, folder, ending):
        path = os.path.join(self.root, "crates", crate, folder)
        names = sorted(os.listdir(path)) if os.path.isdir(path) else []
        return [name[: -len(ending)] for name in names if name.endswith(ending) and name != "Lib.antt"]

    def spec_files(self):
        return [(crate, file) for crate, part, file in self.files if part == "specs"]

    def text(self, path):
        try:
            with open(os.path.join(self.root, path), encoding="utf-8") as file:
                return file.read()
        except FileNotFoundError:
            raise Missing(f"there is no file {path}") from None

    # ---- definitions

    def load(self, crate, part, file):
        """A file of definitions or proofs."""
        key = crate, part, file
        if key in self.files:
            return
        path = f"crates/{crate}/{part}/{file}.antt"
        self.files[key] = read_antt(self.text(path))
        scope = self.scopes[key] = Scope(path, lambda scope: self.fill(scope, key))
        prefix = f"{crate}.{file}" if part == "specs" else f"{crate}.proofs.{file}"
        found = self.definitions[key] = {}
        for item in self.files[key].items:
            if item.name:
                kind = item.kind
                definition = Definition(f"{prefix}.{item.name}", item.name, kind, item, scope, path)
                if kind in ("record", "data"):
                    self.add_members(definition)
                found[item.name] = definition
                self.names.add(definition)

    def add_members(self, definition):
        kind = "field" if definition.kind == "record" else "constructor"
        for text in member_texts(definition.item):
            match = re.match(r"\s*(?:pub )?([^\s(){}.;,@\"]+) :", text)
            if match:
                name = match.group(1)
                definition.members[name] = Member(name, f"{definition.place}.{name}", text, kind)

    def fill(self, scope, key):
        for module, name, here in self.files[key].uses:
            scope.add(here, self.target(module, name, here))
        for definition in self.definitions[key].values():
            scope.add(definition.name, target_of(definition))
            if definition.kind == "data":
                for member in definition.members.values():
                    scope.add(member.name, member_target(definition, member))

    def target(self, module, name, here):
        """What a name of a `use` list means, which the file may call otherwise."""
        match = MODULE.match(module)
        if not match or match.group(1) not in self.crates:
            return Target(None, module, operator="◌" in name, constructor=name in LIBRARY_CONSTRUCTORS, word=here)
        crate, part, rest = match.groups()
        declared = DECLARED.match(rest)
        if declared:
            return self.declared(crate, declared, name)
        self.load(crate, part, rest.split(".")[0])
        found = self.definitions[crate, part, rest.split(".")[0]]
        if name in found:
            return target_of(found[name])
        for definition in found.values():
            if definition.kind == "data" and name in definition.members:
                return member_target(definition, definition.members[name])
        if part == "proofs":
            return Target(None, module, word=name)
        raise Missing(f"crates/{crate}/{part}/{rest}.antt does not define `{name}`, which another file uses")

    # ---- code

    def load_code(self, crate, module):
        file = self.code_files[crate, module] = read_code(self.text(f"crates/{crate}/src/{module}.rt"))
        found = self.code[crate, module] = {}
        prefix = f"code.{crate}" if module in ("lib", "main") else f"code.{crate}.{module}"
        for item in file.items:
            if item.kind in ("struct", "enum", "const"):
                path = f"crates/{crate}/src/{module}.rt"
                definition = Definition(f"{prefix}.{item.name}", item.name, item.kind, item, (crate, module), path)
                for line in item.lines[1:]:
                    match = re.match(r"    (?:pub )?(\w+)([:(,{]|$)", line)
                    if match and item.kind != "const":
                        name, kind = match.group(1), "field" if item.kind == "struct" else "constructor"
                        definition.members[name] = Member(name, f"{definition.place}.{name}", line.strip(), kind)
                found[item.name] = definition
                self.names.add(definition)

    def code_named(self, crate, module, name):
        """A type or constant that a file of code names."""
        if name in self.code.get((crate, module), {}):
            return self.code[crate, module][name]
        for path in self.code_files[crate, module].paths:
            if path[-1] == name:
                other = path[0] if path[0] in self.crates and len(path) > 1 else crate
                rest = path[1:-1] if path[0] in self.crates or path[0] == "crate" else path[:-1]
                found = self.code.get((other, rest[0] if rest else "lib"), {}).get(name)
                if found:
                    return found
        return None

    def code_type(self, crate, module, text):
        text = re.sub(r"<[^>]*>", "", text.strip().rstrip(","))
        lent = re.match(r"&(?:'\w+ )?(?:mut )?", text)
        if lent:
            return Type([], "Bor", [self.code_type(crate, module, text[lent.end() :])])
        if text.startswith("["):
            return Type([], "List", [self.code_type(crate, module, text[1:].split(";")[0].rstrip("]"))])
        found = self.code_named(crate, module, text) if re.fullmatch(r"\w+", text) else None
        return Type([], found.place) if found else None

    def declared(self, crate, match, name):
        module = match.group(1).rstrip(".") or "lib"
        definition = self.code.get((crate, module), {}).get(match.group(2)) or self.code.get((crate, "main"), {}).get(match.group(2))
        if definition is None:
            raise Missing(f"crates/{crate}/src does not declare `{match.group(2)}`, which a definition uses")
        if not match.group(3):
            return target_of(definition)
        if name not in definition.members:
            raise Missing(f"{definition.path}: `{definition.name}` has no case `{name}`, which a definition uses")
        return member_target(definition, definition.members[name])

    def give_code_types(self):
        """The types of fields and cases of code, as far as they are types of code."""
        for (crate, module), found in self.code.items():
            for definition in found.values():
                for member in definition.members.values():
                    if member.kind == "field":
                        member.type_given = self.code_type(crate, module, member.type_text.split(":", 1)[1])
                    else:
                        inside = re.search(r"\((.*)\)", member.type_text)
                        parts = inside.group(1).split(",") if inside else []
                        kinds = [self.code_type(crate, module, part) for part in parts]
                        member.type_given = Type(kinds, definition.place)


def member_texts(item):
    """Header aside, the lines of a block by member; a comment that stands by itself is one too."""
    found = []
    for line in item.lines[1 + header_end(item) :]:
        if re.match(r"  \S", line) or not found:
            found.append(line)
        else:
            found[-1] += "\n" + line
    return found


def header_end(item):
    """The line, counted from 0, on which the header's `where` stands."""
    return next((n for n, line in enumerate(item.lines) if re.search(r"\bwhere\s*$", line)), 0)


def target_of(definition):
    return Target(definition.place, None, definition, operator="◌" in definition.name and definition.kind == "definition")


def member_target(definition, member):
    return Target(member.place, None, definition, member, operator=False, constructor=member.kind == "constructor")

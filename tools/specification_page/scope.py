"""Definitions, and what the words of a file mean: a place on the page, or a name of the kit's libraries."""
from dataclasses import dataclass, field

from specification_page.source import tokens_of


@dataclass
class Type:
    """Explicit arguments; then a name, by its place (or, of a library, its word), with what it is applied to."""

    arguments: list
    head: str | None
    parameters: list = field(default_factory=list)

    def applied(self):
        return Type(self.arguments[1:], self.head, self.parameters) if self.arguments else None


@dataclass
class Member:
    """A field of a record or a constructor of a data type."""

    name: str
    place: str
    type_text: str = ""
    kind: str = "field"
    type_given: Type | None = None


@dataclass
class Definition:
    place: str
    name: str
    kind: str  # definition, theorem, record, data; of code struct, enum, const, fn
    item: object
    scope: "Scope"
    path: str
    members: dict = field(default_factory=dict)

    def signature(self):
        entries = self.item.entries()
        return entries[1] if entries[0].startswith("infix") else entries[0]

    def type_of(self):
        return self.scope.signature_type(self.signature()) if self.kind in ("definition", "theorem") else None


@dataclass
class Target:
    place: str | None  # on the page
    library: str | None = None  # or the module that it comes from
    definition: Definition | None = None
    member: Member | None = None
    operator: bool = False
    constructor: bool = False
    word: str = ""


@dataclass
class Local:
    type: Type | None = None
    place: str | None = None  # of a field that stands for itself in later fields


class Scope:
    """What the words of one file mean."""

    def __init__(self, path, fill):
        self.path = path
        self.fill = fill  # adds the names, when the first is asked for
        self.known = {}
        self.types = {}

    @property
    def names(self):
        if self.fill is not None:
            fill, self.fill = self.fill, None
            fill(self)
        return self.known

    def add(self, name, target):
        parts = words_of(name)
        if "◌" in name and parts:
            self.known[name] = target
            for part in parts:
                self.known[part] = Target(target.place, target.library, target.definition, target.member, True, target.constructor, name)
        else:
            self.known[name.strip("«»")] = target

    def has_record(self, definition):
        target = self.names.get(definition.name)
        return target is not None and target.definition is definition or definition.path == self.path

    def signature_type(self, text):
        """The type behind the first colon of a signature."""
        if text not in self.types:
            tokens = [t for t in tokens_of(text) if t.kind not in ("space", "comment")]
            colon = next((n for n, t in enumerate(tokens) if t.text == ":" and depth_at(tokens, n) == 0), None)
            self.types[text] = None if colon is None else self.type_in(tokens[colon + 1 :])
        return self.types[text]

    def type_in(self, tokens):
        parts, arguments = split_at(tokens, "→"), []
        for part in parts[:-1]:
            groups = binder_groups(part)
            if groups is None:
                arguments.append(self.type_in(part))
            else:
                for explicit, names, inside in groups:
                    if explicit:
                        arguments += [self.type_in(inside)] * len(names)
        result = self.plain_type(parts[-1])
        if result is None:
            return Type(arguments, None)
        return Type(arguments + result.arguments, result.head, result.parameters)

    def plain_type(self, tokens):
        atoms = atoms_in(tokens)
        if not atoms or any(len(a) == 1 and self.is_operator(a[0].text) for a in atoms):
            return None
        if len(atoms[0]) > 1:
            return self.type_in(atoms[0][1:-1]) if len(atoms) == 1 else None
        word = atoms[0][0].text
        target = self.names.get(word)
        head = target.place or word if target else word
        return Type([], head, [self.type_in(a[1:-1] if len(a) > 1 else a) for a in atoms[1:]])

    def is_operator(self, word):
        return word in ("×", "¬", "let", "λ") or word in self.names and self.names[word].operator


def words_of(name):
    """The words by which a name is used: an operator has them around and between its arguments' places."""
    return [part for part in name.split("◌") if part]


def depth_at(tokens, end):
    return sum((t.text in "({") - (t.text in ")}") for t in tokens[:end] if t.kind == "mark")


def split_at(tokens, word):
    parts, depth = [[]], 0
    for token in tokens:
        if token.kind == "mark":
            depth += (token.text in "({") - (token.text in ")}")
        if token.text == word and depth == 0:
            parts.append([])
        else:
            parts[-1].append(token)
    return parts


def atoms_in(tokens):
    """Words and bracketed groups, each a list of tokens."""
    atoms, depth = [], 0
    for token in tokens:
        opens = token.kind == "mark" and token.text in "({"
        if depth == 0:
            atoms.append([])
        atoms[-1].append(token)
        depth += opens - (token.kind == "mark" and token.text in ")}")
    return atoms


def binder_groups(tokens):
    """`(x y : A) {z : B}` as (explicit, names, type); None if it is something else."""
    groups = []
    for atom in atoms_in(tokens):
        colon = next((n for n, t in enumerate(atom) if t.text == ":" and depth_at(atom, n) == 1), None)
        if len(atom) < 4 or colon is None or any(t.kind not in ("word", "escaped") for t in atom[1:colon]):
            return None
        groups.append((atom[0].text == "(", [t.text for t in atom[1:colon]], atom[colon + 1 : -1]))
    return groups or None



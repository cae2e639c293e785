"""Reads definitions (.antt) and code (.rt) as text: what stands at the top level of a file, with its comment."""
import re
from dataclasses import dataclass, field

TOKEN = re.compile(
    r"""(?P<space>\s+)
      | (?P<comment>--[^\n]*)
      | (?P<string>"(?:[^"\\]|\\.)*")
      | (?P<escaped>«[^»]*»)
      | (?P<field>\.(?:«[^»]*»|[^\s(){}.;,@"«»]+))
      | (?P<dot>\.)
      | (?P<mark>[(){};,@])
      | (?P<word>[^\s(){}.;,@"«»]+)""",
    re.X,
)
USE = re.compile(r"(?:ghost )?use ([^\s{;]+)\.\{([^}]*)\};?\s*$")
SIGNATURE = re.compile(r"((?:unfoldable |abbrev |axiom )*)(pub )?([^\s(){}.;,@\"]+)((?: \{[^}=]*\})?) :(?:\s|$)")
BLOCK = re.compile(r"(pub )?(record|data) ([^\s(){}.;,@\"]+)")
CODE = re.compile(r"(pub )?(?:extern \"C\" )?(struct|enum|const|fn) (\w+)")


@dataclass
class Token:
    kind: str
    text: str


def tokens_of(text):
    return [Token(match.lastgroup, match.group()) for match in TOKEN.finditer(text)]


@dataclass
class Item:
    """A heading, a comment by itself ("text"), or a declaration, which has a name."""

    kind: str
    comment: list = field(default_factory=list)
    name: str = ""
    public: bool = False
    lines: list = field(default_factory=list)
    line: int = 0

    def entries(self):
        """Signature, `unfolding` and clauses: each begins at the left edge."""
        found = []
        for line in self.lines:
            if line[:1].strip() and line[0] not in "})" or not found:
                found.append([line])
            else:
                found[-1].append(line)
        return ["\n".join(lines).rstrip() for lines in found]


@dataclass
class File:
    intro: list = field(default_factory=list)
    uses: list = field(default_factory=list)  # module, name there, name here
    paths: list = field(default_factory=list)  # of code: the parts of a::b::C, from `use a::b::{C, D};`
    items: list = field(default_factory=list)


def names_used(match):
    for part in match.group(2).split(","):
        if part.strip():
            name, _, other = part.strip().partition(" as ")
            yield match.group(1), name.strip(), (other or name).strip()


class Reader:
    """Goes through the lines of a file. `sign` begins a comment; `begins` tells what a line at the left edge declares."""

    def __init__(self, text, sign, begins):
        self.file, self.comment, self.current = File(), [], None
        self.sign, self.begins = sign, begins
        for number, line in enumerate(text.split("\n"), 1):
            self.take(number, line)
        self.flush()
        for item in self.file.items:
            while item.lines and not item.lines[-1].strip():
                item.lines.pop()

    def flush(self):
        """A comment that no declaration follows stands by itself; the first one in a file is about the file."""
        if self.comment:
            if not self.file.items and not self.file.intro:
                self.file.intro = self.comment
            else:
                self.file.items.append(Item("text", self.comment))
        self.comment = []

    def take(self, number, line):
        if not line.strip():
            self.flush()
            if self.current:
                self.current.lines.append("")
        elif line.startswith(self.sign + " ---- "):
            self.flush()
            self.current = None
            self.file.items.append(Item("heading", [line[len(self.sign) + 6 :].strip()]))
        elif line.startswith(self.sign):
            self.current = None
            self.comment.append(line[len(self.sign) :].strip())
        elif line[0] in " \t})" or line.startswith("{"):
            if self.current:
                self.current.lines.append(line)
        else:
            self.declaration(number, line)

    def declaration(self, number, line):
        match = USE.match(line)
        if match:
            self.flush()
            self.file.uses += names_used(match)
        elif self.sign == "//" and re.match(r"(?:pub )?use ", line):
            self.flush()
            self.current = None
        elif self.sign == "//" and line.startswith("#"):  # an attribute stands between a comment and what it is about
            self.current = None
        else:
            item = self.begins(line)
            if item is not None:
                item.comment, item.line, self.comment = self.comment, number, []
                self.file.items.append(item)
                self.current = item
            if self.current is not None:
                self.current.lines.append(line)


def antt_item(line):
    """A signature or a block; None for a clause."""
    if re.match(r"infix[lr]? |mutual$|module |open |(?:pub )?mod |use ", line):
        return Item("fixity" if line.startswith("infix") else "other")
    match = BLOCK.match(line)
    if match:
        return Item(match.group(2), name=match.group(3), public=bool(match.group(1)))
    match = SIGNATURE.match(line)
    if match:
        kind = "definition" if match.group(1) else "theorem"
        return Item(kind, name=match.group(3), public=bool(match.group(2)))
    return None


def read_antt(text):
    file = Reader(text, "--", antt_item).file
    items = []
    for item in file.items:  # how strongly an operator binds stands with its definition
        if items and items[-1].kind == "fixity":
            item.comment = items[-1].comment or item.comment
            item.lines = items.pop().lines + item.lines
            item.line += 1
        items.append(item)
    file.items = items
    return file


def code_item(line):
    match = CODE.match(line)
    if match:
        return Item(match.group(2), name=match.group(3), public=bool(match.group(1)))
    return Item("other")


def read_code(text):
    file = Reader(text, "//", code_item).file
    file.paths = paths_used(text)
    return file


def paths_used(text):
    """What each `use` of a file of code brings in, by its parts."""
    return [parts for tree in re.findall(r"^(?:pub )?use ([^;]*);", text, re.M) for parts in paths_in(tree)]


def paths_in(tree):
    """`a::{b, c::{d, e}}` is a::b, a::c::d and a::c::e."""
    head, brace, rest = tree.strip().partition("{")
    if not brace:
        return [head.split("::")] if head else []
    inside, depth, parts = rest.rstrip()[:-1], 0, [""]
    for char in inside:
        depth += (char == "{") - (char == "}")
        if char == "," and depth == 0:
            parts.append("")
        else:
            parts[-1] += char
    return [head.rstrip(":").split("::") + path for part in parts for path in paths_in(part)]

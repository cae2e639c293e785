"""Texts as HTML: each name with a link to its definition."""
import html
import re
from urllib.parse import quote

from specification_page.book import header_end, member_texts
from specification_page.scope import Local
from specification_page.walk import Walk

QUIET = {"infix", "infixl", "infixr", "unfoldable", "abbrev", "pub", "record", "data", "where", "let", "in", "unfolding"}
WORD = re.compile(r"(\w+)|(\W)")


def escaped(text):
    return html.escape(text, quote=False)


def link(place, inside):
    return f'<a href="#{quote(place)}">{inside}</a>'


def lines(code):
    """Each line a block of its own, so that a long one goes on indented."""
    found = []
    for line in code.split("\n"):
        plain = re.sub(r"<[^>]*>", "", line)
        indent = len(plain) - len(plain.lstrip(" "))
        found.append(f'<span class="i{indent}">{line or " "}\n</span>')
    return "<pre><code>" + "".join(found) + "</code></pre>"


class Render:
    def __init__(self, book, library):
        self.book = book
        self.library = library  # names of the libraries in words
        self.library_used = {}  # (module, name): what it means
        self.cited = {}  # place: the definition or member that has to be on the page
        self.links = 0
        self.plain = set()  # words of the text shown last that are bound there

    # ---- names

    def anchor(self, target, inside):
        if target.place is not None:
            self.cited.setdefault(target.place, target)
            self.links += 1
            return link(target.place, inside)
        word = target.word or inside
        meaning = self.library.get(word, "")
        self.library_used.setdefault((target.library, word), meaning)
        title = f"{meaning} ({target.library})" if meaning else target.library
        return f'<span class="k" title="{html.escape(title)}">{inside}</span>'

    def token(self, token, mark, place):
        text = escaped(token.text)
        if token.kind == "comment":
            return f'<i>{self.words(token.text[2:].strip(), None)}</i>'
        if token.kind == "string":
            return f'<span class="s">{text}</span>'
        if mark == "head":
            return f'<dfn id="{html.escape(place)}">{text}</dfn>' if place else f"<b>{text}</b>"
        if mark is None:
            if token.kind in ("word", "escaped"):
                self.plain.add(token.text)
                if token.text in QUIET:
                    return f'<span class="m">{text}</span>'
            return text
        if token.kind == "field":
            return "." + self.anchor(mark, text[1:])
        return self.anchor(mark, text)

    def walked(self, walk, place=None):
        parts = []
        for n, token in enumerate(walk.tokens):
            parts.append(self.token(token, walk.marks.get(n), place))
        return "".join(parts)

    # ---- definitions

    def walk(self, definition, text):
        return Walk(text, definition.scope, self.book.names, definition.path)

    def code(self, definition):
        """The whole text of a definition; of a theorem what it says, and no proof."""
        self.plain = set()
        if definition.kind in ("record", "data"):
            return lines(self.block(definition))
        parts, kind, signature = [], definition.type_of(), definition.signature()
        for text in definition.item.entries():
            walk = self.walk(definition, text)
            if text == signature:
                walk.signature(definition.name, {})
            elif definition.kind == "theorem":
                break
            elif text.startswith("unfolding "):
                walk.term(1, len(walk.tokens), {})
            elif not text.startswith("infix"):
                walk.clause(definition.name, kind)
            parts.append(self.walked(walk))
        return lines("\n".join(parts))

    def block(self, definition):
        """A record or a data type: its header, then its members, each with a place of its own."""
        end = header_end(definition.item) + 1
        walk = self.walk(definition, "\n".join(definition.item.lines[:end]))
        local = {}
        walk.signature(definition.name, local)
        parts = [self.walked(walk)]
        for text in member_texts(definition.item):
            match = re.match(r"\s*(?:pub )?([^\s(){}.;,@\"]+) :", text)
            walk = self.walk(definition, text)
            member = definition.members[match.group(1)] if match else None
            if member:
                walk.signature(member.name, dict(local))
            parts.append(self.walked(walk, member and member.place))
            if member and member.kind == "field":
                local[member.name] = Local(definition.scope.signature_type(text), member.place)
        return "\n".join(parts)

    # ---- code

    def rust(self, text, crate, module, definition=None):
        """A declaration or the head of a function: types and constants are linked, fields and cases have places."""
        parts = []
        for number, line in enumerate(text.split("\n")):
            match = definition and number and re.match(r"    (?:pub )?(\w+)", line)
            member = definition.members.get(match.group(1)) if match else None
            done, comment = False, line.find("//")
            code = line if comment < 0 else line[:comment]
            for word, other in WORD.findall(code):
                found = self.book.code_named(crate, module, word) if word else None
                if member and word == member.name and not done:
                    parts.append(f'<dfn id="{html.escape(member.place)}">{word}</dfn>')
                    done = True
                elif definition and word == definition.name and not number:
                    parts.append(f"<b>{word}</b>")
                elif found and found is not definition:
                    self.cited.setdefault(found.place, found)
                    self.links += 1
                    parts.append(link(found.place, word))
                else:
                    parts.append(escaped(word or other))
            if comment >= 0:
                parts.append(f'<i>{self.words(line[comment + 2 :].strip(), None)}</i>')
            parts.append("\n")
        return "".join(parts).rstrip("\n")

    def declaration(self, definition):
        crate, module = definition.scope
        return lines(self.rust("\n".join(definition.item.lines), crate, module, definition))

    def contract(self, crate, module, item, scope):
        """A function's head, `requires` and `ensures`; what it does is left out."""
        text = []
        for line in item.lines:
            if line.startswith("{"):
                break
            text.append(line)
        cut = next((n for n, line in enumerate(text) if re.match(r"    (requires|ensures)\b", line)), len(text))
        head = "\n".join(text[:cut])
        local = {name: Local(self.book.code_type(crate, module, kind)) for name, kind in re.findall(r"(\w+): ([^,)]+)", head)}
        result = re.search(r"-> (.*)$", head)
        result = self.book.code_type(crate, module, result.group(1)) if result else None
        parts = [self.rust(head, crate, module)]
        parts[0] = parts[0].replace(f"fn {item.name}", f"fn <b>{item.name}</b>", 1)
        if cut < len(text):
            walk = Walk("\n".join(text[cut:]), scope, self.book.names, f"crates/{crate}/src/{module}.rt")
            self.facts(walk, local, result)
            parts.append(self.walked(walk))
        return lines("\n".join(parts))

    def facts(self, walk, local, result):
        n, end = 0, len(walk.tokens)
        while n < end:
            if walk.tokens[n].text == "{":
                close = walk.closing[n]
                walk.term(n + 1, close, local | {"result": Local(result)})
                n = close
            n += 1

    # ---- comments

    def words(self, text, resolve):
        """Prose: what stands between backquotes is code, and a link if it is a name."""
        parts, pieces = [], text.split("`")
        for n, part in enumerate(pieces):
            if n % 2 == 0:
                parts.append(escaped(part))
                continue
            place = resolve(pieces, n) if resolve else None
            code = f"<code>{escaped(part)}</code>"
            if place:
                self.links += 1
                code = link(place, code)
            parts.append(code)
        return "".join(parts)

    def prose(self, comment, resolve):
        text = " ".join(comment)
        text = re.sub(r"\s*\bAssumes nothing\.$", "", text.strip())
        return f"<p>{self.words(text, resolve)}</p>" if text else ""

"""What each word of a text means. Bound names shadow: parameters of clauses, names of `(x : A) →`, `λ x.` and `let x =`. Which record a
field belongs to is told by the type of what stands before it, as far as the signatures tell that without a check; else by the fields that
are asked of it.
"""
import re

from specification_page.scope import Local, Scope, Target, Type, words_of
from specification_page.source import tokens_of

# Words of the language, and what it has without a `use`.
KEYWORDS = {"λ", "let", "in", "record", "where", "→", ":", "=", "_", "Type", "unfolding", "pub", "data", "infix", "infixl", "infixr",
            "unfoldable", "abbrev", "×", "¬"}
BUILT_IN = {"Unit", "tt", "⊥"}
BREAKS = {"→", ":", "=", "where", "×", "in", "¬"}  # no argument goes on behind them
LENT = {"now", "old", "new", "entry"}  # what is lent, read; the last is the loan itself


class Names:
    """All records by their fields, to tell whose field a word is."""

    def __init__(self):
        self.owners = {}  # field: definitions that have it
        self.records = set()  # their places
        self.problems = []
        self.untold = []

    def add(self, definition):
        for member in definition.members.values():
            if member.kind == "field":
                self.owners.setdefault(member.name, []).append(definition)
                self.records.add(definition.place)

    def owner(self, fields, scope, exactly=False, place=None):
        """The one record with these fields; of several, the one at the place given, or the one that the file has."""
        found = None
        for name in fields:
            here = self.owners.get(name, [])
            found = here if found is None else [d for d in found if any(d is e for e in here)]
        found = found or []
        if exactly:
            found = [d for d in found if {m.name for m in d.members.values()} == set(fields)]
        if len(found) > 1:
            found = [d for d in found if d.place == place] or found
        if len(found) > 1:
            found = [d for d in found if scope.has_record(d)] or [d for d in found if "/proofs/" not in d.path]
        return found[0] if len(found) == 1 else None


class Walk:
    """Marks the words of one text: `marks[n]` is what token n means."""

    def __init__(self, text, scope, names, where):
        self.tokens = tokens_of(text)
        self.scope, self.names, self.where = scope, names, where
        self.marks = {}
        self.asked = self.fields_asked()
        self.closing = self.brackets()

    def brackets(self):
        closing, stack = {}, []
        for n, token in enumerate(self.tokens):
            if token.kind == "mark" and token.text in "({":
                stack.append(n)
            elif token.kind == "mark" and token.text in ")}" and stack:
                closing[stack.pop()] = n
        if stack:
            raise ValueError(f"{self.where}: a bracket is not closed")
        return closing

    def solid(self, n, end):
        """The next token that is neither space nor comment."""
        while n < end and self.tokens[n].kind in ("space", "comment"):
            n += 1
        return n

    def fields_asked(self):
        """Of each word the fields that stand directly behind it."""
        asked, last = {}, None
        for token in self.tokens:
            if token.kind == "field" and last is not None:
                asked.setdefault(last, set()).add(field_name(token))
                last = None
            elif token.kind != "space":
                last = token.text.strip("«»") if token.kind in ("word", "escaped") else None
        return asked

    # ---- types and terms

    def term(self, n, end, local, keep=False, expected=None):
        """Marks from n to end; gives the type if it is one application. `keep`: what is bound stays bound behind it; `expected`: the
        type that it has to have, if that is known."""
        begun, local, spine, fresh, single = dict(local), local if keep else dict(local), None, True, True
        atom, head = None, True  # the type of what stands in front, to which a field belongs; does the application begin with it?
        last = None  # the word in front, to tell whose fields are asked
        while True:
            n = self.solid(n, end)
            if n >= end:
                return spine if single else None
            token = self.tokens[n]
            if token.kind == "mark" and token.text in ";,":
                local, fresh, single, n = dict(begun), True, False, n + 1
            elif token.kind == "mark" and token.text in "({":
                n, kind, found = self.group(n, local, self.argument_type(n, end, local, spine, fresh, expected))
                if kind == "binder":
                    fresh, single = True, False
                elif kind == "argument":
                    spine, atom, head, fresh = (found if fresh else spine and spine.applied()), found, fresh, False
                last = None
            elif token.kind == "field":
                atom = self.field(n, atom, last)
                spine, n, last = atom if head else spine, n + 1, None
            elif token.text == "λ":
                n = self.binders(n + 1, end, local, expected.arguments if expected and fresh and single else [])
                fresh, single = True, False
            elif token.text == "let":
                n, fresh, single = self.let(n + 1, end, local), True, False
            elif token.text == "record":
                n, found = self.literal(n, end, local, expected if single else None)
                spine, atom, head, fresh = (found if fresh else spine and spine.applied()), found, fresh, False
                last = None
            elif token.text in BREAKS or token.kind in ("dot", "mark"):
                n, fresh, single = n + 1, True, False
            else:
                found, operator = self.word(n, local)
                if operator:
                    fresh, single, last = True, False, None
                else:
                    spine, atom, head, fresh = (found if fresh else spine and spine.applied()), found, fresh, False
                    last = token.text.strip("«»")
                n += 1

    def argument_type(self, n, end, local, spine, fresh, expected):
        """What is known of a bracketed argument: by the function's type or, of a function over the entries of a list, by that list."""
        if fresh:
            return expected
        known = spine.arguments[0] if spine and spine.arguments else None
        if known is not None and known.arguments and known.arguments[0] and known.arguments[0].head in self.names.records:
            return known
        at, close = self.solid(n + 1, end), self.solid(self.closing[n] + 1, end)
        if self.tokens[at].text != "λ":
            return known
        if close < end and (self.tokens[close].kind == "word" or self.tokens[close].text == "("):
            over = self.aside(close, local)
        else:
            over = expected.arguments[-1] if expected and expected.arguments else None
        return Type([over.parameters[0]], None) if over and over.head == "List" and over.parameters else known

    def aside(self, n, local):
        """The type of the atom at n; nothing is marked."""
        marks, problems, untold = dict(self.marks), len(self.names.problems), len(self.names.untold)
        if self.tokens[n].text == "(":
            found = self.term(n + 1, self.closing[n], local)
        else:
            found = self.word(n, local)[0]
        self.marks = marks
        del self.names.problems[problems:], self.names.untold[untold:]
        return found

    def group(self, n, local, expected=None):
        end, inside = self.closing[n], n + 1
        names, at = [], self.solid(inside, end)
        while at < end and self.tokens[at].kind in ("word", "escaped") and self.tokens[at].text != ":":
            names.append(at)
            at = self.solid(at + 1, end)
        if names and at < end and self.tokens[at].text == ":":
            self.term(at + 1, end, local)
            plain = [t for t in self.tokens[at + 1 : end] if t.kind not in ("space", "comment")]
            kind = self.scope.type_in(plain)
            for name in names:
                local[self.tokens[name].text.strip("«»")] = Local(kind)
            return end + 1, "binder", None
        if self.tokens[n].text == "{":
            if names and at < end and self.tokens[at].text == "=":
                inside = at + 1
            self.term(inside, end, local)
            return end + 1, "implicit", None
        return end + 1, "argument", self.term(inside, end, local, expected=expected)

    def binders(self, n, end, local, kinds=()):
        """The names behind a λ, up to the dot."""
        kinds = list(kinds)
        while n < end and self.tokens[n].kind != "dot":
            token = self.tokens[n]
            if token.kind == "mark" and token.text == "(":
                n = self.group(n, local)[0]
                continue
            if token.kind in ("word", "escaped"):
                local[token.text.strip("«»")] = Local(kinds.pop(0) if kinds else None)
            n += 1
        return n + 1

    def let(self, n, end, local):
        n = self.solid(n, end)
        name, at, depth = self.tokens[n].text.strip("«»"), n + 1, 0
        close = equals = None
        while at < end:  # the `in` that belongs to it
            token = self.tokens[at]
            if token.kind == "mark" and token.text in "({":
                at = self.closing[at]
            elif token.text == "=" and equals is None:
                equals = at
            elif token.text == "let":
                depth += 1
            elif token.text == "in" and token.kind == "word":
                if depth == 0:
                    close = at
                    break
                depth -= 1
            at += 1
        if close is None or equals is None:
            self.problem("a let that has no end")
            return end
        self.term(n + 1, equals, local)
        local[name] = Local(self.term(equals + 1, close, local))
        return close + 1

    def literal(self, n, end, local, expected):
        """`record { a = x; b = y }`"""
        n = self.solid(n + 1, end)
        close = self.closing[n]
        labels, at, begins = [], self.solid(n + 1, close), True
        while at < close:
            token = self.tokens[at]
            if begins and token.kind in ("word", "escaped"):
                labels.append(at)
            begins = token.kind == "mark" and token.text == ";"
            at = self.closing[at] + 1 if token.kind == "mark" and token.text in "({" else at + 1
            at = self.solid(at, close)
        fields = [self.tokens[label].text.strip("«»") for label in labels]
        owner = self.names.owner(fields, self.scope, exactly=True, place=expected.head if expected else None)
        for k, label in enumerate(labels):
            if owner:
                self.marks[label] = Target(owner.members[fields[k]].place)
            else:
                self.untold(label)
            until = labels[k + 1] if k + 1 < len(labels) else close
            self.term(label + 1, until, local)
        return close + 1, Type([], owner.place) if owner else None

    def word(self, n, local):
        """Marks a word; gives its type, and whether it is an operator."""
        token = self.tokens[n]
        word = token.text.strip("«»")
        if token.kind == "string" or re.fullmatch(r"\d[\d_]*", word) or word in KEYWORDS:
            return None, False
        if word in local:
            if local[word].place:
                self.marks[n] = Target(local[word].place)
            return local[word].type, False
        target = self.scope.names.get(token.text if token.kind == "word" else word)
        if target is None:
            if word in BUILT_IN:
                self.marks[n] = Target(None, "the language", word=word)
            else:
                self.problem(f"nothing is known of `{word}`")
            return None, False
        self.marks[n] = target
        return self.type_of(target), target.operator

    def type_of(self, target):
        if target.member is not None:
            return self.member_type(target.definition, target.member)
        return target.definition.type_of() if target.definition is not None else None

    def member_type(self, definition, member):
        if isinstance(definition.scope, Scope):
            return definition.scope.signature_type(member.type_text)
        return member.type_given

    def field(self, n, kind, last):
        """Marks a field of something of this type; gives the field's type."""
        name = field_name(self.tokens[n])
        if re.fullmatch(r"\d+", name):
            return None
        if name in LENT and (kind.head == "Bor" if kind else self.where.endswith(".rt")):
            self.marks[n] = Target(None, "the logic of contracts", word=name)
            return kind if name == "entry" else kind.parameters[0] if kind and kind.parameters else None
        owner = None
        if kind is not None and not kind.arguments and kind.head:
            owner = next((d for d in self.names.owners.get(name, []) if d.place == kind.head), None)
        if owner is None:
            fields = (self.asked.get(last, set()) if last else set()) | {name}
            owner = self.names.owner(fields, self.scope) or self.names.owner([name], self.scope)
        if owner is None:
            self.untold(n)
            return None
        self.marks[n] = Target(owner.members[name].place)
        return self.member_type(owner, owner.members[name])

    # ---- patterns

    def pattern(self, n, end, kinds, local):
        """Atoms in a row, each of the type given; gives how many there are."""
        kinds, count = list(kinds), 0
        while True:
            n = self.solid(n, end)
            if n >= end:
                return count
            token = self.tokens[n]
            if token.kind == "mark" and token.text == "{":
                inner = [t.text for t in self.tokens[n + 1 : self.closing[n]] if t.kind == "word"]
                local[inner[-1]] = Local()
                n = self.closing[n] + 1
                continue
            kind, count = kinds.pop(0) if kinds else None, count + 1
            if token.kind == "mark" and token.text == "(":
                self.inner_pattern(n + 1, self.closing[n], kind, local)
                n = self.closing[n] + 1
                continue
            if token.kind in ("word", "escaped"):
                self.pattern_word(n, kind, local)
            n += 1

    def pattern_word(self, n, kind, local):
        word = self.tokens[n].text
        target = self.scope.names.get(word)
        if target is not None and target.constructor:
            self.marks[n] = target
        elif word != "_" and not re.fullmatch(r"\d+", word):
            local[word.strip("«»")] = Local(kind)

    def inner_pattern(self, n, end, kind, local):
        """A constructor with its arguments, or parts around `∷`."""
        n = self.solid(n, end)
        cuts, at = [], n
        while at < end:
            token = self.tokens[at]
            target = self.scope.names.get(token.text) if token.kind == "word" else None
            if target is not None and target.operator:
                cuts.append(at)
                self.marks[at] = target
            at = self.closing[at] + 1 if token.kind == "mark" and token.text == "(" else at + 1
        element = kind.parameters[0] if kind and kind.parameters else None
        if cuts:
            for k, cut in enumerate(cuts):
                self.inner_pattern(n if k == 0 else cuts[k - 1] + 1, cut, element, local)
            self.inner_pattern(cuts[-1] + 1, end, kind, local)
            return
        target = self.scope.names.get(self.tokens[n].text) if n < end else None
        if target is not None and target.constructor:
            self.marks[n] = target
            found = self.member_type(target.definition, target.member) if target.member else None
            kinds = found.arguments if found else [element] if self.tokens[n].text == "some" else []
            self.pattern(n + 1, end, kinds, local)
        else:
            self.pattern(n, end, [kind], local)

    # ---- declarations

    def signature(self, name, local):
        """`pub name {ℓ} (x : A) : type where`, or a member's `name : type`; what is bound by it stays in `local`."""
        end = len(self.tokens)
        n = next(k for k, t in enumerate(self.tokens) if t.text.strip("«»") == name.strip("«»") and t.kind in ("word", "escaped"))
        self.marks[n] = "head"
        n = self.solid(n + 1, end)
        if n < end and self.tokens[n].text == "{" and not any(t.text == ":" for t in self.tokens[n : self.closing[n]]):
            for token in self.tokens[n + 1 : self.closing[n]]:
                local[token.text] = Local()  # levels
            n = self.closing[n] + 1
        self.term(n, end, local, keep=True)
        return n

    def clause(self, definition, kind):
        """`name patterns = term`, or with an operator between the patterns."""
        end = len(self.tokens)
        equals = self.top(0, end, "=")
        where = self.top(0, end, "where")
        local, n = {}, self.solid(0, end)
        stop = equals if equals is not None else end
        if self.tokens[n].text.strip("«»") == definition.strip("«»"):
            self.marks[n] = "head"
            count = self.pattern(n + 1, stop, kind.arguments if kind else [], local)
        else:
            count = None
            for at in range(n, stop):  # the parts of an operator are no patterns
                if self.tokens[at].text in words_of(definition):
                    self.marks[at] = "head"
            at = n
            while at < stop:
                if at in self.marks:
                    at += 1
                    continue
                until = next((k for k in range(at, stop) if self.marks.get(k) == "head"), stop)
                self.inner_pattern(at, until, None, local)
                at = until
        if equals is None:
            return
        if where is not None:
            local.update(self.inner_functions(where + 1, end, local))
        rest = Type(kind.arguments[count:], kind.head, kind.parameters) if kind and count is not None else None
        self.term(equals + 1, where if where is not None else end, local, expected=rest)

    def top(self, n, end, word):
        while n < end:
            if self.tokens[n].kind == "mark" and self.tokens[n].text in "({":
                n = self.closing[n]
            elif self.tokens[n].text == word:
                return n
            n += 1
        return None

    def inner_functions(self, n, end, local):
        """What stands behind `where`: signatures and clauses of functions of its own. Gives these."""
        found = {}
        for begin, stop in self.inner_lines(n, end):
            name, colon = self.tokens[begin].text, self.solid(begin + 1, stop)
            inner = local | found
            if self.tokens[colon].text == ":":
                found[name] = Local(self.scope.type_in([t for t in self.tokens[colon + 1 : stop] if t.kind not in ("space", "comment")]))
                self.term(colon + 1, stop, inner)
            else:
                equals = self.top(begin, stop, "=")
                kind = found[name].type if name in found else None
                self.pattern(begin + 1, equals, kind.arguments if kind else [], inner)
                self.term(equals + 1, stop, inner)
        return found

    def inner_lines(self, n, end):
        """Where each of these begins and ends; a line that is further in goes on with the one before."""
        starts, edge = [], None
        for at in range(n, end):
            if self.tokens[at].kind == "space" and "\n" in self.tokens[at].text and self.solid(at, end) < end:
                indent = len(self.tokens[at].text.rsplit("\n", 1)[1])
                edge = indent if edge is None else edge
                if indent <= edge:
                    starts.append(self.solid(at, end))
        return list(zip(starts, starts[1:] + [end]))

    def problem(self, message):
        self.names.problems.append(f"{self.where}: {message}")

    def untold(self, n):
        self.names.untold.append(f"{self.where}: {self.tokens[n].text}")


def field_name(token):
    return token.text[1:].strip("«»")

#!/usr/bin/env python3
"""Breaks lines of more than 140 columns in .antt, .rt and .md files, which `rt fmt` leaves as they are.

    tools/wrap.py FILE...          rewrites the files
    tools/wrap.py --check FILE...  says which lines are too long, and ends with status 1 if there are any

Comments and paragraphs are filled anew; code is broken at the place of least depth, and what follows stands four columns further in.
Tables of a page, code blocks in it and strings are left as they are. Run `rt fmt` afterwards, and prove.
"""
import re
import sys
import textwrap

WIDTH = 140
OPEN, CLOSE = "([{«", ")]}»"


def fill(words, first, rest):
    return textwrap.wrap(
        words, WIDTH, initial_indent=first, subsequent_indent=rest, break_long_words=False, break_on_hyphens=False
    )


# ---- code


def breaks(line, start):
    """Places where a line may be broken: (depth, weakness, column), the column being that of what goes to the next line."""
    depth, quoted = 0, False
    for at, char in enumerate(line):
        if char == '"':
            quoted = not quoted
        if quoted:
            continue
        if char in OPEN:
            depth += 1
        elif char in CLOSE:
            depth -= 1
        elif char == " " and at > start and line[at + 1 : at + 2] not in ("", " "):
            before, after = line[:at].split(" ")[-1], line[at + 1 :].split(" ")[0]
            if before in ("→", "=", "in", "then") or after in ("∙", "×", "++", "$", "else", "in"):
                weakness = 0
            elif before == "λ" or before.endswith(".") or after in ("=", ":", "≡", "<", "≤", "→", "as", "then", "if"):
                weakness = 3
            elif before == ":" or before.endswith(",") or after.startswith("("):
                weakness = 1
            else:
                weakness = 2
            yield depth, weakness, at + 1


def cut(line, column=WIDTH):
    """The column at which a long line is broken, or None."""
    start = len(line) - len(line.lstrip()) + 12
    fit = [b for b in breaks(line, start) if b[2] - 1 <= column]
    return min(fit, key=lambda b: (b[0] * 2 + b[1], -b[2]))[2] if fit else None


def comment_behind(line):
    """A comment behind code, which goes to a line of its own."""
    found = re.search(r"\s+(--|//) ", line)
    return found.start() if found and not re.match(r"\s*(--|//)", line) and '"' not in line[: found.start()] else None


def code(line):
    indent = len(line) - len(line.lstrip())
    use = re.match(r"((?:ghost )?use [^{]*\.\{)([^}]*)(\};?)$", line)
    if use:  # as many lines as the names need, each a `use` of its own: `rt fmt` would give each name a line
        head, names, tail = use.groups()
        names = ", ".join(n.strip() for n in names.split(",") if n.strip())
        rows = textwrap.wrap(names, WIDTH - len(head) - len(tail), break_long_words=False, break_on_hyphens=False)
        return [head + row.rstrip(",") + tail for row in rows]
    at = comment_behind(line)
    if at is not None:
        return fill(line[at:].strip()[3:], " " * indent + line[at:].strip()[:3], " " * indent + line[at:].strip()[:3]) + wrapped(line[:at])
    lines, inner = [], indent
    while len(line) > WIDTH:
        column = cut(line)
        if column is None:
            break
        lines.append(line[: column - 1].rstrip())
        inner = indent + 4
        line = " " * inner + line[column:]
    return lines + [line]


def wrapped(line):
    return code(line) if len(line) > WIDTH else [line]


def program(text):
    """The text of an .antt or .rt file."""
    out, block, mark = [], [], None

    def flush():
        if any(len(line) > WIDTH for line in block):
            indent = block[0][: len(block[0]) - len(block[0].lstrip())]
            words = " ".join(line.strip()[2:].strip() for line in block)
            out.extend(fill(words, indent + mark + " ", indent + mark + " "))
        else:
            out.extend(block)
        block.clear()

    for line in text.split("\n"):
        found = re.match(r"\s*(--|//)(?!-)", line)
        if found and not re.match(r"\s*-- ----", line):
            mark = found.group(1)
            block.append(line)
            continue
        flush()
        out.extend(wrapped(line))
    flush()
    return "\n".join(out)


# ---- pages


def page(text):
    """The text of an .md file: paragraphs and items of lists."""
    out, block, fenced = [], [], False

    def flush():
        if any(len(line) > WIDTH for line in block):
            head = re.match(r"(\s*(?:[-*] |\d+\. |> )?)", block[0]).group(1)
            rest = head if head.startswith(">") else " " * len(head)
            words = " ".join([block[0][len(head) :]] + [re.sub(r"^\s*>?\s*", "", line) for line in block[1:]])
            out.extend(fill(words, head, rest))
        else:
            out.extend(block)
        block.clear()

    for line in text.split("\n"):
        if line.startswith("```"):
            fenced = not fenced
        plain = fenced or not line.strip() or re.match(r"(\||#|```|    )", line) and not block
        if plain or re.match(r"\s*([-*] |\d+\. )", line) or line.startswith("|"):
            flush()
        if plain or line.startswith("|"):
            out.append(line)
        else:
            block.append(line)
    flush()
    return "\n".join(out)


def too_long(name, text):
    """A message for each line that is too long; tables of a page may be."""
    for number, line in enumerate(text.split("\n"), 1):
        if len(line) > WIDTH and not (name.endswith(".md") and line.startswith("|")):
            yield f"{name}:{number}: {len(line)} columns"


def main():
    check = sys.argv[1:2] == ["--check"]
    status = 0
    for name in sys.argv[2 if check else 1 :]:
        with open(name, encoding="utf-8") as file:
            text = file.read()
        if check:
            for message in too_long(name, text):
                print(message)
                status = 1
            continue
        after = page(text) if name.endswith(".md") else program(text)
        if after != text:
            with open(name, "w", encoding="utf-8") as file:
                file.write(after)
    sys.exit(status)


if __name__ == "__main__":
    main()

"""The theorems, as docs/STATEMENTS.md lists them."""
import re

from specification_page.book import Missing

PAGE = "docs/STATEMENTS.md"
GROUP = re.compile(r"About `crates/(\w+)/specs/(\w+)\.antt`, proved in `crates/(\w+/(?:proofs|specs)/\w+)\.antt`:")
THEOREM = re.compile(r"- `([^`\s]+)`: (\S.*)")


def theorems(text):
    """Of each theorem its name, the file of its proof, the section that it is shown in, and what it says, in words."""
    found, group = [], None
    for number, line in enumerate(text.split("\n"), 1):
        begins, entry = GROUP.fullmatch(line), THEOREM.fullmatch(line)
        if line.startswith("About `"):
            if not begins:
                raise Missing(f"{PAGE}, line {number}: no such group of theorems")
            group = f"{begins[1]}.{begins[2]}", begins[3], number
        elif group and entry:
            found.append([entry[1], group[1], group[0], entry[2]])
        elif group and line.startswith("  ") and found:
            found[-1][3] += " " + line.strip()
        elif group and line.startswith("-"):
            raise Missing(f"{PAGE}, line {number}: no theorem with what it says")
        elif line:
            group = None
    names = [name for name, *_ in found]
    for name in names:
        if names.count(name) > 1:
            raise Missing(f"{PAGE} has the theorem `{name}` twice")
    return found

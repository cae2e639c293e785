"""The page around its chapters: style, title, contents, and how to read it."""
import os
import re

from specification_page.library import SIGNS
from specification_page.render import escaped, link

HERE = os.path.dirname(os.path.abspath(__file__))


def framed(page, body):
    with open(os.path.join(HERE, "style.css"), encoding="utf-8") as file:
        style = file.read()
    return f"""<!DOCTYPE html>
<html lang="en">
<head>
<meta charset="utf-8">
<meta name="viewport" content="width=device-width, initial-scale=1">
<title>The plot hub: its specification</title>
<style>
{style}{indents()}</style>
</head>
<body>
<header>
<h1>The plot hub: its specification</h1>
<p class="lead">Every definition that says what the hub, the routine book and the line program do, in reading order, and the theorems that
are proved of them.{version(page.book)}</p>
<p>Each definition stands below its comment; each name leads to its own definition; a name of the kit’s libraries tells what it is when
it is pointed at. A theorem is given by what it says and the place of its proof. No proof and no lemma is needed to know what is
proved. “Document 01” and “document 02” are the scope document and the requests that came after it; their words stand in quotation
marks.{assumptions(page.book)}</p>
</header>
<nav aria-label="Contents"><details open><summary>Contents</summary>
{table_of_contents(page.contents)}</details></nav>
<main>
{how_to_read(page)}{body}</main>
</body>
</html>
"""


def indents():
    return "".join(f"pre .i{n} {{ --n: {n}; }}\n" for n in range(41))


def version(book):
    path = os.path.join(book.root, "VERSION")
    return f" Version {escaped(book.text('VERSION').strip())}." if os.path.exists(path) else ""


def assumptions(book):
    """Each file says in its first comment what it assumes; where all say "nothing", that is said once."""
    intros = [" ".join(book.files[crate, "specs", file].intro) for crate, file in book.spec_files()]
    return " None of the files shown assumes anything." if all(i.endswith("Assumes nothing.") for i in intros) else ""


def table_of_contents(contents):
    found = ['<ol><li value="0"><a href="#chapter-reading">How to read it</a></li>\n']
    for place, title, sections in contents:
        inner = "".join(f"<li>{link(here, escaped(name))}</li>" for here, name in sections)
        found.append(f"<li>{link(place, escaped(title))}<ul>{inner}</ul></li>\n")
    return "".join(found) + "</ol>"


def code_words(text):
    return re.sub(r"`([^`]*)`", r"<code>\1</code>", escaped(text))


def row(sign, *cells):
    return f"<tr><td><code>{escaped(sign)}</code></td>" + "".join(f"<td>{code_words(cell)}</td>" for cell in cells) + "</tr>\n"


def how_to_read(page):
    signs = "".join(row(*sign) for sign in SIGNS)
    used = sorted((module, word, meaning) for (module, word), meaning in page.render.library_used.items() if " " not in module)
    names = "".join(row(word, meaning, module) for module, word, meaning in used)
    theorems = "".join(f"<tr><td>{link(d.place, f'<code>{escaped(d.name)}</code>')}</td><td>{code_words(words)}</td></tr>\n"
                       for d, words in page.glance)
    return f"""<section><h2 id="chapter-reading">How to read it</h2>
<p class="lead">The signs of the language, the names that come from the kit’s libraries, and the theorems, in words.</p>
<table>{signs}</table>
<details class="fold"><summary>Names of the libraries</summary><table>{names}</table></details>
<details class="fold" id="section-theorems"><summary>The theorems at a glance</summary><table>{theorems}</table></details></section>
"""

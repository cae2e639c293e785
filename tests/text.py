#!/usr/bin/env python3
"""The text of the repository, as far as nothing has to be proved or run for it.

    tests/text.py              holds the repository to the checks below
    tests/text.py FOLDER       holds them to small trees, made in FOLDER, in each of which a fault was planted: it must be found

Exit status 0: nothing was found. 1: something was. 77: nothing was, but a tool is missing, and the last line names it.
"""
import importlib.machinery
import importlib.util
import os
import re
import shutil
import subprocess
import sys

ROOT = os.path.dirname(os.path.dirname(os.path.abspath(__file__)))
sys.path[:0] = [os.path.join(ROOT, 'tools')]
import unused  # noqa: E402
import wrap  # noqa: E402


class Lacking(Exception):
    """A tool that a check needs is not on this machine."""


def files(root):
    """Every file but those that are built."""
    for folder, folders, names in os.walk(root):
        folders[:] = sorted(set(folders) - {'.git', 'target', 'dist', 'out', '__pycache__'})
        for name in sorted(names):
            yield os.path.relpath(os.path.join(folder, name), root)


def read(root, path):
    with open(os.path.join(root, path), encoding='utf-8') as file:
        return file.read()


def run(root, tool, *words):
    """The lines that a tool prints; those of a tool that finds nothing are left out."""
    if not shutil.which(tool):
        raise Lacking(f'there is no {tool}')
    ran = subprocess.run([tool, *words], cwd=root, stdin=subprocess.DEVNULL, stdout=subprocess.PIPE, stderr=subprocess.STDOUT, check=False)
    return ran.stdout.decode().splitlines() if ran.returncode else []


# ---- the checks: each gives a message for each fault

def names(root):
    """What is brought in and not used, lemmas, definitions and code that nothing leads to."""
    return unused.everything(root)


def width(root):
    """At most 140 columns, but in tables of pages, as tools/wrap.py breaks them; of scripts and programs for the tests as well. What the
    port left longer in sources and proofs (`rt fmt` joins an import, and breaks no line) is counted in tests/long_lines.txt: no more of it.
    """
    left = {}
    if os.path.exists(os.path.join(root, 'tests/long_lines.txt')):
        left = {path: int(count) for count, path in (line.split() for line in read(root, 'tests/long_lines.txt').splitlines())}
    for path in files(root):
        if re.search(r'\.(antt|rt|md|py|sh|c|h|rs)$', path) or is_script(root, path):
            found = list(wrap.too_long(path, read(root, path)))
            if len(found) > left.get(path, 0):
                yield from found


def is_script(root, path):
    with open(os.path.join(root, path), 'rb') as file:
        return file.read(2) == b'#!'


def is_shell(root, path):
    with open(os.path.join(root, path), 'rb') as file:
        return path.endswith('.sh') or re.match(rb'#!.*\b(ba|da|)sh\b', file.readline()) is not None


def scripts(root):
    """What shellcheck says of each shell script; .shellcheckrc has what it need not say."""
    paths = [path for path in files(root) if is_shell(root, path)]
    return run(root, 'shellcheck', '--severity=info', '--format=gcc', *paths)


def crates(root):
    """crates.txt: a crate names only crates above it, which the layers follow; a section has the crates of its layer's name."""
    listed, layers, layer, comment = [], [], None, False
    known = set(os.listdir(os.path.join(root, 'crates')))
    for number, line in enumerate(read(root, 'crates.txt').split('\n'), 1):
        place = f'crates.txt:{number}: '
        section = re.match(r'#(?: (\w+): )?', line)
        if section and not comment:
            layer = section.group(1)
            layers += [layer] if layer else []
        elif line and not section:
            name, _, needs = line.partition(':')
            name = name.split()[0]
            for need in needs.split():
                if need == name or need in known and need not in listed:
                    yield f'{place}{name} names {need}, which does not stand above it'
            if name in listed:
                yield f'{place}{name} is there twice'
            if not any(name == one or name.startswith(one + '_') for one in ([layer] if layer else layers)):
                yield f'{place}{name} stands in the section {layer or "of no layer, and no layer has its name"}'
            listed.append(name)
        comment = bool(section)
    for name in sorted(known ^ set(listed)):
        yield f'crates.txt and crates/: only one of them has {name}'


def edits(root):
    """Must-fail edits: each `old:` stands in its file exactly once, when its turn comes, and something else is put there."""
    for path in files(root):
        if re.fullmatch(r'crates/\w+/must-fail/[^/]+\.edit', path):
            for message in wrong_edit(root, path):
                yield f'{path}: {message}'


def wrong_edit(root, path):
    crate, texts, name, old, pairs = path.split('/must-fail/')[0], {}, '', '', 0
    for line in read(root, path).split('\n'):
        word, _, rest = line.partition(':')
        if word == 'file':
            name = rest[1:]
            if not os.path.isfile(os.path.join(root, crate, name)):
                yield f'there is no {name}'
                return
            texts.setdefault(name, read(root, os.path.join(crate, name)))
        elif word == 'old':
            old = rest[1:]
        elif word == 'new':
            pairs += 1
            count = texts.get(name, '').count(old) if old else 0
            if count != 1 or rest[1:] == old:
                yield f'old: is in {name} {count} times' if count != 1 else 'new: is the same as old:'
            texts[name] = texts.get(name, '').replace(old, rest[1:], 1) if old else ''
            old = ''
    if not pairs:
        yield 'it has no new:'


def picture(root):
    """docs/architecture.svg is what tools/architecture makes of crates.txt."""
    if read(root, 'docs/architecture.svg') != architecture().picture(read(root, 'crates.txt')):
        yield 'docs/architecture.svg is not what tools/architecture makes of crates.txt'


def architecture():
    """The tool, as a module."""
    loader = importlib.machinery.SourceFileLoader('architecture', os.path.join(ROOT, 'tools', 'architecture'))
    tool = importlib.util.module_from_spec(importlib.util.spec_from_loader('architecture', loader))
    sys.dont_write_bytecode = True
    loader.exec_module(tool)
    return tool


CHECKS = [names, width, scripts, crates, edits, picture]


def found_in(root, checks=None):
    """All messages, and the tools that are missing."""
    messages, lacking = [], []
    for check in checks or CHECKS:
        try:
            messages += [f'{check.__name__}: {message}' for message in check(root)]
        except Lacking as reason:
            lacking.append(str(reason))
    return messages, lacking


# ---- planted faults

WHOLE = {  # a small tree in which nothing is found
    'crates.txt': '# A line for each crate.\n\n# rules: what is true.\nrules_one:\n\n# run: programs.\nrun_two: rules_one anyhow\n',
    'crates/rules_one/src/lib.rt': '''#![tactic(auto)]

ghost use Rattle.std.specs.Prelude.{◌≡◌};
ghost use Rattle.rules_one.specs.Numbers.{eight};

pub const EIGHT: usize = 8;

#[tactic(auto)]
pub fn give() -> usize
    ensures { result ≡ eight }
{
    EIGHT
}
''',
    'crates/rules_one/specs/Lib.antt': 'pub mod Numbers\nmod Examples\n',
    'crates/rules_one/specs/Numbers.antt': '''use Rattle.std.specs.Prelude.{ℕ}

pub eight : ℕ
eight = 8

-- a statement
pub Stated : ℕ → Type 0
Stated n = ℕ
''',
    'crates/rules_one/specs/Examples.antt': '''use Rattle.std.specs.Prelude.{◌≡◌, refl}
use Rattle.rules_one.specs.Numbers.{eight}

seen_by_nobody : eight ≡ eight
seen_by_nobody = refl
''',
    'crates/rules_one/proofs/Lib.antt': 'pub mod Laws\n',
    'crates/rules_one/proofs/Laws.antt': '''-- Laws. Assumes nothing.
use Rattle.std.specs.Prelude.{ℕ}
use Rattle.rules_one.specs.Numbers.{eight, Stated}

module _ (n : ℕ)
    (m : ℕ)
  where
    law : Stated eight
    law = n

pub theorem : Stated eight
theorem = law 1 2
''',
    'crates/rules_one/proofs/give/Answers.antt': '''-- `rules_one::give` meets its contract. Assumes nothing.
use Rattle.std.specs.Prelude.{◌≡◌, refl}
use Rattle.rules_one.specs.Numbers.{eight}
use Rattle.rules_one.proofs.give.Goals.{Start}
use Rattle.rules_one.proofs.give.Goals as goal

fact : (c : Start) → eight ≡ 8
fact c = refl

pub returns : goal.returns
returns c = fact c.Start
''',
    'crates/rules_one/must-fail/seven.edit': '# seven\nfile: src/lib.rt\nold: = 8;\nnew: = 7;\n',
    'crates/run_two/src/main.rt':
        'use rules_one::{\n    EIGHT,\n    give,\n};\n\nfn main(rt: HostRuntime) {\n    let n = give() + EIGHT;\n}\n',
    'docs/STATEMENTS.md':
        'About `crates/rules_one/specs/Numbers.antt`, proved in `crates/rules_one/proofs/Laws.antt`:\n\n- `theorem`: A sentence.\n',
    'bin/start': '#!/bin/sh\n# shellcheck source=bin/more.sh\n. "$1/bin/more.sh"\nmore\n',
    'bin/more.sh': '# shellcheck shell=sh\nmore() {\n    echo more\n}\n',
    'docs/page.md': '# A page\n\n| ' + 'wide ' * 40 + '|\n',
}
LEMMA = '\nlemma : ℕ → Stated eight\nlemma n = law n n\n'
PLANTED = [  # the check, a file, what is found once in it, what stands there instead, the message, or None where there must be none
    (names, 'crates/rules_one/proofs/Laws.antt', '2\n', '2\n' + LEMMA, 'crates/rules_one/proofs/Laws.antt:14: lemma: nothing uses it'),
    (names, 'crates/rules_one/proofs/Laws.antt', '2\n', '2\n' + LEMMA.replace('law n n', 'lemma n'), ':14: lemma: nothing uses it'),
    (names, 'crates/rules_one/proofs/Laws.antt', 'law = n\n', 'law = n\n\n    pub other : Stated eight\n    other = law\n',
     ':11: other: nothing uses it'),
    (names, 'crates/rules_one/proofs/Laws.antt', 'law 1 2', 'one', ':8: law: nothing uses it'),
    (names, 'crates/rules_one/proofs/Laws.antt', '{ℕ}', '{ℕ, ◌+◌}', 'Laws.antt: brought in and not used: ◌+◌'),
    (names, 'crates/rules_one/proofs/give/Answers.antt', 'fact c.Start', 'refl', 'give/Answers.antt:7: fact: nothing uses it'),
    (names, 'crates/rules_one/specs/Numbers.antt', '8\n', '8\n\npub nine : ℕ\nnine = 9\n', 'Numbers.antt:6: nine: nothing uses it'),
    (names, 'crates/rules_one/specs/Numbers.antt', 'Type 0\n', 'Type 0\nunfolding eight\n', None),
    (names, 'crates/rules_one/src/lib.rt', '8;\n', '8;\n\nconst NINE: usize = 9;\n', 'src/lib.rt:8: NINE: nothing uses it'),
    (names, 'crates/rules_one/src/lib.rt', '8;\n', '8;\n\npub struct Pair {\n    pub one: u8,\n}\n', 'src/lib.rt:8: Pair: nothing uses it'),
    (names, 'crates/run_two/src/main.rt', 'give()', '8', 'crates/rules_one/src/lib.rt:9: give: nothing uses it'),
    (names, 'crates/run_two/src/main.rt', 'give()', '8', 'crates/run_two/src/main.rt: brought in and not used: rules_one::give'),
    (names, 'docs/STATEMENTS.md', '- `theorem`', '- `other`', 'Laws.antt:11: theorem: nothing uses it'),
    (width, 'crates/rules_one/proofs/Laws.antt', 'Assumes nothing.', 'x' * 140, 'crates/rules_one/proofs/Laws.antt:1: 149 columns'),
    (width, 'bin/start', 'more\n', 'more ' + 'x' * 136 + '\n', 'bin/start:4: 141 columns'),
    (width, 'bin/start', 'more\n', 'more ' + 'x' * 135 + '\n', None),
    (width, 'docs/page.md', '# A page', '# A page ' + 'x' * 140, 'docs/page.md:1: 149 columns'),
    (scripts, 'bin/start', '\nmore\n', '\nmore $1\n', 'bin/start:4:6: note: Double quote to prevent globbing'),
    (scripts, 'bin/more.sh', 'echo more', 'echo $unset', 'bin/more.sh:3:'),
    (scripts, 'bin/more.sh', '# shellcheck shell=sh\n', '', 'bin/more.sh:1:1: error: Tips depend on target shell'),
    (crates, 'crates.txt', 'rules_one:\n', 'rules_one: run_two\n', 'crates.txt:4: rules_one names run_two, which does not stand above it'),
    (crates, 'crates.txt', 'rules_one:\n', 'rules_one: rules_one\n', 'crates.txt:4: rules_one names rules_one, which does not'),
    (crates, 'crates.txt', 'rules_one:\n', 'rules_one:\nrules_one:\n', 'crates.txt:5: rules_one is there twice'),
    (crates, 'crates.txt', 'rules_one:\n', 'rules_one staticlib:\n', None),
    (crates, 'crates.txt', '# run: programs', '# walk: programs', 'crates.txt:7: run_two stands in the section walk'),
    (crates, 'crates.txt', 'rules_one:\n', 'rules_one:\nrules_three:\n', 'crates.txt and crates/: only one of them has rules_three'),
    (crates, 'crates.txt', '# run: programs', '# Programs', 'crates.txt:7: run_two stands in the section of no layer'),
    (edits, 'crates/rules_one/must-fail/seven.edit', '= 8', '= 9', 'seven.edit: old: is in src/lib.rt 0 times'),
    (edits, 'crates/rules_one/must-fail/seven.edit', '= 8;', 'usize', 'seven.edit: old: is in src/lib.rt 2 times'),
    (edits, 'crates/rules_one/must-fail/seven.edit', '= 7', '= 8', 'seven.edit: new: is the same as old:'),
    (edits, 'crates/rules_one/must-fail/seven.edit', 'src/lib.rt', 'src/main.rt', 'seven.edit: there is no src/main.rt'),
    (edits, 'crates/rules_one/must-fail/seven.edit', 'old: = 8;\n', '', 'seven.edit: old: is in src/lib.rt 0 times'),
    (edits, 'crates/rules_one/must-fail/seven.edit', 'new: = 7;\n', '', 'seven.edit: it has no new:'),
    (edits, 'crates/rules_one/must-fail/seven.edit', '7;\n', '7;\nold: = 7;\nnew: = 6;\n', None),
    (edits, 'crates/rules_one/must-fail/seven.edit', '7;\n', '7;\nold: = 8;\nnew: = 6;\n', 'seven.edit: old: is in src/lib.rt 0 times'),
    (picture, 'docs/architecture.svg', 'rules_one', 'rules_two', 'docs/architecture.svg is not what tools/architecture makes'),
    (picture, 'crates.txt', 'run_two: rules_one', 'run_two:', 'docs/architecture.svg is not what tools/architecture makes'),
]


def plant(folder):
    for number, (check, path, old, new, _) in enumerate([(None, 'crates.txt', '', '', None)] + PLANTED):
        tree = os.path.join(folder, str(number))
        for name, text in WHOLE.items():
            os.makedirs(os.path.dirname(os.path.join(tree, name)), exist_ok=True)
            with open(os.path.join(tree, name), 'w', encoding='utf-8') as file:
                file.write(text)
        with open(os.path.join(tree, 'docs/architecture.svg'), 'w', encoding='utf-8') as file:
            file.write(architecture().picture(WHOLE['crates.txt']))
        text = read(tree, path)
        assert not check or check is picture or text.count(old) == 1, (path, old, text.count(old))
        with open(os.path.join(tree, path), 'w', encoding='utf-8') as file:
            file.write(text.replace(old, new, 1))
        yield tree


def planted(folder):
    """Each fault is found by its check, and where none was planted nothing is."""
    trees, missing = plant(folder), set()
    messages, lacking = found_in(next(trees))
    assert not messages, messages
    missing.update(lacking)
    for tree, (check, path, _, new, expected) in zip(trees, PLANTED):
        messages, lacking = found_in(tree, [check])
        missing.update(lacking)
        if not lacking:
            hit = any(expected in message for message in messages) if expected else not messages
            assert hit, f'{path}: {new!r}\nexpected: {expected}\n     got: {messages}'
    print(f'{len(PLANTED)} planted faults are found')
    return [], sorted(missing)


def main():
    messages, lacking = planted(sys.argv[1]) if len(sys.argv) == 2 else found_in(ROOT)
    for message in messages:
        print(message)
    if lacking and not messages:
        print(f"{'; '.join(lacking)}; on Debian: apt-get install shellcheck")
    return 1 if messages else 77 if lacking else 0


if __name__ == '__main__':
    sys.exit(main())

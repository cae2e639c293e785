"""Checks of the layout page, docs/LAYOUT.md, by the model. Run: python3 tests/book/test_page.py"""

import pathlib
import re
import sys

import model

ROOT = pathlib.Path(__file__).resolve().parents[2]
PAGE = ROOT / 'docs' / 'LAYOUT.md'
DEFINITION = ROOT / 'crates' / 'book_layout' / 'specs' / 'Numbers.antt'
CODE = ROOT / 'crates' / 'book_layout' / 'src' / 'lib.rt'

# The lines that page, definition and code have in common, reading and writing.
READING = ["below 128: the two bytes' number;", '128 or above: that less 65,536.']
WRITING = ['0 or above: itself;', 'below 0: that and 65,536.']

TAGS = ['must', 'best-effort', 'condition']


# Numbers as the page writes them.
def number_of(word):
    return int(word.replace(',', '').replace('−', '-'))


def word_of(number):
    return f'{number:,}'.replace('-', '−')


# A file's lines, without what marks a comment.
def plain_lines(path):
    return [re.sub(r'^\s*(--|//)?\s*', '', line) for line in path.read_text(encoding='utf-8').splitlines()]


# The two lines stand in the file once, one below the other.
def has_pair(path, pair):
    lines = plain_lines(path)
    return lines.count(pair[0]) == 1 and lines[lines.index(pair[0]) + 1] == pair[1] and lines.count(pair[1]) == 1


# Rows: two bytes, their number, the setting.
def rows(text):
    for lower, upper, number, setting in re.findall(r'^\| `(\w\w) (\w\w)` \| ([\d,]+) \| ([−\d,]+) \|$', text, re.M):
        yield bytes.fromhex(lower + upper), number_of(number), number_of(setting)


# The book written out: bytes, and what they are.
def written_out(text):
    return re.findall(r'^    ((?:[0-9a-f]{2} )+) +(.*)$', text, re.M)


# The cells of the table beside the two lines are code of the two files.
def cells(text):
    for definition, code in re.findall(r'^\| [^|`]*\| `([^`]+)` \| `([^`]+)` \|$', text, re.M):
        yield definition, DEFINITION
        yield code, CODE


# Each yields whether one check holds.
def checks():
    text = PAGE.read_text(encoding='utf-8')
    for path in (PAGE, DEFINITION, CODE):
        yield has_pair(path, READING)
        yield has_pair(path, WRITING)

    found = list(cells(text))
    yield len(found) == 6
    for cell, path in found:
        yield sum(line.removesuffix(' {') == cell for line in plain_lines(path)) == 1

    table = list(rows(text))
    yield len(table) == 10
    for two, number, setting in table:
        yield model.unsigned(two) == number
        yield model.command_of(b'\0\0' + two) == (0, 0, setting)
        yield model.bytes_of((0, 0, setting)) == b'\0\0' + two

    lines = written_out(text)
    book = b''.join(bytes.fromhex(part) for part, _ in lines)
    yield book == (ROOT / 'examples' / 'three.book').read_bytes()
    kind, routines = model.read(book)
    yield kind == 'routines' and f'{len(routines)} routines: the pairs end at 2 + 8 × 3 = {model.end_of_pairs(3)}' == lines[0][1]
    said = [f'routine {i} from byte {offset} on, {length} bytes'
            for i in range(len(routines)) for offset, length in [model.pair_of(book, i)]]
    said += [f'routine {i}: device {device}, {TAGS[tag]}, {word_of(setting)}'
             for i, routine in enumerate(routines) for device, tag, setting in routine]
    yield [what for _, what in lines[1:]] == said


# "This must be shown for every pair of bytes": the two lines give what the model, two's complement, gives.
def pairs():
    for lower in range(256):
        for upper in range(256):
            number = lower + 256 * upper
            setting = number if upper < 128 else number - 65536
            yield model.command_of(bytes([0, 0, lower, upper])) == (0, 0, setting)
            back = setting if setting >= 0 else setting + 65536
            yield bytes([0, 0, back % 256, back // 256]) == model.bytes_of((0, 0, setting))


def main():
    results = list(checks()) + list(pairs())
    failed = results.count(False)
    print(f'{len(results) - failed} passed, {failed} failed')
    return 1 if failed else 0


if __name__ == '__main__':
    sys.exit(main())

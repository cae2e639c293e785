#!/usr/bin/env python3
"""Checks of the handbook, docs/HANDBOOK.md, and of examples/sittings, by running what they show.

    tests/handbook.py PROGRAM [SHOW_BOOK [HINTS]]

PROGRAM is plot_hub. SHOW_BOOK reads the books that the handbook shows; without it the model of the book does. HINTS is
plot_hub_hints, which must give the reasons of the handbook's unread lines; without it they are only seen to be unread.

What is checked by its mark in the page:
    ```sitting     lines and what the program prints, side by side
    ```order 3     the order of the sitting above it after that many lines, built here from lines and answers alone
    ```question    lines alone; those of the first question are the lines of the first sitting under "Answers", and so on
    ```book        bytes of a book and what show_book prints
    <!-- worked: NAME -->   a table of a sitting told step by step, the same as in examples/sittings/NAME.txt and NAME.key
    <!-- table: NAME -->    calls, words, unread, answers, refusals
"""

import pathlib
import re
import subprocess
import sys

ROOT = pathlib.Path(__file__).resolve().parents[1]
PAGE = ROOT / 'docs' / 'HANDBOOK.md'
SITTINGS = ROOT / 'examples' / 'sittings'
TABLE_OF_REFUSALS = ROOT / 'crates' / 'rules_routine' / 'specs' / 'Refusals.antt'
WORDS_PRINTED = ROOT / 'crates' / 'line_rules' / 'specs' / 'Printing.antt'
MODEL = [sys.executable, str(ROOT / 'tests' / 'book' / 'show.py')]

OTHER_BLOCKS = {'sh', 'text'}
LETTERS = 'OSNDBCFR'

faults = []
counts = {}


def check(holds, said):
    if not holds:
        faults.append(said)


def count(name, by=1):
    counts[name] = counts.get(name, 0) + by


def run(program, data):
    return subprocess.run(program, input=data, stdout=subprocess.PIPE, check=True, timeout=60).stdout


# ---- the page: headings, blocks, rows of tables


class Piece:
    def __init__(self, kind, name, content, at):
        self.kind, self.name, self.content, self.at = kind, name, content, at


def cells_of(line):
    return [cell.strip() for cell in line.split('|')[1:-1]]


# In the page's order: heading, block (name: its info string), mark (name: `worked: NAME` or `table: NAME`), row (name: the mark above).
def pieces_of(text):
    block, mark = None, ''
    for at, line in enumerate(text.split('\n'), 1):
        if block is not None:
            if line == '```':
                yield block
                block = None
            else:
                block.content.append(line)
        elif line.startswith('```'):
            block = Piece('block', line[3:], [], at)
        elif line.startswith('#'):
            mark = ''
            yield Piece('heading', '', line.lstrip('#').strip(), at)
        elif found := re.fullmatch(r'<!-- (\w+: \w+) -->', line):
            mark = found[1]
            yield Piece('mark', mark, '', at)
        elif line.startswith('|') and mark:
            yield Piece('row', mark, cells_of(line), at)
    check(block is None, 'a block is not closed')


# The rows of a table, without its head.
def rows_of(pieces, name):
    rows = [piece for piece in pieces if piece.kind == 'row' and piece.name == 'table: ' + name]
    check(len(rows) > 2, f'there is no table {name}')
    return rows[2:]


# What stands between backquotes in a cell.
def codes(cell):
    return re.findall(r'`([^`]+)`', cell)


# ---- sittings


class Sitting:
    def __init__(self, name, at):
        self.name, self.at = name, at
        self.lines, self.answers, self.devices = [], [], []

    def add(self, line, texts):
        if line:
            self.lines.append(line)
            self.answers.append(texts)
        elif texts[0].startswith('device '):
            self.devices += texts
        else:
            self.answers[-1] += texts

    def input(self):
        return ''.join(line + '\n' for line in self.lines).encode()

    def key(self):
        printed = [text for texts in self.answers for text in texts] + self.devices
        return ''.join(text + '\n' for text in printed).encode()


def from_block(piece):
    sitting = Sitting(f'the sitting at line {piece.at}', piece.at)
    for line in piece.content:
        left, bar, right = line.partition('| ')
        check(bar, f'{sitting.name}: no bar in: {line}')
        sitting.add(left.rstrip(), [right])
    return sitting


# Rows: number, line, answers, why. A row with no number shows what is printed at the end.
def from_rows(name, rows):
    sitting = Sitting(name, rows[0].at)
    for row in rows:
        if row.content[0].isdigit() or row.content[0] == '':
            line = ''.join(codes(row.content[1]))
            sitting.add(line, codes(row.content[2]))
            check(row.content[0] in ('', str(len(sitting.lines))), f'{name}: line {row.at} of the page is misnumbered')
            check(row.content[3] != '', f'{name}: line {row.at} of the page does not say why')
    return sitting


# ---- the order, from lines and answers


class Order:
    def __init__(self):
        self.entries, self.bar, self.sent = [], 0, {}

    def place(self, entry, after):
        at = self.bar if after == 0 else self.index(after) + 1
        while at < len(self.entries) and self.entries[at][0] != 'routine':
            at += 1
        self.entries.insert(at, entry)

    def index(self, number):
        return next(i for i, entry in enumerate(self.entries) if entry[:2] == ['routine', number])

    def tell(self, line, text):
        words = text.split()
        numbers = [int(word) for word in words if re.fullmatch(r'-?\d+', word)]
        if words[0] == 'placed':
            self.place(['routine', numbers[0], [], False], numbers[1])
        elif words[0] == 'send':
            self.sent[numbers[0]] = numbers[1:]
        elif words[0] == 'done':
            self.entries[self.index(numbers[0])][2].append(self.sent[numbers[0]])
        elif words[0] == 'committed':
            self.entries[self.index(numbers[0])][3] = True
        elif words[0] == 'aborted':
            del self.entries[self.index(numbers[0])]
        elif words[0] == 'down':
            self.place(['down', numbers[0]], numbers[1])
        elif words[0] == 'up':
            self.place(['up', numbers[0], int(line.split()[2])], numbers[1])

    def move_bar(self):
        running = [i for i, entry in enumerate(self.entries) if entry[0] == 'routine' and not entry[3]]
        self.bar = running[0] if running else len(self.entries)

    def draw(self):
        drawn = [drawn_entry(entry) for entry in self.entries]
        return '  '.join(drawn[:self.bar] + ['|'] + drawn[self.bar:])

    # The settings of the serial run; None is a device that is down.
    def run(self, devices):
        up, settings = [True] * devices, [0] * devices
        for entry in self.entries:
            if entry[0] == 'routine':
                for device, setting in entry[2]:
                    settings[device] = setting
            else:
                up[entry[1]] = entry[0] == 'up'
                settings[entry[1]] = entry[2] if entry[0] == 'up' else settings[entry[1]]
        return [setting if is_up else None for is_up, setting in zip(up, settings)]


def drawn_entry(entry):
    if entry[0] == 'routine':
        done = ' '.join(f'{device}={setting}' for device, setting in entry[2])
        return f'{entry[1]}{"*" if entry[3] else ""}({done})'
    return f'down {entry[1]}' if entry[0] == 'down' else f'up {entry[1]}={entry[2]}'


# The order after so many lines of a sitting.
def order_after(sitting, lines):
    order = Order()
    for line, texts in zip(sitting.lines[:lines], sitting.answers):
        if texts == ['opened']:
            order = Order()
        for text in texts:
            order.tell(line, text)
        order.move_bar()
    return order


# ---- checks of what the page shows


# Whether the program prints what is shown; if so, the order's serial run must give the devices.
def check_sitting(program, sitting):
    count('sittings')
    printed = run([program], sitting.input())
    check(printed == sitting.key(), f'{sitting.name}: the program prints\n{printed.decode()}')
    if printed != sitting.key():
        return False
    if sitting.devices:
        serial = order_after(sitting, len(sitting.lines)).run(len(sitting.devices))
        shown = [None if line.endswith(' down') else int(line.split()[3]) for line in sitting.devices]
        check(serial == shown, f'{sitting.name}: the serial run gives {serial}')
    return True


def check_order(piece, sitting):
    count('orders')
    lines = int(piece.name.split()[1])
    check(0 < lines <= len(sitting.lines), f'the order at line {piece.at} is that of no line')
    drawn = order_after(sitting, lines).draw()
    check(piece.content == [drawn], f'the order at line {piece.at} is {drawn}')


def check_worked(sitting):
    count('worked sittings')
    for suffix, shown in (('txt', sitting.input()), ('key', sitting.key())):
        path = SITTINGS / f'{sitting.name}.{suffix}'
        check(path.is_file() and path.read_bytes() == shown, f'{path.name} is not what the handbook shows')


# All sittings of the page, in its order, each checked, with the orders drawn below them.
def sittings_of(program, pieces):
    found, worked, answers_begin, is_right = [], {}, None, False
    for piece in pieces:
        if piece.kind == 'row' and piece.name.startswith('worked: '):
            worked.setdefault(piece.name[len('worked: '):], []).append(piece)
    for piece in pieces:
        if piece.kind == 'heading' and piece.content == 'Answers':
            answers_begin = len(found)
        elif piece.kind == 'block' and piece.name == 'sitting':
            found.append(from_block(piece))
            is_right = check_sitting(program, found[-1])
        elif piece.kind == 'mark' and piece.name.startswith('worked: '):
            name = piece.name[len('worked: '):]
            found.append(from_rows(name, worked[name]))
            check_worked(found[-1])
            is_right = check_sitting(program, found[-1])
        elif piece.kind == 'block' and piece.name.startswith('order ') and is_right:
            check_order(piece, found[-1])
    check(len(worked) >= 3, 'fewer than three worked sittings')
    check(answers_begin is not None, 'there are no answers')
    return found, found[answers_begin:]


def check_blocks(pieces, answers):
    questions = [piece for piece in pieces if piece.kind == 'block' and piece.name == 'question']
    count('questions', len(questions))
    check([piece.content for piece in questions] == [answer.lines for answer in answers], 'questions and answers have other lines')
    for piece in pieces:
        if piece.kind == 'block':
            known = piece.name in OTHER_BLOCKS | {'sitting', 'question', 'book'} or re.fullmatch(r'order \d+', piece.name)
            check(known, f'the block at line {piece.at} has no mark')


def check_files(program):
    for path in sorted(SITTINGS.iterdir()):
        check(path.suffix in ('.txt', '.key'), f'{path.name}: neither a sitting nor a key')
        check(path.with_suffix('.txt').is_file(), f'{path.name} has no sitting')
        if path.suffix == '.txt':
            key = path.with_suffix('.key')
            check(key.is_file() and key.read_bytes() == run([program], path.read_bytes()), f'{path.name}: its key is another')


# ---- checks of the tables


# Each line that the table has is read; the letters are all.
def check_calls(program, pieces):
    rows = rows_of(pieces, 'calls')
    check([codes(row.content[0]) for row in rows] == [[letter] for letter in LETTERS], 'the table of calls has other letters')
    for row in rows:
        for line in codes(row.content[3]):
            printed = run([program], f'O 3 2 1\n{line}\n'.encode()).split(b'\n')[1]
            check(line[0] == row.content[0][1] and printed != b'unread', f'the call {line} is unread')


# A line for each word of the table of words, to try its ends with. An id's range is the routines that run: there is nothing to try.
WORDS = {
    'N': ['O {} 2 1'], 'K': ['O 3 {} 1'], 'first': ['O 3 2 {}'], 'device': ['S {} 1 0', 'F {}', 'R {} 0'], 'tag': ['S 0 {} 0 0 0 0'],
    'setting': ['S 0 0 {}', 'R 2 {}'], 'id': ['N {}', 'D {}', 'B {}', 'C {}'],
}


def ends_of(cell):
    found = re.search(r'([−\d,]+) to ([−\d,]+)', cell)
    return [int(word.replace('−', '-').replace(',', '')) for word in found.groups()] if found else None


# What the program answers with the word at a number; device 2 is down, so that it can be restarted.
def answer_at(program, form, number):
    return run([program], f'O 3 2 1\nF 2\n{form.format(number)}\n'.encode()).decode().split('\n')[2]


def check_words(program, pieces):
    rows = rows_of(pieces, 'words')
    check([codes(row.content[0])[0] for row in rows] == list(WORDS), 'the table of words has other words')
    for row in rows:
        for form in WORDS[codes(row.content[0])[0]]:
            low, high = ends_of(row.content[1])
            tried = {number: answer_at(program, form, number) for number in (low - 1, low, high, high + 1)}
            unread = [number for number, said in tried.items() if said == 'unread']
            check(unread == [low - 1, high + 1], f'{form}: unread are {unread} of {list(tried)}')
            if ends := ends_of(row.content[2]):
                tried = {number: answer_at(program, form, number) for number in (ends[0] - 1, ends[0], ends[1], ends[1] + 1)}
                out = [number for number, said in tried.items() if re.match('unread|refused', said)]
                check(out == [ends[0] - 1, ends[1] + 1], f'{form}: turned down are {out} of {list(tried)}')


# A line as the table of reasons writes it: signs for bytes that do not show, and … for as many zeros as make 129 bytes.
def line_shown(text):
    for sign, byte in (('␠', ' '), ('␍', '\r'), ('⇥', '\t'), ('␊', '')):
        text = text.replace(sign, byte)
    return text.replace('…', '0' * (129 - len(text) + 1))


def check_unread(program, hints, pieces):
    rows = rows_of(pieces, 'unread')
    check([row.content[0] for row in rows] == [str(number + 1) for number in range(len(rows))], 'the reasons are misnumbered')
    for row in rows:
        reason, = codes(row.content[1])
        examples = codes(row.content[2])
        check(examples, f'no line for: {reason}')
        for text in examples:
            before = '' if reason == 'no hub yet' else 'O 3 2 1\n'
            lines = (before + line_shown(text) + '\n').encode()
            count('unread lines')
            check(run([program], lines).split(b'\n')[before.count('\n')] == b'unread', f'{text} is read')
            if hints:
                told = run([hints], lines).decode().split('\n')[0]
                check(told == f'line {lines.count(10)}: unread: {reason}', f'{text}: {told}')


# The form of an answer: its words and, of a refusal, how many numbers it has.
def form_of(text):
    words = [word for word in text.split() if not re.fullmatch(r'-?\d+', word)]
    if words == ['refused']:
        words.append(str(len(text.split())))
    return ' '.join(words)


def check_answers(pieces, sittings):
    shown = {form_of(text) for sitting in sittings for texts in sitting.answers + [sitting.devices] for text in texts}
    table = [form_of(code) for row in rows_of(pieces, 'answers') for code in codes(row.content[0])]
    check(len(set(table)) == len(table), 'a form stands twice in the table of answers')
    check(set(table) == shown, f'forms in the table and in the sittings: {set(table) ^ shown}')
    printed = re.findall(r'^answer_text \(([\w-]+)', WORDS_PRINTED.read_text(encoding='utf-8'), re.M)
    names = {'not_held' if form == 'not held' else form.split()[0] for form in table}
    check(set(printed) - names == {'limited'}, f'the definitions print other answers: {set(printed) - names}') # no line is answered so


# Numbers of the definitions' table, and whether each has an index.
def numbers_defined():
    table = TABLE_OF_REFUSALS.read_text(encoding='utf-8')
    numbers = dict(re.findall(r'^number_of \(?(\w+)(?: i\))? = (\d+)', table, re.M))
    indexes = dict(re.findall(r'^index_of \(?(\w+)(?: i\))? = (None|Some i)$', table, re.M))
    check(numbers.keys() == indexes.keys(), 'a cause has a number and no index, or the other way round')
    return {int(number): indexes[cause] == 'Some i' for cause, number in numbers.items()}


# By number, the letters of the lines that some sitting has refused with it, and the indexes.
def refusals_shown(sittings):
    letters, indexes = {}, {}
    for sitting in sittings:
        for line, texts in zip(sitting.lines, sitting.answers):
            if texts[0].startswith('refused'):
                number, *index = [int(word) for word in texts[0].split()[1:]]
                letters.setdefault(number, set()).add(line[0])
                indexes.setdefault(number, set()).update(index)
    return letters, indexes


def check_refusals(pieces, sittings, in_books):
    rows, defined = rows_of(pieces, 'refusals'), numbers_defined()
    letters, indexes = refusals_shown(sittings)
    check([int(row.content[0]) for row in rows] == sorted(defined) == list(range(1, 23)), 'the numbers of the table are not 1 to 22')
    check(len({row.content[1] for row in rows}) == len(rows), 'a cause stands twice in the table of refusals')
    for row in rows:
        number = int(row.content[0])
        has_index = defined.get(number)
        check(all(row.content), f'refusal {number}: an empty cell')
        check((row.content[3] != 'none') == has_index, f'refusal {number}: another index')
        check(set(codes(row.content[2])) == letters.get(number, set()), f'refusal {number}: the sittings show {letters.get(number)}')
        if letters.get(number) and has_index:
            check(indexes[number] - {0}, f'refusal {number}: no index shown but 0')
        check(('book' in row.content[2]) == (number in in_books), f'refusal {number}: of a book or not')
        count('refusals')


# Books, and the numbers that they are refused with.
def check_books(show_book, pieces):
    refused = set()
    for piece in pieces:
        if piece.kind == 'block' and piece.name == 'book':
            books = Sitting(f'the books at line {piece.at}', piece.at)
            for line in piece.content:
                left, _, right = line.partition('| ')
                books.add(left.strip(), [right])
            for book, texts in zip(books.lines, books.answers):
                count('books')
                printed = run(show_book, bytes.fromhex(book)).decode().split('\n')[:-1]
                check(printed == texts, f'{books.name}: {book}: {printed}')
                refused |= {int(number) for number in re.findall(r'^refused (\d+)', '\n'.join(texts), re.M)}
    return refused


# ---- links


def anchors_of(text):
    names = re.findall(r'^#+ +(.*)$', re.sub(r'^```.*?^```$', '', text, flags=re.M | re.S), re.M)
    return {re.sub(r'[^\w\- ]', '', name.lower()).replace(' ', '-') for name in names}


def check_links(text):
    for target in re.findall(r'\]\(([^)]+)\)', text):
        count('links')
        path, _, anchor = target.partition('#')
        file = PAGE.parent / path if path else PAGE
        check(file.exists(), f'a link to {target}, which is not there')
        if anchor and file.exists():
            check(anchor in anchors_of(file.read_text(encoding='utf-8')), f'a link to {target}: no such heading')


def main():
    if not 2 <= len(sys.argv) <= 4:
        sys.exit(__doc__)
    program, show_book, hints = (sys.argv[1:] + [None, None])[:3]
    text = PAGE.read_text(encoding='utf-8')
    pieces = list(pieces_of(text))
    sittings, answers = sittings_of(program, pieces)
    check_blocks(pieces, answers)
    check_files(program)
    check_calls(program, pieces)
    check_words(program, pieces)
    check_unread(program, hints, pieces)
    check_answers(pieces, sittings)
    check_refusals(pieces, sittings, check_books([show_book] if show_book else MODEL, pieces))
    check_links(text)
    for fault in faults:
        print('handbook: ' + fault)
    print(', '.join(f'{number} {name}' for name, number in counts.items()) + f': {len(faults)} faults')
    sys.exit(bool(faults))


if __name__ == '__main__':
    main()

#!/usr/bin/env python3
"""Why lines of a sitting are unread: an independent version of what plot_hub_hints prints, over bytes, and the comparison of the two.

    tests/hints.py SITTING KEY                              # prints what the hints must be
    tests/hints.py --compare PROGRAM REFERENCE HISTORY SEED # the program against this file, the keys made by the reference
"""
import random
import re
import subprocess
import sys

TEXTS = {
    'TooLong': 'longer than 128 bytes',
    'Empty': 'an empty line',
    'CarriageReturn': 'a carriage return',
    'OtherByte': 'a character that no line has, such as a tab or an accented letter',
    'SpaceAtEnd': 'a space at its end',
    'SpaceAtStart': 'a space at its start',
    'SpacesTogether': 'two spaces together',
    'LowerCase': 'a lower-case letter for the call',
    'NoCall': 'no call of that name',
    'TooFew': 'too few words',
    'TooMany': 'too many words',
    'NoNumber': 'a word that is no number',
    'OutsideWidth': 'a number outside its width',
    'NoHub': 'no hub yet',
}

BYTE, SETTING, ID = (0, 255), (-32768, 32767), (0, 4294967295)
WIDTHS = {b'O': [BYTE, BYTE, ID], b'N': [ID], b'D': [ID], b'B': [ID], b'C': [ID], b'F': [BYTE], b'R': [BYTE, SETTING]}


def inside(word, width):
    if word.startswith(b'-') and width is not SETTING:
        return False
    return width[0] <= int(word) <= width[1]


def shape(line):
    """The reason that lies in the line alone; none if it is a call."""
    if len(line) > 128:
        return 'TooLong'
    if not line:
        return 'Empty'
    if 13 in line:
        return 'CarriageReturn'
    if min(line) < 32 or max(line) > 126:
        return 'OtherByte'
    if line.endswith(b' '):
        return 'SpaceAtEnd'
    if line.startswith(b' '):
        return 'SpaceAtStart'
    if b'  ' in line:
        return 'SpacesTogether'
    letter, *words = line.split(b' ')
    if letter in b'o s n d b c f r'.split():
        return 'LowerCase'
    if letter != b'S' and letter not in WIDTHS:
        return 'NoCall'
    widths = [BYTE, BYTE, SETTING] * ((len(words) + 2) // 3) if letter == b'S' else WIDTHS[letter]
    if len(words) != len(widths):
        return 'TooFew' if len(words) < len(widths) else 'TooMany'
    if not all(re.fullmatch(rb'-?[0-9]+', word) for word in words):
        return 'NoNumber'
    if not all(map(inside, words, widths)):
        return 'OutsideWidth'
    return None


def lines_of(text):
    lines = text.split(b'\n')
    return lines if lines[-1] else lines[:-1]


def reasons(sitting, key):
    """For each line its reason, or none; and how many lines were refused. The key must say `unread` for exactly the lines with a reason."""
    answers = iter(lines_of(key))
    opened, refused, found = False, 0, []
    for line in lines_of(sitting):
        answer = next(answers)
        if answer.startswith(b'aborted ') and line[:1] in (b'F', b'R'):  # a line of its own, before that of the event
            answer = next(answers)
        reason = shape(line) or (None if opened or line.startswith(b'O') else 'NoHub')
        assert (reason is not None) == (answer == b'unread'), (line, reason, answer)
        opened = opened or answer == b'opened'
        refused += answer.startswith(b'refused ')
        found.append(reason)
    rest = list(answers)
    assert all(answer.startswith(b'device ') for answer in rest) and bool(rest) == opened, rest
    return found, refused


def hints(sitting, key):
    return told(*reasons(sitting, key))


def told(found, refused):
    said = [f'line {number}: unread: {TEXTS[reason]}' for number, reason in enumerate(found, 1) if reason]
    count = 'line' if len(found) == 1 else 'lines'
    return '\n'.join(said + [f'{len(found)} {count}: {len(said)} unread, {refused} refused', '']).encode()


# ---- lines whose reason is written down here

LONGEST = b'O 3 2 ' + b'0' * 121 + b'1'
WORKED = {  # for each reason lines that have it; for none lines that are calls
    'TooLong': [LONGEST + b'0', b' ' * 129, b'\r' * 129],
    'Empty': [b''],
    'CarriageReturn': [b'\r', b'N 1\r', b'N\r1', b'\t\r '],
    'OtherByte': [b'N\t1', b'\t', b'N 1\x00', b'\x00', b'N 1\x7f', b'N 1\x1f', b'N 1\x80', b'N 1\xff', b'R 0 \xe2\x88\x9215',
        b'\xef\xbb\xbfO 3 2 1', b'N 1\t ', b'\xc3\xa9', b'N 1\x0b', b'N\xa01', b'\xc3'],
    'SpaceAtEnd': [b' ' * 128, b' ', b'N 1 ', b' N  1 ', b'S ', b'n '],
    'SpaceAtStart': [b' N 1', b'  N 1', b' n 1'],
    'SpacesTogether': [b'N  1', b'n  1', b'R 0   1'],
    'LowerCase': [b'o', b's', b'n', b'd', b'b', b'c', b'f', b'r', b'o 1 1 1', b's 0 0 50', b'n x y'],
    'NoCall': [b'~', b'!', b'x', b'X 1', b'NN 1', b'nn 1', b'N1', b'on 1', b'7', b'-', b'# O 3 2 1', b'Open 3 2 1', b'O,3,2,1'],
    'TooFew': [b'O', b'O 1', b'O 1 2', b'N', b'D', b'B', b'C', b'F', b'R', b'R 0', b'S 0', b'S 0 0', b'S 0 0 5 0', b'S 0 0 5 0 0', b'S x',
        b'S 256 0', b'O x y'],
    'TooMany': [b'O 1 2 3 4', b'N 1 2', b'D 1 2', b'B 1 x', b'C 1 2 3', b'F 0 0', b'R 0 0 0', b'O 256 2 3 4'],
    'NoNumber': [b'N 1~', b'N -', b'N --1', b'N +1', b'N x', b'N 1x', b'N x1', b'N 1-', b'N 1.0', b'N 1,000', b'N 0x1', b'N /', b'N :',
        b'R 0 -', b'R 0 --1', b'R 0 +1', b'R 0 1-1', b'S 0 0 x', b'S 256 0 x', b'O 256 x 1', b'S 0 0 5 0 0 -', b'R - 0'],
    'OutsideWidth': [b'N -1', b'N -0', b'N 4294967296', b'N 99999999999999999999', b'N ' + b'9' * 126, b'N -' + b'9' * 125,
        b'N 18446744073709551617', b'D 4294967296', b'B 4294967296', b'C 4294967296', b'C -1', b'F 256', b'F -1', b'F -0', b'F 65535',
        b'F 65536', b'R 256 0', b'R 0 32768', b'R 0 -32769', b'R 0 65535', b'R 0 65536', b'R -1 0', b'R 0 -99999999999999999999',
        b'S 256 0 0', b'S 0 256 0', b'S 0 0 32768', b'S 0 0 -32769', b'S 0 -1 0', b'S -0 0 0', b'S 0 0 0 0 0 32768', b'S 0 0 0 256 0 0',
        b'O 256 0 1', b'O 1 256 1', b'O 1 0 4294967296', b'O -1 0 1', b'O 1 -0 1', b'O 1 1 -1'],
    None: [LONGEST, b'S', b'S 0 0 0', b'S 255 255 32767', b'S 255 255 -32768', b'S 0 0 -0', b'S 000 00 -0001', b'N 0', b'N 4294967295',
        b'D 4294967295', b'B 00000000000000000001', b'C 4294967295', b'F 255', b'F 000255', b'R 255 32767', b'R 255 -32768',
        b'R 0 -' + b'0' * 123, b'N ' + b'0' * 126, b'S' + b' 0 0 0' * 21, b'O 255 255 4294967295', b'O 0 0 0', b'O 33 0 1', b'O 1 9 1',
        b'O 1 0 0'],
}


def worked_sittings():
    """Sittings of worked lines, each with its reasons: all together, and each line by itself, with a hub and without, ended and not."""
    lines = [line for group in WORKED.values() for line in group]
    for before in ([], [b'O 3 2 1'], [b'O 0 0 0'], [b'O 3 2 1', b'O 33 0 1'], [b'', b'O 0 0 0', b'N 1', b'O 3 2 1', b'N 1']):
        yield b'\n'.join(before + lines) + b'\n'
        yield b'\n'.join(before + lines)
        yield b'\r\n'.join(before + lines) + b'\r\n'
        yield b'\n\n'.join(before + lines) + b'\n\n'
    for line in lines:
        yield from (line, line + b'\n', b'O 3 2 1\n' + line, b'O 3 2 1\n' + line + b'\n', b'O 0 0 0\n' + line)


def check_worked():
    """Of each worked line `shape` says what the table above says, and the table has lines for every reason."""
    for reason, lines in WORKED.items():
        for line in lines:
            assert shape(line) == reason, (line, reason, shape(line))
    assert set(WORKED) | {'NoHub'} == set(TEXTS) | {None}


# ---- random sittings

SPOILED = [b' ', b'  ', b'\t', b'\r', b'\0', b'\x7f', b'\xe2\x88\x92', b'-', b'+', b'9', b'99999', b'4294967296', b'x', b'S', b'\n',
           b'O 3 2 1\n']


def spoiled(sitting, dice):
    """Some places of a sitting changed."""
    lines = sitting.split(b'\n')
    for _ in range(dice.randrange(1, 6)):
        at = dice.randrange(len(lines))
        line = lines[at]
        place = dice.randrange(len(line) + 1)
        words = line.split(b' ')
        lines[at] = dice.choice([
            lambda: line[:place] + dice.choice(SPOILED) + line[place:],
            lambda: line[:place] + line[place + 1:],
            lambda: line[:place] + bytes([dice.randrange(256)]) + line[place + 1:],
            lambda: line[:1].lower() + line[1:],
            lambda: line + dice.choice([b' ', b'\r', b' 1', b' x', b'0' * dice.randrange(120, 130)]),
            lambda: b' ' + line,
            lambda: b' '.join(words[:-1]),
            lambda: b' '.join(words + [dice.choice([b'0', b'-1', b'256', b'-'])]),
            lambda: b' '.join(words[:1] + [dice.choice([b'255', b'256', b'-1', b'--1', b'4294967295', b'4294967296', b'-32769', word])
                                           for word in words[1:]]),
        ])()
    return b'\n'.join(lines)


def random_sittings(history, seed):
    """Sittings as the reference makes them, damaged by it and by this file; single ones, and many behind each other."""
    dice = random.Random(seed)
    made = []
    for index in range(700):
        for kind in ('damaged', 'random'):
            sitting = subprocess.run([history, kind, str(seed), str(index)], stdout=subprocess.PIPE, check=True).stdout
            made.append(sitting if kind == 'damaged' and index % 2 else spoiled(sitting, dice))
    yield from made[:400]
    for at in range(400, len(made), 50):
        yield b'\n'.join(made[at:at + 50])
    yield b'\n'.join(spoiled(dice.choice(made), dice) for _ in range(3000))


def run(program, text):
    ran = subprocess.run([program], input=text, stdout=subprocess.PIPE, stderr=subprocess.PIPE, check=True)
    assert ran.stderr == b'', ran.stderr
    return ran.stdout


def compare(program, reference, history, seed):
    check_worked()
    reached, count, lines = dict.fromkeys(TEXTS, 0), 0, 0
    for make in (worked_sittings(), random_sittings(history, int(seed))):
        for sitting in make:
            key = run(reference, sitting)
            found, refused = reasons(sitting, key)
            expected, got = told(found, refused), run(program, sitting)
            if got != expected:
                print(f'a sitting of {len(sitting)} bytes: {sitting[:2000]!r}\nexpected: {expected[-2000:]!r}\n     got: {got[-2000:]!r}')
                return 1
            for reason in filter(None, found):
                reached[reason] += 1
            lines += len(found)
            count += 1
    print(f'{count} inputs of {lines} lines; unread:', ', '.join(f'{name} {times}' for name, times in reached.items()))
    return 0 if min(reached.values()) >= 100 else 1


def main():
    if sys.argv[1] == '--compare':
        return compare(*sys.argv[2:])
    with open(sys.argv[1], 'rb') as sitting, open(sys.argv[2], 'rb') as key:
        sys.stdout.buffer.write(hints(sitting.read(), key.read()))
    return 0


if __name__ == '__main__':
    sys.exit(main())

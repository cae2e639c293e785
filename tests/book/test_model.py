"""Checks of the model itself. Run: python3 tests/book/test_model.py"""

import random
import sys

import model

BYTE = bytes.fromhex


def random_routine(rng):
    routine = [(rng.randrange(32), rng.randrange(2), rng.randint(-1000, 1000))
               for _ in range(rng.randint(1, 8))]
    # Conditions, none of them last or before another.
    for at in range(len(routine) - 1):
        if rng.random() < 0.2 and (at == 0 or routine[at - 1][1] != 2):
            routine[at] = (routine[at][0], 2, routine[at][2])
    return routine


def random_routines(rng, most):
    return [random_routine(rng) for _ in range(rng.randint(0, most))]


def refusal(number, index=None):
    return ('refused', number, index)


# The document's own examples, and books written out by hand.
def reading():
    yield BYTE('00 00'), ('routines', [])
    yield BYTE('00'), refusal(18)
    yield b'', refusal(18)
    one = BYTE('01 00  0a 00 00 00 04 00 00 00  1f 01 18 fc')
    yield one, ('routines', [[(31, 1, -1000)]])
    two = BYTE('02 00  12 00 00 00 04 00 00 00  16 00 00 00 08 00 00 00'
               '  00 00 e8 03  01 00 14 00  02 01 ff ff')
    yield two, ('routines', [[(0, 0, 1000)], [(1, 0, 20), (2, 1, -1)]])
    yield one[:-1], refusal(19)
    yield one[:9], refusal(18)
    yield one + b'\0', refusal(19)
    yield b'\0\0\0', refusal(19)
    yield BYTE('01 00  0a 00 00 00 04 00 00 00  20 01 18 fc'), refusal(5, 0)
    yield BYTE('01 00  0a 00 00 00 04 00 00 00  1f 01 17 fc'), refusal(6, 0)
    yield BYTE('01 00  0a 00 00 00 04 00 00 00  1f 01 e9 03'), refusal(6, 0)
    yield BYTE('01 00  0a 00 00 00 04 00 00 00  1f 03 18 fc'), refusal(7, 0)
    yield BYTE('01 00  0a 00 00 00 04 00 00 00  20 03 17 fc'), refusal(5, 0)
    yield BYTE('01 00  0a 00 00 00 04 00 00 00  1f 03 17 fc'), refusal(6, 0)
    yield BYTE('01 00  0a 00 00 00 00 00 00 00'), refusal(20, 0)
    yield BYTE('01 00  0b 00 00 00 05 00 00 00  1f 01 18 fc'), refusal(20, 0)
    yield BYTE('01 00  0b 00 00 00 04 00 00 00  1f 01 18 fc'), refusal(19)
    yield BYTE('02 00  12 00 00 00 04 00 00 00  16 00 00 00 24 00 00 00'
               '  00 03 e8 03'), refusal(7, 0)
    yield BYTE('02 00  12 00 00 00 04 00 00 00  16 00 00 00 24 00 00 00'
               '  00 01 e8 03'), refusal(20, 1)
    yield BYTE('41 00') + bytes(65 * 12), refusal(18)
    # Conditions: accepted before a must and before a best-effort, refused last and before another.
    pair = BYTE('01 00  0a 00 00 00 08 00 00 00')
    yield pair + BYTE('1f 02 18 fc  00 00 05 00'), ('routines', [[(31, 2, -1000), (0, 0, 5)]])
    yield pair + BYTE('1f 02 e8 03  00 01 05 00'), ('routines', [[(31, 2, 1000), (0, 1, 5)]])
    yield pair + BYTE('1f 02 18 fc  00 02 05 00'), refusal(22, 0)
    yield pair + BYTE('1f 00 18 fc  00 02 05 00'), refusal(22, 1)
    yield BYTE('01 00  0a 00 00 00 04 00 00 00  1f 02 18 fc'), refusal(22, 0)
    # 22 comes after 5, 6 and 7 of its command and before those of the next.
    yield pair + BYTE('20 02 18 fc  00 02 05 00'), refusal(5, 0)
    yield pair + BYTE('1f 02 17 fc  00 02 05 00'), refusal(6, 0)
    yield pair + BYTE('1f 02 18 fc  20 02 17 fc'), refusal(22, 0)
    yield pair + BYTE('1f 02 18 fc  20 00 05 00'), refusal(5, 1)
    yield pair + BYTE('1f 02 18 fc  00 03 05 00'), refusal(7, 1)
    # One that is last is so whatever the next routine begins with, and that routine's pair is looked at later.
    yield BYTE('02 00  12 00 00 00 04 00 00 00  16 00 00 00 04 00 00 00'
               '  00 02 05 00  00 00 05 00'), refusal(22, 0)
    yield BYTE('02 00  12 00 00 00 04 00 00 00  16 00 00 00 24 00 00 00'
               '  00 02 05 00'), refusal(22, 0)
    yield BYTE('01 00  0b 00 00 00 04 00 00 00  1f 02 18 fc'), refusal(19)


def writing():
    good = [(0, 0, 0)]
    yield [], 2, ('book', BYTE('00 00'))
    yield [], 1, refusal(21)
    yield [[(31, 1, -1000)]], 14, ('book', BYTE(
        '01 00  0a 00 00 00 04 00 00 00  1f 01 18 fc'))
    yield [[(31, 1, -1000)]], 13, refusal(21)
    yield [[]], 0, refusal(4)
    yield [good * 9], 1000, refusal(4)
    yield [good * 8], 42, ('book', BYTE('01 00  0a 00 00 00 20 00 00 00') + bytes(32))
    yield [good, [(0, 0, 0), (32, 3, 1001)]], 0, refusal(5, 1)
    yield [good, [(0, 0, 0), (31, 3, 1001)]], 0, refusal(6, 1)
    yield [good, [(0, 0, 0), (31, 3, -1001)]], 0, refusal(6, 1)
    yield [good, [(0, 0, 0), (31, 3, -1000)]], 0, refusal(7, 1)
    yield [good] * 65, 10000, refusal(21)
    yield [good] * 64 + [[(0, 3, 0)]], 10000, refusal(7, 0)
    asked = [(0, 2, 30), (1, 0, 50)]
    yield [asked], 18, ('book', BYTE('01 00  0a 00 00 00 08 00 00 00  00 02 1e 00  01 00 32 00'))
    yield [asked], 17, refusal(21)
    yield [good, [(0, 2, 0)]], 0, refusal(22, 0)
    yield [good, asked + [(0, 2, 0)]], 0, refusal(22, 2)
    yield [[(0, 2, 0), (32, 2, 1001)], []], 0, refusal(22, 0)
    yield [[(0, 2, 0), (32, 0, 0)]], 0, refusal(5, 1)
    yield [[(0, 2, 0), (0, 0, 1001)]], 0, refusal(6, 1)
    yield [[(0, 2, 0), (0, 3, 0)]], 0, refusal(7, 1)
    yield [good * 8 + [(0, 2, 0)]], 0, refusal(4)
    yield [good] * 64 + [[(0, 2, 0)]], 10000, refusal(22, 0)


# Counts, devices, tags, settings, room and the answer: a count is the caller's word.
def lending():
    eight = [0] * 8
    yield [9], eight, eight, eight, 100, refusal(4)
    yield [9], eight + [0], eight + [0], eight + [0], 100, refusal(4)
    yield [9], [], [], [], 100, refusal(4)
    yield [0], eight, eight, eight, 100, refusal(4)
    yield [0], [], [], [], 100, refusal(4)
    yield [255], eight, eight, eight, 100, refusal(4)
    yield [3], [0], [0], [0], 100, refusal(5, 1)
    yield [1], [], [], [], 0, refusal(5, 0)
    yield [2], [0], [0, 0], [0, 0], 100, refusal(5, 1)
    yield [2], [0, 0], [0, 0], [0], 100, refusal(6, 1)
    yield [2], [0, 0], [0], [0, 0], 100, refusal(7, 1)
    yield [2], [0, 0], [0], [0], 100, refusal(6, 1)
    yield [1, 2], [0, 0], [0, 0, 0], [0, 0, 0], 100, refusal(5, 1)
    yield [1, 9], [], [0], [0], 100, refusal(5, 0)
    yield [9, 1], [], [0], [0], 100, refusal(4)
    yield [1] * 65, [0] * 64, [0] * 65, [0] * 65, 10000, refusal(5, 0)
    yield [1] * 65, [0] * 65, [0] * 65, [0] * 65, 10000, refusal(21)
    yield [1], [31, 255], [1, 9, 9], [-1000], 14, ('book', BYTE(
        '01 00  0a 00 00 00 04 00 00 00  1f 01 18 fc'))
    yield [], [0], [0, 2], [1001], 2, ('book', BYTE('00 00'))
    # What is lent behind a routine's last command is not the command after it; what is not lent is no condition.
    yield [1], [0, 0], [2, 0], [0, 0], 100, refusal(22, 0)
    yield [2], [0], [2], [0], 100, refusal(5, 1)
    yield [2], [0, 0], [2], [0, 0], 100, refusal(7, 1)
    yield [2], [0], [2, 2], [0], 100, refusal(22, 0)


# Each yields whether one check holds.
def checks():
    for book, expected in reading():
        yield model.read(book) == expected
    for routines, room, expected in writing():
        yield model.write(routines, room) == expected
    for counts, devices, tags, settings, room, expected in lending():
        yield model.write(model.lent(counts, devices, tags, settings), room) == expected
    rng = random.Random(1)
    for turn in range(500):
        routines = random_routines(rng, 64 if turn % 10 == 0 else 6)
        kind, book = model.write(routines, 3000)
        yield kind == 'book' and model.read(book) == ('routines', routines)
        yield model.write(routines, len(book)) == ('book', book)
        row = [command for routine in routines for command in routine] + [(255, 255, 1001)]
        yield model.lent([len(routine) for routine in routines], *zip(*row)) == routines
        yield model.write(routines, len(book) - 1) == refusal(21)
        cut = rng.randrange(len(book))
        head = 2 + 8 * len(routines)
        yield model.read(book[:cut]) == refusal(18 if cut < head else 19)
        yield model.read(book + b'\0') == refusal(19)


def main():
    results = list(checks())
    failed = results.count(False)
    print(f'{len(results) - failed} passed, {failed} failed')
    return 1 if failed else 0


if __name__ == '__main__':
    sys.exit(main())

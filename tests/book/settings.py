"""Runs show_book on the settings that matter where two bytes become a setting, and on the tags, against the model.

    python3 tests/book/settings.py PROGRAM

Every setting from -1,000 to 1,000, in as few books as hold them, once of musts and once as a condition's number; and books of one command
for pairs of bytes around the edges: of the two cases (upper byte 127 and 128), of the range, and of the bytes. Each tag around the edges,
alone, before and behind commands of each tag.
"""

import subprocess
import sys

import model
import show

LOWER = [0, 1, 23, 24, 127, 128, 232, 233, 255]
UPPER = [0, 3, 4, 127, 128, 129, 251, 252, 255]
TAGS = [0, 1, 2, 3, 4, 127, 128, 129, 254, 255]


def book_of(commands):
    routines = [commands[at:at + model.MOST_COMMANDS] for at in range(0, len(commands), model.MOST_COMMANDS)]
    kind, book = model.write(routines, 10000)
    assert kind == 'book'
    return book


def books():
    settings = range(model.LEAST_SETTING, model.MOST_SETTING + 1)
    most = model.MOST_ROUTINES * model.MOST_COMMANDS
    for at in range(0, len(settings), most):
        yield book_of([(0, 0, setting) for setting in settings[at:at + most]])
    for at in range(0, len(settings), most // 2):
        yield book_of([command for setting in settings[at:at + most // 2] for command in [(0, 2, setting), (0, 1, -setting)]])
    one = book_of([(0, 0, 0)])[:-2]
    for lower in LOWER:
        for upper in UPPER:
            yield one + bytes([lower, upper])
    for tag in TAGS:
        yield model.laid_out([[(0, tag, 7)]])
        for other in TAGS[:4]:
            yield model.laid_out([[(0, tag, 7), (1, other, 8)]])
            yield model.laid_out([[(0, other, 7), (1, tag, 8), (2, 0, 9)]])


def main():
    failed = 0
    for count, book in enumerate(books(), 1):
        printed = subprocess.run(sys.argv[1], input=book, stdout=subprocess.PIPE, check=True).stdout.decode(errors='replace')
        if printed != '\n'.join(show.lines(book)) + '\n':
            failed += 1
            print(f'{book.hex(" ")}\nprints:\n{printed}')
    print(f'{count - failed} books passed, {failed} failed')
    return 1 if failed else 0


if __name__ == '__main__':
    sys.exit(main())

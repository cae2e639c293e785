"""Prints what show_book must print for the book on standard input, by the model.

    python3 tests/book/show.py < BOOK

A line for each routine and then `end`, or the refusal.
"""

import sys

import model


def lines(book):
    answer = model.read(book)
    if answer[0] == 'refused':
        return [' '.join(['refused'] + [str(part) for part in answer[1:] if part is not None])]
    return [' '.join(['routine'] + [f'{d} {t} {s}' for d, t, s in routine]) for routine in answer[1]] + ['end']


if __name__ == '__main__':
    print('\n'.join(lines(sys.stdin.buffer.read())))

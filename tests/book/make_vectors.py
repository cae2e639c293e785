"""Makes the test vectors of the routine book.

    python3 tests/book/make_vectors.py crates

writes the stdin (records) and stdout (the lines expected for them) of the
programs crates/run_read_vectors and crates/run_write_vectors. Every run makes the same
bytes. The answers come from model.py alone.

A record is two bytes of length and that many bytes. All numbers are of two
bytes, low byte first.

run_read_vectors   The record is a book to read. Lines: `refused N` or
     `refused N I`; or `routine` with ` D T S` for each command, for each
     routine; `end`; and `same`, since the routines written again give the book.
run_write_vectors  Routines to write: four parts, each its number of bytes and its
     bytes: a count for each routine, devices, tags, settings of two bytes each;
     then r, the length of the lent buffer, and f, one byte: byte i of the
     buffer is (f + i) % 256 before. Each routine has the next `count` commands
     of the row. Line: `length N`, `refused N` or `refused N I`, then ` sum H`,
     the checksum of the whole buffer afterwards.

Covered in reading: counts; truncations; single bytes changed; bytes left over;
lengths; offsets; layouts with gaps, overlaps and another order; devices, tags
and settings at their edges; each refusal at its first, middle and last index;
two faults in one book; conditions, where they may stand and where not; random
books, valid, changed and nearly random.
Covered in writing: numbers of routines; lengths of the buffer; counts, with
fewer and with more commands lent; slices of unequal lengths, each of the three
too short; commands left over; edges; two faults; conditions; random lists.
"""

import collections
import os
import random
import sys

import model

SEED = 20
MOST_SIZE = 1500000
SUM_FACTOR = 257
SUM_MODULUS = 4294967291

SETTINGS = [-32768, -1001, -1000, -999, -1, 0, 1, 999, 1000, 1001, 32767]
DEVICES = [0, 31, 32, 33, 128, 255]
TAGS = [0, 1, 2, 3, 255]
CONDITION = model.CONDITION
BYTES = [0, 1, 2, 3, 4, 8, 16, 31, 32, 33, 36, 64, 65, 127, 128, 232, 233, 252, 255]
LENGTHS = [0, 1, 2, 3, 4, 5, 6, 7, 8, 12, 16, 20, 24, 28, 29, 30, 31, 32, 33, 36, 40, 64,
           256, 260, 2**16, 2**16 + 4, 2**24 + 4, 2**31, 2**31 + 4,
           2**32 - 8, 2**32 - 4, 2**32 - 1]
GOOD_LENGTHS = range(4, 33, 4)
FAR_OFFSETS = [2**16, 2**24, 2**31 - 4, 2**31 - 1, 2**31, 2**31 + 4,
               2**32 - 32, 2**32 - 8, 2**32 - 4, 2**32 - 1]


# ---- Records and their answers ----------------------------------------------

def two(number):
    return number.to_bytes(2, 'little')


def four(number):
    return number.to_bytes(4, 'little')


# In this file a record has its kind in front, R to read and W to write.
def reading(book):
    """The record that reads a book."""
    return b'R' + bytes(book)


def lending(counts, devices, tags, settings, room, fill=0):
    """The record that writes from lent slices."""
    return b''.join([
        b'W',
        two(len(counts)), bytes(counts),
        two(len(devices)), bytes(devices),
        two(len(tags)), bytes(tags),
        two(2 * len(settings)), b''.join(two(s % 65536) for s in settings),
        two(room), bytes([fill % 256])])


def writing(routines, room, fill=0):
    """The record that writes whole routines."""
    row = [command for routine in routines for command in routine]
    return lending([len(routine) for routine in routines],
                   [device for device, _, _ in row],
                   [tag for _, tag, _ in row],
                   [setting for _, _, setting in row],
                   room, fill)


def refusal_text(answer):
    _, number, index = answer
    return f'refused {number}' if index is None else f'refused {number} {index}'


def answer_reading(book):
    """The lines for a book to read."""
    answer = model.read(book)
    if answer[0] == 'refused':
        return refusal_text(answer) + '\n'
    routines = answer[1]
    assert model.write(routines, len(book)) == ('book', book)
    lines = [' '.join(['routine'] + [f'{d} {t} {s}' for d, t, s in routine])
             for routine in routines]
    return ''.join(line + '\n' for line in lines + ['end', 'same'])


class Taker:
    """Takes bytes from the front of a record."""

    def __init__(self, data):
        self.data = data
        self.at = 0

    def take(self, size):
        self.at += size
        assert self.at <= len(self.data)
        return self.data[self.at - size:self.at]

    def number(self):
        return int.from_bytes(self.take(2), 'little')


def checksum(data):
    h = 0
    for b in data:
        h = (h * SUM_FACTOR + b + 1) % SUM_MODULUS
    return h


def answer_writing(rest):
    """The line for routines to write."""
    taker = Taker(rest)
    counts = taker.take(taker.number())
    devices = taker.take(taker.number())
    tags = taker.take(taker.number())
    settings = [int.from_bytes(taker.take(2), 'little', signed=True)
                for _ in range(taker.number() // 2)]
    room = taker.number()
    fill = taker.take(1)[0]
    assert taker.at == len(rest)
    buffer = bytes((fill + i) % 256 for i in range(room))
    answer = model.write(model.lent(counts, devices, tags, settings), room)
    if answer[0] == 'refused':
        text = refusal_text(answer)
    else:
        book = answer[1]
        buffer = book + buffer[len(book):]
        text = f'length {len(book)}'
    assert len(buffer) == room
    return f'{text} sum {checksum(buffer)}\n'


def answer_of(record):
    if record[:1] == b'R':
        return answer_reading(record[1:])
    return answer_writing(record[1:])


def expecting(text, record):
    """The record, after a check that its answer begins with this text."""
    first = answer_of(record).split('\n')[0]
    assert (first + ' ').startswith(text + ' '), (text, first)
    return record


# ---- Building books without any check ---------------------------------------

def command_bytes(command):
    device, tag, setting = command
    return bytes([device, tag]) + two(setting % 65536)


def routine_bytes(routine):
    return b''.join(command_bytes(command) for command in routine)


def pairs_of(bodies):
    """The pairs that put the bodies one behind the other."""
    pairs = []
    offset = 2 + 8 * len(bodies)
    for body in bodies:
        pairs.append((offset, len(body)))
        offset += len(body)
    return pairs


def raw(pairs, bodies, count=None):
    """A book of these pairs and bodies as they are."""
    count = len(pairs) if count is None else count
    return (two(count) + b''.join(four(o) + four(n) for o, n in pairs) + b''.join(bodies))


def bodies_of(routines):
    return [routine_bytes(routine) for routine in routines]


def book_of(routines):
    """The book of these routines, whatever they hold."""
    bodies = bodies_of(routines)
    return raw(pairs_of(bodies), bodies)


def with_pair(routines, index, offset=None, length=None):
    """The book of these routines with one pair changed."""
    bodies = bodies_of(routines)
    pairs = pairs_of(bodies)
    old_offset, old_length = pairs[index]
    pairs[index] = (old_offset if offset is None else offset,
                    old_length if length is None else length)
    return raw(pairs, bodies)


def with_command(routines, index, at, device=None, tag=None, setting=None):
    """These routines with one command changed."""
    changed = [list(routine) for routine in routines]
    d, t, s = changed[index][at]
    changed[index][at] = (d if device is None else device,
                          t if tag is None else tag,
                          s if setting is None else setting)
    return changed


def with_byte(book, at, value):
    return book[:at] + bytes([value]) + book[at + 1:]


def command(k):
    """Some valid command."""
    return (k * 7 % 32, k % 2, (k * 377 + 50) % 2001 - 1000)


def sample(*sizes):
    """Valid routines of these sizes, no two commands near each other the same."""
    routines = []
    k = 1
    for size in sizes:
        routines.append([command(k + i) for i in range(size)])
        k += size
    return routines


def spots(number):
    """First, middle and last index."""
    return sorted({0, number // 2, number - 1})


def places(routines):
    """First, middle and last command of the first, middle and last routine."""
    return [(index, at) for index in spots(len(routines))
            for at in spots(len(routines[index]))]


SMALL = [sample(1), sample(2), sample(1, 1), sample(3), sample(2, 1), sample(1, 3, 2)]
FIVE_FULL = sample(8, 8, 8, 8, 8)
ALL_SHORT = sample(*[1] * 64)
ALL_FULL = sample(*[8] * 64)


# ---- Reading ----------------------------------------------------------------

def read_counts():
    yield expecting('refused 18', reading(b''))
    for value in (0, 1, 64, 65, 255):
        yield expecting('refused 18', reading(bytes([value])))
    yield expecting('end', reading(b'\0\0'))
    for number in (0, 1, 2, 3, 62, 63, 64):
        yield expecting('end' if number == 0 else 'routine',
                        reading(book_of(sample(*[1] * number))))
    yield expecting('routine', reading(book_of(ALL_FULL)))
    for number in (65, 66, 128, 255, 256):
        whole = book_of(sample(*[1] * number))
        yield expecting('refused 18', reading(whole))
        for size in (2, 3, 2 + 8, 2 + 8 * 64, 2 + 8 * number):
            yield expecting('refused 18', reading(whole[:size]))
    for number in (0x0141, 0x7fff, 0x8000, 0x8001, 0xff00, 0xff01, 0xffff):
        for size in (0, 1, 8, 12, 400):
            yield expecting('refused 18', reading(two(number) + bytes(size)))
    for routines in [[]] + SMALL:
        bodies = bodies_of(routines)
        pairs = pairs_of(bodies)
        for high in (1, 2, 64, 128, 255):
            yield expecting('refused 18',
                            reading(raw(pairs, bodies, len(pairs) + 256 * high)))
        for count in (0, 1, 2, 3, 4, 5, 64, 65):
            yield reading(raw(pairs, bodies, count))


def read_truncated():
    for routines in SMALL + [sample(2, 1, 1, 3), sample(8), sample(1, 8), ALL_SHORT]:
        book = book_of(routines)
        for size in range(len(book)):
            yield reading(book[:size])
    book = book_of(ALL_FULL)
    boundaries = [2 + 8 * k for k in range(65)]
    boundaries += [2 + 8 * 64 + 32 * k for k in (0, 1, 2, 32, 33, 62, 63, 64)]
    sizes = set(range(0, len(book), 7))
    for boundary in boundaries:
        sizes.update([boundary - 1, boundary, boundary + 1])
    for size in sorted(sizes):
        if size < len(book):
            yield reading(book[:size])


def read_truncated_with_bad_command():
    """The end of the book is tested routine by routine."""
    routines = sample(2, 1, 3)
    for index, at in [(0, 1), (1, 0), (2, 2)]:
        book = book_of(with_command(routines, index, at, device=32))
        for size in range(len(book)):
            yield reading(book[:size])


def read_single_bytes():
    for routines in SMALL:
        book = book_of(routines)
        for at, old in enumerate(book):
            for value in BYTES + [(old + 1) % 256, (old - 1) % 256]:
                yield reading(with_byte(book, at, value))


def read_left_over():
    for routines in [[]] + SMALL + [FIVE_FULL]:
        for size in (1, 2, 3, 4, 7, 8, 32):
            for value in (0, 255):
                yield expecting('refused 19',
                                reading(book_of(routines) + bytes([value]) * size))
    for routines in (ALL_SHORT, ALL_FULL):
        for size in (1, 2, 7):
            yield expecting('refused 19', reading(book_of(routines) + bytes(size)))


def read_lengths():
    for routines in [sample(1), sample(8), sample(1, 2, 3), sample(3, 3, 3), sample(8, 8, 8)]:
        for index in spots(len(routines)):
            for length in LENGTHS:
                yield reading(with_pair(routines, index, length=length))
    for index in (0, 32, 63):
        for length in (0, 36, 2**16 + 4):
            yield expecting(f'refused 20 {index}',
                            reading(with_pair(ALL_SHORT, index, length=length)))


def read_lengths_laid_out():
    """Bad lengths with the bytes for them there, all else laid out behind them."""
    for sizes in ([4], [4, 4, 4], [32, 8, 4]):
        for index in range(len(sizes)):
            for length in range(0, 45):
                changed = sizes[:index] + [length] + sizes[index + 1:]
                bodies = [bytes(size) for size in changed]
                yield reading(raw(pairs_of(bodies), bodies))


def read_offsets():
    for routines in [sample(1), sample(2, 2), sample(1, 2, 3), sample(3, 3, 3), sample(8, 8, 8)]:
        right = pairs_of(bodies_of(routines))
        end = len(book_of(routines))
        for index in spots(len(routines)):
            offset = right[index][0]
            near = [offset + step for step in (-8, -4, -2, -1, 1, 2, 4, 8, 256)]
            high = [offset + 2**16, offset + 2**24, offset + 2**31]
            others = [other for other, _ in right] + [0, 1, 2, end - 4, end, end + 4]
            for wrong in near + high + others + FAR_OFFSETS:
                if wrong != offset:
                    yield expecting('refused 19',
                                    reading(with_pair(routines, index, offset=wrong)))


def read_offsets_that_wrap():
    for routines in [sample(1), sample(1, 1, 1)]:
        for index in range(len(routines)):
            for offset in (2**31 - 4, 2**31, 2**32 - 32, 2**32 - 8, 2**32 - 4, 2**32 - 1):
                for length in GOOD_LENGTHS:
                    yield expecting('refused 19', reading(
                        with_pair(routines, index, offset=offset, length=length)))
                for length in (0, 1, 2, 3, 5, 36, 2**31, 2**32 - 4, 2**32 - 1):
                    yield expecting(f'refused 20 {index}', reading(
                        with_pair(routines, index, offset=offset, length=length)))


def read_swapped_pairs():
    for routines in [sample(1, 1), sample(1, 2), sample(2, 2, 2), sample(1, 2, 3), ALL_SHORT]:
        bodies = bodies_of(routines)
        for i, j in [(0, 1), (0, len(bodies) - 1), (len(bodies) - 2, len(bodies) - 1)]:
            pairs = pairs_of(bodies)
            pairs[i], pairs[j] = pairs[j], pairs[i]
            yield expecting('refused 19', reading(raw(pairs, bodies)))
            swapped = list(bodies)
            swapped[i], swapped[j] = swapped[j], swapped[i]
            yield reading(raw(pairs_of(bodies), swapped))


def read_other_layouts():
    """Gaps and overlaps, the bytes for them being there."""
    for routines in [sample(1), sample(2, 2), sample(1, 2, 3)]:
        bodies = bodies_of(routines)
        pairs = pairs_of(bodies)
        for index in range(len(bodies)):
            for gap in (1, 4, 8):
                moved = pairs[:index] + [(o + gap, n) for o, n in pairs[index:]]
                spread = bodies[:index] + [bytes(gap)] + bodies[index:]
                yield expecting('refused 19', reading(raw(moved, spread)))
    body = bodies_of(sample(2))
    yield expecting('refused 19', reading(raw([(18, 8), (18, 8)], body)))
    yield expecting('refused 19', reading(raw([(18, 8), (22, 4)], body)))
    yield expecting('refused 19', reading(raw([(18, 4), (18, 8)], body)))
    yield expecting('routine', reading(raw([(18, 4), (22, 4)], body)))
    yield expecting('refused 19', reading(raw([(2, 8)], [])))
    yield expecting('refused 19', reading(raw([(0, 4)], [])))
    yield expecting('refused 19', reading(raw([(10, 4)], [])))
    yield expecting('refused 19', reading(raw([(10, 8)], bodies_of(sample(1)))))
    yield expecting('refused 19', reading(raw([(10, 4)], bodies_of(sample(2)))))


def read_edges():
    for routines in [sample(1), sample(3, 3, 3), FIVE_FULL]:
        for index, at in places(routines):
            for setting in SETTINGS:
                yield reading(book_of(with_command(routines, index, at, setting=setting)))
            for device in DEVICES:
                yield reading(book_of(with_command(routines, index, at, device=device)))
            for tag in TAGS:
                yield reading(book_of(with_command(routines, index, at, tag=tag)))


def read_each_refusal_in_full_book():
    for at in (0, 7):
        for number, change in [(5, {'device': 32}), (6, {'setting': 1001}), (7, {'tag': 3})]:
            routines = with_command(ALL_FULL, 63, at, **change)
            yield expecting(f'refused {number} {at}', reading(book_of(routines)))
    yield expecting('refused 20 63', reading(with_pair(ALL_FULL, 63, length=36)))
    yield expecting('refused 19', reading(with_pair(ALL_FULL, 63, offset=0)))


def read_each_setting_byte():
    """The two bytes of a setting, near the edges of each."""
    for high in (0x00, 0x03, 0x04, 0x7f, 0x80, 0xfb, 0xfc, 0xff):
        for low in (0x00, 0x01, 0x17, 0x18, 0x19, 0x7f, 0x80, 0xe7, 0xe8, 0xe9, 0xff):
            yield reading(raw([(10, 4)], [bytes([3, 1, low, high])]))


def spoil(pairs, routines, fault):
    """Puts one fault into the parts of a book."""
    kind, index, at = fault
    offset, length = pairs[index]
    if kind == 'length':
        pairs[index] = (offset, 3)
    elif kind == 'place':
        pairs[index] = (offset + 4, length)
    else:
        device, tag, setting = routines[index][at]
        routines[index][at] = (32 if kind == 'device' else device,
                               {'tag': 3, 'condition': CONDITION}.get(kind, tag),
                               -1001 if kind == 'setting' else setting)


def spoilt(routines, faults, tail=b''):
    """A book with these faults, and bytes left over."""
    pairs = pairs_of(bodies_of(routines))
    routines = [list(routine) for routine in routines]
    for fault in faults:
        spoil(pairs, routines, fault)
    return raw(pairs, bodies_of(routines)) + tail


def read_pairs_of_faults():
    """Every two of these faults, and each beside bytes left over or missing."""
    routines = sample(2, 2, 2)
    faults = [(kind, index, 0) for kind in ('length', 'place') for index in range(3)]
    faults += [(kind, index, at) for kind in ('device', 'setting', 'tag', 'condition')
               for index in range(3) for at in range(2)]
    for i, first in enumerate(faults):
        for second in faults[i + 1:]:
            yield reading(spoilt(routines, [first, second]))
        book = spoilt(routines, [first])
        yield reading(book + b'\0')
        yield reading(book[:-1])
        yield reading(book[:-4])
        yield reading(book[:2 + 8 * 3])
        yield expecting('refused 18', reading(book[:2 + 8 * 3 - 1]))


def read_order_of_tests():
    """Two faults, with the answer stated here as well."""
    routines = sample(2, 2, 2)
    for index in range(3):
        yield expecting(f'refused 20 {index}', reading(
            with_pair(routines, index, offset=0, length=5)))
        yield expecting(f'refused 20 {index}', reading(
            with_pair(routines, index, offset=2**32 - 1, length=0)))
        yield expecting(f'refused 20 {index}', reading(
            spoilt(routines, [('length', index, 0), ('device', index, 0)])))
        yield expecting('refused 19', reading(
            spoilt(routines, [('place', index, 0), ('device', index, 0)])))
    for earlier, later in [(0, 1), (0, 2), (1, 2)]:
        for kind, number in [('device', 5), ('setting', 6), ('tag', 7), ('condition', 22)]:
            for late in ('length', 'place'):
                yield expecting(f'refused {number} 1', reading(
                    spoilt(routines, [(kind, earlier, 1), (late, later, 0)])))
            yield expecting(f'refused 20 {earlier}', reading(
                spoilt(routines, [('length', earlier, 0), (kind, later, 1)])))
            yield expecting('refused 19', reading(
                spoilt(routines, [('place', earlier, 0), (kind, later, 1)])))
        yield expecting(f'refused 20 {earlier}', reading(
            spoilt(routines, [('length', earlier, 0), ('place', later, 0)])))
        yield expecting('refused 19', reading(
            spoilt(routines, [('place', earlier, 0), ('length', later, 0)])))
        yield expecting(f'refused 20 {earlier}', reading(
            spoilt(routines, [('length', earlier, 0), ('length', later, 0)])))
    for index in range(3):
        for at in range(2):
            for kinds, number in [(('device', 'setting', 'tag'), 5), (('device', 'tag'), 5),
                                  (('device', 'setting'), 5), (('setting', 'tag'), 6),
                                  (('tag',), 7)]:
                faults = [(kind, index, at) for kind in kinds]
                yield expecting(f'refused {number} {at}', reading(spoilt(routines, faults)))
                yield expecting(f'refused {number} {at}',
                                reading(spoilt(routines, faults, b'\0')))
        yield expecting('refused 7 0', reading(
            spoilt(routines, [('tag', index, 0), ('device', index, 1)])))
        yield expecting('refused 6 0', reading(
            spoilt(routines, [('setting', index, 0), ('device', index, 1)])))
        yield expecting(f'refused 20 {index}', reading(
            spoilt(routines, [('length', index, 0)], b'\0')))


# Routines with conditions, and number and index that they are refused with; none: accepted.
# Each command's 5, 6, 7 and 22 come before the next one's.
CONDITIONS = [
    ([(0, 2, 30), (1, 0, 50)], None),
    ([(0, 2, -1000), (1, 1, 50)], None),
    ([(31, 2, 1000), (31, 0, 0), (31, 2, 0), (31, 1, 0)], None),
    ([(1, 0, 5), (0, 2, 30), (1, 0, 50)], None),
    ([(0, 2, 1), (0, 0, 2)] * 4, None),
    ([(0, 0, 1)] * 6 + [(0, 2, 1), (0, 1, 1)], None),
    # Last.
    ([(0, 2, 30)], (22, 0)),
    ([(0, 0, 30), (0, 2, 30)], (22, 1)),
    ([(0, 1, 30), (0, 2, 30)], (22, 1)),
    ([(0, 2, 30), (0, 0, 30), (0, 2, 30)], (22, 2)),
    ([(0, 0, 1)] * 4 + [(0, 2, 1)], (22, 4)),
    ([(0, 0, 1)] * 7 + [(0, 2, 1)], (22, 7)),
    # Before another, which is itself not last, or last.
    ([(0, 2, 30), (1, 2, 30), (0, 0, 50)], (22, 0)),
    ([(0, 2, 30), (1, 2, 30)], (22, 0)),
    ([(0, 0, 30), (0, 2, 30), (1, 2, 30), (0, 0, 50)], (22, 1)),
    ([(0, 0, 1)] * 4 + [(0, 2, 1)] * 2 + [(0, 0, 1)] * 2, (22, 4)),
    ([(0, 0, 1)] * 6 + [(0, 2, 1)] * 2, (22, 6)),
    ([(0, 2, 1)] * 8, (22, 0)),
    # After 5 and 6 of its own command.
    ([(32, 2, 30)], (5, 0)),
    ([(0, 2, 1001)], (6, 0)),
    ([(32, 2, 1001), (0, 2, 0)], (5, 0)),
    ([(0, 2, -1001), (0, 2, 0)], (6, 0)),
    ([(0, 0, 0), (255, 2, 0)], (5, 1)),
    ([(0, 0, 0), (0, 2, 32767)], (6, 1)),
    # 7 before it and behind it; a tag above 2 is no condition.
    ([(0, 3, 0)], (7, 0)),
    ([(0, 3, 0), (0, 2, 0)], (7, 0)),
    ([(0, 2, 0), (0, 3, 0)], (7, 1)),
    ([(0, 2, 0), (0, 255, 0), (0, 2, 0)], (7, 1)),
    ([(0, 2, 0), (0, 2, 0), (0, 3, 0)], (22, 0)),
    ([(0, 2, 0), (0, 0, 0), (0, 3, 0), (0, 2, 0)], (7, 2)),
    # Before 5, 6 and 7 of later commands.
    ([(0, 2, 0), (32, 2, 0)], (22, 0)),
    ([(0, 2, 0), (0, 2, 1001)], (22, 0)),
    ([(0, 2, 0), (32, 2, 1001), (32, 3, 1001)], (22, 0)),
    ([(0, 2, 0), (32, 0, 0)], (5, 1)),
    ([(0, 2, 0), (0, 0, -1001)], (6, 1)),
    ([(0, 2, 0), (32, 3, 1001)], (5, 1)),
    ([(0, 2, 0), (0, 3, 1001)], (6, 1)),
]


def read_conditions():
    good = sample(2)[0]
    for routine, fault in CONDITIONS:
        text = 'routine' if fault is None else f'refused {fault[0]} {fault[1]}'
        for before in (0, 1, 2):
            for after in (0, 1):
                routines = [good] * before + [routine] + [good] * after
                yield expecting(text, reading(book_of(routines)))
        book = book_of([routine])
        yield expecting('refused 19' if fault is None else text, reading(book + b'\0'))
        yield expecting('refused 19', reading(book[:-1]))
        yield expecting('refused 19', reading(with_pair([routine], 0, offset=9)))
        yield expecting('refused 20 0', reading(with_pair([routine], 0, length=3)))
        # The next routine's pair is looked at after this one's commands.
        for late, number in [('length', '20 1'), ('place', '19')]:
            yield expecting(f'refused {number}' if fault is None else text,
                            reading(spoilt([routine, good], [(late, 1, 0)])))
    # The last of its routine, whatever stands behind it in the book.
    for first in (0, 1, 2, 3):
        yield expecting('refused 22 0', reading(book_of([[(0, 2, 5)], [(0, first, 5), (0, 0, 5)]])))
    for at in range(8):
        routines = with_command(ALL_FULL, 63, at, tag=CONDITION)
        yield expecting('refused 22 7' if at == 7 else 'routine', reading(book_of(routines)))
        if at < 7:
            twice = with_command(routines, 63, at + 1, tag=CONDITION)
            yield expecting(f'refused 22 {at}', reading(book_of(twice)))


def random_command(rng):
    return (rng.randrange(32), rng.randrange(2), rng.randint(-1000, 1000))


def random_routine(rng):
    """Every other one has conditions, none of them last or before another."""
    routine = [random_command(rng) for _ in range(rng.randint(1, 8))]
    likely = rng.choice([0, 0.4])
    for at in range(len(routine) - 1):
        if rng.random() < likely and (at == 0 or routine[at - 1][1] != CONDITION):
            routine = with_command([routine], 0, at, tag=CONDITION)[0]
    return routine


def random_routines(rng, most):
    return [random_routine(rng) for _ in range(rng.randint(0, most))]


def read_random_books():
    rng = random.Random(SEED)
    for turn in range(300):
        routines = random_routines(rng, 64 if turn % 60 == 0 else 5)
        book = book_of(routines)
        assert model.write(routines, len(book)) == ('book', book)
        assert model.read(book) == ('routines', routines)
        yield reading(book)


def read_random_changes():
    rng = random.Random(SEED + 1)
    for _ in range(300):
        book = bytearray(book_of(random_routines(rng, 4)))
        for _ in range(rng.randint(1, 3)):
            book[rng.randrange(len(book))] = rng.choice(BYTES + [rng.randrange(256)])
        yield reading(book)


def read_random_bytes():
    """A plausible head, then pairs mostly right and bytes mostly low."""
    rng = random.Random(SEED + 2)
    for _ in range(400):
        count = rng.randint(0, 5)
        sizes = [rng.choice([4, 4, 8, 12, 32, rng.randrange(48)]) for _ in range(count)]
        pairs = pairs_of([bytes(size) for size in sizes])
        if pairs and rng.random() < 0.2:
            index = rng.randrange(count)
            pairs[index] = (rng.getrandbits(32), pairs[index][1])
        most = rng.choice([1, 1, 2, 3, 33, 255])
        size = sum(sizes) + rng.choice([0, 0, 0, 0, -1, 1, 4])
        body = bytes(rng.randint(0, most) for _ in range(max(size, 0)))
        yield reading(raw(pairs, [body]))
    for _ in range(200):
        yield reading(two(rng.randint(0, 3)) + rng.randbytes(rng.randint(0, 60)))


# ---- Writing ----------------------------------------------------------------

def write_numbers():
    for number in (0, 1, 2, 3, 63, 64):
        routines = sample(*[1] * number)
        need = 2 + 12 * number
        yield expecting(f'length {need}', writing(routines, need, number))
        yield expecting(f'length {need}', writing(routines, need + 1, 7))
        yield expecting(f'length {need}', writing(routines, 2000, 200))
        yield expecting('refused 21', writing(routines, need - 1, 9))
        yield expecting('refused 21', writing(routines, 0, 9))
    for number in (65, 66, 70):
        routines = sample(*[1] * number)
        for room in (0, 2, 2 + 12 * 64, 2 + 12 * number, 1000):
            yield expecting('refused 21', writing(routines, room, number))
    for number in (128, 255, 256, 257, 320):
        yield expecting('refused 21', writing(sample(*[1] * number), 4000, number))
    yield expecting('length 2562', writing(ALL_FULL, 2562, 1))
    yield expecting('length 2562', writing(ALL_FULL, 2600, 2))
    yield expecting('length 2562', writing(ALL_FULL, 65535, 3))
    yield expecting('refused 21', writing(ALL_FULL, 2561, 4))
    yield expecting('refused 21', writing(ALL_FULL + sample(8), 3000, 5))


def write_bad_behind_the_64th():
    """Routines come before 21, the 65th and later ones too."""
    for number in (65, 70):
        routines = sample(*[1] * (number - 1), 2)
        for index in (0, 63, 64, number - 1):
            at = len(routines[index]) - 1
            for refusal, change in [(5, {'device': 32}), (6, {'setting': 1001}),
                                    (6, {'setting': -1001}), (7, {'tag': 3}),
                                    (22, {'tag': CONDITION})]:
                changed = with_command(routines, index, at, **change)
                yield expecting(f'refused {refusal} {at}', writing(changed, 1000, number))
                yield expecting(f'refused {refusal} {at}', writing(changed, 0, number))
            for body in ([], sample(9)[0]):
                changed = routines[:index] + [body] + routines[index + 1:]
                yield expecting('refused 4', writing(changed, 1000, 1))


def write_rooms():
    for routines in (sample(1), sample(2, 1, 3)):
        need = len(book_of(routines))
        for room in range(need + 4):
            text = 'refused 21' if room < need else f'length {need}'
            yield expecting(text, writing(routines, room, 11 * room))
    for room in range(6):
        yield expecting('refused 21' if room < 2 else 'length 2', writing([], room, 250))


def row_of(size):
    return [command(k + 3) for k in range(size)]


def lending_row(counts, row, room, fill=0):
    return lending(counts, [d for d, _, _ in row], [t for _, t, _ in row],
                   [s for _, _, s in row], room, fill)


def write_counts():
    for count in (0, 1, 7, 8, 9, 10, 127, 128, 255):
        refused_4 = not 1 <= count <= 8
        whole = 'refused 4' if refused_4 else f'length {10 + 4 * count}'
        yield expecting(whole, lending_row([count], row_of(260), 100, 4))
        for size in (0, 1, 7, 8, 9, 20):
            there = refused_4 or count <= size
            yield expecting(whole if there else f'refused 5 {size}',
                            lending_row([count], row_of(size), 100, 5))
            yield lending_row([count, 1], row_of(size), 100, 6)
            yield lending_row([1, count], row_of(size), 100, 7)
            yield lending_row([count, count], row_of(size), 100, 8)
            yield lending_row([2, count, 3], row_of(size), 100, 9)


def write_asking_more_than_is_left():
    """A count is the caller's word; what is not there is never left out."""
    yield expecting('refused 4', lending_row([9], row_of(8), 50))
    yield expecting('refused 4', lending_row([255], row_of(8), 50))
    yield expecting('refused 4', lending_row([255], row_of(1), 50))
    yield expecting('refused 4', lending_row([255], row_of(9), 50))
    yield expecting('refused 4', lending_row([255], row_of(0), 50))
    yield expecting('refused 5 1', lending_row([3], row_of(1), 50))
    yield expecting('refused 5 0', lending_row([8, 1], row_of(8), 90))
    yield expecting('length 54', lending_row([8, 1], row_of(9), 90))
    yield expecting('refused 5 1', lending_row([8, 8], row_of(9), 90))
    yield expecting('length 54', lending_row([1, 8], row_of(9), 90))
    yield expecting('refused 5 7', lending_row([1, 8], row_of(8), 90))
    yield expecting('refused 5 0', lending_row([3, 3, 3], row_of(6), 90))
    yield expecting('refused 5 1', lending_row([3, 3, 3], row_of(7), 90))
    yield expecting('refused 4', lending_row([3, 3, 255], row_of(7), 90))
    yield expecting('refused 4', lending_row([0], row_of(3), 90))
    yield expecting('refused 4', lending_row([1, 0, 1], row_of(3), 90))
    yield expecting('refused 5 0', lending_row([1] * 65, row_of(64), 1000))
    yield expecting('refused 21', lending_row([1] * 65, row_of(65), 1000))


def write_parts_missing():
    """Each part of each command of a routine, not lent; of several the first in 5, 6, 7."""
    for counts in ([1], [8], [2, 3], [1] * 64 + [8]):
        size = sum(counts)
        row = row_of(size)
        devices, tags, settings = ([c[part] for c in row] for part in range(3))
        last = counts[-1]
        for at in spots(last):
            cut = size - last + at
            room = 400 + cut
            for text, lengths in [(f'refused 5 {at}', (cut, size, size)),
                                  (f'refused 6 {at}', (size, size, cut)),
                                  (f'refused 7 {at}', (size, cut, size)),
                                  (f'refused 5 {at}', (cut, cut, size)),
                                  (f'refused 5 {at}', (cut, size, cut)),
                                  (f'refused 6 {at}', (size, cut, cut)),
                                  (f'refused 5 {at}', (cut, cut, cut))]:
                d, t, s = lengths
                yield expecting(text, lending(counts, devices[:d], tags[:t], settings[:s], room, at))
        yield expecting('refused 21' if len(counts) > 64 else 'length',
                        lending(counts, devices, tags, settings, 1000, 7))


def write_left_over():
    """Commands behind the last routine belong to none, bad ones too."""
    for counts in ([], [1], [2, 3], [8, 8]):
        used = sum(counts)
        need = 2 + 8 * len(counts) + 4 * used
        for extra in (1, 2, 9, 300):
            yield expecting(f'length {need}', lending_row(counts, row_of(used + extra), 100, extra))
        for bad in ((32, 0, 0), (0, 2, 0), (0, 3, 0), (0, 0, 1001), (255, 255, -32768)):
            row = row_of(used) + [bad]
            yield expecting(f'length {need}', lending_row(counts, row, 100, 30))


def write_unequal_slices():
    """Each slice has its own length; only what a routine counts is looked at."""
    for counts in ([], [1], [2, 2], [4], [3, 1]):
        for d in (0, 1, 3, 4, 9):
            for t in (0, 3, 4, 5):
                for s in (0, 1, 3, 4, 6):
                    row = row_of(10)
                    yield lending(counts, [c[0] for c in row[:d]], [c[1] for c in row[:t]],
                                  [c[2] for c in row[:s]], 60, d + 10 * t + 100 * s)
    yield expecting('length 14', lending([1], [1, 255], [1, 9, 9], [5], 20))
    yield expecting('refused 5 1', lending([2], [1, 255], [1, 9, 9], [5], 20))
    yield expecting('refused 6 1', lending([2], [1, 2], [1, 9, 9], [5], 20))
    yield expecting('refused 5 1', lending([2], [1], [1, 9, 9], [5, 2000], 20))
    yield expecting('refused 5 1', lending([2], [1, 40], [1], [5, 2000], 20))
    yield expecting('refused 7 1', lending([2], [1, 2], [1], [5, 1000, 2000], 20))


def write_edges():
    for routines in [sample(1), sample(3, 3, 3), FIVE_FULL]:
        room = len(book_of(routines))
        for index, at in places(routines):
            for setting in SETTINGS:
                yield writing(with_command(routines, index, at, setting=setting), room, at)
            for device in (0, 31, 32, 255):
                yield writing(with_command(routines, index, at, device=device), room + 2, at)
            for tag in TAGS:
                yield writing(with_command(routines, index, at, tag=tag), room + 5, at)


def write_each_refusal_in_full_book():
    for at in (0, 7):
        for number, change in [(5, {'device': 32}), (6, {'setting': 1001}), (7, {'tag': 3})]:
            routines = with_command(ALL_FULL, 63, at, **change)
            yield expecting(f'refused {number} {at}', writing(routines, 2562, at))


def write_order_of_tests():
    """Two faults, with the answer stated here as well."""
    good = sample(2, 2, 2)
    for index in range(3):
        for at in range(2):
            for change, number in [({'device': 32, 'setting': 1001, 'tag': 3}, 5),
                                   ({'device': 32, 'tag': 3}, 5),
                                   ({'device': 32, 'setting': -1001}, 5),
                                   ({'setting': -1001, 'tag': 3}, 6),
                                   ({'tag': 3}, 7)]:
                for room in (0, 49, 50):
                    yield expecting(f'refused {number} {at}', writing(
                        with_command(good, index, at, **change), room, at))
        tag_first = with_command(good, index, 0, tag=3)
        yield expecting('refused 7 0', writing(
            with_command(tag_first, index, 1, device=32), 50))
        nine = sample(9)[0]
        bad_nine = with_command([nine], 0, 0, device=32)[0]
        for body in (nine, bad_nine, []):
            for room in (0, 200):
                yield expecting('refused 4', writing(
                    good[:index] + [body] + good[index + 1:], room, 3))
    for bad in ([], sample(9)[0]):
        early_command = with_command(sample(2, 2), 0, 1, setting=1001)
        yield expecting('refused 6 1', writing(early_command + [bad], 200))
        yield expecting('refused 4', writing([bad] + early_command, 200))
    early_tag = with_command(good, 0, 1, tag=3)
    yield expecting('refused 7 1', writing(with_command(early_tag, 1, 0, device=32), 50))
    early_device = with_command(good, 1, 1, device=32)
    yield expecting('refused 5 1', writing(with_command(early_device, 2, 0, tag=3), 50))


def write_conditions():
    good = sample(2)[0]
    for routine, fault in CONDITIONS:
        for before in (0, 1, 64):
            routines = [good] * before + [routine]
            need = len(book_of(routines))
            text = f'length {need}' if fault is None else f'refused {fault[0]} {fault[1]}'
            if fault is None and len(routines) > 64:
                text = 'refused 21'
            yield expecting(text, writing(routines, need, before))
            yield expecting('refused 21' if fault is None else text, writing(routines, need - 1, before))
        text = 'refused 4' if fault is None else f'refused {fault[0]} {fault[1]}'
        yield expecting(text, writing([routine, []], 200))
        yield expecting('refused 4', writing([[], routine], 200))
    # Last by its count, whatever is lent behind it; not last by its count, with what is behind it not lent.
    for behind in range(4):
        yield expecting('refused 22 0', lending([1], [0, 0], [2, behind], [0, 0], 100, behind))
        yield expecting('refused 22 0', lending([1, 1], [0, 0], [2, behind], [0, 0], 100, behind))
    yield expecting('refused 5 1', lending([2], [0], [2], [0], 100))
    yield expecting('refused 5 1', lending([2], [0], [2], [0, 0], 100))
    yield expecting('refused 6 1', lending([2], [0, 0], [2], [0], 100))
    yield expecting('refused 7 1', lending([2], [0, 0], [2], [0, 0], 100))
    yield expecting('refused 22 0', lending([2], [0], [2, 2], [0], 100))
    yield expecting('refused 5 0', lending([2], [], [2, 2], [], 100))
    yield expecting('refused 6 0', lending([2], [0], [2, 2], [], 100))
    yield expecting('refused 4', lending([9], [0] * 9, [2] * 9, [0] * 9, 100))


def write_random_lists():
    rng = random.Random(SEED + 3)
    for turn in range(200):
        routines = random_routines(rng, 64 if turn % 40 == 0 else 6)
        need = len(book_of(routines))
        room = need + rng.choice([0, 0, 1, 2, 30, 300])
        yield expecting(f'length {need}', writing(routines, room, rng.randrange(256)))


def write_random_slices():
    """Counts and slices of any lengths, with few bad values."""
    rng = random.Random(SEED + 4)
    for _ in range(200):
        size = rng.randint(0, 30)
        counts = [rng.choice([1, 2, 3, 8, rng.randrange(12)]) for _ in range(rng.randint(0, 6))]
        devices = [rng.randrange(32) for _ in range(size)]
        tags = [rng.choice([0, 0, 0, 1, 1, 1, CONDITION]) for _ in range(size + rng.randint(0, 2))]
        settings = [rng.randint(-1000, 1000) for _ in range(size + rng.randint(0, 2))]
        if size and rng.random() < 0.3:
            devices[rng.randrange(size)] = rng.randrange(256)
        if size and rng.random() < 0.3:
            tags[rng.randrange(size)] = rng.randrange(4)
        if size and rng.random() < 0.3:
            settings[rng.randrange(size)] = rng.randint(-32768, 32767)
        yield lending(counts, devices, tags, settings, rng.randint(0, 200), rng.randrange(256))


# ---- All together -----------------------------------------------------------

CASES = [
    read_counts,
    read_truncated,
    read_truncated_with_bad_command,
    read_single_bytes,
    read_left_over,
    read_lengths,
    read_lengths_laid_out,
    read_offsets,
    read_offsets_that_wrap,
    read_swapped_pairs,
    read_other_layouts,
    read_edges,
    read_each_refusal_in_full_book,
    read_each_setting_byte,
    read_pairs_of_faults,
    read_order_of_tests,
    read_conditions,
    read_random_books,
    read_random_changes,
    read_random_bytes,
    write_numbers,
    write_bad_behind_the_64th,
    write_rooms,
    write_counts,
    write_asking_more_than_is_left,
    write_parts_missing,
    write_left_over,
    write_unequal_slices,
    write_edges,
    write_each_refusal_in_full_book,
    write_order_of_tests,
    write_conditions,
    write_random_lists,
    write_random_slices,
]


def all_records():
    """The records of all cases in turn, each once."""
    return list(dict.fromkeys(record for case in CASES for record in case()))


def outcomes(records, answers):
    """How often each kind gives each outcome: number and index, or None if accepted."""
    tally = collections.Counter()
    for record, answer in zip(records, answers):
        words = answer.split('\n')[0].split(' sum ')[0].split(' ')
        outcome = None
        if words[0] == 'refused':
            outcome = (int(words[1]), int(words[2]) if len(words) > 2 else None)
        tally[chr(record[0]), outcome] += 1
    return tally


def check_coverage(tally):
    """Each kind shows each of its numbers, at the first, a middle and the last index."""
    expected = {
        'R': {18: [None], 19: [None], 20: [0, 32, 63],
              5: [0, 4, 7], 6: [0, 4, 7], 7: [0, 4, 7], 22: [0, 4, 7]},
        'W': {4: [None], 21: [None],
              5: [0, 4, 7], 6: [0, 4, 7], 7: [0, 4, 7], 22: [0, 4, 7]}}
    for kind, numbers in expected.items():
        assert tally[kind, None] > 0
        for number, indexes in numbers.items():
            for index in indexes:
                assert tally[kind, (number, index)] > 0, (kind, number, index)
    for kind, outcome in tally:
        assert outcome is None or outcome[0] in expected[kind]


def report(name, bodies, stdin, stdout, tally, kind):
    longest = max(len(body) for body in bodies)
    print(f'{name}: {len(bodies)} records, the longest of {longest} bytes, '
          f'{tally[kind, None]} accepted; stdin {len(stdin)} bytes, stdout {len(stdout)} bytes')
    numbers = collections.Counter()
    for (k, outcome), times in tally.items():
        if k == kind and outcome is not None:
            numbers[outcome[0]] += times
    for number in sorted(numbers):
        print(f'  refused {number}: {numbers[number]}')


def main():
    if len(sys.argv) != 2:
        print('usage: python3 tests/book/make_vectors.py crates')
        return 2
    records = all_records()
    answers = [answer_of(record) for record in records]
    tally = outcomes(records, answers)
    check_coverage(tally)
    for kind, name in [('R', 'run_read_vectors'), ('W', 'run_write_vectors')]:
        of_kind = [(record[1:], answer) for record, answer in zip(records, answers)
                   if record[0] == ord(kind)]
        bodies = [body for body, _ in of_kind]
        stdin = b''.join(two(len(body)) + body for body in bodies)
        stdout = ''.join(answer for _, answer in of_kind).encode('ascii')
        assert len(stdin) < MOST_SIZE, len(stdin)
        folder = os.path.join(sys.argv[1], name)
        os.makedirs(folder, exist_ok=True)
        for part, data in [('stdin', stdin), ('stdout', stdout)]:
            with open(os.path.join(folder, part), 'wb') as out:
                out.write(data)
        report(name, bodies, stdin, stdout, tally, kind)
    return 0


if __name__ == '__main__':
    sys.exit(main())

"""The routine book, written plainly from the scope document and, where a
request changed it, document 02.

The sections meant are "Things and ranges", "The routine book" and "When a
call is turned down"; of document 02, item 4. A routine is a list of
(device, tag, setting).

read(book)             -> ('refused', number, index or None)
                       or ('routines', list of routines)
write(routines, room)  -> ('refused', number, index or None)
                       or ('book', bytes)
lent(counts, devices, tags, settings) -> the list of routines to write

A part of a command that was not lent is None: no device, tag or setting.
"""

# Ranges.
MOST_ROUTINES = 64
MOST_COMMANDS = 8
DEVICES = 32
LEAST_SETTING = -1000
MOST_SETTING = 1000
MOST_TAG = 2

# "Tag 2 is a condition".
CONDITION = 2

# Sizes in bytes.
COUNT_SIZE = 2
OFFSET_SIZE = 4
LENGTH_SIZE = 4
PAIR_SIZE = OFFSET_SIZE + LENGTH_SIZE
COMMAND_SIZE = 4

# Numbers of the table of refusals.
BAD_COMMAND_COUNT = 4
BAD_DEVICE = 5
BAD_SETTING = 6
BAD_TAG = 7
BAD_HEAD = 18
BAD_PLACE = 19
BAD_LENGTH = 20
BAD_ROOM = 21
BAD_CONDITION = 22


# "Indexes count from 0"; 5, 6, 7, 20 and 22 return number and index, the others the number alone.
def refused(number, index=None):
    return ('refused', number, index)


# "Count (16 bits ...) ... offset ... and length in bytes, 32 bits each ..., all low byte first."
def unsigned(data):
    return int.from_bytes(data, 'little', signed=False)


# "A command is 4 bytes: device, tag, setting (16 bits, two's complement, low byte first)."
def command_of(data):
    return (data[0], data[1], int.from_bytes(data[2:4], 'little', signed=True))


# "A command is 4 bytes: device, tag, setting (16 bits, two's complement, low byte first)."
def bytes_of(command):
    device, tag, setting = command
    return bytes([device, tag]) + setting.to_bytes(2, 'little', signed=True)


# "Count ..., then that many pairs": the pairs of a book of this many routines end here.
def end_of_pairs(count):
    return COUNT_SIZE + PAIR_SIZE * count


# "pairs of offset (from the first byte) and length in bytes, 32 bits each"
def pair_of(book, index):
    start = end_of_pairs(index)
    middle = start + OFFSET_SIZE
    end = start + PAIR_SIZE
    return unsigned(book[start:middle]), unsigned(book[middle:end])


# "length not 4 to 32 in fours": the lengths that are not refused.
def length_is_good(length):
    return (COMMAND_SIZE <= length <= COMMAND_SIZE * MOST_COMMANDS
            and length % COMMAND_SIZE == 0)


def is_within(least, number, most):
    return number is not None and least <= number <= most


# 22: "a condition is last in its routine or is followed by another condition"
def condition_is_misplaced(routine, index):
    if routine[index][1] != CONDITION:
        return False
    return index + 1 == len(routine) or routine[index + 1][1] == CONDITION


# "then the commands in turn, each 5, 6, 7"; 22 "for each command after its 7"; "a command's [index] within its routine"
def fault_in_commands(routine):
    for index, (device, tag, setting) in enumerate(routine):
        if not is_within(0, device, DEVICES - 1):
            return refused(BAD_DEVICE, index)
        if not is_within(LEAST_SETTING, setting, MOST_SETTING):
            return refused(BAD_SETTING, index)
        if not is_within(0, tag, MOST_TAG):
            return refused(BAD_TAG, index)
        if condition_is_misplaced(routine, index):
            return refused(BAD_CONDITION, index)
    return None


# "Book reading: 18; then by routine 20, 19, then its commands; bytes left over last."
def read(book):
    # 18: "book ends inside count or pairs, or count above 64"
    if len(book) < COUNT_SIZE:
        return refused(BAD_HEAD)
    count = unsigned(book[:COUNT_SIZE])
    if count > MOST_ROUTINES or len(book) < end_of_pairs(count):
        return refused(BAD_HEAD)

    # "The first routine begins where the pairs end, each next where the one before ends"
    begin = end_of_pairs(count)
    routines = []
    for index in range(count):
        offset, length = pair_of(book, index)
        # 20: "length not 4 to 32 in fours"
        if not length_is_good(length):
            return refused(BAD_LENGTH, index)
        # 19: "pair not where the layout puts it, past the end"
        if offset != begin or offset + length > len(book):
            return refused(BAD_PLACE)
        end = begin + length
        routine = [command_of(book[at:at + COMMAND_SIZE])
                   for at in range(begin, end, COMMAND_SIZE)]
        fault = fault_in_commands(routine)
        if fault is not None:
            return fault
        routines.append(routine)
        begin = end

    # 19: "or bytes left over"; "the last ends the book"
    if begin != len(book):
        return refused(BAD_PLACE)
    return ('routines', routines)


# "Writing: the routines in turn (4, then commands), then 21."
def write(routines, room):
    for routine in routines:
        # 4: "routine of 0 or over 8 commands"
        if not 1 <= len(routine) <= MOST_COMMANDS:
            return refused(BAD_COMMAND_COUNT)
        fault = fault_in_commands(routine)
        if fault is not None:
            return fault

    # 21: "over 64 routines to write, or buffer too short"
    if len(routines) > MOST_ROUTINES:
        return refused(BAD_ROOM)
    book = laid_out(routines)
    if len(book) > room:
        return refused(BAD_ROOM)
    return ('book', book)


# The routines that are lent as a count for each and their commands in a row, part by part: each has
# exactly as many commands as its count says. What is lent behind the last belongs to none.
def lent(counts, devices, tags, settings):
    routines = []
    begin = 0
    for count in counts:
        places = range(begin, begin + count)
        routines.append([(part_at(devices, at), part_at(tags, at), part_at(settings, at))
                         for at in places])
        begin += count
    return routines


def part_at(row, at):
    return row[at] if at < len(row) else None


# "The first routine begins where the pairs end, each next where the one before ends"
def laid_out(routines):
    pairs = b''
    commands = b''
    begin = end_of_pairs(len(routines))
    for routine in routines:
        length = COMMAND_SIZE * len(routine)
        pairs += begin.to_bytes(OFFSET_SIZE, 'little')
        pairs += length.to_bytes(LENGTH_SIZE, 'little')
        commands += b''.join(bytes_of(command) for command in routine)
        begin += length
    return len(routines).to_bytes(COUNT_SIZE, 'little') + pairs + commands

"""What the program `write_edges` prints: records that the console's words cannot name."""
from history import Refused
from messages import written

TEXT = b'abcdabcd'
LARGEST = 2**64 - 1


def lent(starts, lens):
    """The records at their places, or 4."""
    if len(starts) != len(lens) or any(a + n > len(TEXT) for a, n in zip(starts, lens)):
        raise Refused(4)
    return [TEXT[a : a + n] for a, n in zip(starts, lens)]


def call(room, make):
    """An answer's line and the buffer after it, from a buffer of 238s."""
    buffer = bytes([238]) * room
    try:
        data = written(*make(), room)
        return ['  wrote %d' % len(data), '  after  ' + (data + buffer[len(data) :]).hex()]
    except Refused as why:
        return ['  refused %d' % why.number, '  after  ' + buffer.hex()]


def lines(name, total, starts, lens):
    yield name
    yield '  before ' + 'ee' * 40
    yield from call(40, lambda: ('foundnodes', [total, lent(starts, lens)]))
    yield from call(16, lambda: ('foundcontent', [bytes(4), lent(starts, lens), b'']))


def output():
    cases = [
        ('two records', 1, [0, 3], [3, 5]),
        ('overlapping places', 1, [0, 2], [4, 4]),
        ('one place twice', 1, [1, 1], [2, 2]),
        ('equal bytes at two places', 1, [0, 4], [4, 4]),
        ('a record of no bytes at the end', 1, [8], [0]),
        ('one byte past the end', 1, [7], [2]),
        ('a start past the end', 1, [9], [0]),
        ('the largest start', 1, [LARGEST], [1]),
        ('the largest length', 1, [1], [LARGEST]),
        ('both the largest', 1, [LARGEST], [LARGEST]),
        ('a start more', 1, [0, 1], [1]),
        ('a length more', 1, [0], [1, 1]),
        ('total 0, and a record outside', 0, [9], [1]),
        ('total 0', 0, [0], [1]),
        ('no records', 2, [], []),
        ('33 records', 1, [0] * 33, [1] * 33),
        ('33 records, the last outside', 1, [0] * 32 + [8], [1] * 33),
    ]
    return ''.join(line + '\n' for case in cases for line in lines(*case)).encode()

"""The History Network's keys, ids and distances, from the papers alone: the second program's base.

Ids, radii and distances are numbers here and not bytes, so that nothing is computed the way the Rattle code does it.
"""


class Refused(Exception):
    """A call that is refused, with its number, and with the bad line for 14."""

    def __init__(self, number, line=None):
        super().__init__(number)
        self.number = number
        self.line = line


CYCLE_BITS = 16
OFFSET_BITS = 256 - CYCLE_BITS


def content_id(block_number, content_type):
    """Document 002's formula: cycle bits on top, the offset's 240 bits reversed, the type below."""
    offset, cycle = divmod(block_number, 2**CYCLE_BITS)
    bits = format(offset, '0%db' % OFFSET_BITS)
    return cycle << OFFSET_BITS | int(bits[::-1], 2) | content_type


def key(data):
    """The selector and block number of a content key, or 7, then 8."""
    if len(data) != 9:
        raise Refused(7)
    if data[0] not in (0, 1):
        raise Refused(8)
    return data[0], int.from_bytes(data[1:], 'little')


def key_id(data):
    selector, number = key(data)
    return content_id(number, selector)


def make_key(selector, number):
    return bytes([selector]) + number.to_bytes(8, 'little')


def distance(a, b):
    return a ^ b


def log_distance(a, b):
    """The bit length of the distance: 0 for equal ids, 1 for distance 1, up to 256."""
    return distance(a, b).bit_length()


def asked(distances, log):
    """Whether a FindNode's distances, a byte each, ask for a log distance."""
    return any(d == log for d in distances)


def interested(node, radius, content):
    return distance(node, content) <= radius


def digits(value):
    """A 32-byte value in 64 digits, heaviest byte first."""
    return '%064x' % value


def unhex(text):
    """The bytes of lower-case hexadecimal text, or None."""
    if len(text) % 2 or any(c not in b'0123456789abcdef' for c in text):
        return None
    return bytes(int(text[i : i + 2], 16) for i in range(0, len(text), 2))

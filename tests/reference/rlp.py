"""Acceptable content: one RLP list that fills its bytes, in the shortest form, by the yellow paper; and content that ends early."""
from history import Refused


def header(length):
    """The bytes before a list's payload of this length."""
    if length <= 55:
        return bytes([0xC0 + length])
    digits = length.to_bytes((length.bit_length() + 7) // 8, 'big')
    return bytes([0xF7 + len(digits)]) + digits


def examine(content):
    """Start and length of the payload that, written as a list, gives just these bytes; 16 where the content ends early; else 9."""
    for start in range(1, min(len(content), 9) + 1):
        length = len(content) - start
        if content[:start] == header(length):
            return start, length
    raise Refused(16 if ends_early(content) else 9)


def ends_early(content):
    """Not empty, and some bytes more would give what is written for some payload."""
    return content != b'' and any(begins(content, length) for length in lengths(content))


def lengths(content):
    """Lengths of payloads that the content may begin to write: the short ones, and the one that its length bytes give. Those that are missing
    count as ff, so that the length is large enough."""
    yield from range(56)
    size = content[0] - 0xF7
    if size > 0:
        yield int.from_bytes(content[1 : 1 + size].ljust(size, b'\xff'), 'big')


def begins(content, length):
    """The content is less than a header and this many bytes, and agrees with the header as far as both go."""
    whole = header(length)
    return len(content) < len(whole) + length and content[: len(whole)] == whole[: len(content)]

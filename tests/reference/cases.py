"""The inputs that the programs are run on."""
from content_cases import content_edges, contents
from header_cases import header_lines
from history import digits, distance, key_id, make_key
from index_cases import full_lines, index_lines
from message_cases import all_messages, write_lines
from reply_cases import first_replies, reply_lines
from routing_cases import routing_lines
from snapshot_cases import snapshot_lines
from stream import Stream

LARGEST = 2**64 - 1
NUMBERS = [0, 1, 255, 256, 65535, 65536, 65537, 12345678, 2**32 - 1, 2**32, 2**48 - 1, 2**63, LARGEST - 1, LARGEST]
ONES = 2**256 - 1


def good_keys(stream, random):
    """Keys of both selectors: the numbers above, each power of two, and random ones."""
    keys = [make_key(s, n) for n in NUMBERS for s in (0, 1)]
    keys += [make_key(i % 2, 2**i) for i in range(64)]
    keys += [make_key(stream.below(2), stream.below(2**64)) for _ in range(random)]
    return keys


def table_keys():
    """Each byte in each place of a block number once, so that each entry of the table of reversed bytes is used in each of six places."""
    return [bytes([b % 2]) + bytes((b + 37 * place) % 256 for place in range(8)) for b in range(256)]


def bad_keys(stream):
    """Keys of every wrong length up to 20, of a long one, and with other selectors."""
    keys = [stream.take(n) for n in range(21) if n != 9] + [stream.take(3000)]
    return keys + [bytes([s]) + stream.take(8) for s in (2, 3, 0x10, 0x7F, 0x80, 0xFF)]


def lister_input():
    stream = Stream('lister')
    lines = [k.hex().encode() for k in good_keys(stream, 300) + bad_keys(stream) + table_keys()]
    good = make_key(1, 12345678).hex().encode()
    lines += [b'', b'0', good[:-1], good + b'0', good.upper(), b' ' + good, good + b' ', good + b'\r', b'0x' + good, good[:9] + b'\0' + good[10:]]
    # every character in place of one digit
    for c in range(256):
        if c != 10:
            at = c % 18
            lines.append(good[:at] + bytes([c]) + good[at + 1 :])
    # 15 comes before 7 and 8, and 7 before 8
    lines += [b'zz', b'0z', b'020', b'02', b'03' * 10, b'g' * 18]
    # lines longer than any buffer, even and odd, good and bad at the first and the last digit
    long = stream.take(40000).hex().encode()
    lines += [long, long[:-1], b'x' + long[1:], long[:-1] + b'x', long[:65536], long[:65535]]
    lines += [b''] * 5 + [good]
    return b'\n'.join(lines)


def console_input():
    stream = Stream('console')
    lines = id_lines(stream) + distance_lines(stream) + class_lines() + asked_lines() + interest_lines(stream)
    lines += [b'content ' + (c.hex().encode() or b'-') for c in contents(stream) + content_edges()]
    lines += [b'read ' + (m.hex().encode() or b'-') for m in all_messages(stream)]
    lines += write_lines(stream) + first_replies() + index_lines(stream) + snapshot_lines(stream) + routing_lines() + reply_lines() + header_lines()
    # what takes a slow build longest comes last
    lines += full_lines()
    return b'\n'.join(lines + no_calls(stream)) + b'\n'


def id_lines(stream):
    return [b'id ' + (k.hex().encode() or b'-') for k in good_keys(stream, 40) + bad_keys(stream)]


def distance_line(a, b):
    return ('distance %s %s' % (digits(a), digits(b))).encode()


def distance_lines(stream):
    lines = [distance_line(0, 2**i) for i in range(256)]
    for _ in range(40):
        a, b = (int.from_bytes(stream.take(32), 'big') for _ in range(2))
        lines += [distance_line(a, b), distance_line(a, a)]
        # apart in the last byte, in the last bit, and by a random distance of each length
        lines += [distance_line(a, a ^ stream.below(256)), distance_line(a, a ^ 1)]
        lines.append(distance_line(a, a ^ (b >> stream.below(256))))
    return lines


def class_lines():
    """The largest distance of every log distance (`distance_lines` has the smallest), and first bytes of each value, in any place."""
    stream = Stream('class')
    own = int.from_bytes(stream.take(32), 'big')
    lines = [distance_line(own, own ^ (2**i - 1)) for i in range(257)]
    for byte in range(1, 256):
        behind = stream.below(32)
        lines.append(distance_line(own, own ^ int.from_bytes(bytes([byte]) + stream.take(behind), 'big')))
    return lines


def asked_line(distances, log):
    return ('asked %s %s' % (distances.hex() or '-', log)).encode()


def asked_lines():
    """Log distances at each end of what a byte holds, asked for by nothing, by one, first, last and by all; and words that are no call."""
    stream = Stream('asked')
    every = bytes(range(256))
    lines = []
    for log in (0, 1, 2, 127, 128, 254, 255, 256, 257, 511, 512, 65280, 65535):
        low = bytes([log % 256])
        others = every.replace(low, b'')
        lines += [asked_line(d, log) for d in (b'', low, low + low, others, low + others, others + low, every[: log % 256])]
    for _ in range(60):
        distances = stream.take(1 + stream.below(40))
        lines += [asked_line(distances, log) for log in (stream.pick(distances), stream.below(256), 256 + stream.pick(distances))]
    bad = ['', '-', '-1', '00', '0255', '65536', '99999', '100000', '1a', 'ff', '0x1']
    lines += [asked_line(b'', word) for word in bad]
    return lines + [b'asked', b'asked -', b'asked 0', b'asked  0', b'asked 0 0', b'asked 0g 0', b'asked 0A 10', b'asked - 0 0', b'asked - 0 ', b'asked 00 0']


def interest_line(node, radius, key):
    return ('interested %s %s %s' % (digits(node), digits(radius), key.hex() or '-')).encode()


def interest_lines(stream):
    lines = []
    keys = good_keys(stream, 40)
    for key in keys:
        node = int.from_bytes(stream.take(32), 'big')
        away = distance(node, key_id(key))
        near = [away, away - 1, away + 1, away ^ 1, away ^ 1 << 255, away ^ 1 << 248]
        lines += [interest_line(node, r, key) for r in near + [0, ONES] if 0 <= r <= ONES]
        # the distance read with the lightest byte first says the opposite here
        lines.append(interest_line(node, int.from_bytes(away.to_bytes(32, 'big'), 'little'), key))
    lines += [interest_line(key_id(k), 0, k) for k in keys[:20]]
    lines += [interest_line(0, stream.pick([0, ONES]), k) for k in bad_keys(stream)]
    return lines


def no_calls(stream):
    """Lines that are no call, some of them too long, with good ones after them."""
    good = distance_line(1, 3)
    lines = [b'help', b'help ', b'help help', b'Help', b'help -', b'', b' ', b'-', b'id', b'id ', b' id 00', b'id  00', b'id 00 ', b'id 00 00', b'id 0', b'id zz', b'ID 00', b'id\t00', b'id 0A', b'ids 00']
    lines += [b'distance', b'distance 00 00', good[:-1], good + b'0', good + b' ', good + b' 00', good.replace(b' ', b'  '), good.upper()]
    lines += [b'fresh', b'fresh 00 00', b'store', b'store 00', b'store 00 00', b'store 00 00 00', b'store 00 00 0 0', b'store  -', b'store  - 0', b'remove', b'remove 00 00', b'radius ', b'radius 0', b'keys -', b'keys ']
    lines += [b'distance - -', b'interested - - -', b'interested ' + b'00' * 32, b'interested ' + b'00' * 33 + b' ' + b'00' * 31 + b' 00']
    lines += [b'id ' + b'00' * 32766, b'id ' + b'00' * 32767, b'id ' + b'0' * 65533, b'x' * 65536, b'x' * 65537, b' ' * 70000, good]
    for _ in range(200):
        lines.append(stream.take(stream.below(60)).replace(b'\n', b' '))
    # a good line with one byte changed
    for _ in range(200):
        line = bytearray(stream.pick([good, b'id 014e61bc0000000000']))
        line[stream.below(len(line))] = stream.pick(b'0189afgz -\t\0\xff')
        lines.append(bytes(line))
    return lines + [good]

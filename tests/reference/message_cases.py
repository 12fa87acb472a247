"""Messages to read: the least and the greatest of each, every kind of damage, and pairs of faults."""
from history import make_key
from history import Refused
from messages import MOST, layout, words, write

ZERO, ID = bytes(4), bytes([0, 0, 0, 1])
KEY, RECEIPTS = make_key(0, 12345678), make_key(1, 2**64 - 1)


def records(stream, count, size):
    """Different records of one size."""
    return [bytes([i % 256]) + stream.take(size - 1) for i in range(count)]


def samples(stream):
    """A small good message of each type and shape."""
    two = records(stream, 2, 5)
    return [
        write('ping', 1),
        write('pong', 2**256 - 2),
        write('findnode', bytes([0, 3, 255])),
        write('foundnodes', 2, two + [b'\x09']),
        write('findcontent', KEY),
        write('foundcontent', ID, [], b''),
        write('foundcontent', ZERO, two, b''),
        write('foundcontent', ZERO, [], b'content'),
        write('offer', RECEIPTS),
        write('accept', KEY),
        write('store', ID, b''),
        write('store', ZERO, b'content'),
    ]


def edges(stream):
    """The least and greatest contents, and one more."""
    everything = bytes(range(256))
    found = [write('ping', 0), write('ping', 2**256 - 1), write('pong', 0), write('pong', 2**255)]
    found += [write('findnode', d) for d in (b'', b'\0', everything, everything[::-1], everything + b'\0', bytes(257), bytes(2), everything[:255] + b'\0')]
    for total in (0, 1, 255):
        found += [write('foundnodes', total, r) for r in ([], [b'\0'], records(stream, 32, 1), records(stream, 33, 1))]
    for size in (0, 1, 2, 299, 300, 301):
        one = records(stream, 1, size) if size else [b'']
        found += [write('foundnodes', 1, one), write('foundcontent', ZERO, one, b''), write('foundnodes', 1, one + [b'\1\2'])]
    # as many records as fit, and one byte more in the last
    for last in (60, 61, 62):
        found.append(write('foundnodes', 1, records(stream, 31, 35) + [stream.take(last)]))
    for count in (0, 1, 32, 33):
        found.append(write('foundcontent', ZERO, records(stream, count, 3), b''))
    for size in (1, MOST - 13, MOST - 12):
        found += [write('foundcontent', ZERO, [], stream.take(size)), write('store', ZERO, stream.take(size + 4))]
    found += [write('foundcontent', ZERO, [], b''), write('store', ZERO, b''), write('foundcontent', b'\1\0\0\0', [], b'')]
    found += [bytes([t]) + stream.take(n - 1) for n in (MOST, MOST + 1) for t in range(11)]
    return found


def rule_breaks(stream):
    """Each rule on items, alone and in pairs: the lowest number wins."""
    one, two = records(stream, 1, 4), records(stream, 2, 4)
    found = [write('foundnodes', t, r) for t in (0, 1) for r in (two + one[:0] + two[:1], [b''], [b'', b''], one + [b''], [bytes(301)])]
    # equal records at each pair of places, and records that differ in the last byte or in length only
    many = records(stream, 6, 7)
    for i in range(6):
        for j in range(i):
            found.append(write('foundnodes', 1, many[:i] + [many[j]] + many[i + 1 :]))
    found += [write('foundnodes', 1, [b'abc', b'abd']), write('foundnodes', 1, [b'abc', b'ab']), write('foundnodes', 1, [b'ab', b'abc'])]
    full = records(stream, 32, 2)
    found += [write('foundnodes', 1, full[:31] + [full[k]]) for k in (0, 15, 30)]
    # 5 before 6: too many that are equal, empty, or of a total of 0
    found += [write('foundnodes', t, [r] * 33) for t in (0, 1) for r in (b'', b'x')] + [write('findnode', bytes(300))]
    for connection in (ZERO, ID, b'\1\0\0\0', b'\xff' * 4):
        for some in ([], one):
            for content in (b'', b'c'):
                found.append(write('foundcontent', connection, some, content))
        found += [write('store', connection, c) for c in (b'', b'c', b'\0')]
    for name in ('findcontent', 'offer', 'accept'):
        for n in (0, 1, 8, 9, 10, 33):
            found += [write(name, (bytes([s]) + stream.take(40))[:n]) for s in (0, 1, 2, 255)]
    return found


def offset_damage(stream):
    """Every offset of a sample changed by one and by four, and to the extremes."""
    found = []
    for message in samples(stream):
        for at in offset_places(message):
            old = int.from_bytes(message[at : at + 4], 'little')
            size = len(message) - 1
            for new in {old - 1, old + 1, old - 4, old + 4, 0, 1, 3, 4, 5, 8, 12, 13, size - 1, size, size + 1, 255, 256, 2**24, 2**31, 2**32 - 4, 2**32 - 1}:
                if 0 <= new < 2**32 and new != old:
                    found.append(message[:at] + new.to_bytes(4, 'little') + message[at + 4 :])
            found.append(message[:at] + message[at : at + 4][::-1] + message[at + 4 :])
    return found


def offset_places(message):
    """Where a sample has offsets: those of the container, and of its list of records."""
    fixed = {3: [1], 4: [2], 5: [1], 6: [5, 9], 7: [1], 8: [1], 9: [5]}.get(message[0], [])
    start = {4: 6, 6: 13}.get(message[0])
    if start is None or message[0] == 6 and message[9] == 12:
        return fixed
    return fixed + [start + 4 * i for i in range(message[start] // 4)]


def records_by_hand():
    """Lists of records that no writer makes."""
    def nodes(data):
        return b'\4\1' + (5).to_bytes(4, 'little') + data

    def o(*offsets):
        return b''.join(n.to_bytes(4, 'little') for n in offsets)

    lists = [o(0), o(0) + b'abc', o(4), o(4) + b'a', o(4) + b'a' * 300, o(4) + b'a' * 301, o(5) + b'a', o(8) + b'a', o(8), o(8, 8), o(8, 9) + b'ab']
    lists += [o(8, 7) + b'ab', o(8, 10) + b'ab', o(8, 11) + b'ab', o(8, 2**32 - 1) + b'ab', o(2**32 - 4) + b'ab', o(2**32 - 1), b'\4', b'\4\0\0', o(1), o(2), o(3)]
    lists += [o(12, 13, 12) + b'abc', o(12, 14, 13) + b'abc', o(12, 12, 12), o(12, 12, 13) + b'a', o(12, 13, 15) + b'abc', o(12, 13, 16) + b'abc']
    # the layout of all offsets comes before the count: 300 of them, the last one broken or not
    for last in (1200, 1199, 1201, 0):
        lists.append(o(*[1200] * 299 + [last]))
    lists += [o(*[132] * 33), o(*[132] * 32 + [131]), o(*[128] * 32), o(*[128 + i for i in range(32)]) + bytes(range(32))]
    return [nodes(data) for data in lists]


def found_by_hand(stream):
    """FoundContent with every second offset of a short message."""
    found = []
    for connection in (ZERO, ID):
        for data in (b'', b'\4\0\0\0a', stream.take(5)):
            for second in list(range(0, 20)) + [2**32 - 1]:
                found.append(b'\6' + connection + (12).to_bytes(4, 'little') + second.to_bytes(4, 'little') + data)
    return found


def all_messages(stream):
    found = [b''] + [bytes([t]) for t in range(256)]
    found += edges(stream) + rule_breaks(stream) + offset_damage(stream) + records_by_hand() + found_by_hand(stream)
    for message in samples(stream):
        found += [message[:n] for n in range(len(message) + 1)]
        found += [message + b'\0', message + stream.take(1), message + stream.take(4)]
        found += [bytes([t]) + message[1:] for t in range(12)]
        for _ in range(20):
            at = stream.below(len(message))
            found.append(message[:at] + stream.take(1) + message[at + 1 :])
    for _ in range(300):
        found.append(bytes([stream.below(10)]) + stream.take(stream.below(60)))
    return found


def in_words(messages):
    """Each message whose layout is right, as the words that write it, whatever its values."""
    for message in messages:
        try:
            yield ('write ' + words(*layout(message))).encode()
        except Refused:
            pass


def write_lines(stream):
    """Every shape of value, good and bad, and buffers one short, exact, one longer and of no bytes."""
    lines = list(in_words(samples(stream) + edges(stream)[:-22] + rule_breaks(stream) + records_by_hand()))
    for message in samples(stream):
        line = next(in_words([message]))
        for room in (len(message) - 1, len(message), len(message) + 1, 0, 1):
            lines += [b'buffer %d' % room, line]
    # pairs of faults: a rule before 2, and 2 before 13
    long = [b'%c' % i + stream.take(299) for i in range(5)]
    lines += [b'buffer 10'] + list(in_words([write('foundnodes', 0, long), write('foundnodes', 1, long), write('store', ID, stream.take(1300)), write('store', ZERO, stream.take(1300))]))
    lines += list(in_words([write('findnode', bytes(300)), write('findcontent', bytes(2000)), write('offer', b'\2' + bytes(8)), write('accept', KEY)]))
    lines += [b'buffer 65536'] + [b'buffer ' + n for n in (b'', b'-', b'00', b'01', b'65537', b'99999', b'100000', b'1x', b'0x1', b'-1', b'1 ', b'1 1')]
    lines += [b'write', b'write ', b'write ping', b'write ping 00', b'write pong ' + b'0' * 64 + b' 00', b'write findnode', b'write findnode 0', b'write nothing 00']
    lines += [b'write foundnodes', b'write foundnodes -', b'write foundnodes 256', b'write foundnodes 01', b'write foundnodes 1 0', b'write foundnodes 1  00', b'write foundnodes 1 ' + b' '.join([b'00'] * 40)]
    lines += [b'write foundnodes 1 ' + b' '.join(b'%02x' % i for i in range(n)) for n in (32, 33, 36, 37, 38)]
    lines += [b'write foundcontent 00000000', b'write foundcontent 000000 -', b'write foundcontent 0000000000 - 00', b'write foundcontent 00000000 - -', b'write store 00000001', b'write store 00000000 - 00', b'write store - c0']
    return lines

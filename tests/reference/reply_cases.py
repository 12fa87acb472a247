"""Replies: every kind of request, both sides of every limit, each refusal and the order of the tests, and random tables."""
from history import OFFSET_BITS, key_id, make_key
from index import LIMIT, Index
from index_cases import fresh, load, remove, store
from message_cases import offset_damage, records, samples
from messages import MOST, write
from replies import CONTENT, REQUESTS
from routing import ENTRIES, ENTRIES_EACH, LONGEST_RECORD
from routing_cases import failed, seen_as, start, table
from stream import Stream

ONES = 2**256 - 1
EVERY = bytes(range(256))
ZERO, ID = bytes(4), b'\1\2\3\4'
KEY = make_key(0, 12345678)
OWN = b'\xee\xee'
# what a message has before its records, and a record beside its bytes
NODES_HEAD, CONTENT_HEAD, OFFSET = 6, 13, 4


def word(data):
    return data.hex() or '-'


def own(record):
    return 'own ' + word(record)


def lend(connection, content):
    return 'lend %s %s' % (word(connection), word(content))


def buffer(room):
    return 'buffer %d' % room


def reply(message):
    return 'reply ' + word(message)


def find_node(*distances):
    return reply(write('findnode', bytes(distances)))


def find_content(key):
    return reply(write('findcontent', key))


def seen(node, record):
    return seen_as(node, ONES, b'\x7f\0\0\1', 9009, record)


def begin(stream, node=None):
    """Ids around a node's id, and the lines that make its index and its table anew."""
    ids, lines = start(stream, node)
    return ids, [fresh(ids.own, ONES)] + lines


def key_near(point, selector=0):
    """The key whose id agrees with an id in its first 64 bits, which are all that a block number gives."""
    bits = format(point, '0256b')
    return make_key(selector, int(bits[16:64][::-1], 2) << 16 | int(bits[:16], 2))


def lined_up(node, count):
    """Ids that are farther and farther from a node, 16 of each log distance from 201 on, and nearer and nearer to ids with other first bits."""
    return [node ^ (1 << 200 + n // 16) ^ (n % 16 << 194) ^ (n * 7919 % 2**20) for n in range(count)]


def away_key(node):
    """The key to whose id all of these are nearer than the node."""
    return key_near(node ^ ONES)


def first_replies():
    """At first the index and the table are of node zero, and nothing is lent."""
    asked = [find_node(), find_node(0), find_node(1), find_node(*EVERY), find_node(*EVERY[1:]), find_content(KEY), find_content(bytes(9)), reply(b'')]
    return [line.encode() for line in asked]


def classes(stream):
    """Log distances asked for: none, each alone, several in any order, all that a byte holds. 256 never is."""
    ids, lines = begin(stream)
    logs = [1, 2, 3, 8, 9, 127, 128, 129, 254, 255, 256]
    lines += [own(OWN)] + [find_node(), find_node(0), find_node(*EVERY)]
    for log in logs[::-1]:
        lines += [seen(ids.at(log), bytes([log % 256, n])) for n in range(2 if log > 1 else 1)]
    lines += [find_node(log) for log in range(256) if log < 12 or log in logs or log + 1 in logs]
    lines += [find_node(*some) for some in (b'', EVERY, EVERY[1:], EVERY[::-1], EVERY[:255], EVERY[:128], EVERY[128:])]
    lines += [find_node(*some) for some in ((0, 1), (1, 0), (255, 8), (8, 255), (128, 0, 3, 127), (129, 4, 5, 0), (4, 5, 6, 7), [log for log in range(256) if log not in logs])]
    # only an entry of log distance 256: nothing matches, whatever is asked for
    ids, made = begin(stream)
    return lines + made + [seen(ids.at(256), b'\1'), find_node(0), find_node(255), find_node(*EVERY), find_node(*EVERY[1:])]


def own_record(stream):
    """Our own record on both sides of each limit; it is not looked at where 0 is not asked for."""
    ids, lines = begin(stream)
    lines.append(seen(ids.at(5), b'\5'))
    for size in (0, 1, 2, LONGEST_RECORD, LONGEST_RECORD + 1, 512):
        lines += [own(stream.take(size)), find_node(0), find_node(0, 5), find_node(5), find_node(6, 0), find_node(6), find_node(), find_content(KEY)]
    return lines + [own(b''), find_node(0), own(OWN), find_node(5, 0)]


def standing(stream):
    """Flagged entries are sent too, and replacements only once they are entries; a sighting brings a new record."""
    ids, lines = begin(stream)
    full, two = ids.some(250, ENTRIES_EACH + 2), ids.some(251, 2)
    ask = [find_node(250), find_content(key_near(ids.own ^ 1 << 249))]
    lines += [seen(node, b'\1%c' % n) for n, node in enumerate(full)] + [seen(node, b'\2%c' % n) for n, node in enumerate(two)] + ask
    for _ in range(4):
        lines += [failed(two[0]), find_node(251)]
    lines += [find_content(key_near(ids.own ^ 1 << 250)), seen(two[0], b'\3'), find_node(251)]
    # the most recent replacement becomes an entry, then the other; then the third is flagged and stays
    for node in full[3:6]:
        lines += [failed(node), failed(node), find_node(250), failed(node)] + ask
    # one that waits again, and one whose record is another now
    return lines + [seen(full[3], b'\4'), seen(full[7], b'\5'), find_node(250, 251), find_node(250)]


def nearest_first(stream):
    """Entries are seen in another order than the one they are sent in, and the order of the distances plays no part."""
    ids, lines = begin(stream)
    nodes = [ids.own ^ d for d in range(1, 32)]
    order = sorted(range(31), key=lambda n: stream.below(1000))
    lines += [own(OWN)] + [seen(nodes[n], bytes([n + 1])) for n in order]
    lines += [find_node(*some) for some in ((1, 2, 3, 4, 5), (5, 4, 3, 2, 1, 0), (5,), (3, 5), (0, 2, 4))]
    ids, made = begin(stream)
    logs = (201, 202, 240, 255, 256)
    nodes = [node for log in logs for node in ids.some(log, 6)]
    order = sorted(range(30), key=lambda n: stream.below(1000))
    lines += made + [seen(nodes[n], bytes([n])) for n in order]
    lines += [find_node(*logs[:4]), find_node(*logs[3::-1]), find_node(255), find_node(202, 240)]
    # from our own id to the far end: all, some and none are nearer
    points = [ids.own, ids.own ^ ONES, ids.own ^ 1 << 255, ids.own ^ 1 << 200, ids.own ^ 1 << 254 ^ 1 << 239, nodes[0], nodes[29]] + [int.from_bytes(stream.take(32), 'big') for _ in range(4)]
    return lines + [find_content(key_near(point, n % 2)) for n, point in enumerate(points)]


def counts(stream):
    """Records of one byte: up to 32 in a message, and up to 129 in all; a FoundContent has no second message."""
    ids, lines = begin(stream)
    lines.append(own(b'\xff'))
    away = away_key(ids.own)
    for n, node in enumerate(lined_up(ids.own, ENTRIES)):
        lines.append(seen(node, bytes([n])))
        if n + 1 in (1, 2, 30, 31, 32, 33, 63, 64, 65, 96, 127, 128):
            lines.append(find_node(*EVERY[1:]))
            # with our own record it is one more
            if n + 1 in (1, 31, 32, 64, 96, 128):
                lines.append(find_node(*EVERY))
            if n < 34 or n == 127:
                lines.append(find_content(away))
    return lines


def in_order(node, said):
    """Entries with these records, the first nearest to the node, and a FindNode for them all."""
    return [seen(id, record) for id, record in zip(lined_up(node, len(said)), said)] + [find_node(*EVERY[1:])]


def in_content_order(node, said):
    """Entries with these records, the first nearest to a content id, and a FindContent for it."""
    return [seen(id, record) for id, record in zip(lined_up(node, len(said))[::-1], said)] + [find_content(away_key(node))]


def of_sizes(stream, sizes):
    """Different records of these sizes."""
    return [bytes([n]) + stream.take(size - 1) for n, size in enumerate(sizes)]


def sizes(stream):
    """Messages of 1,280 bytes, and ones that a record more or a byte more would bring over it."""
    lines = []
    for head, made in ((NODES_HEAD, in_order), (CONTENT_HEAD, in_content_order)):
        # four records of 300 bytes, and one that just fits, or is too long by a byte; then a short one that would have fitted
        left = MOST - head - 4 * (OFFSET + LONGEST_RECORD) - OFFSET
        # 31 of 35 bytes, and a 32nd
        last = MOST - head - 31 * (OFFSET + 35) - OFFSET
        for some in ([300] * 4 + [left], [300] * 4 + [left + 1, 1], [35] * 31 + [last, 1], [35] * 31 + [last + 1, 1]):
            ids, begun = begin(stream)
            lines += begun + made(ids.own, of_sizes(stream, some))
    return lines


def equal_records(stream):
    """Of equal records the first is sent, in one message and across several, our own among them."""
    a, b, c, d = of_sizes(stream, [300] * 4)
    one = [bytes([n]) for n in range(40)]
    many = [
        [b'\1', b'\2', b'\1', b'\2', b'\3', b'\1'],
        [b'\1\2', b'\1', b'\2', b'\1\2\0', b'\2\2', b'\1\1', b'\2', b'\1\2'],
        [b'\7'] * 20,
        # 33 of which two are equal are one message; the 34th of the first message's records; equal ones in the second alone
        one[:32] + one[:1],
        one[:31] + one[30:31] + one[31:33],
        one[:36] + one[2:3] + one[36:38] + one[37:38] + one[38:],
        # one left out makes room for another
        [a, b, a, c, d, stream.take(54)],
        [a[:-1] + b'\0', a[:-1] + b'\1', a[:-1] + b'\0'],
        [b'\0' + a[1:], b'\1' + a[1:], b'\1' + a[1:]],
    ]
    lines = []
    for said in many:
        for made in (in_order, in_content_order):
            ids, begun = begin(stream)
            lines += begun + made(ids.own, said)
    ids, begun = begin(stream)
    lines += begun + in_order(ids.own, [b'\1', b'\2', b'\3']) + [find_content(away_key(ids.own))]
    for record in (b'\1', b'\2', b'\3', b'\4', b'\1\2', b'\2\0'):
        lines += [own(record), find_node(*EVERY), find_node(*EVERY[1:]), find_content(away_key(ids.own))]
    # our own record and 32 others: one message where it is the last one's, else two
    ids, begun = begin(stream)
    lines += begun + in_order(ids.own, one[:32]) + [own(one[31]), find_node(*EVERY), own(one[32]), find_node(*EVERY)]
    return lines + [own(OWN)]


def held(stream):
    """A key that is held: the content lent if it fits, else the connection id, and 23 where that is zero."""
    ids, lines = begin(stream)
    keys = [key_near(ids.own ^ 1 << 230, 0), key_near(ids.own ^ 1 << 230, 1), key_near(ids.own), away_key(ids.own)]
    lines += [seen(node, b'%c' % n) for n, node in enumerate(lined_up(ids.own, 3))] + [find_content(key) for key in keys]
    lines += [store(keys[0]), store(keys[2])]
    short = stream.take(1)
    for connection in (ZERO, ID):
        for content in (b'', short, b'\0', bytes(2), stream.take(CONTENT), stream.take(CONTENT + 1), stream.take(2048)):
            lines += [lend(connection, content), find_content(keys[0])]
        # another selector, and an id that all entries are nearer to: what is lent plays no part where a key is not held
        lines += [find_content(keys[1]), find_content(keys[3]), lend(connection, short)] + [find_content(key) for key in keys]
    for connection in (b'\1\0\0\0', b'\0\1\0\0', b'\0\0\1\0', b'\0\0\0\1', b'\x80\0\0\0', b'\0\0\0\x80', b'\xff' * 4):
        lines += [lend(connection, b''), find_content(keys[2])]
        lines += [lend(connection, short), find_content(keys[2])]
    # all four are held; then the first is removed
    lines += [store(keys[1]), store(keys[3]), lend(ID, b'')] + [find_content(key) for key in keys]
    lines += [remove(keys[0])] + [find_content(key) for key in keys] + [lend(ZERO, b''), find_content(keys[0]), find_content(keys[1])]
    # a full index that was loaded: the first key, the last, and one beside them
    full = Index(ids.own, ONES)
    full.keys = sorted((make_key(n % 2, n) for n in range(LIMIT)), key=full.away)
    numbers = (0, 1, 240, LIMIT // 2, LIMIT - 2, LIMIT - 1, LIMIT, LIMIT + 1)
    lines += [load(full.save()), lend(ID, b'')] + [find_content(make_key(n % 2, n)) for n in numbers] + [find_content(make_key(1, 0))]
    return lines + [lend(ZERO, b'')]


def by_one(stream):
    """Entries that are nearer than we are by one, or farther by one. None is as far as we are: there is one id at each distance from an id, and ours is not
    in the table."""
    lines = []
    for key in (make_key(0, 0), make_key(1, 0), KEY, make_key(1, 2**64 - 1)):
        point = key_id(key)
        for away in (0, 1, 2, 3, 256, 257, 1 << 255, ONES):
            ids, made = begin(stream, point ^ away)
            lines += made + [seen(ids.own ^ 1, b'\1'), find_content(key), seen(ids.own ^ 3, b'\2'), find_content(key)]
            lines += [seen(point, b'\3'), find_content(key), seen(point ^ 1 << 200, b'\4'), find_content(key)]
    return lines


def other_nodes(stream):
    """An index and a table of two nodes: 0, whatever else is wrong."""
    messages = [write('findnode', EVERY[1:]), write('findcontent', KEY), b'', b'\3', b'\1', b'\5' + bytes(MOST), write('findcontent', b'\2' + bytes(8)), write('findnode', b'\0'), write('findnode', bytes(2))]
    ids, lines = begin(stream)
    lines += [seen(ids.at(200), b'\1'), store(KEY), own(b''), lend(ZERO, b'')] + [reply(m) for m in messages]
    for bit in (0, 1, 8, 100, 247, 255):
        lines += [table(ids.own ^ 1 << bit), reply(messages[0]), reply(messages[1])]
    lines += [reply(m) for m in messages] + [buffer(0), reply(messages[0]), buffer(65536), table(ids.own), reply(messages[0])]
    for other in (ids.own ^ 1, ids.own ^ 1 << 255, ONES ^ ids.own, 0):
        lines += [fresh(other, ONES), reply(messages[0]), reply(messages[1])]
    lines += [load(Index(ids.own, 0).save()), reply(messages[0]), load(Index(ids.own + 1, 0).save()), reply(messages[0])]
    # a text that is not loaded leaves the index
    return lines + [load(Index(ids.own, 0).save()[1:]), reply(messages[0]), fresh(ids.own, 0), reply(messages[0]), own(OWN)]


def other_messages(stream):
    """1, 2 and 3: no bytes, too many, and every other type, before its layout is looked at."""
    ids, lines = begin(stream)
    lines += [seen(ids.at(200), b'\1'), reply(b'')] + [reply(bytes([t])) for t in range(256)]
    for message in samples(stream):
        if message[0] not in REQUESTS:
            lines += [reply(m) for m in (message, message[:-1], message + b'\0', message[:5], message[:1] + b'\4\0\0\0')]
    request = write('findnode', b'\1\2')
    lines += [reply(bytes([t]) + request[1:]) for t in (0, 1, 2, 3, 4, 5, 6, 7, 8, 9, 10, 19, 131, 255)]
    for size in (MOST - 1, MOST, MOST + 1):
        lines += [reply(bytes([t]) + stream.take(size - 1)) for t in (0, 1, 3, 4, 5, 9, 10)] + [reply((b'%c\4\0\0\0' % t).ljust(size, b'\0')) for t in REQUESTS]
    return lines + [reply(b'\3' + bytes(32000)), reply(b'\1' + bytes(2 * MOST))]


def broken(stream):
    """4, 5, 6, 7 and 8: requests that break a rule, alone and in pairs, each before 23."""
    ids, lines = begin(stream)
    lines += [seen(ids.at(200), b'\1'), store(KEY), own(b''), lend(ZERO, b'')]
    for message in samples(stream):
        if message[0] in REQUESTS:
            lines += [reply(message[:n]) for n in range(len(message) + 1)] + [reply(message + b'\0'), reply(message[:1] + b'\0' + message[1:])]
    lines += [reply(m) for m in offset_damage(stream) if m[0] in REQUESTS]
    for distances in (EVERY + b'\0', EVERY + b'\xff', bytes(257), bytes(300), bytes(MOST - 5), bytes(2), bytes(256), EVERY[:255] + b'\0', b'\1\2\1', b'\0\1\1', b'\xff\0\xff', EVERY[1:] + b'\xff', EVERY, b'\0'):
        lines.append(find_node(*distances))
    for size in (0, 1, 8, 9, 10, 33, MOST - 5):
        lines += [find_content((bytes([selector]) + KEY[1:].ljust(MOST, b'\0'))[:size]) for selector in (0, 1, 2, 3, 255)]
    return lines + [own(OWN), find_node(0), find_node(0, 0), lend(ID, b''), find_content(KEY), find_content(KEY + b'\0'), find_content(b'\2' + KEY[1:])]


def in_rooms(ask, size, rooms=()):
    """A request in buffers just long enough and one byte short, and in others."""
    return [line for room in (size - 1, size, size + 1, 0, 1) + tuple(rooms) for line in (buffer(room), ask)]


def rooms(stream):
    """Buffers for one message and for several; 13 comes last."""
    ids, lines = begin(stream)
    away = away_key(ids.own)
    lines += [own(OWN), lend(ID, b'')] + in_rooms(find_node(), NODES_HEAD) + in_rooms(find_node(0), NODES_HEAD + OFFSET + 2) + in_rooms(find_content(KEY), CONTENT_HEAD)
    nodes = lined_up(ids.own, 70)
    lines += [seen(nodes[0], b'\0'), store(KEY)] + in_rooms(find_node(*EVERY[1:]), NODES_HEAD + OFFSET + 1) + in_rooms(find_content(away), CONTENT_HEAD + OFFSET + 1)
    lines += in_rooms(find_content(KEY), CONTENT_HEAD) + [buffer(65536), lend(ID, b'abc')] + in_rooms(find_content(KEY), CONTENT_HEAD + 3)
    # two messages and three: the first alone has room, then all but the last byte
    first = NODES_HEAD + 32 * (OFFSET + 1)
    for count in (33, 70):
        lines += [seen(node, bytes([n])) for n, node in enumerate(nodes[:count])]
        size = (count + 31) // 32 * NODES_HEAD + count * (OFFSET + 1)
        lines += in_rooms(find_node(*EVERY[1:]), size, (NODES_HEAD, first - 1, first, first + 1, first + NODES_HEAD))
    lines += in_rooms(find_content(away), CONTENT_HEAD + 32 * (OFFSET + 1))
    # no room and nothing usable: 23; no room and a broken request: its own number
    lines += [buffer(0), own(b''), lend(ZERO, b''), find_node(0), find_node(1), find_content(KEY), find_content(away), own(bytes(301)), find_node(0, 1), find_content(b'\2' + KEY[1:])]
    lines += [find_content(KEY[1:]), find_node(1, 1), reply(b'\3'), reply(b'\1'), reply(b''), reply(bytes(MOST + 1)), own(OWN), find_node(0), lend(ID, b''), find_content(KEY)]
    return lines + [buffer(65536), find_node(0), find_content(KEY)]


def longest(stream):
    """129 records of 300 bytes: 33 messages, 32 of them of four records; the buffer one byte short and just enough."""
    ids, lines = begin(stream)
    said = records(stream, ENTRIES + 1, LONGEST_RECORD)
    lines += [own(said[-1])] + [seen(node, record) for node, record in zip(lined_up(ids.own, ENTRIES), said)]
    size = 33 * NODES_HEAD + (ENTRIES + 1) * (OFFSET + LONGEST_RECORD)
    return lines + [buffer(size - 1), find_node(*EVERY), buffer(size), find_node(*EVERY), buffer(65536), own(OWN)]


def lasting(stream):
    """What is lent stays until it is lent anew, whatever else is called; a line that is no call leaves it, and one call the other's."""
    ids, lines = begin(stream)
    ask = [find_node(0), find_content(KEY)]
    lines += [store(KEY), own(b'\1'), lend(ID, b'')] + ask
    bad = ['own', 'own ', 'own 0', 'own 0g', 'own AB', 'own --', 'own 00 00', 'own 00 ', 'own 00 -', 'own ' + '00' * 513, 'own ' + '0' * 1025, 'Own 02', 'owns 02']
    bad += ['lend', 'lend ', 'lend 00000005', 'lend 00000005 ', 'lend - -', 'lend -', 'lend 000005 05', 'lend 0000000005 05', 'lend 0000005 05', 'lend 0000000g 05', 'lend 00000005 0', 'lend 00000005 0g']
    bad += ['lend 00000005 AB', 'lend 00000005  05', 'lend 00000005 05 05', 'lend 00000005 - -', 'lend 00000005 ' + '00' * 2049, 'lend 05 00000005', 'Lend 00000005 05', 'lent 00000005 05']
    bad += ['reply', 'reply ', 'reply 0', 'reply 0g', 'reply 03 04', 'reply 0A', 'reply  03', 'reply - -', 'reply --', 'Reply -', 'replies -']
    lines += bad + ask
    lines += [own(bytes(512)), ask[0], own(b'\2')] + ask + [lend(ZERO, bytes(2048)), ask[1], lend(ZERO, b'\3')] + ask
    lines += [table(ids.own), fresh(ids.own, ONES), store(KEY)] + ask + [load(Index(ids.own, ONES).save()), find_content(KEY), store(KEY), buffer(14)] + ask + [buffer(65536), 'radius', 'rows'] + ask
    return lines + [lend(ID, b'')] + ask + ['own -'] + ask + ['lend 00000000 -'] + ask


def random_case(stream):
    """Some entries with records from a small choice, some keys that are held, and some requests of each kind."""
    ids, lines = begin(stream)
    logs = [stream.pick((8, 9, 64, 100, 193, 200, 254, 255, 256)) for _ in range(1 + stream.below(5))]
    choice = [stream.take(1 + stream.below(stream.pick((3, 12)))) for _ in range(1 + stream.below(stream.pick((25, 90))))]
    nodes = [ids.at(stream.pick(logs)) for _ in range(stream.below(stream.pick((8, 24, 90))))] or [ids.own]
    lines += [own(stream.pick(choice + [b''])), lend(stream.pick((ZERO, stream.take(4))), stream.take(stream.below(4)))]
    lines += [seen(node, stream.pick(choice)) for node in nodes] + [failed(stream.pick(nodes[-4:])) for _ in range(stream.below(9))]
    points = [stream.pick(nodes), ids.own, stream.pick(nodes) ^ 1 << 255, int.from_bytes(stream.take(32), 'big')]
    keys = [key_near(point, stream.below(2)) for point in points]
    lines += [store(key) for key in keys if stream.below(4) == 0]
    for _ in range(2):
        some = {stream.pick(logs) % 256 for _ in range(stream.below(4))} | set(stream.take(stream.below(4)))
        lines.append(find_node(*some))
    lines += [find_node(*{0, stream.pick(logs) % 256})] + [find_content(key) for key in keys]
    return lines + [buffer(stream.below(80)), find_node(*{log % 256 for log in logs}), find_content(keys[0]), buffer(65536)]


def reply_lines():
    stream = Stream('replies')
    lines = []
    for part in (classes, own_record, standing, nearest_first, counts, sizes, equal_records, held, by_one, other_nodes, other_messages, broken, rooms, longest, lasting):
        lines += part(stream)
    for _ in range(40):
        lines += random_case(stream)
    return [line.encode('latin-1') for line in lines]

"""What the program `reply_edges` prints: replies from indexes and routing tables that no call makes, and into buffers of several lengths."""
from history import Refused, make_key
from index import LIMIT, Index
from index_edges import broken
from messages import MOST, write
from replies import NO_CONNECTION, reply
from routing_edges import OWN, Places, near, rows, waiters

ONES = 2**256 - 1
NEAR, FAR, OTHER = (make_key(selector, 90 * 256 + low) for selector, low in ((0, 90), (0, 91), (1, 90)))
REQUESTS = [('nodes', write('findnode', b'\x0b\x00\x09\x0a')), ('held', write('findcontent', NEAR)), ('not held', write('findcontent', OTHER))]
BUFFER = 1024
LARGEST = 2**64 - 1


def known(places):
    """The table as it is handed in, with records of two bytes, what the id differs by from ours, or of as many as are told."""
    found = places.table()
    for contact in found.entries + found.replacements:
        apart = (contact.node ^ OWN).to_bytes(2, 'big')
        contact.record = (apart + apart[:1] * 298)[: places.sizes.get(contact.node, 2)]
    return found


class Keys:
    """An index as it is handed in: two keys, a cap and a count that may lie."""

    def __init__(self, count=2, first=NEAR, second=FAR, cap=ONES, node=OWN):
        self.count, self.index = count, Index(node, cap)
        self.index.keys = ([first, second] + [bytes(9)] * LIMIT)[: min(count, LIMIT)]

    def broken(self):
        return broken(self.index, self.count)


def told(keys, places, message, lent=True, room=BUFFER):
    """The reply, or the refusal. No other byte of a buffer is ever another, and no other length."""
    try:
        if keys.broken() or places.broken():
            raise Refused(0)
        own, content = (b'own', b'content') if lent else (b'', b'')
        sent = reply(keys.index, known(places), own, content, NO_CONNECTION, message, room)
        said = ' '.join(['reply'] + [m.hex() for m in sent])
    except Refused as why:
        said = 'refused %d' % why.number
    return said + ', no other length, all else as it was'


def lines(name, keys, places, **how):
    yield name
    for which, message in REQUESTS:
        yield '  %s: %s' % (which, told(keys, places, message, **how))


def output():
    none, two = Places(), Keys()
    some = Places(rows(1, 16) + rows(2, 16) + rows(4, 1), waiters(1, 20) + waiters(2, 17))
    most = Places([row for k in range(8) for row in rows(2**k, 16)], [node for k in range(4) for node in waiters(2**k, 20)])
    full = none.with_entries(*rows(1, 16))
    entry, replacement = near(4, 1), near(2, 17)
    reach = Keys().index.away(NEAR)
    cases = [
        ('two keys', two, some),
        ('two keys, other unused bytes', two, some),
        ('no keys', Keys(0), some),
        ('no keys, other unused bytes', Keys(0), some),
        ('a key at the cap', Keys(1, cap=reach), some),
        ('a key over the cap', Keys(1, cap=reach - 1), some),
        ('3001 keys', Keys(LIMIT + 1), some),
        ('the largest count', Keys(LARGEST), some),
        ('a bad selector', Keys(2, NEAR, b'\2' + FAR[1:]), some),
        ('the largest selector', Keys(1, b'\xff' + NEAR[1:]), some),
        ('farthest first', Keys(2, FAR, NEAR), some),
        ('equal keys', Keys(2, NEAR, NEAR), some),
        ('3000 keys, most of them equal', Keys(LIMIT), some),
        ('no contacts', two, none),
        ('128 entries and 16 replacements', two, most),
        ('129 entries', two, most.counted(129, 16)),
        ('the largest number of entries', two, most.counted(LARGEST, 16)),
        ('17 replacements', two, most.counted(128, 17)),
        ('the largest number of replacements', two, most.counted(128, LARGEST)),
        ('16 entries of one log distance', two, full),
        ('17 entries of one log distance', two, none.with_entries(*rows(1, 17))),
        ('4 replacements of one log distance', two, full.with_replacements(*waiters(1, 20))),
        ('5 replacements of one log distance', two, full.with_replacements(*waiters(1, 21))),
        ('a replacement where there are 15 entries', two, none.with_entries(*rows(1, 15)).with_replacements(near(1, 16))),
        ('two entries whose ids differ in one bit', two, some.with_entries((entry, 3))),
        ('two entries with one id', two, some.with_entries((near(4, 0), 0))),
        ('two replacements with one id', two, some.with_replacements(near(2, 16))),
        ('an entry and a replacement with one id', two, some.with_replacements(near(2, 3))),
        ('our own id among the entries', two, some.with_entries((OWN, 0))),
        ('our own id among the replacements', two, some.with_replacements(OWN)),
        ('4 failures', two, some.with_entries((entry, 4))),
    ]
    for size, said in ((1, 'of 1 byte'), (300, 'of 300 bytes'), (0, 'of no bytes'), (301, 'of 301 bytes'), (LARGEST, 'of the largest length')):
        cases.append(('an entry with a record ' + said, two, some.with_entries((entry, 0)).with_size(size, entry)))
        cases.append(('a replacement with a record ' + said, two, some.with_replacements(replacement).with_size(size, replacement)))
    cases += [
        ('3001 keys and 4 failures', Keys(LIMIT + 1), some.with_entries((entry, 4))),
        ('an index of another node', Keys(0, node=int.from_bytes(bytes([91]) * 32, 'big')), some),
        ('unused: the ids of an entry and of a replacement', two, some),
        ('unused: our own id', two, some),
        ('unused: 255 failures', two, some),
        ('unused: records of no bytes', two, some),
        ('unused: records of the largest length', two, some),
        ('unused: other bytes behind a record', two, some),
        ('unused: 128 entries and 16 replacements', two, none),
    ]
    printed = [line for case in cases for line in lines(*case)]
    for room in (0, 1, 19, 20, 21, 108, 109, 110, 198, 199, 216, 217, 218):
        said = {0: 'no bytes', 1: '1 byte'}.get(room, '%d bytes' % room)
        printed += lines(said + ' of room', two, some, room=room)
    for said, message in (
        ('no bytes', b''),
        ('1,281 bytes', b'\3' * (MOST + 1)),
        ('another type', b'\4'),
        ('an offset cut off', b'\3\4\0\0'),
        ('257 distances', write('findnode', bytes(257))),
        ('a distance twice', write('findnode', b'\7\7')),
        ('a key of no bytes', write('findcontent', b'')),
        ('a bad selector', write('findcontent', b'\2' + NEAR[1:])),
    ):
        printed.append('%s: %s' % (said, told(two, some, message)))
    printed += lines('nothing lent', two, some, lent=False)
    return ''.join(line + '\n' for line in printed).encode()

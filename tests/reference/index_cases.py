"""Calls on the index: the full case of document 01 as wish 6 has it, caps at the edge, removals at every place, content of every kind, numbers on each side
of the newest known block, and long random runs."""
from content_cases import content_edges
from history import digits, distance, key_id, make_key
from index import LIMIT, Index
from stream import Stream

ONES = 2**256 - 1
LARGEST = 2**64 - 1
EMPTY, WHOLE = b'\xc0', b'\xf8\x38' + bytes(56)
# the limit of the old kind of saved text, at which nothing happens now
OLD_LIMIT = 240


def word(data):
    return data.hex() or '-'


def fresh(node, cap):
    return 'fresh %s %s' % (digits(node), digits(cap))


def number_of(key):
    return int.from_bytes(key[1:9], 'little')


def store(key, content=EMPTY, newest=None):
    """A store call. The newest known block is the key's own, if no other is named."""
    return 'store %s %s %d' % (word(key), word(content), number_of(key) if newest is None else newest)


def remove(key):
    return 'remove ' + word(key)


def load(text):
    return 'load ' + (text.decode('latin-1').replace('\n', '|') or '-')


SHOW = ['radius', 'keys']


def random_key(stream):
    return make_key(stream.below(2), stream.below(2**64))


def filled(stream, size):
    """An index of so many random keys."""
    index, keys = Index(int.from_bytes(stream.take(32), 'big'), ONES), set()
    while len(keys) < size:
        keys.add(random_key(stream))
    index.keys = sorted(keys, key=index.away)
    return index


def full_case():
    """Bodies 0 to 2,999, then one on each side of the radius. The radius is shown around the old limit and around the limit."""
    last, lines = LIMIT - 1, [fresh(0, ONES)] + SHOW
    for n in range(LIMIT):
        lines += [store(make_key(0, n))] + ['radius'] * (n + 1 in (1, OLD_LIMIT - 1, OLD_LIMIT, OLD_LIMIT + 1, last))
    lines += SHOW + [store(make_key(0, LIMIT)), store(make_key(1, last)), store(make_key(0, last)), store(make_key(1, 0)), 'radius']
    # a freed place is used again, and the radius is the cap until the index fills
    lines += [remove(make_key(0, last)), remove(make_key(0, 0)), 'radius', store(make_key(0, 2**40)), 'radius', store(make_key(0, 1)), 'radius']
    lines += [store(make_key(0, 0)), 'radius', remove(make_key(1, 0)), remove(make_key(1, 0)), 'radius']
    # two more than there is room for: the second evicts
    return lines + [store(make_key(1, n)) for n in (last - 2, last - 3, last - 3, 0)] + ['radius', store(make_key(1, last - 2)), store(make_key(1, last - 4)), 'radius']


def caps(stream):
    """A cap of zero, of all ones, and of exactly a key's distance, or one less; a node id that is an id."""
    lines = []
    for key in (make_key(0, 12345678), make_key(1, 2**64 - 1)):
        node = int.from_bytes(stream.take(32), 'big')
        away = distance(node, key_id(key))
        for at, cap in ((node, 0), (node, ONES), (node, away), (node, away - 1), (key_id(key), 0), (key_id(key), 1), (key_id(key) ^ 1, 0)):
            lines += [fresh(at, cap), store(key), store(key), store(make_key(key[0] ^ 1, 12345678))] + SHOW + [remove(key), remove(key), 'keys']
    return lines


def removals(stream):
    """The first, the middle, the last and the only key, from small indexes."""
    lines = []
    for size in (1, 2, 3, 5):
        keys = [make_key(stream.below(2), 1000 + n) for n in range(size)]
        node = int.from_bytes(stream.take(32), 'big')
        order = sorted(keys, key=lambda k: distance(node, key_id(k)))
        for place in sorted({0, size // 2, size - 1}):
            lines += [fresh(node, ONES)] + [store(k) for k in keys] + [remove(order[place])] + SHOW + [store(order[place]), 'keys']
    return lines


def full_removals(stream):
    """The first, the middle and the last key of a full index, and their neighbours, which stay. The last keys are shown as they are evicted or removed."""
    index = filled(stream, LIMIT)
    order, lines = index.keys, [load(index.save()), 'radius']
    for place in (0, 1, LIMIT // 2, LIMIT - 2, LIMIT - 1):
        around = [order[n] for n in (place - 1, place + 1) if 0 <= n < LIMIT]
        lines += [remove(order[place]), remove(order[place]), 'radius'] + [store(key) for key in around]
        lines += [store(order[place]), 'radius', store(order[place])] + [store(key) for key in around]
    # the nearest of some new keys go in, each in the place of the last one
    new = sorted((random_key(stream) for _ in range(400)), key=index.away)
    for key in new[:4]:
        lines += [store(key), 'radius', store(key)]
    lines += [store(key) for key in order[-5:]] + [remove(key) for key in reversed(order[-8:])] + ['radius']
    # as many as were removed, from far to near, and the next one evicts
    return lines + [line for key in reversed(new[-40:-30] + new[4:6]) for line in (store(key), 'radius')]


def refusals(stream):
    """Every refusal, and pairs of faults: 7, 8, 17, 16, 9, 11, 10 in that order when storing."""
    held, far = make_key(0, 5), make_key(1, 6)
    node = key_id(held)
    lines = [fresh(node, 0), store(held, WHOLE)]
    keys = [held, far, make_key(0, 7), b'', held[:8], held + b'\0', b'\2' + held[1:], b'\xff' + far[1:], stream.take(40)]
    for key in keys:
        for content in (EMPTY, WHOLE, b'', b'\xc1', b'\xf8\0', b'\0'):
            lines += [store(key, content, newest) for newest in (None, 4, 0)]
        lines.append(remove(key))
    return lines + SHOW + [store(held)] + SHOW


def places():
    """Content on each side of every edge, stored into an index with room, and under a key that is held."""
    edges = content_edges()
    lines = [fresh(0, ONES)] + [store(make_key(0, n), content) for n, content in enumerate(edges)] + SHOW
    return lines + [store(make_key(0, 2), content) for content in edges[:12]]


def full_places():
    """Content on each side of every edge, stored into a full index."""
    edges, full = content_edges(), Index(0, ONES)
    full.keys = [make_key(0, n) for n in range(LIMIT)]
    lines = [load(full.save())] + [store(make_key(1, n), content) for n, content in enumerate(edges)] + ['radius']
    # too far as well as cut off or wrong: the content is tested first
    return lines + [store(make_key(0, 65535), content) for content in edges[:12] + [EMPTY, WHOLE, b'']]


def newest_edges():
    """Numbers one below, at and one above the newest known block, both selectors, at the edges of every byte."""
    lines, low = [fresh(0, ONES)], [0, 1, 2, 254, 255, 12345678]
    edges = sorted(set(low + [2**bits + by for bits in (8, 16, 24, 32, 40, 48, 56, 63) for by in (-1, 0, 1)] + [LARGEST - n for n in low]))
    for newest in edges:
        for number in (newest + 1, newest, newest - 1):
            lines += [store(make_key(selector, number), EMPTY, newest) for selector in (0, 1) if 0 <= number <= LARGEST]
    lines += SHOW
    # one byte of the number over one byte of the newest, and the bytes in the other order
    for i in range(8):
        for j in range(8):
            lines.append(store(make_key(i % 2, 3 << 8 * i), EMPTY, 2 << 8 * j))
    return lines + SHOW


def newest_words():
    """Words that are a newest block number, and that are none."""
    key = make_key(1, 7)
    words = ['0', '6', '7', '8', '10', '65536', '100000', str(LARGEST), str(2**63)]
    bad = ['', '-', '-1', '+7', '00', '07', '0x7', '7a', 'a7', '7.', ':', '/', '7 ', ' 7', '7 7', str(LARGEST + 1), str(LARGEST + 5), str(LARGEST * 10), '99999999999999999999']
    bad += ['2' * n for n in (21, 39, 100)] + ['1' + '0' * n for n in (20, 300, 5000)] + ['0' * 20, '0' + str(LARGEST)]
    lines = [fresh(0, ONES)]
    for found in words + bad:
        lines += ['store %s c0 %s' % (key.hex(), found), remove(key)]
    return lines + ['store %s c0' % key.hex(), 'keys']


def near_number(node, place):
    """The block number whose id has the first eight bytes of the node id, with the bits of `place` turned over."""
    top = (node >> 192) ^ place
    return int(format(top % 2**48, '048b')[::-1], 2) << 16 | top >> 48


def crowded(stream):
    """A member's case: a full index of known blocks is offered blocks that do not exist, picked to lie near the node id."""
    newest, index = 25_000_000, Index(int.from_bytes(stream.take(32), 'big') | 1 << 192, ONES)
    known = set()
    while len(known) < LIMIT:
        known.add(make_key(stream.below(2), stream.below(newest + 1)))
    index.keys = sorted(known, key=index.away)
    near = [make_key(stream.below(2), near_number(index.node, 2 * n)) for n in range(40)]
    lines = [load(index.save()), 'radius'] + [store(key, EMPTY, newest) for key in near] + ['radius'] + [store(key, EMPTY, newest) for key in index.keys[-3:]]
    # a known block is stored as before, and evicts the farthest
    new = min((make_key(0, stream.below(newest)) for _ in range(300)), key=index.away)
    lines += [store(new, EMPTY, newest), 'radius']
    # named as known the others are taken in; held, they are refused with 17 before 11 where they are named unknown, and can be removed
    lines += [store(key, EMPTY, LARGEST) for key in near[:3]] + ['radius'] + [store(key, EMPTY, n) for key in near[:3] for n in (newest, LARGEST)]
    return lines + [remove(key) for key in near[:3]] + ['radius', store(near[0], EMPTY, newest), store(new, EMPTY, newest), store(new, EMPTY, 0)]


def reloaded_future():
    """A reload asks nothing of a number: the keys that it brings stay, whatever later calls name."""
    index = Index(0, ONES)
    index.keys = [make_key(0, 5), make_key(1, 5), make_key(0, LARGEST)]
    lines = [load(index.save()), 'keys', store(make_key(0, LARGEST), EMPTY, 5), store(make_key(1, LARGEST), EMPTY, 5), store(make_key(1, 6), EMPTY, 5)]
    return lines + [store(make_key(0, 4), EMPTY, 5), 'keys', remove(make_key(0, LARGEST)), store(make_key(0, LARGEST), EMPTY, 5), 'keys']


def random_run(stream, calls, pool, node, cap):
    """Stores and removals of keys from a pool, small or large, with something wrong now and then. The keys of a large index are shown at the end only."""
    lines = [fresh(node, cap)]
    keys = [make_key(stream.below(2), stream.below(pool)) for _ in range(max(4, min(pool, 700)))]
    for _ in range(calls):
        key, dice = stream.pick(keys), stream.below(20)
        if dice < 12:
            lines.append(store(key, EMPTY if dice else b'', max(0, number_of(key) + stream.below(8) - 1)))
        elif dice < 19:
            lines.append(remove(key))
        else:
            lines += SHOW if pool < 100 else ['radius']
    return lines + SHOW


def growing_run(stream):
    """More stores than removals from an empty index on, until it is over the old limit."""
    keys, lines = [random_key(stream) for _ in range(320)], [fresh(int.from_bytes(stream.take(32), 'big'), ONES)]
    for n, key in enumerate(keys):
        lines.append(store(key))
        if n % 7 == 0:
            lines.append(remove(stream.pick(keys[: n + 1])))
        if n % 50 == 0:
            lines.append('radius')
    return lines + SHOW


def full_run(stream):
    """Stores and removals at the limit, from an index that is loaded with 50 keys to go: it fills, evicts, and has room again and again."""
    index = filled(stream, LIMIT - 50)
    held, lines = list(index.keys), [load(index.save()), 'radius']
    for _ in range(420):
        dice = stream.below(24)
        if dice < 14:
            held.append(random_key(stream))
            lines.append(store(held[-1]))
        elif dice < 16:
            lines.append(store(stream.pick(held)))
        elif dice < 19:
            lines.append(remove(stream.pick(held)))
        else:
            lines.append('radius' if dice < 22 else store(stream.pick(held), b'\xc1'))
    # the farthest of all, and the nearest
    order = sorted(held, key=index.away)
    return lines + [store(key) for key in order[-4:] + order[:4]] + [remove(key) for key in order[:4]] + ['radius']


def index_lines(stream):
    lines = SHOW + caps(stream) + removals(stream) + refusals(stream)
    for pool in (2, 6, 40):
        lines += random_run(stream, 300, pool, int.from_bytes(stream.take(32), 'big'), ONES >> stream.below(3))
    lines += growing_run(stream) + random_run(stream, 1200, 600, int.from_bytes(stream.take(32), 'big'), ONES >> 1)
    return [line.encode() for line in lines + places() + newest_edges() + newest_words() + reloaded_future()]


def full_lines():
    """Calls on full indexes."""
    stream = Stream('full')
    return [line.encode() for line in full_removals(stream) + full_run(stream) + crowded(stream) + full_places() + full_case()]

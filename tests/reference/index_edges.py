"""What the program `index_edges` prints: the calls on indexes that no call makes."""
from history import Refused, digits, make_key
from index import LIMIT, Index, load

ONES = 2**256 - 1
FIRST, SECOND = make_key(0, 1), make_key(0, 2)


def broken(index, count):
    """The rules of an index: its count, selectors, strict order and cap."""
    if count > LIMIT or any(k[0] > 1 for k in index.keys):
        return True
    away = [index.away(k) for k in index.keys]
    return any(d > index.cap for d in away) or any(a >= b for a, b in zip(away, away[1:]))


def barred(text):
    """A saved text on one line."""
    return text.decode().replace('\n', '|')


def lines(name, cap, count, keys):
    def tell(call, hands_back=False):
        """The answer, after whether the index handed back is the very one, where the call hands one back."""
        try:
            if broken(index, count):
                raise Refused(0)
            return 'another index, ' * hands_back + call()
        except Refused as why:
            return 'the very index, ' * hands_back + 'refused %d' % why.number

    def made():
        found = Index(0, cap)
        found.keys = (keys + [bytes(9)] * LIMIT)[: min(count, LIMIT)]
        return found

    index = made()
    yield name
    yield '  radius ' + tell(lambda: digits(index.radius()))
    yield '  holds body 1: ' + tell(lambda: 'yes' if FIRST in index.keys else 'no')
    for name, key, content in (('0', bytes(9), b'\xc0'), ('0, content cut off', bytes(9), b'\xc1'), ('1, not known yet, content cut off', FIRST, b'\xc1')):
        yield '  store body %s: ' % name + tell(lambda: 'stored %d %d' % index.store(key, content, 0)[0], True)
        index = made()
    yield '  remove body 1: ' + tell(lambda: index.remove(FIRST) or 'removed', True)
    index = made()
    yield '  save: all else as it was, ' + tell(lambda: barred(index.save()))
    again = tell(lambda: 'loaded ' + barred(load(index.save()).save()))
    yield '  reload: ' + again.replace('refused', 'the very index, refused')


def output():
    both = [FIRST, SECOND]
    cases = [
        ('empty', ONES, 0, both),
        ('empty, other unused bytes', ONES, 0, both),
        ('two keys', ONES, 2, both),
        ('two keys, other unused bytes', ONES, 2, both),
        ('a key at the cap', 0, 1, [bytes(9), SECOND]),
        ('a key over the cap', 0, 1, both),
        ('3001 keys', ONES, LIMIT + 1, both),
        ('the largest count', ONES, 2**64 - 1, both),
        ('a bad selector', ONES, 2, [FIRST, make_key(2, 2)]),
        ('the largest selector', ONES, 1, [make_key(255, 1), SECOND]),
        ('farthest first', ONES, 2, [SECOND, FIRST]),
        ('equal keys', ONES, 2, [FIRST, FIRST]),
        ('3000 keys, most of them equal', ONES, LIMIT, both),
    ]
    return ''.join(line + '\n' for case in cases for line in lines(*case)).encode()

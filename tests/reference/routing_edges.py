"""What the program `routing_edges` prints: the calls on routing tables that no call makes."""
from collections import Counter

from history import Refused, log_distance
from routing import ENTRIES, ENTRIES_EACH, FLAG, LONGEST_RECORD, REPLACEMENTS, REPLACEMENTS_EACH, Contact, Table

OWN = int.from_bytes(bytes([90]) * 32, 'big')


def near(a, b):
    """The id at distance 256 a + b from ours."""
    return OWN ^ (256 * a + b)


class Places:
    """A table as it is handed in: ids with failures, ids of replacements, counts that may lie, and the sizes of records that are told."""

    def __init__(self, entries=(), replacements=(), count=None, waiting=None, sizes=()):
        self.entries, self.replacements, self.sizes = list(entries), list(replacements), dict(sizes)
        self.count = len(self.entries) if count is None else count
        self.waiting = len(self.replacements) if waiting is None else waiting

    def with_entries(self, *more):
        return Places(self.entries + list(more), self.replacements)

    def with_replacements(self, *more):
        return Places(self.entries, self.replacements + list(more))

    def counted(self, count, waiting):
        return Places(self.entries, self.replacements, count, waiting, self.sizes)

    def with_size(self, size, *nodes):
        return Places(self.entries, self.replacements, self.count, self.waiting, {node: size for node in nodes})

    def broken(self):
        """The rules that document 02 gives a table."""
        if self.count > ENTRIES or self.waiting > REPLACEMENTS:
            return True
        entries, replacements = self.entries[: self.count], self.replacements[: self.waiting]
        ids = [node for node, _ in entries] + replacements
        rows = Counter(log_distance(OWN, node) for node, _ in entries)
        waiters = Counter(log_distance(OWN, node) for node in replacements)
        return (
            len(set(ids)) < len(ids)
            or OWN in ids
            or any(failures > FLAG for _, failures in entries)
            or any(not 1 <= self.sizes.get(node, 1) <= LONGEST_RECORD for node in ids)
            or any(n > ENTRIES_EACH for n in rows.values())
            or any(n > REPLACEMENTS_EACH or rows[log] < ENTRIES_EACH for log, n in waiters.items())
        )

    def table(self):
        found = Table(OWN)
        found.entries = [Contact(node, 1, b'', 0, b'\1') for node, _ in self.entries[: self.count]]
        found.failures = dict(self.entries[: self.count])
        found.replacements = [Contact(node, 1, b'', 0, b'\1') for node in self.replacements[: self.waiting]]
        return found


def lines(name, places):
    def tell(call):
        try:
            if places.broken():
                raise Refused(0)
            return 'another table, ' + call(places.table())
        except Refused as why:
            return 'the very table, refused %d' % why.number

    def found():
        if places.broken():
            return 'zeros, failures 0, refused 0'
        contact = places.table().find(near(1, 0))
        if contact is None:
            return 'zeros, failures 0, absent'
        return 'fields, failures %d, %s' % (contact[1] or 0, 'waiting' if contact[1] is None else 'row')

    def seen(a, b, size=1):
        return tell(lambda table: table.seen(Contact(near(a, b), 1, b'', 0, bytes(size))))

    def failed(a, b):
        return tell(lambda table: 'counted %d' % table.failed(near(a, b))[0])

    yield name
    yield '  find the first: ' + found()
    yield '  seen a newcomer: ' + seen(4, 200)
    yield '  seen a stranger: ' + seen(200, 200)
    yield '  seen a neighbour: ' + seen(0, 200)
    yield '  seen our own id: ' + seen(0, 0)
    yield '  seen our own id with a record of the largest length: ' + seen(0, 0, LONGEST_RECORD + 1)
    yield '  seen a newcomer with a record of no bytes: ' + seen(4, 200, 0)
    yield '  failed the first: ' + failed(1, 0)
    yield '  failed our own id: ' + failed(0, 0)
    yield '  failed a stranger: ' + failed(200, 200)


def rows(a, n):
    return [(near(a, b), b % 4) for b in range(n)]


def waiters(a, n):
    return [near(a, b) for b in range(16, n)]


def one_more(some, size):
    """An entry and a replacement more, with records of this size."""
    entry, replacement = near(4, 1), near(2, 17)
    return some.with_entries((entry, 0)).with_replacements(replacement).with_size(size, entry, replacement)


def records(some):
    for size, said in ((1, 'of 1 byte'), (300, 'of 300 bytes'), (0, 'of no bytes'), (301, 'of 301 bytes'), (2**64 - 1, 'of the largest length')):
        yield 'an entry with a record ' + said, some.with_entries((near(4, 1), 0)).with_size(size, near(4, 1))
        yield 'a replacement with a record ' + said, some.with_replacements(near(2, 17)).with_size(size, near(2, 17))


def output():
    none, largest = Places(), 2**64 - 1
    some = Places(rows(1, 16) + rows(2, 16) + rows(4, 1), waiters(1, 20) + waiters(2, 17))
    most = Places([row for k in range(8) for row in rows(2**k, 16)], [node for k in range(4) for node in waiters(2**k, 20)])
    full = none.with_entries(*rows(1, 16))
    cases = [
        ('no contacts', none),
        ('33 entries and 5 replacements', some),
        ('128 entries and 16 replacements', most),
        ('129 entries', most.counted(129, 16)),
        ('the largest number of entries', most.counted(largest, 16)),
        ('17 replacements', most.counted(128, 17)),
        ('the largest number of replacements', most.counted(128, largest)),
        ('16 entries of one log distance', full),
        ('17 entries of one log distance', none.with_entries(*rows(1, 17))),
        ('4 replacements of one log distance', full.with_replacements(*waiters(1, 20))),
        ('5 replacements of one log distance', full.with_replacements(*waiters(1, 21))),
        ('a replacement where there are 15 entries', none.with_entries(*rows(1, 15)).with_replacements(near(1, 16))),
        ('a replacement alone', none.with_replacements(near(1, 16))),
        ('two entries whose ids differ in one bit', some.with_entries((near(4, 1), 0))),
        ('two entries with one id', some.with_entries((near(4, 0), 0))),
        ('two replacements with one id', some.with_replacements(near(2, 16))),
        ('an entry and a replacement with one id', some.with_replacements(near(2, 3))),
        ('our own id among the entries', some.with_entries((OWN, 0))),
        ('our own id among the replacements', some.with_replacements(OWN)),
        ('3 failures', some.with_entries((near(4, 1), 3))),
        ('4 failures', some.with_entries((near(4, 1), 4))),
        ('255 failures', some.with_entries((near(4, 1), 255))),
        ('4 failures of the first entry', none.with_entries((near(4, 1), 4), (near(1, 0), 0))),
        *records(some),
        ('a record of no bytes in the first entry', none.with_entries((near(4, 1), 0), (near(1, 0), 0)).with_size(0, near(4, 1))),
        ('a record of no bytes in the first replacement', full.with_replacements(near(1, 16), near(1, 17)).with_size(0, near(1, 16))),
        ('unused: the ids of an entry and of a replacement', some.with_entries((near(1, 0), 0)).with_replacements(near(1, 16)).counted(33, 5)),
        ('unused: our own id', some.with_entries((OWN, 0)).with_replacements(OWN).counted(33, 5)),
        ('unused: 255 failures', some.with_entries((near(4, 1), 255)).counted(33, 5)),
        ('unused: records of no bytes', one_more(some, 0).counted(33, 5)),
        ('unused: records of the largest length', one_more(some, largest).counted(33, 5)),
        ('unused: a 17th entry and a 5th replacement of one log distance', some.with_entries((near(1, 20), 0)).with_replacements(near(1, 21)).counted(33, 5)),
        ('unused: 128 entries and 16 replacements', most.counted(0, 0)),
    ]
    return ''.join(line + '\n' for case in cases for line in lines(*case)).encode()

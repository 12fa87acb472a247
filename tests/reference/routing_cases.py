"""Calls on the routing table: both sides of every limit, each refusal, failures and replacements, and long random runs."""
from history import digits
from routing import ENTRIES, ENTRIES_EACH, FLAG, LONGEST_RECORD, REPLACEMENTS_EACH
from stream import Stream

ONES = 2**256 - 1
SHOW = ['rows', 'waiting']
# lengths of records: most are short, so that answers are, and one in a hundred is the longest
SIZES = [1] * 40 + [2] * 30 + [3] * 20 + [8] * 9 + [LONGEST_RECORD]


def table(own):
    return 'table ' + digits(own)


def seen_as(node, radius, address, port, record):
    return 'seen %s %s %s %d %s' % (digits(node), digits(radius), address.hex(), port, record.hex() or '-')


def failed(node):
    return 'failed ' + digits(node)


def entry(node):
    return 'entry ' + digits(node)


class Ids:
    """Ids around an own id, each of them once, and sightings with fields that no other sighting has."""

    def __init__(self, stream, own):
        self.stream, self.own, self.used = stream, own, set()
        self.records = Stream('records around ' + digits(own))

    def at(self, log):
        """An id of this log distance that was not yet used."""
        while True:
            least = 2 ** (log - 1)
            node = self.own ^ (least + (self.stream.below(least) if log < 65 else int.from_bytes(self.stream.take(32), 'big') % least))
            if node not in self.used:
                self.used.add(node)
                return node

    def some(self, log, count):
        return [self.at(log) for _ in range(count)]

    def seen(self, node, size=None):
        take = self.stream.take
        size = self.records.pick(SIZES) if size is None else size
        return seen_as(node, int.from_bytes(take(32), 'big'), take(4), self.stream.below(65536), self.records.take(size))

    def all_seen(self, nodes):
        return [self.seen(n) for n in nodes]

    def full(self, log, waiting=0):
        """The ids of a full log distance and so many replacements, and their sightings."""
        nodes = self.some(log, ENTRIES_EACH + waiting)
        return nodes, self.all_seen(nodes)


def start(stream, own=None):
    own = int.from_bytes(stream.take(32), 'big') if own is None else own
    return Ids(stream, own), [table(own)]


def of_one_log(stream):
    """15, 16 and 17 of one log distance; then 4 and 5 replacements of it, and a sixth. Each is looked up after each call near a limit."""
    lines = []
    for own, log in ((0, 256), (ONES, 6), (None, 101), (None, 9)):
        ids, made = start(stream, own)
        nodes, other = ids.some(log, ENTRIES_EACH + REPLACEMENTS_EACH + 2), ids.at(log - 1)
        lines += made + ids.all_seen(nodes[: ENTRIES_EACH - 1]) + SHOW
        for node in nodes[ENTRIES_EACH - 1 :]:
            lines += [entry(node), ids.seen(node), entry(node), 'waiting']
        # the next log distance has room, and the two on each side are not counted with it
        lines += [ids.seen(other), ids.seen(ids.at(log - 1)), 'rows'] + [entry(n) for n in nodes]
    return lines


def small_logs(stream):
    """All ids of the log distances 1 to 5, which have 1, 2, 4, 8 and 16 of them; our own id alone is of log distance 0."""
    lines = []
    for own in (0, ONES, 2**255, None):
        ids, made = start(stream, own)
        nodes = [ids.own ^ d for d in range(1, 32)]
        lines += made + [entry(ids.own)] + ids.all_seen(nodes) + [ids.seen(ids.own), failed(ids.own), entry(ids.own)] + SHOW
        lines += [failed(ids.own ^ 1)] * 4 + [ids.seen(ids.own ^ 1), entry(ids.own ^ 1), ids.seen(ids.own ^ 32), 'rows']
    return lines


def all_waiting(stream):
    """15, 16 and 17 replacements in all: the 17th finds its log distance's longest unseen, or is refused with 22."""
    ids, lines = start(stream)
    nodes = {}
    for log, waiting in ((251, 4), (252, 4), (253, 4), (254, 2), (255, 1)):
        nodes[log], made = ids.full(log, waiting)
        lines += made
    lines += ['waiting', ids.seen(ids.at(254)), 'waiting']
    # all 16 places are used: 254 has three, 255 one, 250 none
    lines += ids.full(250)[1] + [ids.seen(ids.at(250)), 'waiting', ids.seen(ids.at(254)), 'waiting', ids.seen(ids.at(255)), 'waiting', ids.seen(ids.at(251)), 'waiting']
    late = ids.at(250)
    lines += [ids.seen(late), entry(late), failed(late), 'waiting']
    # a newcomer whose log distance has room does not wait
    lines += [ids.seen(ids.at(249)), 'waiting']
    # a failed entry frees a place, which the refused one takes, and now its own log distance's longest unseen makes way
    lines += [failed(nodes[252][0])] * 3 + ['waiting', ids.seen(late), 'waiting', ids.seen(late), 'waiting', ids.seen(ids.at(250)), 'waiting', entry(late)]
    # 20 comes before 22, and 29 and 20 change nothing
    return lines + [ids.seen(ids.own), failed(ids.own), failed(ids.at(201))] + SHOW


def all_entries(stream):
    """127, 128 and 129 entries: 21 where the log distance has room, else the newcomer waits, and 22 where all 16 wait elsewhere."""
    ids, lines = start(stream)
    logs = range(241, 249)
    for log in logs[:-1]:
        lines += ids.full(log)[1]
    last = ids.some(logs[-1], ENTRIES_EACH)
    lines += ids.all_seen(last[:-1]) + [ids.seen(last[-1]), 'rows']
    room = [ids.at(log) for log in (1, 8, 249, 256)]
    for node in room:
        lines += [ids.seen(node), entry(node), failed(node)]
    lines += ['waiting', ids.seen(ids.own), failed(ids.own), entry(ids.own), ids.seen(last[0]), entry(last[0])]
    waiting = ids.some(logs[0], 4)
    lines += ids.all_seen(waiting) + ['waiting', ids.seen(room[0]), 'waiting']
    # with all entries used an exchange works as ever, and frees no entry
    lines += [failed(last[3])] * 4 + [ids.seen(ids.at(logs[-1])), failed(last[3]), 'waiting', ids.seen(room[1]), ids.seen(last[3]), entry(last[3])]
    for log in logs[1:4]:
        lines += ids.all_seen(ids.some(log, 4))
    return lines + [ids.seen(ids.at(logs[4])), ids.seen(ids.at(logs[5])), ids.seen(ids.at(101))] + SHOW


def all_entries_thin(stream):
    """128 entries of which no log distance has more than 15: every newcomer is refused with 21, and there is no replacement."""
    ids, lines = start(stream)
    nodes = [ids.at(201 + n % 9) for n in range(ENTRIES - 1)]
    lines += ids.all_seen(nodes)
    late = ids.some(202, 3)
    lines += ids.all_seen(late) + [ids.seen(ids.at(200)), 'waiting'] + [failed(nodes[0])] * 4 + [ids.seen(late[1]), entry(nodes[0]), ids.seen(nodes[0]), entry(nodes[0])]
    return lines + SHOW


def failures(stream):
    """Up to five failures, with none, one and four replacements, in full log distances and in others."""
    lines = []
    for count, waiting in ((1, 0), (ENTRIES_EACH - 1, 0), (ENTRIES_EACH, 0), (ENTRIES_EACH, 1), (ENTRIES_EACH, REPLACEMENTS_EACH)):
        for place in sorted({0, count // 2, count - 1}):
            ids, made = start(stream)
            nodes = ids.some(131, count + waiting)
            lines += made + [failed(nodes[0])] + ids.all_seen(nodes)
            for _ in range(FLAG + 2):
                lines += [failed(nodes[place]), entry(nodes[place]), 'waiting']
            lines += ['rows', failed(nodes[-1]), entry(nodes[-1])]
    return lines


def in_a_row(stream):
    """A sighting between failures begins the count anew; another entry's failures and sightings do not."""
    ids, lines = start(stream)
    one, other = ids.some(78, 2)
    lines += ids.all_seen([one, other])
    for before in range(FLAG + 2):
        lines += [failed(one)] * before + [entry(one), ids.seen(other), failed(other), entry(one), ids.seen(one), entry(one)]
    # flagged, then seen, then flagged again
    return lines + [failed(one)] * 4 + [ids.seen(one), entry(one)] + [failed(one)] * 4 + [entry(one), entry(other)]


def flagged(stream):
    """A flagged entry keeps its place until it fails again; then the newcomer that waits takes it."""
    ids, lines = start(stream)
    nodes, made = ids.full(91)
    late, later = ids.some(91, 2)
    lines += made + [failed(nodes[5])] * 3 + [entry(nodes[5]), ids.seen(late), entry(late), entry(nodes[5])] + SHOW
    lines += [failed(nodes[5]), entry(nodes[5]), entry(late), failed(nodes[5])] + SHOW
    # the one that made way comes back as a newcomer, waits, and gets a place with no failures
    lines += [failed(nodes[6]), ids.seen(nodes[5]), entry(nodes[5]), failed(nodes[5])] + [failed(nodes[6])] * 2 + [entry(nodes[5]), entry(nodes[6])] + SHOW
    # a flagged entry that is seen stays when another waits
    lines += [failed(nodes[0])] * 3 + [ids.seen(later), ids.seen(nodes[0]), failed(nodes[0]), failed(nodes[0]), entry(nodes[0]), failed(nodes[0])] + SHOW
    # where the log distance has room a newcomer is an entry, and the flagged one stays flagged
    ids, made = start(stream)
    one, two = ids.some(91, 2)
    return lines + made + [ids.seen(one)] + [failed(one)] * 3 + [ids.seen(two), failed(one), entry(one), entry(two)] + SHOW


def most_recent(stream):
    """A replacement seen again becomes the most recent: it is promoted first, and makes way last."""
    lines = []
    for place in range(REPLACEMENTS_EACH):
        ids, made = start(stream)
        nodes, seen = ids.full(34, REPLACEMENTS_EACH)
        waiting = nodes[ENTRIES_EACH:]
        lines += made + seen + ['waiting', ids.seen(waiting[place]), 'waiting', entry(waiting[place]), ids.seen(ids.at(34)), 'waiting']
        lines += [ids.seen(waiting[place]), 'waiting'] + [failed(nodes[1])] * 3 + [entry(waiting[place])] + SHOW
        # the rest are promoted one after the other, the last seen first, and then the failed entry is flagged
        for node in nodes[2:6]:
            lines += [failed(node)] * 3 + ['waiting', entry(node)]
        lines += [ids.seen(ids.at(34)), 'waiting', 'rows']
    # other log distances stand between them and play no part
    ids, made = start(stream)
    far, near = ids.full(41, 2), ids.full(42, 2)
    lines += made + far[1] + near[1] + ['waiting', ids.seen(far[0][-2]), ids.seen(near[0][-1]), 'waiting']
    return lines + [failed(far[0][3])] * 3 + ['waiting'] + [failed(near[0][3])] * 3 + SHOW


def fields(stream):
    """A sighting brings every field anew, of an entry and of a replacement, and of no other; each field at its ends."""
    ids, lines = start(stream)
    nodes, made = ids.full(223, 2)
    lines += made
    for node in (nodes[0], nodes[7], nodes[16], nodes[17]):
        for said in (
            (0, bytes(4), 0, b'\0'),
            (ONES, b'\xff' * 4, 65535, b'\xff' * LONGEST_RECORD),
            (ONES, bytes(4), 0, b'\xff'),
            (1, b'\0\0\0\1', 1, b'\0\1'),
            (1 << 255, b'\x80\0\0\0', 32768, b'\1\0'),
            (1, b'\0\0\0\1', 256, b'\1' + bytes(31) + b'\1'),
            (1, b'\x0a\0\0\x7f', 255, b'\1' * 2),
        ):
            lines += [seen_as(node, *said), entry(node), entry(nodes[1])]
    lines += [failed(nodes[2])] * 3 + [entry(n) for n in nodes] + SHOW
    return lines


def records(stream):
    """Records on both sides of each limit, of an entry, a replacement, a newcomer and our own id; longer and shorter ones by turns."""
    ids, lines = start(stream)
    nodes, made = ids.full(223, 2)
    first, wait = nodes[3], nodes[ENTRIES_EACH]
    lines += made
    for node in (first, wait, ids.at(222), ids.at(223), ids.own):
        for size in (0, LONGEST_RECORD + 1, LONGEST_RECORD + 2, 2 * LONGEST_RECORD, 512, 1000):
            lines.append(ids.seen(node, size))
        lines.append(entry(node))
    for node in (first, wait):
        for size in (LONGEST_RECORD, 1, LONGEST_RECORD - 1, 2, 256, 0, 255):
            lines += [ids.seen(node, size), entry(node)]
    # a record outlasts failures, and goes with a replacement that becomes an entry; the one that made way brings a new one
    lines += [ids.seen(wait, 5), failed(first), entry(first), failed(first), failed(first), entry(first), entry(wait), ids.seen(first, 4), entry(first)]
    lines += [ids.seen(wait, LONGEST_RECORD), failed(wait), failed(wait), ids.seen(wait, LONGEST_RECORD + 1), failed(wait), entry(first), entry(wait)] + SHOW
    # with all entries used, and all replacements: 6 comes before 21 and 22
    ids, made = start(stream)
    for log in range(241, 249):
        made += ids.full(log, 4 if log < 245 else 0)[1]
    lines += made
    for log in (201, 241, 245):
        node = ids.at(log)
        lines += [ids.seen(node, 0), ids.seen(node, 1), ids.seen(node, LONGEST_RECORD), ids.seen(node, LONGEST_RECORD + 1), 'waiting']
    return lines


def anew(stream):
    """A table made anew has forgotten everything; an index and a table do not touch each other."""
    ids, lines = start(stream)
    nodes, made = ids.full(201, 3)
    lines += made + [failed(nodes[0]), table(ids.own)] + SHOW + [entry(nodes[0]), entry(nodes[-1]), failed(nodes[0]), ids.seen(nodes[-1]), entry(nodes[-1])]
    # an id that was ours is an id like any other
    other = ids.at(201)
    lines += [table(other), ids.seen(other), ids.seen(ids.own), entry(ids.own), failed(ids.own)] + SHOW
    lines += ['fresh %s %s' % (digits(7), digits(ONES)), 'store 000000000000000000 c0 0'] + SHOW + [table(other), 'keys'] + SHOW
    return lines


def no_calls(stream):
    """Words of another size or form."""
    ids, lines = start(stream)
    node = ids.at(61)
    good = ids.seen(node)
    name, one, radius, address, port, enr = good.split()
    lines += [good]
    for bad in ('', '-', '00', one[:-1], one[:-2], one + '0', one + '00', one.upper() + 'A', 'g' + one[1:], '0x' + one[2:]):
        lines += ['table ' + bad, 'failed ' + bad, 'entry ' + bad, ' '.join([name, bad, radius, address, port, enr]), ' '.join([name, one, bad, address, port, enr])]
    for bad in ('', '-', '7f0000', '7f00000', '7f0000010', '7f00000100', '7F000001', '127.0.0.1', '7f00000g'):
        lines.append(' '.join([name, one, radius, bad, port, enr]))
    for bad in ('', '-', '-1', '+1', '00', '01', '065535', '65536', '65537', '99999', '100000', '131071', '4294967296', '18446744073709551616', '1a', 'ffff', '1.0', '0x1'):
        lines.append(' '.join([name, one, radius, address, bad, enr]))
    for bad in ('', '0', '000', '--', '-0', '0g', 'AB', '0x', 'ab' * LONGEST_RECORD + 'a', 'ab' * LONGEST_RECORD + 'ag', 'ab' * LONGEST_RECORD + 'A0'):
        lines.append(' '.join([name, one, radius, address, port, bad]))
    # a line that is no call is not refused
    lines += [' '.join([name, one, radius, address, '65536', '-']), ' '.join([name, one, radius, '00', port, 'ab' * (LONGEST_RECORD + 1)])]
    lines += ['table', 'table %s %s' % (one, one), 'seen', 'seen ' + one, good[: good.rindex(' ')], good + ' ', good + ' 00', good + ' -', 'failed', 'failed %s -' % one, 'entry', entry(node) + ' ', 'entry %s %s' % (one, one)]
    lines += ['rows -', 'rows ', 'rows 0', 'waiting ' + one, 'waiting ', 'Rows', 'row', 'wait', 'Seen' + good[4:], 'TABLE ' + one, 'tables', 'entries']
    return lines + [entry(node)] + SHOW


def random_run(stream, calls, logs, each):
    """Sightings and failures of ids of a few log distances, our own among them now and then."""
    ids, lines = start(stream)
    nodes = [node for log in logs for node in ids.some(log, each)] + [ids.own]
    # ids that fail more often than others, so that third failures come about
    weak = [stream.pick(nodes) for _ in range(len(nodes) // 6 + 1)]
    for _ in range(calls):
        dice, node = stream.below(40), stream.pick(nodes)
        if dice < 18:
            lines.append(ids.seen(node))
        elif dice < 34:
            lines.append(failed(stream.pick(weak) if dice < 30 else node))
        else:
            lines.append(entry(node) if dice < 39 else 'waiting')
    return lines + SHOW


def routing_lines():
    stream = Stream('routing')
    # at first our own id is zero
    lines = SHOW + [entry(0), seen_as(0, 1, bytes(4), 2, b'\0'), failed(0), failed(1), seen_as(1, 2, bytes(4), 3, b'\4'), entry(1)] + SHOW
    for part in (of_one_log, small_logs, all_waiting, all_entries, all_entries_thin, failures, in_a_row, flagged, most_recent, fields, anew, no_calls):
        lines += part(stream)
    lines += random_run(stream, 400, [256], 22) + random_run(stream, 700, [4, 5, 6], 8) + random_run(stream, 900, [253, 254], 24)
    lines += random_run(stream, 1500, range(247, 255), 24) + random_run(stream, 1500, range(101, 112), 20) + records(Stream('records'))
    return [line.encode() for line in lines]

"""Replies: what document 02's wish 4 has the box send to a neighbour who asks."""
from history import Refused, asked, distance, key_id, log_distance
from messages import MOST, read, write

SHORTEST, LONGEST_RECORD = 1, 300
RECORDS = 32
CONTENT = 1267
NO_CONNECTION = bytes(4)
REQUESTS = (3, 5)


def request(data):
    """The name and values of a FindNode or a FindContent; any other type is 3 before anything else of it is looked at."""
    if data and len(data) <= MOST and data[0] not in REQUESTS:
        raise Refused(3)
    return read(data)


def nearest(contacts, point):
    return sorted(contacts, key=lambda c: distance(point, c.node))


def taken(records, message):
    """How many of the records one message takes, in order, until the next would be one too many or pass 1,280 bytes."""
    count = 0
    while count < min(len(records), RECORDS) and len(message(records[: count + 1])) <= MOST:
        count += 1
    return count


def once(records):
    return list(dict.fromkeys(records))


def nodes(table, own, distances):
    """All FoundNodes for these distances."""
    records = []
    if asked(distances, 0):
        if not SHORTEST <= len(own) <= LONGEST_RECORD:
            raise Refused(23)
        records.append(own)
    matching = [c for c in table.entries if asked(distances, log_distance(table.own, c.node))]
    records = once(records + [c.record for c in nearest(matching, table.own)])
    groups = []
    while records or not groups:
        count = taken(records, lambda part: write('foundnodes', 1, part))
        groups.append(records[:count])
        records = records[count:]
    return [write('foundnodes', len(groups), group) for group in groups]


def content(index, table, lent, connection, key):
    """The one FoundContent for a key."""
    if key in index.keys:
        if 1 <= len(lent) <= CONTENT:
            return write('foundcontent', NO_CONNECTION, [], lent)
        if not any(connection):
            raise Refused(23)
        return write('foundcontent', connection, [], b'')
    point = key_id(key)
    nearer = [c for c in table.entries if distance(point, c.node) < distance(point, table.own)]
    records = once([c.record for c in nearest(nearer, point)])
    count = taken(records, lambda part: write('foundcontent', NO_CONNECTION, part, b''))
    return write('foundcontent', NO_CONNECTION, records[:count], b'')


def reply(index, table, own, lent, connection, data, room):
    """The messages of a reply, in order."""
    if index.node != table.own:
        raise Refused(0)
    name, values = request(data)
    if name == 'findnode':
        sent = nodes(table, own, values[0])
    else:
        sent = [content(index, table, lent, connection, values[0])]
    if sum(map(len, sent)) > room:
        raise Refused(13)
    return sent

"""The key index: the keys held, nearest first, with document 01's rules for storing, removing, saving and reloading, and document 02's wishes 6 and 7."""
from bisect import bisect

from history import Refused, digits, distance, key, key_id, unhex
from rlp import examine

LIMIT = 3000
# each kind of saved text by the mark of its first line: the bytes of its count, and the most keys that it lists
OLD, NEW = 0x01, 0x11
KINDS = {OLD: (1, 240), NEW: (2, LIMIT)}
KEY = 0x02


class Index:
    def __init__(self, node, cap):
        self.node, self.cap, self.keys = node, cap, []

    def away(self, data):
        return distance(self.node, key_id(data))

    def radius(self):
        """The cap, or the distance of the farthest key, which stands last, where the index is full."""
        return self.cap if len(self.keys) < LIMIT else self.away(self.keys[-1])

    def store(self, data, content, newest):
        """Start and length of the payload, and the evicted key or None."""
        _, number = key(data)
        if number > newest:
            raise Refused(17)
        place = examine(content)
        if data in self.keys:
            raise Refused(11)
        if self.away(data) > self.radius():
            raise Refused(10)
        self.keys.insert(bisect(self.keys, self.away(data), key=self.away), data)
        return place, self.keys.pop() if len(self.keys) > LIMIT else None

    def remove(self, data):
        key(data)
        if data not in self.keys:
            raise Refused(12)
        self.keys.remove(data)

    def save(self, kind=NEW):
        """The saved text. The box writes the new kind only; texts of the old kind are made for the cases."""
        count = len(self.keys).to_bytes(KINDS[kind][0], 'little')
        lines = ['%02x%s%s%s' % (kind, digits(self.node), digits(self.cap), count.hex())]
        return ''.join(line + '\n' for line in lines + ['%02x%s' % (KEY, k.hex()) for k in self.keys]).encode()


def load(text):
    """The index that a saved text of either kind gives, or 14 with the first bad line."""
    *lines, rest = text.split(b'\n')

    def frame(number, sizes):
        """The kind and the bytes after it of a line that is there, has its line feed and is of one of these kinds and its size."""
        data = unhex(lines[number - 1]) if number <= len(lines) else None
        if not data or sizes.get(data[0]) != len(data):
            raise Refused(14, number)
        return data[0], data[1:]

    kind, head = frame(1, {kind: 65 + size for kind, (size, _) in KINDS.items()})
    index, count = Index(int.from_bytes(head[:32], 'big'), int.from_bytes(head[32:64], 'big')), int.from_bytes(head[64:], 'little')
    if count > KINDS[kind][1]:
        raise Refused(14, 1)
    last = -1
    for number in range(2, count + 2):
        _, data = frame(number, {KEY: 10})
        if data[0] > 1 or not last < index.away(data) <= index.cap:
            raise Refused(14, number)
        index.keys.append(data)
        last = index.away(data)
    if rest or len(lines) > count + 1:
        raise Refused(14, count + 2)
    return index

"""A stream of bytes that is the same on every machine, for random cases."""
import hashlib


class Stream:
    def __init__(self, name):
        self.name, self.turn, self.left = name.encode(), 0, b''

    def take(self, n):
        while len(self.left) < n:
            self.left += hashlib.sha256(self.name + self.turn.to_bytes(8, 'big')).digest()
            self.turn += 1
        taken, self.left = self.left[:n], self.left[n:]
        return taken

    def below(self, n):
        return int.from_bytes(self.take(8), 'big') % n

    def pick(self, items):
        return items[self.below(len(items))]

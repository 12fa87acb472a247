"""The routing table: document 02's table of neighbours, with its rules for sightings, failures and looking up."""
from history import Refused, log_distance

ENTRIES, ENTRIES_EACH = 128, 16
REPLACEMENTS, REPLACEMENTS_EACH = 16, 4
FLAG = 3
LONGEST_RECORD = 300


class Contact:
    def __init__(self, node, radius, address, port, record):
        self.node, self.radius, self.address, self.port, self.record = node, radius, address, port, record


def sized(record):
    return 1 <= len(record) <= LONGEST_RECORD


class Table:
    """Entries in the order in which their places were first taken; replacements by last sighting, longest unseen first."""

    def __init__(self, own):
        self.own, self.entries, self.replacements = own, [], []
        # how often each entry failed, by its id
        self.failures = {}

    def near(self, contacts, node):
        """Those of a node's log distance, in their order."""
        return [c for c in contacts if log_distance(self.own, c.node) == log_distance(self.own, node)]

    def seen(self, contact):
        """`row` or `waiting`: where the node stands now."""
        if not sized(contact.record):
            raise Refused(6)
        if contact.node == self.own:
            raise Refused(20)
        if contact.node in self.failures:
            self.entries = [contact if c.node == contact.node else c for c in self.entries]
            self.failures[contact.node] = 0
            return 'row'
        if any(c.node == contact.node for c in self.replacements):
            self.replacements = [c for c in self.replacements if c.node != contact.node] + [contact]
            return 'waiting'
        if len(self.near(self.entries, contact.node)) < ENTRIES_EACH:
            if len(self.entries) == ENTRIES:
                raise Refused(21)
            self.entries.append(contact)
            self.failures[contact.node] = 0
            return 'row'
        others = self.near(self.replacements, contact.node)
        if len(others) == REPLACEMENTS_EACH or len(self.replacements) == REPLACEMENTS:
            if not others:
                raise Refused(22)
            self.replacements.remove(others[0])
        self.replacements.append(contact)
        return 'waiting'

    def failed(self, node):
        """How many failures the entry has now, and the replacement that took its place, or None."""
        if node == self.own:
            raise Refused(20)
        if node not in self.failures:
            raise Refused(29)
        count = self.failures[node] = min(self.failures[node] + 1, FLAG)
        others = self.near(self.replacements, node)
        if count < FLAG or not others:
            return count, None
        self.replacements.remove(others[-1])
        self.entries = [others[-1] if c.node == node else c for c in self.entries]
        del self.failures[node]
        self.failures[others[-1].node] = 0
        return count, others[-1]

    def find(self, node):
        """The contact and its failures, None for a replacement's; or None for an id that is absent."""
        for contact in self.entries + self.replacements:
            if contact.node == node:
                return contact, self.failures.get(node)
        return None

"""The console's answers: one line of text for each line read."""
import hashlib

import headers
import messages
import rlp
from index import Index, load
from history import Refused, asked, digits, distance, interested, key_id, log_distance, unhex
from replies import NO_CONNECTION, reply
from routing import FLAG, Contact, Table

LONGEST = 65536
MOST_WORDS = 40
# how many bytes can be lent to replies
LENT_RECORD, LENT_CONTENT = 512, 2048
# how many bytes of roots and of records can be lent: one of each more than a call takes
LENT_ROOTS, LENT_RECORDS = 32 * 2049, 64 * 8193


class NoCall(Exception):
    """The line is no call."""


def data(word):
    """The bytes of a word: lower-case hexadecimal, or `-` for none."""
    if word == b'-':
        return b''
    found = unhex(word)
    if not word or found is None:
        raise NoCall
    return found


def at_most(word, most):
    """The bytes of a word, if there are no more than these."""
    found = data(word)
    if len(found) > most:
        raise NoCall
    return found


def value(word):
    """A word of 32 bytes, as a number with the first byte heaviest."""
    found = data(word)
    if len(found) != 32:
        raise NoCall
    return int.from_bytes(found, 'big')


def four(word):
    """A word of four bytes."""
    found = data(word)
    if len(found) != 4:
        raise NoCall
    return found


def number(word, most):
    """A decimal number with no zero in front."""
    if not word.isdigit() or len(word) > 20 or word != str(int(word)).encode() or int(word) > most:
        raise NoCall
    return int(word)


def message_values(name, words):
    """The values of a message in words."""
    fields = messages.MESSAGES[messages.TYPES[name]][1]
    values = {}
    words = list(words)
    for at, field in enumerate(fields):
        if field != 'list':
            if not words:
                raise NoCall
            word = words.pop(0)
            if field == 'uint8':
                values[at] = number(word, 255)
            else:
                values[at] = {'uint256': value, 'bytes4': four}.get(field, data)(word)
    if 'list' in fields:
        values[fields.index('list')] = [data(word) for word in words]
    elif words:
        raise NoCall
    return [values[at] for at in range(len(fields))]


def longer(held, word, most):
    """A list of bytes that is lent, with those of a word behind it, if there are no more than these then. `-` leaves none."""
    more = data(word)
    if len(held + more) > most:
        raise NoCall
    return held + more if more else b''


def yes_or_no(found):
    return 'yes' if found else 'no'


def listed(word, contacts):
    """A word, how many contacts, and their ids."""
    return ' '.join([word, str(len(contacts))] + [digits(c.node) for c in contacts])


# how each message is written in words; the fields that are lists of records come last
MESSAGE_WORDS = [
    'ping RADIUS',
    'pong RADIUS',
    'findnode DISTANCES',
    'foundnodes TOTAL RECORD ..',
    'findcontent KEY',
    'foundcontent CONNECTION CONTENT RECORD ..',
    'offer KEY',
    'accept KEY',
    'store CONNECTION CONTENT',
]


class Console:
    def __init__(self):
        self.index, self.room, self.neighbours = Index(0, 2**256 - 1), LONGEST, Table(0)
        self.record, self.connection, self.lent = b'', NO_CONNECTION, b''
        self.lent_roots, self.lent_records = b'', b''

    def id(self, key):
        return 'id ' + digits(key_id(data(key)))

    def distance(self, a, b):
        a, b = value(a), value(b)
        return 'distance %s class %d' % (digits(distance(a, b)), log_distance(a, b))

    def interested(self, node, radius, key):
        node, radius, key = value(node), value(radius), data(key)
        return yes_or_no(interested(node, radius, key_id(key)))

    def asked(self, distances, log):
        return yes_or_no(asked(data(distances), number(log, 65535)))

    def content(self, content):
        return 'accepted %d %d' % rlp.examine(data(content))

    def read(self, message):
        return messages.words(*messages.read(data(message)))

    def write(self, *words):
        name = words[0].decode('latin-1') if words else ''
        if name not in messages.TYPES or len(words) + 1 > MOST_WORDS:
            raise NoCall
        return 'message ' + messages.written(name, message_values(name, words[1:]), self.room).hex()

    def buffer(self, size):
        self.room = number(size, LONGEST)
        return 'ok'

    def fresh(self, node, cap):
        self.index = Index(value(node), value(cap))
        return 'ok'

    def store(self, key, content, newest):
        place, evicted = self.index.store(data(key), data(content), number(newest, 2**64 - 1))
        return 'stored %d %d' % place + ('' if evicted is None else ' evicted ' + evicted.hex())

    def remove(self, key):
        self.index.remove(data(key))
        return 'removed'

    def radius(self):
        return 'radius ' + digits(self.index.radius())

    def keys(self):
        return ' '.join(['keys', str(len(self.index.keys))] + [k.hex() for k in self.index.keys])

    def save(self):
        text = self.index.save()
        if len(text) > self.room:
            raise Refused(13)
        return 'saved ' + text.decode().replace('\n', '|')

    def load(self, text):
        if not text:
            raise NoCall
        self.index = load(b'' if text == b'-' else text.replace(b'|', b'\n'))
        return 'loaded'

    def table(self, own):
        self.neighbours = Table(value(own))
        return 'ok'

    def seen(self, node, radius, address, port, record):
        return self.neighbours.seen(Contact(value(node), value(radius), four(address), number(port, 65535), data(record)))

    def failed(self, node):
        count, by = self.neighbours.failed(value(node))
        if by is not None:
            return 'replaced ' + digits(by.node)
        return 'flagged' if count == FLAG else 'counted %d' % count

    def rows(self):
        return listed('rows', self.neighbours.entries)

    def waiting(self):
        return listed('waiting', self.neighbours.replacements)

    def entry(self, node):
        found = self.neighbours.find(value(node))
        if found is None:
            return 'absent'
        contact, failures = found
        fields = '%s %s %d' % (digits(contact.radius), contact.address.hex(), contact.port)
        stands = 'waiting ' + fields if failures is None else 'row %s %d' % (fields, failures)
        return stands + ' ' + contact.record.hex()

    def own(self, record):
        self.record = at_most(record, LENT_RECORD)
        return 'ok'

    def lend(self, connection, content):
        self.connection, self.lent = four(connection), at_most(content, LENT_CONTENT)
        return 'ok'

    def reply(self, message):
        sent = reply(self.index, self.neighbours, self.record, self.lent, self.connection, data(message), self.room)
        return ' '.join(['reply'] + [m.hex() for m in sent])

    def sha256(self, message):
        return 'hash ' + hashlib.sha256(data(message)).hexdigest()

    def roots(self, more):
        self.lent_roots = longer(self.lent_roots, more, LENT_ROOTS)
        return 'ok'

    def records(self, more):
        self.lent_records = longer(self.lent_records, more, LENT_RECORDS)
        return 'ok'

    def canonical(self, block, block_hash, proof):
        return yes_or_no(headers.canonical(number(block, 2**64 - 1), data(block_hash), data(proof), self.lent_roots))

    def root(self):
        return 'root ' + headers.root(self.lent_records, self.room).hex()

    def proof(self, position):
        return 'proof ' + headers.proof(self.lent_records, number(position, 2**64 - 1), self.room).hex()

    def help(self):
        named = []
        for name, (call, words) in self.CALLS.items():
            forms = MESSAGE_WORDS if words is None else [words]
            named.append(', '.join(' '.join([name.decode(), form]).strip() for form in forms))
        return 'help: ' + '; '.join(named)

    # each call's word, its function, and the words that follow: those of a message for `write`
    CALLS = {
        b'id': (id, 'KEY'),
        b'distance': (distance, 'A B'),
        b'interested': (interested, 'NODE RADIUS KEY'),
        b'asked': (asked, 'DISTANCES CLASS'),
        b'content': (content, 'BYTES'),
        b'read': (read, 'MESSAGE'),
        b'write': (write, None),
        b'buffer': (buffer, 'N'),
        b'fresh': (fresh, 'NODE CAP'),
        b'store': (store, 'KEY CONTENT NEWEST'),
        b'remove': (remove, 'KEY'),
        b'radius': (radius, ''),
        b'keys': (keys, ''),
        b'save': (save, ''),
        b'load': (load, 'TEXT'),
        b'table': (table, 'OWN'),
        b'seen': (seen, 'ID RADIUS IP PORT RECORD'),
        b'failed': (failed, 'ID'),
        b'rows': (rows, ''),
        b'waiting': (waiting, ''),
        b'entry': (entry, 'ID'),
        b'own': (own, 'RECORD'),
        b'lend': (lend, 'CONNECTION CONTENT'),
        b'reply': (reply, 'MESSAGE'),
        b'sha256': (sha256, 'BYTES'),
        b'roots': (roots, 'BYTES'),
        b'records': (records, 'BYTES'),
        b'canonical': (canonical, 'NUMBER HASH PROOF'),
        b'root': (root, ''),
        b'proof': (proof, 'POSITION'),
        b'help': (help, ''),
    }

    def answer(self, line):
        name, *words = line.split(b' ')
        call, form = self.CALLS.get(name, (None, None))
        try:
            if call is None or len(line) > LONGEST or form is not None and len(form.split()) != len(words):
                raise NoCall
            return call(self, *words)
        except NoCall:
            return 'error'
        except Refused as why:
            return 'refused %d' % why.number + ('' if why.line is None else ' %d' % why.line)


def output(text):
    lines = text.split(b'\n')
    if lines[-1] == b'':
        lines.pop()
    console = Console()
    return ''.join(console.answer(line) + '\n' for line in lines).encode()

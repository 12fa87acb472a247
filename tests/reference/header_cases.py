"""Pre-merge headers: published vectors of the hash, epochs of every edge of their size, proofs that are right and proofs with anything changed, the
orders of the tests, and what stays lent."""
from hashlib import sha256

from headers import CHUNK, EPOCH_SIZE, MOST_ROOTS, RECORD, cut, proof, root
from history import digits, make_key
from index_cases import fresh, store
from reply_cases import buffer, lend, own, word
from routing_cases import table
from stream import Stream

LARGEST = 2**64 - 1
ALL = 65536
# the bytes that a line of the longest length brings behind its word
LONGEST_MORE = (65536 - len('records ')) // 2
SIZE = 15 * CHUNK


def record(place, chain=0):
    """A record that no other place and no other chain has."""
    return b''.join(sha256(b'%s %d of chain %d' % (part, place, chain)).digest() for part in (b'hash', b'difficulty'))


def epoch(count, chain=0):
    return b''.join(record(place, chain) for place in range(count))


def hash_of(records, position):
    return cut(records, RECORD)[position][:CHUNK]


def difficulty_of(records, position):
    return cut(records, RECORD)[position][CHUNK:]


def root_of(records):
    return root(records, ALL)


def proof_of(records, position):
    return proof(records, position, ALL)


def other_root(place):
    return sha256(b'root %d' % place).digest()


def more(name, data):
    """Lines that lend more, each as long as a line may be, whatever it cuts in two."""
    return ['%s %s' % (name, part.hex()) for part in cut(data, LONGEST_MORE)]


def anew(name, data):
    return [name + ' -'] + more(name, data)


def ask(number, block_hash, siblings):
    return 'canonical %d %s %s' % (number, word(block_hash), word(siblings))


def ask_of(records, position, number=None):
    """Whether the hash at a position is canonical, by its own proof."""
    return ask(position if number is None else number, hash_of(records, position), proof_of(records, position))


def place(position):
    return 'proof %d' % position


def hashes(stream):
    """Messages with published hashes, of each length around a block's and the padding's edges, and the roots of trees of zeros; words that are no call."""
    messages = [b'', b'abc', b'abcdbcdecdefdefgefghfghighijhijkijkljklmklmnlmnomnopnopq']
    messages += [b'abcdefghbcdefghicdefghijdefghijkefghijklfghijklmghijklmnhijklmnoijklmnopjklmnopqklmnopqrlmnopqrsmnopqrstnopqrstu']
    messages += [b'\xbd', b'\xc9\x8c\x8e\x55', bytes(55), bytes(56), bytes(57), bytes(64), bytes(1000), b'A' * 1000, b'U' * 1005]
    messages += [stream.take(size) for size in (1, 31, 32, 33, 54, 55, 56, 57, 63, 64, 65, 118, 119, 120, 121, 127, 128, 129, 8192)]
    zeros = bytes(CHUNK)
    for _ in range(13):
        messages.append(zeros + zeros)
        zeros = sha256(zeros + zeros).digest()
    lines = ['sha256 ' + word(message) for message in messages]
    bad = ['', ' ', ' 0', ' 000', ' 0g', ' AB', ' g0', ' 0x00', ' --', ' 00 00', ' - -', ' 00 ', ' 00 -', '  00', 's 00']
    return lines + ['sha256' + words for words in bad] + ['Sha256 00', 'sha 00', 'hash 00', 'sha255 00']


def nothing_lent(stream):
    """At first no root and no record is lent: each call's own refusal, whatever the number, and 24 before 25 and 13."""
    block_hash, siblings = stream.take(CHUNK), stream.take(SIZE)
    lines = ['root', place(0), place(1), place(LARGEST)]
    lines += [ask(number, block_hash, siblings) for number in (0, 8192, LARGEST)] + [ask(0, b'', b''), ask(0, block_hash[1:], siblings)]
    return lines + ['roots -', 'records -', 'root', place(0), ask(0, block_hash, siblings), buffer(0), 'root', place(0), buffer(ALL)]


def small_epochs():
    """Epochs of one, two and three records: every position, and one past the last; the proof of another epoch's position."""
    lines, last = [], None
    for count in (1, 2, 3):
        records = epoch(count, count)
        lines += anew('records', records) + ['root'] + [place(position) for position in (*range(count + 1), EPOCH_SIZE - 1, EPOCH_SIZE, LARGEST)]
        lines += anew('roots', root_of(records)) + [ask_of(records, position) for position in range(count)]
        # the hash of one record by the proof of another, and a record of the epoch before
        lines += [ask(0, hash_of(records, count - 1), proof_of(records, 0)), ask(count - 1, hash_of(records, 0), proof_of(records, 0))]
        lines += [ask_of(last, 0)] if last else []
        last = records
    # the same records with one more behind them, and with zeros behind them: other roots
    three, zeros = epoch(3, 3), bytes(RECORD)
    for records in (three[:-RECORD], three + zeros, three + bytes(RECORD * 5), zeros, zeros + three):
        lines += anew('records', records) + ['root', ask_of(records, 0)]
    return lines


def short_of_records():
    """Bytes that are not whole records: each length around one record and around two."""
    two, lines = epoch(2), ['records -']
    for size in (1, 31, 32, 63, 64, 65, 127, 128, 129):
        lines += anew('records', two[:size] + bytes(size > 2 * RECORD)) + ['root', place(0) if size % RECORD else place(1), place(2)]
    # the same bytes by one, by two and by many words
    lines += anew('records', two[:1]) + more('records', two[1:64]) + ['root'] + more('records', two[64:127]) + ['root', place(1)] + more('records', two[127:]) + ['root']
    lines += ['records -'] + ['records %02x' % byte for byte in two] + ['root']
    # 24 comes before 25 and before 13, 25 before 13
    for data in (b'', two[:63], two + b'\0', two):
        lines += anew('records', data)
        for room in (0, 31, 32, 479):
            lines += [buffer(room), 'root', place(0), place(2), place(LARGEST)]
    return lines + [buffer(ALL)]


def full_epoch():
    """8,191 records, 8,192 and 8,193, and a byte more and less; buffers of each length; more than the console holds changes nothing, and all that it holds
    leaves the roots."""
    records, last = epoch(EPOCH_SIZE + 1), EPOCH_SIZE - 1
    less, whole = RECORD * last, RECORD * EPOCH_SIZE
    right = ask_of(records[:whole], last)
    lines = anew('roots', root_of(records[:whole])) + anew('records', records[:less]) + ['root'] + [place(n) for n in (0, last // 2, last - 1, last, EPOCH_SIZE, LARGEST)]
    lines += more('records', records[less : whole - 1]) + ['root', place(0), place(LARGEST)] + more('records', records[whole - 1 : whole]) + ['root']
    lines += [place(n) for n in (0, 1, 2, 1023, 4095, 4096, 5461, last - 1, last, EPOCH_SIZE, 2 * EPOCH_SIZE, 2**32, LARGEST)]
    for room in (0, 31, 32, 33, 479, 480, 481):
        lines += [buffer(room), 'root' if room < 34 else place(EPOCH_SIZE), place(2730)]
    # two records more do not fit, one and its first byte do
    lines += [buffer(ALL), 'records ' + 2 * record(0).hex(), 'records ' + bytes(RECORD + 1).hex(), 'root'] + more('records', records[whole : whole + 1])
    lines += ['root', place(0), place(LARGEST)] + more('records', records[whole + 1 :]) + ['root', place(0), place(last), place(EPOCH_SIZE), buffer(0), 'root', place(LARGEST), buffer(ALL)]
    lines += ['records 00', 'records ' + record(0).hex(), 'root', right, 'records 0', 'root', 'records -', 'root']
    return lines + ['records ' + record(0, 1).hex(), 'root', right, 'roots -', 'records -']


def changed(siblings, at, bit):
    """A proof with one bit of one sibling turned over."""
    parts = cut(siblings, CHUNK)
    parts[at] = (int.from_bytes(parts[at], 'big') ^ 1 << bit).to_bytes(CHUNK, 'big')
    return b''.join(parts)


def swapped(siblings, at):
    """A proof with two neighbours in each other's place."""
    parts = cut(siblings, CHUNK)
    parts[at : at + 2] = parts[at + 1], parts[at]
    return b''.join(parts)


def damage():
    """A right proof, and the same with each sibling changed, each two neighbours swapped, each sibling cut out, other lengths, another hash, and at other
    numbers."""
    records, position = epoch(EPOCH_SIZE), 5461
    block_hash, difficulty, siblings = hash_of(records, position), difficulty_of(records, position), proof_of(records, position)
    lines = anew('roots', root_of(records)) + [ask(position, block_hash, siblings)]
    lines += [ask(position, block_hash, changed(siblings, at, 17 * at + 8)) for at in range(15)]
    lines += [ask(position, block_hash, swapped(siblings, at)) for at in range(14)]
    lines += [ask(position, block_hash, b''.join(cut(siblings, CHUNK)[::-1]))]
    lengths = [siblings[:-1], siblings[1:], siblings[:-CHUNK], siblings[CHUNK:], siblings + b'\0', siblings + bytes(CHUNK), b'', siblings[:1]]
    lengths += [siblings[: CHUNK * at] + siblings[CHUNK * (at + 1) :] for at in range(1, 14)]
    lines += [ask(position, block_hash, other) for other in lengths]
    # the position's own proof for other hashes, the difficulty and its record's root among them
    others = [hash_of(records, position + 1), hash_of(records, position - 1), difficulty, sha256(block_hash + difficulty).digest(), root_of(records), bytes(CHUNK)]
    others += [changed(block_hash, 0, bit) for bit in (0, 7, 128, 255)] + [block_hash[:-1], block_hash + b'\0', b'', block_hash + block_hash]
    lines += [ask(position, other, siblings) for other in others]
    lines += [ask(position, difficulty, block_hash + siblings[CHUNK:])]
    # the right proof at the numbers that differ in a bit, and at its neighbours'
    lines += [ask(position ^ 1 << bit, block_hash, siblings) for bit in range(13)]
    return lines + [ask_of(records, n) for n in (0, 1, 2730, 4095, 4096, 8190, 8191)] + [ask(position, block_hash, siblings)]


def epochs():
    """Block numbers at the edges of epochs. The first and the third epoch have one root, the second has another."""
    whole, three = epoch(EPOCH_SIZE), epoch(3, 3)
    last, lines = EPOCH_SIZE - 1, anew('roots', root_of(whole))
    first, end = (hash_of(whole, 0), proof_of(whole, 0)), (hash_of(whole, last), proof_of(whole, last))
    for root_next in (root_of(three), root_of(whole), None):
        lines += [ask(0, *first), ask(last, *end), ask(EPOCH_SIZE, *first), ask(2 * EPOCH_SIZE - 1, *end), ask_of(three, 0, EPOCH_SIZE), ask_of(three, 2, EPOCH_SIZE + 2)]
        lines += [ask(2 * EPOCH_SIZE, *first), ask(3 * EPOCH_SIZE - 1, *end), ask(3 * EPOCH_SIZE, *first), ask(LARGEST, *end)]
        lines += more('roots', root_next) if root_next else []
    # a byte more, and what is left of a root: no number is looked at before the roots are whole
    lines += ['roots 00', ask(0, *first), ask(LARGEST, *end)] + more('roots', bytes(31)) + [ask(0, *first), ask(3 * EPOCH_SIZE, *first)]
    # a byte of the first root changed, and the roots with one of them missing in front
    roots = root_of(whole) + root_of(three)
    lines += anew('roots', changed(roots[:CHUNK], 0, 3) + roots[CHUNK:]) + [ask(0, *first), ask_of(three, 1, EPOCH_SIZE + 1)]
    lines += anew('roots', roots[CHUNK:]) + [ask(0, *first), ask_of(three, 1, 1)] + anew('roots', roots[:31]) + [ask(0, *first)]
    # none lent and a length wrong, a number past the roots and a length wrong
    for roots in (b'', root_of(whole)):
        lines += anew('roots', roots) + [ask(EPOCH_SIZE, first[0][1:], first[1]), ask(EPOCH_SIZE, first[0], first[1][1:]), ask(EPOCH_SIZE, *first), ask(LARGEST, b'', b'')]
    return lines


def many_roots():
    """2,048 roots, one more, and a byte more and less; numbers in the last epoch and past it; more than the console holds changes nothing, and all that it
    holds leaves the records."""
    whole, last = epoch(EPOCH_SIZE), MOST_ROOTS * EPOCH_SIZE - 1
    roots = b''.join(other_root(n) for n in range(MOST_ROOTS - 1)) + root_of(whole)
    first, end = (hash_of(whole, 0), proof_of(whole, 0)), (hash_of(whole, EPOCH_SIZE - 1), proof_of(whole, EPOCH_SIZE - 1))
    begin = last + 1 - EPOCH_SIZE
    lines = anew('records', epoch(2, 6)) + anew('roots', roots[:-CHUNK]) + [ask(begin - 1, *end), ask(begin, *first)] + more('roots', roots[-CHUNK:-1]) + [ask(last, *end)] + more('roots', roots[-1:])
    lines += [ask(begin, *first), ask(last, *end), ask(0, *first), ask(begin - 1, *end), ask(last - 1, *end), ask_of(whole, 4096, begin + 4096)]
    # numbers whose epoch, cut to 32 bits or less, is one that is lent
    past = [last + 1, 2 * last + 1, 2**29 - 1, 2**29 + last, 2**32 - 1, 2**45 + last, 2**63 - 1, 2**63, LARGEST - EPOCH_SIZE, LARGEST]
    lines += [ask(n, *(end if n % 2 else first)) for n in past]
    # two roots more do not fit, one does
    lines += ['roots ' + bytes(2 * CHUNK).hex(), 'roots ' + bytes(CHUNK + 1).hex(), ask(last, *end), 'roots 00', ask(last, *end), ask(LARGEST, *end)]
    lines += more('roots', bytes(CHUNK - 1)) + [ask(last, *end), ask(LARGEST, b'', b''), 'roots 00', 'roots ' + bytes(CHUNK).hex(), ask(last, *end), ask(last + 1, *first), 'root']
    return lines + ['roots -', ask(last, *end), ask(0, *first)]


def no_calls():
    """Words that are no call, between calls that show that nothing changed."""
    records = epoch(3, 7)
    show = ['root', ask_of(records, 2)]
    lines = anew('records', records) + anew('roots', root_of(records)) + show
    lists = ['', ' ', ' 0', ' 000', ' 0g', ' AB', ' --', ' 00 00', ' 00 -', ' - -', ' - 00', ' 00 ', '  00', ' - ', ' 0x00']
    lines += [name + words for name in ('roots', 'records') for words in lists] + show
    numbers = ['-', '-1', '+1', '00', '01', '0x1', '1a', ':', str(LARGEST + 1), str(LARGEST * 10), '99999999999999999999', '1' + '0' * 20, '1' * 100, '0' * 20]
    lines += ['proof' + words for words in ('', ' ', ' 0 0', '  0', ' 0 ', ' 0 -')] + ['proof ' + n for n in numbers]
    lines += ['canonical %s - -' % n for n in numbers + ['']]
    lines += ['canonical' + words for words in ('', ' ', ' 0', ' 0 -', ' 0 - - -', ' 0 0 -', ' 0 - 0', ' 0 0g -', ' 0 - 0g', ' 0 AB -', ' 0 - AB', ' 0  -', ' 0 - ', '  0 - -', ' 0 -  -', ' - 0 -')]
    lines += ['root ', 'root -', 'root 0', 'Root', 'roots', 'Roots 00', 'record 00', 'Records 00', 'Proof 0', 'proofs 0', 'Canonical 0 - -', 'canon 0 - -']
    return lines + show


def lasting():
    """What is lent stays until it is lent anew, whatever else is called, and one list leaves the other."""
    records, others = epoch(3, 8), epoch(2, 9)
    key = make_key(0, 12345678)
    show = ['root', ask_of(records, 1)]
    lines = anew('records', records) + anew('roots', root_of(records)) + show
    for line in (fresh(0, 2**256 - 1), store(key), 'load -', table(0), 'seen %s %s 7f000001 9009 01' % (digits(5), digits(0)), own(b'\1\2'), lend(b'\1\2\3\4', b'abc'), 'reply ' + '03' + '04000000' + '00'):
        lines += [line, 'root']
    lines += [ask_of(records, 0), 'save', 'keys', 'rows', 'sha256 ' + records.hex(), 'write ping ' + digits(1), buffer(65536), 'help '] + show
    # more records leave the roots, and more roots the records
    lines += more('records', others) + show + more('roots', root_of(others)) + show + [ask_of(others, 1, EPOCH_SIZE + 1)]
    lines += ['records -'] + show + more('records', others) + ['root', 'roots -', 'root', show[1]] + more('roots', root_of(others)) + ['root', ask_of(others, 0)]
    # a list that is shorter now: nothing of the longer one is left
    lines += anew('records', records) + ['root'] + anew('records', records[:RECORD]) + ['root', place(1)] + more('records', others[:RECORD]) + ['root']
    return lines + ['records -', 'roots -', own(b'\xee\xee'), lend(bytes(4), b'')]


def header_lines():
    stream = Stream('headers')
    lines = hashes(stream) + nothing_lent(stream) + small_epochs() + short_of_records() + damage() + epochs() + many_roots() + no_calls() + lasting()
    return [line.encode() for line in lines + full_epoch()]

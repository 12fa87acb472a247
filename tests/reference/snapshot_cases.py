"""Saved texts of both kinds: every kind of damage to small ones, full ones, buffers at the edge, and long runs of calls with reloads."""
from index import KINDS, LIMIT, NEW, OLD, Index
from index_cases import OLD_LIMIT, ONES, filled, fresh, load, random_key, remove, store

# counts on each side of every edge, in the width of the kind
COUNTS = {OLD: (0, 1, 2, 3, 4, 239, 240, 241, 255), NEW: (0, 1, 2, 3, 4, 240, 241, 255, 256, 2999, 3000, 3001, 4096, 65535)}
MARKS = (0x00, 0x01, 0x02, 0x10, 0x11, 0x12, 0x21, 0x31)


def damaged(text):
    """Cut at each byte, and each character replaced."""
    found = [text[:n] for n in range(len(text))]
    for at in range(len(text)):
        old = text[at : at + 1]
        for new in (old.upper(), b'0', b'9', b'f', b'g', b'\n', b'-'):
            if new != old:
                found.append(text[:at] + new + text[at + 1 :])
    return found


def line_damage(text):
    """Lines swapped, repeated, dropped and added, and bytes after the end."""
    lines = text.splitlines(keepends=True)
    found = [text + more for more in (b'\n', b'0', lines[-1], lines[0])]
    for at in range(len(lines)):
        found += [b''.join(lines[:at] + lines[at + 1 :]), b''.join(lines[: at + 1] + lines[at:])]
        found += [b''.join(lines[:at] + [b'\n'] + lines[at:]), b''.join(lines[:at] + [lines[at][:-1] + b'00\n'] + lines[at + 1 :])]
        if at:
            found.append(b''.join(lines[: at - 1] + [lines[at], lines[at - 1]] + lines[at + 1 :]))
    return found


def parts(text):
    """The first line up to its count, the digits of the count, and all that follows."""
    head, rest = text[: text.index(b'\n')], text[text.index(b'\n') :]
    return head[:130], head[130:], rest


def counted(text, kind, counts):
    """The first line with another count."""
    front, _, rest = parts(text)
    return [front + count.to_bytes(KINDS[kind][0], 'little').hex().encode() + rest for count in counts]


def marked(text):
    """The first line with another mark, and with a count whose bytes stand the other way round, or that has one byte or two more or one less."""
    front, count, rest = parts(text)
    others = [count[2:] + count[:2], count[:-2], count[2:], count + b'00', b'00' + count, count + b'0000']
    return [b'%02x' % mark + text[2:] for mark in MARKS] + [front + other + rest for other in others]


def first_lines(text):
    """The first line with another cap, cut, and too long."""
    front, count, rest = parts(text)
    line = front + count
    found = [front[:66] + cap + count + rest for cap in (b'0' * 64, b'f' * 64, b'0' * 63 + b'1')]
    found += [line[:n] + rest for n in (0, 1, 2, 4, 66, 128, 129, 130, 131, len(line) - 1)]
    return found + [line + more + rest for more in (b'0', b'000', b' ', b'0\n')] + [b'0' + line + rest, b'00' + line + rest, b'\n' + line + rest]


def ends(text):
    """A text without its last line feed, with bytes after it, cut in the middle of a line and at a line's end."""
    cut = len(text) // 2 // 21 * 21
    return [text[:-1], text + b'\n', text + b'0', text[: cut + 8], text[: text.index(b'\n', cut) + 1]]


def caps(stream):
    """A cap of exactly the farthest key's distance, and one less."""
    index = filled(stream, 3)
    far = index.away(index.keys[-1])
    for cap in (far, far - 1, far + 1):
        index.cap = cap
        yield from (index.save(kind) for kind in (OLD, NEW))


def small_texts(stream):
    """All damage to texts of two keys and of three of both kinds."""
    lines, two, three = [], filled(stream, 2), filled(stream, 3)
    for kind in (NEW, OLD):
        text = two.save(kind)
        for found in damaged(text) + line_damage(text) + counted(text, kind, COUNTS[kind]) + marked(text) + first_lines(text):
            lines.append(load(found))
        lines += ['keys', 'save']
        text = three.save(kind)
        for found in line_damage(text) + counted(text, kind, COUNTS[kind]) + marked(text):
            lines += [load(found), 'keys']
        lines += ['save'] + [load(found) for found in first_lines(text)] + ['save']
    for text in list(caps(stream)) + [Index(5, 7).save(kind) for kind in (OLD, NEW)] + [Index(ONES, 0).save()[:-1]]:
        lines += [load(text), 'save']
    return lines


def middle_texts(stream):
    """Texts around the limit of the old kind, with a count, mark or end that does not fit. The old kind has none of 241 keys; the new one does."""
    lines = []
    for kind, size in ((OLD, OLD_LIMIT - 1), (OLD, OLD_LIMIT), (OLD, OLD_LIMIT + 1), (NEW, OLD_LIMIT), (NEW, OLD_LIMIT + 1)):
        text = filled(stream, size).save(kind)
        lines += [load(text), 'radius'] + [load(found) for found in counted(text, kind, COUNTS[kind]) + marked(text) + ends(text)] + ['radius']
    return lines


def full_texts(stream):
    """Texts of 2,999 keys and of 3,000, with some counts and ends that do not fit."""
    lines = []
    for size, counts in ((LIMIT - 1, (LIMIT - 2, LIMIT, LIMIT + 1)), (LIMIT, (OLD_LIMIT, LIMIT - 1, LIMIT + 1))):
        index = filled(stream, size)
        text = index.save()
        lines += [load(text), 'radius'] + [load(found) for found in counted(text, NEW, counts)] + ['radius', store(index.keys[-1])]
    # the last two lines the other way round, and the last key's selector
    bad = [text[:-42] + text[-21:] + text[-42:-21], text[:-18] + b'2' + text[-17:]]
    front, count, rest = parts(text)
    bad += [front + count[2:] + count[:2] + rest, b'01' + front[2:] + count[:2] + rest]
    return lines + [load(found) for found in ends(text) + bad] + ['radius', store(index.keys[-1])]


def old_kind(stream):
    """Texts of the old kind come back as the new kind. An index that was full under the old limit has room."""
    lines = []
    for size in (0, 1, 5, 40, OLD_LIMIT - 1, OLD_LIMIT):
        lines += [load(filled(stream, size).save(OLD)), 'radius'] + ['save'] * (size != OLD_LIMIT - 1)
    for cap in (OLD_LIMIT - 1, OLD_LIMIT):
        # the cap is the distance of the last key held, or of the one behind it
        index = filled(stream, OLD_LIMIT + 1)
        index.cap, order = index.away(index.keys[cap]), index.keys
        index.keys = order[:OLD_LIMIT]
        near = sorted((random_key(stream) for _ in range(20)), key=index.away)[:3]
        lines += [load(index.save(OLD)), 'radius', store(order[0]), store(order[OLD_LIMIT]), 'radius']
        lines += [store(key) for key in near] + ['radius', remove(order[0]), remove(order[-2]), 'radius', store(order[-2]), store(order[0])]
        lines += ['radius'] + ['save'] * (cap == OLD_LIMIT)
    return lines


def buffers(stream):
    """Buffers one byte short, just long enough and one byte longer. The longest text is shown once."""
    lines = []
    for size in (0, 2, LIMIT):
        text = filled(stream, size).save()
        lines.append(load(text))
        for room in (0, len(text) - 1, len(text)) + (len(text) + 1,) * (size < LIMIT):
            lines += ['buffer %d' % room, 'save']
        lines.append('buffer 65536')
    return lines


def random_run(stream, calls):
    """Stores, removals and loads of both kinds; the index is saved every sixteenth time that it might be."""
    keys = [random_key(stream) for _ in range(300)]
    sizes = ((OLD, 0), (OLD, 1), (NEW, 5), (OLD, 30), (OLD, OLD_LIMIT - 1), (OLD, OLD_LIMIT), (NEW, OLD_LIMIT), (NEW, OLD_LIMIT + 1))
    texts = [filled(stream, size).save(kind) for kind, size in sizes]
    lines, turns = [fresh(int.from_bytes(stream.take(32), 'big'), ONES)], 0
    for _ in range(calls):
        dice = stream.below(40)
        if dice < 26:
            lines.append(store(stream.pick(keys)))
        elif dice < 34:
            lines.append(remove(stream.pick(keys)))
        elif dice < 36:
            lines.append('radius')
        elif dice == 36:
            lines.append(load(stream.pick(texts)))
        elif dice == 37:
            text = stream.pick(texts)
            lines += [load(text[: stream.below(len(text))]), 'radius']
        else:
            lines += ['save'] if turns % 16 == 0 else []
            turns += 1
    return lines + ['save']


def snapshot_lines(stream):
    lines = ['buffer 65536', fresh(0, ONES), 'save', load(b''), 'load', 'load ', 'save -', 'load  ', 'load - -']
    lines += small_texts(stream) + old_kind(stream) + middle_texts(stream) + full_texts(stream) + buffers(stream) + random_run(stream, 700)
    return [line.encode('latin-1') for line in lines]

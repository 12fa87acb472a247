"""The nine messages: SSZ containers behind a type byte, by document 000 and the SSZ specification, with document 01's rules.

A message is its name and its values in the order of the container's fields.
"""
from history import Refused, key

# each type's name and its fields; the kinds are those of SSZ, with `list` for a list of byte strings
MESSAGES = {
    1: ('ping', ['uint256']),
    2: ('pong', ['uint256']),
    3: ('findnode', ['bytes']),
    4: ('foundnodes', ['uint8', 'list']),
    5: ('findcontent', ['bytes']),
    6: ('foundcontent', ['bytes4', 'list', 'bytes']),
    7: ('offer', ['bytes']),
    8: ('accept', ['bytes']),
    9: ('store', ['bytes4', 'bytes']),
}
TYPES = {name: kind for kind, (name, fields) in MESSAGES.items()}
FIXED = {'uint256': 32, 'uint8': 1, 'bytes4': 4}
MOST = 1280


def offset(n):
    return n.to_bytes(4, 'little')


def write_field(field, value):
    if field.startswith('uint'):
        return value.to_bytes(FIXED[field], 'little')
    if field == 'list':
        return write_parts([None] * len(value), value)
    return value


def write_parts(fixed, variable):
    """SSZ's layout: the fixed parts, with an offset where one is None, and then the variable parts."""
    at = sum(4 if part is None else len(part) for part in fixed)
    out, rest = b'', list(variable)
    for part in fixed:
        if part is None:
            part, at = offset(at), at + len(rest.pop(0))
        out += part
    return out + b''.join(variable)


def write(name, *values):
    """The bytes of a message, whatever its values."""
    fields = MESSAGES[TYPES[name]][1]
    parts = [write_field(f, v) for f, v in zip(fields, values)]
    fixed = [p if f in FIXED else None for f, p in zip(fields, parts)]
    return bytes([TYPES[name]]) + write_parts(fixed, [p for f, p in zip(fields, parts) if f not in FIXED])


def cut(data, offsets, first):
    """The parts between offsets, if these start where they must and never go back or past the end."""
    if offsets and offsets[0] != first:
        raise Refused(4)
    ends = offsets[1:] + [len(data)]
    if any(a > b for a, b in zip(offsets, ends)):
        raise Refused(4)
    return [data[a:b] for a, b in zip(offsets, ends)]


def read_list(data):
    if not data:
        return []
    first = int.from_bytes(data[:4], 'little')
    if len(data) < 4 or first == 0 or first % 4 or first > len(data):
        raise Refused(4)
    return cut(data, [int.from_bytes(data[i : i + 4], 'little') for i in range(0, first, 4)], first)


def read_container(fields, data):
    sizes = [FIXED.get(f, 4) for f in fields]
    fixed = sum(sizes)
    variable = [f for f in fields if f not in FIXED]
    if len(data) < fixed or not variable and len(data) != fixed:
        raise Refused(4)
    values, offsets, at = [], [], 0
    for field, size in zip(fields, sizes):
        part, at = data[at : at + size], at + size
        number = int.from_bytes(part, 'little')
        if field not in FIXED:
            offsets.append(number)
        values.append(number if field.startswith('uint') else part)
    parts = cut(data, offsets, fixed)
    return [v if f in FIXED else parts.pop(0) for f, v in zip(fields, values)]


def rules(name, values):
    """Document 01's item rules, in the order of their numbers."""
    records = values[1] if name in ('foundnodes', 'foundcontent') else []
    if name == 'findnode' and len(values[0]) > 256 or len(records) > 32:
        raise Refused(5)
    bad = any(not 1 <= len(r) <= 300 for r in records) or len(set(records)) < len(records)
    if name == 'findnode':
        bad = len(set(values[0])) < len(values[0])
    elif name == 'foundnodes':
        bad = bad or values[0] == 0
    elif name == 'foundcontent':
        bad = bad or sum([any(values[0]), bool(records), bool(values[2])]) > 1
    elif name == 'store':
        bad = any(values[0]) == bool(values[1])
    if bad:
        raise Refused(6)
    if name in ('findcontent', 'offer', 'accept'):
        key(values[0])


def layout(data):
    """The name and values of a container whose layout is right, whatever the values."""
    name, fields = MESSAGES[data[0]]
    values = read_container(fields, data[1:])
    return name, [read_list(v) if f == 'list' else v for f, v in zip(fields, values)]


def written(name, values, room):
    """What writing gives: the rules first, then 2, then 13 for a buffer that is too short."""
    rules(name, values)
    data = write(name, *values)
    if len(data) > MOST:
        raise Refused(2)
    if len(data) > room:
        raise Refused(13)
    return data


def read(data):
    """The name and values of a message, or the lowest number that applies."""
    if not data:
        raise Refused(1)
    if len(data) > MOST:
        raise Refused(2)
    if data[0] not in MESSAGES:
        raise Refused(3)
    name, values = layout(data)
    rules(name, values)
    return name, values


def words(name, values):
    """A message in the console's words: a list of records comes last."""
    def word(field, value):
        if field == 'uint256':
            return '%064x' % value
        if field == 'uint8':
            return str(value)
        return value.hex() or '-'

    fields = MESSAGES[TYPES[name]][1]
    plain = [word(f, v) for f, v in zip(fields, values) if f != 'list']
    records = [r.hex() or '-' for f, v in zip(fields, values) if f == 'list' for r in v]
    return ' '.join([name] + plain + records)

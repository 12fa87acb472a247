"""The key lister's answers: a line of hexadecimal, one key a line, and for each the id or a refusal."""
from history import Refused, digits, key_id, unhex


def answer(line):
    data = unhex(line)
    if data is None:
        return 'refused 15'
    try:
        return digits(key_id(data))
    except Refused as why:
        return 'refused %d' % why.number


def output(data):
    lines = data.split(b'\n')
    if lines[-1] == b'':
        lines.pop()
    return ''.join(answer(line) + '\n' for line in lines).encode()

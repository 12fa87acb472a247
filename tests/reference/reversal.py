"""What the printed table of reversed bytes must say: a line for each byte, and the worked number in the comment before it."""
import history

WORKED = 12345678


def row(b):
    """The entry, then its index in decimal, in hexadecimal and in bits, and the entry in bits and in decimal."""
    bits = format(b, '08b')
    turned = bits[::-1]
    entry = int(turned, 2)
    return '    0x%02x, // %3d = %02x: %s %s -> %s %s = %d' % (entry, b, b, bits[:4], bits[4:], turned[:4], turned[4:], entry)


def heading(first):
    """What the sixteen entries from here on have in common: the reversed first four bits of their indexes come last."""
    four = format(first >> 4, '04b')
    return '    // %02x to %02x: %s turned round is %s, so each entry ends in %x' % (first, first + 15, four, four[::-1], int(four[::-1], 2))


def table():
    return [line for b in range(256) for line in ([heading(b)] if b % 16 == 0 else []) + [row(b)]]


def spaced(bits):
    return ' '.join(bits[i:i + 8] for i in range(0, len(bits), 8))


def worked(number):
    offset, cycle = divmod(number, 2**history.CYCLE_BITS)
    bits = format(offset, '048b')
    key = number.to_bytes(8, 'little').hex(' ')
    start = (history.content_id(number, 0) >> 192).to_bytes(8, 'big').hex(' ')
    return [
        '// One number, {:,}, which is {:,} * 65,536 + {:,}:'.format(number, offset, cycle),
        '//',
        '//     %d as 48 bits         %s' % (offset, spaced(bits)),
        '//     in reversed order      ' + spaced(bits[::-1]),
        '//',
        '//     its bytes in the key   %s    lightest first' % key,
        '//     the last six of them         ' + key[6:],
        '//     through the table            %s    the same 48 bits, heaviest first' % start[6:],
        '//     the id begins with     %s    %s is %s' % (start, '{:,}'.format(cycle), start[:5]),
    ]


def faults(text):
    """What a file that shows the table and the worked number says wrongly."""
    lines = text.splitlines()
    begins = lines.index('const REVERSED: [u8; 256] = [') + 1
    shown = lines[begins:lines.index('];', begins)]
    due = table()
    if len(shown) != len(due):
        yield 'the table has %d lines, and not %d' % (len(shown), len(due))
    for is_, should in zip(shown, due):
        if is_ != should:
            yield 'the table has "%s" for "%s"' % (is_.strip(), should.strip())
    example = worked(WORKED)
    if '\n'.join(example) not in text:
        yield 'the worked number is not\n' + '\n'.join(example)

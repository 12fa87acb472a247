"""Content: lists of every length form, whole and damaged."""
from rlp import header


def contents(stream):
    """Lists of every length form, whole, short and long by some bytes, and headers that are not the shortest or lie."""
    found = [b'', b'\xc0', b'\xc1', b'\xf8\0', b'\xf8\x37' + bytes(55), b'\xf8\x38' + bytes(56), b'\xf9\0\x38' + bytes(56)]
    large = header(32000) + stream.take(32000)
    found += [large, large[:-1], large + b'\0']
    for size in (0, 1, 2, 54, 55, 56, 57, 255, 256, 257, 1000):
        whole = header(size) + stream.take(size)
        found += [whole, whole[:-1], whole + b'\0', whole + stream.take(9), whole[1:], b'\0' + whole]
        digits = size.to_bytes(8, 'big')
        found += [bytes([0xF7 + k]) + digits[8 - k :] + bytes(size) for k in range(1, 9)]
    for k in range(1, 9):
        # lengths that only a sum that wraps would take for right
        found += [bytes([0xF7 + k]) + (2 ** (8 * k) - d).to_bytes(k, 'big') + bytes(n) for d in (1, 1 + k, 9) for n in (0, 1, 64)]
        found += [bytes([0xF7 + k]) + b'\1' * n for n in range(k + 2)]
    return found + [bytes([b]) + stream.take(n) for b in range(256) for n in (0, 1)]


def content_edges():
    """Content on each side of every edge between accepted, ended early and wrong, and cut and lengthened at every byte of its header."""
    found = [b'\xf7' + bytes(n) for n in (0, 54, 55, 56)] + [b'\xc0' + bytes(n) for n in (1, 2)] + [b'\xc1' + bytes(n) for n in (0, 1, 2)]
    found += [b'\xf8\x37' + bytes(n) for n in (0, 54, 55, 56)] + [b'\xf8\x38' + bytes(n) for n in (0, 55, 56, 57)]
    found += [b'\xf8\xff' + bytes(n) for n in (254, 255, 256)] + [b'\xf9\1\0' + bytes(n) for n in (255, 256, 257)]
    heads = ['f8', 'f800', 'f801', 'f837', 'f838', 'f9', 'f900', 'f901', 'f9ff', 'f90000', 'f90037', 'f90038', 'f900ff', 'f90100', 'fa', 'fa00', 'fa0001', 'fa01', 'fa0100']
    heads += ['bf', 'b8', 'ff', 'ff00', 'ff01', 'ff' * 2, 'ff00' + 'ff' * 7, 'ff' * 8, 'ff' * 9, 'ff' * 10, 'ff80' + '00' * 7, 'ff' + '00' * 7 + '38', 'ff01' + '00' * 7]
    found += [bytes.fromhex(head) for head in heads]
    for size in (0, 1, 55, 56, 255, 256, 400):
        whole = header(size) + bytes(range(1, 1 + size % 251))[:size].ljust(size, b'\7')
        cuts = set(range(6)) | {len(whole) - n for n in (1, 2)}
        found += [whole[:n] for n in sorted(cuts) if 0 <= n < len(whole)] + [whole, whole + b'\0', whole + whole]
    return found

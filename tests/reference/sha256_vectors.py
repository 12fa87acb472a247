"""What the program `sha256_vectors` prints. Python's hashlib is the independent implementation; the published answers stand here too."""
from hashlib import sha256

# the examples of FIPS 180-4 and the long message of NIST's test vectors
PUBLISHED = [
    (b'', 'e3b0c44298fc1c149afbf4c8996fb92427ae41e4649b934ca495991b7852b855'),
    (b'abc', 'ba7816bf8f01cfea414140de5dae2223b00361a396177a9cb410ff61f20015ad'),
    (
        b'abcdbcdecdefdefgefghfghighijhijkijkljklmklmnlmnomnopnopq',
        '248d6a61d20638b8e5c026930c3e6039a33ce45964ff2167f6ecedd419db06c1',
    ),
    (
        b'abcdefghbcdefghicdefghijdefghijkefghijklfghijklmghijklmnhijklmnoijklmnopjklmnopqklmnopqrlmnopqrsmnopqrstnopqrstu',
        'cf5b16a778af8380036ce59e7b0492370b249b11e8f07a51afac45037afee9d1',
    ),
    (b'a' * 1000000, 'cdc76e5c9914fb9281a1c7e284d73e67f1809a48a497200e046d39ccc7112cd0'),
]


def lengths():
    yield from range(1101)
    for k in range(18, 257):
        yield from range(64 * k - 9, 64 * k + 10)


def output():
    for message, answer in PUBLISHED:
        assert sha256(message).hexdigest() == answer, 'hashlib and the published answer differ'
    by_place = bytes((7 * i + i // 256) % 256 for i in range(16393))
    hashes = [answer for _, answer in PUBLISHED] + [sha256(by_place[:n]).hexdigest() for n in lengths()]
    return ''.join(line + '\n' for line in hashes).encode()

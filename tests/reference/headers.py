"""Pre-merge headers: the root of an epoch's records, proofs in its tree, and verdicts, from SSZ and document 001 alone.

A tree is a table of nodes by generalized index, as SSZ counts them: the root is 1, and the children of node n are 2n and 2n + 1.
"""
from functools import lru_cache
from hashlib import sha256

from history import Refused

# EpochAccumulator = List[HeaderRecord, max_length=EPOCH_SIZE], HeaderRecord = Container[block_hash: bytes32, total_difficulty: uint256]
EPOCH_SIZE = 8192
CHUNK, RECORD = 32, 64
# PreMergeAccumulatorProof = Vector[Bytes32, 15]
SIBLINGS = 15
# how many epoch roots may be lent
MOST_ROOTS = 2048


def cut(data, size):
    """The parts of this size that the data is made of."""
    return [data[at : at + size] for at in range(0, len(data), size)]


def parent(left, right):
    return sha256(left + right).digest()


def index_of(position):
    """The generalized index of the block hash at a position: 15 levels below the root, two leaves for each record."""
    return 4 * EPOCH_SIZE + 2 * position


@lru_cache(maxsize=16)
def tree(records):
    """All nodes of the tree of some records: a container of two chunks for each, zero chunks up to the limit of the list, and the length mixed in."""
    records = cut(records, RECORD)
    nodes = {3: len(records).to_bytes(CHUNK, 'little')}
    for position in range(EPOCH_SIZE):
        leaf = index_of(position)
        if position < len(records):
            nodes[leaf], nodes[leaf + 1] = cut(records[position], CHUNK)
            nodes[leaf // 2] = parent(nodes[leaf], nodes[leaf + 1])
        else:
            nodes[leaf // 2] = bytes(CHUNK)
    for at in range(2 * EPOCH_SIZE - 1, 0, -1):
        # the length, node 3, has nothing below it
        if 2 * at in nodes:
            nodes[at] = parent(nodes[2 * at], nodes[2 * at + 1])
    return nodes


def branch(nodes, index):
    """The siblings on the way from a node to the root, the node's own first."""
    found = []
    while index > 1:
        found.append(nodes[index ^ 1])
        index //= 2
    return found


def root_by(leaf, siblings, index):
    """The root that a leaf and its siblings come to."""
    for sibling in siblings:
        leaf = parent(sibling, leaf) if index % 2 else parent(leaf, sibling)
        index //= 2
    return leaf


def whole(data, size, most):
    """How many items of this size the data is made of, or 24."""
    if len(data) % size or len(data) > most * size:
        raise Refused(24)
    return len(data) // size


def counted(records):
    if not records:
        raise Refused(24)
    return whole(records, RECORD, EPOCH_SIZE)


def root(records, room):
    counted(records)
    if room < CHUNK:
        raise Refused(13)
    return tree(records)[1]


def proof(records, position, room):
    if position >= counted(records):
        raise Refused(25)
    if room < SIBLINGS * CHUNK:
        raise Refused(13)
    return b''.join(branch(tree(records), index_of(position)))


def canonical(number, block_hash, siblings, roots):
    """Whether the hash and the proof come to the root of the block's epoch."""
    if len(block_hash) != CHUNK or len(siblings) != SIBLINGS * CHUNK:
        raise Refused(24)
    epochs = whole(roots, CHUNK, MOST_ROOTS)
    epoch, position = divmod(number, EPOCH_SIZE)
    if epoch >= epochs:
        raise Refused(25)
    return root_by(block_hash, cut(siblings, CHUNK), index_of(position)) == cut(roots, CHUNK)[epoch]

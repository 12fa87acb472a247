#!/usr/bin/env python3
"""The second program: computes what the programs must answer, from the papers alone.

usage: run.py make     write the stored inputs and outputs of the programs
       run.py check    say whether what is stored is what this program computes, and whether the printed table of reversed
                       bytes says what it should
"""
import sys
from pathlib import Path

import cases
import console
import index_edges
import lister
import reply_edges
import reversal
import routing_edges
import sha256_vectors
import write_edges

CRATES = Path(__file__).resolve().parents[2] / 'crates'


def stored():
    """Each file that is stored, and what it must hold."""
    for crate, made, answers in (
        ('content_ids', cases.lister_input(), lister.output),
        ('console', cases.console_input(), console.output),
    ):
        yield CRATES / crate / 'stdin', made
        yield CRATES / crate / 'stdout', answers(made)
    yield CRATES / 'index_edges' / 'stdout', index_edges.output()
    yield CRATES / 'write_edges' / 'stdout', write_edges.output()
    yield CRATES / 'routing_edges' / 'stdout', routing_edges.output()
    yield CRATES / 'reply_edges' / 'stdout', reply_edges.output()
    yield CRATES / 'sha256_vectors' / 'stdout', sha256_vectors.output()


def main():
    if sys.argv[1:] not in (['make'], ['check']):
        sys.exit(__doc__)
    wrong = 0
    for path, wanted in stored():
        if sys.argv[1] == 'make':
            path.write_bytes(wanted)
        elif not path.exists() or path.read_bytes() != wanted:
            print('not what the second program computes:', path.relative_to(CRATES.parent))
            wrong += 1
    if sys.argv[1] == 'check':
        for fault in reversal.faults((CRATES / 'content_key' / 'src' / 'reversed_bytes.rt').read_text()):
            print('content_key/src/reversed_bytes.rt:', fault)
            wrong += 1
        print('second program: %s' % ('all stored files agree, and so does the printed table' if wrong == 0 else '%d faults' % wrong))
    sys.exit(wrong != 0)


main()

#!/usr/bin/env python3
"""Prints a million random content keys, one a line, the same on every machine."""
import hashlib
import sys

for i in range(1000000):
    h = hashlib.sha256(i.to_bytes(8, 'big')).digest()
    sys.stdout.write('%02x%s\n' % (h[0] & 1, h[1:9].hex()))

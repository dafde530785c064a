#!/usr/bin/env python3
"""Writes a file of many versions of about 100 MB: bench/dag_files/big_file.py OUT

It has 2 ** 23 different leaves of a world of 2,048 cells, each named once: so as many bytes are entries as can be."""
import array
import sys

LEVELS = 10
leaves = 1 << 23
counts = [leaves]
while len(counts) < LEVELS:
    counts.append(max(1, counts[-1] // 8))
with open(sys.argv[1], "wb") as out:
    out.write(b"VDAG" + array.array("I", [1, 2048, 1, *counts]).tobytes())
    out.write(array.array("Q", (i * 2199023255551 + 12345 for i in range(leaves))).tobytes())
    for below, count in zip(counts, counts[1:]):
        words = array.array("I", range(1, below + 1))
        words.extend([0] * (8 * count - below))
        out.write(words.tobytes())
    out.write(array.array("I", [0, 1]).tobytes())

#!/usr/bin/env python3
"""Buckets of keys, written from the rule's text alone and by none of the crates' code.

The rule: a key with B buckets on its level is hashed by its hash words. A leaf has one, its 64 bits.
A node has four: word i is t(2i) plus 2^32 times t(2i + 1), where t(c) is 0 without a child in octant c,
else 1 plus that child's bucket. The hash starts with 0x9E3779B97F4A7C15. For each word w:
h = ((h xor w) * 0xBF58476D1CE4E5B9) mod 2^64, then h = h xor (h >> 29). After the last word:
h = ((h xor (h >> 32)) * 0x94D049BB133111EB) mod 2^64, then h = h xor (h >> 29). The bucket is (h >> 32) mod B.

Run it to print the rows of the table in crates/tests_base/src/keys.rt.
"""

from collections.abc import Iterable

MASK = (1 << 64) - 1


def bucket(words: Iterable[int], buckets: int) -> int:
    h = 0x9E3779B97F4A7C15
    for w in words:
        h = ((h ^ w) * 0xBF58476D1CE4E5B9) & MASK
        h ^= h >> 29
    h = ((h ^ (h >> 32)) * 0x94D049BB133111EB) & MASK
    h ^= h >> 29
    return (h >> 32) % buckets


def node_words(children: list[int | None]) -> list[int]:
    t = [0 if c is None else 1 + c for c in children]
    return [t[2 * i] + (t[2 * i + 1] << 32) for i in range(4)]


LEAVES = [1, 2, 1 << 63, MASK, 0xF, 0x8000000000000001, 0x0123456789ABCDEF, 0x5555555555555555, 0x0033003300330033,
          0xFFFF0000FFFF0000, 0x8421]
NODES = [
    [0, None, None, None, None, None, None, None],
    [None, 0, None, None, None, None, None, None],
    [None, None, None, None, None, None, None, 0],
    [0, 0, 0, 0, 0, 0, 0, 0],
    [1, 2, 3, 4, 5, 6, 7, 8],
    [8, 7, 6, 5, 4, 3, 2, 1],
    [None, 4095, None, 4095, None, 4095, None, 4095],
    [4095, None, 17, None, 300, None, 1023, None],
    [255, 254, None, None, 253, 252, None, None],
    [1, 2, 3, 4, None, None, None, None],
    [None, None, None, None, 1, 2, 3, 4],
    [65535, 65535, 65535, 65535, 65535, 65535, 65535, 65535],
]
BUCKETS = [1, 2, 7, 256, 1024, 4096, 65535]


def main() -> None:
    for bits in LEAVES:
        print(f"        (0x{bits:016x}, [{', '.join(str(bucket([bits], b)) for b in BUCKETS)}]),")
    print()
    for children in NODES:
        words = node_words(children)
        row = ", ".join("NONE" if c is None else str(c) for c in children)
        print(f"        ([{row}], [{', '.join(str(bucket(words, b)) for b in BUCKETS)}]),")


if __name__ == "__main__":
    main()

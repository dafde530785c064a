#!/usr/bin/env python3
"""The load of a number, written from the rules of its format alone: oracle/load.py N

It writes to standard output the line of the world's side, the bytes of the VOX file, and the four scripts, one after
another.

The numbers. The state begins as N. A draw makes the state g into g * 6364136223846793005 + 1442695040888963407 modulo
2^64, and gives the new state without its 33 lowest bits. d(m) is one draw modulo m. Draws are made in the order in
which they stand here.

The VOX file is of version 150 and has one model of size 32 32 32 with 4,000 voxels, each d(32), d(32), d(32), 1 +
d(255).

Then four scripts, i from 0 to 3. Each has 200 lines of edits, and each of these draws t = d(4):
    0   fill X Y Z A B C    X = 64 i + d(48), Y = d(240), Z = d(240), and A, B, C are 1 + d(16) each
    1   erase X Y Z A B C   the same draws
    2   ball X Y Z R        X = 64 i + 8 + d(48), Y = 8 + d(240), Z = 8 + d(240), R = d(8)
    3   stamp 0 X Y Z       X = 64 i + d(32), Y = d(224), Z = d(224)
The last line is `count X 0 0 64 256 256`, where X = 64 i.
"""
import struct
import sys


class Numbers:
    def __init__(self, n: int) -> None:
        self.state = n

    def d(self, m: int) -> int:
        self.state = (self.state * 6364136223846793005 + 1442695040888963407) % 2**64
        return (self.state >> 33) % m


def vox(numbers: Numbers) -> bytes:
    voxels = b"".join(bytes([numbers.d(32), numbers.d(32), numbers.d(32), 1 + numbers.d(255)]) for _ in range(4000))
    size = struct.pack("<4s5I", b"SIZE", 12, 0, 32, 32, 32)
    xyzi = struct.pack("<4s3I", b"XYZI", 4 + len(voxels), 0, len(voxels) // 4) + voxels
    return struct.pack("<4sI4s2I", b"VOX ", 150, b"MAIN", 0, len(size) + len(xyzi)) + size + xyzi


def edit(numbers: Numbers, i: int) -> tuple[str, list[int]]:
    d = numbers.d
    kind = d(4)
    if kind < 2:
        place = [64 * i + d(48), d(240), d(240)]
        return ["fill", "erase"][kind], place + [1 + d(16), 1 + d(16), 1 + d(16)]
    if kind == 2:
        return "ball", [64 * i + 8 + d(48), 8 + d(240), 8 + d(240), d(8)]
    return "stamp", [0, 64 * i + d(32), d(224), d(224)]


def script(numbers: Numbers, i: int) -> bytes:
    lines = [edit(numbers, i) for _ in range(200)] + [("count", [64 * i, 0, 0, 64, 256, 256])]
    return "".join(" ".join([word, *map(str, rest)]) + "\n" for word, rest in lines).encode()


def main() -> None:
    numbers = Numbers(int(sys.argv[1]))
    sys.stdout.buffer.write(b"side 256\n" + vox(numbers))
    for i in range(4):
        sys.stdout.buffer.write(script(numbers, i))


if __name__ == "__main__":
    main()

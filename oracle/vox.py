#!/usr/bin/env python3
"""Random and broken VOX files, and what a plain slow reader says of each. It is written from the rules below alone, and
by none of the crates' code.

    vox.py write FOLDER [SEED]        writes the files anew, the same bytes each time for one seed
    vox.py say FILE                   prints what the reader says of one file, as `voxdag count` would
    vox.py compare FOLDER PROGRAM     runs `PROGRAM count FILE` on each file of the folder, and compares

The rules, in the order in which they are tested; the first that fails is the fault, with its kind and a byte position:

- The file has at least 4 bytes and begins with `VOX `: else kind 1 at 0. It has at least 8: else 4 at 4. The number at
  4 is 150 or 200: else 2 at 4. Numbers have 4 bytes, the lowest first.
- A chunk is an id of 4 bytes, the number N of content bytes, the number M of bytes of child chunks, the content and the
  children. At 8 stand at least 12 bytes: else 4 at 8. The id there is `MAIN`: else 3 at 8. It ends in the file: else 4
  at 8.
- MAIN's content is passed over, and so is all behind its end. Each of its children, at a place p, has its 12 bytes and
  all of its content and children before MAIN's end: else 4 at p. The next child follows there. Its own children are
  passed over. The fields of a child are tested before the frame of the next.
- SIZE: N is at least 12: else 5 at p. Each of the three numbers is from 1 to 256: else 6 at p. It is the size that
  waits, in place of one that waited.
- XYZI: a size waits: else 7 at p. Fewer than 1,024 models were read: else 10 at p. N is at least 4, and at least 4 + 4n
  for the number n at the start of the content: else 8 at p. Each coordinate of the n groups x, y, z, colour is below
  its size: else 9 at p. This is a model of the size that waits, and no size waits any more.
- All other chunks are passed over. A model's cells are the places whose last group has a colour other than 0.
"""

import os
import struct
import subprocess
import sys
from collections.abc import Iterator, Sequence
from functools import cache
from random import Random
from typing import Any

from product import Product, want

Files = Iterator[bytes]

OUTCOMES = {
    0: "read", 1: "not a VOX file", 2: "version", 3: "no MAIN", 4: "truncated", 5: "short SIZE", 6: "size range",
    7: "XYZI without SIZE", 8: "short XYZI", 9: "voxel outside", 10: "too many models",
}
MOST_MODELS = 1024


# ---- the slow reader

class Fault(Exception):
    def __init__(self, kind: int, at: int) -> None:
        super().__init__(kind, at)
        self.kind = kind
        self.at = at


def number(data: bytes, at: int) -> int:
    return int.from_bytes(data[at:at + 4], "little")


def children_of_main(data: bytes) -> tuple[int, int]:
    """Where MAIN's children run from and to."""
    if len(data) < 4 or data[0:4] != b"VOX ":
        raise Fault(1, 0)
    if len(data) < 8:
        raise Fault(4, 4)
    if number(data, 4) not in (150, 200):
        raise Fault(2, 4)
    if len(data) < 20:
        raise Fault(4, 8)
    if data[8:12] != b"MAIN":
        raise Fault(3, 8)
    first = 20 + number(data, 12)
    end = first + number(data, 16)
    if end > len(data):
        raise Fault(4, 8)
    return first, end


def lay_out(data: bytes, first: int, end: int) -> tuple[list[int], int | None]:
    """The places of the children whose frames fit, and that of the first child whose frame doesn't, or None."""
    places = []
    place = first
    while place != end:
        if end - place < 12:
            return places, place
        following = place + 12 + number(data, place + 4) + number(data, place + 8)
        if following > end:
            return places, place
        places.append(place)
        place = following
    return places, None


def read_size(data: bytes, place: int) -> list[int]:
    if number(data, place + 4) < 12:
        raise Fault(5, place)
    size = [number(data, place + 12 + 4 * axis) for axis in range(3)]
    if min(size) < 1 or max(size) > 256:
        raise Fault(6, place)
    return size


def read_cells(data: bytes, place: int, size: list[int]) -> int:
    """The number of cells of the model in the XYZI chunk at this place."""
    length = number(data, place + 4)
    if length < 4:
        raise Fault(8, place)
    groups = number(data, place + 12)
    if 4 + 4 * groups > length:
        raise Fault(8, place)
    colours = {}
    for i in range(groups):
        x, y, z, colour = data[place + 16 + 4 * i:place + 20 + 4 * i]
        if x >= size[0] or y >= size[1] or z >= size[2]:
            raise Fault(9, place)
        colours[x, y, z] = colour
    return sum(colour != 0 for colour in colours.values())


def read_models(data: bytes) -> list[int]:
    """The number of cells of each model; the first fault is raised."""
    places, unfit = lay_out(data, *children_of_main(data))
    models = []
    waiting = None
    for place in places:
        name = data[place:place + 4]
        if name == b"SIZE":
            waiting = read_size(data, place)
        elif name == b"XYZI":
            if waiting is None:
                raise Fault(7, place)
            if len(models) == MOST_MODELS:
                raise Fault(10, place)
            models.append(read_cells(data, place, waiting))
            waiting = None
    if unfit is not None:
        raise Fault(4, unfit)
    return models


def answer(data: bytes) -> tuple[int, str, int]:
    """The kind of the outcome, the line that `voxdag count` prints, and its status."""
    try:
        return 0, f"{sum(read_models(data))}\n", 0
    except Fault as fault:
        return fault.kind, f"voxdag: vox {fault.kind} {fault.at}\n", 4


# ---- parts of files

class Draw:
    """Numbers of the generator splitmix64."""

    def __init__(self, seed: int) -> None:
        self.state = seed

    def below(self, bound: int) -> int:
        mask = (1 << 64) - 1
        self.state = (self.state + 0x9E3779B97F4A7C15) & mask
        z = self.state
        z = ((z ^ z >> 30) * 0xBF58476D1CE4E5B9) & mask
        z = ((z ^ z >> 27) * 0x94D049BB133111EB) & mask
        return (z ^ z >> 31) % bound

    def of(self, values: Sequence) -> Any:
        return values[self.below(len(values))]

    def bytes(self, length: int) -> bytes:
        return bytes(self.below(256) for _ in range(length))


def numbers(*values: int) -> bytes:
    return struct.pack(f"<{len(values)}I", *values)


def chunk(name: bytes, content: bytes = b"", children: bytes = b"") -> bytes:
    return name + numbers(len(content), len(children)) + content + children


def size_chunk(size: Sequence[int], excess: bytes = b"") -> bytes:
    return chunk(b"SIZE", numbers(*size) + excess)


def xyzi_chunk(groups: list, excess: bytes = b"", children: bytes = b"") -> bytes:
    content = numbers(len(groups)) + b"".join(bytes(group) for group in groups)
    return chunk(b"XYZI", content + excess, children)


def vox_file(children: bytes, content: bytes = b"", version: int = 150, after: bytes = b"") -> bytes:
    return b"VOX " + numbers(version) + chunk(b"MAIN", content, children) + after


def with_number(data: bytes, at: int, value: int) -> bytes:
    return data[:at] + numbers(value % (1 << 32)) + data[at + 4:]


ONE = size_chunk((1, 1, 1)) + xyzi_chunk([(0, 0, 0, 1)])
PAIR = size_chunk((2, 3, 4)) + xyzi_chunk([(1, 2, 3, 7), (0, 0, 0, 0), (1, 2, 3, 0), (0, 2, 3, 255)])
NESTED = chunk(b"nGRP", b"ab", chunk(b"XYZI") + chunk(b"SIZE", b"x"))

VALID = {
    "one": vox_file(ONE),
    "no-chunk": vox_file(b""),
    "no-groups": vox_file(size_chunk((256, 1, 256)) + xyzi_chunk([]), version=200),
    "all-parts": vox_file(
        chunk(b"PACK", numbers(2)) + size_chunk((9, 9, 9)) + NESTED + size_chunk((2, 1, 2), b"more") + xyzi_chunk(
            [(0, 0, 0, 1), (1, 0, 1, 2), (0, 0, 0, 0)], b"!", chunk(b"SIZE")) + chunk(b"RGBA", bytes(range(24))) + ONE,
        b"main", 200, b"SIZE behind the end"),
    "size-at-end": vox_file(PAIR + chunk(b"MATL", b"\x01" * 5) + size_chunk((256, 256, 256)), after=b"\0"),
}


# ---- files by the rule that they try

def headers() -> Files:
    yield vox_file(ONE)[:4]
    for mark in (b"VOX", b"vox ", b"VOX\0", b" VOX", b"XOV ", b"VOXE"):
        yield mark + vox_file(ONE)[4:]
    for version in (0, 1, 149, 150, 151, 199, 200, 201, 150 << 8, 150 << 24, 150 + (1 << 16), 200 + (1 << 31),
                    (1 << 32) - 1):
        yield vox_file(ONE, version=version)
        yield vox_file(ONE, version=version)[:19]
    for name in (b"MAIM", b"main", b"SIZE", b"\0\0\0\0", b"NIAM"):
        yield vox_file(ONE).replace(b"MAIN", name)
        yield vox_file(ONE).replace(b"MAIN", name)[:19]
        yield with_number(vox_file(ONE).replace(b"MAIN", name), 12, 9999)


def orders() -> Files:
    """Sizes that wait, are replaced or are missing, and chunks of which the first fault decides."""
    xyzi = xyzi_chunk([(0, 0, 0, 1)])
    outside = xyzi_chunk([(0, 0, 0, 1), (1, 0, 0, 0)])
    size = size_chunk((1, 1, 1))
    parts = [size, xyzi, outside, size_chunk((2, 2, 2)), size_chunk((0, 1, 1)), chunk(b"SIZE", b"short"),
             chunk(b"XYZI", b"abc"), NESTED]
    for first in parts:
        yield vox_file(first)
        for second in parts:
            yield vox_file(first + second)
            for third in parts:
                yield vox_file(first + second + third)
    cut = numbers(1, 0)
    for part in parts:
        yield vox_file(size + part + cut)
        yield vox_file(size + part + b"SIZE" + cut)


def sizes() -> Files:
    for axis in range(3):
        for value in (0, 1, 2, 255, 256, 257, 512, 1 << 16, (1 << 16) + 1, 1 << 31, (1 << 32) - 1):
            size = [3, 3, 3]
            size[axis] = value
            yield vox_file(size_chunk(size) + xyzi_chunk([]))
            yield vox_file(size_chunk(size) + xyzi_chunk([(0, 0, 0, 5)]))
            yield vox_file(size_chunk(size))
    for length in range(16):
        yield vox_file(chunk(b"SIZE", numbers(1, 1, 1, 1)[:length]))
        yield vox_file(chunk(b"SIZE", numbers(1, 1, 1, 1)[:length]) + xyzi_chunk([(0, 0, 0, 1)]))


def coordinates() -> Files:
    for axis in range(3):
        for bound in (1, 2, 17, 128, 255, 256):
            for place in sorted({0, bound - 1, min(bound, 255), 255}):
                for colour in (0, 1):
                    size, group = [4, 4, 4], [3, 3, 3, colour]
                    size[axis], group[axis] = bound, place
                    yield vox_file(size_chunk(size) + xyzi_chunk([(0, 0, 0, 9), group]))
    for colours in ((1, 0), (0, 1), (1, 0, 1), (0, 0), (1, 2), (255, 0, 0, 128, 0), (0, 128)):
        yield vox_file(size_chunk((5, 5, 5)) + xyzi_chunk([(4, 3, 2, colour) for colour in colours]))


def group_numbers() -> Files:
    """Numbers of groups around the content's length, and such that 4 + 4n is small without its upper bits."""
    for held in (0, 1, 3):
        for excess in range(5):
            whole = vox_file(size_chunk((2, 2, 2)) + xyzi_chunk([(1, 1, 1, 1)] * held, b"\1" * excess) + ONE)
            for claimed in (0, 1, held, held + 1, held + 2, 1 << 30, (1 << 30) - 1, (1 << 30) + held, (1 << 31) + held,
                            (1 << 32) - 1, (3 << 30) + held):
                yield with_number(whole, 56, claimed)
    for length in range(4):
        yield vox_file(size_chunk((2, 2, 2)) + chunk(b"XYZI", bytes(length)) + ONE)


def many_models() -> Files:
    """Around the greatest number of models, with the faults that come before and after it."""
    empty = size_chunk((1, 1, 1)) + xyzi_chunk([])
    full = ONE * MOST_MODELS
    for data in (ONE * (MOST_MODELS - 1), full, full + size_chunk((1, 1, 1)), full + ONE, full + empty,
                 full + xyzi_chunk([]), full + size_chunk((0, 1, 1)), full + size_chunk((1, 1, 1)) + chunk(b"XYZI"),
                 full + size_chunk((1, 1, 1)) + xyzi_chunk([(9, 9, 9, 1)]), full + NESTED, full + b"SIZE",
                 full + size_chunk((1, 1, 1)) + b"XYZI" + numbers(99, 0), (PAIR + NESTED) * MOST_MODELS,
                 (PAIR + NESTED) * (MOST_MODELS + 1), empty * 1500, ONE * 300 + xyzi_chunk([]) + ONE * 1000):
        yield vox_file(data)


def frames(data: bytes) -> list[int]:
    """The places of MAIN and of its children."""
    return [8] + lay_out(data, *children_of_main(data))[0]


def lengths() -> Files:
    """Frames whose numbers reach to the end, past it, or are small only without their upper bits."""
    for data in VALID.values():
        end = children_of_main(data)[1]
        for place in frames(data):
            content, children = number(data, place + 4), number(data, place + 8)
            rest = (len(data) if place == 8 else end) - place - 12
            for at, value, other in ((place + 4, content, children), (place + 8, children, content)):
                top = 1 << 32
                for new in (0, 1, value - 1, value + 1, value + 4, rest - other, rest - other + 1, rest, rest + 1, 1 << 31,
                            top - 1, top - 12, top - 12 - other, top - 12 - place - other, top - place):
                    yield with_number(data, at, new)
            for half in (1, 1 << 31, (1 << 32) - 1):
                yield with_number(with_number(data, place + 4, half), place + 8, content + children - half)


def truncations() -> Files:
    """Every file of a few cut at each byte, as it is and with MAIN's length cut to fit."""
    for data in VALID.values():
        for length in range(len(data)):
            yield data[:length]
            children = length - 20 - number(data, 12)
            if 0 <= children < number(data, 16):
                yield with_number(data[:length], 16, children)


# ---- files by chance

NAMES = [b"RGBA", b"PACK", b"nTRN", b"nGRP", b"nSHP", b"MATL", b"LAYR", b"rOBJ", b"size", b"XYZ ", b"MAIN", b"VOX ",
         b"\0\0\0\0"]


def random_size(draw: Draw) -> list[int]:
    if draw.below(12) == 0:
        return [draw.of([0, 1, 256, 257, 1 << draw.below(32)]) for _ in range(3)]
    most = draw.of([1, 2, 8, 64, 256])
    return [1 + draw.below(most) for _ in range(3)]


def random_group(draw: Draw, size: Sequence[int]) -> list[int]:
    """A group that mostly lies inside, and often where others do."""
    bounds = [min(bound, draw.of([2, 256])) if 1 <= bound <= 256 else 256 for bound in size]
    group = [draw.below(bound) for bound in bounds]
    if draw.below(150) == 0:
        group[draw.below(3)] = 255
    return group + [draw.of([0, 1, draw.below(256)])]


def random_chunk(draw: Draw, size: list[int] | None) -> tuple[bytes, list[int] | None]:
    """A chunk, and the size that then waits."""
    choice = draw.below(10)
    excess = draw.bytes(draw.below(9)) if draw.below(4) == 0 else b""
    if choice < 3 or (choice < 8 and size is None and draw.below(12)):
        size = random_size(draw)
        return size_chunk(size, excess), size
    if choice < 8:
        groups = [random_group(draw, size or (4, 4, 4)) for _ in range(draw.below(draw.of([2, 6, 60])))]
        return xyzi_chunk(groups, excess, NESTED if draw.below(9) == 0 else b""), None
    return chunk(draw.of(NAMES), draw.bytes(draw.below(40)), draw.of([b"", b"", NESTED, ONE, excess])), size


def random_file(draw: Draw) -> bytes:
    children, size = b"", None
    for _ in range(draw.below(draw.of([3, 9, 20]))):
        part, size = random_chunk(draw, size)
        children += part
    content = draw.bytes(draw.below(30)) if draw.below(6) == 0 else b""
    after = draw.bytes(draw.below(30)) if draw.below(6) == 0 else b""
    return vox_file(children, content, draw.of([150, 200]), after)


def valid_file(draw: Draw) -> bytes:
    while True:
        data = random_file(draw)
        if answer(data)[0] == 0:
            return data


def random_files(draw: Draw) -> Files:
    for _ in range(1200):
        yield random_file(draw)
    for _ in range(300):
        yield valid_file(draw)


def mutated(draw: Draw) -> bytes:
    """A valid file with one byte changed; mostly one that is no content of a passed chunk."""
    data = bytearray(draw.of(list(VALID.values())) if draw.below(2) else valid_file(draw))
    at = draw.below(len(data)) if draw.below(2) else draw.of(frames(data)) + draw.below(16)
    at = min(at, len(data) - 1)
    data[at] = draw.of([data[at] ^ 1 << draw.below(8), (data[at] + 1) % 256, (data[at] - 1) % 256, draw.below(256)])
    return bytes(data)


def mutations(draw: Draw) -> Files:
    return (mutated(draw) for _ in range(1200))


@cache
def fixed_files() -> list[bytes]:
    """The files that no chance makes."""
    groups = (VALID.values(), headers(), orders(), sizes(), coordinates(), group_numbers(), many_models(), lengths(), truncations())
    return [data for files in groups for data in files]


def case(product: Product, rng: Random) -> None:
    """Files by rule or by chance, and what `count` says of each."""
    draw = Draw(rng.getrandbits(64))
    for _ in range(20):
        kind = rng.randrange(3)
        data = rng.choice(fixed_files()) if kind == 0 else random_file(draw) if kind == 1 else mutated(draw)
        product.write("m.vox", data)
        _, line, status = answer(data)
        want("count", product.run("count", "m.vox"), (status, line))


def all_files(seed: int) -> Iterator[tuple[str, bytes]]:
    """Each file's name and bytes."""
    groups = [("valid", VALID.values()), ("header", headers()), ("order", orders()), ("size", sizes()),
              ("coordinate", coordinates()), ("groups", group_numbers()), ("models", many_models()), ("length", lengths()),
              ("cut", truncations()), ("random", random_files(Draw(seed))), ("byte", mutations(Draw(seed + 1)))]
    for name, files in groups:
        for index, data in enumerate(files):
            yield f"{name}-{index:04}.vox", data


# ---- the commands

def contents(file: str) -> bytes:
    with open(file, "rb") as stream:
        return stream.read()


def write(folder: str, seed: str = "1") -> None:
    os.makedirs(folder)
    for name, data in all_files(int(seed)):
        with open(os.path.join(folder, name), "wb") as file:
            file.write(data)


def say(file: str) -> None:
    _, line, status = answer(contents(file))
    print(line, end="")
    sys.exit(status)


def compare(folder: str, program: str) -> None:
    found = dict.fromkeys(OUTCOMES, 0)
    for name in sorted(os.listdir(folder)):
        file = os.path.join(folder, name)
        kind, line, status = answer(contents(file))
        ended = subprocess.run([program, "count", file], stdout=subprocess.PIPE, timeout=1200)
        if (ended.stdout, ended.returncode) != (line.encode(), status):
            print(f"{file}: the slow reader has status {status} and {line!r}, "
                  f"and {program} has status {ended.returncode} and {ended.stdout!r}", file=sys.stderr)
            sys.exit(1)
        found[kind] += 1
    print(f"{program}: {sum(found.values())} files, as the slow reader has them")
    for kind, files in found.items():
        print(f"  {kind:2} {OUTCOMES[kind]:18} {files:5}")


def main() -> None:
    commands = {"write": (write, (1, 2)), "say": (say, (1,)), "compare": (compare, (2,))}
    command, operands = commands.get(sys.argv[1] if len(sys.argv) > 1 else "", (None, ()))
    if len(sys.argv) - 2 not in operands:
        sys.exit("usage: vox.py write FOLDER [SEED] | say FILE | compare FOLDER PROGRAM")
    command(*sys.argv[2:])


if __name__ == "__main__":
    main()

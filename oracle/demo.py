#!/usr/bin/env python3
"""What `voxdag demo N` writes and prints, from the rules of the load and of its run alone: oracle/demo.py N

It writes demo.0.out to demo.3.out and demo.journal into the current folder, and prints the lines of standard output.
The world is a row of 256 * 256 * 256 bytes. The four scripts run one after another, and every edit is accepted. The
program runs them at the same time, so the moments and the order of the records may be others there.
"""
import re
import sys
from collections.abc import Iterator
from math import isqrt
from random import Random
from typing import NamedTuple

import load
from load import Numbers
from product import Product, want

SIDE = 256
Cell = tuple[int, ...]


class Demo(NamedTuple):
    transcripts: list[str]
    journal: str
    printed: str


def rows(word: str, numbers: list[int], model: list[Cell]) -> Iterator[tuple[int, int, int, int]]:
    """The cells of an edit, as rows along x: (x, y, z, length)."""
    if word == "stamp":
        _, x, y, z = numbers
        for a, b, c in model:
            yield x + a, y + b, z + c, 1
    elif word == "ball":
        x, y, z, r = numbers
        for dz in range(-r, r + 1):
            for dy in range(-r, r + 1):
                left = r * r - dz * dz - dy * dy
                if left >= 0 and 0 <= y + dy < SIDE and 0 <= z + dz < SIDE:
                    low, high = max(0, x - isqrt(left)), min(SIDE - 1, x + isqrt(left))
                    yield low, y + dy, z + dz, high - low + 1
    else:
        x, y, z, a, b, c = numbers
        for k in range(z, z + c):
            for j in range(y, y + b):
                yield x, j, k, a


def demo(n: int) -> Demo:
    numbers = Numbers(n)
    voxels = load.vox(numbers)[60:]
    last = {tuple(voxels[i:i + 3]): voxels[i + 3] for i in range(0, len(voxels), 4)}
    model = [place for place, colour in last.items() if colour]
    world = bytearray(SIDE ** 3)
    records, transcripts, printed = [], [], f"demo {n}\nrecords 800\n"
    for i in range(4):
        answers = ""
        for line in range(1, 201):
            word, rest = load.edit(numbers, i)
            bit = b"\0" if word == "erase" else b"\1"
            for x, y, z, length in rows(word, rest, model):
                at = (z * SIDE + y) * SIDE + x
                world[at:at + length] = bit * length
            records.append(f"{len(records) + 1} {i} {line} {word} {' '.join(map(str, rest))}\n")
            answers += f"{line} @{len(records)} ok\n"
        cells = sum(sum(world[at + 64 * i:at + 64 * i + 64]) for at in range(0, SIDE ** 3, SIDE))
        transcripts.append(answers + f"201 @{len(records)} count {cells}\n")
        printed += f"region {i} count {cells}\n"
    return Demo(transcripts, "voxdag journal 1\nside 256\n" + "".join(records) + "end\n", printed)


def compare(product: Product, wanted: Demo, names: list[str], journal: str) -> None:
    """Compares the transcripts but for their moments and the journal but for its order, and one with the other."""
    lines = product.left(journal).decode().splitlines()
    unnumbered = sorted(line.partition(" ")[2] for line in lines)
    want("records of the journal", unnumbered, sorted(line.partition(" ")[2] for line in wanted.journal.splitlines()))
    for i, name in enumerate(names):
        given = product.left(name).decode()
        want(name, re.sub("(?m)@[0-9]+ ", "", given), re.sub("(?m)@[0-9]+ ", "", wanted.transcripts[i]))
        moments = [int(moment) for moment in re.findall("(?m)@([0-9]+) ", given)]
        want(f"order of {name}", moments, sorted(moments))
        for at, moment in enumerate(moments[:-1], 1):
            want(f"record {moment}", lines[1 + moment].split(" ")[:3], [str(moment), str(i), str(at)])


def case(product: Product, rng: Random) -> None:
    """`demo` of a number, and `run` of the same load from files."""
    n = rng.randrange(10**rng.randint(1, 6))
    wanted = demo(n)
    want("demo", product.run("demo", str(n)), (0, wanted.printed))
    compare(product, wanted, [f"demo.{i}.out" for i in range(4)], "demo.journal")
    numbers = Numbers(n)
    product.write("m.vox", load.vox(numbers))
    for i in range(4):
        product.write(f"s{i}", load.script(numbers, i))
    status, line = product.run("run", "--journal", "j", "m.vox", *(f"s{i}" for i in range(4)))
    want("run of the load", (status, line.partition(" nodes ")[0]), (0, "scripts 4 records 800 marks 0"))
    compare(product, wanted, [f"s{i}.out" for i in range(4)], "j")


def main() -> None:
    made = demo(int(sys.argv[1]))
    for i, text in enumerate(made.transcripts):
        with open(f"demo.{i}.out", "w", encoding="ascii") as out:
            out.write(text)
    with open("demo.journal", "w", encoding="ascii") as out:
        out.write(made.journal)
    print(made.printed, end="")


if __name__ == "__main__":
    main()

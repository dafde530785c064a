#!/usr/bin/env python3
"""make.py DIR edits|questions: writes DIR/NAME/script.txt for each workload, and DIR/NAME/words with the words of the
programs that play it; and two models of 256 x 256 x 256 places: DIR/shell.vox has the cells near a ball's surface,
DIR/points.vox 64 cells far apart. The same bytes each time. It prints the names. MODEL is the file whose model is stamped
elsewhere."""
import os
import struct
import sys


class Draw:
    def __init__(self, seed):
        self.seed = seed

    def below(self, most):
        self.seed = (self.seed * 6364136223846793005 + 1442695040888963407) % 2**64
        return (self.seed >> 33) % most

    def three(self, most):
        return [self.below(most) for _ in range(3)]

    # A box in the world of this side, of sizes from 1 to the greatest.
    def box(self, side, greatest):
        size = [1 + self.below(greatest) for _ in range(3)]
        return [self.below(side - s + 1) for s in size] + size


def line(word, *numbers):
    return " ".join([word] + [str(n) for n in numbers])


def whole(side):
    return line("count", 0, 0, 0, side, side, side)


# Small fills, erases and balls all over the world.
def small(side, number, seed):
    draw = Draw(seed)
    lines = []
    for _ in range(number):
        kind = draw.below(4)
        if kind < 2:
            lines.append(line(("fill", "erase")[kind], *draw.box(side, 16)))
        else:
            lines.append(line(("ball", "carve")[kind - 2], *draw.three(side), 1 + draw.below(12)))
    return lines


def whole_fills(side, number):
    lines = []
    for _ in range(number):
        lines.append(line("fill", 0, 0, 0, side, side, side))
        lines.append(line("erase", 0, 0, 0, side, side, side))
    return lines


# Fills and erases of boxes that lie everywhere some cells within the world's sides.
def inner_fills(side, number):
    lines = []
    for i in range(number):
        k = 1 + 2 * i
        lines.append(line("fill", k, k, k, side - 2 * k, side - 2 * k, side - 2 * k))
        lines.append(line("erase", k + 1, k, k + 1, side - 2 * k - 2, side - 2 * k, side - 2 * k - 2))
    return lines


def large_boxes(side, number, seed):
    draw = Draw(seed)
    return [line(("fill", "fill", "erase")[draw.below(3)], *draw.box(side, side - 1)) for _ in range(number)]


# A hollow ball of this radius in the middle, and eight smaller ones round it.
def spheres(side, radius):
    half = side // 2
    lines = [line("ball", half, half, half, radius), line("carve", half, half, half, radius - radius // 8)]
    for k in range(8):
        centre = [half + ((k >> axis & 1) * 2 - 1) * radius // 2 for axis in range(3)]
        lines.append(line("ball", *centre, radius // 3))
        lines.append(line("carve", *centre, radius // 4))
    return lines


def copies(side, number, greatest, seed):
    draw = Draw(seed)
    half = side // 2
    lines = []
    for _ in range(number):
        size = [1 + draw.below(greatest) for _ in range(3)]
        lines.append(line("copy", *draw.three(half), *size, "to", *[draw.below(side - s + 1) for s in size]))
    return [line("ball", half // 2, half // 2, half // 2, half // 2 - 1)], lines


def stamps(side, number, size, seed):
    draw = Draw(seed)
    return [line("stamp", 0, *[draw.below(side - s + 1) for s in size]) for _ in range(number)]


# Balls and boxes at random, and questions at random of the world that they make.
def world(side, number, seed):
    draw = Draw(seed)
    lines = []
    for _ in range(number):
        if draw.below(2):
            lines.append(line("fill", *draw.box(side, side // 8)))
        else:
            lines.append(line("ball", *draw.three(side), 1 + draw.below(side // 16)))
    return lines


def step(draw):
    return draw.below(2049) - 1024


def questions(side, seed, counts, faces, bounds):
    draw = Draw(seed)
    lines = [line("get", *draw.three(side)) for _ in range(20000)]
    lines += [line("count", *draw.box(side, side)) for _ in range(counts)]
    lines += [line("faces", *draw.box(side, side)) for _ in range(faces)]
    lines += ["bounds"] * bounds
    lines += [line("ray", *draw.three(side), 1 + draw.below(1024), step(draw), step(draw)) for _ in range(2000)]
    return lines


# Boxes whose cells are listed.
def lists(side, number, seed):
    draw = Draw(seed)
    return [line("count", *[draw.below(side - 255) for _ in range(3)], 256, 256, 256) for _ in range(number)]


def model_size(path):
    with open(path, "rb") as f:
        data = f.read()
    at = data.index(b"SIZE") + 12
    return struct.unpack("<3I", data[at : at + 12])


def edits():
    first, small_copies = copies(1024, 1000, 64, 108)
    _, large_copies = copies(4096, 3, 2000, 114)
    cube = (256, 256, 256)
    return {
        "small256": (256, small(256, 20000, 101)),
        "small4096": (4096, small(4096, 20000, 103)),
        "whole4096": (4096, whole_fills(4096, 500)),
        "inner4096": (4096, inner_fills(4096, 100)),
        "boxes4096": (4096, large_boxes(4096, 200, 115)),
        "spheres4096": (4096, spheres(4096, 1023)),
        "copies1024": (1024, first + small_copies),
        "copies4096": (4096, [line("fill", 5, 6, 7, 1900, 1800, 1700)] + large_copies),
        "stamp_model": (1024, stamps(1024, 2000, model_size(os.environ["MODEL"]), 106)),
        "stamp_shell": (1024, stamps(1024, 50, cube, 116)),
        "stamp_points": (1024, stamps(1024, 500, cube, 117)),
    }


def asked():
    made = {}
    for side, numbers in ((256, (200, 100, 100)), (1024, (40, 10, 40)), (4096, (10, 2, 10))):
        balls = world(side, 200, 200 + side)
        made[f"random{side}"] = (side, balls + questions(side, 300 + side, *numbers))
        made[f"list{side}"] = (side, balls + lists(side, 20, 400 + side))
    fill = [line("fill", 0, 0, 0, 4096, 4096, 4096)]
    made["all_set"] = (4096, fill + questions(4096, 500, 20, 5, 1000))
    made["all_inside"] = (4096, [line("fill", 1, 1, 1, 4093, 4094, 4094)] + questions(4096, 503, 20, 5, 10))
    made["list_all_set"] = (4096, fill + lists(4096, 10, 501))
    made["none_set"] = (4096, questions(4096, 502, 1000, 1000, 1000))
    return made


def vox(groups):
    number = len(groups) // 4
    return (
        b"VOX " + struct.pack("<I", 150) + b"MAIN" + struct.pack("<II", 0, 40 + 4 * number)
        + b"SIZE" + struct.pack("<5I", 12, 0, 256, 256, 256)
        + b"XYZI" + struct.pack("<3I", 4 + 4 * number, 0, number) + bytes(groups)
    )


def shell():
    groups = bytearray()
    squares = [(2 * i - 255) ** 2 for i in range(256)]
    for z in range(256):
        for y in range(256):
            for x in range(256):
                if 200**2 <= squares[x] + squares[y] + squares[z] <= 255**2:
                    groups += bytes((x, y, z, 1))
    return vox(groups)


def points():
    draw = Draw(1)
    return vox(b"".join(bytes(draw.three(256) + [1]) for _ in range(64)))


def main(place, what):
    os.makedirs(place, exist_ok=True)
    if what == "edits" and not os.path.exists(f"{place}/points.vox"):
        for name, data in (("shell", shell()), ("points", points())):
            with open(f"{place}/{name}.vox", "wb") as f:
                f.write(data)
    for name, (side, lines) in (edits() if what == "edits" else asked()).items():
        os.makedirs(f"{place}/{name}", exist_ok=True)
        if what == "edits":
            lines = lines + [whole(side)]
        with open(f"{place}/{name}/script.txt", "w") as f:
            f.write("\n".join(lines) + "\n")
        with open(f"{place}/{name}/words", "w") as f:
            f.write(f"{side} list\n" if name.startswith("list") else f"{side}\n")
        print(name)


if __name__ == "__main__":
    main(*sys.argv[1:])

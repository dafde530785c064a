#!/usr/bin/env python3
"""Writes the four models and the scene of this folder anew, the same bytes each time.

A model is a size (sx, sy, sz) and a list of entries (x, y, z, colour), in the order in which they stand in the file.
z points up, as in MagicaVoxel. Run as: python3 models/make.py
"""

import os
import struct

HERE = os.path.dirname(os.path.abspath(__file__))


def one():
    """The smallest file with a cell: one place, colour 1."""
    return (1, 1, 1), [(0, 0, 0, 1)]


def shell():
    """A hollow sphere, one cell thick, in bands of colour from the foot to the top."""
    side, centre = 21, 10
    entries = []
    for z in range(side):
        for y in range(side):
            for x in range(side):
                square = (x - centre) ** 2 + (y - centre) ** 2 + (z - centre) ** 2
                # Between the radii 9.5 and 10.5, in whole numbers.
                if 19 * 19 <= 4 * square < 21 * 21:
                    entries.append((x, y, z, 64 + 6 * z))
    return (side, side, side), entries


def stairs():
    """Twelve solid steps, six wide, each of its own colour."""
    steps, width = 12, 6
    entries = []
    for x in range(steps):
        for y in range(width):
            for z in range(x + 1):
                entries.append((x, y, z, 20 + 15 * x))
    return (steps, width, steps), entries


def letter():
    """The letter V, three cells deep, with strokes three cells wide.

    It is first laid as a whole block of colour 9, and what is not of the letter is then cleared by colour 0, so that
    many places stand in the list twice.
    """
    width, depth, height = 17, 3, 15
    entries = []
    for z in range(height):
        for y in range(depth):
            for x in range(width):
                entries.append((x, y, z, 9))
    for z in range(height):
        left = (height - 1 - z) // 2
        right = width - 3 - left
        for y in range(depth):
            for x in range(width):
                if not (left <= x < left + 3 or right <= x < right + 3):
                    entries.append((x, y, z, 0))
    return (width, depth, height), entries


def plain_file(size, entries):
    """The bytes of a model in the plain layout: SIZE and then XYZI, and no other chunk."""
    return file_of(model_chunks(size, entries))


# ---- a scene: models, and nodes that turn and move them

def tower():
    """A square tower of five each way, hollow, with a battlement."""
    entries = []
    for z in range(9):
        for y in range(5):
            for x in range(5):
                rim = x in (0, 4) or y in (0, 4)
                if (z == 0 or rim) and (z < 8 or (x + y) % 2 == 0):
                    entries.append((x, y, z, 12 if z < 8 else 24))
    return (5, 5, 9), entries


def wall():
    """A wall along x, with a gate in the middle."""
    entries = []
    for z in range(6):
        for y in range(3):
            for x in range(15):
                gate = 6 <= x <= 8 and z < 4
                if not gate and (z < 5 or x % 2 == 0):
                    entries.append((x, y, z, 36 if z < 5 else 48))
    return (15, 3, 6), entries


def flight():
    """Five steps that rise along x, each of its own colour."""
    return (5, 5, 5), [(x, y, z, 61 + 2 * x) for x in range(5) for y in range(5) for z in range(x + 1)]


def block():
    """What the steps lead to."""
    return (5, 5, 5), [(x, y, z, 75) for x in range(5) for y in range(5) for z in range(5)]


# How a node turns, about z: not at all, and by one, two and three quarters, x to y.
AHEAD, LEFT, BACK, RIGHT = "4", "17", "52", "33"
MODELS = (tower, wall, flight, block)
# The model that is shown, how it is turned, and where its middle stands, rounded down.
PLACED = [
    (0, AHEAD, (2, 2, 4)), (0, AHEAD, (22, 2, 4)), (0, AHEAD, (2, 22, 4)), (0, AHEAD, (22, 22, 4)),
    (1, AHEAD, (12, 2, 3)), (1, BACK, (12, 22, 3)), (1, LEFT, (2, 12, 3)), (1, RIGHT, (22, 12, 3)),
    (2, AHEAD, (7, 12, 2)), (2, LEFT, (12, 7, 2)), (2, BACK, (17, 12, 2)), (2, RIGHT, (12, 17, 2)),
    (3, AHEAD, (12, 12, 2)),
]


def dictionary(pairs):
    texts = [text for pair in pairs for text in pair]
    return struct.pack("<I", len(pairs)) + b"".join(struct.pack("<I", len(t)) + t.encode() for t in texts)


def mover(ident, child, pairs):
    fields = struct.pack("<I", ident) + dictionary([]) + struct.pack("<4I", child, 2**32 - 1, 0, 1)
    return chunk(b"nTRN", fields + dictionary(pairs))


def court():
    """A court of four towers, four walls and four flights of steps: node 0 moves the group of all, 1, and each mover of
    that group shows one model. A model that stands often is one shape."""
    shapes = [2 + len(PLACED) + k for k in range(len(MODELS))]
    children = [2 + k for k in range(len(PLACED))]
    body = b"".join(model_chunks(*model()) for model in MODELS)
    body += mover(0, 1, [("_t", "-12 -12 0")])
    body += chunk(b"nGRP", struct.pack("<3I", 1, 0, len(children)) + struct.pack(f"<{len(children)}I", *children))
    for ident, (model, turn, at) in zip(children, PLACED):
        pairs = ([("_r", turn)] if turn != AHEAD else []) + [("_t", "%d %d %d" % at)]
        body += mover(ident, shapes[model], pairs)
    for model, ident in enumerate(shapes):
        body += chunk(b"nSHP", struct.pack("<4I", ident, 0, 1, model) + dictionary([]))
    return file_of(body)


def chunk(name, content):
    return name + struct.pack("<2I", len(content), 0) + content


def model_chunks(size, entries):
    """SIZE and then XYZI."""
    voxels = struct.pack("<I", len(entries)) + b"".join(bytes(entry) for entry in entries)
    return chunk(b"SIZE", struct.pack("<3I", *size)) + chunk(b"XYZI", voxels)


def file_of(body):
    return b"VOX " + struct.pack("<I", 150) + b"MAIN" + struct.pack("<2I", 0, len(body)) + body


def cells(entries):
    """The number of places whose last entry has a colour other than 0."""
    last = {(x, y, z): colour for x, y, z, colour in entries}
    return sum(colour != 0 for colour in last.values())


def main():
    for model in (one, shell, stairs, letter):
        size, entries = model()
        with open(os.path.join(HERE, f"{model.__name__}.vox"), "wb") as file:
            file.write(plain_file(size, entries))
        print(f"{model.__name__}.vox: size {size}, {len(entries)} entries, {cells(entries)} cells")
    with open(os.path.join(HERE, "court.vox"), "wb") as file:
        file.write(court())
    stands = sum(cells(MODELS[model]()[1]) for model, _, _ in PLACED)
    print(f"court.vox: {len(MODELS)} models, {len(PLACED)} placements, {stands} cells")


main()

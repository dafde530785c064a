#!/usr/bin/env python3
"""Random and broken scenes of VOX files, and what a plain slow reader says of each. It is written from the rules below
alone, and by none of the crates' code.

    scenes.py write FILE WANT [SEED] [NUMBER]   writes so many files into one, each behind its length in four bytes,
                                                and what has to be said of all of them
    scenes.py large FILE [PLACEMENTS]           one file of 20 models that are placed so often, turned and moved

What is said of a file: a line `fault KIND AT`; or a line `side N placements K`, and behind it the VOX file of the
turned models and the script of their stamps.

The rules. Models are read as always; of MAIN's children nTRN, nGRP and nSHP are nodes. Numbers have four bytes, the
lowest first. A STRING is a number and that many bytes, a DICT a number and that many pairs of STRINGs.

- nTRN: id, DICT, child, two numbers, the number of frames, a DICT for each. nGRP: id, DICT, number, ids. nSHP: id,
  DICT, number, and for each a model's number and a DICT. What stands behind the fields is passed over.
- In the order of the file: the fields fit, else 1; no earlier node has the id, else 2; the first frame's `_r` is a
  turning, else 3; its `_t` is a move, else 4; all at the position of the chunk. Of equal keys the first counts.
- A turning has 1 to 3 digits and is at most 255. Bits 0-1 are the column of row 1, bits 2-3 that of row 2, both below 3
  and different; row 3 has the third. Bits 4 to 6 are set where the entry is -1. Without one nothing is turned.
- A move is three numbers with single spaces between, each an optional `-` and 1 to 6 digits.
- The walk goes from node 0, depth first. Of each visit: there is the node, else 5 and its id; it isn't the 65th on its
  path, else 6; it isn't the 65,537th visit, nor its placement the 1,025th, else 8; the first model of a shape is below
  the number of models, else 7. A shape without a model places nothing. Without any node each model is placed once,
  unturned.
- A placement's corner is where it is moved, less half of the turned size, rounded down. The least corner is taken off.
  A placement that ends past 4,096, or a file of over 268,435,456 bytes, is 9 at 0.
"""

import random
import struct
import sys
from collections.abc import Iterator
from typing import NamedTuple

from product import Product, want

Place = tuple[int, ...]
Pairs = list[tuple[bytes, bytes]]
Rows = tuple[tuple[int, int], ...]
Model = tuple[Place, dict[Place, int]]
Placed = tuple[int, Rows, Place | None]


class Fault(Exception):
    pass


def number(data: bytes, at: int) -> tuple[int, int]:
    if at + 4 > len(data):
        raise IndexError
    return int.from_bytes(data[at:at + 4], "little"), at + 4


def string(data: bytes, at: int) -> tuple[bytes, int]:
    n, at = number(data, at)
    if at + n > len(data):
        raise IndexError
    return data[at:at + n], at + n


def dictionary(data: bytes, at: int) -> tuple[Pairs, int]:
    n, at = number(data, at)
    pairs = []
    for _ in range(n):
        key, at = string(data, at)
        value, at = string(data, at)
        pairs.append((key, value))
    return pairs, at


def value_of(pairs: Pairs, key: bytes) -> bytes | None:
    return next((value for name, value in pairs if name == key), None)


def turning(text: bytes | None) -> Rows | None:
    if text is None:
        return ((0, 1), (1, 1), (2, 1))
    if not 1 <= len(text) <= 3 or any(b not in b"0123456789" for b in text) or int(text) > 255:
        return None
    bits = int(text)
    first, second = bits & 3, bits >> 2 & 3
    if first > 2 or second > 2 or first == second:
        return None
    columns = (first, second, 3 - first - second)
    return tuple((columns[k], -1 if bits >> (4 + k) & 1 else 1) for k in range(3))


def move(text: bytes | None) -> Place | None:
    if text is None:
        return (0, 0, 0)
    words = text.split(b" ")
    if len(words) != 3:
        return None
    numbers = []
    for word in words:
        digits = word[1:] if word[:1] == b"-" else word
        if not 1 <= len(digits) <= 6 or any(b not in b"0123456789" for b in digits):
            return None
        numbers.append(int(word))
    return tuple(numbers)


def node(name: bytes, data: bytes) -> tuple[int, tuple]:
    at = 0
    ident, at = number(data, at)
    _, at = dictionary(data, at)
    if name == b"nTRN":
        child, at = number(data, at)
        _, at = number(data, at)
        _, at = number(data, at)
        frames, at = number(data, at)
        first = []
        for k in range(frames):
            pairs, at = dictionary(data, at)
            if k == 0:
                first = pairs
        return ident, ("moves", child, value_of(first, b"_r"), value_of(first, b"_t"))
    n, at = number(data, at)
    if name == b"nGRP":
        children = []
        if at + 4 * n > len(data):
            raise IndexError
        for _ in range(n):
            child, at = number(data, at)
            children.append(child)
        return ident, ("groups", children)
    shown = None
    for k in range(n):
        model, at = number(data, at)
        _, at = dictionary(data, at)
        if k == 0:
            shown = model
    return ident, ("shows", shown)


def chunks(data: bytes) -> Iterator[tuple[int, bytes, bytes]]:
    at, end = 20 + number(data, 12)[0], 20 + number(data, 12)[0] + number(data, 16)[0]
    while at < end:
        content, children = number(data, at + 4)[0], number(data, at + 8)[0]
        yield at, data[at:at + 4], data[at + 12:at + 12 + content]
        at += 12 + content + children


def apply(rows: Rows, v: Place) -> Place:
    return tuple(sign * v[column] for column, sign in rows)


def both(outer: Rows, inner: Rows) -> Rows:
    return tuple((inner[column][0], sign * inner[column][1]) for column, sign in outer)


def nodes_of(data: bytes) -> dict[int, tuple]:
    """The nodes by their ids."""
    nodes: dict[int, tuple] = {}
    for place, name, content in chunks(data):
        if name not in (b"nTRN", b"nGRP", b"nSHP"):
            continue
        try:
            ident, does = node(name, content)
        except IndexError:
            raise Fault(1, place) from None
        if ident in nodes:
            raise Fault(2, place)
        if does[0] == "moves":
            rows, by = turning(does[2]), move(does[3])
            if rows is None:
                raise Fault(3, place)
            if by is None:
                raise Fault(4, place)
            does = ("moves", does[1], rows, by)
        nodes[ident] = does
    return nodes


def placements(data: bytes, models: list[Model]) -> list[Placed]:
    """What the walk places, in its order."""
    nodes = nodes_of(data)
    if not nodes:
        return [(k, turning(None), None) for k in range(len(models))]
    placed: list[Placed] = []
    visits = 0
    stack = [(0, turning(None), (0, 0, 0), 1)]
    while stack:
        ident, rows, at, depth = stack.pop()
        if ident not in nodes:
            raise Fault(5, ident)
        if depth == 65:
            raise Fault(6, ident)
        does = nodes[ident]
        shows = does[0] == "shows" and does[1] is not None
        visits += 1
        if visits == 65537 or shows and len(placed) == 1024:
            raise Fault(8, ident)
        if shows and does[1] >= len(models):
            raise Fault(7, ident)
        if shows:
            placed.append((does[1], rows, at))
        elif does[0] == "moves":
            by = apply(rows, does[3])
            stack.append((does[1], both(rows, does[2]), tuple(a + b for a, b in zip(at, by)), depth + 1))
        elif does[0] == "groups":
            stack.extend((child, rows, at, depth + 1) for child in reversed(does[1]))
    return placed


def read_models(data: bytes) -> list[Model]:
    models, size = [], None
    for _, name, content in chunks(data):
        if name == b"SIZE":
            size = struct.unpack("<3I", content[:12])
        elif name == b"XYZI":
            cells = {}
            for k in range(number(content, 0)[0]):
                x, y, z, colour = content[4 + 4 * k:8 + 4 * k]
                cells[x, y, z] = colour
            models.append((size, {c: colour for c, colour in cells.items() if colour}))
            size = None
    return models


def turned_size(rows: Rows, size: Place) -> Place:
    return tuple(size[column] for column, _ in rows)


def turned(rows: Rows, size: Place, cells: dict[Place, int]) -> Iterator[tuple[Place, int]]:
    """The cells of a turned model, with their colours."""
    new = turned_size(rows, size)
    for cell, colour in cells.items():
        middle = apply(rows, tuple(2 * p + 1 - s for p, s in zip(cell, size)))
        yield tuple((m + s - 1) // 2 for m, s in zip(middle, new)), colour


def corners_of(placed: list[Placed], models: list[Model]) -> list[Place]:
    """Where each placement stands, told from the least corner of all."""
    corners = []
    for model, rows, at in placed:
        size = turned_size(rows, models[model][0])
        corners.append((0, 0, 0) if at is None else tuple(t - s // 2 for t, s in zip(at, size)))
    least = tuple(min((c[k] for c in corners), default=0) for k in range(3))
    return [tuple(c - low for c, low in zip(corner, least)) for corner in corners]


class Scene(NamedTuple):
    line: bytes
    file: bytes
    script: bytes


def file_of_models(placed: list[Placed], models: list[Model]) -> bytes:
    """The file of the turned models."""
    children = bytearray()
    for model, rows, _ in placed:
        size, cells = models[model]
        listed = sorted((z, y, x, colour) for (x, y, z), colour in turned(rows, size, cells))
        children += b"SIZE" + struct.pack("<5I", 12, 0, *turned_size(rows, size))
        children += b"XYZI" + struct.pack("<3I", 4 + 4 * len(listed), 0, len(listed))
        for z, y, x, colour in listed:
            children += bytes((x, y, z, colour))
    return b"VOX " + struct.pack("<I", 150) + b"MAIN" + struct.pack("<2I", 0, len(children)) + children


def scene(data: bytes) -> Scene:
    models = read_models(data)
    placed = placements(data, models)
    corners = corners_of(placed, models)
    most = 4
    for (model, rows, _), corner in zip(placed, corners):
        most = max(most, *(c + s for c, s in zip(corner, turned_size(rows, models[model][0]))))
    if most > 4096 or 20 + sum(40 + 4 * len(models[m][1]) for m, _, _ in placed) > 268435456:
        raise Fault(9, 0)
    side = 4
    while side < most:
        side *= 2
    script = "".join("stamp %d %d %d %d\n" % (k, *corner) for k, corner in enumerate(corners))
    return Scene(b"side %d placements %d\n" % (side, len(placed)), file_of_models(placed, models), script.encode())


def said(data: bytes) -> bytes:
    try:
        return b"".join(scene(data))
    except Fault as fault:
        return b"fault %d %d\n" % fault.args


def case(product: Product, rng: random.Random) -> None:
    """A file by chance, and what `scene` prints and writes of it."""
    many = rng.randrange(400)
    data = crowded((1024, 1025)[many], False) if many < 2 else crowded(65533 + many, True) if many < 4 else file_of(rng)
    product.write("m.vox", data)
    try:
        wanted, status, line = scene(data), 0, ""
    except Fault as fault:
        wanted, status, line = None, 11, "voxdag: scene %d %d\n" % fault.args
    want("scene", product.run("scene", "m.vox", "o", "s"), (status, wanted.line.decode() if wanted else line))
    if wanted:
        want("file of the models", product.left("o"), wanted.file)
        want("script", product.left("s"), wanted.script)
    want("names of files", sorted(product.names()), ["m.vox", "o", "s"] if wanted else ["m.vox"])


# ---- random files

def text(value: bytes) -> bytes:
    return struct.pack("<I", len(value)) + value


def pairs_of(pairs: Pairs) -> bytes:
    return struct.pack("<I", len(pairs)) + b"".join(text(k) + text(v) for k, v in pairs)


def chunk(name: bytes, content: bytes, children: bytes = b"") -> bytes:
    return name + struct.pack("<2I", len(content), len(children)) + content + children


def model_of(draw: random.Random, most: int = 9) -> bytes:
    size = [draw.randint(1, most) for _ in range(3)]
    voxels = [(draw.randrange(size[0]), draw.randrange(size[1]), draw.randrange(size[2]), draw.randrange(0, 4))
              for _ in range(draw.randrange(0, 12))]
    content = struct.pack("<I", len(voxels)) + b"".join(bytes(v) for v in voxels)
    return chunk(b"SIZE", struct.pack("<3I", *size)) + chunk(b"XYZI", content)


TURNS = [b"4", b"20", b"105", b"33", b"9", b"2", b"17", b"100", b"97", b"40", b"232", b"04"]
BAD_TURNS = [b"", b"0", b"3", b"256", b"0004", b"5", b"x", b"-4", b"12", b" 4"]
BAD_MOVES = [b"", b"1 2", b"1  2 3", b"1 2 3 4", b"1 2 3 ", b"1 2 1000000", b"- 1 2", b"+1 2 3", b"1,2,3"]


def move_of(draw: random.Random) -> bytes:
    if draw.random() < 0.01:
        return draw.choice(BAD_MOVES)
    most = draw.choice((3, 3, 30, 30, 30, 30, 300, 2000, 99999))
    return b"%d %d %d" % tuple(draw.randint(-most, most) for _ in range(3))


def frame_of(draw: random.Random) -> Pairs:
    pairs = []
    for _ in range(draw.choice((0, 1, 1, 2, 2, 3))):
        key = draw.choice((b"_r", b"_t", b"_t", b"_f", b"_"))
        if key == b"_r":
            pairs.append((key, draw.choice(BAD_TURNS) if draw.random() < 0.02 else draw.choice(TURNS)))
        else:
            pairs.append((key, move_of(draw) if key == b"_t" else b"7"))
    return pairs


def node_of(draw: random.Random, ident: int, below: list[int], models: int) -> bytes:
    kind = draw.choice(("moves", "groups", "shows")) if below else "shows"
    front = struct.pack("<I", ident) + pairs_of(draw.choice(([], [(b"_name", b"a")])))
    if kind == "moves":
        frames = [frame_of(draw) for _ in range(draw.choice((0, 1, 1, 1, 2)))]
        content = front + struct.pack("<4I", draw.choice(below), 2**32 - 1, 0, len(frames))
        return chunk(b"nTRN", content + b"".join(map(pairs_of, frames)))
    if kind == "groups":
        children = [draw.choice(below) for _ in range(draw.choice((0, 1, 2, 3, 4)))]
        return chunk(b"nGRP", front + struct.pack("<%dI" % (1 + len(children)), len(children), *children))
    shown = [draw.randrange(models + 1) if draw.random() < 0.02 else draw.randrange(max(models, 1))
             for _ in range(draw.choice((0, 1, 1, 1, 2)))]
    return chunk(b"nSHP", front + struct.pack("<I", len(shown)) + b"".join(struct.pack("<I", m) + pairs_of([])
                                                                           for m in shown))


def broken(draw: random.Random, data: bytes) -> bytes:
    """One node chunk's content with a byte or two changed, or cut, the frames mended."""
    name, content = data[:4], bytearray(data[12:])
    how = draw.random()
    if how < 0.4 and content:
        content[draw.randrange(len(content))] = draw.choice((0, 1, 2, 4, 32, 45, 48, 57, 255))
    elif how < 0.7:
        del content[draw.randrange(len(content) + 1):]
    else:
        content += bytes(draw.randrange(8))
    return chunk(name, bytes(content))


def file_of(draw: random.Random) -> bytes:
    models = draw.choice((0, 1, 1, 2, 3))
    parts = [model_of(draw, draw.choice((1, 3, 9))) for _ in range(models)]
    number_of_nodes = draw.choice((0, 1, 2, 4, 8, 16, 80))
    loop = draw.random() < 0.03
    nodes = []
    for ident in range(number_of_nodes):
        below = list(range(0 if loop else ident + 1, min(number_of_nodes, ident + draw.choice((2, 3, 9)))))
        if draw.random() < 0.01:
            below.append(draw.randrange(200))
        same = draw.randrange(number_of_nodes) if draw.random() < 0.01 else ident
        data = node_of(draw, same, below, models)
        nodes.append(broken(draw, data) if draw.random() < 0.03 else data)
    if draw.random() < 0.5:
        draw.shuffle(nodes)
    parts += nodes
    if draw.random() < 0.3:
        draw.shuffle(nodes)
    if draw.random() < 0.2:
        parts.insert(draw.randrange(len(parts) + 1) if not models else 0, chunk(b"LAYR", b"abc"))
    children = b"".join(parts)
    return b"VOX " + struct.pack("<I", 150) + chunk(b"MAIN", b"", children)


def crowded(number_of_shapes: int, groups: bool) -> bytes:
    """One model, placed often, or many visits that place nothing."""
    data = chunk(b"SIZE", struct.pack("<3I", 1, 1, 1)) + chunk(b"XYZI", struct.pack("<I", 1) + bytes((0, 0, 0, 1)))
    data += chunk(b"nGRP", struct.pack("<3I", 0, 0, number_of_shapes) + struct.pack("<I", 1) * number_of_shapes)
    shown = struct.pack("<3I", 1, 0, 0) if groups else struct.pack("<5I", 1, 0, 1, 0, 0)
    data += chunk(b"nGRP" if groups else b"nSHP", shown)
    return b"VOX " + struct.pack("<I", 150) + chunk(b"MAIN", b"", data)


def write(name: str, told: str, seed: int, many: int) -> None:
    draw = random.Random(seed)
    files = [crowded(1024, False), crowded(1025, False), crowded(65535, True), crowded(65536, True)]
    files += [file_of(draw) for _ in range(many - len(files))]
    kinds = {}
    with open(name, "wb") as into, open(told, "wb") as wanted:
        for data in files:
            into.write(struct.pack("<I", len(data)) + data)
            answer = said(data)
            wanted.write(answer)
            first = b" ".join(answer.split(b"\n", 1)[0].split(b" ")[:2]) if answer[:1] == b"f" else b"scene"
            kinds[first] = kinds.get(first, 0) + 1
    print(", ".join("%s %d" % (k.decode(), n) for k, n in sorted(kinds.items())))


def large(name: str, many: int) -> None:
    draw = random.Random(7)
    data = b""
    for _ in range(20):
        size = [draw.randint(24, 40) for _ in range(3)]
        cells = [(x, y, z) for z in range(size[2]) for y in range(size[1]) for x in range(size[0]) if draw.random() < 0.3]
        draw.shuffle(cells)
        content = struct.pack("<I", len(cells)) + b"".join(bytes((x, y, z, 1 + (x + y + z) % 255)) for x, y, z in cells)
        data += chunk(b"SIZE", struct.pack("<3I", *size)) + chunk(b"XYZI", content)
    data += chunk(b"nGRP", struct.pack("<3I", 0, 0, many) + b"".join(struct.pack("<I", 1 + k) for k in range(many)))
    for k in range(many):
        frame = pairs_of([(b"_r", draw.choice(TURNS)), (b"_t", b"%d %d %d" % tuple(draw.randrange(1800) for _ in range(3)))])
        data += chunk(b"nTRN", struct.pack("<6I", 1 + k, 0, 1 + many + k % 20, 2**32 - 1, 0, 1) + frame)
    for k in range(20):
        data += chunk(b"nSHP", struct.pack("<5I", 1 + many + k, 0, 1, k, 0))
    data = b"VOX " + struct.pack("<I", 150) + chunk(b"MAIN", b"", data)
    with open(name, "wb") as into:
        into.write(struct.pack("<I", len(data)) + data)


def main(words: list[str]) -> None:
    if words[:1] == ["write"]:
        write(words[1], words[2], int(words[3]) if len(words) > 3 else 1, int(words[4]) if len(words) > 4 else 5000)
    elif words[:1] == ["large"]:
        large(words[1], int(words[2]) if len(words) > 2 else 1000)
    else:
        sys.exit(__doc__)


if __name__ == "__main__":
    main(sys.argv[1:])

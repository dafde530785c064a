"""Writes pictures of a coloured model from all round, as one PNG: turntable.py MODEL.vox OUT.png

The model is stamped, its cells that can be seen are asked (`surface`), and each bare side that faces the eye becomes a
small tile, the nearest last.
"""
import math
import pathlib
import struct
import sys
import zlib

sys.path.insert(0, str(pathlib.Path(__file__).resolve().parents[2] / "bindings/python"))

import voxdag

VIEWS, SIZE, TILT = 8, 120, 0.5
SIDES = ((-1, 0, 0), (1, 0, 0), (0, -1, 0), (0, 1, 0), (0, 0, -1), (0, 0, 1))
LIGHT = (0.65, 0.85, 0.7, 0.9, 0.5, 1.0)


def colour(tint: int) -> tuple:
    """A colour for each tint, all round the circle of hues."""
    return tuple(150 + 100 * math.cos(tint * 0.0246 * 4 + turn) for turn in (0, 2.1, 4.2))


def view(cells: list, size: tuple, angle: float) -> bytearray:
    """One picture: rows of red, green and blue."""
    cos, sin = math.cos(angle), math.sin(angle)
    scale = SIZE / (1.2 * math.hypot(*size))
    eye = (sin * math.cos(TILT), -cos * math.cos(TILT), math.sin(TILT))
    facing = [sum(n * e for n, e in zip(side, eye)) > 0 for side in SIDES]
    tiles = []
    for x, y, z, tint, sides in cells:
        p = [n + 0.5 - s / 2 for n, s in zip((x, y, z), size)]
        for side in range(6):
            if sides >> side & 1 and facing[side]:
                q = [n + d / 2 for n, d in zip(p, SIDES[side])]
                right, back = q[0] * cos + q[1] * sin, q[1] * cos - q[0] * sin
                tiles.append((sum(n * e for n, e in zip(q, eye)), right, back * math.sin(TILT) + q[2] * math.cos(TILT), tint, side))
    picture = bytearray(b"\x18\x1b\x20" * (SIZE * SIZE))
    reach = max(1, round(scale * 0.62))
    for _, right, up, tint, side in sorted(tiles):
        red, green, blue = (min(255, int(part * LIGHT[side])) for part in colour(tint))
        left, top = round(SIZE / 2 + right * scale) - reach, round(SIZE / 2 - up * scale) - reach
        for row in range(max(0, top), min(SIZE, top + 2 * reach)):
            low, high = max(0, left), min(SIZE, left + 2 * reach)
            picture[3 * (row * SIZE + low): 3 * (row * SIZE + high)] = bytes((red, green, blue)) * max(0, high - low)
    return picture


def png(pictures: list) -> bytes:
    """The pictures side by side."""
    rows = b"".join(b"\0" + b"".join(bytes(p[3 * SIZE * row: 3 * SIZE * (row + 1)]) for p in pictures) for row in range(SIZE))
    head = struct.pack(">2I5B", SIZE * len(pictures), SIZE, 8, 2, 0, 0, 0)
    chunks = ((b"IHDR", head), (b"IDAT", zlib.compress(rows, 9)), (b"IEND", b""))
    return b"\x89PNG\r\n\x1a\n" + b"".join(struct.pack(">I", len(data)) + name + data + struct.pack(">I", zlib.crc32(name + data)) for name, data in chunks)


def main(model: pathlib.Path, out: pathlib.Path) -> None:
    with voxdag.World(256, models=model.read_bytes()) as world:
        version = world.stamp(0, (0, 0, 0))
        size = world.model_size(0)
        cells = [tuple(cell) for cell in memoryview(world.surface(version, (0, 0, 0, *size))).tolist()]
    out.write_bytes(png([view(cells, size, 2 * math.pi * n / VIEWS) for n in range(VIEWS)]))
    print(f"{len(cells)} cells can be seen of {'x'.join(map(str, size))}, in {VIEWS} pictures")


if __name__ == "__main__":
    main(*map(pathlib.Path, sys.argv[1:]))

"""A village by a lake, which two people build for the picture."""

from __future__ import annotations

from typing import Any

STEPS = (0xFF, 0xCC, 0x99, 0x66, 0x33, 0)


def tint(red: int, green: int, blue: int) -> int:
    """The tint of a colour of the usual palette, each part one of its six steps."""
    return 1 + 36 * STEPS.index(red) + 6 * STEPS.index(green) + STEPS.index(blue)


GRASS, MEADOW, WATER, SAND = tint(0x66, 0x99, 0x33), tint(0x99, 0xCC, 0x33), tint(0x33, 0x99, 0xCC), tint(0xFF, 0xCC, 0x99)
LEAVES, DARK, TRUNK, ROOF, WALL = tint(0x33, 0x99, 0x33), tint(0x33, 0x66, 0x33), tint(0x66, 0x33, 0), tint(0xCC, 0x33, 0x33), tint(0xFF, 0xFF, 0xCC)
STONE, LIGHT, SNOW, PLANK = tint(0x99, 0x99, 0x99), tint(0xFF, 0xCC, 0x33), tint(0xFF, 0xFF, 0xFF), tint(0x99, 0x66, 0x33)


def fill(x: int, y: int, z: int, a: int, b: int, c: int, t: int) -> dict[str, Any]:
    return {"do": "fill", "box": [x, y, z, a, b, c], "tint": t}


def ball(x: int, y: int, z: int, radius: int, t: int) -> dict[str, Any]:
    return {"do": "ball", "at": [x, y, z], "radius": radius, "tint": t}


def tree(x: int, y: int, z: int, high: int) -> list[dict[str, Any]]:
    return [fill(x, y, z, 1, 1, high, TRUNK), ball(x, y, z + high, 3, DARK), ball(x, y, z + high + 2, 2, LEAVES)]


def house(x: int, y: int, z: int) -> list[dict[str, Any]]:
    """Walls, windows and a roof of rows that become smaller."""
    edits = [fill(x, y, z, 10, 8, 6, WALL), fill(x + 4, y, z, 2, 1, 4, TRUNK)]
    edits += [fill(x + 1 + 6 * n, y, z + 2, 2, 1, 2, LIGHT) for n in range(2)]
    return edits + [fill(x - 1, y - 1 + n, z + 6 + n, 12, 10 - 2 * n, 1, ROOF) for n in range(5)]


def land() -> list[dict[str, Any]]:
    """Ground, hills and a lake with its shore."""
    return [
        fill(8, 8, 0, 112, 112, 3, GRASS), ball(98, 98, 0, 20, MEADOW), ball(84, 108, 0, 12, GRASS), ball(106, 78, 0, 10, GRASS), ball(98, 98, 13, 9, STONE),
        ball(98, 98, 18, 5, SNOW), ball(42, 92, 0, 17, GRASS), {"do": "carve", "at": [40, 36, 9], "radius": 20},
        fill(24, 22, 0, 34, 30, 2, WATER), fill(20, 18, 0, 42, 38, 1, SAND), ball(42, 92, 12, 7, MEADOW),
    ]


def castle(x: int, y: int, z: int) -> list[dict[str, Any]]:
    """Towers and walls of the models of models/court.vox."""
    edits = [{"do": "stamp", "model": 0, "at": [x + dx, y + dy, z]} for dx in (0, 20) for dy in (0, 20)]
    edits += [{"do": "stamp", "model": 1, "at": [x + 5, y + dy, z]} for dy in (1, 21)]
    edits += [fill(x + 1, y + 5, z, 3, 15, 5, STONE), fill(x + 21, y + 5, z, 3, 15, 5, STONE), {"do": "stamp", "model": 3, "at": [x + 10, y + 10, z]}]
    return edits + [ball(x + 12, y + 12, z + 8, 4, ROOF), {"do": "stamp", "model": 2, "at": [x + 10, y + 5, z]}]


def bridge() -> list[dict[str, Any]]:
    rows = [fill(18 + n, 34, 3 + min(n, 46 - n, 12) // 2, 1, 5, 1, PLANK) for n in range(0, 47)]
    return rows + [fill(18 + n, y, 4 + min(n, 46 - n, 12) // 2, 1, 1, 2, TRUNK) for n in range(0, 47, 6) for y in (34, 38)]


def village() -> list[dict[str, Any]]:
    edits = land() + castle(78, 26, 3) + bridge() + house(62, 62, 3) + house(80, 60, 3) + house(20, 66, 3)
    for x, y, high in ((14, 60, 5), (54, 12, 6), (66, 84, 5), (60, 96, 6), (112, 40, 6), (14, 14, 5), (70, 14, 4), (108, 16, 5), (48, 66, 5), (16, 104, 6), (62, 110, 5), (110, 60, 5)):
        edits += tree(x, y, 3, high)
    return edits

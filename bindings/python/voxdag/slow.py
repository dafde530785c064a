"""The world of `voxdag.World` in plain Python, written from the definitions alone: slow, and easy to believe.

It has the same methods, and raises the same exceptions, so a program can be tried where the library isn't; and the
library is compared with it (`oracle/library`). The definitions:

- Version 0 has no set cell, and record n makes version n. A cell has a tint, 0 where it isn't set. A fill and a ball
  give their cells a tint; an erase and a carve give 0; a copy gives the cells of its target what stood at their place in
  the box; a stamp gives the tints of its model where these aren't 0; other cells stay. A cell is in a ball where its
  squared distance from the centre is at most the squared radius. In a world without tints each tint is 1.
- The world stands at a version. An edit puts that version on the past, ends the future, and the world stands at the new
  version; an undo takes a version from the past, puts the one at which the world stood on the future, and goes there; a
  redo the other way. The version that they make has the cells of the one gone to.
- A version with a mark is forgotten. Where the last `keep` versions alone are held, version n - keep is forgotten behind
  record n, by that record's line, unless it was before.
- What is done has session 0 and a line: the first accepted change or version forgotten by hand has line 1, the next one
  line 2.
  Behind a journal the next one has the number of its records and marks together, and one.

Nothing is ever full here, and memory never lacks: those two refusals don't come.
"""

from __future__ import annotations

import struct
from fractions import Fraction
from math import floor
from typing import Any, Iterable, Iterator, Optional, Sequence

from .errors import (
    BadFile, BadJournal, BadPlan, BadTint, BadWay, Closed, Forgotten, HistoryFull, IsNewest, NoModel, NothingToRedo,
    NothingToUndo, NotLegal, NoVersion, OtherKind, Outside,
)
from .world import Box, Place, Plan, _rows

Cell = tuple[int, int, int]
Cells = dict[Cell, int]
SIDES = tuple(4 << k for k in range(11))
SIX = ((-1, 0, 0), (1, 0, 0), (0, -1, 0), (0, 1, 0), (0, 0, -1), (0, 0, 1))
MOST = 65535
EDITS = {"fill": 6, "erase": 6, "ball": 4, "carve": 4, "copy": 9, "stamp": 4, "undo": 0, "redo": 0}


# ---- VOX files

def read_models(file: bytes) -> list[tuple[Cell, Cells]]:
    """The models of a VOX file: each has its size and its set cells with their colours."""
    if file[:4] != b"VOX " or len(file) < 20 or struct.unpack_from("<I", file, 4)[0] not in (150, 200) or file[8:12] != b"MAIN":
        raise BadFile()
    own, below = struct.unpack_from("<2I", file, 12)
    at, end = 20 + own, 20 + own + below
    models: list[tuple[Cell, Cells]] = []
    size: Optional[Cell] = None
    if end > len(file):
        raise BadFile()
    while at < end:
        if at + 12 > end:
            raise BadFile()
        name, (own, below) = file[at:at + 4], struct.unpack_from("<2I", file, at + 4)
        if at + 12 + own + below > end:
            raise BadFile()
        content = file[at + 12:at + 12 + own]
        if name == b"SIZE":
            size = _size(content)
        elif name == b"XYZI":
            if size is None or len(models) == 1024:
                raise BadFile()
            models.append((size, _cells(content, size)))
            size = None
        at += 12 + own + below
    return models


def _size(content: bytes) -> Cell:
    if len(content) < 12 or not all(1 <= n <= 256 for n in struct.unpack_from("<3I", content)):
        raise BadFile()
    return struct.unpack_from("<3I", content)


def _cells(content: bytes, size: Cell) -> Cells:
    """Where a place stands twice the last one counts, and colour 0 is none."""
    if len(content) < 4 or len(content) < 4 + 4 * struct.unpack_from("<I", content)[0]:
        raise BadFile()
    cells: Cells = {}
    for x, y, z, colour in struct.iter_unpack("<4B", content[4:4 + 4 * struct.unpack_from("<I", content)[0]]):
        if x >= size[0] or y >= size[1] or z >= size[2]:
            raise BadFile()
        cells[x, y, z] = colour
    return {cell: colour for cell, colour in cells.items() if colour}


def _chunk(name: bytes, content: bytes) -> bytes:
    return name + struct.pack("<2I", len(content), 0) + content


def file_of(size: Sequence[int], cells: Iterable[tuple[Cell, int]]) -> bytes:
    """The VOX file of one model."""
    groups = [bytes((*cell, tint)) for cell, tint in sorted(cells, key=lambda of: of[0][::-1])]
    chunks = _chunk(b"SIZE", struct.pack("<3I", *size)) + _chunk(b"XYZI", struct.pack("<I", len(groups)) + b"".join(groups))
    return b"VOX " + struct.pack("<I", 150) + b"MAIN" + struct.pack("<2I", 0, len(chunks)) + chunks


# ---- places

def _in(box: Sequence[int], cell: Cell) -> bool:
    return all(box[i] <= cell[i] < box[i] + box[i + 3] for i in range(3))


def _within(box: Sequence[int]) -> Iterator[Cell]:
    x, y, z, a, b, c = box
    return ((i, j, k) for k in range(z, z + c) for j in range(y, y + b) for i in range(x, x + a))


def _least(cells: Iterable[Cell]) -> Optional[Box]:
    """The least box that has all these cells."""
    axes = list(zip(*cells))
    if not axes:
        return None
    return Box(*map(min, axes), *(max(axis) - min(axis) + 1 for axis in axes))


def _numbers(numbers: Sequence[int], error: type[Exception] = Outside) -> tuple[int, ...]:
    """Numbers below 2^32, as the library takes them."""
    if any(not 0 <= n < 1 << 32 for n in numbers):
        raise error()
    return tuple(numbers)


class World:
    """The same world as `voxdag.World`. `library` is taken and not looked at."""

    def __init__(self, side: int, *, tints: bool = False, cap: int = 0, keep: int = 0, models: bytes = b"", library: Any = None) -> None:
        if side not in SIDES or not 0 <= cap <= 256 or (tints and side > 1024) or not 0 <= keep < 1 << 32:
            raise BadPlan()
        found = read_models(bytes(models)) if len(models) else []
        self._begin(side, tints, cap, keep, found)

    def _begin(self, side: int, tints: bool, cap: int, keep: int, models: list[tuple[Cell, Cells]]) -> None:
        self._plan = Plan(side, cap or 128, keep, tints)
        self._models = models if tints else [(size, dict.fromkeys(cells, 1)) for size, cells in models]
        self._versions: list[Cells] = [{}]
        self._texts: list[str] = []
        self._marks: dict[int, str] = {}
        self._past: list[int] = []
        self._now = 0
        self._future: list[int] = []
        self._line = 1
        self._is_open = True

    # ---- journals

    @classmethod
    def open_journal(cls, journal: bytes, *, models: bytes = b"", cap: int = 0, keep: int = 0, library: Any = None) -> "World":
        world = cls.__new__(cls)
        found = read_models(bytes(models)) if len(models) else []
        if not 0 <= cap <= 256 or not 0 <= keep < 1 << 32:
            raise BadPlan()
        lines = bytes(journal).decode("latin-1").split("\n")
        coloured, side = _head(lines)
        world._begin(side, coloured, cap, keep, found)
        records, marks = _records(lines, side, coloured)
        for n, (session, line, name, a) in enumerate(records, 1):
            world._go_on(n, session, line, name, a, marks)
        world._marks.update({v: f"mark {v} {at} {session} {line}" for v, (at, session, line) in marks.items()})
        world._line = len(records) + len(marks) + 1
        return world

    def _go_on(self, n: int, session: int, line: int, name: str, a: tuple[int, ...], marks: dict[int, tuple[int, int, int]]) -> None:
        """The next record of a journal, if it is legal."""
        try:
            if name in ("undo", "redo"):
                target = self._target(name)
                if target in marks and marks[target][0] <= n - 1:
                    raise Forgotten()
            else:
                target = None
                self._fits(name, a)
        except (NothingToUndo, NothingToRedo, Forgotten, NoModel, Outside):
            raise NotLegal(n + 2) from None
        self._append(name, a, target, f"{session} {line}")

    def journal(self) -> bytes:
        self._open()
        lines = [f"voxdag journal {1 + self._plan.tints}", f"side {self._plan.side}", *self._texts]
        lines += [self._marks[version] for version in sorted(self._marks)]
        return "".join(line + "\n" for line in [*lines, "end"]).encode()

    def _spelled(self, name: str, a: tuple[int, ...]) -> str:
        if name in ("fill", "ball") and not self._plan.tints:
            a = a[:-1]
        return " ".join([name, *map(str, a[:6]), "to", *map(str, a[6:])] if name == "copy" else [name, *map(str, a)])

    # ---- opening and closing

    def _open(self) -> None:
        if not self._is_open:
            raise Closed()

    def __enter__(self) -> "World":
        return self

    def __exit__(self, *_: object) -> None:
        self.close()

    def close(self) -> None:
        self._is_open = False

    @property
    def about(self) -> Plan:
        self._open()
        return self._plan

    # ---- changes

    def _fits(self, name: str, a: tuple[int, ...]) -> None:
        """Whether the change has its model and lies in the world."""
        side = self._plan.side
        if name == "stamp":
            if a[0] >= len(self._models):
                raise NoModel()
            self._inside((*a[1:], *self._models[a[0]][0]))
        elif name in ("ball", "carve"):
            self._inside((*a[:3], 1, 1, 1))
            if a[3] > 4095:
                raise Outside()
        else:
            self._inside(a[:6])
            if name == "copy":
                self._inside((*a[6:], *a[3:6]))

    def _inside(self, box: Sequence[int]) -> None:
        if any(box[i + 3] < 1 or box[i] + box[i + 3] > self._plan.side for i in range(3)):
            raise Outside()

    def _reach(self, name: str, a: tuple[int, ...]) -> Iterable[Cell]:
        """The cells that an edit may change."""
        if name in ("fill", "erase"):
            return _within(a[:6])
        if name == "copy":
            return _within((*a[6:], *a[3:6]))
        if name == "stamp":
            return ((a[1] + x, a[2] + y, a[3] + z) for x, y, z in self._models[a[0]][1])
        low = [max(0, c - a[3]) for c in a[:3]]
        high = [min(self._plan.side, c + a[3] + 1) for c in a[:3]]
        near = _within((*low, *(h - l for l, h in zip(low, high))))
        return (cell for cell in near if sum((cell[i] - a[i]) ** 2 for i in range(3)) <= a[3] ** 2)

    def _tint_after(self, name: str, a: tuple[int, ...], before: Cells, cell: Cell) -> int:
        """The tint that an edit gives to a cell which it may change."""
        if name in ("fill", "ball"):
            return a[-1]
        if name in ("erase", "carve"):
            return 0
        if name == "copy":
            return before.get(tuple(cell[i] - a[6 + i] + a[i] for i in range(3)), 0)
        return self._models[a[0]][1][tuple(cell[i] - a[1 + i] for i in range(3))]

    def _target(self, name: str) -> int:
        """Where an undo or a redo goes."""
        way, none = (self._past, NothingToUndo) if name == "undo" else (self._future, NothingToRedo)
        if not way:
            raise none()
        return way[-1]

    def _append(self, name: str, a: tuple[int, ...], target: Optional[int], by: str) -> None:
        """The next record, and where the world stands then."""
        if target is None:
            before = self._versions[-1]
            cells = dict(before)
            for cell in self._reach(name, a):
                if tint := self._tint_after(name, a, before, cell):
                    cells[cell] = tint
                else:
                    cells.pop(cell, None)
        else:
            cells = self._versions[target]
        self._versions.append(cells)
        newest = len(self._versions) - 1
        self._texts.append(f"{newest} {by} {self._spelled(name, a)}")
        if name == "undo":
            self._past.pop()
            self._future.append(self._now)
        elif name == "redo":
            self._future.pop()
            self._past.append(self._now)
        else:
            self._past.append(self._now)
            self._future = []
        self._now = newest if target is None else target

    def _change(self, name: str, a: tuple[int, ...] = ()) -> int:
        self._open()
        target = None
        if name in ("undo", "redo"):
            target = self._target(name)
            if target in self._marks:
                raise Forgotten()
        else:
            self._fits(name, a)
        if len(self._texts) == MOST:
            raise HistoryFull()
        self._append(name, a, target, f"0 {self._line}")
        newest = len(self._texts)
        falls_out = newest - self._plan.keep
        if self._plan.keep and falls_out >= 0 and falls_out not in self._marks:
            self._mark(falls_out)
        self._line += 1
        return newest

    def _mark(self, version: int) -> None:
        self._marks[version] = f"mark {version} {len(self._texts)} 0 {self._line}"

    def _tint(self, tint: Optional[int]) -> int:
        if tint is None:
            return 1
        if not self._plan.tints:
            raise OtherKind()
        if not 1 <= tint <= 255:
            raise BadTint()
        return tint

    def fill(self, box: Sequence[int], tint: Optional[int] = None) -> int:
        self._open()
        tint = self._tint(tint)
        return self._change("fill", (*_numbers(box), tint))

    def erase(self, box: Sequence[int]) -> int:
        self._open()
        return self._change("erase", _numbers(box))

    def ball(self, centre: Sequence[int], radius: int, tint: Optional[int] = None) -> int:
        self._open()
        tint = self._tint(tint)
        return self._change("ball", (*_numbers((*centre, radius)), tint))

    def carve(self, centre: Sequence[int], radius: int) -> int:
        self._open()
        return self._change("carve", _numbers((*centre, radius)))

    def copy(self, box: Sequence[int], to: Sequence[int]) -> int:
        self._open()
        return self._change("copy", _numbers((*box, *to)))

    def stamp(self, model: int, at: Sequence[int]) -> int:
        self._open()
        return self._change("stamp", (*_numbers((model,), NoModel), *_numbers(at)))

    def undo(self) -> int:
        return self._change("undo")

    def redo(self) -> int:
        return self._change("redo")

    def forget(self, version: int) -> None:
        self._open()
        self._held(version)
        if version == self.newest:
            raise IsNewest()
        self._mark(version)
        self._line += 1

    # ---- questions

    def _held(self, version: int) -> Cells:
        """The cells of a version that can be read."""
        if not 0 <= version <= len(self._texts):
            raise NoVersion()
        if version in self._marks:
            raise Forgotten()
        return self._versions[version]

    def _asked(self, version: int, box: Optional[Sequence[int]] = None, most: int = 4096) -> Cells:
        self._open()
        if box is not None:
            self._inside(_numbers(box))
            if any(n > most for n in box[3:]):
                raise Outside()
        return self._held(version)

    @property
    def newest(self) -> int:
        self._open()
        return len(self._texts)

    def model_size(self, model: int) -> Place:
        self._open()
        if not 0 <= model < len(self._models):
            raise NoModel()
        return Place(*self._models[model][0])

    def get(self, version: int, at: Sequence[int]) -> bool:
        return tuple(at) in self._asked(version, (*at, 1, 1, 1))

    def colour(self, version: int, at: Sequence[int]) -> int:
        self._open()
        if not self._plan.tints:
            raise OtherKind()
        return self._asked(version, (*at, 1, 1, 1)).get(tuple(at), 0)

    def count(self, version: int, box: Sequence[int]) -> int:
        return sum(_in(box, cell) for cell in self._asked(version, box))

    def _bare(self, cells: Cells, cell: Cell) -> list[bool]:
        """Which of the six sides of a cell border on an unset cell or on the outside of the world: -x +x -y +y -z +z."""
        x, y, z = cell
        return [(x + i, y + j, z + k) not in cells for i, j, k in SIX]

    def _listed(self, cells: Cells, box: Sequence[int]) -> list[Cell]:
        """The set cells of a box by rising z, then y, then x."""
        few = len(cells) < box[3] * box[4] * box[5]
        return sorted((cell for cell in cells if _in(box, cell)) if few else (cell for cell in _within(box) if cell in cells), key=lambda cell: cell[::-1])

    def faces(self, version: int, box: Sequence[int]) -> int:
        cells = self._asked(version, box)
        return sum(sum(self._bare(cells, cell)) for cell in self._listed(cells, box))

    def bounds(self, version: int) -> Optional[Box]:
        return _least(self._asked(version))

    def ray(self, version: int, start: Sequence[int], steps: Sequence[int]) -> Optional[Place]:
        """Looked up where the ray crosses from cell to cell, and half way between two crossings."""
        self._open()
        self._inside(_numbers((*start, 1, 1, 1)))
        if not any(steps) or any(abs(step) > 1024 for step in steps):
            raise BadWay()
        cells = self._held(version)
        middle = [n + Fraction(1, 2) for n in start]
        times = {Fraction(0)}
        for m, step in zip(middle, steps):
            if step:
                times |= {t for t in ((plane - m) / step for plane in range(-1, self._plan.side + 2)) if t >= 0}
        order = sorted(times)
        for t, following in zip(order, [*order[1:], order[-1] + 2]):
            for instant in (t, (t + following) / 2):
                cell = tuple(floor(m + instant * step) for m, step in zip(middle, steps))
                if cell in cells:
                    return Place(*cell)
        return None

    def same(self, a: int, b: int) -> bool:
        self._open()
        return self._held(a) == self._held(b)

    def changes(self, a: int, b: int) -> Optional[Box]:
        self._open()
        first, second = self._held(a), self._held(b)
        return _least(cell for cell in {**first, **second} if first.get(cell, 0) != second.get(cell, 0))

    # ---- bytes

    def surface_bytes(self, version: int, box: Sequence[int]) -> bytes:
        cells = self._asked(version, box, 256)
        out = bytearray()
        for cell in self._listed(cells, box):
            if sides := sum(bare << at for at, bare in enumerate(self._bare(cells, cell))):
                out += bytes((*(cell[i] - box[i] for i in range(3)), cells[cell], sides))
        return bytes(out)

    def surface(self, version: int, box: Sequence[int]) -> Any:
        data = self.surface_bytes(version, box)
        return _rows(data, (len(data) // 5, 5))

    def save(self, version: int, box: Sequence[int]) -> bytes:
        cells = self._asked(version, box, 256)
        x, y, z = box[:3]
        return file_of(box[3:], [((i - x, j - y, k - z), cells[i, j, k]) for i, j, k in self._listed(cells, box)])

    def tints(self, version: int, box: Sequence[int]) -> Any:
        cells = self._asked(version, box, 256)
        x, y, z, a, b, c = box
        data = bytearray(cells.get((i, j, k), 0) for i in range(x, x + a) for j in range(y, y + b) for k in range(z, z + c))
        return _rows(data, (a, b, c))

    def flood(self, version: int, box: Sequence[int], start: Sequence[int]) -> tuple[int, bytes]:
        """From an unset cell one steps to the six beside it that are unset and lie in the box."""
        self._open()
        self._inside(_numbers(box))
        if any(n > 256 for n in box[3:]) or not _in(box, tuple(_numbers(start))):
            raise Outside()
        cells = self._held(version)
        reached: set[Cell] = set()
        waiting = [tuple(start)]
        while waiting:
            cell = waiting.pop()
            if _in(box, cell) and cell not in cells and cell not in reached:
                reached.add(cell)
                waiting += [tuple(n + d for n, d in zip(cell, step)) for step in SIX]
        return len(reached), file_of(box[3:], [(tuple(n - m for n, m in zip(cell, box)), 1) for cell in reached])

    def dag(self) -> bytes:
        """Blocks of 4, 8, 16 .. cells a side that have a set cell, each once a level, by rising order of their words."""
        self._open()
        side = self._plan.side * (4 if self._plan.tints else 1)
        held = [v for v in range(len(self._versions)) if v not in self._marks]
        trees = [block_rows(self._stored(self._versions[v]), side) for v in held]
        words: dict[Any, int] = {None: 0}
        counts, entries = [], b""
        for level in range(side.bit_length() - 2):
            rows = {block: block if level == 0 else tuple(words[below] for below in block) for tree in trees for block in tree[level].values()}
            order = sorted(rows, key=lambda block: rows[block])
            entries += b"".join(struct.pack("<8I" if level else "<Q", *rows[block]) for block in order)
            words = {None: 0, **{block: at for at, block in enumerate(order, 1)}}
            counts.append(len(order))
        roots = b"".join(struct.pack("<2I", v, words[tree[-1].get((0, 0, 0))]) for v, tree in zip(held, trees))
        return b"VDAG" + struct.pack(f"<{3 + len(counts)}I", 1, side, len(held), *counts) + entries + roots

    def _stored(self, cells: Cells) -> set[Cell]:
        """The set cells of the store: with tints each bit of a tint stands in a cube of its own beside the world."""
        n = self._plan.side
        if not self._plan.tints:
            return set(cells)
        bits = {(x + 2 * n + n * (b % 2), y + n * (b // 2 % 2), z + n * (b // 4)) for (x, y, z), tint in cells.items() for b in range(8) if tint >> b & 1}
        return set(cells) | bits


def block_rows(cells: set[Cell], side: int) -> list[dict[Cell, tuple]]:
    """Of each level from 0 up the block at each place that has set cells: a leaf's bits, or the eight blocks below."""
    leaves: dict[Cell, int] = {}
    for x, y, z in cells:
        place = (x // 4, y // 4, z // 4)
        leaves[place] = leaves.get(place, 0) | 1 << (x % 4 + 4 * (y % 4) + 16 * (z % 4))
    levels: list[dict[Cell, tuple]] = [{place: (bits,) for place, bits in leaves.items()}]
    while side > 4:
        side //= 2
        above: dict[Cell, list[Any]] = {}
        for (x, y, z), block in levels[-1].items():
            above.setdefault((x // 2, y // 2, z // 2), [None] * 8)[x % 2 + 2 * (y % 2) + 4 * (z % 2)] = block
        levels.append({place: tuple(octants) for place, octants in above.items()})
    return levels


# ---- reading journals

class _Unfit(Exception):
    pass


def _number(word: str, bound: int = 1 << 32) -> int:
    if not word.isascii() or not word.isdigit() or (word[0] == "0" and word != "0") or int(word) >= bound:
        raise _Unfit()
    return int(word)


def _head(lines: list[str]) -> tuple[bool, int]:
    """Whether the journal tells tints, and its side."""
    if lines[0] not in ("voxdag journal 1", "voxdag journal 2") or len(lines) < 2:
        raise BadJournal(1)
    coloured = lines[0][-1] == "2"
    try:
        side = _number(lines[1][5:])
        if not lines[1].startswith("side ") or len(lines) < 3 or side not in SIDES or (coloured and side > 1024):
            raise _Unfit()
    except _Unfit:
        raise BadJournal(2) from None
    return coloured, side


def _act(words: list[str], side: int, coloured: bool) -> tuple[str, tuple[int, ...]]:
    """An act as a journal has it: it lies in a world of this side, its model's number is below 1,024."""
    name, rest = words[0], words[1:]
    if name == "copy":
        if len(rest) != 10 or rest.pop(6) != "to":
            raise _Unfit()
    if name not in EDITS or len(rest) != EDITS[name] + (coloured and name in ("fill", "ball")):
        raise _Unfit()
    a = tuple(map(_number, rest))
    boxes = {"fill": [a[:6]], "erase": [a[:6]], "copy": [a[:6], (*a[6:], *a[3:6])]}.get(name, [])
    places = a[:3] if name in ("ball", "carve") else a[1:] if name == "stamp" else ()
    fits = all(box[i + 3] >= 1 and box[i] + box[i + 3] <= side for box in boxes for i in range(3)) and all(n < side for n in places)
    if not fits or (name in ("ball", "carve") and a[3] > 4095) or (name == "stamp" and a[0] >= 1024):
        raise _Unfit()
    if name in ("fill", "ball"):
        if coloured and not 1 <= a[-1] <= 255:
            raise _Unfit()
        a = a if coloured else (*a, 1)
    return name, a


def _records(lines: list[str], side: int, coloured: bool) -> tuple[list[tuple], dict[int, tuple[int, int, int]]]:
    """The records and the marks of a journal, or the first line that doesn't fit."""
    records: list[tuple] = []
    marks: dict[int, tuple[int, int, int]] = {}
    at = 2
    try:
        while at + 1 < len(lines) and lines[at] != "end":
            words = lines[at].split(" ")
            if words[0] == "mark":
                version, when, session, line = map(_number, words[1:]) if len(words) == 5 else _no()
                if not (version > max(marks, default=-1) and version < when <= len(records) and session < 64):
                    raise _Unfit()
                marks[version] = (when, session, line)
            else:
                if len(words) < 4 or marks:
                    raise _Unfit()
                n, session, line = map(_number, words[:3])
                if n != len(records) + 1 or n > MOST or session >= 64:
                    raise _Unfit()
                records.append((session, line, *_act(words[3:], side, coloured)))
            at += 1
        if at + 1 >= len(lines):
            raise _Unfit()
        at += 1
        if lines[at:] != [""]:
            raise _Unfit()
    except _Unfit:
        raise BadJournal(at + 1) from None
    return records, marks


def _no() -> Any:
    raise _Unfit()

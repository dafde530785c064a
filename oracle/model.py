"""A world as the list of its records, each cell asked back through them. From these rules alone:

- Version 0 has no set cell, and record n makes version n. A cell has a tint, 0 where it isn't set. A fill and a ball
  give their cells a tint, an erase and a carve give 0; a copy gives the cells of its target what stood at their place
  in the box; a stamp gives the tints of its model where these aren't 0; other cells stay. An undo and a redo have the
  cells of the version that they go to. A cell is in a ball where its squared distance from the centre is at most the
  squared radius. Without colours each tint is 1.
- The world stands at a version. An edit puts that version on the past, ends the future, and the world stands at the new
  version; an undo takes a version from the past, puts the one at which the world stood on the future, and goes there; a
  redo the other way.
- A version with a mark is forgotten from the mark's moment on. With the last `keep` versions held alone, record n marks
  version n - keep, by its own session and line, unless it has a mark.
- A store has the cells of a world without colours. With colours its side is four times the world's side N: a set cell
  is set at its place, and where bit b of its tint is 1 at that place moved by
  (2N + N (b mod 2), N (b / 2 mod 2), N (b / 4)).
- The nodes of a store are the different contents of its aligned blocks of side 4, 8, 16 and so on that have a set cell,
  of all versions that it holds. Each content has a bucket on its level by buckets.py, the bits of a leaf being x + 4y +
  16z and the octants of a node x + 2y + 4z.
"""

from collections import Counter
from collections.abc import Callable, Iterable, Iterator
from fractions import Fraction
from itertools import product
from math import floor
from typing import NamedTuple

import buckets

Cell = tuple[int, ...]
Tints = dict[Cell, int]
Act = tuple[str, tuple[int, ...]]

EDITS = ("fill", "erase", "ball", "carve", "copy", "stamp")
USUAL = (4096,) * 3 + (1024,) * 2 + (256,) * 6
NEIGHBOURS = ((1, 0, 0), (-1, 0, 0), (0, 1, 0), (0, -1, 0), (0, 0, 1), (0, 0, -1))


class Model(NamedTuple):
    size: Cell
    tints: Tints


class Record(NamedTuple):
    session: int
    line: int
    act: Act


class Mark(NamedTuple):
    at: int
    session: int
    line: int


class Position(NamedTuple):
    """The versions before and behind, the next one to go to last, and where the world stands."""
    past: tuple[int, ...]
    now: int
    future: tuple[int, ...]


# ---- places

def plus(cell: Iterable[int], by: Iterable[int]) -> Cell:
    return tuple(c + b for c, b in zip(cell, by))


def less(cell: Iterable[int], by: Iterable[int]) -> Cell:
    return tuple(c - b for c, b in zip(cell, by))


def in_box(box: tuple[int, ...], cell: Cell) -> bool:
    return all(box[i] <= cell[i] < box[i] + box[i + 3] for i in range(3))


def in_ball(ball: tuple[int, ...], cell: Cell) -> bool:
    return sum((cell[i] - ball[i]) ** 2 for i in range(3)) <= ball[3] ** 2


def cells_in(box: tuple[int, ...]) -> Iterator[Cell]:
    return product(*(range(box[i], box[i] + box[i + 3]) for i in range(3)))


def box_fits(box: tuple[int, ...], side: int) -> bool:
    return all(1 <= box[i + 3] and box[i] + box[i + 3] <= side for i in range(3))


def reach(act: Act, side: int, models: list[Model]) -> Iterator[Cell]:
    """The cells that an edit may change."""
    name, a = act
    if name in ("fill", "erase"):
        return cells_in(a)
    if name == "copy":
        return cells_in(a[6:] + a[3:6])
    if name == "stamp":
        return (plus(cell, a[1:]) for cell in models[a[0]].tints)
    low = tuple(max(0, c - a[3]) for c in a[:3])
    return cells_in(low + tuple(min(side, c + a[3] + 1) - least for c, least in zip(a[:3], low)))


def tint_after(act: Act, before: Callable[[Cell], int], models: list[Model], cell: Cell) -> int:
    """The tint of a cell after an edit."""
    name, a = act
    if name in ("fill", "erase"):
        return (a[6] if name == "fill" else 0) if in_box(a, cell) else before(cell)
    if name in ("ball", "carve"):
        return (a[4] if name == "ball" else 0) if in_ball(a, cell) else before(cell)
    if name == "copy":
        inside = in_box(a[6:] + a[3:6], cell)
        return before(plus(less(cell, a[6:]), a[:3]) if inside else cell)
    return models[a[0]].tints.get(less(cell, a[1:]), 0) or before(cell)


# ---- the records

class History:
    """A world as the list of its records, with the marks of its versions. A fill ends with its tint, and a ball too."""

    def __init__(self, side: int, models: list[Model], coloured: bool = False, keep: int = 0) -> None:
        self.side, self.coloured, self.keep = side, coloured, keep
        self.models = [m if coloured else Model(m.size, dict.fromkeys(m.tints, 1)) for m in models]
        self.records: list[Record] = []
        self.marks: dict[int, Mark] = {}
        self.positions = [Position((), 0, ())]
        self._worlds: list[Tints] = [{}]
        self._last: tuple[Act, int, Tints] = (("", ()), 0, {})

    @property
    def head(self) -> int:
        return len(self.records)

    def target(self, moment: int, name: str) -> int | None:
        """Where an undo or a redo would go."""
        place = self.positions[moment]
        ways = {"undo": place.past, "redo": place.future}.get(name, ())
        return ways[-1] if ways else None

    def is_forgotten(self, version: int, moment: int) -> bool:
        return version in self.marks and self.marks[version].at <= moment

    def allows(self, act: Act) -> bool:
        """Whether the act can be the next record."""
        name, a = act
        if name == "stamp":
            return a[0] < len(self.models) and box_fits(a[1:] + self.models[a[0]].size, self.side)
        if name not in ("undo", "redo"):
            return True
        target = self.target(self.head, name)
        return target is not None and not self.is_forgotten(target, self.head)

    def append(self, record: Record) -> None:
        past, now, future = self.positions[-1]
        target = self.target(self.head, record.act[0])
        self.records.append(record)
        if record.act[0] == "undo":
            self.positions.append(Position(past[:-1], target, future + (now,)))
        elif record.act[0] == "redo":
            self.positions.append(Position(past + (now,), target, future[:-1]))
        else:
            self.positions.append(Position(past + (now,), self.head, ()))
        if self.keep and self.head >= self.keep:
            self.marks.setdefault(self.head - self.keep, Mark(self.head, record.session, record.line))

    def tint(self, version: int, cell: Cell) -> int:
        """The tint of a cell, asked back through the records; 0 where it isn't set."""
        if version == 0:
            return 0
        act = self.records[version - 1].act
        if act[0] in ("undo", "redo"):
            return self.tint(self.positions[version].now, cell)
        return tint_after(act, lambda place: self.tint(version - 1, place), self.models, cell)

    def made(self, act: Act, version: int) -> Tints:
        """The set cells that an edit makes of a version, with their tints. What was asked last is kept."""
        if self._last[:2] != (act, version):
            before = self.world(version)
            new = dict(before)
            for cell in reach(act, self.side, self.models):
                new[cell] = tint_after(act, lambda place: before.get(place, 0), self.models, cell)
            self._last = act, version, {cell: tint for cell, tint in new.items() if tint}
        return self._last[2]

    def world(self, version: int) -> Tints:
        """The set cells of a version with their tints. What was asked once is kept."""
        while len(self._worlds) <= version:
            n = len(self._worlds)
            act = self.records[n - 1].act
            is_edit = act[0] in EDITS
            self._worlds.append(self.made(act, n - 1) if is_edit else self._worlds[self.positions[n].now])
        return self._worlds[version]

    def held(self) -> list[int]:
        return [v for v in range(self.head + 1) if v not in self.marks]

    @property
    def store_side(self) -> int:
        return 4 * self.side if self.coloured else self.side

    def planes(self) -> list[Cell]:
        """Where the planes of a tint's bits stand in the store."""
        n = self.side
        return [(2 * n + n * (b % 2), n * (b // 2 % 2), n * (b // 4)) for b in range(8)] if self.coloured else []

    def stored(self, world: Tints) -> set[Cell]:
        """The set cells of the store."""
        cells = set(world)
        for b, corner in enumerate(self.planes()):
            cells |= {plus(cell, corner) for cell, tint in world.items() if tint >> b & 1}
        return cells


# ---- questions

def faces(world: Tints, box: tuple[int, ...]) -> int:
    return sum(plus(cell, step) not in world for cell in world if in_box(box, cell) for step in NEIGHBOURS)


def bounds(world: Tints) -> tuple[int, ...] | None:
    """The least box of all set cells."""
    if not world:
        return None
    low = tuple(min(cell[i] for cell in world) for i in range(3))
    return low + tuple(max(cell[i] for cell in world) - low[i] + 1 for i in range(3))


def ray(world: Tints, side: int, start: tuple[int, ...], step: tuple[int, ...]) -> Cell | None:
    """The first set cell on a ray from the centre of a cell: at the instants at which it crosses a side, and between them."""
    middle = [c + Fraction(1, 2) for c in start]
    times = {Fraction(0)}
    for m, s in zip(middle, step):
        if s:
            times |= {t for t in ((plane - m) / s for plane in range(-1, side + 2)) if t >= 0}
    order = sorted(times)
    for t, following in zip(order, order[1:] + [order[-1] + 2]):
        for instant in (t, (t + following) / 2):
            cell = tuple(floor(m + instant * s) for m, s in zip(middle, step))
            if cell in world:
                return cell
    return None


def told(world: Tints, side: int, name: str, a: tuple[int, ...]) -> tuple:
    """The answer to a question of a world."""
    if name == "get":
        return ("set" if a in world else "clear",)
    if name == "colour":
        return "colour", world.get(a, 0)
    if name == "count":
        return "count", sum(in_box(a, cell) for cell in world)
    if name == "faces":
        return "faces", faces(world, a)
    if name == "bounds":
        return "bounds", *(bounds(world) or ("none",))
    hit = ray(world, side, a[:3], a[3:])
    return ("hit", *hit) if hit else ("miss",)


# ---- blocks

class Plan(NamedTuple):
    """The number of buckets of each level, and how many contents a bucket has room for."""
    buckets: tuple[int, ...] = USUAL
    cap: int = 128


class Blocks:
    """The different contents of the aligned blocks of worlds, each with a number, its level and its bucket."""

    def __init__(self, plan: Plan) -> None:
        self.plan = plan
        self.numbers: dict[tuple, int] = {}
        self.places: list[tuple[int, int]] = []

    def number(self, level: int, row: tuple) -> int:
        if (level, row) not in self.numbers:
            self.numbers[level, row] = len(self.places)
            below = [None if c is None else self.places[c][1] for c in row] if level else []
            words = buckets.node_words(below) if level else row
            self.places.append((level, buckets.bucket(words, self.plan.buckets[level])))
        return self.numbers[level, row]

    def of(self, cells: Iterable[Cell], side: int) -> frozenset[int]:
        """The contents of all blocks of a world that have a set cell."""
        leaves: dict[Cell, int] = {}
        for x, y, z in cells:
            place = x // 4, y // 4, z // 4
            leaves[place] = leaves.get(place, 0) | 1 << x % 4 + 4 * (y % 4) + 16 * (z % 4)
        rows = {place: (bits,) for place, bits in leaves.items()}
        found: set[int] = set()
        for level in range(side.bit_length() - 2):
            above: dict[Cell, list] = {}
            for (x, y, z), row in rows.items():
                number = self.number(level, tuple(row))
                found.add(number)
                octants = above.setdefault((x // 2, y // 2, z // 2), [None] * 8)
                octants[x % 2 + 2 * (y % 2) + 4 * (z % 2)] = number
            rows = above
        return frozenset(found)

    def too_many(self, contents: Iterable[int]) -> set[tuple[int, int]]:
        """The levels and buckets that have no room for these."""
        return {place for place, times in Counter(self.places[c] for c in contents).items() if times > self.plan.cap}


def nodes(history: History) -> list[int]:
    """How many contents the store has on each level, of the versions that are held."""
    blocks = Blocks(Plan())
    held = {c for v in history.held() for c in blocks.of(history.stored(history.world(v)), history.store_side)}
    levels = Counter(blocks.places[c][0] for c in held)
    return [levels[level] for level in range(history.store_side.bit_length() - 2)]

"""The world of the library, and a file of its versions."""

from __future__ import annotations

import ctypes as c
import threading
from typing import Any, Callable, NamedTuple, Optional, Sequence, TypeVar, Union

from .errors import BadDag, BadPlan, BadScene, TooSmall, refusal
from .library import CBox, CHandle, CPlace, CPlan, CScene, Library, load

try:
    import numpy
except ImportError:
    numpy = None  # type: ignore[assignment]

Bytes = Union[bytes, bytearray, memoryview]


class Place(NamedTuple):
    """A place, or a size, in cells."""

    x: int
    y: int
    z: int


class Box(NamedTuple):
    """A box: its least corner and its size. Six numbers of any kind of sequence do as well."""

    x: int
    y: int
    z: int
    a: int
    b: int
    c: int


class Plan(NamedTuple):
    """How a world is open: its side, how many slots its buckets have, how many versions it keeps, 0 for all, and whether
    its cells have tints."""

    side: int
    cap: int
    keep: int
    tints: bool


class Scene(NamedTuple):
    """A world that was built from a scene, and how many models stand in it."""

    world: "World"
    placements: int


# ctypes would cut a number down to the bits of its type. One that doesn't fit becomes the largest that does, which no
# world has: so the library refuses it, where its turn is among the refusals.

def _number(value: int) -> int:
    number = value.__index__()
    return number if 0 <= number < 1 << 32 else (1 << 32) - 1


def _step(value: int) -> int:
    return max(-1025, min(1025, value.__index__()))


def _place(at: Sequence[int]) -> CPlace:
    x, y, z = at
    return CPlace(_number(x), _number(y), _number(z))


def _box(part: Sequence[int]) -> CBox:
    x, y, z, a, b, d = part
    return CBox(_place((x, y, z)), _place((a, b, d)))


def _six(box: CBox) -> Box:
    return Box(box.at.x, box.at.y, box.at.z, box.size.x, box.size.y, box.size.z)


def _given(data: Bytes) -> tuple[Any, int]:
    """A pointer to bytes that are handed in, which lives as long as it does, and how many there are."""
    size = len(data) if isinstance(data, (bytes, bytearray)) else data.nbytes
    if not size:
        return None, 0
    if isinstance(data, bytes):
        return c.cast(c.c_char_p(data), c.c_void_p), size
    view = memoryview(data).cast("B")
    if view.readonly:
        return c.cast(c.c_char_p(view.tobytes()), c.c_void_p), size
    return c.cast((c.c_ubyte * size).from_buffer(view), c.c_void_p), size


def _rows(data: "bytearray | bytes", axes: Sequence[int]) -> Any:
    """Bytes as an array of so many axes where NumPy is there, and else as a memoryview of them."""
    if numpy is not None:
        return numpy.frombuffer(data, dtype=numpy.uint8).reshape(axes)
    return memoryview(data).cast("B", list(axes)) if data else memoryview(data)


_H = TypeVar("_H", bound="_Held")


class _Held:
    """What a world and a file of versions have in common: they are closed, and asked."""

    _kind = ""

    def _start(self, library: Optional[Library]) -> None:
        self._library = library or load()
        self._handle = CHandle()
        self._turn = threading.Lock()
        self._rooms: list[bytearray] = []

    def _call(self, name: str, *arguments: Any, line: Optional[c.c_uint32] = None) -> None:
        function = self._library.call(self._kind + name)
        with self._turn:
            status = function(c.byref(self._handle), *arguments)
        if status:
            told = line.value if line is not None and status in (18, 19) else None
            raise refusal(status, told)

    def __enter__(self: _H) -> _H:
        return self

    def __exit__(self, *_: object) -> None:
        self.close()

    def __del__(self) -> None:
        if getattr(self, "_handle", None) is not None and self._handle.is_open:
            self._library.call(self._kind + "close")(c.byref(self._handle))

    def close(self) -> None:
        """Gives the memory back. What is closed stays closed."""
        if self._handle.is_open:
            self._call("close")

    # ---- questions: of a version, and they change nothing

    @property
    def newest(self) -> int:
        """The number of the newest version."""
        version = c.c_uint32()
        self._call("newest", c.byref(version))
        return version.value

    def get(self, version: int, at: Sequence[int]) -> bool:
        """Whether a cell is set."""
        is_set = c.c_bool()
        self._call("get", _number(version), _place(at), c.byref(is_set))
        return is_set.value

    def count(self, version: int, box: Sequence[int]) -> int:
        """How many cells of a box are set."""
        cells = c.c_uint64()
        self._call("count", _number(version), _box(box), c.byref(cells))
        return cells.value

    def faces(self, version: int, box: Sequence[int]) -> int:
        """How many sides of a box's set cells border on an unset cell or on the outside of the world."""
        faces = c.c_uint64()
        self._call("faces", _number(version), _box(box), c.byref(faces))
        return faces.value

    def bounds(self, version: int) -> Optional[Box]:
        """The least box of all set cells, or None where there are none."""
        some, least = c.c_bool(), CBox()
        self._call("bounds", _number(version), c.byref(some), c.byref(least))
        return _six(least) if some.value else None

    def ray(self, version: int, start: Sequence[int], steps: Sequence[int]) -> Optional[Place]:
        """The first set cell on the ray from the centre of a cell, or None."""
        dx, dy, dz = (_step(step) for step in steps)
        some, hit = c.c_bool(), CPlace()
        self._call("ray", _number(version), _place(start), dx, dy, dz, c.byref(some), c.byref(hit))
        return Place(hit.x, hit.y, hit.z) if some.value else None

    def same(self, a: int, b: int) -> bool:
        """Whether two versions have the same cells, and in a world with tints the same tints."""
        is_same = c.c_bool()
        self._call("same", _number(a), _number(b), c.byref(is_same))
        return is_same.value

    def changes(self, a: int, b: int) -> Optional[Box]:
        """The least box of all cells that differ between two versions, by their tints too, or None where none do."""
        some, least = c.c_bool(), CBox()
        self._call("changes", _number(a), _number(b), c.byref(some), c.byref(least))
        return _six(least) if some.value else None

    # ---- bytes

    def _bytes(self, call: Callable[[Any, int, Any], None], unit: int = 1) -> bytes:
        """What a call writes, of so many bytes a unit. The room is kept for a later call, and grows with what is asked."""
        needed = c.c_size_t()
        room = self._rooms.pop() if self._rooms else bytearray(1 << 16)
        try:
            call((c.c_ubyte * len(room)).from_buffer(room), len(room) // unit, c.byref(needed))
        except TooSmall:
            room = bytearray(needed.value * unit)
            call((c.c_ubyte * len(room)).from_buffer(room), needed.value, c.byref(needed))
        if len(room) <= 1 << 22:
            self._rooms.append(room)
        return bytes(memoryview(room)[: needed.value * unit])

    def surface_bytes(self, version: int, box: Sequence[int]) -> bytes:
        """The set cells of a box, at most 256 each way, that have an unset neighbour or the world's outside beside them,
        by rising z, then y, then x. Each is five bytes: x, y and z from the box's corner, the tint, and which sides are
        bare, in bits 0 to 5 for -x +x -y +y -z +z."""
        number, part = _number(version), _box(box)
        return self._bytes(lambda out, room, needed: self._call("surface", number, part, out, room, needed), 5)

    def surface(self, version: int, box: Sequence[int]) -> Any:
        """The same as an array of n x 5 bytes."""
        data = self.surface_bytes(version, box)
        return _rows(data, (len(data) // 5, 5))

    def save(self, version: int, box: Sequence[int]) -> bytes:
        """The VOX file of a box, at most 256 each way."""
        number, part = _number(version), _box(box)
        return self._bytes(lambda out, size, needed: self._call("save", number, part, out, size, needed))

    def tints(self, version: int, box: Sequence[int]) -> Any:
        """The tints of a box's cells, at most 256 each way, as an array of three axes, x first: 0 where a cell is clear,
        and 1 where one is set in a world without tints."""
        file = self.save(version, box)
        a, b, d = list(box)[3:]
        cells = bytearray(a * b * d)
        # The file has one model: its header, MAIN, SIZE and then XYZI, whose number of groups stands at 56.
        groups = memoryview(file)[60:]
        if numpy is not None:
            grid = numpy.frombuffer(cells, dtype=numpy.uint8).reshape((a, b, d))
            rows = numpy.frombuffer(groups, dtype=numpy.uint8).reshape((-1, 4))
            grid[rows[:, 0], rows[:, 1], rows[:, 2]] = rows[:, 3]
            return grid
        for x, y, z, tint in zip(groups[0::4], groups[1::4], groups[2::4], groups[3::4]):
            cells[(x * b + y) * d + z] = tint
        return memoryview(cells).cast("B", [a, b, d])

    def flood(self, version: int, box: Sequence[int], start: Sequence[int]) -> tuple[int, bytes]:
        """The unset cells of a box, at most 256 each way, that steps from a cell lead to: how many, and their VOX file."""
        number, part, place, cells = _number(version), _box(box), _place(start), c.c_uint64()
        file = self._bytes(lambda out, size, needed: self._call("flood", number, part, place, c.byref(cells), out, size, needed))
        return cells.value, file


class World(_Held):
    """A voxel world with versions. Version 0 is empty, and each change that is accepted makes the next one.

    `side` is 4, 8, 16, .. 4,096, and with `tints` at most 1,024; `cap` the slots of a bucket of the store, 0 for the
    usual 128; `keep` how many versions are held, 0 for all; `models` a VOX file whose models can be stamped. Use it in a
    `with`, or call `close`. Calls of several threads take turns.
    """

    def __init__(self, side: int, *, tints: bool = False, cap: int = 0, keep: int = 0, models: Bytes = b"",
                 library: Optional[Library] = None) -> None:
        self._start(library)
        file, size = _given(models)
        if tints or keep:
            self._call("open_as", _plan(side, cap, keep, tints), file, size)
        else:
            self._call("open_with", _number(side), _number(cap), file, size)

    @classmethod
    def open_journal(cls, journal: Bytes, *, models: Bytes = b"", cap: int = 0, keep: int = 0,
                     library: Optional[Library] = None) -> "World":
        """The world of a journal: the same versions, undos, redos and forgotten versions as when it was written. Raises
        BadJournal or NotLegal with the line that doesn't fit."""
        world = cls.__new__(cls)
        world._start(library)
        (file, size), (text, length) = _given(models), _given(journal)
        line = c.c_uint32()
        world._call("open_journal", _plan(0, cap, keep, False), file, size, text, length, c.byref(line), line=line)
        return world

    @classmethod
    def open_scene(cls, file: Bytes, *, side: int = 0, tints: bool = False, cap: int = 0, keep: int = 0,
                   library: Optional[Library] = None) -> Scene:
        """The world of a VOX file's scene: its turned models, each stamped where it stands. Side 0 is the least that
        holds all. Raises BadScene with the kind and the place of what is wrong."""
        world = cls.__new__(cls)
        world._start(library)
        data, size = _given(file)
        scene = CScene()
        try:
            world._call("open_scene", _plan(side, cap, keep, tints), data, size, c.byref(scene))
        except BadScene:
            raise BadScene(scene.kind, scene.at) from None
        return Scene(world, scene.placements)

    @property
    def about(self) -> Plan:
        """How the world is open."""
        plan = CPlan()
        self._call("about", c.byref(plan))
        return Plan(plan.side, plan.cap, plan.keep, bool(plan.tints))

    # ---- changes: each answers the number of the version that it made

    def _change(self, name: str, *arguments: Any) -> int:
        change, newest = self._library.call(name), self._library.call("newest")
        version = c.c_uint32()
        with self._turn:
            status = change(c.byref(self._handle), *arguments)
            if not status:
                newest(c.byref(self._handle), c.byref(version))
        if status:
            raise refusal(status)
        return version.value

    def fill(self, box: Sequence[int], tint: Optional[int] = None) -> int:
        """Sets the cells of a box, with this tint in a world with tints."""
        if tint is None:
            return self._change("fill", _box(box))
        return self._change("fill_tint", _box(box), _number(tint))

    def erase(self, box: Sequence[int]) -> int:
        """Clears the cells of a box."""
        return self._change("erase", _box(box))

    def ball(self, centre: Sequence[int], radius: int, tint: Optional[int] = None) -> int:
        """Sets the cells at most `radius` away from the centre."""
        if tint is None:
            return self._change("ball", _place(centre), _number(radius))
        return self._change("ball_tint", _place(centre), _number(radius), _number(tint))

    def carve(self, centre: Sequence[int], radius: int) -> int:
        """Clears the cells at most `radius` away from the centre."""
        return self._change("carve", _place(centre), _number(radius))

    def copy(self, box: Sequence[int], to: Sequence[int]) -> int:
        """Puts the cells of a box where its least corner goes to `to`."""
        return self._change("copy", _box(box), _place(to))

    def stamp(self, model: int, at: Sequence[int]) -> int:
        """Sets the cells of a model with its least corner at `at`; with tints they get its colours."""
        return self._change("stamp", _number(model), _place(at))

    def undo(self) -> int:
        """Back to the version before the last change that isn't undone."""
        return self._change("undo")

    def redo(self) -> int:
        """Forth again."""
        return self._change("redo")

    def forget(self, version: int) -> None:
        """Gives a version up: it can't be asked or gone back to."""
        self._call("forget", _number(version))

    # ---- more questions

    def model_size(self, model: int) -> Place:
        """The size of a model, counted from 0 in its file."""
        size = CPlace()
        self._call("model_size", _number(model), c.byref(size))
        return Place(size.x, size.y, size.z)

    def colour(self, version: int, at: Sequence[int]) -> int:
        """The tint of a cell, 0 where it is clear."""
        tint = c.c_uint8()
        self._call("colour", _number(version), _place(at), c.byref(tint))
        return tint.value

    # ---- bytes

    def journal(self) -> bytes:
        """The text of the journal."""
        return self._bytes(lambda out, size, needed: self._call("journal", out, size, needed))

    def dag(self) -> bytes:
        """The file of the versions that are held."""
        return self._bytes(lambda out, size, needed: self._call("dag", out, size, needed))


class Versions(_Held):
    """A file of versions, which is only asked: each version has the number that it had in its world, and those that were
    forgotten aren't there. Of a world with tints it has the store, of four times the side. Raises BadDag with the place
    of the first fault. Use it in a `with`, or call `close`."""

    _kind = "versions_"

    def __init__(self, file: Bytes, *, library: Optional[Library] = None) -> None:
        self._start(library)
        data, size = _given(file)
        at = c.c_uint64()
        try:
            self._call("open", data, size, c.byref(at))
        except BadDag:
            raise BadDag(at.value) from None

    @property
    def side(self) -> int:
        """The side of the file's worlds."""
        side = c.c_uint32()
        self._call("side", c.byref(side))
        return side.value


def _plan(side: int, cap: int, keep: int, tints: bool) -> Any:
    if not 0 <= keep < 1 << 32:
        raise BadPlan()
    return c.byref(CPlan(_number(side), _number(cap), _number(keep), int(tints)))

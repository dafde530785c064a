"""What a page has by the parts that it is sent, beside what can be seen of the slow world: by the slow world itself and by
the library, with tints and without."""

from __future__ import annotations

import asyncio
import base64
from pathlib import Path
from random import Random
from types import SimpleNamespace
from typing import Any

import voxdag
from boxes import grown, size_of
from logs import About, FileLog
from messages import EDITS, Edit, Refusal
from room import Room, perform
from voxdag import slow

from trial.started import MODELS, told

SIDE = 32
ROWS = 40
Seen = dict[tuple[int, ...], tuple[int, int]]


def edit_by_chance(rng: Random, models: list[Any], tints: bool) -> Edit:
    """An edit that lies in the world."""
    name = rng.choice(EDITS)
    at = [rng.randrange(SIDE) for _ in range(3)]
    size = [rng.randrange(1, min(9, SIDE - n) + 1) for n in at]
    if name in ("fill", "erase"):
        numbers = at + size
    elif name in ("ball", "carve"):
        numbers = at + [rng.randrange(6)]
    elif name == "copy":
        numbers = at + size + [rng.randrange(SIDE - n + 1) for n in size]
    elif name == "stamp":
        model = rng.randrange(len(models))
        numbers = [model, *(rng.randrange(SIDE - n + 1) for n in models[model])]
    else:
        numbers = []
    tint = [rng.randrange(1, 256)] if tints and name in ("fill", "ball") else []
    return Edit(name, (*numbers, *tint), None, None)


def truth(beside: slow.World, room: Room, version: int) -> Seen:
    """What can be seen of a version, in a slow world that follows the room's."""
    for record in room.records[beside.newest:]:
        perform(beside, record.act)
    data = beside.surface_bytes(version, (0, 0, 0, SIDE, SIDE, SIDE))
    return {tuple(data[at:at + 3]): (data[at + 3], data[at + 4]) for at in range(0, len(data), 5)}


def put(shown: Seen, parts: list[dict[str, Any]]) -> Seen:
    """What a page shows once it has these parts."""
    shown = dict(shown)
    for part in parts:
        box, cells = part["box"], base64.b64decode(part["cells"])
        for cell in [cell for cell in shown if all(box[i] <= cell[i] < box[i] + box[i + 3] for i in range(3))]:
            del shown[cell]
        for at in range(0, len(cells), 5):
            shown[tuple(box[i] + cells[at + i] for i in range(3))] = (cells[at + 3], cells[at + 4])
    return shown


def most_sent(beside: slow.World, first: int) -> int:
    """How many cells the parts of a row of edits have at most: those of the least boxes that changed, with neighbours."""
    if beside.same(first, beside.newest):
        return 0
    boxes = [beside.changes(n, n + 1) for n in range(first, beside.newest)]
    return sum(size_of(grown(box, SIDE)) for box in boxes if box)


async def made(room: Room, edit: Edit) -> None:
    """Makes an edit, or is refused it."""
    done: asyncio.Future[int | Refusal] = asyncio.get_running_loop().create_future()
    room.want(edit, SimpleNamespace(name="somebody", waiting=0), done.set_result)
    await done


async def wrong_parts(log: Path, make: Any, tints: bool) -> list[str]:
    """Where the parts of rows of edits, or those between two versions, don't make what can be seen."""
    rng, wrong, shown, models = Random(9), [], {}, MODELS.read_bytes()
    room, beside = Room(FileLog(log), make), slow.World(SIDE, tints=tints, models=models)
    await room.open(About(SIDE, tints, 0), models)
    try:
        for _ in range(ROWS):
            first = room.head
            for _ in range(rng.randrange(1, 4)):
                await made(room, edit_by_chance(rng, room.models, tints))
            parts = room.changed(first, room.head)
            shown, seen = put(shown, parts), truth(beside, room, room.head)
            if shown != seen:
                wrong.append(f"from {first} to {room.head}")
            if sum(size_of(part["box"]) for part in parts) > most_sent(beside, first):
                wrong.append(f"more than changed from {first} to {room.head}")
            shown = seen
        for _ in range(ROWS):
            a, b = [rng.choice([0, rng.randrange(room.head + 1)]) for _ in range(2)]
            parts = [room.cells_of(b, part) for part in room.parts_between(a, b)]
            if put(truth(beside, room, a), parts) != truth(beside, room, b):
                wrong.append(f"shown from {a} to {b}")
    finally:
        await room.close()
    return wrong


def cells(work: Path) -> None:
    kinds = [("the slow world", slow.World, True), ("the slow world without tints", slow.World, False)]
    try:
        voxdag.load()
        kinds += [("the library", voxdag.World, True), ("the library without tints", voxdag.World, False)]
    except OSError:
        print("passed over: what a page has by the library, since there is none", flush=True)
    for n, (kind, make, tints) in enumerate(kinds):
        wrong = asyncio.run(wrong_parts(work / f"cells-{n}.world", make, tints))
        told(f"a page has what can be seen and is sent what changed, in {ROWS} rows of edits and from version to version, by {kind}", not wrong, wrong)

"""One world, the people in it and its log: an edit is put into the log, then into the world, and then people are told.

The log decides which record comes next; the world follows it, and so do the worlds of other servers. One task carries
out edits, in rows of what came meanwhile, so that the log is written once a row. Questions are answered between two
rows, from a world that has only what the log has.
"""

from __future__ import annotations

import asyncio
import base64
import secrets
import struct
from collections import deque
from typing import Any, Callable, NamedTuple, Optional

import voxdag
from boxes import Box, common, few, grown, parts_of
from logs import About, Log, LogDown, Opened, Record
from messages import Edit, Question, Refusal, of_library, text_of

MOST_RECORDS = 65535
MOST_WAITING = 64   # edits of one person that aren't answered yet
TELL_SECONDS = 0.04
POINT_SECONDS = 0.15
MOST_ASKED = 5000   # questions that are kept for the transcript

class Trail(NamedTuple):
    """Where undos and redos lead, as the log's records tell it. A row is its last version and the row before that."""

    past: Any = None
    now: int = 0
    future: Any = None

    def after(self, act: str, version: int) -> "Trail":
        """The trail behind a record that makes this version."""
        if act == "undo":
            return Trail(self.past[1], self.past[0], (self.now, self.future))
        if act == "redo":
            return Trail((self.now, self.past), self.future[0], self.future[1])
        return Trail((self.now, self.past), version, None)

    def refuses(self, act: str) -> Optional[Refusal]:
        if act == "undo" and self.past is None:
            return Refusal("nothing_to_undo", "no change is left to undo")
        if act == "redo" and self.future is None:
            return Refusal("nothing_to_redo", "no undo is left to take back")
        return None


def perform(world: Any, act: str) -> int:
    """Carries out a record's act, and gives the version that it made."""
    name, *words = act.split(" ")
    n = [int(word) for word in words if word != "to"]
    calls: dict[str, Callable[[], int]] = {
        "fill": lambda: world.fill(n[:6], *n[6:]),
        "erase": lambda: world.erase(n),
        "ball": lambda: world.ball(n[:3], *n[3:]),
        "carve": lambda: world.carve(n[:3], n[3]),
        "copy": lambda: world.copy(n[:6], n[6:]),
        "stamp": lambda: world.stamp(n[0], n[1:]),
        "undo": world.undo,
        "redo": world.redo,
    }
    return calls[name]()


def journal_of(about: About, acts: list[str]) -> bytes:
    """The journal of a world whose records are all of session 0, each with its number as its line."""
    lines = [f"voxdag journal {1 + about.tints}", f"side {about.side}", *(f"{n} 0 {n} {act}" for n, act in enumerate(acts, 1)), "end"]
    return "".join(line + "\n" for line in lines).encode()


# ---- VOX files

def chunks_of(file: bytes) -> list[tuple[bytes, bytes]]:
    """The children of MAIN that a VOX file has, each with its name: the library has read it before."""
    own, below = struct.unpack_from("<2I", file, 12)
    at, found = 20 + own, []
    while at < 20 + own + below:
        size, more = struct.unpack_from("<2I", file, at + 4)
        found.append((file[at:at + 4], file[at + 12:at + 12 + size]))
        at += 12 + size + more
    return found


def joined(files: list[bytes]) -> bytes:
    """One VOX file of the models of all, in order."""
    if not any(files):
        return b""
    body = b"".join(
        name + struct.pack("<2I", len(content), 0) + content
        for file in files if file for name, content in chunks_of(file) if name in (b"SIZE", b"XYZI"))
    return b"VOX " + struct.pack("<I", 150) + b"MAIN" + struct.pack("<2I", 0, len(body)) + body


def palette_of(files: list[bytes]) -> list[int]:
    """The colours of tints 1 to 255 as numbers 0xRRGGBB: those of the first file that brings some, else the usual ones."""
    for file in filter(None, files):
        for name, content in chunks_of(file):
            if name == b"RGBA" and len(content) >= 1020:
                return [r << 16 | g << 8 | b for r, g, b, _ in struct.iter_unpack("<4B", content[:1020])]
    steps = (0xFF, 0xCC, 0x99, 0x66, 0x33, 0)
    ramp = (0xEE, 0xDD, 0xBB, 0xAA, 0x88, 0x77, 0x55, 0x44, 0x22, 0x11)
    cube = [r << 16 | g << 8 | b for r in steps for g in steps for b in steps][:-1]
    return cube + [n << 16 for n in ramp] + [n << 8 for n in ramp] + [*ramp] + [n * 0x10101 for n in ramp]


# ---- the room

class Waiting(NamedTuple):
    """An edit that waits for its turn, whose it is, and what takes its outcome: a version or a refusal."""

    edit: Edit
    person: Any
    told: Callable[["int | Refusal"], None]


class Room:
    """A world that people share."""

    def __init__(self, log: Log, make: Any) -> None:
        self._log, self._make = log, make
        self._waiting: deque[Waiting] = deque()
        self._wake = asyncio.Event()
        self._news = asyncio.Event()
        self._moved = asyncio.Event()
        self._came = 0
        self._is_unsure = False
        self._tasks: list[asyncio.Task[None]] = []
        self.people: dict[int, Any] = {}
        self._next = 0
        self.keys: dict[str, int] = {}
        self.records: list[Record] = []
        self.asked: deque[tuple[Question, str]] = deque(maxlen=MOST_ASKED)
        self.trail = Trail()
        self._shown = 0
        self.lost = 0
        self.fault: asyncio.Future[None] = asyncio.get_running_loop().create_future()

    async def open(self, about: About, file: bytes) -> None:
        """Goes on from the log, or begins it."""
        opened = await self._open_log(about, file)
        self.about, self.files = opened.about, opened.files
        self._open_world([record.act for record in opened.records])
        for record in opened.records:
            self._note(record)
        self._shown = self.head
        self._tasks = [asyncio.create_task(task) for task in (self._work(), self._tell(), self._point(), self._log.follow(self._hear))]
        for task in self._tasks:
            task.add_done_callback(self._end)

    async def _open_log(self, about: About, file: bytes) -> Opened:
        """The log, once it can be reached."""
        told = ""
        while True:
            try:
                return await self._log.open(about, file)
            except LogDown as down:
                if told != str(down):
                    print(f"waiting for the log: {down}", flush=True)
                told = str(down)
                await asyncio.sleep(1)

    def _end(self, task: "asyncio.Task[None]") -> None:
        """A fault of a task is one of the server, which ends: it goes on from its log when it is started again."""
        if not task.cancelled() and task.exception() is not None and not self.fault.done():
            self.fault.set_exception(task.exception())

    def _open_world(self, acts: list[str]) -> None:
        self.file = joined(self.files)
        self.world = self._make.open_journal(journal_of(self.about, acts), models=self.file, cap=self.about.cap)
        self.palette = palette_of(self.files)
        self.models = []
        try:
            while len(self.models) < 1024:
                self.models.append(self.world.model_size(len(self.models)))
        except voxdag.NoModel:
            pass

    async def close(self) -> None:
        for task in self._tasks:
            task.cancel()
        await asyncio.gather(*self._tasks, return_exceptions=True)
        await self._log.close()
        self.world.close()

    @property
    def head(self) -> int:
        """The newest version."""
        return len(self.records)

    def _note(self, record: Record) -> None:
        """A record that the world has."""
        self.records.append(record)
        self.keys.setdefault(record.key, self.head)
        self.trail = self.trail.after(record.act.split(" ", 1)[0], self.head)

    # ---- edits

    def want(self, edit: Edit, person: Any, told: Callable[["int | Refusal"], None]) -> None:
        """Puts an edit behind those that wait."""
        if person.waiting >= MOST_WAITING:
            raise Refusal("too_fast", f"{MOST_WAITING} of your edits aren't answered yet")
        person.waiting += 1
        self._waiting.append(Waiting(edit, person, told))
        self._wake.set()

    def _hear(self, number: int) -> None:
        """Another server put a record, or may have."""
        if number == 0 or number > self.head:
            self._came = max(self._came, number)
            self._is_unsure |= number == 0
            self._wake.set()

    async def _work(self) -> None:
        while True:
            await self._wake.wait()
            self._wake.clear()
            try:
                if self._is_unsure or self._came > self.head:
                    await self._catch_up()
            except LogDown as down:
                self._is_unsure = True
                self._refuse_all(down)
                asyncio.get_running_loop().call_later(1, self._wake.set)
            while self._waiting:
                row = [self._waiting.popleft() for _ in range(min(self._log.most_in_a_row, len(self._waiting)))]
                await self._carry_out(row)

    def _refuse_all(self, down: LogDown) -> None:
        while self._waiting:
            self._answer(self._waiting.popleft(), down_refusal(down))

    def _answer(self, one: Waiting, outcome: "int | Refusal") -> None:
        one.person.waiting -= 1
        one.told(outcome)

    async def _carry_out(self, row: list[Waiting]) -> None:
        """Puts a row of edits into the log and then into the world, as often as another server is faster."""
        while row:
            outcomes, planned = self._plan(row)
            if planned:
                try:
                    is_mine = not self._is_unsure and await self._log.append(self.head + 1, [record for _, record in planned])
                except LogDown as down:
                    self._is_unsure = True
                    outcomes += [(one, down_refusal(down)) for one, _ in planned]
                    planned, is_mine = [], True
                if not is_mine:
                    try:
                        self.lost += not self._is_unsure
                        await self._catch_up()
                        continue
                    except LogDown as down:
                        self._is_unsure = True
                        outcomes += [(one, down_refusal(down)) for one, _ in planned]
                        planned = []
            row = await self._put_in(planned, outcomes)
            for one, outcome in outcomes:
                self._answer(one, outcome)

    def _plan(self, row: list[Waiting]) -> tuple[list[tuple[Waiting, "int | Refusal"]], list[tuple[Waiting, Record]]]:
        """What is answered as it stands, and the records of the others."""
        outcomes: list[tuple[Waiting, int | Refusal]] = []
        planned: list[tuple[Waiting, Record]] = []
        keys: set[str] = set()
        trail = self.trail
        for one in row:
            key = one.edit.key or secrets.token_hex(12)
            version = self.head + len(planned)
            if key in self.keys:
                outcomes.append((one, self.keys[key]))
            elif key in keys:
                outcomes.append((one, Refusal("too_fast", "an edit with this key is being made")))
            elif one.edit.once is not None and one.edit.once != version:
                outcomes.append((one, Refusal("stale", f"the newest version is no longer {one.edit.once}")))
            elif version == MOST_RECORDS:
                outcomes.append((one, of_library(voxdag.HistoryFull())))
            elif refusal := trail.refuses(one.edit.name):
                outcomes.append((one, refusal))
            else:
                planned.append((one, Record(one.edit.text, one.person.name, key)))
                keys.add(key)
                trail = trail.after(one.edit.name, version + 1)
        return outcomes, planned

    async def _put_in(self, planned: list[tuple[Waiting, Record]], outcomes: list[tuple[Waiting, "int | Refusal"]]) -> list[Waiting]:
        """Carries out records that the log has. Where the world refuses one, it and those behind it go out of the log, and
        the edits behind it are given back."""
        for at, (one, record) in enumerate(planned):
            refusal = self._perform(record)
            if refusal is None:
                outcomes.append((one, self.head))
                continue
            outcomes.append((one, refusal))
            try:
                await self._log.remove(self.head + 1, [record for _, record in planned[at:]])
            except LogDown:
                self._is_unsure = True
            return [one for one, _ in planned[at + 1:]]
        return []

    def _perform(self, record: Record) -> Optional[Refusal]:
        """Puts a record of the log into the world, or says why the world refuses it. Want of memory is this machine's alone,
        and no refusal."""
        try:
            perform(self.world, record.act)
        except voxdag.NoMemory:
            raise
        except voxdag.Refused as refused:
            return of_library(refused)
        self._note(record)
        self._news.set()
        return None

    async def _catch_up(self) -> None:
        """Puts into the world what the log has beyond it."""
        came = await self._log.since(self.head + 1)
        for at, record in enumerate(came):
            if record.act.startswith("stamp ") and int(record.act.split(" ")[1]) >= len(self.models):
                await self.find_files()
            if self._perform(record) is not None:
                await self._log.remove(self.head + 1, came[at:])
                break
        self._is_unsure = False
        self._came = self.head

    # ---- models

    async def find_files(self) -> None:
        """Takes the VOX files that came into the log: the world is opened anew with their models behind the others."""
        files = await self._log.files_since(len(self.files))
        if files:
            self.files += files
            self.world.close()
            self._open_world([record.act for record in self.records])
            self.say_all({"say": "models", **self.models_told()})

    def models_told(self) -> dict[str, Any]:
        return {"models": [[*size] for size in self.models], "palette": self.palette}

    async def load(self, file: bytes) -> dict[str, Any]:
        """Puts a VOX file's models behind those that are there, and says which they are."""
        try:
            self._make(4, models=joined([*self.files, _read(self._make, file)])).close()
        except voxdag.Refused as refused:
            raise of_library(refused) from None
        try:
            while not await self._log.add_file(len(self.files), file):
                await self.find_files()
            first = len(self.models)
            await self.find_files()
        except LogDown as down:
            raise down_refusal(down) from None
        return {"first": first, "models": len(self.models) - first}

    # ---- questions

    def answer(self, question: Question) -> dict[str, Any]:
        """The answer to a question, as a field of the answer's name."""
        name, n, version = question.name, question.numbers, question.version
        if name == "record":
            if version == 0:
                raise Refusal("no_version", "no record makes version 0")
            return {"version": version, "act": self.records[version - 1].act, "by": self.records[version - 1].by}
        try:
            told, words = self._ask(name, n, version)
        except voxdag.Refused as refused:
            raise of_library(refused) from None
        if words:
            self.asked.append((question, words))
        return {"version": version, name: told}

    def _ask(self, name: str, n: tuple[int, ...], version: int) -> tuple[Any, str]:
        """What is told, and the words of a transcript."""
        world = self.world
        if name == "get":
            is_set = world.get(version, n)
            return is_set, "set" if is_set else "clear"
        if name == "colour":
            tint = world.colour(version, n)
            return tint, f"colour {tint}"
        if name in ("count", "faces"):
            number = getattr(world, name)(version, n)
            return number, f"{name} {number}"
        if name == "same":
            is_same = world.same(*n)
            return is_same, "same" if is_same else "different"
        if name == "ray":
            hit = world.ray(version, n[:3], n[3:])
            return hit and [*hit], "hit " + " ".join(map(str, hit)) if hit else "miss"
        box = world.bounds(version) if name == "bounds" else world.changes(*n)
        words = "bounds " + (" ".join(map(str, box)) if box else "none")
        return box and [*box], words if name == "bounds" else ""

    def script(self) -> tuple[str, str]:
        """All that was accepted and asked as one script, and its transcript. What was refused has no line there, and
        questions stand behind the changes, each of the version that it was asked of."""
        acts = [record.act for record in self.records]
        asked = [*self.asked]
        lines = [*acts, *(question.line for question, _ in asked)]
        answers = [f"{n} @{n} ok" for n in range(1, len(acts) + 1)]
        answers += [f"{n} @{len(acts)} {words}" for n, (_, words) in enumerate(asked, len(acts) + 1)]
        return "".join(line + "\n" for line in lines), "".join(line + "\n" for line in answers)

    # ---- what is shown

    def cells_of(self, version: int, part: Box) -> dict[str, Any]:
        try:
            cells = self.world.surface_bytes(version, part)
        except voxdag.Refused as refused:
            raise of_library(refused) from None
        return {"box": part, "cells": base64.b64encode(cells).decode()}

    def parts_between(self, first: int, version: int) -> list[Box]:
        """The parts whose cells can look different in two versions."""
        try:
            box = self.world.changes(first, version)
        except voxdag.Refused as refused:
            raise of_library(refused) from None
        return parts_of(grown(box, self.about.side)) if box else []

    async def _tell(self) -> None:
        """Tells everybody what changed since this was told last, a few times a second."""
        while True:
            await self._news.wait()
            self._news.clear()
            first, version = self._shown, self.head
            if version > first:
                self._shown = version
                by = [[n + 1, self.records[n].by, self.records[n].act] for n in range(max(first, version - 20), version)]
                self.say_all({"say": "changed", "from": first, "version": version, "by": by, "parts": self.changed(first, version)})
            await asyncio.sleep(TELL_SECONDS)

    def changed(self, first: int, version: int) -> list[dict[str, Any]]:
        """The cells of the places that changed, record by record: people who build far apart have no box that is between
        them."""
        all_of_it = self.world.changes(first, version)
        each = [self.world.changes(n, n + 1) for n in range(first, version)] if all_of_it else []
        changed = [common(box, all_of_it) for box in each if box]
        boxes = few([grown(box, self.about.side) for box in changed if box])
        return [self.cells_of(version, part) for box in boxes for part in parts_of(box)]

    # ---- people

    def enter(self, person: Any) -> None:
        self._next += 1
        person.number = self._next
        self.people[person.number] = person
        self._moved.set()

    def leave(self, person: Any) -> None:
        if self.people.pop(person.number, None):
            self._moved.set()

    def move(self) -> None:
        self._moved.set()

    def people_told(self) -> list[dict[str, Any]]:
        return [{"number": p.number, "name": p.name, "at": p.at, "version": p.version} for p in self.people.values()]

    async def _point(self) -> None:
        while True:
            await self._moved.wait()
            self._moved.clear()
            self.say_all({"say": "people", "people": self.people_told()})
            await asyncio.sleep(POINT_SECONDS)

    def say_all(self, message: dict[str, Any]) -> None:
        """Hands a message to everybody; whoever doesn't read is let go."""
        text = text_of(message)
        for person in list(self.people.values()):
            person.say(text)


def down_refusal(down: LogDown) -> Refusal:
    return Refusal("log_down", f"the log can't be reached: {down}"[:200])


def _read(make: Any, file: bytes) -> bytes:
    """The file, if it is one that the library reads and that has models."""
    try:
        with make(4, models=file) as world:
            world.model_size(0)
    except voxdag.NoModel:
        raise Refusal("bad_file", "the file has no models") from None
    except voxdag.Refused as refused:
        raise of_library(refused) from None
    return file

"""The answers of one script that runs alone, over the world of model.py.

A command is answered at the moment that is the number of records, and an accepted change becomes the next one. The
first refusal that is so decides: of an edit, that a bucket has no room; of an undo or redo, that there is nowhere to
go, or that the version there is forgotten; of `forget`, no version, `is head`, forgotten; of a question and of `same`,
for its versions in turn, no version, forgotten.

A bucket has to have room for the different contents of all versions that are held or that a save waits for, and of what
the edit makes. Copies with colours are made plane by plane, the set cells first and then the bits from the lowest, and
each step needs room beside the step before.
"""

from model import Act, Blocks, Cell, History, Mark, Plan, Record, in_box, plus, told
from texts import Answered, Command, saved


def stages(history: History, act: Act, version: int) -> list[set[Cell]]:
    """The set cells of the store behind each part of an edit with colours, plane by plane. A stamp first clears its model's cells
    in each plane of bits."""
    cells, final = history.stored(history.world(version)), history.stored(history.made(act, version))
    found = []
    for corner in [(0, 0, 0), *history.planes()]:
        if act[0] == "stamp" and any(corner):
            model = history.models[act[1][0]].tints
            cells = cells - {plus(plus(cell, act[1][1:]), corner) for cell in model}
            found.append(cells)
        plane = corner + (history.side,) * 3
        cells = {c for c in cells if not in_box(plane, c)} | {c for c in final if in_box(plane, c)}
        found.append(cells)
    return found


class Script:
    """One script that runs alone."""

    def __init__(self, history: History, plan: Plan, session: int = 0) -> None:
        self.history, self.session = history, session
        self.blocks = Blocks(plan)
        self.contents: dict[int, frozenset[int]] = {}
        self.pinned: set[int] = set()
        self.files: dict[str, bytes] = {}

    def contents_of(self, version: int) -> frozenset[int]:
        h = self.history
        if version not in self.contents:
            self.contents[version] = self.blocks.of(h.stored(h.world(version)), h.store_side)
        return self.contents[version]

    def steps(self, act: Act) -> list[frozenset[int]]:
        """The contents of the store at each step of an edit."""
        h = self.history
        if act[0] != "copy" or not h.coloured:
            return [self.blocks.of(h.stored(h.made(act, h.head)), h.store_side)]
        steps = [self.blocks.of(cells, h.store_side) for cells in stages(h, act, h.head)]
        return [before | behind for before, behind in zip([frozenset(), *steps], steps)]

    def no_room(self, act: Act) -> set[tuple[int, int]]:
        """The levels and buckets that have no room for an edit."""
        alive = frozenset().union(*map(self.contents_of, {*self.history.held(), *self.pinned}))
        for step in self.steps(act):
            if full := self.blocks.too_many(alive | step):
                return full
        return set()

    def change(self, c: Command, given: tuple) -> tuple:
        """The answer to an edit, undo or redo; of the buckets that have no room the one that the program tells."""
        h, act = self.history, c.act()
        if c.name in ("undo", "redo"):
            target = h.target(h.head, c.name)
            if target is None:
                return (f"nothing to {c.name}",)
            if h.is_forgotten(target, h.head):
                return "forgotten", target
        elif full := self.no_room(act):
            return given if given[0] == "full" and given[1:] in full else ("full", *min(full))
        h.append(Record(self.session, c.line, act))
        return ("ok",)

    def lacks(self, version: int) -> tuple | None:
        if version > self.history.head:
            return "no version", version
        return ("forgotten", version) if version in self.history.marks else None

    def forget(self, c: Command) -> tuple:
        h, version = self.history, c.numbers[0]
        if version == h.head:
            return ("is head",)
        lacks = self.lacks(version)
        if not lacks:
            h.marks[version] = Mark(h.head, self.session, c.line)
        return lacks or ("forgot", version)

    def same(self, c: Command) -> tuple:
        first, second = map(self.history.world, (v if v <= self.history.head else 0 for v in c.numbers))
        return self.lacks(c.numbers[0]) or self.lacks(c.numbers[1]) or ("same" if first == second else "different",)

    def question(self, c: Command) -> tuple:
        version = self.history.head if c.version is None else c.version
        if lacks := self.lacks(version):
            return lacks
        world = self.history.world(version)
        if c.name != "save":
            return told(world, self.history.side, c.name, c.numbers)
        self.pinned.add(version)
        self.files[c.file] = saved(world, c.numbers)
        return "saved", sum(in_box(c.numbers, cell) for cell in world)

    def answer(self, c: Command, given: tuple = ("",)) -> Answered:
        if c.is_act():
            answer = self.change(c, given)
        elif c.name in ("forget", "same"):
            answer = self.forget(c) if c.name == "forget" else self.same(c)
        else:
            answer = ("head",) if c.name == "head" else self.question(c)
        return Answered(c.line, self.history.head, answer)

    def run(self, commands: list[Command], given: list[Answered] = ()) -> list[Answered]:
        """The answers to all commands, the program's beside them."""
        answers = [a.answer for a in given] + [("",)] * len(commands)
        return [self.answer(c, answer) for c, answer in zip(commands, answers)]

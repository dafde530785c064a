"""Whether a history agrees with scripts and their transcripts, from these rules alone.

- Each command has one line, in order. Moments never fall; an `ok` is later than all before it, and what made a `try`
  stale is no earlier than all before it.
- `ok` at moment n is record n, of this session, line and act; `forgot v` is the mark of v at this moment, session and
  line. The records and marks are just those of these lines, each once, and, where the last `keep` versions alone are
  held, the marks of the others that no line names, each by the session and line of the record that pushed it out.
- An answer of a version comes where the version is no later than the moment, with no mark before the moment or by an
  earlier line of its own session; it is that of the plain cells. `forgotten v` comes where v, named or gone back to,
  has a mark at the moment or before it that isn't by this line or a later one of this session.
- `stale b` comes of a `try` alone, b below the moment; `full l b` of an edit alone, for a level and bucket of the
  store.
"""

from model import EDITS, History, Mark, Record, in_box, told
from texts import Answered, Command, Journal


def history_of(journal: Journal, models: list, keep: int = 0) -> tuple[History, int | None]:
    """The history of a journal up to its first record that isn't legal, and the number of that."""
    history = History(journal.side, models, journal.coloured)
    for record in journal.records:
        history.marks = {v: mark for v, mark in journal.marks.items() if mark.at <= history.head}
        if not history.allows(record.act):
            return history, history.head + 1
        history.append(record)
    history.marks, history.keep = dict(journal.marks), keep
    return history, None


class Line:
    """One line of a transcript beside its command."""

    def __init__(self, history: History, buckets: tuple[int, ...], session: int, c: Command, a: Answered) -> None:
        self.history, self.buckets, self.session, self.c = history, buckets, session, c
        self.moment, self.answer = a.moment, a.answer

    def is_own(self, mark: Mark) -> bool:
        return mark.session == self.session

    def readable(self, version: int) -> bool:
        mark = self.history.marks.get(version)
        lost = mark and (mark.at < self.moment or self.is_own(mark) and mark.line < self.c.line)
        return version <= self.moment and not lost

    def may_be_forgotten(self, version: int) -> bool:
        mark = self.history.marks.get(version)
        return mark is not None and mark.at <= self.moment and not (self.is_own(mark) and mark.line >= self.c.line)

    def named(self) -> list[int]:
        """The versions that are looked at, in turn."""
        if self.c.name == "same":
            first, second = self.c.numbers
            return [first, second] if self.readable(first) else [first]
        if self.c.name == "forget":
            return [self.c.numbers[0]]
        return [] if self.c.version is None else [self.c.version]

    def fits(self) -> bool:
        kind, c, h = self.answer[0], self.c, self.history
        if self.moment > h.head:
            return False
        if kind == "no version":
            return self.answer[1] in self.named() and self.answer[1] > self.moment
        if kind == "forgotten":
            looked = self.named() + ([h.target(self.moment, c.name)] if c.is_act() else [])
            return self.answer[1] in looked and self.may_be_forgotten(self.answer[1])
        if c.is_act():
            return self.act_fits(kind)
        if c.name == "forget":
            mark = Mark(self.moment, self.session, c.line)
            forgot = self.answer == ("forgot", c.numbers[0]) and h.marks.get(c.numbers[0]) == mark
            return forgot or (kind == "is head" and c.numbers[0] == self.moment)
        return kind == "head" if c.name == "head" else self.answer == self.value()

    def act_fits(self, kind: str) -> bool:
        h, c, moment = self.history, self.c, self.moment
        if kind == "ok":
            return moment >= 1 and h.records[moment - 1] == Record(self.session, c.line, c.act())
        if kind == "log full":
            return moment == 65535
        if kind == "stale":
            return c.once and self.answer[1] < moment < 65535
        if kind == "full":
            level, bucket = self.answer[1:]
            return c.name in EDITS and level < h.store_side.bit_length() - 2 and bucket < self.buckets[level]
        return kind == f"nothing to {c.name}" and h.target(moment, c.name) is None

    def value(self) -> tuple | None:
        """The answer to a question, none where a version can't be read."""
        h, c = self.history, self.c
        versions = c.numbers if c.name == "same" else (self.moment if c.version is None else c.version,)
        if not all(map(self.readable, versions)):
            return None
        if c.name == "same":
            return ("same",) if h.world(c.numbers[0]) == h.world(c.numbers[1]) else ("different",)
        world = h.world(versions[0])
        if c.name == "save":
            return "saved", sum(in_box(c.numbers, cell) for cell in world)
        return told(world, h.side, c.name, c.numbers)


def in_order(lines: list[Answered]) -> bool:
    seen = -1
    for a in lines:
        fresh = a.answer[1] if a.answer[0] == "stale" else a.moment - (a.answer[0] == "ok")
        if a.moment < seen or fresh < seen:
            return False
        seen = a.moment
    return True


def fallen(history: History) -> dict[int, Mark]:
    """The marks of the versions that fell out of the last ones."""
    k = history.keep
    return {n - k: Mark(n, *history.records[n - 1][:2]) for n in range(k, history.head + 1)} if k else {}


def agrees(history: History, scripts: list[list[Command]], read: list[list[Answered]], buckets: tuple[int, ...]) -> str | None:
    """What doesn't agree, or nothing. The history is legal."""
    out = fallen(history)
    if any(v not in history.marks or history.marks[v].at > mark.at for v, mark in out.items()):
        return "a version that fell out has no mark in time"
    records, marks = [], {}
    for session, (script, lines) in enumerate(zip(scripts, read)):
        if [c.line for c in script] != [a.line for a in lines]:
            return f"script {session} has other lines than its transcript"
        if not in_order(lines):
            return f"transcript {session} has moments in no order"
        for c, a in zip(script, lines):
            if not Line(history, buckets, session, c, a).fits():
                return f"transcript {session} line {a.line}: {a.answer} doesn't fit at {a.moment}"
            if a.answer[0] == "ok":
                records.append(Record(session, c.line, c.act()))
            if a.answer[0] == "forgot":
                marks[a.answer[1]] = Mark(a.moment, session, c.line)
    if sorted(records) != sorted(history.records) or {**out, **marks} != history.marks:
        return "the records and marks aren't those of the transcripts"
    return None

"""Why a call was refused: a class for each status of voxdag.h."""

from __future__ import annotations

from typing import ClassVar, Optional


class Refused(Exception):
    """A call was refused, and nothing changed. `line` is the line of a journal, where one is told."""

    status: ClassVar[int] = 0
    words: ClassVar[str] = "refused"

    def __init__(self, line: Optional[int] = None) -> None:
        super().__init__(self.words if line is None else f"{self.words}, line {line}")
        self.line = line


class Closed(Refused):
    status, words = 1, "no world is open here"


class NoMemory(Refused):
    status, words = 2, "want of memory"


class Outside(Refused):
    status, words = 3, "it leaves the world, or a size is 0"


class NoVersion(Refused):
    status, words = 4, "there is no such version yet"


class Forgotten(Refused):
    status, words = 5, "the version was forgotten"


class NothingToUndo(Refused):
    status, words = 6, "no change is left to undo"


class NothingToRedo(Refused):
    status, words = 7, "no undo is left to take back"


class HistoryFull(Refused):
    status, words = 8, "there are 65,535 changes, the most that a history has"


class StoreFull(Refused):
    status, words = 9, "a bucket of the store has no room for what the change needs"


class IsNewest(Refused):
    status, words = 10, "the newest version can't be forgotten"


class TooSmall(Refused):
    status, words = 11, "the buffer is too small"


class BadPlan(Refused):
    status, words = 12, "no side of a world, or no number of slots of a bucket"


class IsOpen(Refused):
    status, words = 13, "a world is open here"


class NoModel(Refused):
    status, words = 14, "there is no model of this number"


class BadFile(Refused):
    status, words = 15, "no VOX file whose models can be read"


class BadWay(Refused):
    status, words = 16, "a ray's steps are over 1,024, or all of them 0"


class Null(Refused):
    status, words = 17, "an argument is null"


class BadJournal(Refused):
    status, words = 18, "no journal"


class NotLegal(Refused):
    status, words = 19, "a record that breaks a rule of a legal history"


class OtherKind(Refused):
    status, words = 20, "a call for the other kind of world: with tints, or without"


class BadTint(Refused):
    status, words = 21, "a tint isn't from 1 to 255"


class BadScene(Refused):
    """`kind` and `at` tell the scene's first fault, by the table of docs/FLOODS_AND_SCENES.md."""

    status, words = 22, "the file's scene breaks a rule"

    def __init__(self, kind: int = 0, at: int = 0) -> None:
        super().__init__()
        self.kind, self.at = kind, at
        if kind:
            self.args = (f"{self.words}: kind {kind}, at {at}",)


class BadDag(Refused):
    """`at` is the place of the file's first fault, by the order of docs/DAG_FILES.md."""

    status, words = 23, "no file of versions"

    def __init__(self, at: Optional[int] = None) -> None:
        super().__init__()
        self.at = at
        if at is not None:
            self.args = (f"{self.words}: a broken rule at byte {at}",)


class NotExported(Exception):
    """The library that was loaded is older than this package, and has no such call."""

    def __init__(self, call: str) -> None:
        super().__init__(f"this library has no {call}")
        self.call = call


BY_STATUS: dict[int, type[Refused]] = {kind.status: kind for kind in Refused.__subclasses__()}


def refusal(status: int, line: Optional[int] = None) -> Refused:
    """The exception of a status."""
    if (kind := BY_STATUS.get(status)) is not None:
        return BadScene() if kind is BadScene else kind(line)
    unknown = Refused()
    unknown.args = (f"status {status}",)
    return unknown

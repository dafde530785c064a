"""The texts of a run: scripts, transcripts, journals, reports and VOX files, written and read by these rules alone.

- A journal is `voxdag journal 1`, with colours `voxdag journal 2`; `side N`, from 4 to 4096 by doubling, with colours
  at most 1024; records `n S L ACT` with n from 1 up, at most 65535; marks `mark V AT S L` of rising versions, V below
  AT and AT at most the number of records; and `end`. Words have one space between them, numbers no leading zeros. S is
  below 64, L below 2^32. Acts lie in the world, a ball's radius is at most 4095, models' numbers are below 1024. With
  colours a fill and a ball end with a tint from 1 to 255. Each line has its end, and nothing follows.
- A transcript has lines `L @n ANSWER`, each with its end.
- A script has a command in each line; blanks part words, numbers may have leading zeros, and a line without words or
  that begins with `#` has none.
- A report says for each version that is held that it is empty or which is the first one that is the same, and for each
  level of the store how many nodes it has.
"""

import re
import struct
from typing import NamedTuple

from model import Act, Cell, EDITS, History, Mark, Record, Tints, box_fits, in_box, less, nodes

SIDES = [4 << k for k in range(11)]


# ---- VOX files

def chunk(name: bytes, content: bytes) -> bytes:
    return name + struct.pack("<2I", len(content), 0) + content


def vox(models: list[tuple[Cell, list[tuple[int, ...]]]]) -> bytes:
    """The file of models, each with its size and its groups of place and colour."""
    chunks = b""
    for size, groups in models:
        chunks += chunk(b"SIZE", struct.pack("<3I", *size))
        chunks += chunk(b"XYZI", struct.pack("<I", len(groups)) + b"".join(map(bytes, groups)))
    return b"VOX " + struct.pack("<I", 150) + b"MAIN" + struct.pack("<2I", 0, len(chunks)) + chunks


def saved(world: Tints, box: tuple[int, ...]) -> bytes:
    """The file of a box: its set cells by rising z, then y, then x."""
    cells = sorted((cell for cell in world if in_box(box, cell)), key=lambda cell: cell[::-1])
    return vox([(box[3:], [(*less(cell, box[:3]), world[cell]) for cell in cells])])


# ---- scripts

class Command(NamedTuple):
    """A command of a script: its line, name and numbers, the version that it asks, the name of its file."""
    line: int
    name: str
    numbers: tuple[int, ...]
    version: int | None = None
    once: bool = False
    file: str = ""

    def act(self) -> Act:
        """The act that it makes. A fill and a ball have a tint, 1 where none is said."""
        is_short = len(self.numbers) == {"fill": 6, "ball": 4}.get(self.name)
        return self.name, self.numbers + (1,) * is_short

    def is_act(self) -> bool:
        return self.name in EDITS or self.name in ("undo", "redo")


def command(line: int, words: list[str]) -> Command:
    version, once, file = None, words[0] == "try", ""
    if once:
        words = words[1:]
    elif words[0] == "at":
        version, words = int(words[1]), words[2:]
    rest = [word for word in words[1:] if word != "to"]
    if words[0] == "save":
        file, rest = rest[0], rest[1:]
    return Command(line, words[0], tuple(map(int, rest)), version, once, file)


def commands(text: str) -> list[Command]:
    lines = [line.split() for line in text.split("\n")]
    return [command(at + 1, words) for at, words in enumerate(lines) if words and not words[0].startswith("#")]


# ---- journals

class BadLine(Exception):
    """The first line that doesn't fit."""


def exact(word: bytes, bound: int = 2**32) -> int:
    if not re.fullmatch(rb"0|[1-9][0-9]*", word) or int(word) >= bound:
        raise ValueError
    return int(word)


def exact_all(words: list[bytes], count: int, bound: int = 2**32) -> tuple[int, ...]:
    if len(words) != count:
        raise ValueError
    return tuple(exact(word, bound) for word in words)


def need(fits: bool) -> None:
    if not fits:
        raise ValueError


def act_of(words: list[bytes], side: int, coloured: bool) -> Act:
    """An act as a journal has it."""
    name, rest = words[0].decode(errors="replace"), words[1:]
    if name == "copy":
        need(len(rest) == 10 and rest.pop(6) == b"to")
    counts = {"fill": 6 + coloured, "erase": 6, "ball": 4 + coloured, "carve": 4, "copy": 9, "stamp": 4, "undo": 0, "redo": 0}
    need(name in counts)
    a = exact_all(rest, counts[name])
    if name in ("fill", "erase", "copy"):
        need(box_fits(a[:6], side))
    if name == "copy":
        need(box_fits(a[6:] + a[3:6], side))
    if name in ("ball", "carve"):
        need(all(c < side for c in a[:3]) and a[3] <= 4095)
    if name == "stamp":
        need(a[0] < 1024 and all(c < side for c in a[1:]))
    if coloured and name in ("fill", "ball"):
        need(1 <= a[-1] <= 255)
    return name, a if coloured or name not in ("fill", "ball") else a + (1,)


class Journal(NamedTuple):
    side: int
    coloured: bool
    records: list[Record]
    marks: dict[int, Mark]


def journal_line(journal: Journal, words: list[bytes]) -> None:
    """Takes the line of a record or a mark."""
    records, marks = journal.records, journal.marks
    if words[0] == b"mark":
        version, at, session, line = exact_all(words[1:], 4)
        need(version > max(marks, default=-1) and version < at <= len(records) and session < 64)
        marks[version] = Mark(at, session, line)
        return
    n, session, line = exact_all(words[:3], 3)
    need(not marks and n == len(records) + 1 <= 65535 and session < 64 and len(words) > 3)
    records.append(Record(session, line, act_of(words[3:], journal.side, journal.coloured)))


def read_journal(data: bytes) -> Journal:
    """What a journal tells, or the first line that doesn't fit."""
    lines, at = data.split(b"\n"), 0
    try:
        need(len(lines) > 1 and lines[0] in (b"voxdag journal 1", b"voxdag journal 2"))
        coloured, at = lines[0][-1:] == b"2", 1
        need(len(lines) > 2 and lines[1].startswith(b"side "))
        side = exact(lines[1][5:])
        need(side in SIDES and (side <= 1024 or not coloured))
        journal, at = Journal(side, coloured, [], {}), 2
        while at + 1 < len(lines) and lines[at] != b"end":
            journal_line(journal, lines[at].split(b" "))
            at += 1
        need(at + 1 < len(lines))
        at += 1
        need(lines[at:] == [b""])
        return journal
    except ValueError:
        raise BadLine(at + 1) from None


def spelled(act: Act, coloured: bool) -> str:
    name, a = act
    if name == "copy":
        return " ".join(["copy", *map(str, a[:6]), "to", *map(str, a[6:])])
    return " ".join([name, *map(str, a if coloured or name not in ("fill", "ball") else a[:-1])])


def journal_text(history: History) -> str:
    lines = [f"voxdag journal {1 + history.coloured}", f"side {history.side}"]
    lines += [f"{n} {r.session} {r.line} {spelled(r.act, history.coloured)}" for n, r in enumerate(history.records, 1)]
    lines += [f"mark {v} {m.at} {m.session} {m.line}" for v, m in sorted(history.marks.items())]
    return "".join(line + "\n" for line in lines + ["end"])


def report_text(history: History) -> str:
    lines = ["voxdag report 1", f"side {history.store_side}", f"records {history.head}", f"marks {len(history.marks)}"]
    held = history.held()
    for v in held:
        world = history.world(v)
        first = next(w for w in held if history.world(w) == world)
        lines.append(f"version {v} root {first}" if world else f"version {v} empty")
    lines += [f"level {level} nodes {count}" for level, count in enumerate(nodes(history))]
    return "".join(line + "\n" for line in lines)


def run_line(history: History, scripts: int) -> str:
    return f"scripts {scripts} records {history.head} marks {len(history.marks)} nodes {sum(nodes(history))}\n"


# ---- transcripts

class Answered(NamedTuple):
    line: int
    moment: int
    answer: tuple


PLAIN = ("ok", "set", "clear", "miss", "same", "different", "head")
BOUNDS = {"count": 2**64, "faces": 2**64, "saved": 2**64, "forgot": 2**32, "forgotten": 2**32, "stale": 2**32, "colour": 256}
REFUSALS = ("is head", "log full", "nothing to undo", "nothing to redo")


def answer_of(words: list[bytes]) -> tuple:
    text = b" ".join(words).decode(errors="replace")
    name, rest = words[0].decode(errors="replace"), words[1:]
    if text in PLAIN + REFUSALS:
        return (text,)
    if name in BOUNDS:
        return name, *exact_all(rest, 1, BOUNDS[name])
    if name == "hit":
        return name, *exact_all(rest, 3, 2**16)
    if name == "bounds":
        return (name, "none") if rest == [b"none"] else (name, *exact_all(rest, 6, 2**16))
    if name == "full":
        need(len(rest) == 2)
        return name, exact(rest[0], 2**8), exact(rest[1], 2**16)
    need(name == "no" and rest[:1] == [b"version"])
    return "no version", *exact_all(rest[1:], 1)


def read_transcript(data: bytes) -> list[Answered]:
    lines = data.split(b"\n")
    read = []
    for at, line in enumerate(lines[:-1]):
        words = line.split(b" ")
        try:
            need(len(words) > 2 and words[1].startswith(b"@"))
            read.append(Answered(exact(words[0]), exact(words[1][1:]), answer_of(words[2:])))
        except ValueError:
            raise BadLine(at + 1) from None
    if lines[-1] != b"":
        raise BadLine(len(lines))
    return read


def transcript_text(read: list[Answered]) -> str:
    return "".join(f"{a.line} @{a.moment} {' '.join(map(str, a.answer))}\n" for a in read)

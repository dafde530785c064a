"""Files of many versions: what `dag` makes of journals by chance, some with one byte changed, and what `look` says of
right files and of spoiled ones, by a slow writer and a slow reader, from the rules of docs/DAG_FILES.md alone.

A journal that is none is refused at its first line that doesn't fit, with status 12, and one with a record that isn't
legal at that record's line, n + 2. A file that breaks a rule is refused with status 14 at the place of the first one; a
version that it hasn't, and a place outside its worlds, with status 10.
"""

import pathlib
import struct
import sys
from random import Random

import audits
import chance
import judge
import runs
from chance import Setting
from model import Cell, History, Record, told
from product import Product, want
from texts import BadLine, SIDES, command, read_journal, read_transcript, spelled

# The blocks of a world are those of the slow world, which is installed without this folder.
sys.path.insert(0, str(pathlib.Path(__file__).resolve().parent.parent / "bindings/python"))
from voxdag.slow import block_rows

Row = tuple[int, ...]


# ---- the slow writer

def file_of(side: int, versions: list[tuple[int, set[Cell]]]) -> bytes:
    """The file of versions, each with its number and the set cells of its store."""
    made = [block_rows(cells, side) for _, cells in versions]
    words: dict[tuple | None, int] = {None: 0}
    counts, entries = [], b""
    for level in range(len(SIDES[:SIDES.index(side) + 1])):
        rows = {block: block if level == 0 else tuple(words[octant] for octant in block)
                for levels in made for block in levels[level].values()}
        order = sorted(rows, key=lambda block: rows[block])
        entries += b"".join(struct.pack("<8I" if level else "<Q", *rows[block]) for block in order)
        words = {None: 0, **{block: at + 1 for at, block in enumerate(order)}}
        counts.append(len(order))
    roots = [(number, words[levels[-1].get((0, 0, 0))]) for (number, _), levels in zip(versions, made)]
    head = b"VDAG" + struct.pack(f"<{3 + len(counts)}I", 1, side, len(versions), *counts)
    return head + entries + b"".join(struct.pack("<2I", *root) for root in roots)


def made_of(journal: bytes, models: list) -> tuple[int, str, bytes | None]:
    """The status, the line and the file that `dag` has to give."""
    try:
        read = read_journal(journal)
    except BadLine as bad:
        return 12, f"voxdag: journal {bad}\n", None
    history, illegal = judge.history_of(read, models)
    if illegal:
        return 12, f"voxdag: journal {illegal + 2}\n", None
    return 0, "", file_of(history.store_side, [(v, history.stored(history.world(v))) for v in history.held()])


# ---- the slow reader

class Reader:
    """A file, read field by field until a rule is broken."""

    def __init__(self, data: bytes) -> None:
        self.data, self.at = data, 0
        self.rows: list[list[Row]] = []
        self.starts: list[int] = []
        self.versions: list[tuple[int, int]] = []

    def take(self, form: str) -> Row | None:
        """The next field, none where it doesn't fit."""
        end = self.at + struct.calcsize(form)
        return struct.unpack_from(form, self.data, self.at) if end <= len(self.data) else None

    def field(self, most: int, least: int = 0) -> int | None:
        """The next number, none where it doesn't fit or isn't in this range."""
        row = self.take("<I")
        if row is None or not least <= row[0] <= most:
            return None
        self.at += 4
        return row[0]

    def entries(self, level: int, count: int, below: int) -> bool:
        self.starts.append(self.at)
        self.rows.append([])
        for i in range(count):
            row = self.take("<8I" if level else "<Q")
            if row is None or not any(row) or (level and max(row) > below) or (i and self.rows[level][-1] >= row):
                return False
            self.rows[level].append(row)
            self.at += 32 if level else 8
        return True

    def fields(self) -> bool:
        """Whether all fields and entries keep the rules; else `at` is the place of the first that doesn't."""
        if self.data[:4] != b"VDAG":
            return False
        self.at = 4
        if self.field(1, 1) is None or self.take("<I") is None or self.take("<I")[0] not in SIDES:
            return False
        self.side = self.field(4096)
        versions = self.field(65536)
        counts: list[int] = []
        while versions is not None and len(counts) <= SIDES.index(self.side):
            count = self.field(1 << 24)
            if count is None:
                return False
            counts.append(count)
        if versions is None or not all(self.entries(k, n, counts[k - 1]) for k, n in enumerate(counts)):
            return False
        for _ in range(versions):
            number = self.field(65535, self.versions[-1][0] + 1 if self.versions else 0)
            root = None if number is None else self.field(counts[-1])
            if root is None:
                return False
            self.versions.append((number, root))
        return True

    def fault(self) -> int | None:
        """The place of the first rule that is broken."""
        if not self.fields():
            return self.at
        for level, rows in enumerate(self.rows):
            above = self.rows[level + 1] if level + 1 < len(self.rows) else [(root,) for _, root in self.versions]
            named = {word for row in above for word in row}
            for i in range(len(rows)):
                if i + 1 not in named:
                    return self.starts[level] + (32 if level else 8) * i
        return self.at if self.at < len(self.data) else None

    def below(self, level: int, word: int, corner: Cell) -> set[Cell]:
        if word == 0:
            return set()
        row, (x, y, z) = self.rows[level][word - 1], corner
        if level == 0:
            return {(x + k % 4, y + k // 4 % 4, z + k // 16) for k in range(64) if row[0] >> k & 1}
        half = 2 << level
        return set().union(*(self.below(level - 1, row[k], (x + half * (k % 2), y + half * (k // 2 % 2), z + half * (k // 4)))
                             for k in range(8)))


def looked(data: bytes, version: int, asked: str) -> tuple[int, str]:
    """The status and the line that `look` has to give."""
    reader = Reader(data)
    if (place := reader.fault()) is not None:
        return 14, f"voxdag: dag {place}\n"
    root = dict(reader.versions).get(version)
    question = command(0, asked.split())
    if root is None or not audits.lies_in(question, reader.side, []):
        return 10, "voxdag: no place\n"
    world = dict.fromkeys(reader.below(len(reader.rows) - 1, root, (0, 0, 0)), 1)
    return 0, " ".join(map(str, told(world, reader.side, question.name, question.numbers))) + "\n"


# ---- by chance

def journal_of(setting: Setting) -> bytes:
    """A journal by chance, mostly a legal one, with marks at moments by chance."""
    rng, history, lines = setting.rng, History(setting.side, setting.models, setting.coloured), []
    number = rng.randrange(1, 24)
    while len(lines) < number:
        words = rng.choice([chance.edit(setting), chance.edit(setting), ["undo"], ["redo"], ["stamp", len(setting.models), 0, 0, 0]])
        act = command(0, [str(word) for word in words]).act()
        if history.allows(act):
            history.append(Record(0, 0, act))
        elif rng.randrange(30):
            continue
        lines.append(f"{len(lines) + 1} {rng.randrange(3)} {rng.randrange(1, 99)} {spelled(act, setting.coloured)}")
    for version in range(number):
        if rng.randrange(6) == 0:
            at = number if rng.randrange(3) else rng.randrange(version + 1, number + 1)
            lines.append(f"mark {version} {at} {rng.randrange(3)} {rng.randrange(1, 99)}")
    head = [f"voxdag journal {1 + setting.coloured}", f"side {setting.side}"]
    return "\n".join([*head, *lines, "end", ""]).encode()


def case(product: Product, rng: Random) -> None:
    """A journal, and what `dag` prints and writes of it."""
    coloured = rng.random() < 0.3
    setting = Setting(rng, rng.choice([4, 8]) if coloured else rng.choice([4, 8, 8, 16, 32]), coloured)
    journal = journal_of(setting)
    if rng.randrange(3) == 0:
        journal = audits.spoil(rng, journal)
    product.write("m.vox", setting.vox)
    product.write("j", journal)
    status, line, file = made_of(journal, setting.models)
    want("dag", product.run("dag", "m.vox", "j", "d"), (status, line))
    want("whether it is written", "d" in product.names(), file is not None)
    if file is not None:
        want("file of versions", product.left("d"), file)


FULL = b"VDAG" + struct.pack("<5I", 1, 8, 2, 1, 1) + b"\xff" * 8 + struct.pack("<12I", *[1] * 8, 0, 0, 1, 1)


def spoiled(rng: Random, data: bytes) -> bytes:
    """The file with a byte changed, bytes cut off or added, an entry put twice, two in each other's places, or a number one off."""
    kind, at, place, size = rng.randrange(8), rng.randrange(len(data)), 4 * rng.randrange(len(data) // 4), rng.choice([8, 32])
    if kind < 4:
        return data[:at] + bytes([rng.choice([0, 1, 2, 3, 4, 8, rng.randrange(256)])]) + data[at + 1:]
    if kind == 4:
        return data[:at] if rng.randrange(2) else data + bytes(rng.randrange(1, 9))
    first, second = data[place:place + size], data[place + size:place + 2 * size]
    if kind == 5:
        return data[:place] + first + data[place:]
    if kind == 6:
        return data[:place] + second + first + data[place + 2 * size:]
    number = struct.unpack_from("<I", data, place)[0] + rng.choice([1, -1])
    return data[:place] + struct.pack("<I", number % 2**32) + data[place + 4:]


def plain_question(setting: Setting) -> str:
    return " ".join(map(str, chance.question(setting)))


def look_case(product: Product, rng: Random) -> None:
    """A run's questions of its versions, asked of the file of its journal; then questions of spoiled files."""
    setting = Setting(rng, rng.choice([4, 8, 8, 16, 32]), keep=rng.choice([0, 0, 1, 2, 4]))
    setting.room(64, 256)
    edits = [chance.edit(setting) if rng.randrange(8) else ["forget", at // 2] for at in range(rng.randrange(12))]
    asked = [(rng.randrange(len(edits) + 2), plain_question(setting)) for _ in range(6)]
    lines = [" ".join(map(str, words)) for words in edits] + [f"at {version} {words}" for version, words in asked]
    setting.texts["s"] = "".join(line + "\n" for line in lines)
    runs.perform(product, setting)
    want("dag", product.run("dag", "m.vox", "j", "d"), (0, ""))
    answers = read_transcript(product.left("s.out"))[len(edits):]
    for (version, words), a in zip(asked, answers):
        is_kept = a.answer[0] not in ("no version", "forgotten")
        wanted = (0, " ".join(map(str, a.answer)) + "\n") if is_kept else (10, "voxdag: no place\n")
        want(f"look {version} {words}", product.run("look", "d", str(version), *words.split()), wanted)
    data = product.left("d")
    for _ in range(20):
        version, words = rng.randrange(len(edits) + 1), plain_question(setting)
        now = spoiled(rng, rng.choice([data, data, FULL]))
        product.write("d", now)
        want(f"look {version} {words}", product.run("look", "d", str(version), *words.split()), looked(now, version, words))

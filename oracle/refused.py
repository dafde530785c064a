#!/usr/bin/env python3
"""Runs a program again and again, with another allocation refused each time: refused.py PROGRAM [ROW ..]

Each row below is run with nothing refused, then with its first allocation refused, its second and so on, until one
isn't reached any more, and then without threads. With an allocation refused it has to end with status 0, or with status
8 and the line `voxdag: memory` or none; the outputs that stand have to be the first ones of their list, each whole, and
all of them with status 0. Without threads it has to end as with nothing refused. The first run that ends otherwise is
shown, with status 1. `oracle/run` draws some allocations and threads by chance instead. It needs a C compiler for
refuse.c.

Whole is what the row says in bytes here, or what demo.py gives. Of scripts that run at the same time the moments and
the order of the records are left out, as these may differ from run to run.
"""
import collections
import concurrent.futures
import functools
import os
import pathlib
import re
import struct
import subprocess
import sys
import tempfile
from random import Random

import demo
from product import Differs, Product

HERE = pathlib.Path(__file__).resolve().parent
WORKERS = 4
Row = tuple[str, str, dict[str, bytes], dict[str, bytes]]

ONE = b"VOX " + struct.pack("<I", 150) + b"MAIN" + struct.pack("<II", 0, 44) \
    + b"SIZE" + struct.pack("<5I", 12, 0, 1, 1, 1) + b"XYZI" + struct.pack("<3I", 8, 0, 1) + bytes([0, 0, 0, 1])

UNDO = b"""undo
fill 0 0 0 1 1 1
undo
fill 1 0 0 1 1 1
redo
undo
count 0 0 0 4 1 1
"""

UNDO_OUT = b"""1 @0 nothing to undo
2 @1 ok
3 @2 ok
4 @3 ok
5 @3 nothing to redo
6 @4 ok
7 @4 count 0
"""

UNDO_JOURNAL = b"""voxdag journal 1
side 8
1 0 2 fill 0 0 0 1 1 1
2 0 3 undo
3 0 4 fill 1 0 0 1 1 1
4 0 6 undo
end
"""

# Two leaves, and a node above each; the versions 0, 2 and 4 are empty.
UNDO_REPORT = b"""voxdag report 1
side 8
records 4
marks 0
version 0 empty
version 1 root 1
version 2 empty
version 3 root 3
version 4 empty
level 0 nodes 2
level 1 nodes 2
"""

SAVE = b"fill 3 3 3 1 1 1\nsave a.vox 3 3 3 1 1 1\nsave b.vox 0 0 0 1 1 1\n"
SAVE_OUT = b"1 @1 ok\n2 @1 saved 1\n3 @1 saved 0\n"
NONE = ONE[:16] + struct.pack("<I", 40) + ONE[20:48] + struct.pack("<3I", 4, 0, 0)

# One cell gets tint 5, and then tint 2.
TINTS = b"fill 0 0 0 1 1 1 5\ncolour 0 0 0\nfill 0 0 0 1 1 1 2\ncolour 0 0 0\n"
TINTS_OUT = b"1 @1 ok\n2 @1 colour 5\n3 @2 ok\n4 @2 colour 2\n"
TINTS_JOURNAL = b"voxdag journal 2\nside 8\n1 0 1 fill 0 0 0 1 1 1 5\n2 0 3 fill 0 0 0 1 1 1 2\nend\n"

# The last two versions alone are held: two leaves, and a node above each.
FALLING = b"fill 0 0 0 1 1 1\nfill 1 0 0 1 1 1\nundo\nundo\nredo\nat 0 count 0 0 0 8 8 8\ncount 0 0 0 8 8 8\n"
FALLEN = b"1 @1 ok\n2 @2 ok\n3 @3 ok\n4 @3 forgotten 0\n5 @4 ok\n6 @4 forgotten 0\n7 @4 count 2\n"

FALLEN_JOURNAL = b"""voxdag journal 1
side 8
1 0 1 fill 0 0 0 1 1 1
2 0 2 fill 1 0 0 1 1 1
3 0 3 undo
4 0 5 redo
mark 0 2 0 2
mark 1 3 0 3
mark 2 4 0 5
end
"""

# A world of eight full leaves: one leaf, and one node with it eight times; its versions are empty and full.
FILL_JOURNAL = b"voxdag journal 1\nside 8\n1 0 1 fill 0 0 0 8 8 8\nend\n"
FULL = b"VDAG" + struct.pack("<5I", 1, 8, 2, 1, 1) + bytes([255]) * 8 + struct.pack("<8I", *[1] * 8) + struct.pack("<4I", 0, 0, 1, 1)

# A row: what it is, the words, the inputs, and the outputs in order; the last one is what is printed.
ROWS = [
    ("undo", "run --side 8 --journal J --report P one.vox s", {"one.vox": ONE, "s": UNDO},
     {"s.out": UNDO_OUT, "J": UNDO_JOURNAL, "P": UNDO_REPORT, "printed": b"scripts 1 records 4 marks 0 nodes 4\n"}),
    ("save", "run --side 8 one.vox s", {"one.vox": ONE, "s": SAVE},
     {"s.out": SAVE_OUT, "a.vox": ONE, "b.vox": NONE, "printed": b"scripts 1 records 1 marks 0 nodes 2\n"}),
    ("count", "count one.vox", {"one.vox": ONE}, {"printed": b"1\n"}),
    ("colours", "run --colours --side 8 --journal J one.vox s", {"one.vox": ONE, "s": TINTS},
     {"s.out": TINTS_OUT, "J": TINTS_JOURNAL, "printed": b"scripts 1 records 2 marks 0 nodes 7\n"}),
    ("keep", "run --side 8 --keep 2 --journal J one.vox s", {"one.vox": ONE, "s": FALLING},
     {"s.out": FALLEN, "J": FALLEN_JOURNAL, "printed": b"scripts 1 records 4 marks 3 nodes 4\n"}),
    ("dag", "dag one.vox J o", {"one.vox": ONE, "J": FILL_JOURNAL}, {"o": FULL, "printed": b""}),
    ("look", "look d 1 count 0 0 0 8 8 8", {"d": FULL}, {"printed": b"count 512\n"}),
    ("audit", "audit one.vox J s t",
     {"one.vox": ONE, "J": FILL_JOURNAL, "s": b"fill 0 0 0 8 8 8\n", "s.out": b"1 @1 ok\n", "t": b"head\n",
      "t.out": b"1 @1 head\n"}, {"printed": b"yes\n"}),
    ("flood", "flood one.vox 0 0 0 0 o.vox", {"one.vox": ONE}, {"o.vox": NONE, "printed": b"0\n"}),
    ("scene", "scene one.vox o.vox s", {"one.vox": ONE},
     {"o.vox": ONE, "s": b"stamp 0 0 0 0\n", "printed": b"side 4 placements 1\n"}),
]


@functools.cache
def demo_row(number: int) -> Row:
    """The row of a demo."""
    made = demo.demo(number)
    outputs = {f"demo.{i}.out": text.encode() for i, text in enumerate(made.transcripts)}
    return f"demo{number}", f"demo {number}", {}, {**outputs, "demo.journal": made.journal.encode(), "printed": made.printed.encode()}


@functools.cache
def built() -> tempfile.TemporaryDirectory:
    """A folder with the library of refuse.c, which is gone at the end."""
    folder = tempfile.TemporaryDirectory(prefix="oracle-refuse-")
    subprocess.run(["cc", "-O2", "-Wall", "-shared", "-fPIC", "-o", f"{folder.name}/refuse.so", HERE / "refuse.c"], check=True)
    return folder


def library() -> str:
    return f"{built().name}/refuse.so"


def settled(row: str, name: str, text: bytes) -> bytes | list[bytes]:
    """The part of an output that is the same at each run: one script's is the whole."""
    if not row.startswith("demo"):
        return text
    if name.endswith(".journal"):
        return sorted(line.partition(b" ")[2] for line in text.split(b"\n"))
    return re.sub(rb"(?m)^(\d+) @\d+ ", rb"\1 ", text)


def run(program: str, top: str, row: Row, call: int = 0, thread: int = 0) -> tuple[int | str, dict[str, bytes], tuple]:
    """One run: its status, the outputs that stand and what is printed, and how many calls of both kinds there were."""
    _, words, inputs, _ = row
    folder = pathlib.Path(tempfile.mkdtemp(prefix="run-", dir=top))
    for name, text in inputs.items():
        (folder / name).write_bytes(text)
    counts = folder.with_suffix(".counts")
    counts.write_bytes(bytes(16))
    environment = {**os.environ, "LD_PRELOAD": library(), "REFUSE_COUNTS": str(counts), "REFUSE_CALL": str(call),
                   "REFUSE_THREAD": str(thread)}
    try:
        done = subprocess.run([program, *words.split()], cwd=folder, env=environment, stdin=subprocess.DEVNULL,
                              stdout=subprocess.PIPE, stderr=subprocess.DEVNULL, timeout=1200, check=False)
        status, printed = done.returncode, done.stdout
    except subprocess.TimeoutExpired as expired:
        status, printed = "no end", expired.stdout or b""
    given = {path.name: path.read_bytes() for path in folder.iterdir() if inputs.get(path.name) != path.read_bytes()}
    return status, {**given, "printed": printed}, struct.unpack("<QQ", counts.read_bytes())


def fault(row: Row, status: int | str, given: dict[str, bytes], must_end: bool) -> str | None:
    """What is wrong with how a run ended, or nothing."""
    name, _, _, wanted = row
    files = [output for output in wanted if output in given and output != "printed"]
    if set(given) - set(wanted):
        return f"other files stand there: {sorted(set(given) - set(wanted))}"
    if files != list(wanted)[:len(files)]:
        return f"an output is missing before {files[-1]}"
    broken = [output for output in files if settled(name, output, given[output]) != settled(name, output, wanted[output])]
    if broken:
        return f"{broken[0]} is not whole: {given[broken[0]]!r}"
    if status == 0:
        return None if len(files) == len(wanted) - 1 and given["printed"] == wanted["printed"] else "not all is there"
    if status != 8 or must_end:
        return f"it ended with status {status}"
    return None if given["printed"] in (b"", b"voxdag: memory\n") else f"it printed {given['printed']!r}"


def try_row(program: str, top: str, row: Row) -> None:
    """Runs a row in all ways, and says how it ended."""
    ways = collections.Counter()

    def tried(call: int = 0, thread: int = 0) -> tuple:
        status, given, counts = run(program, top, row, call, thread)
        said = fault(row, status, given, call == 0)
        if said:
            sys.exit(f"{row[0]}, allocation {call}, thread {thread}: {said}")
        return status, len(given) - 1, counts

    _, outputs, (calls, threads) = tried()
    with concurrent.futures.ThreadPoolExecutor(WORKERS) as pool:
        number, reached = 0, True
        while reached:
            for status, stood, counts in pool.map(lambda n: tried(n), range(number + 1, number + 65)):
                number += 1
                reached = counts[0] >= number
                if reached:
                    ways[status, stood] += 1
    for thread in range(1, threads + 1):
        tried(thread=thread)
    print(f"{row[0]}: {sum(ways.values())} allocations refused in turn ({calls} with none refused)")
    for (status, stood), times in sorted(ways.items()):
        print(f"  {times:6} ended with status {status}, {stood} of {outputs} outputs there")
    if threads:
        print(f"  {threads} threads, refused from each of them on in turn: status 0, all outputs there")


@functools.cache
def reached(program: str, row: int) -> tuple[int, int]:
    """How many allocations and threads a row has with nothing refused."""
    with tempfile.TemporaryDirectory() as top:
        return run(program, top, rows()[row])[2]


def rows() -> list[Row]:
    return [*ROWS, demo_row(7)]


def case(product: Product, rng: Random) -> None:
    """A row with one allocation refused, or its threads from one on."""
    number = rng.choice([0, 0, 1, 1, *range(2, len(rows()))])
    row, program = rows()[number], str(product.program)
    calls, threads = reached(program, number)
    call, thread = (0, rng.randint(1, threads)) if threads and rng.randrange(6) == 0 else (rng.randint(1, calls), 0)
    product.asked.append(f"{row[1]}, with allocation {call} or thread {thread} refused")
    status, given, _ = run(program, str(product.folder), row, call, thread)
    if told := fault(row, status, given, call == 0):
        raise Differs(f"{row[0]}, allocation {call}, thread {thread}: {told}")


def main() -> None:
    program = str(pathlib.Path(sys.argv[1]).resolve())
    for row in rows():
        if row[0] in sys.argv[2:] or not sys.argv[2:]:
            with tempfile.TemporaryDirectory() as top:
                try_row(program, top, row)


if __name__ == "__main__":
    main()

"""Rows that compare the work of four sessions at once with that of one, in the same time."""
import statistics
import subprocess
import time
from collections.abc import Callable, Iterator
from dataclasses import dataclass
from pathlib import Path

from timed import ROOT, Sample, Words, aim_of, best, in_turn, product, timed
from whole import ROOMY, Draw, room

SIDE = 1024
SLAB = SIDE // 4


def small_edits(start: int, number: int, low: int, width: int) -> Iterator[str]:
    """Small fills and balls whose cells have x from `low` on, in a slab of this width."""
    draw = Draw(start).below
    for _ in range(number):
        x, y, z = low + 8 + draw(width - 24), 8 + draw(SIDE - 24), 8 + draw(SIDE - 24)
        if draw(2):
            yield "ball %d %d %d %d" % (x, y, z, 1 + draw(6))
        else:
            yield "fill %d %d %d %d %d %d" % (x, y, z, 1 + draw(12), 1 + draw(12), 1 + draw(12))


def large_edits(start: int, number: int, low: int, width: int) -> Iterator[str]:
    """Balls of which each makes more than 5,000 nodes, in a slab of this width."""
    draw = Draw(start).below
    most = width // 2 - 2
    for k in range(number):
        centre = [low + width // 2] + [most + 1 + draw(SIDE - 2 * most - 2) for _ in range(2)]
        yield "%s %d %d %d %d" % (("ball", "carve")[k % 2], *centre, most - draw(4))


def middle_balls(start: int, number: int, low: int, width: int) -> Iterator[str]:
    """Balls that fill a good part of a slab of this width."""
    draw = Draw(start).below
    for _ in range(number):
        r = 20 + draw(40)
        yield "ball %d %d %d %d" % (low + 60 + draw(width - 120), 60 + draw(SIDE - 120), 60 + draw(SIDE - 120), r)


def questions(start: int, number: int, low: int, width: int) -> Iterator[str]:
    """Cells, large boxes and rays of a slab of this width, of the version that is the newest then."""
    draw = Draw(start).below
    for _ in range(number):
        x, y, z = low + draw(width // 4), draw(SIDE // 2), draw(SIDE // 2)
        kind = draw(4)
        if kind == 0:
            yield "get %d %d %d" % (x, y, z)
        elif kind == 1:
            yield "ray %d %d %d 0 %d %d" % (x, y, z, *(draw(9) - 4 or 1 for _ in range(2)))
        else:
            yield "count %d %d %d %d %d %d" % (x, y, z, width // 2 + draw(width // 4), *(256 + draw(256) for _ in range(2)))


def write(folder: Path) -> None:
    """The scripts, the same bytes each time."""
    made: dict[str, list[str]] = {"nothing": ["head"], "editor": list(small_edits(61, 4000, 0, SIDE))}
    for k in range(4):
        made[f"small.{k}"] = list(small_edits(11 + k, 14000, k * SLAB, SLAB))
        made[f"large.{k}"] = list(large_edits(21 + k, 72, k * SLAB, SLAB))
        made[f"place.{k}"] = list(small_edits(31 + k, 14000, 0, 64))
        made[f"balls.{k}"] = list(middle_balls(41 + k, 60, k * SLAB, SLAB))
        made[f"reader.{k}"] = made[f"balls.{k}"] + list(questions(51 + k, 6000, k * SLAB, SLAB))
    for name, lines in made.items():
        (folder / name).write_text("".join(line + "\n" for line in lines))


def run_of(folder: Path, *scripts: str) -> Callable[[], Sample]:
    words: Words = [product(), "run", "--side", str(SIDE), *ROOMY, ROOT / "models/one.vox", *scripts]
    return lambda: timed(words, folder)


def processes_of(folder: Path, *scripts: str) -> Callable[[], Sample]:
    """Four processes at once, each with one script and a world of its own, in a folder of its own."""
    model = ROOT / "models/one.vox"

    def run() -> Sample:
        running = []
        for k, script in enumerate(scripts):
            apart = room(f"sessions/apart{k}")
            (apart / script).write_bytes((folder / script).read_bytes())
        begun = time.perf_counter()
        for k, script in enumerate(scripts):
            words = [product(), "run", "--side", str(SIDE), *ROOMY, model, script]
            running.append(subprocess.Popen(words, cwd=folder / f"apart{k}", stdout=subprocess.DEVNULL))
        statuses = [process.wait() for process in running]
        return Sample(time.perf_counter() - begun, 0, str(statuses))

    return run


@dataclass(frozen=True)
class Sessions:
    """Four scripts of this name: by one session each, and by four at once, with what comes before taken off each."""
    name: str
    aim: float | None = None
    before: str = "nothing"
    beside: tuple[str, ...] = ()
    in_processes: bool = False

    def run(self, name: str, rounds: int, is_counted: bool) -> list[str]:
        if is_counted:
            return [f"{name}: threads aren't counted"]
        folder = room("sessions")
        write(folder)
        each = [f"{self.name}.{k}" for k in range(4)]
        before = [f"{self.before}.{k}" for k in range(4)] if self.before != "nothing" else ["nothing"]
        four_of = processes_of if self.in_processes else run_of
        before_four = before if len(before) == 4 else before * 4 if self.in_processes else before
        runs = {script: run_of(folder, script) for script in {*each, *before}}
        runs |= {"four": four_of(folder, *each, *self.beside), "before": four_of(folder, *before_four)}
        found = in_turn(rounds, runs)
        lines = []
        for of in ("least", "median"):
            mean = lambda scripts: statistics.mean(getattr(found[script], of) for script in scripts)
            one, four = mean(each) - mean(before), getattr(found["four"], of) - getattr(found["before"], of)
            lines.append(f"  by the {of}: one {one:.3f} s, four {four:.3f} s: {4 * one / four:.2f} times{aim_of(self.aim)}")
        return [f"{name}, of {rounds}", *lines]


@dataclass(frozen=True)
class Opening:
    """A world of side 4,096 by the usual plan that is opened and closed."""

    def run(self, name: str, rounds: int, is_counted: bool) -> list[str]:
        folder = room("sessions")
        write(folder)
        words: Words = [product(), "run", "--side", "4096", ROOT / "models/one.vox", "nothing"]
        its = best([timed(words, folder) for _ in range(rounds)])
        took = f"least {1e3 * its.least:.0f}, median {1e3 * its.median:.0f} ms (aim 60)"
        return [f"{name}: {took}, peak {its.peak / 1e6:.0f} MB (aim 150), of {rounds}"]


ROWS: dict[str, Sessions | Opening] = {
    "opening": Opening(),
    "sessions_small": Sessions("small", 0.9),
    "sessions_place": Sessions("place", 0.5),
    "sessions_large": Sessions("large", 2),
    "sessions_readers": Sessions("reader", 3.5, "balls", ("editor",)),
    "sessions_only_readers": Sessions("reader", None, "balls"),
    "processes_large": Sessions("large", None, in_processes=True),
    "processes_readers": Sessions("reader", None, "balls", in_processes=True),
}

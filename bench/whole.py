"""Rows that run the program from files to files, beside a peer or beside another run of its own."""
import re
import shutil
from collections.abc import Callable
from dataclasses import dataclass, field
from pathlib import Path

import timed
from timed import ROOT, WORK, Best, Words, command, counted, in_turn, made_once, product, tool

ROOMY = ["--buckets", "4096", "--cap", "256"]


@dataclass(frozen=True)
class Side:
    """What is run, and the run of the same with nothing to do, which is taken off."""
    name: str
    words: Words
    opening: Words = field(default_factory=list)


@dataclass(frozen=True)
class Pair:
    folder: Path
    ours: Side
    theirs: Side
    check: Callable[[Best, Best], list[str]] = lambda ours, theirs: []


@dataclass(frozen=True)
class Whole:
    """A row: what makes the two sides, and the aim of the ratio of their times."""
    pair: Callable[[bool], Pair]  # told whether it is counted
    aim: float | None = None

    def run(self, name: str, rounds: int, is_counted: bool) -> list[str]:
        pair = self.pair(is_counted)
        return counts(name, pair) if is_counted else times(name, pair, rounds, self.aim)


def times(name: str, pair: Pair, rounds: int, aim: float | None) -> list[str]:
    sides = [pair.ours, pair.theirs]
    runs = {side.name: lambda side=side: timed.timed(side.words, pair.folder) for side in sides}
    runs |= {f"{side.name} opening": lambda side=side: timed.timed(side.opening, pair.folder) for side in sides if side.opening}
    found = in_turn(rounds, runs)
    ours, theirs = (found[side.name] for side in sides)
    lines = [f"{name}: {ours.printed.strip().splitlines()[-1]}" if ours.printed.strip() else name]
    for side in sides:
        its, opened = found[side.name], found.get(f"{side.name} opening")
        opening = f", opening {opened.least:.3f}, {opened.median:.3f}, {opened.processor:.3f} s" if opened else ""
        took = f"least {its.least:.3f}, median {its.median:.3f}, processor {its.processor:.3f} s"
        lines.append(f"  {side.name}: {took}{opening}, peak {its.peak / 1e6:.1f} MB")
    ratios = [ratio(ours, theirs)]
    if pair.ours.opening and pair.theirs.opening:
        a, b = (found[f"{side.name} opening"] for side in sides)
        ratios.append(f"opening apart {ratio(ours, theirs, a, b)}")
    lines.append(f"  {pair.ours.name}/{pair.theirs.name}: {'; '.join(ratios)}{timed.aim_of(aim)}, of {rounds}")
    return lines + [f"  {what}" for what in pair.check(ours, theirs)]


def ratio(ours: Best, theirs: Best, off_ours: Best | None = None, off_theirs: Best | None = None) -> str:
    """By the least, the median and the processor time, with an opening of each taken off."""
    told = []
    for of in ("least", "median", "processor"):
        a, b = (getattr(its, of) - (getattr(off, of) if off else 0) for its, off in ((ours, off_ours), (theirs, off_theirs)))
        told.append(f"{a / max(b, 1e-6):.2f}")
    return ", ".join(told)


def counts(name: str, pair: Pair) -> list[str]:
    """Millions of each count, what the opening takes apart."""
    lines, apart = [name], []
    for side in (pair.ours, pair.theirs):
        whole = counted(side.words, pair.folder)
        opening = counted(side.opening, pair.folder) if side.opening else [0] * len(whole)
        apart.append([of - off for of, off in zip(whole, opening)])
        told = ", ".join(f"{(of - off) / 1e6:.2f}" for of, off in zip(whole, opening))
        opened = f"; opening {', '.join(f'{off / 1e6:.2f}' for off in opening)}" if side.opening else ""
        lines.append(f"  {side.name}, in millions: {told}{opened}")
    ratios = ", ".join(f"{a / max(b, 1):.2f} {what}" for a, b, what in zip(*apart, timed.COUNTED))
    return lines + [f"  {pair.ours.name}/{pair.theirs.name}: {ratios}"]


def room(name: str) -> Path:
    folder = WORK / name
    folder.mkdir(parents=True, exist_ok=True)
    return folder


# Runs of scripts beside the octree in plain Rust.

def svdag() -> Path:
    """The peer, built in a copy."""
    made = WORK / "svdag_rs/target/release/svdag_rs"
    if not made.is_file():
        shutil.copytree(timed.peers() / "svdag_rs", WORK / "svdag_rs", dirs_exist_ok=True)
        command(["chmod", "-R", "u+w", WORK / "svdag_rs"])
        command(["cargo", "build", "--release", "--offline", "--quiet"], cwd=WORK / "svdag_rs")
    return made


class Draw:
    """The generator of the peer's workloads."""

    def __init__(self, state: int) -> None:
        self.state = state

    def below(self, most: int) -> int:
        self.state = (self.state * 6364136223846793005 + 1442695040888963407) % 2**64
        return (self.state >> 33) % most


def write_icon(folder: Path) -> int:
    """2,000 stamps of the letter V in a world of side 256."""
    draw = Draw(107).below
    places = [" ".join(str(draw(256 - size + 1)) for size in (17, 3, 15)) for _ in range(2000)]
    (folder / "stamp_icon256.0.txt").write_text("".join(f"stamp 0 {at}\n" for at in places) + "count 0 0 0 256 256 256\n")
    shutil.copy(ROOT / "models/letter.vox", folder / "stamp_icon256.vox")
    return 256


def scripts_of(name: str, lines: int | None) -> tuple[Path, int, list[str]]:
    """The folder of a workload, its side, and its scripts, cut to so many lines."""
    folder = room("runs")
    if name == "stamp_icon256":
        side = write_icon(folder)
    else:
        command(["python3", timed.peers() / "gen.py", folder, name])
        side = int((folder / f"{name}.meta").read_text().split()[1])
    scripts = sorted(path.name for path in folder.glob(f"{name}.[0-9].txt"))
    for script in scripts if lines else []:
        (folder / script).write_text("".join((folder / script).read_text().splitlines(True)[:lines]))
    return folder, side, scripts


def run_of(name: str, counted_lines: int | None = None, plan: tuple[str, ...] = ()) -> Whole:
    def pair(is_counted: bool) -> Pair:
        folder, side, scripts = scripts_of(name, counted_lines if is_counted else None)
        nothing = [f"nothing{k}.txt" for k in range(len(scripts))]
        for script in nothing:
            (folder / script).write_text("head\n")
        (folder / "peer").mkdir(exist_ok=True)
        ours: Words = [product(), "run", "--side", str(side), *plan, f"{name}.vox"]
        theirs: Words = [svdag(), "--side", str(side), "--out", "peer", f"{name}.vox"]
        all_of_ours: Words = [product(), "demo", name[4:]] if name.startswith("demo") else ours + scripts
        sides = Side("program", all_of_ours, ours + nothing), Side("svdag_rs", theirs + scripts, theirs + nothing)
        if name.startswith("demo"):
            return Pair(folder, *sides)
        same = same_bytes if len(scripts) == 1 else same_answers
        return Pair(folder, *sides, lambda a, b: same(folder, scripts))

    return Whole(pair, 1.5)


def same_bytes(folder: Path, scripts: list[str]) -> list[str]:
    """Where the script's transcript and the files that it saves differ from the peer's."""
    saved = re.findall(r"^save (\S+)", (folder / scripts[0]).read_text(), re.M)
    differs = lambda name: (folder / name).read_bytes() != (folder / "peer" / name).read_bytes()
    return [f"{name} differs" for name in [f"{scripts[0]}.out", *saved] if differs(name)]


def same_answers(folder: Path, scripts: list[str]) -> list[str]:
    """Where answers differ that can't: the scripts ask about their own parts of the world alone, so their lines are the peer's
    but for moments, and these are those of one history."""
    wrong, changes = [], []
    for script in scripts:
        ours, theirs = ((at / f"{script}.out").read_text() for at in (folder, folder / "peer"))
        without = [re.sub(r" @\d+ ", " ", text) for text in (ours, theirs)]
        wrong += [f"the answers of {script} differ"] * (without[0] != without[1])
        moments = [(int(words[1][1:]), words[2] == "ok") for words in map(str.split, ours.splitlines())]
        wrong += [f"moments of {script} fall"] * any(b < a + is_ok for (a, _), (b, is_ok) in zip([(0, False), *moments], moments))
        changes += [moment for moment, is_ok in moments if is_ok]
    return wrong + ["changes and moments differ"] * (sorted(changes) != list(range(1, len(changes) + 1)))


# Files.

def same_print(a: Best, b: Best) -> list[str]:
    return [] if a.printed == b.printed else [f"they print {a.printed.strip()} and {b.printed.strip()}"]


def count_of(kind: str, maker: str) -> Whole:
    def pair(is_counted: bool) -> Pair:
        file = made_once(room("files") / f"{kind}.vox", maker, kind)
        theirs = Side("read.c", [tool("read"), "count", file])
        return Pair(file.parent, Side("program", [product(), "count", file]), theirs, same_print)

    return Whole(pair, 1.5)


def script_of(kind: str) -> Whole:
    """100,000 small commands beside a peer over one set of bits, which keeps no versions."""
    def pair(is_counted: bool) -> Pair:
        folder = room("scripts")
        ours, theirs = folder / f"{kind}.ours", folder / f"{kind}.theirs"
        shutil.copy(made_once(folder / f"{kind}.script", "make_script", kind), ours)
        shutil.copy(ours, theirs)
        model, plain = ROOT / "models/one.vox", tool("script")
        check = lambda a, b: ["the transcripts differ"] * (Path(f"{ours}.out").read_bytes() != Path(f"{theirs}.out").read_bytes())
        run: Words = [product(), "run", "--side", "256", *ROOMY, model, ours]
        return Pair(folder, Side("program", run), Side("script.c", [plain, "256", model, theirs]), check)

    return Whole(pair)


def audit(is_counted: bool) -> Pair:
    """A run of 65,535 changes by four scripts of 100,000 lines, and its audit."""
    folder = room("audits")
    command(["python3", timed.HERE / "many_changes.py"], cwd=folder)
    files = [ROOT / "models/one.vox", "journal"]
    scripts = [f"s{k}" for k in range(4)]
    run = [product(), "run", *ROOMY, "--journal", "journal", files[0], *scripts]
    command(run, cwd=folder)
    words = [product(), "audit", "--buckets", "4096", *files, *scripts]
    return Pair(folder, Side("audit", words), Side("run", run), lambda a, b: ["it isn't yes"] * (a.printed != "yes\n"))


def dag(is_counted: bool) -> Pair:
    """The file of the versions of a journal of `history`, and the run that writes the journal."""
    folder, side, scripts = scripts_of("history", None)
    run = [product(), "run", "--side", str(side), "--journal", "history.journal", "history.vox", *scripts]
    command(run, cwd=folder)
    return Pair(folder, Side("dag", [product(), "dag", "history.vox", "history.journal", "history.dag"]), Side("run", run))


def look(is_counted: bool) -> Pair:
    """A question about all of a file of 105 MB, and a program that reads it once."""
    file = room("files") / "big.dag"
    if not file.is_file():
        command(["python3", timed.HERE / "big_file.py", file])
    box = ["0", "0", "0", "2048", "2048", "2048"]
    return Pair(file.parent, Side("look", [product(), "look", file, "0", "count", *box]), Side("once.c", [tool("once"), file]))


def keep_of(scripts: list[tuple[str, int, int, int]], aim: float) -> Whole:
    """Runs that hold their last 100 versions, and the same runs that hold all; both audited."""
    def pair(is_counted: bool) -> Pair:
        folder, model = room("keep"), ROOT / "models/one.vox"
        sides, audits = [], []
        for of, keep in (("last", ["--keep", "100"]), ("all", [])):
            room(f"keep/{of}")
            for name, changes, low, width in scripts:
                write_changes(folder / of / name, changes, low, width)
            files = [f"{of}/{name}" for name, *_ in scripts]
            words: Words = [product(), "run", "--side", "256", *ROOMY, *keep, "--journal", f"{of}/journal", model, *files]
            sides.append(Side("last 100" if keep else "all", words))
            audits.append([product(), "audit", "--buckets", "4096", *keep, model, f"{of}/journal", *files])

        def check(_: Best, b: Best) -> list[str]:
            said = [command(words, cwd=folder) for words in audits]
            return [f"without --keep: {b.printed.strip()}"] + ["an audit isn't yes"] * (said != ["yes\n", "yes\n"])

        return Pair(folder, *sides, check)

    return Whole(pair, aim)


def write_changes(file: Path, number: int, low: int, width: int) -> None:
    draw = Draw(number + low).below
    with file.open("w") as out:
        for _ in range(number):
            at = [low + draw(width - 5), draw(251), draw(251)]
            size = [1 + draw(6) for _ in range(3)]
            out.write(f"{('fill', 'fill', 'erase')[draw(3)]} {' '.join(map(str, at + size))}\n")


FULL_PLANS = {"history", "corner4096", "shared1", "shared4", "spheres4096"}
COUNTED_LINES = {"small256": 3000, "history": 8000, "small4096": 8000}
RUNS = ["small256", "small1024", "small4096", "small1024x4", "history", "stamp_drawn", "stamp_icon256", "copies1024",
        "spheres1024", "spheres2048", "spheres4096", "pinned256", "pinned1024", "rays1024", "full256", "full4096", "shared1",
        "shared4", "corner4096", "saves", "demo7"]
ROWS: dict[str, Whole] = {
    name: run_of(name, COUNTED_LINES.get(name), tuple(ROOMY) if name in FULL_PLANS else ()) for name in RUNS}
FILES: dict[str, Whole] = {
    "count_ordered": count_of("ordered", "make_plain"), "count_random": count_of("random", "make_plain"),
    "count_large": count_of("large", "make_models"), "count_many": count_of("many", "make_models"),
    "script_below": script_of("below"), "script_over": script_of("over"),
    "audit": Whole(audit, 3), "dag": Whole(dag, 2), "look": Whole(look, 2),
    "keep_one": keep_of([("one", 50000, 0, 256)], 1.2),
    "keep_four": keep_of([(f"four{k}", 12500, 64 * k, 64) for k in range(4)], 1.1),
}

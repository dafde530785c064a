"""Rows over a part of the sources: a program of its own (NAME/main.rt.in) beside the same work in plain Rust or C.

Such a program stands in no crates.txt, and not under the name of a source, so that the gate doesn't ask for its proof. It
is built in a folder of copies, proved or before its proofs.
"""
import os
import re
import shutil
import subprocess
import sys
from collections.abc import Callable
from dataclasses import dataclass, field
from pathlib import Path

import timed
from timed import HERE, ROOT, Sample, Words, aim_of, command, made_once, product, tool
from whole import room

Readings = dict[str, tuple[float, list[str]]]  # by kind the time, and the sums of what was done


def below(above: list[str]) -> dict[str, str]:
    """These crates and all that they stand on, lowest first, with their lines of crates.txt."""
    lines = [line for line in (ROOT / "crates.txt").read_text().splitlines() if line and not line.startswith("#")]
    wanted = {*above}
    for line in reversed(lines):
        if line.partition(":")[0].split()[0] in wanted:
            wanted |= {*line.partition(":")[2].split()}
    return {name: line for line in lines if (name := line.partition(":")[0].split()[0]) in wanted}


@dataclass(frozen=True)
class Case:
    """One pair of runs: the words of both, and what is looked at when they are done."""
    name: str = ""
    ours: Words = field(default_factory=list)
    theirs: Words = field(default_factory=list)
    folder: str = "."
    check: Callable[[Path], list[str]] = lambda folder: []


@dataclass(frozen=True)
class Part:
    above: str  # the crates that the program names
    fields: str  # what a line has: kind, time, sum, or a dot for what isn't looked at
    unit: str = "ns"
    scale: float = 1.0  # of a printed time in units
    peer: str | None = "plain"  # plain.rs beside the program, or a program of c/
    is_proved: bool = True
    aim: float | None = None
    cases: Callable[[Path, Path | None], list[Case]] = lambda folder, peer: [Case()]
    more: Callable[[dict[str, Readings], list[str]], list[str]] | None = None  # lines from the least times
    peaks: dict[str, list[str]] = field(default_factory=dict)
    rustc: Callable[[Path], list[Path]] = lambda folder: []  # further files of the peer
    source: str | None = None  # the folder of bench/, where it has another name than the row
    shows: Callable[[str], bool] = lambda kind: True  # the kinds of lines whose times are told

    def run(self, name: str, rounds: int, is_counted: bool) -> list[str]:
        source = self.source or name
        folder = room(f"parts/{source}")
        program, peer = self.build(source, folder), self.build_peer(source, folder)
        lines = [f"{name}, of {rounds}, {timed.load()}"]
        for what, words in self.peaks.items():
            lines.append(f"  peak memory of {what}: {timed.timed([program, *words], folder).peak / 1e6:.1f} MB")
        for case in self.cases(folder, peer):
            sides: dict[str, Words] = {"ours": [program, *case.ours]} | ({"theirs": [peer, *case.theirs]} if peer else {})
            samples: dict[str, list[Sample]] = {side: [] for side in sides}
            for _ in range(rounds):
                for side, words in sides.items():
                    samples[side].append(timed.timed(words, folder / case.folder))
            lines += [f"  {line}" for line in self.told(case, samples)] + [f"  {line}" for line in case.check(folder)]
        return lines

    def told(self, case: Case, samples: dict[str, list[Sample]]) -> list[str]:
        if not self.fields:
            return samples["ours"][-1].printed.splitlines()
        read = {side: [readings(self.fields.split(), sample.printed) for sample in its] for side, its in samples.items()}
        least, median = picked(read, min), picked(read, lambda times: sorted(times)[len(times) // 2])
        if "theirs" not in read:
            return self.more(least, samples["ours"][-1].printed.splitlines())
        lines = []
        for kind, (time, sums) in least["ours"].items():
            other = next((its for its in least["theirs"] if kind == its or kind.endswith(f"_{its}")), None)
            if other is None or kind == "begin":
                continue
            ratios = [of["ours"][kind][0] / max(of["theirs"][other][0], 1e-9) for of in (least, median)]
            differs = "; THE TWO DID OTHER THINGS" if sums != least["theirs"][other][1] else ""
            name = " ".join(word for word in (case.name, kind) if word) or "time"
            if time and self.shows(kind) or differs:
                lines.append(f"{name}: {time * self.scale:.1f} {self.unit}, peer {least['theirs'][other][0] * self.scale:.1f}: "
                             f"{ratios[0]:.2f}, by the median {ratios[1]:.2f}{aim_of(self.aim)}{differs}")
        return lines + (self.more(least, []) if self.more else [])

    def build(self, name: str, folder: Path) -> Path:
        """The program, in a folder of copies that is handed the libraries which were proved of the same sources."""
        crates = below(self.above.split())
        shutil.copy(ROOT / "HANDLES", folder)
        for crate in crates:
            for part in ("src", "specs", "proofs"):
                copied(ROOT / "crates" / crate / part, folder / "crates" / crate / part)
        own = folder / f"crates/bench_{name}"
        for part in ("src", "specs", "proofs"):
            shutil.rmtree(own / part, ignore_errors=True)
        for file in (HERE / name).rglob("*.in"):
            inner = Path("src") / file.name if file.parent == HERE / name else file.relative_to(HERE / name)
            place = (own / inner).with_suffix("")
            place.parent.mkdir(parents=True, exist_ok=True)
            shutil.copy(file, place)
        (folder / "crates.txt").write_text("\n".join([*crates.values(), f"bench_{name}: {self.above}"]) + "\n")
        if not self.is_proved:
            command([HERE / "unproved.sh", folder / "program"], env={**os.environ, "ROOT": str(folder), "CRATE": f"bench_{name}"})
            return folder / "program"
        subprocess.run([ROOT / "tools/rt-helpers/hand-libraries", ROOT, folder], capture_output=True)
        program = own / f"out/bench_{name}"
        program.unlink(missing_ok=True)
        # It may end in a fault there, where what it reads isn't made yet. What an earlier call built must not be timed.
        done = subprocess.run(["rt", "run"], cwd=own, capture_output=True, text=True)
        if not program.is_file():
            sys.exit(f"bench/run: {name} isn't built\n{done.stdout[-2000:]}{done.stderr[-2000:]}")
        return program

    def build_peer(self, name: str, folder: Path) -> Path | None:
        if self.peer != "plain":
            return tool(self.peer) if self.peer else None
        source = folder / "peer/main.rs"
        source.parent.mkdir(exist_ok=True)
        for file in self.rustc(folder):
            shutil.copyfile(file, source.parent / file.name)
        shutil.copyfile(HERE / name / "plain.rs", source)
        flags = ["--edition", "2021", "-O", "-C", "target-cpu=x86-64-v2", "-A", "warnings"]
        command(["rustc", *flags, "-o", folder / "plain", source])
        return folder / "plain"


def copied(source: Path, place: Path) -> None:
    shutil.rmtree(place, ignore_errors=True)
    if source.is_dir():
        shutil.copytree(source, place)


def picked(read: dict[str, list[Readings]], pick: Callable[[list[float]], float]) -> dict[str, Readings]:
    """By side and kind one of the times, and the sums."""
    return {side: {kind: (pick([one[kind][0] for one in its]), its[-1][kind][1]) for kind in its[-1]} for side, its in read.items()}


def readings(fields: list[str], printed: str) -> Readings:
    """By kind the times of its lines, in sum, and their sums."""
    found: Readings = {}
    for line in printed.splitlines():
        words = dict(zip(fields, line.split()))
        if not re.fullmatch(r"\d+", words.get("time", "")):
            continue
        time, sums = found.get(words.get("kind", ""), (0.0, []))
        found[words.get("kind", "")] = (time + float(words["time"]), [*sums, words.get("sum", "")])
    return found


# What single rows have of their own.

def begun(least: dict[str, Readings], _: list[str]) -> list[str]:
    return [f"begin: {least['ours']['begin'][0] / least['theirs']['clear'][0]:.1f} times a plain clear of as much memory"]


def threads(least: dict[str, Readings], lines: list[str]) -> list[str]:
    told = begun(least, lines)
    for side, its in least.items():
        apart, together = (4 * its[f"{of}_1"][0] / its[f"{of}_4"][0] for of in ("apart", "one_bucket"))
        told.append(f"{side}: four threads do {apart:.2f} times the calls of one over keys apart (aim 3), "
                    f"{together:.2f} times over one bucket (aim 0.5)")
    return told


def log_calls(least: dict[str, Readings], lines: list[str]) -> list[str]:
    """Each row's calls in times two exchanges of one word; its sum is how many calls did what they should."""
    wanted = {"append": 65532, "threads_1": 65532, "threads_4": 65532, "see": 1}
    ours = least["ours"]
    each = {kind: time / wanted.get(kind, 200_000) for kind, (time, _) in ours.items()}
    aims = {"pin_empty": " (aim 60 over them)", "append": " (aim 150 in all)"}
    told = [f"{kind}: {ns:.1f} ns, {ns - each['exchange']:.1f} over two exchanges{aims.get(kind, '')}"
            for kind, ns in each.items() if kind != "see"]
    told.append(f"65,532 records seen for the first time: {ours['see'][0] / 1e6:.2f} ms (aim 3)")
    told.append(f"four threads append {ours['threads_1'][0] / ours['threads_4'][0]:.2f} times the records of one (aim 0.5)")
    return told + [f"{kind}: not all calls did what they should"
                   for kind, (_, sums) in ours.items() if sums[-1] != str(wanted.get(kind, 200_000))]


def tinted(_: dict[str, Readings], lines: list[str]) -> list[str]:
    """Turns and times of tinted acts in times those of the plain one, which is the line before."""
    told, plain = [], {}
    for kind, *words in map(str.split, lines):
        numbers = [int(word) for word in words]
        # A fill's size and tint, its turns, those of one over it, and its time; a stamp's place, whether it is tinted, its
        # turns and time; how many tinted fills a save's world has, and its time.
        at = 0 if kind == "save" else 3
        tint, counted = numbers[at], numbers[at + 1:]
        if not tint:
            plain[kind] = counted
        times = ", ".join(f"{a / max(b, 1):.2f}" for a, b in zip(counted, plain.get(kind) or counted))
        what = " ".join(words[: at + 1])
        told.append(f"{kind} {what}: {', '.join(map(str, counted))}; in times the plain one's {times}")
    return told


def floods(folder: Path, peer: Path | None) -> list[Case]:
    cases = []
    for kind in ("empty", "porous", "spiral"):
        room(f"parts/flood/{kind}")
        command([peer, "make", kind, folder / kind / "model.vox"])
        cases.append(Case(kind, [], ["model.vox"], kind))
    return cases


def texts(folder: Path, _: Path | None) -> list[Case]:
    command(["python3", HERE / "texts/make.py"], cwd=folder)
    return [Case()]


def scenes(folder: Path, _: Path | None) -> list[Case]:
    command(["python3", ROOT / "oracle/scenes.py", "large", folder / "scenes.in"])
    check = lambda at: ["what the two wrote differs"] * ((at / "product.out").read_bytes() != (at / "peer.out").read_bytes())
    return [Case(check=check)]


def saves(folder: Path, _: Path | None) -> list[Case]:
    ordered = made_once(room("files") / "ordered.vox", "make_plain", "ordered")
    (folder / "ordered.vox").unlink(missing_ok=True)
    (folder / "ordered.vox").symlink_to(ordered)
    return [Case(check=lambda at: ["what was written differs"] * ((at / "product.vox").read_bytes() != ordered.read_bytes()))]


def worlds_of(what: str) -> Callable[[Path, Path | None], list[Case]]:
    """Each workload of worlds/make.py: a script that is played over the store for one thread and over the peer's octree."""
    def cases(folder: Path, _: Path | None) -> list[Case]:
        model = ROOT / "models/letter.vox"
        made = []
        for name in command(["python3", HERE / "worlds/make.py", folder, what], env={**os.environ, "MODEL": str(model)}).split():
            stamped = folder / f"{name[6:]}.vox" if name in ("stamp_shell", "stamp_points") else model
            shutil.copyfile(stamped, folder / name / "model.vox")
            words: Words = [*(folder / name / "words").read_text().split()]
            made.append(Case(name, words, words, name))
        return made

    return cases


def octree(_: Path) -> list[Path]:
    return [timed.peers() / "svdag_rs/src" / name for name in ("store.rs", "ask.rs")]


CALLS = Part("store_run history_model node_words transcript vox_read vw_cell", "", is_proved=False)


def over_library(name: str) -> tuple[Path, Path]:
    """A folder to run in, and the program of C of this name over the proved library."""
    folder = room("library")
    made, program = folder / "made", folder / name
    if not (made / "libvoxdag.a").is_file():
        command([ROOT / "tools/build-library", made])
    flags = ["-O2", "-std=c11", "-Wall", "-I", ROOT / "include"]
    command(["cc", *flags, "-o", program, HERE / f"library/{name}.c", made / "libvoxdag.a"])
    return folder, program


@dataclass(frozen=True)
class Library:
    """60,000 small fills through C beside the program's time for them, and 1,000,000 gets beside those of the crate."""

    def run(self, name: str, rounds: int, is_counted: bool) -> list[str]:
        folder, calls = over_library("calls")
        command([calls, "fills.txt", "60000", "0"], cwd=folder)
        (folder / "none.txt").write_text("")
        run = [product(), "run", "--side", "256", ROOT / "models/one.vox"]
        crate = CALLS.build("library", room("parts/library"))
        found = timed.in_turn(rounds, {
            "crate": lambda: timed.timed([crate], folder), "c": lambda: timed.timed([calls, "-", "60000", "1000000"], folder),
            "fills": lambda: timed.timed([*run, "fills.txt"], folder), "none": lambda: timed.timed([*run, "none.txt"], folder)})
        words = found["c"].printed.split()
        said = dict(zip(words[::2], words[1::2]))
        done = (folder / "fills.txt.out").read_text().count(" ok\n")
        differs = "" if said["done"] == str(done) else f"; THE TWO DID OTHER THINGS: {said['done']}, {done}"
        program = found["fills"].least - found["none"].least
        return [f"{name}, of {rounds}: fills by C {float(said['total']) / 1e9:.3f} s (the last), "
                f"by the program {program:.3f} s, opening apart; "
                f"a get by C {said['get']} ns, by the crate {found['crate'].printed.split()[1]} ns{differs}"]


@dataclass(frozen=True)
class Journal:
    """A journal of 65,535 small fills that a world is opened from: time and memory, beside making the changes."""

    def run(self, name: str, rounds: int, is_counted: bool) -> list[str]:
        folder, program = over_library("journal")
        found = timed.in_turn(rounds, {
            "made": lambda: timed.timed([program, "journal.txt", "65535"], folder), "opened": lambda: timed.timed([program, "journal.txt"], folder)})
        words = found["opened"].printed.split()
        said = dict(zip(words[::2], words[1::2]))
        differs = "" if said["newest"] == "65535" and said["same"] == "1" else "; THE WORLD IS ANOTHER"
        return [f"{name}, of {rounds}: making 65,535 changes {found['made'].least:.3f} s, opening their journal {found['opened'].least:.3f} s "
                f"({said['open']} ms of the processor in the call, the last), peak {found['opened'].peak / 1e6:.0f} MB{differs}"]


@dataclass(frozen=True)
class Surface:
    """The cells of a box that can be seen, listed: three worlds, beside `faces` of the same box; or a call's instructions."""

    def run(self, name: str, rounds: int, is_counted: bool) -> list[str]:
        folder, program = over_library("surface")
        return [f"{name}: {self.told(folder, program, kind, rounds, is_counted)}" for kind in ("full", "ball", "ground")]

    def told(self, folder: Path, program: Path, kind: str, rounds: int, is_counted: bool) -> str:
        if is_counted:
            once, often = (timed.counted([program, kind, calls], folder)[0] for calls in ("1", "5"))
            return f"{kind}, {(often - once) / 4e6:.1f} million instructions for a call of each"
        found = timed.in_turn(rounds, {kind: lambda: timed.timed([program, kind, "20"], folder)})
        words = found[kind].printed.split()
        said = dict(zip(words[::2], map(float, words[1::2])))
        aim = 1.5 * said["faces"] + 4e-6 * said["listed"]
        return f"{kind}, {said['listed']:.0f} cells: {said['surface']:.2f} ms, `faces` {said['faces']:.2f} ms, aim {aim:.1f}"


STORES = " ".join(reversed(below("edit_ops edit_copy edit_stamp measure ray_walk extract script one_store".split())))
ROWS: dict[str, Part | Library | Journal | Surface] = {
    "kernels": Part("node_words vw_cell", "", peer=None),
    "one_store": Part("one_store core_laws node_words vw_cell", "kind time sum", scale=0.1, aim=1.3, more=begun, peaks={
        "a store of side 4,096 by the usual plan": ["usual"],
        "one of side 256 with 4,096 buckets of 256 a level": ["large", "plan"]}),
    "table": Part("session release intern node_table table_rule one_store edit_walk history_model vox_read node_words vw_cell",
                  "kind time sum", scale=0.1, aim=1.5, more=threads, peaks={"a table of side 4,096 by the usual plan": ["usual"]}),
    "log": Part("version_log release intern node_table history_model vox_read node_words vw_cell", "kind time sum", peer=None,
                is_proved=False, more=log_calls),
    "tints": Part("core_laws colour history_model edit_ops edit_stamp extract one_store vox_read vox_write node_words vw_cell",
                  "kind time", peer=None, is_proved=False, more=tinted),
    "flood": Part("flood edit_stamp edit_walk one_store node_words vox_read vw_cell", "time sum", "ms", 1e-3, aim=1, cases=floods),
    "texts": Part("plain_text vw_cell vox_read history_model transcript", "kind time sum", "ms", 1e-3, aim=2, cases=texts),
    "scenes": Part("byteorder vox_read vox_scene vw_cell", "time sum", "ms", 1e-3, peer="scene", aim=1.5, cases=scenes),
    "save": Part("vw_cell vox_chunk vox_read vox_write", "time sum", "ms", 1e-3, cases=saves),
    "edits": Part(STORES, "kind . time sum", "ms", 1e-6, is_proved=False, aim=1.2, cases=worlds_of("edits"), rustc=octree,
                  source="worlds", shows=lambda kind: kind == "edit"),
    "questions": Part(STORES, "kind . time sum", "ms", 1e-6, is_proved=False, aim=1.5, cases=worlds_of("questions"), rustc=octree,
                      source="worlds", shows=lambda kind: kind == "edit"),
    "library": Library(),
    "journal": Journal(),
    "surface": Surface(),
}

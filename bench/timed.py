"""Processes that are run in turn: their times, peaks of memory and, under valgrind, their counts."""
import os
import re
import statistics
import subprocess
import sys
from collections.abc import Callable, Iterable
from dataclasses import dataclass
from pathlib import Path

HERE = Path(__file__).resolve().parent
ROOT = HERE.parent
WORK = HERE / "work"
# What is timed asks for pages of 2 MB as the launcher does, the program and what stands beside it.
os.environ.setdefault("GLIBC_TUNABLES", "glibc.malloc.hugetlb=1")
PROGRAMS = [ROOT / ".build/voxdag", ROOT / "crates/voxdag/out/voxdag"]
# The counted cache: a first level of 48 KB, and a last one of 1 MB.
VALGRIND = ["valgrind", "--tool=callgrind", "--callgrind-out-file=/dev/null", "--cache-sim=yes", "--D1=49152,12,64",
            "--LL=1048576,16,64"]
COUNTED = {"instructions": r"I\s+refs:", "misses of 48 KB": r"D1\s+misses:", "misses of 1 MB": r"LLd misses:"}
Words = list[str | Path]


@dataclass(frozen=True)
class Sample:
    seconds: float
    peak: int  # bytes
    printed: str
    processor: float = 0.0  # seconds, of all threads


@dataclass(frozen=True)
class Best:
    """Of the runs of one command: the least and the median time, the least processor time, the greatest peak, and what the
    last one printed."""
    least: float
    median: float
    peak: int
    printed: str
    processor: float


def product() -> Path:
    """The program: VOXDAG, or the one that was proved last."""
    named = os.environ.get("VOXDAG")
    found = [Path(named)] if named else PROGRAMS
    program = next((path for path in found if path.is_file()), None)
    if not program:
        sys.exit(f"bench/run: there is no program {found[0]}: ./prove makes it, or VOXDAG names another")
    return program.resolve()


def peers() -> Path:
    """The folder of the peer and its workloads, which is no part of the repository."""
    folder = Path(os.environ.get("PEERS", ""))
    if not (folder / "gen.py").is_file():
        sys.exit("bench/run: PEERS must name the folder of the peer (svdag_rs) and of its workloads (gen.py)")
    return folder.resolve()


def command(words: Iterable[str | Path], **more: object) -> str:
    done = subprocess.run([str(word) for word in words], capture_output=True, text=True, **more)
    if done.returncode:
        sys.exit(f"bench/run: status {done.returncode}: {' '.join(map(str, words))}\n{done.stdout[-2000:]}{done.stderr[-2000:]}")
    return done.stdout


def tool(name: str) -> Path:
    """A program of c/, compiled where it is older than its source."""
    source, made = HERE / f"c/{name}.c", WORK / name
    WORK.mkdir(exist_ok=True)
    if not made.is_file() or made.stat().st_mtime < source.stat().st_mtime:
        command(["cc", "-O2", "-Wall", "-o", made, source])
    return made


def made_once(file: Path, maker: str, *words: str) -> Path:
    """A file that a program of c/ writes."""
    if not file.is_file():
        part = file.with_suffix(".part")
        command([tool(maker), *words, part])
        part.rename(file)
    return file


def timed(words: Words, folder: Path) -> Sample:
    result = WORK / "result"
    printed = command([tool("peak"), result, *words], cwd=folder)
    seconds, peak, processor = result.read_text().split()
    return Sample(float(seconds), int(peak), printed, float(processor))


def counted(words: Words, folder: Path) -> list[int]:
    """Instructions, and misses of data in caches of 48 KB and of 1 MB."""
    done = subprocess.run([*VALGRIND, *map(str, words)], cwd=folder, capture_output=True, text=True)
    if done.returncode:
        sys.exit(f"bench/run: status {done.returncode}: {' '.join(map(str, words))}\n{done.stderr[-2000:]}")
    return [int(re.search(rf"{shape}\s*([\d,]+)", done.stderr)[1].replace(",", "")) for shape in COUNTED.values()]


def in_turn(rounds: int, runs: dict[str, Callable[[], Sample]]) -> dict[str, Best]:
    """Each run once in each round."""
    samples: dict[str, list[Sample]] = {name: [] for name in runs}
    for _ in range(rounds):
        for name, run in runs.items():
            samples[name].append(run())
    return {name: best(its) for name, its in samples.items()}


def best(samples: list[Sample]) -> Best:
    times = [sample.seconds for sample in samples]
    return Best(min(times), statistics.median(times), max(sample.peak for sample in samples), samples[-1].printed,
                min(sample.processor for sample in samples))


def load() -> str:
    return "load " + " ".join(Path("/proc/loadavg").read_text().split()[:3])


def aim_of(aim: float | None) -> str:
    return f" (aim {aim:g})" if aim else ""

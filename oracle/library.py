#!/usr/bin/env python3
"""Compares the library with the world of plain Python (bindings/python/voxdag/slow.py), call by call.

    oracle/library.py [SEED] [CALLS] [--library PATH] [--program PATH]

So many calls by chance (100,000) are made of worlds of sides 4 to 32, each lives for some hundreds of calls: changes,
undos, versions that are forgotten, every question, saves, journals, files of versions, which are asked by themselves
too; journals are gone on with, some with one byte changed; scenes by chance are opened, as oracle/scenes.py reads them; and in one call of eight a number is
wrong. What the library answers, or its refusal with the line
that it tells, has to be what the slow world answers. SEED is by default the day's date as a number. Calls that the
library doesn't export are named and passed over.

With the program there, `audit --keep` is asked of worlds that hold their last versions alone: of the journal, with a
script of the changes and a transcript in which each was done, it says yes, and with another number no. The last line is
'N passed, M failed'.
"""

import argparse
import datetime
import pathlib
import subprocess
import sys
import tempfile
import time
from collections import Counter
from random import Random

ROOT = pathlib.Path(__file__).resolve().parent.parent
sys.path.insert(0, str(ROOT / "bindings/python"))

import scenes
import voxdag
from voxdag import slow

LIFE = 400  # calls of a world
# VOX files that fit into small worlds, and how many models they have.
FILES = [(b"", 0), *(((ROOT / f"models/{name}.vox").read_bytes(), count) for name, count in (("one", 1), ("court", 4), ("stairs", 1)))]
CHANGES = {"fill": 10, "erase": 6, "ball": 6, "carve": 4, "copy": 6, "stamp": 5, "undo": 7, "redo": 5, "forget": 4}
QUESTIONS = {
    "get": 8, "colour": 4, "count": 6, "faces": 4, "bounds": 4, "ray": 5, "same": 4, "changes": 8, "surface_bytes": 8, "save": 3, "tints": 2,
    "flood": 3, "journal": 2, "dag": 1, "newest": 2, "model_size": 2, "about": 1, "go_on": 2, "open_scene": 1, "of_file": 1,
}
NEEDS = {"of_file": "versions_open", "surface_bytes": "surface", "tints": "save", "go_on": "open_journal"}


class Differs(Exception):
    """The two worlds don't answer alike."""


def plain(answer: object) -> object:
    """An answer as something that can be compared."""
    return answer.tolist() if hasattr(answer, "tolist") else answer


def outcome(call, *arguments: object, **more: object) -> tuple:
    """What a call answers, or its refusal."""
    try:
        return "answers", plain(call(*arguments, **more))
    except voxdag.Refused as refused:
        return "refuses", type(refused).__name__, refused.line


class Pair:
    """The same world twice: the library's and the slow one."""

    def __init__(self, library: voxdag.Library, rng: Random) -> None:
        self._rng, self._library = rng, library
        self.side = rng.choice([4, 8, 8, 16, 16, 32])
        self.tints = library.exports("fill_tint") and rng.random() < 0.5
        self.keep = rng.choice([0, 0, 1, 3, 20]) if library.exports("open_as") else 0
        self.file, self.models = rng.choice(FILES)
        plan = {"tints": self.tints, "keep": self.keep, "models": self.file}
        self.fast = voxdag.World(self.side, library=library, **plan)
        self.slow = slow.World(self.side, **plan)

    def both(self, name: str, arguments: tuple) -> str:
        """Makes one call of both worlds, and gives what kind of answer came."""
        def of(world: object) -> tuple:
            value = getattr(type(world), name)
            return outcome(lambda: getattr(world, name)) if isinstance(value, property) else outcome(getattr(world, name), *arguments)

        given = of(self.fast)
        wanted = of(self.slow)
        if given != wanted:
            raise Differs(f"{name}{arguments}: wanted {str(wanted)[:300]}, given {str(given)[:300]}")
        return given[1] if given[0] == "refuses" else name

    # ---- arguments by chance

    def number(self, most: int) -> int:
        """A number below this one; now and then none that fits."""
        if self._rng.random() < 0.02:
            return self._rng.choice([most, most + 1, 65535, 65536, 1 << 31, (1 << 32) - 1])
        return self._rng.randrange(max(1, most))

    def place(self) -> tuple:
        return tuple(self.number(self.side) for _ in range(3))

    def box(self, most: int) -> tuple:
        """A box that mostly lies in the world."""
        at = self.place()
        size = tuple(self._rng.randrange(1, max(2, min(most, self.side - n if n < self.side else 1) + 1)) for n in at)
        return at + (size if self._rng.random() > 0.02 else (self._rng.choice([0, self.side + 1, 257]), *size[1:]))

    def version(self) -> int:
        return self.number(self.slow.newest + 1)

    def arguments(self, name: str) -> tuple:
        """Of a call: mostly such that it isn't refused."""
        rng, tint = self._rng, ()
        if self.tints and rng.random() < 0.8 or rng.random() < 0.02:
            tint = (rng.choice([0, 256]) if self.tints and rng.random() < 0.02 else rng.randrange(1, 256),)
        if not self._library.exports("fill_tint"):
            tint = ()
        makers = {
            "fill": lambda: (self.box(8), *tint), "erase": lambda: (self.box(8),), "ball": lambda: (self.place(), self.number(6), *tint),
            "carve": lambda: (self.place(), self.number(6)), "copy": self.copied, "stamp": lambda: (self.number(self.models), self.place()),
            "forget": lambda: (self.version(),), "get": lambda: (self.version(), self.place()), "colour": lambda: (self.version(), self.place()),
            "count": lambda: (self.version(), self.box(99)), "faces": lambda: (self.version(), self.box(99)), "bounds": lambda: (self.version(),),
            "ray": lambda: (self.version(), self.place(), tuple(rng.choice([-1, 0, 1, rng.randrange(-30, 31), self.number(1026)]) for _ in range(3))),
            "same": lambda: (self.version(), self.version()), "changes": lambda: (self.version(), self.version()),
            "surface_bytes": lambda: (self.version(), self.box(99)), "save": lambda: (self.version(), self.box(99)), "tints": lambda: (self.version(), self.box(12)),
            "flood": self.flooded, "model_size": lambda: (self.number(5),),
        }
        return makers[name]() if name in makers else ()

    def copied(self) -> tuple:
        box = self.box(8)
        return box, tuple(self._rng.randrange(max(1, self.side - n + 1)) if n <= self.side else 0 for n in box[3:])

    def flooded(self) -> tuple:
        box = self.box(99)
        return self.version(), box, tuple(n + self.number(max(1, m)) for n, m in zip(box, box[3:]))

    # ---- going on

    def go_on(self) -> str:
        """Opens both worlds anew from the journal, which is sometimes spoiled."""
        journal = bytearray(self.slow.journal())
        is_spoiled = self._rng.random() < 0.6
        if is_spoiled:
            self.spoil(journal)
        keep = self._rng.choice([0, 2, 9]) if self._library.exports("open_as") else 0
        more = {"models": self.file if self._rng.random() < 0.95 else b"", "keep": keep}
        given = outcome(voxdag.World.open_journal, bytes(journal), library=self._library, **more)
        wanted = outcome(slow.World.open_journal, bytes(journal), **more)
        if given[0] == "refuses" or wanted[0] == "refuses":
            if given != wanted:
                raise Differs(f"open_journal of {bytes(journal)[-300:]!r}: wanted {wanted}, given {given}")
            return f"{given[1]} of a journal"
        new, other = given[1], wanted[1]
        if is_spoiled:
            same = new.journal() == other.journal() == bytes(journal)
            new.close()
            if not same:
                raise Differs(f"the journal of a journal: {bytes(journal)[-300:]!r}")
            return "another journal"
        self.fast.close()
        self.fast, self.slow, self.keep = new, other, keep
        if new.journal() != bytes(journal):
            raise Differs("a world that is gone on with has another journal")
        return "go_on"

    def of_file(self) -> str:
        """Asks the file of versions beside the slow world; a version that was forgotten isn't there. With tints the file has
        other cells, those of the store."""
        with voxdag.Versions(self.slow.dag(), library=self._library) as file:
            if (file.side, file.newest) != (4 * self.side if self.tints else self.side, self.slow.newest):
                raise Differs(f"the file of versions has side {file.side} and version {file.newest}")
            for name in () if self.tints else ("get", "count", "faces", "bounds", "ray", "same", "changes", "surface_bytes", "save", "flood"):
                arguments = self.arguments(name)
                given, wanted = (outcome(getattr(of, name), *arguments) for of in (file, self.slow))
                if given != tuple("NoVersion" if word == "Forgotten" else word for word in wanted):
                    raise Differs(f"{name}{arguments} of a file: wanted {str(wanted)[:300]}, given {str(given)[:300]}")
        return "of_file"

    def spoil(self, journal: bytearray) -> None:
        """Changes a byte, or an act, or takes a line out, or cuts the end off."""
        at = self._rng.randrange(len(journal))
        kind = self._rng.randrange(6)
        if kind < 2:
            journal[at] = self._rng.choice(b"0123456789 \nabe-\xff")
        elif kind < 5:
            lines = bytes(journal).split(b"\n")
            line = self._rng.randrange(len(lines))
            words = lines[line].split(b" ")
            if kind == 2:
                del lines[line]
            elif words[0].isdigit():
                lines[line] = b" ".join([*words[:3], self._rng.choice([b"undo", b"redo", b"stamp 9 0 0 0", b"stamp 0 0 0 0"])])
            journal[:] = b"\n".join(lines)
        else:
            del journal[at:]


def built(data: bytes, side: int, tints: bool, keep: int) -> tuple[slow.World, int]:
    """The slow world of a scene, and how many models stand in it."""
    slow.World(side or 4, tints=tints)
    try:
        scene = scenes.scene(data)
    except scenes.Fault as fault:
        raise voxdag.BadScene(*fault.args) from None
    stamps = scene.script.decode().splitlines()
    least = int(scene.line.split()[1])
    if tints and not side and least > 1024:
        raise voxdag.Outside()
    lines = [f"voxdag journal {1 + tints}", f"side {side or least}", *(f"{n} 0 {n} {stamp}" for n, stamp in enumerate(stamps, 1)), "end", ""]
    try:
        return slow.World.open_journal("\n".join(lines).encode(), models=scene.file, keep=keep), len(stamps)
    except (voxdag.NotLegal, voxdag.BadJournal):
        raise voxdag.Outside() from None


def open_scene(library: voxdag.Library, rng: Random) -> str:
    """Opens a scene by chance, and compares its world with the slow one."""
    data = scenes.file_of(rng)
    plan = {"side": rng.choice([0, 0, 0, 4, 16, 64, 256, 7, 2048]), "tints": rng.random() < 0.3, "keep": rng.choice([0, 2])}
    answers = []
    for call in (lambda: voxdag.World.open_scene(data, library=library, **plan), lambda: built(data, **plan)):
        try:
            answers.append(call())
        except voxdag.Refused as refused:
            answers.append(str(refused))
    given, wanted = answers
    if isinstance(given, str) or isinstance(wanted, str):
        if given != wanted:
            raise Differs(f"a scene of {len(data)} bytes, {plan}: wanted {wanted}, given {given}")
        return "a scene's refusal"
    with given[0] as world, wanted[0] as other:
        if given[1] != wanted[1]:
            raise Differs(f"a scene of {len(data)} bytes, {plan}: wanted {wanted[1]} placements, given {given[1]}")
        at = world.newest
        box = world.bounds(at) or (0, 0, 0, 1, 1, 1)
        part = (*box[:3], *(min(n, 256) for n in box[3:]))
        for ask in (lambda w: w.journal(), lambda w: tuple(w.about), lambda w: w.bounds(at), lambda w: w.count(at // 2, box), lambda w: w.save(at, part),
                    lambda w: outcome(w.undo), lambda w: w.journal()):
            if ask(world) != ask(other):
                raise Differs(f"a scene of {len(data)} bytes, {plan}: its world differs")
    return "open_scene"


def compare(library: voxdag.Library, seed: int, calls: int) -> tuple[int, Counter]:
    """How many worlds differ, and how often each kind of answer came."""
    weights = {name: weight for name, weight in {**CHANGES, **QUESTIONS}.items() if library.exports(NEEDS.get(name, name))}
    passed_over = [name for name in {**CHANGES, **QUESTIONS} if name not in weights]
    if passed_over:
        print(f"passed over, since the library doesn't export them: {' '.join(passed_over)}", flush=True)
    names, kinds, made, number, differ = [*weights], Counter(), 0, 0, 0
    while made < calls and differ < 3:
        rng = Random(f"{seed} {number}")
        pair, asked = Pair(library, rng), []
        for _ in range(min(LIFE, calls - made)):
            name = rng.choices(names, [*weights.values()])[0]
            made += 1
            try:
                arguments = pair.arguments(name)
                asked.append((name, arguments))
                other = {"go_on": pair.go_on, "of_file": pair.of_file, "open_scene": lambda: open_scene(library, rng)}.get(name)
                kinds[other() if other else pair.both(name, arguments)] += 1
            except Differs as differs:
                differ += 1
                print(f"seed {seed}, world {number}, side {pair.side}, tints {pair.tints}, keep {pair.keep}, call {len(asked)}\n  {differs}", flush=True)
                break
        pair.fast.close()
        number += 1
    print(f"{made} calls of {number} worlds: " + ", ".join(f"{kind} {count}" for kind, count in sorted(kinds.items())))
    return differ, kinds


def spelled(name: str, arguments: tuple, tints: bool) -> str:
    """A change as a script's line. A cell without a word for its tint gets the first one."""
    numbers = [n for given in arguments for n in (given if isinstance(given, tuple) else (given,))]
    if name == "copy":
        numbers.insert(6, "to")
    elif tints and name in ("fill", "ball") and len(arguments) == 1 + (name == "ball"):
        numbers.append(1)
    return " ".join(map(str, [name, *numbers]))


def changed(pair: Pair, rng: Random, number: int) -> tuple[str, str]:
    """Makes so many changes of a pair's worlds, and gives a script and a transcript of those that aren't refused."""
    script, transcript = [], []
    while len(script) < number:
        name = rng.choices([*CHANGES], [*CHANGES.values()])[0]
        arguments = pair.arguments(name)
        if pair.both(name, arguments) == name:
            script.append(spelled(name, arguments, pair.tints))
            said = f"forgot {arguments[0]}" if name == "forget" else "ok"
            transcript.append(f"{len(script)} @{pair.slow.newest} {said}")
    return "".join(line + "\n" for line in script), "".join(line + "\n" for line in transcript)


def audit(library: voxdag.Library, program: str, rng: Random) -> int:
    """Asks for audits of a world that holds its last versions alone, and gives for which number no other answer came than
    it should."""
    pair = Pair(library, rng)
    while not pair.keep:
        pair = Pair(library, rng)
    script, transcript = changed(pair, rng, pair.keep + rng.randint(3, 20))
    with tempfile.TemporaryDirectory() as folder:
        place = pathlib.Path(folder)
        for name, content in (("m", pair.file or FILES[1][0]), ("j", pair.fast.journal()), ("s", script.encode()), ("s.out", transcript.encode())):
            (place / name).write_bytes(content)
        for keep, wanted in ((pair.keep, "yes\n"), (pair.keep + 1, "no\n"), (0, "no\n")):
            words = [program, "audit", *(["--keep", str(keep)] if keep else []), "m", "j", "s"]
            done = subprocess.run(words, cwd=folder, capture_output=True, text=True, timeout=600)
            if (done.returncode, done.stdout, done.stderr) != (0, wanted, ""):
                said = f"{done.returncode} {done.stdout}{done.stderr}"
                raise Differs(f"audit --keep {keep} of {pair.fast.journal()}, {script!r}: wanted {wanted}, given {said}")
    pair.fast.close()
    return pair.keep


def audits(library: voxdag.Library, program: str, seed: int, worlds: int = 40) -> int:
    """How many of so many worlds aren't audited as they should be."""
    kinds, differ = Counter(), 0
    for number in range(worlds):
        try:
            kinds[audit(library, program, Random(f"{seed} audit {number}"))] += 1
        except Differs as differs:
            differ += 1
            print(f"seed {seed}, audit {number}\n  {differs}", flush=True)
    print(f"{worlds} audits: " + ", ".join(f"--keep {keep} {count}" for keep, count in sorted(kinds.items())))
    return differ


def main() -> None:
    parser = argparse.ArgumentParser(description=__doc__, formatter_class=argparse.RawDescriptionHelpFormatter)
    parser.add_argument("seed", nargs="?", type=int, default=int(f"{datetime.date.today():%Y%m%d}"))
    parser.add_argument("calls", nargs="?", type=int, default=100_000)
    parser.add_argument("--library", type=pathlib.Path)
    parser.add_argument("--program", type=pathlib.Path)
    words = parser.parse_args()
    begin = time.monotonic()
    library = voxdag.load(words.library)
    failed = [compare(library, words.seed, words.calls)[0] > 0]
    if words.program and library.exports("open_as"):
        failed.append(audits(library, str(words.program.resolve()), words.seed) > 0)
    print(f"{time.monotonic() - begin:.0f} s")
    print(f"{failed.count(False)} passed, {failed.count(True)} failed")
    sys.exit(any(failed))


if __name__ == "__main__":
    main()

"""Models, scripts and options of runs, by chance. Each script can be read: its boxes and models lie in the world."""

from random import Random

from model import Model, Plan, USUAL
from texts import Command, commands, vox

TINTS = (1, 2, 3, 5, 128, 254, 255)


class Setting:
    """The words and files of a run."""

    def __init__(self, rng: Random, side: int, coloured: bool = False, keep: int = 0) -> None:
        self.rng, self.side, self.coloured, self.keep = rng, side, coloured, keep
        self.vox, self.models = models(rng, side)
        self.buckets: int | None = None
        self.plan = Plan()
        self.texts: dict[str, str] = {}

    def room(self, buckets: int | None, cap: int | None) -> None:
        self.buckets = buckets
        self.plan = Plan((buckets,) * 11 if buckets else USUAL, cap or 128)

    @property
    def store(self) -> list[str]:
        return ["--buckets", str(self.buckets)] if self.buckets else []

    @property
    def kept(self) -> list[str]:
        return ["--keep", str(self.keep)] if self.keep else []

    @property
    def scripts(self) -> list[list[Command]]:
        return [commands(text) for text in self.texts.values()]

    def run_words(self) -> list[str]:
        """The words of the run; the options stand in any order, each in one of its two forms."""
        options = [["--side", str(self.side)], self.store, self.kept, ["--journal", "j"], ["--report", "p"],
                   ["--cap", str(self.plan.cap)] if self.plan.cap != 128 else [], ["--colours"] if self.coloured else []]
        options = [["=".join(o)] if len(o) == 2 and self.rng.random() < 0.3 else o for o in options]
        parts = [*options, ["m.vox", *self.texts]]
        self.rng.shuffle(parts)
        return ["run", *(word for part in parts for word in part)]

    def audit_words(self) -> list[str]:
        options = [self.store, self.kept]
        self.rng.shuffle(options)
        return ["audit", *options[0], *options[1], "m.vox", "j", *self.texts]


def models(rng: Random, side: int) -> tuple[bytes, list[Model]]:
    """A VOX file and its models. The last group of a place gives its tint."""
    files, read = [], []
    for _ in range(rng.randint(1, 3)):
        size = tuple(rng.randint(1, min(side, 5)) for _ in range(3))
        groups = [(*(rng.randrange(s) for s in size), rng.choice([0, *TINTS, rng.randrange(256)]))
                  for _ in range(rng.randrange(12))]
        tints = {group[:3]: group[3] for group in groups}
        files.append((size, groups))
        read.append(Model(size, {cell: tint for cell, tint in tints.items() if tint}))
    return vox(files), read


def box(rng: Random, side: int) -> list[int]:
    """A box of the world: large, small, or of whole leaves."""
    kind = rng.randrange(4)
    if kind == 0:
        size = [4 * rng.randint(1, side // 4) for _ in range(3)]
        return [4 * rng.randint(0, (side - s) // 4) for s in size] + size
    least = [rng.randrange(side) for _ in range(3)]
    most = [side - c if kind == 1 else min(side - c, 4) for c in least]
    return least + [rng.randint(1, m) for m in most]


def cell(rng: Random, side: int) -> list[int]:
    return [rng.randrange(side) for _ in range(3)]


def edit(setting: Setting) -> list:
    rng, side = setting.rng, setting.side
    name = rng.choice(["fill", "fill", "erase", "ball", "carve", "copy", "stamp"])
    tint = [rng.choice([*TINTS, rng.randint(1, 255)])] if setting.coloured and rng.random() < 0.8 else []
    if name in ("fill", "erase"):
        return [name, *box(rng, side), *(tint if name == "fill" else [])]
    if name in ("ball", "carve"):
        return [name, *cell(rng, side), rng.choice([0, 1, 2, 3, side]), *(tint if name == "ball" else [])]
    if name == "copy":
        source = box(rng, side)
        return [name, *source, "to", *(rng.randint(0, side - s) for s in source[3:])]
    number = rng.randrange(len(setting.models))
    return [name, number, *(rng.randint(0, side - s) for s in setting.models[number].size)]


def way(rng: Random) -> list[int]:
    step = [rng.choice([rng.randint(-3, 3), rng.randint(-1024, 1024)]) if rng.random() < 0.3 else rng.randint(-1, 1)
            for _ in range(3)]
    return step if any(step) else [0, 0, rng.choice([-2, 1])]


def question(setting: Setting) -> list:
    rng, side = setting.rng, setting.side
    name = rng.choice(["get", "count", "faces", "bounds", "ray", "ray"] + ["colour"] * 2 * setting.coloured)
    if name in ("get", "colour"):
        return [name, *cell(rng, side)]
    if name == "bounds":
        return [name]
    return [name, *box(rng, side)] if name in ("count", "faces") else [name, *cell(rng, side), *way(rng)]


def line(setting: Setting, file: str, reach: int) -> list:
    """The words of a command. A version has a number up to `reach`."""
    rng, version = setting.rng, setting.rng.randint(0, reach)
    kind = rng.randrange(24)
    if kind < 8:
        return edit(setting)
    if kind < 12:
        return [rng.choice(["undo", "undo", "redo"])]
    if kind < 14:
        return ["try", *edit(setting)]
    if kind < 17:
        return question(setting)
    if kind < 19:
        return ["at", version, *question(setting)]
    if kind < 21:
        return rng.choice([["forget", version], ["same", version, rng.randint(0, reach)], ["head"]])
    save = ["save", file, *box(rng, setting.side)]
    return save if kind == 21 else ["at", version, *save] if kind == 22 else edit(setting)


def spelled(rng: Random, words: list) -> str:
    """The words of a line, with blanks and zeros where a script may have them."""
    if rng.random() < 0.8:
        return " ".join(map(str, words))
    text = rng.choice(["", " ", "\t"])
    for word in words:
        zeros = "0" * rng.choice([0, 0, 3]) if isinstance(word, int) and 0 <= word < 10**5 else ""
        text += zeros + str(word) + rng.choice([" ", "  ", "\t"])
    return text + rng.choice(["", "\r"])


def script(setting: Setting, name: str, length: int, reach: int) -> None:
    """Adds a script of so many lines, of which at most 16 are saves."""
    rng, text, saves = setting.rng, "", 0
    for at in range(length):
        words = line(setting, f"{name}_{at}.vox", reach)
        saves += "save" in words
        if "save" in words and saves > 16 or rng.random() < 0.04:
            words = rng.choice([[], ["#", "at", 1], ["#fill"]])
        text += spelled(rng, words) + "\n"
    setting.texts[name] = text if rng.random() < 0.9 else text.rstrip("\n")

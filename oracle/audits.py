"""Audits of what runs by chance left, one to four scripts at the same time, and sometimes 64: yes of each, and of
copies with one byte changed in the journal or a transcript what the slow audit here says. The first of these that is so
has to come:

- 12 and the journal's first line that doesn't fit (texts.py);
- 5: a script, its first line with a fault in the journal's world, and its kind: 1, a question for a colour, where it
  has none; 5, a word too many, as a tint is there; 3, a place outside the world;
- 15, a script and the first line of its transcript that doesn't fit;
- `yes` where the history is legal and agrees with the scripts and transcripts (judge.py), else `no`.
"""

from random import Random

import judge
import runs
from chance import Setting
from model import Model, box_fits
from product import Product, want
from texts import BadLine, Command, read_journal, read_transcript


def lies_in(c: Command, side: int, models: list[Model]) -> bool:
    a = c.numbers
    if c.name in ("fill", "erase", "count", "faces", "save", "copy"):
        return box_fits(a[:6], side) and (c.name != "copy" or box_fits(a[6:] + a[3:6], side))
    if c.name in ("ball", "carve", "get", "colour", "ray"):
        return all(place < side for place in a[:3])
    return c.name != "stamp" or box_fits(a[1:] + models[a[0]].size, side)


def fault(c: Command, side: int, coloured: bool, models: list[Model]) -> int:
    """The kind of a command's fault, 0 where it has none."""
    if c.name == "colour" and not coloured:
        return 1
    if not coloured and len(c.numbers) > {"fill": 6, "ball": 4}.get(c.name, 99):
        return 5
    return 0 if lies_in(c, side, models) else 3


def slow_audit(setting: Setting, journal: bytes, transcripts: list[bytes]) -> tuple[int, str]:
    """The status and the line that have to come."""
    try:
        told = read_journal(journal)
    except BadLine as bad:
        return 12, f"voxdag: journal {bad}\n"
    for number, script in enumerate(setting.scripts):
        for c in script:
            if kind := fault(c, told.side, told.coloured, setting.models):
                return 5, f"voxdag: script {number} {c.line} {kind}\n"
    read = []
    for number, text in enumerate(transcripts):
        try:
            read.append(read_transcript(text))
        except BadLine as bad:
            return 15, f"voxdag: transcript {number} {bad}\n"
    history, illegal = judge.history_of(told, setting.models, setting.keep)
    agrees = illegal is None and judge.agrees(history, setting.scripts, read, setting.plan.buckets) is None
    return 0, "yes\n" if agrees else "no\n"


def spoil(rng: Random, data: bytes) -> bytes:
    at = rng.randrange(len(data))
    byte = rng.choice(b"0123456789 @\nabe") if rng.random() < 0.8 else rng.randrange(256)
    return data[:at] + bytes([byte]) + data[at + 1:]


def case(product: Product, rng: Random) -> None:
    setting = runs.setting(rng, 64 if rng.random() < 0.03 else rng.randint(1, 4))
    runs.perform(product, setting)
    names = ["j", *(name + ".out" for name in setting.texts)]
    left = {name: product.left(name) for name in names}
    want("slow audit", slow_audit(setting, left["j"], [*left.values()][1:]), (0, "yes\n"))
    want("audit", product.run(*setting.audit_words()), (0, "yes\n"))
    for _ in range(6):
        name = rng.choice(["j", *names])
        if not left[name]:
            continue
        now = {**left, name: spoil(rng, left[name])}
        product.write(name, now[name])
        wanted = slow_audit(setting, now["j"], [*now.values()][1:])
        want(f"audit of {name} with a byte changed", product.run(*setting.audit_words()), wanted)
        product.write(name, left[name])

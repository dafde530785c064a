"""Runs with colours, byte by byte. Then `audit` must say yes, and no where the number of one answer is one higher; and
the file that `dag` makes of the journal must count, in each version that it keeps, as many cells of the world as have a
colour, and tell a cell's colour bit by bit.
"""

import re
from random import Random

import chance
import runs
from chance import Setting
from model import History, plus
from product import Product, want


def one_higher(rng: Random, transcript: str) -> str | None:
    """The transcript with a higher number in the answer to one question, if it has such an answer."""
    found = [at for at in re.finditer(r" (?:colour|count|faces) (\d+)$", transcript, re.M) if at[0] != " colour 255"]
    if not found:
        return None
    at = rng.choice(found)
    return transcript[:at.start(1)] + str(int(at[1]) + 1) + transcript[at.end():]


def looks(product: Product, rng: Random, history: History) -> None:
    """Asks the file of the journal for each version."""
    want("dag", product.run("dag", "m.vox", "j", "d"), (0, ""))
    whole = ["0", "0", "0", *[str(history.side)] * 3]
    for version in history.held():
        world = history.world(version)
        want(f"cells of version {version}", product.run("look", "d", str(version), "count", *whole), (0, f"count {len(world)}\n"))
    version, cell = rng.choice(history.held()), tuple(chance.cell(rng, history.side))
    for bit, corner in enumerate(history.planes()):
        place = map(str, plus(cell, corner))
        wanted = "set\n" if history.tint(version, cell) >> bit & 1 else "clear\n"
        want(f"bit {bit} of {cell}", product.run("look", "d", str(version), "get", *place), (0, wanted))


def case(product: Product, rng: Random) -> None:
    setting = Setting(rng, rng.choice([4, 8, 8, 16]), True, rng.choice([0, 0, 1, 3]))
    setting.room(*rng.choice(runs.LARGE if rng.random() < 0.1 else [(16, 256), (64, 128)]))
    chance.script(setting, "s", rng.randint(1, 30), 12)
    history = runs.one_script(product, setting).history
    want("audit", product.run(*setting.audit_words()), (0, "yes\n"))
    spoiled = one_higher(rng, product.left("s.out").decode())
    if spoiled is not None:
        product.write("s.out", spoiled)
        want("audit of another number", product.run(*setting.audit_words()), (0, "no\n"))
    looks(product, rng, history)

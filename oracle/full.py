"""Runs over stores of few places, byte by byte: an edit is refused exactly where a bucket can't hold all that is alive
when it is done, which is what the edit makes and what versions contain that are held or that a save waits for
(plain.py). What was refused left nothing behind, or a later edit would be refused that has room, and the line would
count other nodes.
"""

from random import Random

import chance
import runs
from chance import Setting
from product import Product


def case(product: Product, rng: Random) -> None:
    coloured = rng.random() < 0.4
    setting = Setting(rng, rng.choice([4, 4, 8]) if coloured else rng.choice([4, 8, 8, 16]), coloured, rng.choice([0, 0, 1, 2, 4]))
    setting.room(rng.randint(1, 4), rng.randint(1, 8) * (3 if rng.random() < 0.3 else 1))
    if rng.random() < 0.8:
        chance.script(setting, "s", rng.choice([12, 30, 60]), 12)
        runs.one_script(product, setting)
        return
    for k in range(rng.randint(2, 3)):
        chance.script(setting, f"s{k}", rng.randint(1, 8), 4)
    runs.several_scripts(product, setting)

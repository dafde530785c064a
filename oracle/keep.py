"""Runs that hold their last versions alone, with forgettings by hand among them, byte by byte; then `audit` must say
yes with the run's number of versions, and with another one what the slow audit says.
"""

from random import Random

import audits
import chance
import runs
from chance import Setting
from product import Product, want


def case(product: Product, rng: Random) -> None:
    coloured = rng.random() < 0.3
    setting = Setting(rng, 4 if coloured else rng.choice([4, 8, 8, 16]), coloured, rng.choice([0, 1, 2, 3, 4, 5]))
    setting.room(*rng.choice(runs.LARGE if rng.random() < 0.1 else [(16, None), (8, 256)]))
    chance.script(setting, "s", rng.randint(1, 30), 12)
    lines = setting.texts["s"].split("\n")
    for at, line in enumerate(lines):
        if line and rng.randrange(6) == 0:
            lines[at] = f"forget {rng.randint(0, at)}"
    setting.texts["s"] = "\n".join(lines)
    runs.one_script(product, setting)
    want("audit", product.run(*setting.audit_words()), (0, "yes\n"))
    setting.keep = rng.randint(0, 6)
    wanted = audits.slow_audit(setting, product.left("j"), [product.left("s.out")])
    want("audit with another number", product.run(*setting.audit_words()), wanted)

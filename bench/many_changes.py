#!/usr/bin/env python3
"""Writes four scripts of 100,000 lines with 65,535 changes in all, s0 to s3, into the current folder. Each keeps to a quarter of a
world of side 256."""

import random


def line(rng: random.Random, least: int, is_change: bool) -> str:
    x, y, z = least + rng.randrange(60), rng.randrange(250), rng.randrange(250)
    if is_change:
        return f"{rng.choice(['fill', 'fill', 'erase'])} {x} {y} {z} {rng.randint(1, 4)} {rng.randint(1, 4)} 3"
    return rng.choice([f"get {x} {y} {z}", f"count {x} {y} {z} 4 4 4", "head", f"ray {x} {y} {z} 1 -1 0"])


def main() -> None:
    rng = random.Random(1)
    for k in range(4):
        changes = 16384 - (k == 3)
        with open(f"s{k}", "w", encoding="ascii") as script:
            for i in range(100000):
                is_change = i * changes // 100000 != (i + 1) * changes // 100000
                script.write(line(rng, 64 * k, is_change) + "\n")


if __name__ == "__main__":
    main()

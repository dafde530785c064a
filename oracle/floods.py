"""Floods of models by chance: the unset cells that steps from cell to cell lead to, the file of them and their number.

From an unset cell a step leads to one of the six beside it that is unset too and lies in the model. From a set cell
none is reached. Status 10 and `voxdag: no place` come where the file has no such model or the model no such cell.
"""

from random import Random

from model import Cell, Model, NEIGHBOURS, Tints, plus
from product import Product, want
from texts import saved, vox


def region(model: Model, start: Cell) -> Tints:
    """The cells that steps lead to, in colour 1."""
    reached: Tints = {}
    waiting = [start]
    while waiting:
        cell = waiting.pop()
        inside = all(0 <= c < s for c, s in zip(cell, model.size))
        if inside and cell not in model.tints and cell not in reached:
            reached[cell] = 1
            waiting += [plus(cell, step) for step in NEIGHBOURS]
    return reached


def answer(models: list[Model], number: int, start: Cell) -> tuple[int, str, bytes | None]:
    """The status, the line and the file."""
    if number >= len(models) or any(c >= s for c, s in zip(start, models[number].size)):
        return 10, "voxdag: no place\n", None
    cells = region(models[number], start)
    return 0, f"{len(cells)}\n", saved(cells, (0, 0, 0, *models[number].size))


def groups(rng: Random, size: Cell) -> list[tuple[int, ...]]:
    """Walls with holes, or cells by chance; some places twice, some groups without a colour."""
    axis, part = rng.randrange(3), rng.choice([0.1, 0.3, 0.5, 0.7])
    found = []
    for cell in ((x, y, z) for x in range(size[0]) for y in range(size[1]) for z in range(size[2])):
        wall = cell[axis] % 2 == 1 and rng.random() < 0.95
        if (wall if part == 0.5 else rng.random() < part):
            found.append((*cell, rng.choice([1, 7, 255, 0])))
    rng.shuffle(found)
    return found + [(*group[:3], rng.choice([0, 9])) for group in found[:rng.randrange(4)]]


def case(product: Product, rng: Random) -> None:
    files, models = [], []
    for _ in range(rng.choice([1, 1, 2])):
        size = tuple(rng.choice([1, 3, 4, 5, 8, 9, 14]) for _ in range(3))
        made = groups(rng, size)
        tints = {group[:3]: group[3] for group in made}
        files.append((size, made))
        models.append(Model(size, {cell: tint for cell, tint in tints.items() if tint}))
    product.write("m.vox", vox(files))
    for at in range(4):
        number = rng.randrange(len(models) + (rng.random() < 0.05))
        size = models[number].size if number < len(models) else (3, 3, 3)
        start = tuple(rng.randrange(s + (rng.random() < 0.03)) for s in size)
        status, line, file = answer(models, number, start)
        asked = map(str, (number, *start))
        want("flood", product.run("flood", "m.vox", *asked, f"o{at}"), (status, line))
        if file is not None:
            want("file of the region", product.left(f"o{at}"), file)
        want("whether it is written", f"o{at}" in product.names(), file is not None)

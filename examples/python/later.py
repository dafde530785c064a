"""Goes on tomorrow with what was saved today: later.py MODELS.vox JOURNAL

Where JOURNAL isn't there a world is begun, and else the one that it tells is gone on with, its undos too. Each run stamps
the first model one place further, and every third run takes the last one back.
"""
import pathlib
import sys

sys.path.insert(0, str(pathlib.Path(__file__).resolve().parents[2] / "bindings/python"))

import voxdag


def main(models: pathlib.Path, journal: pathlib.Path) -> None:
    file = models.read_bytes()
    if journal.is_file():
        world = voxdag.World.open_journal(journal.read_bytes(), models=file)
    else:
        world = voxdag.World(64, models=file)
    with world:
        before = world.newest
        wide = world.model_size(0).x
        now = world.undo() if before % 3 == 2 else world.stamp(0, ((before % (64 // wide)) * wide, 0, 0))
        everything = (0, 0, 0, 64, 64, 64)
        print(f"version {now} has {world.count(now, everything)} cells, version {before} has {world.count(before, everything)}")
        journal.write_bytes(world.journal())


if __name__ == "__main__":
    main(*map(pathlib.Path, sys.argv[1:]))

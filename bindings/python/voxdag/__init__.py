"""A proved voxel world with versions, for Python: voxdag's library through ctypes.

    import voxdag

    with voxdag.World(64) as world:
        world.fill((0, 0, 0, 16, 16, 16))           # version 1
        world.carve((15, 15, 15), 10)               # version 2
        print(world.count(1, (0, 0, 0, 64, 64, 64)), world.count(2, (0, 0, 0, 64, 64, 64)))

Every change answers the number of the version that it made, and each version can be asked until it is forgotten. What
is refused is raised, by a class of its own for each status (`voxdag.errors`). Lists of cells are arrays where NumPy is
there, and else memoryviews. `voxdag.slow` has the same world in plain Python, written from the definitions.
"""

from .errors import (
    BadDag, BadFile, BadJournal, BadPlan, BadScene, BadTint, BadWay, Closed, Forgotten, HistoryFull, IsNewest, IsOpen,
    NoMemory, NoModel, NothingToRedo, NothingToUndo, NotExported, NotLegal, NoVersion, Null, OtherKind, Outside,
    Refused, StoreFull, TooSmall,
)
from .library import Library, load
from .world import Box, Plan, Place, Scene, Versions, World

__all__ = [
    "BadDag", "BadFile", "BadJournal", "BadPlan", "BadScene", "BadTint", "BadWay", "Box", "Closed", "Forgotten",
    "HistoryFull", "IsNewest", "IsOpen", "Library", "NoMemory", "NoModel", "NothingToRedo", "NothingToUndo",
    "NotExported", "NotLegal", "NoVersion", "Null", "OtherKind", "Outside", "Place", "Plan", "Refused", "Scene",
    "StoreFull", "TooSmall", "Versions", "World", "load",
]

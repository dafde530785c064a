"""Draws a sphere, asks its cells and prints a slice of it. VOXDAG_LIB names libvoxdag.so."""
import pathlib
import sys

sys.path.insert(0, str(pathlib.Path(__file__).resolve().parents[2] / "bindings/python"))

import voxdag


def main() -> None:
    radius, middle = 10, 16
    everything = (0, 0, 0, 32, 32, 32)
    with voxdag.World(32) as world:
        # A ball by single rows of cells, and the same by one call: both are one world.
        for z in range(-radius, radius + 1):
            for y in range(-radius, radius + 1):
                wide = int((radius * radius - y * y - z * z) ** 0.5) if y * y + z * z <= radius * radius else -1
                if wide >= 0:
                    world.fill((middle - wide, middle + y, middle + z, 2 * wide + 1, 1, 1))
        drawn = world.newest
        world.erase(everything)
        by_call = world.ball((middle, middle, middle), radius)
        print("rows", drawn, "same", world.same(drawn, by_call), "cells", world.count(by_call, everything))
        shell = world.carve((middle, middle, middle), radius - 3)
        try:
            world.fill((30, 0, 0, 3, 1, 1))
        except voxdag.Outside as refused:
            print("refused:", refused)
        for y in range(middle - radius, middle + radius + 1):
            print("".join("#" if world.get(shell, (x, y, middle)) else "." for x in range(middle - radius, middle + radius + 1)))


if __name__ == "__main__":
    main()

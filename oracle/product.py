"""The program that is compared, run in a folder of its own for each case."""

import os
import subprocess
from pathlib import Path

TIME = 1200  # seconds in which a case has to end that takes a few, or more on a busy machine
PAGES = {**os.environ, "GLIBC_TUNABLES": os.environ.get("GLIBC_TUNABLES", "glibc.malloc.hugetlb=1")}


class Differs(Exception):
    """What the program gave isn't what the rules say."""


def want(what: str, given: object, wanted: object) -> None:
    if given != wanted:
        raise Differs(f"{what}\n  wanted {wanted!r}\n  given  {given!r}")


class Product:
    """The program in an empty folder. What it was asked is kept, to be told with a difference."""

    def __init__(self, program: Path, folder: Path) -> None:
        self.program, self.folder = program, folder
        self.asked: list[str] = []

    def write(self, name: str, data: bytes | str) -> None:
        (self.folder / name).write_bytes(data.encode() if isinstance(data, str) else data)

    def left(self, name: str) -> bytes:
        """The bytes of a file."""
        file = self.folder / name
        if not file.is_file():
            raise Differs(f"{name} isn't there")
        return file.read_bytes()

    def names(self) -> set[str]:
        return {file.name for file in self.folder.iterdir()}

    def run(self, *words: str) -> tuple[int, str]:
        """The status and what is printed."""
        self.asked.append(" ".join(words))
        try:
            done = subprocess.run([self.program, *words], cwd=self.folder, env=PAGES, stdin=subprocess.DEVNULL,
                                  stdout=subprocess.PIPE, stderr=subprocess.DEVNULL, timeout=TIME, check=False)
        except subprocess.TimeoutExpired:
            raise Differs(f"no end within {TIME} s") from None
        return done.returncode, done.stdout.decode(errors="replace")

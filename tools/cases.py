"""What wrong-bodies and must-not-compile share: cases, copies of crates to change, and the last line."""
import pathlib
import shutil
import subprocess
import sys

TOOLS = pathlib.Path(__file__).resolve().parent
ROOT = TOOLS.parent


class Case:
    """A file NAME.case, of lines 'word: text'."""

    def __init__(self, path: pathlib.Path) -> None:
        self.name = path.stem
        parts = [line.partition(":") for line in path.read_text().splitlines()]
        self.lines = [(word, text.removeprefix(" ")) for word, _, text in parts]

    def all(self, word: str) -> list[str]:
        return [text for key, text in self.lines if key == word]

    def one(self, word: str) -> str:
        texts = self.all(word)
        if len(texts) != 1:
            sys.exit(f"{self.name}: {len(texts)} lines '{word}:', and one is wanted")
        return texts[0]

    def unfit(self, text: str) -> str:
        """Why the old texts can't be replaced in the text; empty where they can."""
        olds, news = self.all("old"), self.all("new")
        if len(olds) != len(news):
            return f"{len(olds)} old texts and {len(news)} new ones"
        for old, new in zip(olds, news):
            if not old or text.count(old) != 1:
                return f"this old text stands {text.count(old)} times in the file, and not once: {old.strip()}"
            text = text.replace(old, new)
        return ""

    def replaced(self, text: str) -> str:
        """The text with the new texts in place of the old ones, pair by pair."""
        for old, new in zip(self.all("old"), self.all("new")):
            text = text.replace(old, new)
        return text


def cases(folder: str, names: list[str]) -> list[Case]:
    """The cases of the folder, or those of these names."""
    paths = [TOOLS / folder / f"{name}.case" for name in names] or sorted((TOOLS / folder).glob("*.case"))
    return [Case(path) for path in paths]


def lines_of_crates() -> dict[str, str]:
    """The line of each crate in crates.txt, by its name, in the order there."""
    lines = (ROOT / "crates.txt").read_text().splitlines()
    return {line.partition(":")[0].split()[0]: line for line in lines if ":" in line and not line.startswith("#")}


def copy(crates: list[str], to: pathlib.Path, made: bool) -> None:
    """Copies the crates and all below them; where `made`, with built libraries, and with the crates' own kept work."""
    lines, needed = lines_of_crates(), set()
    reached = list(crates)
    while reached:
        name = reached.pop()
        if name in lines and name not in needed:
            needed.add(name)
            reached += lines[name].partition(":")[2].split()
    for name in needed:
        home, place = ROOT / "crates" / name, to / "crates" / name
        out = [home / "out/rlib"] + [home / "out/incremental"] * (name in crates)
        (place / "out").mkdir(parents=True)
        for parts, at in (([it for it in home.iterdir() if it.name != "out"], place), (out * made, place / "out")):
            there = [it for it in parts if it.exists()]
            if there:
                subprocess.run(["cp", "-a", "--reflink=auto", *there, at], check=True)
    to.mkdir(exist_ok=True)
    (to / "crates.txt").write_text("".join(f"{line}\n" for name, line in lines.items() if name in needed))
    if (ROOT / "HANDLES").exists():
        shutil.copy2(ROOT / "HANDLES", to)


class Tally:
    """Tells what was seen of each case, and counts."""

    def __init__(self) -> None:
        self.passed = self.failed = 0

    def tell(self, is_passed: bool, name: str, seen: str) -> None:
        self.passed += is_passed
        self.failed += not is_passed
        print(f"{name}: {'passed' if is_passed else 'failed'}: {seen}", flush=True)

    def end(self) -> int:
        """Tells the last line; the status to end with."""
        print(f"{self.passed} passed, {self.failed} failed")
        return 1 if self.failed else 0

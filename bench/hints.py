#!/usr/bin/env python3
"""Puts the sources' hints on inlining into a module's text: hints.py CRATES < TEXT > TEXT

`rt try` drops `#[inline(always)]` and `#[inline(never)]`, which a proved program is built with. Each `define` of a function
that has one below CRATES gets the attribute; how many did is said on the error output.
"""
import re
import sys
from pathlib import Path

WORDS = {"always": "alwaysinline", "never": "noinline"}
HINT = re.compile(r"#\[inline\((always|never)\)\]")
HEAD = re.compile(r"^\s*(?:pub(?:\([a-z]+\))? )?fn (\w+)")
IMPL = re.compile(r"^impl(?:<[^{]*?>)? (?:([A-Z]\w*)(?:<.*?>)? for )?([A-Z]\w*)")


def hints(crates):
    """The symbol of each hinted function, without what it is generic over, and its attribute."""
    found = {}
    for file in sorted(Path(crates).glob("*/src/**/*.rt")):
        crate, _, *inner = file.relative_to(crates).with_suffix("").parts
        module = "::".join([crate] + [part for part in inner if part != "lib"])
        owner, hint = "", None
        for line in file.read_text().splitlines():
            if line[:4] == "impl" and (head := IMPL.match(line)):
                owner = f"{head[2]}{head[1] or ''}::"
            elif line[:1] == "}":
                owner = ""
            if mark := HINT.search(line):
                hint = WORDS[mark[1]]
            elif hint and (head := HEAD.match(line)):
                # A method is named by its type, which may stand in another module.
                found[(crate, owner + head[1]) if owner else (crate, f"{module}::{head[1]}")] = hint
                hint = None
    return found


def main():
    found, met = hints(sys.argv[1]), set()
    for line in sys.stdin:
        if line.startswith("define"):
            parts = re.search(r"@\"?([\w:+']+)", line)[1].rstrip(":").split("::")
            for name in (parts[0], "::".join(parts[-2:])), (parts[0], "::".join(parts)):
                if name in found:
                    met.add(name)
                    line = re.sub(r"\) (#\d+)", rf") {found[name]} \1", line, count=1)
        sys.stdout.write(line)
    print(f"hints on inlining: {len(met)} of {len(found)} functions", file=sys.stderr)


main()

"""Runs of one script or several, byte by byte: transcripts, saved files, journal, report and line.

One script's run is as plain.py answers. Of several the journal says the order: it is a legal history, each transcript
is judged by it (judge.py), and saved files, report and line follow from it. A line `full l b` of several scripts comes
only where the edit of its moment needs a content of this level and bucket, and the edits of all scripts, each of any
version that it may have met, need more than the bucket has room for besides the one that is refused.
"""

from random import Random

import chance
import judge
from chance import Setting
from model import Blocks, EDITS, History
from plain import Script, stages
from product import Differs, Product, want
from texts import (Answered, BadLine, Command, journal_text, read_journal, read_transcript, report_text, run_line, saved,
                   transcript_text)

# The first stand often: a store of many places takes a tenth of a second to open.
ROOMS = [(16, None), (16, 8), (1, 256), (3, 30), (64, 128)]
LARGE = [(None, None), (None, 256), (None, 100), (4096, 256)]


def perform(product: Product, setting: Setting) -> str:
    """Runs the scripts of a setting, and gives the line."""
    product.write("m.vox", setting.vox)
    for name, text in setting.texts.items():
        product.write(name, text)
    status, line = product.run(*setting.run_words())
    want("status of the run", status, 0)
    return line


def transcripts(product: Product, setting: Setting) -> list[list[Answered]]:
    try:
        return [read_transcript(product.left(name + ".out")) for name in setting.texts]
    except BadLine as bad:
        raise Differs(f"a transcript is none at line {bad}") from None


def written(product: Product, setting: Setting, history: History, files: dict[str, bytes], line: str) -> None:
    """Compares all that a run writes, but for its transcripts."""
    want("line", line, run_line(history, len(setting.texts)))
    want("journal", product.left("j").decode(), journal_text(history))
    want("report", product.left("p").decode(), report_text(history))
    for name, data in files.items():
        want(f"file {name}", product.left(name), data)
    names = {"m.vox", "j", "p", *setting.texts, *(name + ".out" for name in setting.texts), *files}
    want("names of files", sorted(product.names()), sorted(names))


def one_script(product: Product, setting: Setting) -> Script:
    """Compares a run of one script."""
    line = perform(product, setting)
    script = Script(History(setting.side, setting.models, setting.coloured, setting.keep), setting.plan)
    given = transcripts(product, setting)[0]
    answers = script.run(setting.scripts[0], given)
    name = [*setting.texts][0]
    for wanted, line_given in zip(transcript_text(answers).splitlines(), transcript_text(given).splitlines()):
        want("line of the transcript", line_given, wanted)
    want("transcript", product.left(name + ".out").decode(), transcript_text(answers))
    written(product, setting, script.history, script.files, line)
    return script


def is_needed(history: History, blocks: Blocks, c: Command, version: int) -> set[int]:
    """The contents of what an edit makes of a version, at any of its parts."""
    act = c.act()
    parts = stages(history, act, version) if history.coloured else [history.made(act, version)]
    return set().union(*(blocks.of(cells, history.store_side) for cells in parts))


def full_lines(setting: Setting, history: History, read: list[list[Answered]]) -> None:
    """Whether each `full` comes where enough is possible."""
    if not any(a.answer[0] == "full" for lines in read for a in lines):
        return
    blocks, possible, told = Blocks(setting.plan), set(), []
    for script, lines in zip(setting.scripts, read):
        before = 0
        for c, a in zip(script, lines):
            if c.name in EDITS:
                for version in range(before, a.moment + 1):
                    possible |= is_needed(history, blocks, c, version)
                if a.answer[0] == "full":
                    told.append((c, a, is_needed(history, blocks, c, a.moment)))
            before = a.moment
    for c, a, needed in told:
        want(f"line {c.line} needs {a.answer}", a.answer[1:] in {blocks.places[n] for n in needed}, True)
        room = sum(blocks.places[n] == a.answer[1:] for n in possible)
        want(f"line {c.line}: {room} contents for {a.answer} fill {setting.plan.cap}", room > setting.plan.cap, True)


def several_scripts(product: Product, setting: Setting) -> History:
    """Compares a run of scripts at the same time."""
    line = perform(product, setting)
    try:
        journal = read_journal(product.left("j"))
    except BadLine as bad:
        raise Differs(f"the journal is none at line {bad}") from None
    want("world of the journal", (journal.side, journal.coloured), (setting.side, setting.coloured))
    history, illegal = judge.history_of(journal, setting.models, setting.keep)
    want("first illegal record", illegal, None)
    read = transcripts(product, setting)
    want("what doesn't agree", judge.agrees(history, setting.scripts, read, setting.plan.buckets), None)
    full_lines(setting, history, read)
    files = {}
    for script, lines in zip(setting.scripts, read):
        for c, a in zip(script, lines):
            if a.answer[0] == "saved":
                files[c.file] = saved(history.world(a.moment if c.version is None else c.version), c.numbers)
    written(product, setting, history, files, line)
    return history


def setting(rng: Random, scripts: int) -> Setting:
    """A run by chance of so many scripts."""
    coloured = rng.random() < 0.4
    made = Setting(rng, rng.choice([4, 8, 8, 16]), coloured, rng.choice([0, 0, 0, 1, 2, 5]))
    made.room(*rng.choice(LARGE if rng.random() < 0.1 else ROOMS))
    length = rng.choice([8, 16, 40]) if scripts == 1 else 4 if scripts > 9 else rng.choice([4, 12, 20])
    for k in range(scripts):
        chance.script(made, f"s{k}", rng.randint(0, length), 3 + length // 2)
    return made


def case(product: Product, rng: Random) -> None:
    scripts = 64 if rng.random() < 0.03 else rng.choice([1, 1, 1, 2, 3, 4])
    made = setting(rng, scripts)
    if scripts == 1:
        one_script(product, made)
    else:
        several_scripts(product, made)

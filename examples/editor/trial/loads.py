"""64 people at one server and at two over etcd; what the log has is asked of another copy of the program."""

from __future__ import annotations

import asyncio
import subprocess
from pathlib import Path
from typing import Optional

from trial.people import crowd
from trial.started import Editor, Members, patience, program, told, until

PEOPLE = 64
EACH = 0.2


def journals(servers: list[Editor]) -> list[bytes]:
    """The servers' journals, once they have as many records."""
    until(lambda: len({server.health()["version"] for server in servers}) == 1)
    return [server.get("/journal.txt")[1] for server in servers]


def held(servers: list[Editor], seconds: float, side: int, name: str, seed: int) -> None:
    """All of the people's edits are answered, and each by a version of its own."""
    before = sum(server.health()["processor"] for server in servers)
    kept = asyncio.run(crowd([server.url for server in servers], PEOPLE, EACH, seconds, side, seed))
    used = (sum(server.health()["processor"] for server in servers) - before) / kept.sent * 1000
    versions = sorted(kept.versions.values())
    newest = servers[0].health()["version"] if len(servers) == 1 else len(journals(servers)[0].splitlines()) - 3
    right = not kept.refused and len(versions) == kept.sent and versions == list(range(newest - len(versions) + 1, newest + 1))
    memory = ", ".join(f"{server.health()['kilobytes'] / 1024:.0f} MB" for server in servers)
    told(f"{PEOPLE} people x {1 / EACH:g} edits a second, {name}: {kept.sent} edits, {kept.told()}, {used:.1f} ms of the processor each, {memory}", right,
         f"{len(versions)} of {kept.sent} answered, newest {newest}, refused {kept.refused[:3]}")


def one_server(work: Path, options: list[str], seconds: float) -> None:
    server = Editor(work, "crowd", "--world", str(work / "crowd.world"), *options)
    try:
        server.begin()
        held([server], seconds, 128, "one server", 1)
        audited(work / "audit", server)
    finally:
        server.end()


def two_servers(work: Path, members: Members, options: list[str], seconds: float) -> None:
    hosts = members.hosts
    servers = [Editor(work, f"shared-{n}", "--etcd", ",".join(hosts[n:] + hosts[:n]), "--name", "crowd", *options) for n in range(2)]
    try:
        for server in servers:
            server.begin()
        held(servers, seconds, 128, "two servers over etcd", 2)
        first, second = journals(servers)
        lost = sum(server.health()["lost"] for server in servers)
        told(f"two servers: one journal, byte for byte, of {len(first)} bytes; {lost} transactions lost and made again",
             first == second and len(first) > 100, f"{len(first)} and {len(second)} bytes")
    finally:
        for server in servers:
            server.end()


def audited(folder: Path, server: Editor) -> None:
    """The server's answers as a transcript, with the journal, are those of one run."""
    folder.mkdir()
    for name in ("models.vox", "journal.txt", "script.txt", "script.txt.out"):
        (folder / name).write_bytes(server.get(f"/{name}")[1])
    tool: Optional[Path] = program()
    if tool is None:
        print("passed over: the audit, since there is no program", flush=True)
        return
    words = [str(tool), "audit", "models.vox", "journal.txt", "script.txt"]
    lines = len((folder / "script.txt").read_bytes().splitlines())
    said = subprocess.run(words, cwd=folder, capture_output=True, text=True, timeout=patience())
    told(f"voxdag audit of a session of {lines} lines: {said.stdout.strip()}", said.stdout == "yes\n", said.stdout + said.stderr)
    changed = (folder / "script.txt.out").read_bytes().replace(b" ok\n", b" log full\n", 1)
    (folder / "script.txt.out").write_bytes(changed)
    said = subprocess.run(words, cwd=folder, capture_output=True, text=True, timeout=patience())
    told(f"voxdag audit of one wrong answer: {said.stdout.strip()}", said.stdout == "no\n", said.stdout + said.stderr)

"""Servers that are killed while people edit, members of etcd that are killed, and bad input."""

from __future__ import annotations

import asyncio
import json
import secrets
import sqlite3
import time
from pathlib import Path
from random import Random
from typing import Any, Optional

import aiohttp

from trial.loads import journals
from trial.people import Kept, NoLine, Person, answered, stubborn, until_ok
from trial.started import Editor, Members, patience, told, until

KILLS = 50
WRITERS = 8


async def killed_often(server: Editor, kept: Kept, kills: int, seed: int) -> int:
    """Kills the server at random while people edit, and starts it again; gives how often it came back."""
    rng, ended, came = Random(seed), asyncio.Event(), 0
    async with aiohttp.ClientSession(connector=aiohttp.TCPConnector(limit=0)) as session:
        writers = [asyncio.ensure_future(stubborn(session, server.url, f"writer {n}", kept, Random(f"{seed} {n}"), 64, ended)) for n in range(WRITERS)]
        for _ in range(kills):
            if not await goes_on(kept):
                break
            await asyncio.sleep(rng.random() * 0.25)
            server.kill()
            server.start()
            came += await asyncio.get_running_loop().run_in_executor(None, server.stands)
        ended.set()
        await asyncio.wait_for(asyncio.gather(*writers), patience())
    return came


async def goes_on(kept: Kept) -> bool:
    """Whether five more edits are answered."""
    before, end = len(kept.versions), time.monotonic() + patience()
    while len(kept.versions) < before + 5 and time.monotonic() < end:
        await asyncio.sleep(0.01)
    return len(kept.versions) >= before + 5


def kills(work: Path, options: list[str]) -> None:
    path = work / "kills.world"
    server = Editor(work, "kills", "--world", str(path), "--side", "64", *options)
    kept = Kept()
    try:
        server.begin()
        came = asyncio.run(killed_often(server, kept, KILLS, 50))
        journal = server.get("/journal.txt")[1].decode().splitlines()
    finally:
        server.end()
    with sqlite3.connect(path) as base:
        rows = base.execute("SELECT n, act, key FROM records ORDER BY n").fetchall()
    versions = {key: n for n, _, key in rows}
    lost = [key for key, n in kept.versions.items() if versions.get(key) != n]
    told(f"killed {KILLS} times while {WRITERS} people edit: {len(kept.versions)} records answered, none lost", came == KILLS and not lost and not kept.refused,
         f"came back {came}, lost {len(lost)}, refused {kept.refused[:3]}")
    acts = [act for _, act, _ in rows]
    told(f"none of {len(rows)} records stands twice, and the journal is the log", [n for n, _, _ in rows] == list(range(1, len(rows) + 1))
         and len(set(acts)) == len(acts) and journal[2:-1] == [f"{n} 0 {n} {act}" for n, act, _ in rows], f"{len(set(acts))} of {len(acts)} differ")


# ---- members of etcd

async def with_fewer(servers: list[Editor], members: Members) -> None:
    """One of three is killed: it goes on. Two: edits are refused by name, and questions are answered."""
    async with aiohttp.ClientSession() as session:
        first, second = [await Person(session, server.url, "somebody").enter() for server in servers]

        def fill(x: int, y: int) -> dict[str, Any]:
            return {"do": "fill", "box": [x, y, 0, 1, 1, 1], "tint": 3, "key": secrets.token_hex(8)}

        before = await until_ok(first, fill(1, 0))
        members.each[0].kill()
        answers = [await until_ok(person, fill(n, 1)) for n in range(5) for person in (first, second)]
        told("one of three members killed: edits go on at both servers", "ok" in before and all("ok" in answer for answer in answers), answers)
        followed = await asyncio.get_running_loop().run_in_executor(None, journals, servers)
        told("each server follows the other", followed[0] == followed[1], followed)
        members.each[1].kill()
        begin = time.monotonic()
        answer = await answered(first, fill(1, 2))
        took = time.monotonic() - begin
        newest = answers[-1]["ok"]
        asked = await asyncio.gather(*(answered(person, {"do": "ask", "what": "count", "box": [0, 0, 0, 64, 64, 64]}) for person in (first, second)))
        told(f"two of three killed: an edit is refused as {answer.get('refused')} in {took:.1f} s, and reading goes on",
             answer.get("refused") == "log_down" and all(one["version"] == newest and one["count"] == 6 for one in asked), [answer, asked])
        for member in members.each[:2]:
            member.start()
        await asyncio.get_running_loop().run_in_executor(None, members.stands)
        answers = [await until_ok(person, fill(9, n)) for n, person in enumerate((first, second))]
        told("the members are back: edits go on", all("ok" in answer for answer in answers), answers)
        for person in (first, second):
            await person.leave()


def fewer_members(work: Path, members: Members, options: list[str]) -> None:
    hosts = ",".join(members.hosts)
    servers = [Editor(work, f"fewer-{n}", "--etcd", hosts, "--name", "fewer", "--side", "64", *options) for n in range(2)]
    try:
        for server in servers:
            server.begin()
        asyncio.run(with_fewer(servers, members))
        first, second = journals(servers)
        told("both servers have one journal then", first == second, f"{len(first)} and {len(second)} bytes")
    finally:
        for server in servers:
            server.end()


# ---- bad input

GOOD = [
    {"do": "fill", "box": [0, 0, 0, 1, 1, 1], "tint": 1}, {"do": "ball", "at": [9, 9, 9], "radius": 2, "tint": 1},
    {"do": "copy", "box": [0, 0, 0, 1, 1, 1], "to": [4, 4, 4]}, {"do": "stamp", "model": 0, "at": [0, 0, 0]},
    {"do": "carve", "at": [9, 9, 9], "radius": 2}, {"do": "erase", "box": [0, 0, 0, 1, 1, 1]},
    {"do": "ask", "what": "count", "box": [0, 0, 0, 1, 1, 1]}, {"do": "ask", "what": "ray", "at": [0, 0, 0], "steps": [0, 0, 1]},
    {"do": "show", "from": 0, "version": 0}, {"do": "point", "at": [1, 1, 1]},
]
# What stands nowhere in a message: none of these is a number, a list of numbers or a name that fits.
WRONG = [None, True, 1.5, -1, 1 << 70, "", "x" * 300, [], {}, [1], [[1]], [-1] * 6, [1 << 40] * 6, ["1"] * 6, [1.0] * 6, [None] * 3, [5000] * 3, {"x": 1}]
KNOWN = {
    "bad_json", "bad_message", "too_long", "outside", "no_model", "bad_tint", "no_version", "bad_way", "stale", "other_kind",
    "nothing_to_undo", "nothing_to_redo",
}


def broken(rng: Random) -> "str | bytes":
    """A message that has to be refused."""
    message = dict(rng.choice(GOOD))
    text = json.dumps({**message, "id": rng.randrange(1000)})
    kind = rng.randrange(8)
    if kind == 0:
        return text[: rng.randrange(1, len(text))]
    if kind == 1:
        return rng.randbytes(rng.randrange(1, 200))
    if kind == 2:
        return rng.choice(["[" * 5000, '{"do":' * 3000, "x" * rng.randrange(17_000, 200_000), '{"do":"fill","box":[' + "1," * 9000 + "1]}"])
    if kind == 3:
        return rng.choice(["", "null", "1", '"fill"', "[1]", "{}", '{"do":1}', '{"do":"format"}', '{"do":"fill"}', "NaN", '{"do":"fill","box":[NaN,0,0,1,1,1]}',
                           '{"do":"ball","at":[1,1,1],"radius":Infinity}', '{"do":"__class__"}', '{"do":"ask","what":"__init__"}', '\ufeff{"do":"undo"}'])
    if kind == 4:
        return json.dumps({"do": rng.choice(["undo", "redo"]), "key": rng.choice(["", "no spaces", "x" * 65, 7, ["a"], "é"])})
    if kind == 5:
        outside = rng.choice([{"box": [63, 0, 0, 2, 1, 1]}, {"box": [0, 0, 0, 0, 1, 1]}, {"box": [0, 64, 0, 1, 1, 1]}, {"box": [0, 0, 0, 65, 1, 1]}])
        return json.dumps({"do": rng.choice(["fill", "erase"]), **outside})
    if kind == 6:
        return json.dumps({"do": "fill", "box": [0, 0, 0, 1, 1, 1], **rng.choice([{"tint": 0}, {"tint": 256}, {"tint": -1}, {"tint": "1"}, {"try": 99}, {"try": -1}])})
    field = rng.choice([name for name in message if name not in ("do", "tint", "what")])
    message[field] = rng.choice([wrong for wrong in WRONG if not (field == "at" and message["do"] == "point" and wrong is None)])
    return json.dumps(message)


async def hostile(server: Editor, count: int, seed: int) -> list[Any]:
    """Sends so many broken messages by twenty lines, and gives what wasn't refused by a known name."""
    wrong: list[Any] = []

    async def line(session: aiohttp.ClientSession, rng: Random) -> None:
        async with session.ws_connect(f"{server.url}/ws", max_msg_size=1 << 26) as socket:
            for _ in range(count // 20):
                sent = broken(rng)
                await (socket.send_bytes(sent) if isinstance(sent, bytes) else socket.send_str(sent))
                while True:
                    message = await asyncio.wait_for(socket.receive(), patience())
                    answer = json.loads(message.data) if message.type == aiohttp.WSMsgType.TEXT else {"refused": str(message.type)}
                    if "say" not in answer:
                        break
                if answer.get("refused") not in KNOWN:
                    wrong.append((str(sent)[:120], answer))
                    if message.type != aiohttp.WSMsgType.TEXT:
                        return

    async with aiohttp.ClientSession() as session:
        await asyncio.gather(*(line(session, Random(f"{seed} {n}")) for n in range(20)))
    return wrong


async def at_the_door(server: Editor) -> list[str]:
    """What is refused before anything is read; gives what wasn't."""
    wrong = []
    own = {"Host": f"127.0.0.1:{server.port}"}
    cases = [
        ("another origin", {"Origin": "http://example.org", **own}, 403), ("no origin of a page", {"Origin": "null", **own}, 403),
        ("another port", {"Origin": "http://127.0.0.1:1", **own}, 403), ("another host", {"Host": "example.org"}, 403),
        ("its own origin", {"Origin": server.url, **own}, 101),
    ]
    async with aiohttp.ClientSession() as session:
        for name, headers, status in cases:
            try:
                socket = await session.ws_connect(f"{server.url}/ws", headers=headers)
                got = 101
                await socket.close()
            except aiohttp.WSServerHandshakeError as error:
                got = error.status
            if got != status:
                wrong.append(f"{name}: {got}")
        async with session.post(f"{server.url}/load", data=b"x" * ((1 << 20) + 1)) as answer:
            if (await answer.json())["refused"] != "too_long":
                wrong.append("a file that is too long")
        async with session.post(f"{server.url}/load", data=b"VOX no") as answer:
            if (await answer.json())["refused"] != "bad_file":
                wrong.append("a file that is none")
        if (code := await after_two_megabytes(session, server)) not in (1006, 1009):
            wrong.append(f"a message of 2 MB: {code}")
    return wrong


async def after_two_megabytes(session: aiohttp.ClientSession, server: Editor) -> Optional[int]:
    """By which code the server closes a line by which a message of 2 MB comes. It may be gone before all of it was sent."""
    async with session.ws_connect(f"{server.url}/ws") as socket:
        try:
            await socket.send_str("x" * (2 << 20))
            while (await asyncio.wait_for(socket.receive(), patience())).type == aiohttp.WSMsgType.TEXT:
                pass
        except (ConnectionError, aiohttp.ClientConnectionError):
            return 1006
        return socket.close_code


def bad_input(work: Path, options: list[str]) -> None:
    server = Editor(work, "hostile", "--world", str(work / "hostile.world"), "--side", "64", "--rate", "100000", *options)
    try:
        server.begin()
        before = server.get("/journal.txt")[1]
        begin = time.monotonic()
        wrong = asyncio.run(hostile(server, 10_000, 7))
        told(f"10,000 broken messages: each a named refusal, in {time.monotonic() - begin:.0f} s", not wrong, f"{len(wrong)}: {wrong[:3]}")
        doors = asyncio.run(at_the_door(server))
        told("wrong origins, hosts, files and a message of 2 MB are refused", not doors, doors)
        after = server.get("/journal.txt")[1]
        told("the world is as before, and the server goes on", before == after and asyncio.run(takes_an_edit(server)), f"{before!r} {after!r}")
    finally:
        server.end()


async def takes_an_edit(server: Editor) -> bool:
    async with aiohttp.ClientSession() as session:
        person = await Person(session, server.url, "somebody").enter()
        answer = await person.ask({"do": "fill", "box": [0, 0, 0, 2, 2, 2], "tint": 4})
        await person.leave()
    return answer.get("ok") == 1


MESSAGES = 1000
RATE = 2


async def too_fast(server: Editor) -> tuple[int, float, int]:
    """How many of so many messages at once are refused as too fast, how many seconds they took, and how a third person is
    answered."""
    async with aiohttp.ClientSession() as session:
        people = [await Person(session, server.url, "somebody").enter() for _ in range(2)]
        begin = time.monotonic()
        answers = await asyncio.gather(*(people[0].ask({"do": "ask", "what": "bounds"}) for _ in range(MESSAGES)))
        took = time.monotonic() - begin
        try:
            status = 101
            await Person(session, server.url, "one too many").enter()
        except NoLine as error:
            status = getattr(error.__cause__, "status", 0)
        for person in people:
            await person.leave()
    return sum(answer.get("refused") == "too_fast" for answer in answers), took, status


def bounds(work: Path, options: list[str]) -> None:
    """Rates, the number of people, and the token."""
    server = Editor(work, "bounds", "--world", str(work / "bounds.world"), "--side", "64", "--people", "2", "--rate", str(RATE), *options)
    try:
        server.begin()
        refused, took, status = asyncio.run(too_fast(server))
        # Four seconds' messages are taken at once, and then as many as come in while all are read.
        taken = MESSAGES - refused
        told(f"of {MESSAGES} messages in {took:.1f} s, at {RATE} a second, {refused} are too fast", 4 * RATE <= taken <= 4 * RATE + RATE * took + 1, taken)
        told("a third person of two is refused", status == 503, status)
    finally:
        server.end()
    server = Editor(work, "token", "--world", str(work / "token.world"), "--side", "64", "--token", "sesame", *options)
    try:
        server.start()
        until(lambda: "http://" in server.says() or server.has_ended())
        got = [server.get(path)[0] for path in ("/", "/journal.txt", "/journal.txt?token=other", "/journal.txt?token=sesame", "/ws")]
        told("a token is asked for", got[:4] == [200, 401, 401, 200] and got[4] == 401, got)
    finally:
        server.end()

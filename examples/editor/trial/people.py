"""People who are scripts: each has a WebSocket, makes edits by chance and keeps what was answered."""

from __future__ import annotations

import asyncio
import json
import secrets
import time
from collections.abc import Iterator
from random import Random
from typing import Any, Optional

import aiohttp

from trial.started import patience

BROKEN = (aiohttp.ClientError, ConnectionError, asyncio.TimeoutError, OSError)


class NoLine(Exception):
    """The line to the server broke."""


class Person:
    """Somebody at a server."""

    def __init__(self, session: aiohttp.ClientSession, url: str, name: str) -> None:
        self._session, self._url, self.name = session, url, name
        self._socket: Optional[aiohttp.ClientWebSocketResponse] = None
        self._next = 0
        self._open: dict[int, asyncio.Future[dict[str, Any]]] = {}
        self._reads: Optional[asyncio.Task[None]] = None
        self._door = asyncio.Lock()
        self.lines = 0
        self.welcome: dict[str, Any] = {}

    async def enter(self) -> "Person":
        """Opens a line, once. The welcome is read."""
        try:
            self._socket = await self._session.ws_connect(f"{self._url}/ws", max_msg_size=1 << 26)
            self.welcome = json.loads((await self._socket.receive(patience())).data)
        except (*BROKEN, TypeError) as error:
            raise NoLine() from error
        self._reads = asyncio.ensure_future(self._read(self._socket))
        self.lines += 1
        return self

    async def stay(self) -> None:
        """Opens a new line where the last one broke."""
        async with self._door:
            if not self.has_line:
                await self.enter()

    async def _read(self, socket: aiohttp.ClientWebSocketResponse) -> None:
        """Hands answers to who waits for them. What the server says to all is passed over."""
        async for message in socket:
            if message.type == aiohttp.WSMsgType.TEXT and message.data.startswith('{"id"'):
                answer = json.loads(message.data)
                waiting = self._open.pop(answer["id"], None)
                if waiting is not None and not waiting.done():
                    waiting.set_result(answer)
        for waiting in self._open.values():
            if not waiting.done():
                waiting.set_exception(NoLine())
        self._open.clear()

    @property
    def has_line(self) -> bool:
        return self._socket is not None and not self._socket.closed and self._reads is not None and not self._reads.done()

    async def ask(self, message: dict[str, Any]) -> dict[str, Any]:
        """The answer to a message. A world without tints gets none."""
        if self.welcome.get("tints") is False:
            message = {field: value for field, value in message.items() if field != "tint"}
        self._next += 1
        number = self._next
        waiting: asyncio.Future[dict[str, Any]] = asyncio.get_running_loop().create_future()
        self._open[number] = waiting
        try:
            if not self.has_line:
                raise NoLine()
            await self._socket.send_str(json.dumps({**message, "id": number}))
            return await asyncio.wait_for(waiting, patience())
        except BROKEN as error:
            raise NoLine() from error
        finally:
            self._open.pop(number, None)

    async def tell(self, message: dict[str, Any]) -> None:
        """Sends a message to which nothing is answered."""
        await self._socket.send_json(message)

    async def leave(self) -> None:
        if self._socket is not None:
            await self._socket.close()
        if self._reads is not None:
            self._reads.cancel()


def edits(rng: Random, side: int, known: set[str]) -> Iterator[dict[str, Any]]:
    """Small edits by chance. None is like another one, or like one that is known, in more than its tint."""
    while True:
        at = [rng.randrange(side - 6) for _ in range(3)]
        size = [rng.randrange(1, 6) for _ in range(3)]
        kind = rng.random()
        if kind < 0.6:
            edit = {"do": "fill", "box": at + size}
        elif kind < 0.75:
            edit = {"do": "erase", "box": at + size}
        elif kind < 0.9:
            edit = {"do": "ball", "at": at, "radius": rng.randrange(4)}
        elif kind < 0.95:
            edit = {"do": "carve", "at": at, "radius": rng.randrange(4)}
        else:
            edit = {"do": "copy", "box": at + size, "to": [rng.randrange(side - 6) for _ in range(3)]}
        text = json.dumps(edit)
        if text in known:
            continue
        known.add(text)
        if edit["do"] in ("fill", "ball"):
            edit["tint"] = rng.randrange(1, 256)
        yield edit


class Kept:
    """What was answered: the version of each key, milliseconds, and what was refused."""

    def __init__(self) -> None:
        self.versions: dict[str, int] = {}
        self.times: list[float] = []
        self.refused: list[dict[str, Any]] = []
        self.known: set[str] = set()
        self.sent = self.broken = 0

    def told(self) -> str:
        times = sorted(self.times) or [0.0]
        broken = f", {self.broken} lines broke" if self.broken else ""
        return f"median {times[len(times) // 2]:.1f} ms, 99th of a hundred {times[len(times) * 99 // 100]:.1f} ms, slowest {times[-1]:.0f} ms{broken}"


async def work(person: Person, kept: Kept, rng: Random, side: int, each: float, seconds: float) -> None:
    """Makes an edit every so many seconds, whether those before it are answered or not."""
    begin, tasks = time.monotonic() + rng.random() * each, []
    for n, edit in enumerate(edits(rng, side, kept.known)):
        wait = begin + n * each - time.monotonic()
        if n * each >= seconds:
            break
        await asyncio.sleep(max(0, wait))
        tasks.append(asyncio.ensure_future(one(person, kept, edit)))
    await asyncio.gather(*tasks)


async def one(person: Person, kept: Kept, edit: dict[str, Any]) -> None:
    key = secrets.token_hex(8)
    kept.sent += 1
    begin = time.monotonic()
    answer = await until_ok(person, {**edit, "key": key})
    if "ok" in answer:
        kept.versions[key] = answer["ok"]
        kept.times.append((time.monotonic() - begin) * 1000)
    else:
        kept.refused.append(answer)


async def answered(person: Person, message: dict[str, Any]) -> dict[str, Any]:
    """The answer to a message, which is sent again where the line broke."""
    end = time.monotonic() + patience()
    while True:
        try:
            await person.stay()
            return await person.ask(message)
        except NoLine:
            if time.monotonic() > end:
                raise
        await asyncio.sleep(0.3)


async def until_ok(person: Person, edit: dict[str, Any]) -> dict[str, Any]:
    """The answer to an edit, which is made again under its key where the line broke, and while the log can't be reached, as
    on a busy machine."""
    end = time.monotonic() + patience()
    while True:
        answer = await answered(person, edit)
        if answer.get("refused") not in ("log_down", "too_fast") or time.monotonic() > end:
            return answer
        await asyncio.sleep(0.3)


async def crowd(urls: list[str], count: int, each: float, seconds: float, side: int, seed: int) -> Kept:
    """So many people, shared out to servers, each with an edit every so many seconds."""
    kept = Kept()
    async with aiohttp.ClientSession(connector=aiohttp.TCPConnector(limit=0)) as session:
        people = [await Person(session, urls[n % len(urls)], f"person {n}").enter() for n in range(count)]
        for person in people:
            await person.ask({"do": "hello", "name": person.name})
        await asyncio.gather(*(work(person, kept, Random(f"{seed} {n}"), side, each, seconds) for n, person in enumerate(people)))
        for person in people:
            await person.leave()
    kept.broken = sum(person.lines - 1 for person in people)
    return kept


async def stubborn(session: aiohttp.ClientSession, url: str, name: str, kept: Kept, rng: Random, side: int, ended: asyncio.Event) -> None:
    """Makes one edit after another. One that isn't answered is sent again under its key, by a new line."""
    person, source = Person(session, url, name), edits(rng, side, kept.known)
    message = None
    while not (ended.is_set() and message is None):
        if message is None:
            message = {**next(source), "key": secrets.token_hex(8)}
        try:
            await person.stay()
            answer = await person.ask(message)
        except NoLine:
            await asyncio.sleep(0.05)
            continue
        if "ok" in answer:
            kept.versions[message["key"]] = answer["ok"]
            message = None
        elif answer["refused"] in ("log_down", "too_fast"):
            await asyncio.sleep(0.1)
        else:
            kept.refused.append(answer)
            message = None
        await asyncio.sleep(rng.random() * 0.02)
    await person.leave()

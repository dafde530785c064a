"""Where records are kept before anybody is told of them: a file of SQLite, or keys of etcd that several servers share.

Record n stands in the log once, and only behind record n - 1. `append` puts records where none stand yet, and says
whether it did: it didn't where another server was faster, or where an answer of etcd was lost and the records are those
that were put. Then `since` has what came.
"""

from __future__ import annotations

import asyncio
import base64
import json
import sqlite3
import time
from concurrent.futures import ThreadPoolExecutor
from pathlib import Path
from typing import Any, Callable, NamedTuple, Optional, Union

import aiohttp


class About(NamedTuple):
    """What a world is opened with."""

    side: int
    tints: bool
    cap: int


class Record(NamedTuple):
    """An accepted edit as a journal has it, who made it, and the key by which it is made once."""

    act: str
    by: str
    key: str


class Opened(NamedTuple):
    """What a log has: what the world is, its VOX files and its records."""

    about: About
    files: list[bytes]
    records: list[Record]


class LogDown(Exception):
    """The log can't be reached. Whether what was to be appended stands in it will be seen once it can."""


class NotMine(Exception):
    """The log belongs to another server, or to another kind of world."""


# ---- one file

class FileLog:
    """A file of SQLite: each record is on the disk before `append` comes back. It is one server's."""

    most_in_a_row = 1000

    def __init__(self, path: Path) -> None:
        self._path = path
        self._thread = ThreadPoolExecutor(1, "log")
        self._base: Optional[sqlite3.Connection] = None

    async def _in_thread(self, call: Callable[..., Any], *arguments: Any) -> Any:
        try:
            return await asyncio.get_running_loop().run_in_executor(self._thread, call, *arguments)
        except sqlite3.OperationalError as error:
            raise LogDown(str(error)) from error

    async def open(self, about: About, file: bytes) -> Opened:
        """The log, which is begun as a world like this one where there is none yet."""
        try:
            return await self._in_thread(self._begin, about, file)
        except (LogDown, sqlite3.DatabaseError) as error:
            raise NotMine(f"{self._path}: {error}") from None

    def _begin(self, about: About, file: bytes) -> Opened:
        base = sqlite3.connect(self._path, isolation_level=None, timeout=1, check_same_thread=False)
        self._base = base
        base.execute("PRAGMA locking_mode=EXCLUSIVE")
        base.execute("PRAGMA journal_mode=WAL")
        base.execute("PRAGMA synchronous=FULL")
        base.execute("BEGIN IMMEDIATE")
        base.execute("CREATE TABLE IF NOT EXISTS about (side INTEGER, tints INTEGER, cap INTEGER)")
        base.execute("CREATE TABLE IF NOT EXISTS files (n INTEGER PRIMARY KEY, file BLOB NOT NULL)")
        base.execute("CREATE TABLE IF NOT EXISTS records (n INTEGER PRIMARY KEY, act TEXT NOT NULL, by TEXT NOT NULL, key TEXT NOT NULL UNIQUE)")
        if not base.execute("SELECT count(*) FROM about").fetchone()[0]:
            base.execute("INSERT INTO about VALUES (?, ?, ?)", about)
            base.execute("INSERT INTO files VALUES (0, ?)", (file,))
        base.execute("COMMIT")
        side, tints, cap = base.execute("SELECT side, tints, cap FROM about").fetchone()
        files = [row[0] for row in base.execute("SELECT file FROM files ORDER BY n")]
        return Opened(About(side, bool(tints), cap), files, self._since(1))

    def _since(self, first: int) -> list[Record]:
        return [Record(*row) for row in self._base.execute("SELECT act, by, key FROM records WHERE n >= ? ORDER BY n", (first,))]

    def _put(self, rows: list[tuple[str, tuple[Any, ...]]]) -> bool:
        """All of these, or none of them where one stands there already."""
        self._base.execute("BEGIN IMMEDIATE")
        try:
            for words, values in rows:
                self._base.execute(words, values)
            self._base.execute("COMMIT")
            return True
        except sqlite3.IntegrityError:
            self._base.execute("ROLLBACK")
            return False
        except sqlite3.Error:
            if self._base.in_transaction:
                self._base.execute("ROLLBACK")
            raise

    async def append(self, first: int, records: list[Record]) -> bool:
        rows = [("INSERT INTO records VALUES (?, ?, ?, ?)", (first + i, *record)) for i, record in enumerate(records)]
        return await self._in_thread(self._put, rows)

    async def remove(self, first: int, records: list[Record]) -> None:
        """Takes records out of which nobody was told, since the world refused the first of them."""
        rows = [("DELETE FROM records WHERE n = ? AND key = ?", (first + i, record.key)) for i, record in enumerate(records)]
        await self._in_thread(self._put, rows)

    async def since(self, first: int) -> list[Record]:
        return await self._in_thread(self._since, first)

    async def add_file(self, number: int, file: bytes) -> bool:
        return await self._in_thread(self._put, [("INSERT INTO files VALUES (?, ?)", (number, file))])

    async def files_since(self, number: int) -> list[bytes]:
        words = "SELECT file FROM files WHERE n >= ? ORDER BY n"
        return await self._in_thread(lambda: [row[0] for row in self._base.execute(words, (number,))])

    async def follow(self, came: Callable[[int], None]) -> None:
        """Nobody else writes here."""

    async def close(self) -> None:
        if self._base is not None:
            await self._in_thread(self._base.close)
        self._thread.shutdown()


# ---- etcd

def _coded(data: "str | bytes") -> str:
    return base64.b64encode(data.encode() if isinstance(data, str) else data).decode()


def _after(prefix: str) -> str:
    """The end of the range of all keys with this prefix, which ends with a slash."""
    return prefix[:-1] + chr(ord("/") + 1)


class SharedLog:
    """Keys of etcd, by its JSON gateway. Any number of servers write here; a record stands where none stood before."""

    most_in_a_row = 100  # a transaction of etcd has 128 operations at most
    SECONDS = 5.0
    EACH = 2.0

    def __init__(self, hosts: list[str], name: str) -> None:
        self._urls = [host if "//" in host else f"http://{host}" for host in hosts]
        self._last = 0
        self._prefix = f"voxdag/{name}/"
        self._session: Optional[aiohttp.ClientSession] = None

    def _key(self, kind: str, number: int) -> str:
        return f"{self._prefix}{kind}/{number:08}"

    async def _ask(self, path: str, body: dict[str, Any]) -> dict[str, Any]:
        """The answer of the first member that gives one; each is tried until time is up."""
        end, told = time.monotonic() + self.SECONDS, "no member answers"
        while True:
            for turn in range(len(self._urls)):
                at = (self._last + turn) % len(self._urls)
                left = end - time.monotonic()
                if left <= 0:
                    raise LogDown(told)
                try:
                    limit = aiohttp.ClientTimeout(total=min(self.EACH, left))
                    async with self._session.post(f"{self._urls[at]}/v3/{path}", json=body, timeout=limit) as answer:
                        data = await answer.json(content_type=None)
                        if answer.status == 200:
                            self._last = at
                            return data
                        told = str(data.get("error", answer.status)) if isinstance(data, dict) else str(answer.status)
                except (aiohttp.ClientError, asyncio.TimeoutError, ValueError) as error:
                    told = str(error) or type(error).__name__
            await asyncio.sleep(0.1)

    async def _put(self, rows: list[tuple[str, bytes]]) -> bool:
        """All of these keys, where none of them is there."""
        absent = [{"key": _coded(key), "target": "CREATE", "create_revision": "0", "result": "EQUAL"} for key, _ in rows]
        puts = [{"request_put": {"key": _coded(key), "value": _coded(value)}} for key, value in rows]
        return bool((await self._ask("kv/txn", {"compare": absent, "success": puts})).get("succeeded"))

    async def _range(self, first: str, end: str) -> list[bytes]:
        """The values of keys, by rising key."""
        values: list[bytes] = []
        while True:
            answer = await self._ask("kv/range", {"key": _coded(first), "range_end": _coded(end), "limit": "2000"})
            entries = answer.get("kvs", [])
            values += [base64.b64decode(entry.get("value", "")) for entry in entries]
            if not answer.get("more"):
                return values
            first = base64.b64decode(entries[-1]["key"]).decode() + "\0"

    async def open(self, about: About, file: bytes) -> Opened:
        self._session = self._session or aiohttp.ClientSession(read_bufsize=1 << 20)
        rows = [(f"{self._prefix}about", json.dumps(about._asdict()).encode()), (self._key("files", 0), file)]
        await self._put(rows)
        found = await self._range(f"{self._prefix}about", f"{self._prefix}about\0")
        return Opened(About(**json.loads(found[0])), await self.files_since(0), await self.since(1))

    async def append(self, first: int, records: list[Record]) -> bool:
        return await self._put([(self._key("records", first + i), json.dumps(record).encode()) for i, record in enumerate(records)])

    async def remove(self, first: int, records: list[Record]) -> None:
        keys = [self._key("records", first + i) for i in range(len(records))]
        same = [{"key": _coded(key), "target": "VALUE", "value": _coded(json.dumps(record)), "result": "EQUAL"} for key, record in zip(keys, records)]
        gone = [{"request_delete_range": {"key": _coded(key)}} for key in keys]
        await self._ask("kv/txn", {"compare": same, "success": gone})

    async def since(self, first: int) -> list[Record]:
        values = await self._range(self._key("records", first), _after(self._prefix + "records/"))
        return [Record(*json.loads(value)) for value in values]

    async def add_file(self, number: int, file: bytes) -> bool:
        return await self._put([(self._key("files", number), file)])

    async def files_since(self, number: int) -> list[bytes]:
        return await self._range(self._key("files", number), _after(self._prefix + "files/"))

    async def follow(self, came: Callable[[int], None]) -> None:
        """Tells the number of each record that comes, whoever put it, and 0 where some may have been missed."""
        while True:
            for url in self._urls:
                try:
                    await self._watch(url, came)
                except (aiohttp.ClientError, asyncio.TimeoutError, ValueError):
                    pass
                await asyncio.sleep(0.2)

    async def _watch(self, url: str, came: Callable[[int], None]) -> None:
        prefix = self._prefix + "records/"
        body = {"create_request": {"key": _coded(prefix), "range_end": _coded(_after(prefix))}}
        limit = aiohttp.ClientTimeout(total=None, sock_connect=self.EACH)
        async with self._session.post(f"{url}/v3/watch", json=body, timeout=limit) as answer:
            kept = b""
            async for part in answer.content.iter_any():
                *lines, kept = (kept + part).split(b"\n")
                for line in lines:
                    told = json.loads(line).get("result", {})
                    if told.get("created"):
                        came(0)
                    for event in told.get("events", []):
                        came(int(base64.b64decode(event["kv"]["key"]).decode().rpartition("/")[2]))

    async def close(self) -> None:
        if self._session is not None:
            await self._session.close()


Log = Union[FileLog, SharedLog]

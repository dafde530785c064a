#!/usr/bin/env python3
"""A voxel editor in the browser that many people share.

    server.py [--world FILE | --etcd HOST,.. [--name NAME]] [--listen HOST:PORT] [--side N] [--plain] [--cap N]
              [--models FILE] [--token TEXT] [--origin URL].. [--people N] [--rate N] [--slow]

It goes on from the world that FILE, or etcd under NAME, has, and begins one there where there is none: of side N (128),
with tints unless `--plain`, with the models of a VOX file. It listens on 127.0.0.1:8065 unless it is told; elsewhere than
on loopback a token is asked for, which is made up where none is given. `--slow` takes the world of plain Python, for
trying things without the library. PROTOCOL.md describes the messages.
"""

from __future__ import annotations

import argparse
import asyncio
import hmac
import ipaddress
import resource
import secrets
import signal
import sys
import time
from pathlib import Path
from typing import Any, Optional
from urllib.parse import urlsplit

HERE = Path(__file__).resolve().parent
sys.path.insert(0, str(HERE.parent.parent / "bindings/python"))

import voxdag
import voxdag.slow
from aiohttp import WSCloseCode, WSMsgType, web
from logs import About, FileLog, NotMine, SharedLog
from messages import EDITS, Refusal, edit_of, identity, name_of, of_library, pointed_of, question_of, read, shown_of, text_of
from room import Room

MOST_FRAME = 1 << 20
MOST_FILE = 1 << 20
MOST_UNREAD = 1000
MOST_REFUSED = 2000
SAFE = {
    "Content-Security-Policy": "default-src 'self'; base-uri 'none'; frame-ancestors 'none'; form-action 'none'",
    "X-Content-Type-Options": "nosniff",
    "Referrer-Policy": "no-referrer",
    "Cache-Control": "no-store",
}


class Bucket:
    """How much a person may still do: so many a second, and for a while four times as many."""

    def __init__(self, rate: float) -> None:
        self._rate, self._left, self._at = rate, 4 * rate, time.monotonic()

    def takes(self) -> bool:
        now = time.monotonic()
        self._left = min(4 * self._rate, self._left + (now - self._at) * self._rate)
        self._at = now
        if self._left < 1:
            return False
        self._left -= 1
        return True


class Person:
    """Somebody with a page open."""

    def __init__(self, socket: web.WebSocketResponse, rate: float) -> None:
        self.number = 0
        self.name = ""
        self.at: Optional[list[int]] = None
        self.version: Optional[int] = None
        self.waiting = 0
        self.refused = 0
        self.bucket = Bucket(rate)
        self.socket = socket
        self.unsent: asyncio.Queue[Optional[str]] = asyncio.Queue(MOST_UNREAD)

    def say(self, text: str) -> None:
        """Puts a text behind what isn't sent yet. Who leaves too much unread is let go."""
        try:
            self.unsent.put_nowait(text)
        except asyncio.QueueFull:
            asyncio.ensure_future(self.socket.close(code=WSCloseCode.POLICY_VIOLATION, message=b"too much is unread"))

    async def rest(self) -> None:
        """Lets others have their turn, and waits while this person doesn't read what was answered."""
        await asyncio.sleep(0)
        while self.unsent.qsize() > MOST_UNREAD // 2 and not self.socket.closed:
            await asyncio.sleep(0.01)

    async def send(self) -> None:
        while (text := await self.unsent.get()) is not None:
            try:
                await self.socket.send_str(text)
            except (ConnectionError, RuntimeError):
                return


class Server:
    """The pages, files and sockets of a room."""

    def __init__(self, room: Room, words: argparse.Namespace) -> None:
        self.room, self.words = room, words
        host, port = words.listen
        self._hosts = {f"{name}:{port}" for name in (host, "localhost", "127.0.0.1", "[::1]")} if is_loopback(host) else None
        self._token: Optional[str] = words.token

    def app(self) -> web.Application:
        app = web.Application(middlewares=[self._guard], client_max_size=MOST_FILE + 1)
        app.add_routes([
            web.get("/", self._page), web.get("/ws", self._socket), web.get("/health", self._health),
            web.get("/journal.txt", self._journal), web.get("/world.dag", self._dag), web.get("/models.vox", self._models),
            web.get("/script.txt", self._script), web.get("/script.txt.out", self._transcript), web.get("/save.vox", self._save),
            web.post("/load", self._load), web.static("/page", HERE / "page"),
        ])
        return app

    # ---- who may ask

    @web.middleware
    async def _guard(self, request: web.Request, handler: Any) -> web.StreamResponse:
        try:
            self._test(request)
            answer = await handler(request)
        except Refusal as refusal:
            status = {"origin": 403, "token": 401, "too_long": 413, "full_house": 503}.get(refusal.name, 400)
            answer = web.json_response({"refused": refusal.name, "words": refusal.words}, status=status)
        except web.HTTPRequestEntityTooLarge:
            answer = web.json_response({"refused": "too_long", "words": f"a file has at most {MOST_FILE} bytes"}, status=413)
        except web.HTTPException as error:
            answer = web.json_response({"refused": "not_found" if error.status == 404 else "bad_message", "words": error.reason}, status=error.status)
        if not answer.prepared:
            answer.headers.update(SAFE)
        return answer

    def _test(self, request: web.Request) -> None:
        """Whether the page that asks is this server's own, and has the token where one is needed."""
        host = request.headers.get("Host", "")
        if self._hosts is not None and host not in self._hosts:
            raise Refusal("origin", "this server has another name")
        origin = request.headers.get("Origin")
        if origin is not None and origin not in self.words.origin:
            parts = urlsplit(origin)
            if parts.scheme not in ("http", "https") or parts.netloc != host:
                raise Refusal("origin", "the page comes from somewhere else")
        is_public = request.path == "/" or request.path.startswith("/page/")
        if self._token and not is_public:
            given = request.query.get("token", "")
            if not hmac.compare_digest(given.encode(), self._token.encode()):
                raise Refusal("token", "the address has no token, or another one")

    # ---- files

    async def _page(self, request: web.Request) -> web.StreamResponse:
        return web.FileResponse(HERE / "page/index.html")

    async def _health(self, request: web.Request) -> web.Response:
        room, used = self.room, resource.getrusage(resource.RUSAGE_SELF)
        return web.json_response({"version": room.head, "people": len(room.people), "lost": room.lost, "kilobytes": used.ru_maxrss,
                                  "processor": used.ru_utime + used.ru_stime})

    def _file(self, data: bytes, name: str, kind: str = "application/octet-stream") -> web.Response:
        return web.Response(body=data, content_type=kind, headers={"Content-Disposition": f'attachment; filename="{name}"'})

    async def _journal(self, request: web.Request) -> web.Response:
        return self._file(self.room.world.journal(), "journal.txt", "text/plain")

    async def _dag(self, request: web.Request) -> web.Response:
        try:
            return self._file(self.room.world.dag(), "world.dag")
        except voxdag.Refused as refused:
            raise of_library(refused) from None

    async def _models(self, request: web.Request) -> web.Response:
        return self._file(self.room.file, "models.vox")

    async def _script(self, request: web.Request) -> web.Response:
        return self._file(self.room.script()[0].encode(), "script.txt", "text/plain")

    async def _transcript(self, request: web.Request) -> web.Response:
        return self._file(self.room.script()[1].encode(), "script.txt.out", "text/plain")

    async def _save(self, request: web.Request) -> web.Response:
        side = self.room.about.side
        try:
            version = int(request.query.get("version", self.room.head))
            box = [int(n) for n in request.query.get("box", f"0,0,0,{side},{side},{side}").split(",")]
        except ValueError:
            raise Refusal("bad_message", "version is a number, and box six of them") from None
        if len(box) != 6:
            raise Refusal("bad_message", "box is six numbers")
        if not 0 <= version <= self.room.head:
            raise Refusal("no_version", "there is no such version yet")
        try:
            return self._file(self.room.world.save(version, box), f"version-{version}.vox")
        except voxdag.Refused as refused:
            raise of_library(refused) from None

    async def _load(self, request: web.Request) -> web.Response:
        data = await request.read()
        if len(data) > MOST_FILE:
            raise Refusal("too_long", f"a file has at most {MOST_FILE} bytes")
        return web.json_response(await self.room.load(data))

    # ---- people

    async def _socket(self, request: web.Request) -> web.StreamResponse:
        if len(self.room.people) >= self.words.people:
            raise Refusal("full_house", f"{self.words.people} people are here")
        # What is told to all would be compressed for each of them anew.
        socket = web.WebSocketResponse(max_msg_size=MOST_FRAME, heartbeat=60, compress=False)
        await socket.prepare(request)
        person = Person(socket, self.words.rate)
        self.room.enter(person)
        person.name = f"guest {person.number}"
        self._welcome(person)
        sending = asyncio.ensure_future(person.send())
        try:
            async for message in socket:
                await self._take(person, message)
                await person.rest()
        finally:
            self.room.leave(person)
            sending.cancel()
        return socket

    def _welcome(self, person: Person) -> None:
        room = self.room
        person.say(text_of({"say": "welcome", "you": person.number, "side": room.about.side, "tints": room.about.tints,
                            "version": room.head, **room.models_told(), "people": room.people_told()}))

    async def _take(self, person: Person, message: Any) -> None:
        """A message: it is done or answered, or refused by name."""
        number = None
        try:
            if message.type != WSMsgType.TEXT:
                raise Refusal("bad_message", "messages are texts")
            asked = read(message.data)
            number = identity(asked)
            if not person.bucket.takes():
                raise Refusal("too_fast", f"{self.words.rate:g} messages a second are read")
            await self._do(person, number, asked)
            person.refused = 0
        except Refusal as refusal:
            person.say(refused_text(number, refusal))
            person.refused += 1
            if person.refused > MOST_REFUSED:
                await person.socket.close(code=WSCloseCode.POLICY_VIOLATION, message=b"too much was refused")

    async def _do(self, person: Person, number: Optional[int], asked: dict[str, Any]) -> None:
        room, what = self.room, asked["do"]
        if what in EDITS:
            edit = edit_of(asked, room.about.side, room.about.tints, room.models)
            room.want(edit, person, lambda outcome: person.say(outcome_text(number, outcome)))
        elif what == "ask":
            self._say(person, number, room.answer(question_of(asked, room.head)))
        elif what == "show":
            await self._show(person, number, *shown_of(asked, room.head))
        elif what == "point":
            person.at, person.version = pointed_of(asked, room.about.side, room.head)
            room.move()
        elif what == "hello":
            person.name = name_of(asked.get("name")) or person.name
            room.move()
            self._say(person, number, {"hello": person.name})
        else:
            raise Refusal("bad_message", "there is no such thing to do")

    def _say(self, person: Person, number: Optional[int], told: dict[str, Any]) -> None:
        person.say(text_of({"id": number, **told}))

    async def _show(self, person: Person, number: Optional[int], first: int, version: int) -> None:
        """The cells that look different, part after part; the last message says that it is."""
        parts = self.room.parts_between(first, version)
        for at in range(0, max(1, len(parts)), 8):
            row = []
            for part in parts[at:at + 8]:
                row.append(self.room.cells_of(version, part))
                await asyncio.sleep(0)
            told = {"from": first, "version": version, "parts": row, "more": at + 8 < len(parts)}
            self._say(person, number, told)
            await person.rest()


def refused_text(number: Optional[int], refusal: Refusal) -> str:
    return text_of({"id": number, "refused": refusal.name, "words": refusal.words})


def outcome_text(number: Optional[int], outcome: "int | Refusal") -> str:
    return text_of({"id": number, "ok": outcome}) if isinstance(outcome, int) else refused_text(number, outcome)


# ---- the command

def is_loopback(host: str) -> bool:
    try:
        return host == "localhost" or ipaddress.ip_address(host.strip("[]")).is_loopback
    except ValueError:
        return False


def place(text: str) -> tuple[str, int]:
    host, _, port = text.rpartition(":")
    if not host or not port.isdigit() or int(port) > 65535:
        raise argparse.ArgumentTypeError("HOST:PORT is wanted")
    return host, int(port)


def command(arguments: Optional[list[str]] = None) -> argparse.Namespace:
    parser = argparse.ArgumentParser(description=__doc__, formatter_class=argparse.RawDescriptionHelpFormatter)
    parser.add_argument("--world", type=Path)
    parser.add_argument("--etcd", type=lambda text: text.split(","))
    parser.add_argument("--name", default="world")
    parser.add_argument("--listen", type=place, default=("127.0.0.1", 8065))
    parser.add_argument("--side", type=int, default=128)
    parser.add_argument("--cap", type=int, default=0)
    parser.add_argument("--plain", action="store_true")
    parser.add_argument("--models", type=Path)
    parser.add_argument("--token")
    parser.add_argument("--origin", action="append", default=[])
    parser.add_argument("--people", type=int, default=128)
    parser.add_argument("--rate", type=float, default=60)
    parser.add_argument("--slow", action="store_true")
    words = parser.parse_args(arguments)
    if bool(words.world) == bool(words.etcd):
        parser.error("one of --world FILE and --etcd HOST,.. is wanted")
    if not is_loopback(words.listen[0]) and not words.token:
        words.token = secrets.token_urlsafe(16)
    return words


async def serve(words: argparse.Namespace) -> None:
    log = FileLog(words.world) if words.world else SharedLog(words.etcd, words.name)
    room = Room(log, voxdag.slow.World if words.slow else voxdag.World)
    models = words.models.read_bytes() if words.models else b""
    await room.open(About(words.side, not words.plain, words.cap), models)
    server = Server(room, words)
    runner = web.AppRunner(server.app(), access_log=None)
    await runner.setup()
    host, port = words.listen
    site = web.TCPSite(runner, host.strip("[]"), port, shutdown_timeout=1)
    await site.start()
    token = f"/?token={words.token}" if words.token else "/"
    print(f"version {room.head} of a world of side {room.about.side}: http://{host}:{port}{token}", flush=True)
    ended = asyncio.Event()
    for name in (signal.SIGINT, signal.SIGTERM):
        asyncio.get_running_loop().add_signal_handler(name, ended.set)
    await asyncio.wait([asyncio.ensure_future(ended.wait()), room.fault], return_when=asyncio.FIRST_COMPLETED)
    await runner.cleanup()
    await room.close()
    if room.fault.done():
        room.fault.result()


def main(arguments: Optional[list[str]] = None) -> None:
    words = command(arguments)
    try:
        asyncio.run(serve(words))
    except (NotMine, OSError, voxdag.NotExported, voxdag.Refused) as error:
        sys.exit(f"editor: {error}")


if __name__ == "__main__":
    main()

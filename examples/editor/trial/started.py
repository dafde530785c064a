"""What the test starts on loopback and ends again: servers of the editor, members of etcd."""

from __future__ import annotations

import ctypes
import http.client
import json
import os
import random
import shutil
import signal
import socket
import subprocess
import sys
import time
import urllib.error
import urllib.request
from pathlib import Path
from typing import Any, Callable, Optional

HERE = Path(__file__).resolve().parent.parent
ROOT = HERE.parent.parent
MODELS = ROOT / "models/court.vox"

LIBC = ctypes.CDLL(None)

passed = failed = 0
_ports: set[int] = set()


def told(name: str, is_right: bool, why: object = "") -> bool:
    """Counts a check, and says how it went."""
    global passed, failed
    passed += bool(is_right)
    failed += not is_right
    print(f"{'passed' if is_right else 'FAILED'} {name}" + ("" if is_right else f"\n    {why}"), flush=True)
    return bool(is_right)


def patience() -> float:
    """For how many seconds something is awaited. It bounds the time of a test that fails, and decides nothing else: a
    machine that is ten times slower than the one on which the tests were written needs a tenth of it."""
    return 60.0 if failed else 600.0


def until(is_so: Callable[[], bool], each: float = 0.1) -> bool:
    """Waits until it is so, and says whether it came."""
    end = time.monotonic() + patience()
    while not is_so():
        if time.monotonic() > end:
            return False
        time.sleep(each)
    return True


def free_port() -> int:
    """A port that nobody listens at, and that the system gives to no line that goes out: a server that is killed can be
    started there again."""
    told_range = Path("/proc/sys/net/ipv4/ip_local_port_range")
    low, high = map(int, told_range.read_text().split()) if told_range.is_file() else (32_768, 60_999)
    ports = [port for port in range(10_000, 65_536) if not low <= port <= high] or [*range(10_000, 65_536)]
    while True:
        port = random.SystemRandom().choice(ports)
        with socket.socket() as asked:
            try:
                asked.bind(("127.0.0.1", port))
            except OSError:
                continue
        if port not in _ports:
            _ports.add(port)
            return port


def end_with_parent() -> None:
    """Has the system end this process where the test that started it is killed."""
    LIBC.prctl(1, signal.SIGKILL)


class Started:
    """A process with an address, which is started again after it was killed."""

    def __init__(self, words: list[str], log: Path) -> None:
        self._words, self._log = words, log
        self.process: Optional[subprocess.Popen[bytes]] = None

    def start(self) -> None:
        with open(self._log, "ab") as log:
            self.process = subprocess.Popen(self._words, stdout=log, stderr=log, stdin=subprocess.DEVNULL, preexec_fn=end_with_parent)

    def kill(self) -> None:
        """Ends it as if its machine had failed."""
        if self.process is not None:
            self.process.kill()
            self.process.wait()

    def end(self) -> None:
        if self.process is None or self.process.poll() is not None:
            return
        self.process.send_signal(signal.SIGTERM)
        try:
            self.process.wait(patience())
        except subprocess.TimeoutExpired:
            self.kill()

    def says(self) -> str:
        return self._log.read_text(errors="replace")[-600:]


class Editor(Started):
    """A server of the editor."""

    def __init__(self, work: Path, name: str, *options: str) -> None:
        self.port = free_port()
        self.url = f"http://127.0.0.1:{self.port}"
        words = [sys.executable, str(HERE / "server.py"), "--listen", f"127.0.0.1:{self.port}", "--models", str(MODELS), *options]
        super().__init__(words, work / f"{name}.log")

    def get(self, path: str, **headers: str) -> tuple[int, bytes]:
        asked = urllib.request.Request(self.url + path, headers=headers)
        try:
            with urllib.request.urlopen(asked, timeout=patience()) as answer:
                return answer.status, answer.read()
        except urllib.error.HTTPError as error:
            return error.code, error.read()

    def health(self) -> dict[str, Any]:
        return json.loads(self.get("/health")[1])

    def answers(self) -> bool:
        try:
            return "version" in self.health()
        except (OSError, ValueError, http.client.HTTPException):
            return False

    def has_ended(self) -> bool:
        return self.process is None or self.process.poll() is not None

    def stands(self) -> bool:
        """Waits until it answers."""
        return until(lambda: self.answers() or self.has_ended(), 0.05) and not self.has_ended()

    def begin(self) -> None:
        self.start()
        if not self.stands():
            raise RuntimeError(f"the server didn't start: {self.says()}")


class Members:
    """etcd of three members."""

    def __init__(self, work: Path) -> None:
        self.hosts = [f"127.0.0.1:{free_port()}" for _ in range(3)]
        peers = [f"127.0.0.1:{free_port()}" for _ in range(3)]
        all_of_them = ",".join(f"m{n}=http://{peer}" for n, peer in enumerate(peers))
        self.each = []
        for n in range(3):
            words = [
                shutil.which("etcd") or "etcd", "--name", f"m{n}", "--data-dir", str(work / f"etcd-{n}"),
                "--listen-client-urls", f"http://{self.hosts[n]}", "--advertise-client-urls", f"http://{self.hosts[n]}",
                "--listen-peer-urls", f"http://{peers[n]}", "--initial-advertise-peer-urls", f"http://{peers[n]}",
                "--initial-cluster", all_of_them, "--initial-cluster-state", "new", "--initial-cluster-token", "editor",
                "--heartbeat-interval", "500", "--election-timeout", "5000",
            ]
            self.each.append(Started(words, work / f"etcd-{n}.log"))

    def start(self) -> None:
        for member in self.each:
            member.start()

    def is_well(self, host: str) -> bool:
        """Whether a member answers that it has a leader."""
        try:
            with urllib.request.urlopen(f"http://{host}/health", timeout=20) as answer:
                return json.loads(answer.read()).get("health") in ("true", True)
        except (OSError, ValueError, http.client.HTTPException):
            return False

    def stands(self) -> bool:
        """Waits until all members have a leader."""
        return until(lambda: all(map(self.is_well, self.hosts)), 0.2)

    def end(self) -> None:
        for member in self.each:
            member.kill()


def program() -> Optional[Path]:
    """The program voxdag, proved or before its proofs."""
    named = [os.environ.get("VOXDAG"), ROOT / ".build/voxdag", ROOT / "crates/voxdag/out/voxdag", ROOT / ".build/tried"]
    return next((path for path in map(Path, filter(None, named)) if path.is_file()), None)

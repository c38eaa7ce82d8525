"""What the tests of `bpfagent-front` share: a started front, and what clients send and hear."""
from __future__ import annotations

import contextlib
import importlib.util
import os
import re
import resource
import shutil
import signal
import socket
import subprocess
import sys
import tempfile
import threading
import time
import urllib.request
from pathlib import Path
from types import TracebackType
from typing import Callable, Iterator, Optional, Sequence

from support import PROGRAM, SECONDS

from lib.programs import has_gone

FRONT = [sys.executable, "-m", "bpfagent.front.main"]
# The same by the loop of asyncio, also where uvloop is installed.
PLAIN = [sys.executable, "-c", "import sys; sys.modules['uvloop'] = None; from bpfagent.front.main import main; main()"]
LOOPS = [FRONT, PLAIN] if importlib.util.find_spec("uvloop") else [FRONT]
IS_SLOW = bool(PROGRAM) and b"AddressSanitizer" in Path(PROGRAM).read_bytes()


class Front:
    """A started front on a Unix socket in a folder of its own, and on TCP."""

    def __init__(self, setup: str, *options: str, agent: Sequence[str] = (), command: Sequence[str] = FRONT, most: int = 0) -> None:
        self.folder = Path(tempfile.mkdtemp(prefix="front-"))
        file = self.folder / "setup"
        file.write_text(setup)
        self.path = str(self.folder / "s")
        words = [*command, str(file), "--program", PROGRAM, "--metrics", "0", "--unix", self.path, "--listen", "127.0.0.1:0", *options, "--", *agent]

        def limit() -> None:
            if most:
                resource.setrlimit(resource.RLIMIT_NOFILE, (most, most))

        self.process = subprocess.Popen(
            words, stdin=subprocess.DEVNULL, stdout=subprocess.PIPE, stderr=subprocess.PIPE, text=True, preexec_fn=limit
        )
        assert self.process.stdout and self.process.stderr
        self.errors: list[str] = []
        self._reader = threading.Thread(target=self.errors.extend, args=(iter(self.process.stderr.readline, ""),))
        self._reader.start()
        listening = [self.process.stdout.readline().split() for _ in range(2)]
        self.tcp = ("127.0.0.1", int(listening[1][1].rpartition(":")[2]) if listening[1] else 0)
        self.port = int(self.said(r"numbers are told\W+port\W+(\d+)")) if listening[1] else 0

    def said(self, form: str) -> str:
        """What a line of its standard error has in a group, when it is written."""
        found: list[str] = []

        def look() -> bool:
            found.extend(match[1] for line in list(self.errors) if (match := re.search(form, line)))
            return bool(found)

        if not within(SECONDS, look):
            raise AssertionError(f"no line has {form}: {self.errors}")
        return found[0]

    def connect(self, is_tcp: bool = False, timeout: float = SECONDS) -> socket.socket:
        made = socket.socket(socket.AF_INET if is_tcp else socket.AF_UNIX)
        made.settimeout(timeout)
        try:
            made.connect(self.tcp if is_tcp else self.path)
        except BaseException:
            made.close()
            raise
        return made

    def tell(self, content: bytes, is_tcp: bool = False) -> bytes:
        """What is answered to these bytes and the end of the input."""
        with self.connect(is_tcp) as stream:
            stream.sendall(content)
            stream.shutdown(socket.SHUT_WR)
            return b"".join(iter(lambda: stream.recv(1 << 16), b""))

    def metrics(self, path: str = "metrics") -> str:
        with urllib.request.urlopen(f"http://127.0.0.1:{self.port}/{path}", timeout=SECONDS) as answer:
            return str(answer.read().decode())

    def number(self, name: str) -> float:
        """A number of the metrics."""
        found = re.search(rf"^bpfagent_front_{re.escape(name)} ([0-9.]+)$", self.metrics(), re.MULTILINE)
        return float(found[1]) if found else 0.0

    def agents(self) -> list[int]:
        """The processes of its agents. One that was killed is listed until its end is known."""
        told = subprocess.run(["pgrep", "-P", str(self.process.pid)], stdout=subprocess.PIPE, text=True, check=False)
        return [number for number in map(int, told.stdout.split()) if not has_gone(number)]

    def kill_agent(self) -> None:
        """Kills its agent, and waits for the next one."""
        if not within(SECONDS, lambda: len(self.agents()) == 1):
            raise AssertionError(f"these are its agents: {self.agents()}")
        [agent] = self.agents()
        count = self.number("restarts_total")
        os.kill(agent, signal.SIGKILL)
        if not within(SECONDS, lambda: self.number("restarts_total") > count):
            raise AssertionError("there is no next agent")

    def end(self, number: int = signal.SIGTERM) -> tuple[int, str]:
        """Sends a signal, and gives the status and the last state."""
        self.process.send_signal(number)
        assert self.process.stdout
        told = self.process.stdout.read()
        return self.process.wait(SECONDS), told

    def __enter__(self) -> Front:
        return self

    def __exit__(self, kind: Optional[type[BaseException]], error: Optional[BaseException], trace: Optional[TracebackType]) -> None:
        if self.process.poll() is None:
            self.process.kill()
        self.process.wait(SECONDS)
        self._reader.join(SECONDS)
        for stream in (self.process.stdout, self.process.stderr):
            if stream:
                stream.close()
        shutil.rmtree(self.folder)


def line_of(stream: socket.socket, content: bytes) -> bytes:
    """The reply to a line."""
    stream.sendall(content)
    return reply_of(stream)


def lines_of(stream: socket.socket, content: bytes) -> bytes:
    """The replies to lines."""
    stream.sendall(content)
    return reply_of(stream, content.count(b"\n"))


def reply_of(stream: socket.socket, lines: int = 1) -> bytes:
    """The next replies."""
    read = b""
    while read.count(b"\n") < lines:
        piece = stream.recv(1 << 16)
        if not piece:
            raise ConnectionError("the connection was closed")
        read += piece
    return read


def within(seconds: float, is_so: Callable[[], bool]) -> bool:
    """Whether a call comes to be true, looked at with growing pauses."""
    until, pause = time.monotonic() + seconds, 0.002
    while time.monotonic() < until:
        if is_so():
            return True
        time.sleep(pause)
        pause = min(2 * pause, 0.1)
    return False


@contextlib.contextmanager
def probing(front: Front) -> Iterator[None]:
    """Connects, says nothing and goes: at once, and then every 10 ms."""
    done = threading.Event()
    wrong: list[OSError] = []

    def probe() -> None:
        while True:
            try:
                front.connect(is_tcp=True).close()
            except OSError as why:
                wrong.append(why)
            if done.wait(0.01):
                return

    probes = threading.Thread(target=probe)
    probes.start()
    try:
        yield
    finally:
        done.set()
        probes.join()
    if wrong:
        raise AssertionError(f"these probes failed: {wrong}")

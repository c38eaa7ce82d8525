"""A stand-in for `bpfagent serve` that answers stored lines. What a client sends has to be the next stored command, letter by letter. The stored
reply answers it."""
from __future__ import annotations

import contextlib
import io
import json
import os
import pathlib
import socket
import sys
import tempfile
import threading
import time
from typing import IO, TYPE_CHECKING, Callable, ContextManager, Iterator, Sequence, Union

if TYPE_CHECKING:
    from lib.scripts import Talk


Binary = Union[IO[bytes], io.BufferedRWPair]
# What is answered to a line that doesn't stand there: no reply of the protocol.
UNEXPECTED = "unexpected, and not"
# A stand-in that doesn't answer: its port, and what waits until somebody tries.
StandIn = Callable[[], ContextManager[tuple[int, Callable[[], None]]]]
# How long something that is to be asked may take to come.
SECONDS = 180.0


def converse(talk: Talk, reader: Binary, writer: Binary) -> bool:
    """Answers lines until the stream ends, or the stored ones do; whether all stood there in this order."""
    for command, reply in talk:
        line = reader.readline()
        is_right = line == command.encode() + b"\n"
        writer.write((reply if is_right else f"{UNEXPECTED} {command[:60]}").encode() + b"\n")
        writer.flush()
        if not is_right:
            return False
    return reader.read(1) == b""


def accept(talks: Sequence[Talk], listener: socket.socket, done: list[bool]) -> None:
    """One connection for each conversation, each in a thread; `done` gets whether it was as stored."""

    def serve(talk: Talk, connection: socket.socket) -> None:
        with connection, connection.makefile("rwb") as stream:
            done.append(converse(talk, stream, stream))

    threads = []
    for talk in talks:
        connection, _ = listener.accept()
        connection.setsockopt(socket.IPPROTO_TCP, socket.TCP_NODELAY, 1)
        threads.append(threading.Thread(target=serve, args=(talk, connection)))
        threads[-1].start()
    for thread in threads:
        thread.join()


@contextlib.contextmanager
def answering(answer: Callable[[socket.socket], object]) -> Iterator[int]:
    """The port of a stand-in that does this with its one connection, and ends it."""
    with socket.create_server(("127.0.0.1", 0)) as listener:

        def serve() -> None:
            connection, _ = listener.accept()
            with connection:
                answer(connection)

        server = threading.Thread(target=serve)
        server.start()
        try:
            yield listener.getsockname()[1]
        finally:
            server.join()


@contextlib.contextmanager
def silent() -> Iterator[tuple[int, Callable[[], None]]]:
    """The port of a stand-in that hears its one client out and never answers, and what waits until something was asked."""
    asked = threading.Event()

    def hear(connection: socket.socket) -> None:
        with contextlib.suppress(ConnectionResetError):
            while connection.recv(1 << 16):
                asked.set()

    with answering(hear) as port:
        yield port, lambda: None if asked.wait(SECONDS) else sys.exit("nothing was asked")


@contextlib.contextmanager
def full() -> Iterator[tuple[int, Callable[[], None]]]:
    """The port of a stand-in to which nobody gets through, since others wait there already, and what waits until somebody tries."""
    with contextlib.ExitStack() as closing:
        listener = closing.enter_context(socket.create_server(("127.0.0.1", 0), backlog=0))
        for _ in range(3):
            other = closing.enter_context(socket.socket())
            other.setblocking(False)
            other.connect_ex(listener.getsockname())
        port = listener.getsockname()[1]
        others = trying(port)

        def wait() -> None:
            until = time.monotonic() + SECONDS
            while trying(port) <= others and time.monotonic() < until:
                time.sleep(0.01)

        yield port, wait


def trying(port: int) -> int:
    """How many sockets of this machine try to connect to a port, and have no answer yet (proc(5): state 2 is SYN_SENT)."""
    rows = [line.split() for line in pathlib.Path("/proc/net/tcp").read_text().splitlines()[1:]]
    return sum(row[2].endswith(f":{port:04X}") and row[3] == "02" for row in rows)


def main(program: str, path: str) -> None:
    """`serve`: setup on the standard streams, `listening P`, the connections, `closed`. Another subcommand is the program's."""
    if sys.argv[1] != "serve":
        os.execv(program, [program, *sys.argv[1:]])
    setup, *talks = json.loads(pathlib.Path(path).read_text())
    done = [converse(setup, sys.stdin.buffer, sys.stdout.buffer)]
    with socket.create_server(("127.0.0.1", 0)) as listener:
        print(f"listening {listener.getsockname()[1]}", flush=True)
        accept(talks, listener, done)
    print("closed", flush=True)
    sys.exit(0 if done == [True] * (1 + len(talks)) else 4)


def program_of(folder: Union[str, pathlib.Path], program: str, setup: Talk, *talks: Talk) -> str:
    """The path of a program whose `serve` answers these lines, and which is else this program."""
    made = pathlib.Path(tempfile.mkdtemp(dir=folder)) / "stand_in"
    stored = made.with_name("stored")
    stored.write_text(json.dumps([setup, *talks]))
    here = str(pathlib.Path(__file__).resolve().parent)
    made.write_text(f"#!{sys.executable}\nimport sys\nsys.path.insert(0, {here!r})\nimport stand_in\nstand_in.main({program!r}, {str(stored)!r})\n")
    made.chmod(0o755)
    return str(made)

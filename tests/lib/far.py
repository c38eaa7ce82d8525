"""A far store of one client, in Python, which doesn't stay well."""
from __future__ import annotations

import contextlib
import socket
import sys
import threading
import time
from types import TracebackType

from lib.checks import want
from lib.sources import ROOT

sys.path.append(str(ROOT / "python"))
from bpfagent.far import DONE, FORGET, GET, HEAD, LIMIT, NO_ROOM, PUT, REFUSED_ID

__all__ = ["DONE", "FORGET", "GET", "HEAD", "LIMIT", "NEVER", "NO_ROOM", "PUT", "REFUSED_ID", "Far", "greeted"]

# How long something may take that is never done, in seconds.
NEVER = 120
# How long a slow store takes, in seconds, so that machines still wait when replies are measured.
SLOW = 3.0
REFUSED = 1


def greeted(listener: socket.socket) -> socket.socket:
    """The stream of the service that comes, whose first request has its answer: to forget id 0, which no put has."""
    stream = listener.accept()[0]
    stream.recv(HEAD.size, socket.MSG_WAITALL)
    stream.sendall(HEAD.pack(REFUSED_ID, 0, 0))
    return stream


class Far:
    """It notes when it is asked for what, and answers in the way of `manner`. After so many answers, if that is said, it is silent.

    The first request of a service, to forget id 0, which no put has, is answered apart, unless the store is deaf to it.
    """

    def __init__(self, answers: int | None = None, is_deaf: bool = False) -> None:
        self.manner, self.answers, self.is_deaf = "well", answers, is_deaf
        # how long a store that drips waits before each byte of an object, in seconds
        self.pause = 0.0
        self.asked: list[float] = []
        self.gets: list[float] = []
        self.kept: dict[int, bytes] = {}
        self.listener = socket.create_server(("127.0.0.1", 0))
        self.port: int = self.listener.getsockname()[1]
        self.over = threading.Event()
        self.thread = threading.Thread(target=self.serve, daemon=True)
        self.thread.start()

    def __enter__(self) -> Far:
        return self

    def __exit__(self, kind: type[BaseException] | None, error: BaseException | None, trace: TracebackType | None) -> None:
        self.over.set()
        # a call that accepts isn't ended by `close`
        self.listener.shutdown(socket.SHUT_RDWR)
        self.thread.join(NEVER)
        self.listener.close()
        want(kind or not self.thread.is_alive(), "the service keeps its stream to the far store")

    def serve(self) -> None:
        with contextlib.suppress(OSError), self.listener.accept()[0] as stream:
            while head := stream.recv(HEAD.size, socket.MSG_WAITALL):
                kind, number, length = HEAD.unpack(head)
                held = stream.recv(length, socket.MSG_WAITALL) if length else b""
                if (kind, number) == (FORGET, 0) and not self.is_deaf:
                    stream.sendall(HEAD.pack(REFUSED_ID, number, 0))
                    continue
                self.asked.append(time.monotonic())
                self.gets += self.asked[-1:] if kind == GET else []
                if self.manner == "silent" or len(self.asked) - 1 == self.answers:
                    # all that comes is read
                    self.manner = "silent"
                    continue
                if self.manner == "cut" or self.manner == "slow" and self.over.wait(SLOW):
                    return
                answer = self.answer(kind, number, held)
                if self.manner == "drip" and kind == GET:
                    self.drip(stream, answer)
                else:
                    stream.sendall(answer)

    def drip(self, stream: socket.socket, answer: bytes) -> None:
        """Sends a byte at a time, up to the end of the script's block."""
        for byte in answer:
            if self.over.wait(self.pause):
                return
            stream.sendall(bytes([byte]))

    def answer(self, kind: int, number: int, held: bytes) -> bytes:
        """The answer to a request."""
        if self.manner == "refusing" or self.manner == "keeping" and kind == GET:
            return HEAD.pack(REFUSED, number, 0)
        found = self.kept.get(number, b"")
        if kind == PUT:
            self.kept[number] = held
        if kind == FORGET:
            self.kept.pop(number, None)
        if kind != GET:
            return HEAD.pack(DONE, number, 0)
        told = bytes(byte ^ 1 for byte in found) if self.manner == "lying" else found
        return HEAD.pack(DONE, number, len(told)) + told

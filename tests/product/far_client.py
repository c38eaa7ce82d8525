#!/usr/bin/env python3
"""Runs `bpfagent serve --far` and looks at what its client writes, and when: far_client.py PROGRAM

A fault is one write: the forgets of what came home before, and the get. Objects that left and came home many times have their bytes. A server that
sends a byte now and then is given up as a silent one is, and one that is slow, but not too slow, isn't. A server that has no room for another client,
or never answers, is found out before the service listens.
"""
from __future__ import annotations

import contextlib
import os
import pathlib
import select
import socket
import sys
import threading
import time
from typing import Iterator

sys.path.insert(0, str(pathlib.Path(__file__).resolve().parents[1]))
from lib.checks import run_parts, want, want_equal
from lib.far import DONE, FORGET, GET, HEAD, NEVER, PUT, REFUSED_ID, Far
from lib.programs import Server, Service, ended, object_line, opened, until

CLIENTS = 64
# How often an object leaves and comes home, and how many objects do.
ROUNDS = 40
OBJECTS = 5
# The time that a far server is given, in seconds. It is long beside the pauses of a busy machine.
GIVEN = 4.0
# A pause before each byte of an answer, as a part of the time that the far server is given, the bytes of an object, and whether it comes home.
DRIPS = [(0.001, 64, True), (0.02, 16, True), (0.2, 8, False), (0.9, 8, False), (0.01, 4096, False)]


class Noting(threading.Thread):
    """A far store of one client that notes what each read of its socket gives: on loopback, a write of the client that waits for an answer."""

    def __init__(self) -> None:
        super().__init__(daemon=True)
        self.writes: list[bytes] = []
        self.kept: dict[int, bytes] = {}
        self.listener = socket.create_server(("127.0.0.1", 0))
        self.port: int = self.listener.getsockname()[1]
        self.start()

    def run(self) -> None:
        with self.listener, contextlib.suppress(OSError), self.listener.accept()[0] as stream:
            stream.setsockopt(socket.IPPROTO_TCP, socket.TCP_NODELAY, 1)
            come = b""
            while piece := stream.recv(1 << 20):
                self.writes.append(piece)
                come += piece
                answers = []
                while len(come) >= HEAD.size and len(come) >= HEAD.size + HEAD.unpack(come[: HEAD.size])[2]:
                    kind, number, length = HEAD.unpack(come[: HEAD.size])
                    held, come = come[HEAD.size : HEAD.size + length], come[HEAD.size + length :]
                    answers.append(self.answer(kind, number, held))
                if answers:
                    stream.sendall(b"".join(answers))

    def answer(self, kind: int, number: int, held: bytes) -> bytes:
        """The answer to a request."""
        if kind == PUT:
            self.kept[number] = held
            return HEAD.pack(DONE, number, 0)
        found = self.kept.get(number)
        if found is None:
            return HEAD.pack(REFUSED_ID, number, 0)
        if kind == GET:
            return HEAD.pack(DONE, number, len(found)) + found
        del self.kept[number]
        return HEAD.pack(DONE, number, 0)


def show_one_write(program: str) -> None:
    """Two objects leave, and come home in turn, twice. What is asked for the second is one write, after the forget of the first."""
    far = Noting()
    bodies = [bytes([mark, *bytes(7)]) for mark in (0x2A, 0x2B)]
    setup = [line for number, body in enumerate(bodies, 1) for line in ("make 8", f"put {number} 0 {body.hex()}")]
    service, client = opened(program, "--far", f"127.0.0.1:{far.port}", "--workers", 0, setup=setup)
    wanted = [HEAD.pack(FORGET, 0, 0)]
    for last in (0, 2):
        want_equal(client.ask_at_once(["leave 1", "leave 2"]), ["asked 1", "asked 2"], "objects that are to leave")
        until("two objects don't leave", lambda: len(far.kept) == 2, pause=0.005)
        for number, body in enumerate(bodies, 1):
            client.ask_until(f"get {number} 0 8", f"bytes {body.hex()}", pause=0.005)
        puts = [HEAD.pack(PUT, last + number, len(body)) + body for number, body in enumerate(bodies, 1)]
        before = HEAD.pack(FORGET, last, 0) if last else b""
        wanted += [before + puts[0], puts[1], HEAD.pack(GET, last + 1, 0), HEAD.pack(FORGET, last + 1, 0) + HEAD.pack(GET, last + 2, 0)]
    want_equal(client.end(), "", "what is said beyond the replies")
    want(service.ends_well(dict(enumerate(bodies, 1))), "objects that left and came home")
    want_equal(far.writes, wanted, "what is written")


def show_rounds(program: str) -> None:
    """Objects of several lengths leave and come home many times: their bytes are as they were."""
    lengths = [65_536 >> (4 * number) or 1 for number in range(OBJECTS)]
    bodies = [bytes((number * 7 + k) % 251 for k in range(8)).ljust(max(length, 8), b"\0") for number, length in enumerate(lengths)]
    setup = [line for number, body in enumerate(bodies, 1) for line in (f"make {len(body)}", f"put {number} 0 {body[:8].hex()}")]
    with Server(program) as server:
        service, client = opened(program, "--far", f"127.0.0.1:{server.port}", setup=setup)
        for _ in range(ROUNDS):
            for number, body in enumerate(bodies, 1):
                client.there_and_back(f"bytes {body[:8].hex()}", number)
        want_equal(client.end(), "", "what is said beyond the replies")
        want(service.ends_well(dict(enumerate(bodies, 1))), "objects that left and came home many times")
        want_equal(server.end(), (0, b"", b""), "the store of a service that has ended")


def is_told(service: Service, text: str, seconds: float) -> bool:
    """Whether standard error has a line that ends so, within so many seconds."""
    errors = service.process.stderr
    assert errors is not None
    said, end = b"", time.monotonic() + seconds
    while time.monotonic() < end:
        if select.select([errors], [], [], 0.05)[0]:
            said += os.read(errors.fileno(), 1 << 16)
            if f"{text}\n".encode() in said:
                return True
    return False


def show_drips(program: str) -> None:
    """A server that sends an object a byte at a time: it may take the time for an answer, and that of its bytes at the least rate."""
    limit = GIVEN
    for part, length, is_home in DRIPS:
        with Far() as far:
            words = ["--far", f"127.0.0.1:{far.port}", "--far-timeout", int(1000 * limit), "--workers", 0, "-v"]
            service, client = opened(program, *words, setup=[f"make {length}", "put 1 0 2a"])
            want_equal(client.ask("leave 1"), "asked 1", "an object that is to leave")
            until("the object doesn't leave", lambda: bool(far.kept), pause=0.01)
            far.manner, far.pause = "drip", part * limit
            client.ask_until("get 1 0 8", "away", pause=0.01)
            start = time.monotonic()
            if is_home:
                client.ask_until("get 1 0 8", "bytes 2a", pause=0.01)
            else:
                want(is_told(service, "broke: no answer in time", 3 * limit), f"a byte each {part} of the time holds the mover")
                took = time.monotonic() - start
                want(0.5 * limit < took < 2.5 * limit, f"a byte each {part} of {limit} s is given {took:.1f} s")
            want_equal(client.end(), "", "what is said beyond the replies")
            lines = [object_line(1, b"\x2a" + bytes(length - 1)) if is_home else "object 1 out"]
            status, output, _ = service.texts()
            want_equal((status, output.splitlines()), (0, ["closed", *lines]), "the end of a service whose far server drips")


@contextlib.contextmanager
def full(program: str) -> Iterator[int]:
    """The port of a `bpfagent store` that has no room for another client."""
    with Server(program) as server, contextlib.ExitStack() as held:
        for number in range(CLIENTS):
            stream = held.enter_context(server.connect())
            stream.settimeout(NEVER)
            stream.sendall(HEAD.pack(GET, number + 1, 0))
            want_equal(stream.recv(HEAD.size, socket.MSG_WAITALL), HEAD.pack(REFUSED_ID, number + 1, 0), "a client of a store")
        yield server.port


def refused(program: str, port: int) -> tuple[int, bytes, bytes]:
    """How a service ends that can't use its far server."""
    return ended(program, "serve", "--far", f"127.0.0.1:{port}", "--far-timeout", int(1000 * GIVEN), given=b"make 8\n")


def show_no_room(program: str) -> None:
    """A server that has no room, one that is silent and one that goes: nothing is read, and the service says why it ends."""
    with full(program) as port:
        want_equal(refused(program, port), (3, b"", b"net fault\n"), "a store that has no room for another client")
    for manner in ("silent", "cut"):
        with Far(is_deaf=True) as far:
            far.manner = manner
            want_equal(refused(program, far.port), (3, b"", b"net fault\n"), f"a far server that is {manner}")


SHOWN = [show_one_write, show_rounds, show_drips, show_no_room]


if __name__ == "__main__":
    run_parts("far_client", SHOWN)

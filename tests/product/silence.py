#!/usr/bin/env python3
"""Runs `bpfagent serve` over far servers that don't answer: silence.py PROGRAM

A server that is silent from the first move on, one that falls silent while it has an object, and one that doesn't take a connection. A move fails when
`--far-timeout` has passed, later ones fail at once, replies go on meanwhile, and the service ends. A service that is stopped by a signal
meanwhile. Two services at one `bpfagent store`.
"""
from __future__ import annotations

import contextlib
import os
import pathlib
import signal
import socket
import sys
import time
from concurrent.futures import ThreadPoolExecutor
from typing import Iterator

sys.path.insert(0, str(pathlib.Path(__file__).resolve().parents[1]))
from lib.checks import run_parts, want, want_equal
from lib.far import DONE, GET, HEAD, PUT, Far, greeted
from lib.programs import Client, Server, Service, ended, object_line

# How long the mover may take to come to a request, in seconds.
BEGINS = 0.5
# The time that the far server is given, in milliseconds. It is long beside the pauses of a busy machine. A reply, the end of a service, and what
# comes late may take half of it: a reply that waited for the server would be found out.
GIVEN = 8000
HELD = b"\x2a" + bytes(7)


def begun(program: str, far: int, *setup: str) -> tuple[Service, Client, float]:
    """A service over the far server at a port, a client of it, and how long a reply may take, in seconds."""
    service, half = Service(program, "--far", f"127.0.0.1:{far}", "--far-timeout", GIVEN, "--workers", 1, setup=setup), GIVEN / 2000
    client = Client(service)
    client.stream.settimeout(half)
    return service, client, half


@contextlib.contextmanager
def unaccepting() -> Iterator[str]:
    """The address of a server that takes no connection: as many as may wait for that are waiting."""
    with socket.create_server(("127.0.0.1", 0), backlog=0) as listener, contextlib.ExitStack() as waiting:
        for _ in range(4):
            stream = waiting.enter_context(socket.socket())
            stream.setblocking(False)
            stream.connect_ex(listener.getsockname())
        yield f"127.0.0.1:{listener.getsockname()[1]}"


def since(start: float) -> float:
    """The seconds that have passed."""
    return time.monotonic() - start


def ends(client: Client, service: Service, lines: list[str], seconds: float) -> None:
    """The last client goes, and the service ends within so many seconds, also where a move still waits for its server."""
    want_equal(client.end(), "", "what is said beyond the replies")
    start = time.monotonic()
    want(service.ends_with(lines), "the end of a service whose far server is silent")
    want(since(start) < seconds, f"the service ends {since(start):.1f} s after its last client")


def show_silent_put(program: str) -> None:
    """A server that never answers: the object stays here when the time has passed, and the next one at once."""
    with Far(0) as far:
        service, client, half = begun(program, far.port, "make 8", "put 1 0 2a", "make 8")
        start = time.monotonic()
        client.until_away(1)
        client.ask_until("get 1 0 8", "bytes 2a", pause=0.005)
        want(half < since(start) < 3 * half, f"a silent server is given {since(start):.2f} s")
        want_equal(client.ask("leave 2"), "asked 2", "an object that is to leave over a broken stream")
        time.sleep(BEGINS)
        start = time.monotonic()
        client.ask_until("get 2 0 8", "bytes 00", pause=0.005)
        want(since(start) < half, f"a move over a stream that is broken takes {since(start):.2f} s")
        ends(client, service, [object_line(1, HELD), object_line(2, bytes(8))], half)


def show_silent_get(program: str) -> None:
    """A server that keeps two objects and then is silent: they stay far, and what is here is answered as ever."""
    with Far(2) as far:
        service, client, half = begun(program, far.port, "make 8", "make 8", "make 8", "put 3 0 2a")
        want_equal(client.ask_at_once(["leave 1", "leave 2"]), ["asked 1", "asked 2"], "objects that are to leave")
        client.until_away(2)
        start = time.monotonic()
        while since(start) < 3 * half:
            want_equal([client.ask("get 3 0 1"), client.ask("get 1 0 8")], ["bytes 2a", "away 1"], "an object that is here, and one that is far")
            time.sleep(0.005)
        ends(client, service, ["object 1 out", "object 2 out", object_line(3, HELD)], half)


def show_end_within_a_move(program: str) -> None:
    """The last client goes while a move waits for a silent server."""
    with Far(0) as far:
        service, client, half = begun(program, far.port, "make 8")
        client.until_away(1)
        ends(client, service, [object_line(1, bytes(8))], half)


def show_interrupted(program: str) -> None:
    """The service is stopped by a signal while a move waits for the far server, and goes on: the move waits on, and so does the next."""
    with socket.create_server(("127.0.0.1", 0)) as listener, ThreadPoolExecutor(1) as pool:
        accepted = pool.submit(greeted, listener)
        service, client, half = begun(program, listener.getsockname()[1], "make 8")
        with accepted.result() as stream:
            stream.settimeout(half)
            want_equal(client.ask("leave 1"), "asked 1", "an object that is to leave")
            kind, number, length = HEAD.unpack(stream.recv(HEAD.size, socket.MSG_WAITALL))
            want_equal((kind, stream.recv(length, socket.MSG_WAITALL)), (PUT, bytes(8)), "a request that waits")
            for sent in (signal.SIGSTOP, signal.SIGCONT):
                time.sleep(0.1)
                os.kill(service.process.pid, sent)
            time.sleep(0.1)
            want_equal(client.ask("get 1 0 8"), "away 1", "an object that is on its way")
            stream.sendall(HEAD.pack(DONE, number, 0))
            want_equal(HEAD.unpack(stream.recv(HEAD.size, socket.MSG_WAITALL)), (GET, number, 0), "what a service asks for that was stopped meanwhile")
            ends(client, service, ["object 1 out"], half)


def show_unaccepting(program: str) -> None:
    """A server that takes no connection can't be reached, when the time has passed."""
    with unaccepting() as far:
        start = time.monotonic()
        done = ended(program, "serve", "--far", far, "--far-timeout", GIVEN)
        took = since(start)
    want_equal(done, (3, b"", b"far server can't be reached\n"), "a server that takes no connection")
    want(0.5 < 1000 * took / GIVEN < 1.5, f"a server that takes no connection is given {took:.2f} s")


def show_two_services(program: str) -> None:
    """Two services at one server at the same time: objects of both leave and return."""
    with Server(program) as server:
        both = [begun(program, server.port, "make 8", f"put 1 0 0{mark}") for mark in (1, 2)]
        for _ in range(3):
            for mark, (_, client, _) in enumerate(both, 1):
                client.there_and_back(f"bytes {bytes([mark, *bytes(7)]).hex()}")
        for mark, (service, client, half) in enumerate(both, 1):
            ends(client, service, [object_line(1, bytes([mark, *bytes(7)]))], half)
        want_equal(server.end(), (0, b"", b""), "the far server of two services")


SHOWN = [show_silent_put, show_silent_get, show_end_within_a_move, show_interrupted, show_unaccepting, show_two_services]


if __name__ == "__main__":
    run_parts("silence", SHOWN)

#!/usr/bin/env python3
"""Reads what `bpfagent serve -v` writes to standard error: verbose.py PROGRAM

A whole session over a far store, one that ends with forgets kept back, a port that is taken, a far server that isn't there; without `-v` nothing.
"""
from __future__ import annotations

import pathlib
import re
import socket
import struct
import sys
import time

sys.path.insert(0, str(pathlib.Path(__file__).resolve().parents[1]))
from lib.checks import run_parts, want, want_equal
from lib.far import Far
from lib.programs import SECONDS, Listener, Server, Service, ended, noted, opened, tells_what_is_out

# Closing such a socket breaks its connection.
AT_ONCE = struct.pack("ii", 1, 0)
# The time that a silent server is given, in milliseconds. It answers a first request, also on a busy machine.
GIVEN = 3000
SETUP = ["make 8", "put 1 0 2a", "make 24", "make 1"]
FAILED = "object 2 couldn't return: the store's device failed"
END = (
    "the service ends: 2 objects of 9 bytes here, 1 object of 24 bytes far; 32 bytes left, 8 bytes returned, 1 fault in T ms, 0 evictions, N failures, "
    "0 passes of the bound"
)
OUT = "1 object of 24 bytes is far at the end, and dropped by the far store"
# What differs from session to session in the last line but one.
VARIES = re.compile(r"in \d+ ms, 0 evictions, \d+ failures,")
TIME = re.compile(r"in \d+ ms")


class Told:
    """What a service or a far store writes to standard error, read as it comes."""

    def __init__(self, service: Listener, is_told: bool) -> None:
        self.service = service
        self.is_told = is_told
        self.errors = b""

    def hear(self, note: str) -> None:
        """Waits until this is written, or for a while where nothing is."""
        if not self.is_told:
            time.sleep(0.1)
        line = b""
        while self.is_told and not line.endswith(f" {note}\n".encode()):
            line = self.service.process.stderr.readline()
            want(line != b"", f"{note} isn't written, but {self.errors.decode()}")
            self.errors += line

    def end(self) -> tuple[bytes, bytes]:
        """It ends: its output, and all that it wrote to standard error."""
        self.errors += self.service.process.stderr.read()
        status, output, _ = self.service.end()
        want_equal(status, 0, "the end of the service")
        return output, self.errors


def session(program: str, far: Server, *flags: str) -> tuple[bytes, bytes, Service]:
    """A session in which the far store is killed before its end: output, standard error, and the service."""
    service, client = opened(program, *flags, "--far", f"127.0.0.1:{far.port}", "--connections", 2, "--workers", 0, setup=SETUP)
    told = Told(service, bool(flags))
    want_equal(client.ask("leave 1"), "asked 1", "object 1 is to leave")
    told.hear("object 1 left")
    want_equal(client.ask("return 1"), "asked 1", "object 1 is to return")
    told.hear("object 1 returned")
    if told.is_told:
        want_equal(client.ask("leave 2"), "asked 2", "object 2 is to leave")
        told.hear("object 2 left")
    else:
        # Requests are served in turn: object 1 has returned then, before the far store ends.
        client.until_away(2)
    far.process.kill()
    far.process.wait(timeout=SECONDS)
    want_equal(client.ask("return 2"), "asked 2", "object 2 is to return")
    for _ in range(3):
        told.hear(FAILED)
    want_equal(client.ask("leave 3"), "asked 3", "object 3 is to leave")
    told.hear("object 3 couldn't leave: the store's device failed")
    want_equal((client.ask("get 1 0 1"), client.end()), ("bytes 2a", ""), "the end of the first client")
    told.hear("client 1 went")
    with service.connect() as second:
        second.sendall(b"get 1 0 1\n")
        want_equal(second.recv(9, socket.MSG_WAITALL), b"bytes 2a\n", "the second client")
        second.setsockopt(socket.SOL_SOCKET, socket.SO_LINGER, AT_ONCE)
    return *told.end(), service


def show_session(program: str) -> None:
    """Each line of a session, in order; a move that fails is told of each time that it is tried."""
    with Server(program) as far:
        _, errors, service = session(program, far, "-v")
    notes, others = noted(errors)
    want_equal(others, [], "what isn't a note")
    want(notes.count(FAILED) > 1, f"a return that is tried again: {notes}")
    notes[-2] = VARIES.sub("in T ms, 0 evictions, N failures,", notes[-2])
    ordered = [note for k, note in enumerate(notes) if note != FAILED or notes.index(FAILED) == k]
    wanted = [
        f"connected to the far server 127.0.0.1:{far.port}", f"listening on 127.0.0.1:{service.port}", "client 1 came", "object 1 left", "object 1 returned",
        "object 2 left", "the stream of the far server broke: connection closed", FAILED, "object 3 couldn't leave: the store's device failed", "client 1 went",
        "client 2 came", "client 2 is given up: read fault", END, OUT,
    ]
    want_equal(ordered, wanted, "the notes of a session")


def show_kept_back(program: str) -> None:
    """An object has come home, and the service ends while it keeps the forget of its parcel back. Neither side tells of a stream that broke."""
    with Server(program, "-v") as far:
        service, client = opened(program, "-v", "--far", f"127.0.0.1:{far.port}", "--workers", 0, setup=["make 8"])
        told = Told(service, True)
        for command, note in (("leave 1", "object 1 left"), ("return 1", "object 1 returned")):
            want_equal(client.ask(command), "asked 1", command)
            told.hear(note)
        want_equal(client.end(), "", "the end of the client")
        notes, others = noted(told.end()[1])
        wanted = [
            f"connected to the far server 127.0.0.1:{far.port}", f"listening on 127.0.0.1:{service.port}", "client 1 came", "object 1 left",
            "object 1 returned", "client 1 went",
            "the service ends: 1 object of 8 bytes here, 0 objects of 0 bytes far; 8 bytes left, 8 bytes returned, 1 fault in T ms, 0 evictions, "
            "0 failures, 0 passes of the bound",
        ]
        want_equal(([TIME.sub("in T ms", note) for note in notes], others), (wanted, []), "the notes of a service that keeps a forget back")
        kept = Told(far, True)
        kept.hear("client 1 went")
        far.give("")
        want_equal(noted(kept.end()[1]), ([f"listening on 127.0.0.1:{far.port}", "client 1 came", "client 1 went"], []), "the notes of its far store")


def show_silence(program: str) -> None:
    """Without the flag the same session says what becomes of an object that is far at the end, if it had left in time, and nothing else."""
    with Server(program) as far:
        output, errors, _ = session(program, far)
    want(tells_what_is_out(output.decode(), errors.decode()), f"standard error without -v: {errors.decode()}, after {output.decode()}")


def show_slow_server(program: str) -> None:
    """A far server that is silent at the first move: the move fails when its time has passed."""
    with Far(0) as silent:
        far = f"127.0.0.1:{silent.port}"
        service, client = opened(program, "--verbose", "--far", far, "--far-timeout", GIVEN, "--workers", 0, setup=["make 8"])
        want_equal(client.ask("leave 1"), "asked 1", "an object that is to leave")
        told = Told(service, True)
        told.hear("object 1 couldn't leave: the store's device failed")
        client.end()
        wanted = [
            f"connected to the far server {far}", f"listening on 127.0.0.1:{service.port}", "client 1 came",
            "the stream of the far server broke: no answer in time", "object 1 couldn't leave: the store's device failed", "client 1 went",
            "the service ends: 1 object of 8 bytes here, 0 objects of 0 bytes far; 0 bytes left, 0 bytes returned, 0 faults in 0 ms, 0 evictions, "
            "1 failure, 0 passes of the bound",
        ]
        want_equal(noted(told.end()[1]), (wanted, []), "the notes of a service over a silent server")


def show_refusals(program: str) -> None:
    """A port that is taken, and a far server that isn't there, with the flag and without."""
    with Server(program) as server:
        taken = server.port
        for flags, notes in ((["-v"], [f"port {taken} is taken"]), ([], [])):
            status, _, errors = ended(program, "serve", *flags, "--port", taken)
            want_equal((status, noted(errors)), (3, (notes, ["net fault"])), "a port that is taken")
    far = f"127.0.0.1:{taken}"
    for flags, notes in ((["-v"], [f"the far server {far} can't be reached"]), ([], [])):
        status, _, errors = ended(program, "serve", *flags, "--far", far)
        want_equal((status, noted(errors)), (3, (notes, ["far server can't be reached"])), "a server that isn't there")


if __name__ == "__main__":
    run_parts("verbose", [show_session, show_kept_back, show_silence, show_slow_server, show_refusals])

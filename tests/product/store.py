#!/usr/bin/env python3
"""Runs `bpfagent store` with clients of another language: store.py PROGRAM

It answers byte for byte what docs/FAR-MEMORY.md shows. Clients break the protocol, 64 clients have 1025 parcels each, and a 65th comes. There are too
few threads and too few files, and standard input ends while clients are connected. Memory is given back, each status comes, `-v` writes what it
should, and the store listens on 127.0.0.1 alone.
"""
from __future__ import annotations

import contextlib
import math
import pathlib
import re
import resource
import select
import socket
import subprocess
import sys
import threading
import time
from typing import Callable

sys.path.insert(0, str(pathlib.Path(__file__).resolve().parents[1]))
from lib.checks import run_parts, want, want_equal
from lib.far import DONE, FORGET, GET, HEAD, LIMIT, NO_ROOM, PUT, REFUSED_ID
from lib.programs import SECONDS, Server, break_listener, ended, free_port, has_checks, in_time, is_heard, noted, processor_time, room_for, size_of
from lib.programs import unreadable, until

KEPT = 1024
CLIENTS = 64
# How many bytes of parcels show whether memory is given back, and how much more than before may stay.
MUCH = 128 << 20
LITTLE = 16 << 20
ENDS_WELL = (0, b"", b"")
# How many files a server has open beside those of its clients; how long a test lets it rest, in
# seconds, which is within the rest from 1.27 to 2.27 seconds after the first try; and for how long it may run meanwhile, and take to end.
OWN_FILES = 5
LONG_REST = 1.2
IDLE = 0.05
AT_ONCE = 0.5
# How long a client may be idle in a test, in seconds, and how long one may rest that isn't.
IDLES, RESTS = 4, 0.5


def hear(stream: socket.socket, count: float = float("inf")) -> bytes:
    """So many bytes, or fewer where the stream ends."""
    got = b""
    while len(got) < count and (piece := stream.recv(int(min(count - len(got), 1 << 16)))):
        got += piece
    return got


def talk(server: Server, *frames: bytes) -> bytes:
    """What a client is answered that sends this and says that nothing more comes."""
    with server.connect() as stream:
        threading.Thread(target=lambda: (stream.sendall(b"".join(frames)), stream.shutdown(socket.SHUT_WR))).start()
        return hear(stream)


def unanswered(server: Server, wrong: bytes) -> bool:
    """Whether these bytes, after a request that is answered, end the stream without an answer. Bytes that the server didn't
    read may reset it."""
    with server.connect() as stream:
        answered = asked(stream, frame(PUT, 9, b"before")) == frame(DONE, 9)
        try:
            stream.sendall(wrong)
            stream.shutdown(socket.SHUT_WR)
            return answered and hear(stream) == b""
        except OSError:
            return answered


def frame(kind: int, number: int, payload: bytes = b"", length: int | None = None) -> bytes:
    return HEAD.pack(kind, number, len(payload) if length is None else length) + payload


def asked(stream: socket.socket, request: bytes, length: int = 0) -> bytes:
    """The answer to a request, which has a payload of this length."""
    stream.sendall(request)
    return hear(stream, HEAD.size + length)


def show_frames(program: str) -> None:
    """What the page shows, and one answer of each kind."""
    server = Server(program)
    shown = bytes.fromhex("01 0000000000000001 00000003 616263")
    want_equal(shown, frame(PUT, 1, b"abc"), "the frame of the page")
    want_equal(talk(server, shown), bytes.fromhex("00 0000000000000001 00000000"), "the put of the page")
    last, longest = 2**64 - 1, b"z" * LIMIT
    requests = [frame(PUT, 1, b"abc"), frame(PUT, 1, b"x"), frame(GET, 1), frame(GET, 2), frame(PUT, last, longest), frame(GET, last),
                frame(FORGET, 1), frame(FORGET, 1), frame(GET, 1)]
    answers = [frame(DONE, 1), frame(REFUSED_ID, 1), frame(DONE, 1, b"abc"), frame(REFUSED_ID, 2), frame(DONE, last), frame(DONE, last, longest),
               frame(DONE, 1), frame(REFUSED_ID, 1), frame(REFUSED_ID, 1)]
    want_equal(talk(server, *requests), b"".join(answers), "a conversation")
    want_equal(server.end(), ENDS_WELL, "a server whose clients went properly")


def parcel(mark: int, number: int) -> bytes:
    """The bytes of this number that a client of this mark puts."""
    return b"%d of %d" % (number, mark)


def filled(mark: int) -> tuple[bytes, bytes]:
    """Requests that put 1024 parcels and one more; and their answers."""
    requests = [frame(PUT, number, parcel(mark, number)) for number in range(1, KEPT + 2)]
    return b"".join(requests), b"".join([*(frame(DONE, number) for number in range(1, KEPT + 1)), frame(NO_ROOM, KEPT + 1)])


def show_limits(program: str) -> None:
    """1024 parcels, then no room; an id that is kept is refused first."""
    server = Server(program)
    puts, answers = filled(8)
    requests = [frame(PUT, 5, b"x"), frame(GET, KEPT), frame(FORGET, 7), frame(PUT, KEPT + 1, b"late"), frame(GET, KEPT + 1), frame(PUT, 7, b"x")]
    wanted = [frame(REFUSED_ID, 5), frame(DONE, KEPT, parcel(8, KEPT)), frame(DONE, 7), frame(DONE, KEPT + 1), frame(DONE, KEPT + 1, b"late"),
              frame(NO_ROOM, 7)]
    want_equal(talk(server, puts, *requests), answers + b"".join(wanted), "1025 parcels")
    want_equal(talk(server, frame(GET, 1)), frame(REFUSED_ID, 1), "a store that isn't empty for the next client")
    want_equal(server.end(), ENDS_WELL, "a server with 1025 parcels")


def show_idle(program: str) -> None:
    """A client that is idle for too long is given up, and one that isn't stays."""

    def took() -> float:
        server = Server(program, "--idle", IDLES)
        with server.connect() as idle, server.connect() as busy:
            start = last = time.monotonic()
            want_equal(asked(idle, frame(PUT, 1, b"abc")), frame(DONE, 1), "a client that will be idle")
            while not select.select([idle], [], [], RESTS)[0]:
                if time.monotonic() - last > IDLES / 2:
                    # A busy machine has kept this script away, and the server may take both for idle.
                    return math.inf
                last = time.monotonic()
                want_equal(asked(busy, frame(GET, 1)), frame(REFUSED_ID, 1), "a client that isn't idle")
                want(time.monotonic() - start < SECONDS, "an idle client stays")
            found = time.monotonic() - start
            want(IDLES - 0.5 < found, f"an idle client is given {found:.1f} seconds")
            want_equal((hear(idle), asked(busy, frame(GET, 1))), (b"", frame(REFUSED_ID, 1)), "both clients after that")
        want_equal(server.end(), (0, b"", b"client 1: stream fault\n"), "a server that gave an idle client up")
        return found

    late = in_time(took, 2 * IDLES)
    want(not late, f"an idle client is given {late} seconds")


def show_bound(program: str) -> None:
    """Puts beyond the bound find no room, whoever keeps the rest; what is forgotten, and what a client leaves behind, is room again."""
    server = Server(program, "--memory", 100_000)
    whole = b"z" * LIMIT
    with server.connect() as first, server.connect() as second:
        want_equal(asked(first, frame(PUT, 1, whole)), frame(DONE, 1), "a put within the bound")
        want_equal(asked(second, frame(PUT, 1, whole)), frame(NO_ROOM, 1), "a put beyond it")
        want_equal(asked(second, frame(PUT, 2, b"abc")), frame(DONE, 2), "a small one")
        want_equal(asked(first, frame(FORGET, 1)), frame(DONE, 1), "a parcel that is forgotten")
        want_equal(asked(second, frame(PUT, 1, whole)), frame(DONE, 1), "a put into its room")
        want_equal(asked(first, frame(PUT, 1, whole)), frame(NO_ROOM, 1), "a put beyond it again")
        second.shutdown(socket.SHUT_WR)
        want_equal(hear(second), b"", "a client that goes")
        until("the room of a client that went", lambda: asked(first, frame(PUT, 3, whole)) == frame(DONE, 3), pause=0.01)
    want_equal(server.end(), ENDS_WELL, "a server with a bound")


def is_refused(server: Server) -> bool:
    """Whether one client more finds its socket closed, and no answer."""
    try:
        with server.connect() as stream:
            return asked(stream, frame(GET, 1)) == b""
    except OSError:
        return True


def show_many(program: str) -> None:
    """64 clients at the same time, each with 1024 parcels of its own; the 65th is refused, until one of them goes; the end cuts all off."""
    server = Server(program)
    with contextlib.ExitStack() as held:
        streams = [held.enter_context(server.connect()) for _ in range(CLIENTS)]
        for mark, stream in enumerate(streams):
            puts, answers = filled(mark)
            threading.Thread(target=stream.sendall, args=(puts,)).start()
            want(hear(stream, len(answers)) == answers, f"client {mark + 1} of {CLIENTS}")
        want(is_refused(server) and is_refused(server), f"a client beside {CLIENTS} others is served")
        for mark, stream in enumerate(streams):
            for number in (1, KEPT):
                text = parcel(mark, number)
                want_equal(asked(stream, frame(GET, number), len(text)), frame(DONE, number, text), "the bytes of a client")
        streams[7].close()
        until("no client is served after one has gone", lambda: not is_refused(server), SECONDS, 0.02)
        want_equal(server.end(), ENDS_WELL, "a server with as many clients as there may be")
        want(all(stream.recv(1) == b"" for stream in streams[:7]), "a client that is cut off hears more")


def put_much(server: Server, clients: int) -> int:
    """How much memory the server takes while so many clients keep what is much together. They have gone then."""
    with contextlib.ExitStack() as held:
        for stream in [held.enter_context(server.connect()) for _ in range(clients)]:
            for number in range(1, MUCH // LIMIT // clients + 1):
                want_equal(asked(stream, frame(PUT, number, bytes(LIMIT))), frame(DONE, number), "a put of the longest parcel")
        return size_of(server.process.pid, "VmRSS")


def show_memory(program: str) -> None:
    """A client's memory is given back when it goes: after one that kept much, after eight at the same time, and after many in turn."""
    if has_checks(program):
        return
    server = Server(program)
    before = size_of(server.process.pid, "VmRSS")
    for clients in (2, 8, 2, 8):
        took = put_much(server, clients) - before
        want(took > MUCH, f"{MUCH} bytes are kept in {took}")
        until(f"{LITTLE} bytes stay when {clients} clients have gone", lambda: size_of(server.process.pid, "VmRSS") - before < LITTLE, SECONDS, 0.02)
    for _ in range(500):
        want_equal(talk(server, frame(PUT, 1, bytes(LIMIT))), frame(DONE, 1), "one client of many")
    want(size_of(server.process.pid, "VmRSS") - before < LITTLE, "memory grows with the clients that went")
    want_equal(server.end(), ENDS_WELL, "a server whose clients kept much")


def show_few_threads(program: str) -> None:
    """Without the two threads of the server it doesn't listen; a client for which there is no thread finds its socket closed."""
    if has_checks(program):
        return
    for threads in range(4):
        server = Server(program, limits=room_for(program, threads))
        if threads < 2:
            want(server.port is None and server.end() == (3, b"", b"no memory\n"), f"a server with room for {threads} threads")
        else:
            want(is_refused(server) == (threads == 2), f"a client of a server with room for {threads} threads")
            want_equal(server.end(), ENDS_WELL, f"the end of a server with room for {threads} threads")


def show_notes(program: str) -> None:
    """What `-v` writes: the port, clients that come, go, are given up or are refused; what is written without it stays."""
    for flag in ("-v", "--verbose"):
        server = Server(program, flag)
        want_equal(talk(server, frame(PUT, 1, b"abc")), frame(DONE, 1), "the first client")
        want(unanswered(server, frame(4, 1)), "a request that is none")
        want_equal(talk(server, frame(GET, 1)), frame(REFUSED_ID, 1), "the third client")
        status, _, errors = server.end()
        # A client may come before the last one's thread has said that it went.
        told = [("client 1 came", "client 1 went"), ("client 2 came", "client 2 is given up: protocol broken"), ("client 3 came", "client 3 went")]
        (first, *notes), others = noted(errors)
        want_equal((status, first, others), (0, f"listening on 127.0.0.1:{server.port}", ["client 2: protocol fault"]), "the first note")
        want_equal([tuple(note for note in notes if note.startswith(f"client {number} ")) for number in (1, 2, 3)], told, "the notes of each client")
        want_equal([note for note in notes if note.endswith(" came")], [came for came, _ in told], "clients that come")
        want_equal(len(notes), 6, "how many notes there are")
    server = Server(program, "-v")
    with contextlib.ExitStack() as held:
        for stream in [held.enter_context(server.connect()) for _ in range(CLIENTS)]:
            want_equal(asked(stream, frame(GET, 1)), frame(REFUSED_ID, 1), "one of many clients")
        want(is_refused(server), "a client too many")
        notes, others = noted(server.end()[2])
    want(f"a client is refused: {CLIENTS} are served" in notes and others == [], f"the notes about a client too many are {notes}")
    with Server(program) as server:
        status, _, errors = ended(program, "store", "-v", "--port", server.port)
        want_equal((status, noted(errors)), (3, ([f"port {server.port} is taken"], ["net fault"])), "a port that is taken")


def show_broken_clients(program: str) -> None:
    """A client that breaks the protocol is told of in a line, and the next is served."""
    server = Server(program)
    told: list[str] = []
    wrong = [frame(4, 1), frame(0, 1), frame(PUT, 1), frame(PUT, 1, length=LIMIT + 1), frame(PUT, 1, length=2**32 - 1), frame(GET, 1, b"x"),
             frame(FORGET, 1, b"x"), frame(PUT, 1, b"abc")[:-1], b"\x01", frame(GET, 1)[:-1]]
    for k, bytes_sent in enumerate(wrong):
        want(unanswered(server, bytes_sent), f"{bytes_sent[:16]} is answered")
        told.append(f"client {2 * k + 1}: protocol fault")
        want_equal(talk(server, frame(GET, 9)), frame(REFUSED_ID, 9), "what the next client finds")
    status, output, errors = server.end()
    # A client's thread may be late with its line.
    want_equal((status, output, sorted(errors.decode().splitlines())), (0, b"", sorted(told)), "the lines of clients that broke the protocol")


def show_end(program: str) -> None:
    """The input ends while a client is connected: it is cut off, and the program ends."""
    for begun in (b"", frame(PUT, 1, b"abc")[:-1]):
        server = Server(program)
        with server.connect() as stream:
            want_equal(asked(stream, frame(GET, 1)), frame(REFUSED_ID, 1), "the client before the end")
            stream.sendall(begun)
            want_equal(server.end(), ENDS_WELL, "the end of the input while a client is connected")
            with contextlib.suppress(ConnectionResetError):
                want_equal(stream.recv(1), b"", "what a client hears that is cut off")
    status, output, _ = ended(program, "store", stdin=subprocess.DEVNULL)
    want(status == 0 and re.fullmatch(rb"listening \d+\n", output), "input that has ended before")


def show_statuses(program: str) -> None:
    """Status 3 for a port that is taken and streams that fail, 2 for a port that is none."""
    port = free_port()
    server = Server(program, "--port", port)
    want_equal(ended(program, "store", "--port", port), (3, b"", b"net fault\n"), "a port that is taken")
    want_equal(server.end(), ENDS_WELL, "a server without a client")
    again = Server(program, "--port", port)
    want(again.port == server.port == port and again.end()[0] == 0, "the port that is asked for")
    with open("/dev/full", "wb") as full:
        want_equal(ended(program, "store", stdin=subprocess.PIPE, stdout=full), (3, b"", b"write fault\n"), "a full device")
    with unreadable() as fails:
        status, output, errors = ended(program, "store", stdin=fails)
    want((status, errors) == (3, b"read fault\n") and output.startswith(b"listening "), f"an input that fails: {status}, {output}, {errors}")
    for port in ("65536", "-1", "x", ""):
        status, output, errors = ended(program, "store", f"--port={port}")
        want((status, output) == (2, b"") and errors.startswith(b"error: "), f"port {port}: {status}, {output}, {errors}")


def show_address(program: str) -> None:
    """It listens on 127.0.0.1 alone, of all the addresses by which a host is its own neighbour."""
    server = Server(program)
    want(is_heard("127.0.0.1", server.port) and not is_heard("127.0.0.2", server.port), "the address that is listened on")
    want_equal(server.end(), ENDS_WELL, "a server that is asked for at another address")


def few_files(program: str, more: int) -> Server:
    """A server that may have so many files open beside its own: three streams, the listener, and the handle that closes it."""
    return Server(program, "-v", limits={resource.RLIMIT_NOFILE: OWN_FILES + more})


def ask(stream: socket.socket, what: str) -> None:
    """A client asks for a parcel that isn't there, and is answered."""
    want_equal(asked(stream, frame(GET, 1)), frame(REFUSED_ID, 1), what)


def want_left_waiting(stream: socket.socket, seconds: float, what: str) -> None:
    """A client that asks the same is neither answered nor let go for so long."""
    stream.sendall(frame(GET, 1))
    want(not select.select([stream], [], [], seconds)[0], what)


def ends_after(server: Server, clients: int, shortages: int, what: str) -> float:
    """How long the server takes to end with its input. It has told of so many clients, and so often that one couldn't be accepted."""
    began = time.monotonic()
    status, output, errors = server.end()
    took = time.monotonic() - began
    told = [f"listening on 127.0.0.1:{server.port}", *(f"client {k + 1} {did}" for k in range(clients) for did in ("came", "went"))]
    told += ["clients wait to be accepted: no descriptor is left"] * shortages
    notes, others = noted(errors)
    want_equal((status, output, others, sorted(notes)), (0, b"", [], sorted(told)), what)
    return took


def want_end(took: Callable[[], float], what: str) -> None:
    """The end of a server that is tried takes no time."""
    late = in_time(took, AT_ONCE)
    want(not late, f"{what} takes {late} s")


def show_few_files(program: str) -> None:
    """A server without a file for a client ends well, and so does one whose last file is kept for the client that it waits for. It doesn't
    listen if it can't have its own."""
    limits = {resource.RLIMIT_NOFILE: OWN_FILES - 1}
    want_equal(ended(program, "store", limits=limits), (3, b"", b"net fault\n"), "a server without all of its own files")

    def took(more: int) -> float:
        server = few_files(program, more)
        time.sleep(0.1)
        return ends_after(server, 0, int(more == 0), f"the end of a server that may open {more} files for clients")

    for more in range(3):
        want_end(lambda: took(more), f"the end of a server that may open {more} files for clients")


def show_rest(program: str) -> None:
    """While a client can't be accepted, or there can be no second handle of its stream, it waits: others are served, and the server sleeps
    before it tries again. At the end of its input it wakes."""

    def took(clients: int, spare: int, what: str) -> float:
        server = few_files(program, 2 * clients + spare)
        with contextlib.ExitStack() as held:
            streams = [held.enter_context(server.connect()) for _ in range(clients)]
            for stream in streams:
                ask(stream, f"a client before the others of {what}")
            late = held.enter_context(server.connect())
            want_left_waiting(late, 0.2, f"a client for which there is no file is answered or let go by {what}")
            before = processor_time(server.process.pid)
            want_left_waiting(late, LONG_REST, f"a client that waits is answered or let go by {what}")
            used = processor_time(server.process.pid) - before
            want(used < IDLE, f"{what} runs for {used:.3f} s in {LONG_REST} s")
            for stream in streams:
                ask(stream, f"a client beside one that waits, of {what}")
            return ends_after(server, clients, 1, f"the end of {what}")

    for clients, spare in ((0, 0), (0, 1), (2, 0), (2, 1)):
        what = f"a server of {clients} clients that may open {spare} files more"
        want_end(lambda: took(clients, spare, what), f"the end of {what}")


def show_late(program: str) -> None:
    """A client that waits is served once another has gone, and another one once the server may open more files."""
    want_end(lambda: served_late(program), "the end of a server whose clients waited")


def served_late(program: str) -> float:
    """The same, and how long the server takes to end."""
    server = few_files(program, 3)
    with server.connect() as first, server.connect() as second, server.connect() as third:
        ask(first, "the first client")
        want_left_waiting(second, 0.5, "a second client for which there is one file is answered or let go")
        ask(first, "the first client beside one that waits")
        first.close()
        want_equal(hear(second, HEAD.size), frame(REFUSED_ID, 1), "the second client after the first")
        want_left_waiting(third, 0.5, "a third client for which there is one file is answered or let go")
        resource.prlimit(server.process.pid, resource.RLIMIT_NOFILE, (OWN_FILES + 5, OWN_FILES + 5))
        want_equal(hear(third, HEAD.size), frame(REFUSED_ID, 1), "the third client, once there may be files for it")
        ask(second, "the second client beside the third")
        return ends_after(server, 3, 2, "the end of a server whose clients waited")


def show_broken_listener(program: str) -> None:
    """A listener that can't accept a client any more ends the server, which cuts off who is served."""
    server = Server(program)
    with server.connect() as stream:
        ask(stream, "a client before the listener breaks")
        break_listener(server.process.pid)
        want_equal(hear(stream), b"", "what a client hears when the listener has broken")
    want_equal(server.process.wait(SECONDS), 3, "the status of a server whose listener broke")
    want_equal(server.end(), (3, b"", b"net fault\n"), "a server whose listener broke")


SHOWN = [
    show_frames, show_limits, show_many, show_memory, show_few_threads, show_notes, show_broken_clients, show_end, show_statuses, show_address,
    show_few_files, show_rest, show_late, show_broken_listener, show_idle, show_bound,
]


if __name__ == "__main__":
    run_parts("store", SHOWN)

#!/usr/bin/env python3
"""Clients of a front beside clients of the service itself: front.py PROGRAM [--soak SECONDS]

Each client is a process of its own, over TCP on this machine. A line is a `get` of eight bytes. A request is `put`, `resume` and `get` in one
packet, to a machine that sums ten numbers (docs/REQUESTS.md). Runs over the service and over the front are interleaved, and the median of
their ratios counts: of what eight clients get in a second, and of the median time of one client.

With --soak clients come and go for so long, some in the middle of a line. It fails if the front's memory grows.
"""
from __future__ import annotations

import argparse
import contextlib
import multiprocessing
import os
import random
import re
import socket
import statistics
import subprocess
import sys
import tempfile
import time
from multiprocessing.connection import Connection
from pathlib import Path
from typing import Iterator

sys.path.append(str(Path(__file__).resolve().parents[1] / "tests"))
from lib.package import DEBIAN, PACKAGE
from lib.programs import Listener, size_of

CLIENTS, RUNS, SECONDS = 8, 7, 1.0
WORKERS = "1"
LONG_OBJECTS = 1024
# r6 = r1 · call 4 · r3 = [r6] · r4 = 0 · r4 += r3 · r3 += -1 · if r3 != 0 goto -3 · [r6+8] = r4 · goto -8; it pauses after the call
SUMS = "bf16000000000000" "8500000004000000" "7963000000000000" "b704000000000000" "0f34000000000000" "07030000ffffffff" "5503fdff00000000" \
    "7b46080000000000" "0500f8ff00000000"
AWAITS = 2
# What eight clients get through the front at least, of a hundred, and what the front adds to the median of one at most, in microseconds.
SHARE, ADDED = 70, 60
# A part of a soak after which its memory is looked at first, and how much more it may be at the end.
WARM, GROWTH = 0.1, 1.02
SPARE = 1 << 20


def setup() -> str:
    """An object and a machine for each client."""
    lines = ["make 64"] * CLIENTS
    for number in range(1, CLIENTS + 1):
        lines += [f"ship {1 << 62} 0x{number << 32:x} 0 0 0 0 {SUMS}", f"break {number} {AWAITS}", *[f"step {number}"] * 3]
    return "".join(f"{line}\n" for line in lines)


def packet(kind: str, number: int) -> tuple[bytes, bytes]:
    """What a client sends, and the reply."""
    if kind == "lines":
        return b"get %d 32 8\n" % number, b"bytes 0000000000000000\n"
    return b"put %d 0 0a00000000000000\nresume %d\nget %d 8 8\n" % (number, number, number), b"ok\nok\nbytes 3700000000000000\n"


def converse(port: int, kind: str, number: int, report: Connection) -> None:
    """One client: how long each packet took."""
    sent, expected = packet(kind, number)
    with socket.create_connection(("127.0.0.1", port)) as client:
        client.setsockopt(socket.IPPROTO_TCP, socket.TCP_NODELAY, 1)
        report.send(None)
        report.recv()
        times = []
        start = last = time.perf_counter()
        while last - start < SECONDS:
            client.sendall(sent)
            reply = client.recv(4096)
            while len(reply) < len(expected):
                reply += client.recv(4096)
            if reply != expected:
                sys.exit(f"{sent!r} was answered {reply!r}")
            now = time.perf_counter()
            times.append(now - last)
            last = now
        report.send(times)
        report.recv()


def times_of(port: int, kind: str, clients: int) -> list[float]:
    """How long each packet of so many clients took."""
    made = []
    for number in range(1, clients + 1):
        near, far = multiprocessing.Pipe()
        client = multiprocessing.Process(target=converse, args=(port, kind, number, far), daemon=True)
        client.start()
        near.recv()
        made.append((near, client))
    for near, _ in made:
        near.send(None)
    times = [moment for near, _ in made for moment in near.recv()]
    for near, client in made:
        near.send(None)
        client.join()
    return times


class Front:
    """A started front."""

    def __init__(self, program: str, made: str, *options: str) -> None:
        python = DEBIAN if os.access(DEBIAN, os.X_OK) else sys.executable
        with tempfile.NamedTemporaryFile("w", prefix="front-") as file:
            file.write(made)
            file.flush()
            words = [python, "-m", "bpfagent.front.main", file.name, "--program", os.path.abspath(program), "--listen", "127.0.0.1:0", *options]
            environment = {**os.environ, "PYTHONPATH": str(PACKAGE), "PYTHONDONTWRITEBYTECODE": "1"}
            self.errors = tempfile.TemporaryFile("w+")
            self.process = subprocess.Popen(
                [*words, "--", "--workers", WORKERS], stdin=subprocess.DEVNULL, stdout=subprocess.PIPE, stderr=self.errors, env=environment, text=True
            )
            assert self.process.stdout
            listening = self.process.stdout.readline()
        if not listening:
            sys.exit(f"the front ended: {self.told()}")
        self.port = int(listening.rpartition(":")[2])

    def told(self) -> str:
        """What it has written on standard error."""
        self.errors.seek(0)
        return self.errors.read()

    def __enter__(self) -> Front:
        return self

    def __exit__(self, *_: object) -> None:
        self.process.terminate()
        self.process.communicate(timeout=60)
        self.errors.close()


def direct(program: str, kind: str, clients: int) -> list[float]:
    command = [program, "serve", "--workers", WORKERS, "--connections", str(clients)]
    with Listener(*command, given=setup()) as server:
        times = times_of(server.port, kind, clients)
        server.end()
    return times


def both(program: str, kind: str, clients: int) -> list[tuple[list[float], list[float]]]:
    """The times of the runs over the service, and over the front."""
    with Front(program, setup()) as front:
        return [(direct(program, kind, clients), times_of(front.port, kind, clients)) for _ in range(RUNS)]


def show(program: str, kind: str) -> bool:
    """What clients get of a hundred, and what is added; whether both are as they shall be."""
    many = both(program, kind, CLIENTS)
    share = statistics.median(100 * len(through) / len(plain) for plain, through in many)
    rates = [statistics.median(len(run[side]) for run in many) / SECONDS for side in (0, 1)]
    print(f"{kind}, {CLIENTS} clients:  {share:.1f} of 100; {rates[1]:.0f} and {rates[0]:.0f} in a second", flush=True)
    one = both(program, kind, 1)
    added = statistics.median(statistics.median(through) - statistics.median(plain) for plain, through in one) * 1e6
    tail = statistics.median(statistics.quantiles(through, n=100)[98] - statistics.quantiles(plain, n=100)[98] for plain, through in one) * 1e6
    print(f"added to {kind} of one client:  median {max(added, 0):.1f} us, 99th percentile {max(tail, 0):.1f} us", flush=True)
    return share >= SHARE and added < ADDED


def show_move(program: str) -> None:
    """How long clients wait while 64 MiB come over."""
    with Front(program, "make 65536\n" * LONG_OBJECTS) as front, socket.create_connection(("127.0.0.1", front.port)) as client:
        with client.makefile("rwb") as stream:
            for number in range(49):
                stream.write(b"ship 1 0 0 0 0 0 9500000000000000\n")
                stream.flush()
                stream.readline()
                if number == 47:
                    client.shutdown(socket.SHUT_WR)
                    break
        with socket.create_connection(("127.0.0.1", front.port)) as other, other.makefile("rwb") as stream:
            stream.write(b"ship 1 0 0 0 0 0 9500000000000000\n")
            stream.flush()
            if stream.readline() != b"shipped 1\n":
                sys.exit("there is no next agent")
        found = re.search(r"were used up .* seconds=([0-9.]+)", front.told())
        assert found
        print(f"64 MiB to the next agent:  {found[1]} s", flush=True)


def come_and_go(port: int, seed: int, until: float) -> None:
    """Clients one after the other: short and long lines, garbage, and some that go in the middle of a line or before their replies."""
    given, done = random.Random(seed), 0
    while time.time() < until:
        with contextlib.suppress(ConnectionError), socket.create_connection(("127.0.0.1", port)) as client:
            kind = given.randrange(8)
            for _ in range(given.randrange(1, 100)):
                client.sendall(packet("lines", 1)[0] if kind else given.randbytes(20).replace(b"\n", b"?") + b"\n")
                client.recv(4096)
            if kind == 1:
                client.sendall(b"get 1 0 64\n" * 50 + b"get")
            elif kind == 2:
                client.sendall(b"x" * 100_000)
            done += 1
    print(f"client {seed}: {done} connections", file=sys.stderr, flush=True)


@contextlib.contextmanager
def coming(port: int, until: float) -> Iterator[None]:
    clients = [multiprocessing.Process(target=come_and_go, args=(port, seed, until), daemon=True) for seed in range(4)]
    for client in clients:
        client.start()
    yield
    for client in clients:
        client.join()


def soak(program: str, seconds: float) -> bool:
    """Whether the front's memory stays as it is while clients come and go."""
    begun = time.time()
    with Front(program, setup()) as front, coming(front.port, begun + seconds):
        time.sleep(seconds * WARM)
        before, most = size_of(front.process.pid, "VmRSS"), 0
        while time.time() < begun + seconds - 0.5:
            time.sleep(0.5)
            most = max(most, size_of(front.process.pid, "VmRSS"))
        after = size_of(front.process.pid, "VmRSS")
    print(f"soak of {seconds:g} s:  {before >> 10} KiB after a tenth, {after >> 10} KiB at the end, {most >> 10} KiB at most", flush=True)
    return after <= before * GROWTH + SPARE


def main() -> None:
    options = argparse.ArgumentParser(description="Measures clients of a front beside clients of the service itself.")
    options.add_argument("program", help="the proved program")
    options.add_argument("--soak", type=float, metavar="SECONDS", help="only look whether memory grows, for so long")
    given = options.parse_args()
    if given.soak:
        sys.exit(0 if soak(given.program, given.soak) else "the front's memory grows")
    results = [show(given.program, kind) for kind in ("lines", "requests")]
    show_move(given.program)
    if not all(results):
        print(f"fewer than {SHARE} of 100, or {ADDED} us are added", flush=True)


if __name__ == "__main__":
    main()

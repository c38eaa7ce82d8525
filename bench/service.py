#!/usr/bin/env python3
"""A service beside plain C, in one run: service.py PROGRAM C_WORKER C_REPLIES

An instruction of a machine that one worker runs, under the machine's lock, beside a worker in C: processor time, as what the
machine's fuel says was done between two looks at it. And the round trip of a `get` of eight bytes over TCP, beside a server that
answers this command alone: the time that passed. Runs are interleaved, and of each the fastest counts.

Then, of the service alone, how long `regs` of a running machine takes, and a program from `ship` to its `exit`, for 1, 4 and 16 workers. At last how
many of 100 `get` are answered `busy`, for one and for eight clients, on an object that 1, 4 and 16 machines add to.
"""
from __future__ import annotations

import contextlib
import pathlib
import socket
import statistics
import sys
import threading
import time
from typing import Iterator

sys.path.append(str(pathlib.Path(__file__).resolve().parents[1] / "tests"))
from lib.programs import Listener
from lib.programs import processor_time as used_by

from counts import can_count, told_count, under_valgrind
from replies import of_a_reply
from rows import words
from turns import FEW, KINDS, MANY, of_an_instruction, processor_time

RUNS = 5
SECONDS = 0.3
SHORT, LONG = 1_000_000, 11_000_000
TRIPS = 5_000
FUEL = 1 << 62
# r1 += 7; goto -2
ADDITIONS = KINDS["a loop of two instructions"]
LINE = b"get 1 0 8\n"
# atomic r1[0] += r2; goto -2
ADDS = "db21000000000000" "0500feff00000000"
EXIT = "9500000000000000"
LOOKS = 2_000
# how long a machine may take to do MANY instructions where they are counted
COUNTED_SECONDS = 2
# there are 48 machines at most, of which 16 run
SHIPS = 30
SHARED_WORKERS = 4
CLIENTS = 8


@contextlib.contextmanager
def started(command: list[str], setup: str = "") -> Iterator[tuple[Listener, socket.socket]]:
    """A server after this input, and a client of it; the client ends, and then the server."""
    with Listener(*command, given=setup) as server:
        if not server.port:
            sys.exit(f"{command} doesn't listen")
        with connected(server) as client:
            yield server, client
        server.end()


def connected(server: Listener) -> socket.socket:
    """A client of a server. Without a time-out it waits in the call that receives, and in no other before it."""
    client = server.connect()
    client.settimeout(None)
    client.setsockopt(socket.IPPROTO_TCP, socket.TCP_NODELAY, 1)
    return client


def ask(client: socket.socket, line: bytes) -> bytes:
    client.sendall(line)
    reply = client.recv(65536)
    while not reply.endswith(b"\n"):
        reply += client.recv(65536)
    return reply


def under_a_lock(program: str) -> float:
    """Nanoseconds of an instruction that a worker does."""
    looks = []
    with started([program, "serve", "--workers", "1"], f"ship {FUEL} 0 0 0 0 0 {ADDITIONS}\n") as (server, client):
        for pause in (0.05, SECONDS):
            time.sleep(pause)
            looks.append((int(ask(client, b"regs 1\n").split()[3]), used_by(server.process.pid)))
    return (looks[1][1] - looks[0][1]) / (looks[0][0] - looks[1][0]) * 1e9


def counted_under_a_lock(program: str, fuel: int) -> int:
    """Machine instructions of a service whose one machine does so many instructions."""
    with Listener(*under_valgrind([program, "serve", "--workers", "1"]), given=f"ship {fuel} 0 0 0 0 0 {ADDITIONS}\n") as server:
        with connected(server) as client:
            time.sleep(COUNTED_SECONDS)
            if b" spent " not in ask(client, b"regs 1\n"):
                sys.exit(f"{program}: a machine isn't spent in {COUNTED_SECONDS} s")
        return told_count(server.end()[2])


def under_a_mutex(program: str) -> float:
    """The same in C: a long run without a short one."""
    short, long = (processor_time(program, count, ADDITIONS) for count in (SHORT, LONG))
    return (long - short) / (LONG - SHORT) * 1e9


def round_trip(command: list[str], setup: str = "") -> float:
    """Microseconds until a line is answered."""
    with started(command, setup) as (_, client):
        if ask(client, LINE) != b"bytes 0000000000000000\n":
            sys.exit(f"{command} answers otherwise")
        start = time.perf_counter()
        for _ in range(TRIPS):
            ask(client, LINE)
        return (time.perf_counter() - start) / TRIPS * 1e6


def timed(client: socket.socket, line: bytes) -> float:
    """Microseconds until a line is answered."""
    start = time.perf_counter()
    ask(client, line)
    return (time.perf_counter() - start) * 1e6


def shipped(client: socket.socket) -> float:
    """Microseconds until a program that is shipped is seen to have ended."""
    start = time.perf_counter()
    machine = ask(client, f"ship 10 0 0 0 0 0 {EXIT}\n".encode()).split()[1]
    while b" exit " not in ask(client, b"regs %s\n" % machine):
        pass
    return (time.perf_counter() - start) * 1e6


def latencies(program: str, workers: int) -> tuple[list[float], list[float]]:
    """What `regs` takes of a machine that runs, as each worker runs one, and what a program takes from `ship` to `exit`."""
    with started([program, "serve", "--workers", str(workers)], f"ship {FUEL} 0 0 0 0 0 {ADDITIONS}\n" * workers) as (_, client):
        looks = [timed(client, b"regs 1\n") for _ in range(LOOKS)]
        return looks, [shipped(client) for _ in range(SHIPS)]


def told(spent: list[float]) -> str:
    """The median, and the 99th percentile."""
    return f"median {statistics.median(spent):8.1f} us, 99th percentile {statistics.quantiles(spent, n=100)[98]:9.1f} us"


def count_busy(client: socket.socket, found: list[bool]) -> None:
    """How many of the `get` of a client are answered `busy`, for a while."""
    until = time.perf_counter() + SECONDS
    while time.perf_counter() < until:
        found.append(ask(client, LINE).startswith(b"busy"))


def busy(program: str, machines: int, clients: int) -> float:
    """How many of 100 `get` are answered `busy`."""
    setup = "make 8\n" + f"ship {FUEL} {1 << 32} 1 0 0 0 {ADDS}\n" * machines
    found: list[bool] = []
    command = [program, "serve", "--workers", str(SHARED_WORKERS), "--connections", str(clients)]
    with started(command, setup) as (server, client), contextlib.ExitStack() as others:
        all_clients = [client] + [others.enter_context(connected(server)) for _ in range(clients - 1)]
        threads = [threading.Thread(target=count_busy, args=(one, found)) for one in all_clients]
        for thread in threads:
            thread.start()
        for thread in threads:
            thread.join()
    return 100 * sum(found) / len(found)


def main() -> None:
    program, c_worker, c_replies = words("service.py PROGRAM C_WORKER C_REPLIES", 3, 3)
    served, c_served = [program, "serve", "--workers", "0"], [c_replies, "1"]
    rounds = [(under_a_lock(program), under_a_mutex(c_worker), round_trip(served, "make 64\n"), round_trip(c_served)) for _ in range(RUNS)]
    ours, c, trip, c_trip = (min(values) for values in zip(*rounds))
    lines = [f"an instruction under a lock      {ours:7.2f} ns, C {c:7.2f} ns, ratio {ours / c:.2f}"]
    lines += [f"round trip of a get of 8 bytes   {trip:7.2f} us, C {c_trip:7.2f} us, ratio {trip / c_trip:.2f}"]
    if can_count():
        few, many = (counted_under_a_lock(program, fuel) for fuel in (FEW, MANY))
        lines[0] += f"; {(many - few) / (MANY - FEW):.1f} and {of_an_instruction(c_worker, ADDITIONS):.1f} machine instructions"
        lines[1] += f"; {of_a_reply(served, at_once=1):.0f} and {of_a_reply(c_served, at_once=1):.0f} machine instructions"
    print("\n".join(lines), flush=True)
    for workers in (1, 4, 16):
        looks, ships = latencies(program, workers)
        print(f"{f'regs of a running machine, {workers} workers':40}  {told(looks)}")
        print(f"{f'from ship to exit, {workers} workers':40}  {told(ships)}")
    for machines in (1, 4, 16):
        for clients in (1, CLIENTS):
            print(f"{f'busy, {machines} machines, {clients} clients':40}  {busy(program, machines, clients):.2f} of 100")


if __name__ == "__main__":
    main()

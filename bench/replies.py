#!/usr/bin/env python3
"""Replies of a service to `get`, beside one in C: replies.py PROGRAM C_PROGRAM

Each connection asks by a process of its own for eight bytes of its own object, 500 lines at a time, and reads the replies. What counts is how many
replies come in a second over all connections together, and the processor time of the service for each. Runs are interleaved, and the median of the
runs' ratios counts. Where there is valgrind, the machine instructions of a reply too, without the system's own.
"""
from __future__ import annotations

import contextlib
import multiprocessing
import socket
import statistics
import sys
import time
from multiprocessing.connection import Connection
from pathlib import Path
from typing import Iterator

sys.path.append(str(Path(__file__).resolve().parents[1] / "tests"))
from lib.programs import Listener, processor_time

from counts import can_count, told_count, under_valgrind
from rows import words

RUNS = 7
SECONDS = 0.5
AT_ONCE = 500
FEW, MANY = 4_000, 12_000


def setup(connections: int) -> str:
    """An object for each connection."""
    return "make 64\n" * connections


def ask_at_once(client: socket.socket, number: int, count: int) -> None:
    """Sends so many lines, and reads their replies."""
    client.sendall(b"get %d 0 8\n" % number * count)
    while count:
        replies = client.recv(1 << 18)
        if not replies:
            sys.exit("a service ended early")
        count -= replies.count(b"\n")


def converse(port: int, number: int, report: Connection) -> None:
    """One client: how many replies it had a second."""
    with socket.create_connection(("127.0.0.1", port)) as client:
        report.send(None)
        report.recv()
        done, start = 0, time.perf_counter()
        while time.perf_counter() - start < SECONDS:
            ask_at_once(client, number, AT_ONCE)
            done += AT_ONCE
        report.send(done / (time.perf_counter() - start))
        report.recv()


@contextlib.contextmanager
def clients(port: int, connections: int) -> Iterator[list[Connection]]:
    """A process for each connection, all connected."""
    made = []
    for number in range(1, connections + 1):
        near, far = multiprocessing.Pipe()
        client = multiprocessing.Process(target=converse, args=(port, number, far), daemon=True)
        client.start()
        near.recv()
        made.append((near, client))
    yield [near for near, _ in made]
    for near, client in made:
        near.send(None)
        client.join()


def rate(command: list[str], connections: int) -> tuple[float, float]:
    """Seconds of a reply: of the time that passed, all connections together, and of the service's processors."""
    with Listener(*command, given=setup(connections)) as server:
        with clients(server.port, connections) as told:
            before = processor_time(server.process.pid)
            for near in told:
                near.send(None)
            replies = sum(near.recv() for near in told)
            used = processor_time(server.process.pid) - before
        server.end()
    return 1 / replies, used / replies / SECONDS


def count_of(command: list[str], connections: int, rounds: int, at_once: int) -> int:
    """Machine instructions of a service that each of its clients asks so often, in turn."""
    with Listener(*under_valgrind(command), given=setup(connections)) as server:
        with contextlib.ExitStack() as opened:
            clients = [opened.enter_context(server.connect()) for _ in range(connections)]
            for _ in range(rounds):
                for number, client in enumerate(clients, 1):
                    ask_at_once(client, number, at_once)
        return told_count(server.end()[2])


def of_a_reply(command: list[str], connections: int = 1, at_once: int = AT_ONCE) -> float:
    """Machine instructions of a reply, where so many are asked for at a time."""
    few, many = (replies // (connections * at_once) for replies in (FEW, MANY))
    counts = [count_of(command, connections, rounds, at_once) for rounds in (few, many)]
    return (counts[1] - counts[0]) / ((many - few) * connections * at_once)


def sides(program: str, c_program: str, connections: int) -> tuple[list[str], list[str]]:
    return [program, "serve", "--workers", "0", "--connections", str(connections)], [c_program, str(connections)]


def show(programs: list[str], connections: int) -> None:
    both = sides(*programs, connections)
    runs = [[rate(command, connections) for command in both] for _ in range(RUNS)]
    passed, used = ([[run[side][which] for run in runs] for side in (0, 1)] for which in (0, 1))
    ratio, of_processors = (statistics.median(a / b for a, b in zip(*measured)) for measured in (passed, used))
    line = f"{f'pipelined replies, {connections} clients':34}  {min(passed[0]) * 1e6:6.2f} us, C {min(passed[1]) * 1e6:6.2f} us, ratio {ratio:.2f}"
    if can_count():
        ours, c = (of_a_reply(command, connections) for command in both)
        line += f"; {ours:.0f} and {c:.0f} machine instructions"
    print(f"{line} (processor time {of_processors:.2f})", flush=True)


def main() -> None:
    programs = words("replies.py PROGRAM C_PROGRAM", 2, 2)
    for connections in (1, 8):
        show(programs, connections)


if __name__ == "__main__":
    main()

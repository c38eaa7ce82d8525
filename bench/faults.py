#!/usr/bin/env python3
"""Faults of machines whose objects are far: faults.py PROGRAM DELAY

`bpfagent serve` over `bpfagent store`, with a network of DELAY (bench/delay.c) between them. 1, 4 and 16 machines walk over objects of
4 KiB and of 64 KiB that are all far, each over its own share. How many come home in a second, and microseconds of each. A trip is the
time of a raw request that moves no bytes. Of several laps the median counts; between them all objects leave again.
"""
from __future__ import annotations

import contextlib
import pathlib
import socket
import statistics
import sys
import time
from typing import Iterator

ROOT = pathlib.Path(__file__).resolve().parent.parent
sys.path += [str(ROOT / "python"), str(ROOT / "tests")]
from bpfagent.far import FORGET, HEAD
from lib.programs import Client, Listener, Server, Service, all_leave, ended, until

from rows import words

# How many objects of which length, which all machines share out evenly.
OBJECTS = {4096: 480, 65_536: 240}
TRIPS, MACHINES, LAPS = (0, 200, 1000), (1, 4, 16), 5
WORKERS, FUEL, ASKED = 4, 1 << 60, 300
# The machine is paused at this slot, where a lap begins. It closes its scopes at the end of a lap, so that all objects can leave.
BEGIN = 4
WALK = """mov r7, r1
mov r8, r2
lddw r9, 0x100000000
begin: mov r6, r7
next: ldxdw r0, [r6]
add r6, r9
jlt r6, r8, next
call 4
ja begin
"""


def trip(port: int) -> float:
    """The median time of a request that moves no bytes, in microseconds."""
    times = []
    with socket.create_connection(("127.0.0.1", port)) as stream:
        stream.setsockopt(socket.IPPROTO_TCP, socket.TCP_NODELAY, 1)
        for number in range(ASKED):
            start = time.perf_counter()
            stream.sendall(HEAD.pack(FORGET, number + 1, 0))
            stream.recv(HEAD.size, socket.MSG_WAITALL)
            times.append(time.perf_counter() - start)
    return statistics.median(times) * 1e6


@contextlib.contextmanager
def away(program: str, delay: str, microseconds: int) -> Iterator[int]:
    """The port of a store that is so far away."""
    with Server(program) as store:
        if not microseconds:
            yield int(store.port)
            return
        with Listener(delay, store.port, microseconds) as network:
            yield int(network.port)


def setup(code: str, length: int, machines: int) -> list[str]:
    """The objects with one more, and the machines with their shares, each paused where its laps begin."""
    count = OBJECTS[length]
    share = count // machines
    commands = [f"make {length}"] * count + ["make 8"]
    for number in range(machines):
        begin, end = 1 + number * share, 1 + (number + 1) * share
        commands += [f"ship {FUEL} {begin << 32} {end << 32} 0 0 0 {code}", f"break {number + 1} {BEGIN}"]
    return commands


def are_paused(client: Client, machines: int) -> bool:
    """Whether all machines have come to the end of their laps."""
    return all(reply.split()[4] == "paused" for reply in client.ask_at_once([f"regs {number + 1}" for number in range(machines)]))


def lap(client: Client, machines: int) -> float:
    """The seconds in which all machines walk over their shares."""
    start = time.perf_counter()
    client.ask_at_once([f"resume {number + 1}" for number in range(machines)])
    until("the machines don't come to the end of a lap", lambda: are_paused(client, machines), pause=0.002)
    return time.perf_counter() - start


def measure(program: str, port: int, code: str, length: int, machines: int) -> float:
    """The seconds of a fault."""
    with Service(program, "--far", f"127.0.0.1:{port}", "--workers", WORKERS, setup=setup(code, length, machines)) as service, Client(service) as client:
        until("the machines don't begin", lambda: are_paused(client, machines))
        times = []
        for _ in range(LAPS):
            all_leave(client.ask_at_once, OBJECTS[length])
            times.append(lap(client, machines))
    return statistics.median(times) / OBJECTS[length]


def main() -> None:
    program, delay = words("faults.py PROGRAM DELAY", 2, 2)
    code = ended(program, "asm", given=WALK.encode())[1].hex()
    for length in OBJECTS:
        for microseconds in TRIPS:
            with away(program, delay, microseconds) as port:
                found = trip(port)
                for machines in MACHINES:
                    seconds = measure(program, port, code, length, machines)
                    name = f"{length} bytes, {microseconds} us away, {machines} machines"
                    print(f"{name:40}  {1 / seconds:7.0f} faults a second, {seconds * 1e6:7.0f} us each, of which a trip takes {found:.0f}", flush=True)


if __name__ == "__main__":
    main()

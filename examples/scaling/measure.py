#!/usr/bin/env python3
"""Measures what one agent holds and does: measure.py PROGRAM [--objects N] [--trips N] [--seconds S]

Memory by /proc, in KiB that are resident: of a `bpfagent run` without objects and machines, with 48 machines of 4,096 slots,
and then with 1,024 objects of 65,536 bytes that were all written. A program that `make try` built has run-time checks, which
need an eighth more at least (what they keep of freed memory is turned off here), and is slow.

Lines a second that `bpfagent run` answers where many come at once, and a round trip of one. A round trip between two processes
over TCP on this machine, of 64 bytes and back, and of 64 bytes for 65,536: the median of many, in microseconds. Where the
program has `serve`, instructions a second by workers, a round trip of a client, and how long a new connection and a move
take. Standard library only.
"""
import argparse
import os
import pathlib
import re
import socket
import statistics
import subprocess
import sys
import time
from typing import Callable, Iterator

sys.path.append(str(pathlib.Path(__file__).resolve().parents[2] / "python"))
from bpfagent import Agent, Broken, Refused, Service, address, patiently
from engines import number_from, program

MACHINES, SLOTS = 48, 4096
OBJECTS, LENGTH, PIECE = 1024, 65_536, 4096
EXIT = bytes.fromhex("9500000000000000")
SHORT = 64
FUEL = 1 << 62
# add r0, 1 or ldxdw r0, [r1], again and again.
ADDS = bytes.fromhex("0700000001000000" "0500feff00000000")
LOADS = bytes.fromhex("7910000000000000" "0500feff00000000")


def resident(process: int) -> int:
    """KiB of a process that are in memory."""
    status = pathlib.Path(f"/proc/{process}/status").read_text()
    return int(re.search(r"VmRSS:\s+(\d+) kB", status)[1])


def child() -> int:
    """The one child of this process."""
    children = pathlib.Path(f"/proc/{os.getpid()}/task/{os.getpid()}/children").read_text().split()
    return int(children[-1])


def memory(program: str, objects: int) -> list[tuple[str, int]]:
    """What the agent takes, step by step."""
    with Agent.run(program) as agent:
        agent.tell("step 1")
        process = child()
        found = [("empty", resident(process))]
        for _ in range(MACHINES):
            agent.ship(EXIT * SLOTS, 1)
        found.append((f"with {MACHINES} machines of {SLOTS} slots", resident(process)))
        for _ in range(objects):
            agent.make_of(b"\xa5" * LENGTH)
        found.append((f"and with {objects} objects of {LENGTH} bytes", resident(process)))
    return found


def answer(listener: socket.socket, length: int) -> None:
    """Answers each request of a connection with so many bytes, in a process of its own."""
    connection, _ = listener.accept()
    connection.setsockopt(socket.IPPROTO_TCP, socket.TCP_NODELAY, 1)
    while len(connection.recv(SHORT, socket.MSG_WAITALL)) == SHORT:
        connection.sendall(bytes(length))
    os._exit(0)


def lines_a_second(program: str, lines: str, count: int) -> float:
    """How many of these lines the agent does a second, by the difference of a long conversation and a short one."""
    before = f"make {PIECE}\nship {FUEL} 4294967296 0 0 0 0 {ADDS.hex()}\nship {FUEL} 4294967296 0 0 0 0 {LOADS.hex()}\n"

    def seconds(times: int) -> float:
        given = (before + lines * times).encode()
        begin = time.perf_counter()
        subprocess.run([program, "run"], input=given, stdout=subprocess.DEVNULL, check=True)
        return time.perf_counter() - begin

    short, long = (min(seconds(times) for _ in range(5)) for times in (count // 20, count))
    return lines.count("\n") * (count - count // 20) / (long - short)


def median(call: Callable[[], object], count: int) -> float:
    """Microseconds of a call, in the median."""
    times = []
    for _ in range(count):
        begin = time.perf_counter()
        call()
        times.append(time.perf_counter() - begin)
    return statistics.median(times) * 1e6


def trip(length: int, count: int) -> float:
    """Microseconds of a round trip, in the median."""
    with socket.create_server(("127.0.0.1", 0)) as listener:
        process = os.fork()
        if process == 0:
            answer(listener, length)
        with socket.create_connection(listener.getsockname()) as stream:
            stream.setsockopt(socket.IPPROTO_TCP, socket.TCP_NODELAY, 1)

            def ask() -> None:
                stream.sendall(bytes(SHORT))
                stream.recv(length, socket.MSG_WAITALL)

            found = median(ask, count)
        os.waitpid(process, 0)
    return found


def of_run(program: str, count: int) -> Iterator[tuple[float, str]]:
    """What a conversation of `run` does."""
    yield lines_a_second(program, "step 1\n", 20 * count), "lines a second, a step of an addition"
    yield lines_a_second(program, "step 2\n", 20 * count), "lines a second, a step of a load"
    moves = "put 1 0 2a\nleave 1\nleft 1\nreturn 1\nreturned 1\n"
    yield lines_a_second(program, moves, count) / 5, f"times a second an object of {PIECE} bytes is written, sent away and brought home"
    with Agent.run(program) as agent:
        agent.make(PIECE)
        yield median(lambda: agent.get(1, 0, SHORT), count), f"us a round trip of a get of {SHORT} bytes, over pipes"


def fuel_used(agent: Agent, machines: int) -> int:
    """Of all machines together."""
    return sum(FUEL - agent.regs(machine).fuel for machine in range(1, machines + 1))


def by_workers(program: str, code: bytes, workers: int, seconds: float) -> float:
    """Instructions a second of a service with two machines for each worker, each on an object of its own."""
    with Service(program, "--workers", str(workers)) as service:
        for number in range(1, 2 * workers + 1):
            service.setup.make(PIECE)
            service.setup.ship(code, FUEL, address(number))
        service.listen()
        with service.connect() as agent:
            used, begin = fuel_used(agent, 2 * workers), time.perf_counter()
            time.sleep(seconds)
            return (fuel_used(agent, 2 * workers) - used) / (time.perf_counter() - begin)


def of_service(program: str, count: int, seconds: float) -> Iterator[tuple[float, str]]:
    """What a service does."""
    for what, code in (("additions", ADDS), ("loads", LOADS)):
        for workers in (1, 2, 4):
            yield by_workers(program, code, workers, seconds), f"instructions a second, {what}, workers: {workers}"
    with Service(program, "--port", "0", "--workers", "0", "--connections", "8") as service:
        service.setup.make(PIECE)
        service.listen()
        connecting = []
        clients = []
        for _ in range(8):
            begin = time.perf_counter()
            clients.append(service.connect())
            clients[-1].get(1, 0, 1)
            connecting.append(time.perf_counter() - begin)
        yield statistics.median(connecting) * 1e6, "us until a new connection has its first reply"
        yield median(lambda: clients[0].get(1, 0, SHORT), count), f"us a round trip of a get of {SHORT} bytes, over TCP"

        def move() -> None:
            clients[0].leave(1)
            patiently(clients[0].get, 1, 0, 1)

        yield median(move, max(count // 10, 1)), f"us until an object of {PIECE} bytes that was asked to leave is read again"
        # It leaves once more and comes back, so that nothing is far at the end.
        clients[0].leave(1)
        while clients[0].tell("get 1 0 1") != "away 1":
            time.sleep(0.001)
        patiently(clients[0].get, 1, 0, 1)
        for client in clients:
            client.close()


def main() -> None:
    options = argparse.ArgumentParser(description="Measures what one agent holds.")
    options.add_argument("program", type=program)
    options.add_argument("--objects", type=number_from(0, OBJECTS), default=OBJECTS)
    options.add_argument("--trips", type=number_from(1), default=2000)
    options.add_argument("--seconds", type=number_from(0, kind=float), default=1.0)
    given = options.parse_args()
    os.environ["ASAN_OPTIONS"] = "quarantine_size_mb=0"
    has_checks = b"AddressSanitizer" in pathlib.Path(given.program).read_bytes()
    print(f"{given.program}, {'with' if has_checks else 'without'} run-time checks")
    for what, kibibytes in memory(given.program, given.objects):
        print(f"{kibibytes:12} KiB {what}")
    rows = list(of_run(given.program, given.trips))
    rows += [(trip(length, given.trips), f"us a round trip of {SHORT} bytes for {length}, two processes over TCP") for length in (SHORT, LENGTH)]
    if subprocess.run([given.program, "serve", "--help"], capture_output=True).returncode == 0:
        rows += of_service(given.program, given.trips, given.seconds)
    for number, what in rows:
        print(f"{number:12.0f} {what}")


if __name__ == "__main__":
    try:
        main()
    except (OSError, Broken, Refused, subprocess.CalledProcessError) as error:
        sys.exit(f"measure.py: {error}")

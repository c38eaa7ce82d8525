#!/usr/bin/env python3
"""Asks a service for what a machine does that pauses after each request: turns.py PROGRAM

Machine 1 sums the numbers up to the one that object 1 begins with, writes the sum behind it, and pauses. `put`, `resume` and `get` go in one
packet, and the sum is in its answer, since the connection does the machine's turns before the next line; also where all workers have machines
that never end. A request that is longer goes to a worker. Without workers nothing runs. Replies are counted by the segments in which they come.
"""
from __future__ import annotations

import contextlib
import pathlib
import socket
import statistics
import struct
import sys
import time
from typing import Iterator

sys.path.insert(0, str(pathlib.Path(__file__).resolve().parents[1]))
from lib.checks import run_parts, want, want_equal
from lib.programs import Client, Server, Service, few_times, in_time, patience, until

FUEL = 1 << 60
# where `tcp_info` of Linux has the count of segments with data that came
SEGMENTS_AT, INFO_BYTES = 152, 160
# mov r6, r1 · call 4 · ldxdw r3, [r6] · mov r4, 0 · add r4, r3 · add r3, -1 · jne r3, 0, -3 · stxdw [r6+8], r4 · ja -8
SUMS = "bf16000000000000" "8500000004000000" "7963000000000000" "b704000000000000" "0f34000000000000" "07030000ffffffff" "5503fdff00000000" \
    "7b46080000000000" "0500f8ff00000000"
# mov r6, r1 · mov r7, r2 · call 4 · ldxdw r3, [r7] · stxdw [r6+8], r3 · ja -4
COPIES = "bf16000000000000" "bf27000000000000" "8500000004000000" "7973000000000000" "7b36080000000000" "0500fcff00000000"
# the slot after `call 4`, at which both pause, and how many instructions a sum has beside three for each number
AT, COPIES_AT, AROUND = 2, 3, 5
# the numbers of requests that end in the connection's own turns: 8, 305 and 3,905 instructions, where it does up to 4,096
SHORT = [1, 100, 1_300]
# the number of one that doesn't
LONG = 20_000
# how many replies come together, and how often
TOGETHER, ROUNDS = 20, 50
# how long a request may take on a busy machine, in seconds, in the middle
MEDIAN = 0.05


def number(value: int) -> str:
    """Eight bytes in digits."""
    return value.to_bytes(8, "little").hex()


def sum_to(last: int) -> int:
    return last * (last + 1) // 2


def request(machine: int, last: int) -> list[str]:
    """The commands of a request, which go together."""
    return [f"put {machine} 0 {number(last)}", f"resume {machine}", f"get {machine} 8 8", f"regs {machine}"]


def is_paused(client: Client, machine: int) -> bool:
    words = client.ask(f"regs {machine}").split()
    return words[4] == "paused" and words[2] == f"{AT}"


def fuel_of(client: Client, machine: int) -> int:
    return int(client.ask(f"regs {machine}").split()[3])


@contextlib.contextmanager
def summing(program: str, machines: int, *arguments: object) -> Iterator[Service]:
    """A service with an object and a machine for each request at once."""
    setup = ["make 16"] * machines
    for machine in range(1, machines + 1):
        setup += [f"ship {FUEL} 0x{machine << 32:x} 0 0 0 0 {SUMS}", f"break {machine} {AT}"]
    service = Service(program, *arguments, setup=setup)
    yield service
    service.end()


def ask_for(client: Client, machine: int, last: int) -> None:
    """A request whose answer comes in the same packet, and the machine that did it: paused again, with so much less fuel."""
    before = fuel_of(client, machine)
    told = client.ask_at_once(request(machine, last))
    want_equal(told[:3], ["ok", "ok", f"bytes {number(sum_to(last))}"], f"the sum up to {last}")
    words = told[3].split()
    want_equal(words[2:5], [f"{AT}", f"{before - 3 * last - AROUND}", "paused"], f"the machine after the sum up to {last}")


def show_one_packet(program: str) -> None:
    """The answer of a short request is there when the next line is answered."""
    with summing(program, 1, "--workers", 1) as service, Client(service) as client:
        until("the machine isn't paused", lambda: is_paused(client, 1))
        for last in SHORT * 20:
            ask_for(client, 1, last)


def show_busy_workers(program: str) -> None:
    """So it is while all workers run machines that don't end, and another client asks all the time. A request isn't late then."""
    with summing(program, 4, "--workers", 2, "--connections", 2) as service, Client(service) as client, Client(service) as other:
        for machine in range(1, 5):
            until(f"machine {machine} isn't paused", lambda: is_paused(client, machine))
        for machine in (1, 2):
            # a sum up to 0 goes round 2^64 times
            want_equal(client.ask_at_once(request(machine, 0)[:2]), ["ok", "ok"], "a request that doesn't end")

        def median() -> float:
            times = []
            for last in SHORT * 20:
                other.stream.sendall("".join(f"{command}\n" for command in request(4, last)).encode())
                begin = time.monotonic()
                ask_for(client, 3, last)
                times.append(time.monotonic() - begin)
                told = [other.replies.readline() for _ in range(4)]
                want_equal(told[2], f"bytes {number(sum_to(last))}\n", "the other client's sum")
            return statistics.median(times)

        late = in_time(median, MEDIAN * patience(program))
        want(not late, f"a request takes {late} s")


def show_long_request(program: str) -> None:
    """A machine that goes on is handed to a worker, and its connection answers meanwhile."""
    with summing(program, 2, "--workers", 1) as service, Client(service) as client:
        for machine in (1, 2):
            until(f"machine {machine} isn't paused", lambda: is_paused(client, machine))
        want_equal(client.ask_at_once(request(1, LONG)[:2]), ["ok", "ok"], "a long request")
        until("a long request doesn't end", lambda: client.ask("get 1 8 8") == f"bytes {number(sum_to(LONG))}")
        want_equal(client.ask_at_once(request(2, 0)[:2]), ["ok", "ok"], "a request that doesn't end")
        for _ in range(3):
            fuel = fuel_of(client, 2)
            until("a worker doesn't run it", lambda: fuel_of(client, 2) < fuel - 10_000)
        ask_for(client, 1, 1)


def show_far_object(program: str) -> None:
    """A machine that comes to an object which is away waits in its connection's turn, and goes on when the object is back."""
    setup = ["make 16", "make 8", f"ship {FUEL} 0x{1 << 32:x} 0x{2 << 32:x} 0 0 0 {COPIES}", f"break 1 {COPIES_AT}"]
    with Server(program) as server, Service(program, "--workers", 1, "--far", f"127.0.0.1:{server.port}", setup=setup) as service:
        with Client(service) as client:
            until("the machine isn't paused", lambda: client.ask("regs 1").split()[4] == "paused")
            for value in range(1, 11):
                client.ask_until(f"put 2 0 {number(value)}", "ok")
                client.until_away(2, f"bytes {number(value)}")
                want_equal(client.ask("resume 1"), "ok", "a request for an object that may be away")
                until("the machine doesn't go on", lambda: client.ask("get 1 8 8") == f"bytes {number(value)}")
                until("the machine isn't paused again", lambda: client.ask("regs 1").split()[4] == "paused")


def show_no_workers(program: str) -> None:
    """Without workers a machine that was resumed doesn't run, and no more does one that was shipped."""
    with summing(program, 1, "--workers", 0) as service, Client(service) as client:
        want_equal([client.ask("step 1") for _ in range(3)], ["ran 1 1", "ran 1 2", "paused 1 2"], "steps to the breakpoint")
        want_equal(client.ask_at_once(request(1, 1)[:3]), ["ok", "ok", f"bytes {number(0)}"], "a request that nobody does")
        want(client.ask(f"ship {FUEL} 0x100000000 0 0 0 0 {SUMS}").startswith("shipped 2"), "a second machine")
        time.sleep(0.05)
        for machine, slot, fuel in ((1, AT, FUEL - 2), (2, 0, FUEL)):
            want_equal(client.ask(f"regs {machine}").split()[2:5], [f"{slot}", f"{fuel}", "run"], f"machine {machine}, which nobody runs")
        want_equal(client.ask("step 1"), f"ran 1 {AT + 1}", "a step of the connection's")


def segments(stream: socket.socket) -> int:
    """How many segments with data have come."""
    found: int = struct.unpack_from("I", stream.getsockopt(socket.IPPROTO_TCP, socket.TCP_INFO, INFO_BYTES), SEGMENTS_AT)[0]
    return found


def show_sends(program: str) -> None:
    """Replies to commands that came together are sent together, and each before the agent waits for more."""
    with summing(program, 1, "--workers", 0) as service, Client(service) as client:

        def counted(commands: list[str], replies: list[str]) -> int:
            before = segments(client.stream)
            for _ in range(ROUNDS):
                want_equal(client.ask_at_once(commands), replies, "readings that go together")
            count = segments(client.stream) - before
            want(count >= ROUNDS, f"{ROUNDS} packets come in {count} segments")
            return count

        # A packet may come in two parts, or twice, now and then.
        many = few_times(lambda: counted(["get 1 0 16"] * TOGETHER, [f"bytes {'00' * 16}"] * TOGETHER), 2 * ROUNDS)
        want(not many, f"{ROUNDS * TOGETHER} replies come in {many} segments")
        many = few_times(lambda: counted(["get 1 0 1"], ["bytes 00"]), ROUNDS)
        want(not many, f"{ROUNDS} replies that are waited for come in {many} segments")
        # half a line waits: the replies before it don't
        client.stream.sendall(b"get 1 0 1\nget 1 0 2\nget 1 ")
        want_equal([client.replies.readline() for _ in range(2)], ["bytes 00\n", "bytes 0000\n"], "replies before half a line")
        client.stream.sendall(b"0 3\n")
        want_equal(client.replies.readline(), "bytes 000000\n", "the reply to the line whose half had come")


SHOWN = [show_one_packet, show_busy_workers, show_long_request, show_far_object, show_no_workers, show_sends]


if __name__ == "__main__":
    run_parts("turns", SHOWN)

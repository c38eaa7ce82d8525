#!/usr/bin/env python3
"""Runs `bpfagent serve` with clients over TCP: service.py PROGRAM

The conversations of docs/PROTOCOL.md and examples/serve are held with their clients, workers and the mover at work. Eight clients at once use a
counter that leaves and returns, machines that they debug, and accounts under a lock, whose object is away while machines are within their loops.
Conversations are cut off. Objects are kept by `bpfagent store`, to their last byte, also when that is killed. Each status comes, there are too few
threads, and what the closed service leaves is looked at.
"""
from __future__ import annotations

import contextlib
import hashlib
import pathlib
import re
import resource
import socket
import subprocess
import sys
import threading
import time
from typing import Any, Callable

sys.path.insert(0, str(pathlib.Path(__file__).resolve().parents[1]))
from lib.checks import Failed, run_parts, want, want_equal
from lib.programs import LONG, SECONDS, Client, Server, Service, ended, free_port, is_heard, object_line, opened, room_for, tells_what_is_out, unreadable
from lib.programs import until
from lib.scripts import Talk, talks_of
from lib.sources import ROOT

# how often an object is seen to have left while machines use it
SEEN = 3
# how often machines that take a lock come together outside, and how often each has been inside in the end
MEETINGS = 4
MOVES = 40
# what the two accounts have together, and a number in the lock that is no machine's
MONEY = 2_000
READER = 99
# more than machines use up that run as long as a reader lets them
FUEL = 1 << 60
# how many bytes one `put` or `get` has at most, and how long objects are that leave whole
PIECE = 4_096
LENGTHS = {1: 9, 2: 64, 3: 4_097, 4: 65_536}
EXAMPLES = ROOT / "examples/serve"
EXIT = "9500000000000000"
# aadd [r1], r2 · exit
ADD = "db21000000000000" + EXIT
# mov r3, 100 · aadd [r1], r2 · add r3, -1 · jne r3, 0, -3 · exit
ADDS = "b703000064000000" "db21000000000000" "07030000ffffffff" "5503fdff00000000" + EXIT
# call 4, which closes the scopes
CLOSE = "8500000004000000"
# aadd [r1+16], r2 · exit
ADD_BEHIND = "db21100000000000" + EXIT
# mov r3, 0 · aadd [r1], r2 · ldxb r5, [r4] · call 4 · mov r6, 3000 · add r6, -1 · jne r6, 0, -2 · add r3, 1 · jeq r5, 0, -8 · mov r0, r3 · exit:
# most of the time nothing is in scope
ADDS_UNTIL_TOLD = (
    "b703000000000000" "db21000000000000" "7145000000000000" + CLOSE
    + "b7060000b80b0000" "07060000ffffffff" "5506feff00000000" "0703000001000000" "1505f8ff00000000" "bf30000000000000" + EXIT
)
# add r3, 1 · ja -2
COUNTS = "0703000001000000" "0500feff00000000"
COUNTER = (ROOT / "examples/c/counter.code").read_bytes().hex()
LOCKED = (ROOT / "examples/c/locked.code").read_bytes().hex()
# where a machine has given the lock back, by xchg [r8], r1, and closed its scopes
OUTSIDE = LOCKED.index("db180000e1000000" + CLOSE) // 16 + 2


class Meeting:
    """Clients on threads of their own, who come together with the reader. One that fails lets all others go."""

    def __init__(self, clients: int, seconds: float, task: Callable[..., tuple], *arguments: object) -> None:
        self.barrier = threading.Barrier(clients + 1, timeout=seconds)
        self.told, self.wrong = [], []
        self.threads = [threading.Thread(target=self.run, args=(task, *arguments, machine), daemon=True) for machine in range(1, clients + 1)]
        for thread in self.threads:
            thread.start()

    def run(self, task: Callable[..., tuple], *arguments: object) -> None:
        try:
            self.told.append(task(self, *arguments))
        except (Failed, OSError, ValueError, IndexError, threading.BrokenBarrierError) as error:
            self.wrong.append(repr(error))
            self.barrier.abort()

    def come(self) -> None:
        """Waits until all clients and the reader have come."""
        self.barrier.wait()

    def lead(self, task: Callable[[], object]) -> None:
        """The reader's part between two meetings, when all have come."""
        try:
            self.come()
            task()
            self.come()
        except threading.BrokenBarrierError:
            raise Failed(f"not all clients come, and some ended with {self.wrong}") from None
        except Failed:
            self.barrier.abort()
            raise

    def end(self) -> list[tuple]:
        """What the clients told, in the order of their machines."""
        for thread in self.threads:
            thread.join()
        want(not self.wrong and len(self.told) == len(self.threads), f"the clients ended with {self.wrong}")
        return sorted(self.told)


def of_eight(number: int) -> bytes:
    """An object of eight bytes that holds this number."""
    return number.to_bytes(8, "little")


def is_stopped(reply: str) -> bool:
    want(reply.startswith("regs "), f"regs is answered {reply}")
    return reply.split()[4] not in ("run", "paused")


def stopped(client: Client, machine: int | str) -> str:
    """The `regs` of a machine when it has stopped."""
    return until(f"machine {machine} doesn't stop", lambda: is_stopped(reply := client.ask(f"regs {machine}")) and reply)


def exited(client: Client, machine: int) -> str:
    """The `regs` of a machine that has stopped by `exit`."""

    def look() -> str:
        reply = client.ask(f"regs {machine}")
        return reply if " exit " in reply else ""

    return until(f"machine {machine} doesn't exit", look)


def paused(client: Client, machine: int, slot: int) -> list[str]:
    """The words of `regs` of a machine when it is paused, which is at this slot."""

    def look() -> Any:
        words = client.ask(f"regs {machine}").split()
        want(not is_stopped(" ".join(words)), f"machine {machine} stops: {words}")
        return words[4] == "paused" and words

    words = until(f"machine {machine} isn't paused", look)
    want_equal(words[2], f"{slot}", f"where machine {machine} is paused")
    return words


def parts(text: str) -> tuple[list[str], list[tuple[str, Talk]], list[str]]:
    """Of an example the arguments, for the input and each client the commands with their replies, in order, and the lines of what
    is left."""
    talks = talks_of(text)
    arguments = [word for words, _ in talks if words and words[0].startswith("--") for word in words]
    setup = [told for words, talk in talks if not words or words[0] in arguments for told in talk]
    clients = [(words[0], talk) for words, talk in talks if words and words[0] not in arguments]
    return arguments, [("setup", setup), *clients], [line[2:] for line in text.splitlines() if line.startswith("= ")]


def talked(program: str, arguments: list[str], talks: list[tuple[str, Talk]], where: str) -> Service:
    """A service after the input of a conversation; its clients, each connected when it first speaks, were asked in turn, and have gone."""
    (_, setup), *talks = talks
    service, clients = Service(program, *arguments, setup=[command for command, _ in setup]), {}
    want_equal(service.told, [reply for _, reply in setup], f"{where}: what the input is answered")
    for name, talk in talks:
        if name not in clients:
            clients[name] = Client(service)
        for command, reply in talk:
            want_equal(clients[name].ask(command), reply, f"{where}: {name} asks {command}")
    want(all(client.end() == "" for client in clients.values()), f"{where}: more than the replies")
    return service


def show_protocol(program: str) -> None:
    """The conversation of docs/PROTOCOL.md."""
    page = (ROOT / "docs/PROTOCOL.md").read_text()
    words, conversation = re.search(r"(?s)`bpfagent serve (--connections [^`]*)`; a line `---` says who speaks\..*?^```text\n(.*?)^```", page, re.M).groups()
    status, output, errors = talked(program, words.split(), parts(conversation)[1][1:], "PROTOCOL.md").texts()
    want((status, errors) == (0, "") and output.startswith("closed\n"), f"PROTOCOL.md: it ended with {status}, {output}, {errors}")


def show_examples(program: str) -> None:
    """Each example."""
    examples = sorted(EXAMPLES.glob("*.script"))
    want(examples, "there is no example of serve")
    for example in examples:
        arguments, talks, left = parts(example.read_text())
        want(talked(program, arguments, talks, example.name).ends_with(left), f"{example.name} ended otherwise")


def show_row(program: str) -> None:
    """Without workers a machine is stepped by its clients alone."""
    service = Service(program, "--workers", 0, setup=["make 8", f"ship 10 0x100000000 1 0 0 0 {ADD}"])
    want(service.told == ["made 1", "shipped 1"], f"the input is answered {service.told}")
    said = ["step 1", "get 1 0 1", "left 1", "leave 1", "step 1", f"ship 10 0 0 0 0 0 {EXIT}", "line 2 0", "stack 2 0 1", "break 2 0",
            "watch 2 0x100000000 1", "step 2"]
    told = ["ran 1 1", "bytes 01", "unserved", "asked 1", "stopped 1 exit 0000000000000000", "shipped 2", "line 2 0 exit", "bytes 00", "ok", "ok", "paused 2 0"]
    client = Client(service)
    found = [client.ask(command) for command in said]
    want(found == told, f"the client is answered {found}")
    shown = [client.ask("regs 1"), client.ask("regs 2")]
    want(client.end() == "" and service.ends_well({1: of_eight(1)}, shown, may_be_out=True), "the end of a service without workers")


def show_digest(program: str) -> None:
    """An object of three bytes closes with their SHA-256, which FIPS 180-4 has as an example."""
    service, client = opened(program, "--workers", 0, setup=["make 3", "put 1 0 616263"])
    want_equal(service.told, ["made 1", "ok"], "what the input is answered")
    want_equal(client.ask("get 1 0 3"), "bytes 616263", "the object of the input")
    want_equal(client.end(), "", "what is said beyond the reply")
    want(service.ends_with(["object 1 3 ba7816bf8f01cfea414140de5dae2223b00361a396177a9cb410ff61f20015ad"]), "the digest of abc")


def service_runs(program: str) -> None:
    """Two workers run a loop of 100 atomic adds."""
    service, client = opened(program, "--workers", 2, setup=["make 8", f"ship 1000 0x100000000 1 0 0 0 {ADDS}"])
    shown = exited(client, 1)
    want_equal(client.ask("get 1 0 8"), f"bytes {of_eight(100).hex()}", "the object after 100 adds")
    want(client.end() == "" and service.ends_well({1: of_eight(100)}, [shown]), "the end of a service with workers")


def service_moves(program: str) -> None:
    """An object leaves when it is asked to, and returns when it is missed."""
    service, client = opened(program, setup=["make 8", "put 1 0 2a"])

    def look() -> bool:
        want((asked := client.ask("leave 1")) in ("asked 1", "full"), f"leave is answered {asked}")
        want((found := client.ask("get 1 0 1")) in ("bytes 2a", "busy 1", "away 1"), f"get is answered {found}")
        return found == "away 1"

    until("the object doesn't leave", look)
    comes_back(client, "bytes 2a")
    want(client.end() == "" and service.ends_well({1: of_eight(42)}, may_be_out=True), "the end of a service that moves")


def comes_back(client: Client, held: str) -> None:
    """Object 1, which is away, is read until it is here. Its first byte is this one."""
    found = until("the object doesn't return", lambda: (reply := client.ask("get 1 0 1")).startswith("bytes ") and reply)
    want_equal(found, held, "the object that returned")


def close_two(program: str) -> None:
    """Two machines that two workers run add 200 times to an object that is asked to leave meanwhile."""
    ships = [f"ship 1000 0x100000000 1 0 0 0 {ADDS}"] * 2
    service, client = opened(program, "--workers", 2, setup=["make 8", *ships])
    want([client.ask("leave 1") for _ in range(20)] == ["asked 1"] * 20, "an object that is asked to leave again and again")
    shown = [exited(client, 1), exited(client, 2)]
    want_equal(client.ask_until("get 1 0 8", "bytes"), f"bytes {of_eight(200).hex()}", "the object after 200 adds")
    want(client.end() == "" and service.ends_well({1: of_eight(200)}, shown, may_be_out=True), "the end of a service in which two machines added")


def away_unmissed(client: Client) -> None:
    """Object 1, which nobody holds, leaves, and nobody asks for it: requests are served in turn, so it is away when object 2 is, which
    was here before."""
    client.ask_until("get 2 0 1", "bytes")

    def look() -> bool:
        client.ask_until("leave 1", "asked 1")
        client.ask_until("leave 2", "asked 2")
        return client.ask("get 2 0 1") == "away 2"

    until("object 2 doesn't leave", look)


def service_sweeps(program: str) -> None:
    """An object that nobody uses leaves by itself where the mover sweeps, and returns when it is missed."""
    service, client = opened(program, "--sweep", setup=["make 8", "put 1 0 2a"])
    # Whoever looks uses it. So the looks are far apart, and ever farther, since a busy machine may keep the mover away between two of them.
    pauses = (0.1 * 1.5**number for number in range(100))

    def look() -> bool:
        time.sleep(next(pauses))
        return client.ask("get 1 0 1") == "away 1"

    until("the object doesn't leave by itself", look)
    comes_back(client, "bytes 2a")
    want(client.end() == "" and service.ends_well({1: of_eight(42)}, may_be_out=True), "the end of a service that sweeps")


def show_without_sweep(program: str) -> None:
    """Without `--sweep` it stays."""
    service, client = opened(program, setup=["make 8", "put 1 0 2a"])
    for _ in range(5):
        time.sleep(0.1)
        want_equal(client.ask("get 1 0 1"), "bytes 2a", "an object that nobody asked to leave")
    want(client.end() == "" and service.ends_well({1: of_eight(42)}), "the end of a service that doesn't sweep")


def ship_counter(meeting: Meeting, service: Service, times: int, _: int) -> tuple[str, str]:
    """One of many clients: it ships a counter, moves the object meanwhile, and waits until the machine has stopped: its `regs`."""
    client = Client(service)
    machine = client.ask(f"ship {10 * times + 10} 0x100000000 {times} 0 0 0 {COUNTER}").split()[1]
    for _ in range(20):
        want(client.ask("leave 1") == "asked 1", "a request to the mover")
        client.ask("get 1 0 8")
    reply = stopped(client, machine)
    want(f" exit {times:016x}" in reply, f"machine {machine}: {reply}")
    client.ask_until("get 1 0 8", "bytes")
    want_equal(client.end(), "", "what is said beyond the replies")
    return machine, reply


def show_crowd(program: str, *arguments: object) -> None:
    """Eight clients, whose machines four workers run, count in one object while it leaves and returns. It is read when all
    have counted: each client ends before the service does, so the ninth reading is that of the first."""
    times = 200
    service = Service(program, "--connections", 8, "--workers", 4, *arguments, setup=["make 8"])
    reader = Client(service)
    shown = [reply for _, reply in Meeting(7, LONG, ship_counter, service, times).end()]
    want_equal([reader.ask(f"regs {machine}") for machine in range(1, 8)], shown, "machines that have stopped stay as they are")
    found = reader.ask_until("get 1 0 8", "bytes")
    want_equal(found, f"bytes {of_eight(7 * times).hex()}", f"what seven counters of {times} count")
    reader.there_and_back(found)
    want(reader.end() == "" and service.ends_well({1: of_eight(7 * times)}, shown, may_be_out=True), "the end of a service with eight clients")


def show_far(program: str) -> None:
    """Objects that leave are kept by `bpfagent store`, which serves one service after the other."""
    server = Server(program)
    far = f"127.0.0.1:{server.port}"
    service, client = opened(program, "--far", far, "--workers", 1, setup=["make 8", "put 1 0 2a"])
    for _ in range(5):
        client.there_and_back("bytes 2a00000000000000")
    shipped = client.ask(f"ship 1000 0x100000000 1 0 0 0 {ADDS}")
    client.ask("leave 1")
    shown = stopped(client, 1)
    want(shipped == "shipped 1" and " exit " in shown, f"a machine whose object leaves: {shown}")
    client.there_and_back("bytes 8e00000000000000")
    want(client.end() == "" and service.ends_well({1: of_eight(142)}, [shown], may_be_out=True), "the end of a service over a far server")
    show_crowd(program, "--far", far)
    want(server.end() == (0, b"", b""), "the far server of two services")


def show_lost_server(program: str) -> None:
    """The far server is killed. What it kept stays far, and a machine waits for it; what is here stays here."""
    server = Server(program)
    setup = ["make 8", "put 1 0 2a", "make 8", "make 8", "put 3 0 07", f"ship 10 0x100000000 1 0 0 0 {ADD}"]
    service, client = opened(program, "--far", f"127.0.0.1:{server.port}", "--workers", 0, setup=setup)
    away_unmissed(client)
    server.process.kill()
    server.process.communicate()
    for _ in range(20):
        answers = [client.ask(command) for command in ("leave 3", "get 1 0 1", "step 1")]
        want(answers == ["asked 3", "away 1", "waiting 1 1"], "an object whose server is gone")
        time.sleep(0.01)
    want(client.ask_until("get 3 0 1", "bytes") == "bytes 07", "an object that couldn't leave")
    shown = client.ask("regs 1")
    want(client.end() == "", "more than the replies")
    status, output, errors = service.texts()
    said = output.splitlines()
    is_left = said[:2] == ["closed", "object 1 out"] and said[3:] == [object_line(3, of_eight(7)), shown]
    want(status == 0 and tells_what_is_out(output, errors) and is_left, f"the end of a service whose far server is gone: {said}, {errors}")


def show_unreached(program: str) -> None:
    """A far server that can't be reached, and what isn't its address: nothing is read, and no port is taken."""
    with socket.create_server(("127.0.0.1", 0)) as taken:
        port = taken.getsockname()[1]
        found = served(program, "--far", f"127.0.0.1:{free_port()}", "--port", port, setup="make 8\n")
        want(found == (3, "", "far server can't be reached\n"), "a server that isn't there")
        for far in ("", "7070", "localhost:7070", "127.0.0.1", "127.0.0.1:", "127.0.0.1:65536", "127.0.0.1:x", "256.0.0.1:1", "::1:7070", " 127.0.0.1:7070"):
            found = served(program, f"--far={far}", "--port", port, setup="make 8\n")
            want(found == (2, "", "error: --far takes an IP address and a port\n"), f"the address {far}")


def write_all(client: Client, number: int, held: bytes) -> None:
    """Puts these bytes into an object that is here."""
    for at in range(0, len(held), PIECE):
        want(client.ask(f"put {number} {at} {held[at : at + PIECE].hex()}") == "ok", f"object {number} is written at {at}")


def read_all(client: Client, number: int, length: int) -> bytes:
    """All bytes of an object. Where it is away, the first reading calls it back."""
    held = b""
    while len(held) < length:
        reply = client.ask_until(f"get {number} {len(held)} {min(PIECE, length - len(held))}", "bytes ")
        held += bytes.fromhex(reply.split()[1])
    return held


def show_far_bytes(program: str) -> None:
    """Each byte of an object that a far server kept, which promises nothing, is the one that was put, also of the longest; so it is of what
    is written when it is back, by a connection and by a machine, and when it has left once more."""
    server = Server(program)
    service, client = opened(program, "--far", f"127.0.0.1:{server.port}", "--workers", 0, setup=[f"make {length}" for length in LENGTHS.values()])
    held = {number: hashlib.shake_256(bytes([number])).digest(length) for number, length in LENGTHS.items()}
    for number in held:
        write_all(client, number, held[number])
    for _ in range(2):
        for number in held:
            client.until_away(number, f"bytes {held[number][:8].hex()}")
        for number, length in LENGTHS.items():
            want(read_all(client, number, length) == held[number], f"object {number} comes back with other bytes")
            want(client.ask(f"put {number} {length - 1} 5a") == "ok", f"the last byte of object {number}")
            held[number] = held[number][:-1] + b"\x5a"
            want(read_all(client, number, length) == held[number], f"object {number} has other bytes than were written")
    want(client.ask(f"ship 10 0x200000000 1 0 0 0 {ADD_BEHIND}") == "shipped 1", "a machine")
    want([client.ask("step 1"), client.ask("step 1")] == ["ran 1 1", f"stopped 1 exit {0:016x}"], "an addition to bytes 16 to 23 of object 2")
    added = (int.from_bytes(held[2][16:24], "little") + 1) % (1 << 64)
    held[2] = held[2][:16] + of_eight(added) + held[2][24:]
    want(read_all(client, 2, LENGTHS[2]) == held[2], "object 2 after an addition")
    shown = client.ask("regs 1")
    want(client.end() == "" and service.ends_well(held, [shown]), "the end of a service whose long objects left")
    want(server.end() == (0, b"", b""), "the far server of long objects")


def left_often(client: Client) -> list[int]:
    """Object 1 is asked to leave until it did a few times, while machines use it, which call it back at once: the numbers that it showed
    meanwhile."""
    shown, seen, was_away = [], 0, False
    end = time.monotonic() + LONG / 2
    while time.monotonic() < end:
        asked, *found = client.ask_at_once(["leave 1", *["get 1 0 8"] * 15])
        want_equal(asked, "asked 1", "an object that is to leave")
        for reply in found:
            seen += reply == "away 1" and not was_away
            was_away = reply == "away 1"
            if reply not in ("away 1", "busy 1"):
                want(reply.startswith("bytes "), f"get is answered {reply}")
                shown.append(int.from_bytes(bytes.fromhex(reply.split()[1]), "little"))
        if seen >= SEEN:
            return shown
    raise Failed(f"while machines run the object leaves {seen} times")


def run_by_one(client: Client, machine: int) -> str:
    """A machine that workers run does single instructions in between, until it has stopped: its `regs`."""

    def look() -> Any:
        reply = client.ask(f"one {machine}")
        if reply.startswith(f"stopped {machine} "):
            return client.ask(f"regs {machine}")
        does = reply.startswith(f"ran {machine} ")
        want(does or reply in (f"waiting {machine} 1", f"waiting {machine} 2"), f"one is answered {reply}")
        want_equal(client.ask(f"resume {machine}"), "ok" if does else "notpaused", f"resume after {reply}")
        time.sleep(0.01)
        return None

    return until(f"machine {machine} doesn't stop", look)


def debug_machine(meeting: Meeting, service: Service, machine: int) -> tuple[int, bool, str]:
    """One of many clients: workers ran its machine to the breakpoint that the input set. It looks at it, does one instruction, which
    comes to an object that is away, lets it go to another breakpoint, and from there to its end: whether it had to wait, and how
    the machine ended."""
    client = Client(service)
    words = paused(client, machine, 1)
    want([int(words[at], 16) for at in (7, 8)] == [machine, 0], f"machine {machine} at its breakpoint: {words}")
    waits = (reply := client.ask(f"one {machine}")) == f"waiting {machine} 1"
    if waits:
        reply = client.ask_until(f"one {machine}", f"ran {machine} ", pause=0.001)
    want(reply == f"ran {machine} 2", f"one instruction: {reply}")
    want(client.ask(f"stack {machine} 0 4") == "bytes 00000000" and client.ask(f"out {machine}") == f"out {machine}", "its stack, and what it gave out")
    want(client.ask(f"line {machine} 10") == f"line {machine} 10 exit", "its last line")
    want(client.ask(f"watch {machine} 0x100000000 8") == "ok" and client.ask(f"unwatch {machine} 0x100000000 8") == "ok", "a watched range")
    answers = [client.ask(command) for command in (f"break {machine} 4", f"unbreak {machine} 1", f"resume {machine}")]
    want(answers == ["ok"] * 3, "it goes on to another breakpoint")
    words = paused(client, machine, 4)
    want(int(words[8], 16) == 0, f"machine {machine} at its second breakpoint: {words}")
    meeting.come()
    meeting.come()
    want(client.ask(f"unbreak {machine} 4") == "ok" and client.ask(f"resume {machine}") == "ok", "it goes on")
    reply = run_by_one(client, machine)
    want(" exit " in reply and client.end() == "", f"machine {machine} stops so: {reply}")
    return machine, waits, reply


def show_debuggers(program: str) -> None:
    """Eight clients, of which seven debug a machine each while four workers run them all: machine m adds m, and counts how often. The
    object is away when the first machine comes to it, and again when all have added once, between two additions of each; from
    then on it is asked to leave all the time, and the machines run until it has left a few times."""
    setup = ["make 8", "make 8"]
    for machine in range(1, 8):
        setup += [f"ship {FUEL} 0x100000000 {machine} 0 0x200000000 0 {ADDS_UNTIL_TOLD}", f"break {machine} 1"]
    service = Service(program, "--connections", 8, "--workers", 4, setup=setup)
    reader = Client(service)
    once = sum(range(1, 8))

    def leaves(count: int) -> None:
        reader.until_away(1, f"bytes {of_eight(count).hex()}")
        away_unmissed(reader)

    leaves(0)
    meeting = Meeting(7, LONG, debug_machine, service)
    meeting.lead(lambda: leaves(once))
    counts = [once, *left_often(reader)]
    want(counts == sorted(counts), f"the counter shows {counts}")
    reader.ask_until("put 2 0 01", "ok")
    told, total = meeting.end(), 0
    want(any(waits for _, waits, _ in told), "no machine waits for an object that is away")
    for machine, _, reply in told:
        words = reply.split()
        count = int(words[5], 16)
        want(int(words[3]) == FUEL - 6006 * count - 3, f"the fuel of a machine that added {count} times: {reply}")
        total += machine * count
    shown = [reply for _, _, reply in told]
    want([reader.ask(f"regs {machine}") for machine in range(1, 8)] == shown, "machines that have stopped stay as they are")
    held = {1: of_eight(total), 2: of_eight(1)}
    want(reader.end() == "" and service.ends_well(held, shown, may_be_out=True), "the end of a service whose machines were debugged")


def runs_on(client: Client, rounds: int) -> None:
    """Waits until machine 1 has gone round more often."""
    until("a machine doesn't go on", lambda: int(client.ask("regs 1").split()[8], 16) > rounds)


def show_breakpoint(program: str) -> None:
    """A breakpoint that is set while a worker runs its machine pauses it there, where it stays; when it is cleared the machine goes on from
    there."""
    service = Service(program, "--workers", 2, setup=[f"ship {FUEL} 0 0 0 0 0 {COUNTS}"])
    client, rounds = Client(service), 0
    for slot in (1, 0):
        runs_on(client, rounds)
        want(client.ask(f"break 1 {slot}") == "ok", "a breakpoint of a machine that is run")
        words = paused(client, 1, slot)
        rounds = int(words[8], 16)
        want(int(words[3]) == FUEL - 2 * rounds + slot, f"the fuel of a machine at a breakpoint: {words}")
        time.sleep(0.02)
        want(client.ask("regs 1").split() == words and client.ask("step 1") == f"paused 1 {slot}", "a machine that is paused stays as it is")
        if slot:
            want(client.ask(f"unbreak 1 {slot}") == "ok" and client.ask("resume 1") == "ok", "it goes on")
    shown = client.ask("regs 1")
    want(client.end() == "" and service.ends_well(machines=[shown]), "the end of a service whose machine is paused")


def accounts_of(reply: str) -> list[int]:
    """Of what `get` shows of the accounts the number of the machine that is inside, or 0, and both balances."""
    held = bytes.fromhex(reply.split()[1])
    return [int.from_bytes(held[at : at + 8], "little") for at in (0, 8, 16)]


def take_lock(meeting: Meeting, service: Service, machine: int) -> tuple[int, str]:
    """One of many clients: workers run its machine, which a breakpoint stops a few times as it is outside, and then to its end: how that was."""
    client = Client(service)
    for _ in range(MEETINGS):
        paused(client, machine, OUTSIDE)
        meeting.come()
        meeting.come()
        want(client.ask(f"resume {machine}") == "ok", "it goes on")
    paused(client, machine, OUTSIDE)
    want(client.ask(f"unbreak {machine} {OUTSIDE}") == "ok" and client.ask(f"resume {machine}") == "ok", "it goes on to its end")

    def look() -> Any:
        want(client.ask("leave 1") == "asked 1", "a request to the mover")
        found = client.ask("get 1 0 24")
        if found not in ("away 1", "busy 1"):
            inside, *balances = accounts_of(found)
            want(inside or sum(balances) == MONEY, f"nobody is inside, and the accounts have {balances}")
        return is_stopped(reply := client.ask(f"regs {machine}")) and reply

    reply = until(f"machine {machine} doesn't stop", look)
    want(" exit " in reply and client.end() == "", f"machine {machine} stops so: {reply}")
    return machine, reply


def balances_after(told: list[tuple[int, str]]) -> list[int]:
    """Of both accounts when machines have ended so, of which each moves its number as often as it says."""
    balances = [MONEY // 2, MONEY // 2]
    for machine, reply in told:
        moved = machine * int(reply.split()[5], 16)
        balances[machine % 2] -= moved
        balances[1 - machine % 2] += moved
    return balances


def move_under_lock(program: str, machines: int, *arguments: object) -> None:
    """So many machines, of a client each, move amounts between two accounts under a lock. The object leaves while all of them are
    between two of their moves, so that each has to wait for it; then a few times while two of them run, which wait for the lock, that
    the reader has; and from then on it is asked to leave all the time."""
    setup = ["make 24", "make 8", f"put 1 8 {2 * of_eight(MONEY // 2).hex()}"]
    for machine in range(1, machines + 1):
        setup += [f"ship {FUEL} 0x100000000 {machine % 2} {machine} {MOVES} 0 {LOCKED}", f"break {machine} {OUTSIDE}"]
    service = Service(program, "--connections", machines + 1, "--workers", 4, *arguments, setup=setup)
    reader = Client(service)

    def leaves() -> None:
        before = reader.ask_until("get 1 0 24", "bytes")
        reader.until_away(1, f"bytes {of_eight(0).hex()}")
        found = reader.ask_until("get 1 0 24", "bytes")
        want(found == before and sum(accounts_of(found)) == MONEY, f"the accounts leave as {before} and return as {found}")
        away_unmissed(reader)

    def leaves_while_two_run() -> None:
        leaves()
        reader.ask_until(f"put 1 0 {of_eight(READER).hex()}", "ok")
        want([reader.ask(f"resume {machine}") for machine in (1, 2)] == ["ok", "ok"], "two machines go on")
        want(set(left_often(reader)) <= {READER}, "a machine has the lock that the reader has")
        want(sum(accounts_of(reader.ask_until("get 1 0 24", "bytes"))) == READER + MONEY, "the accounts while the reader has the lock")
        reader.ask_until(f"put 1 0 {of_eight(0).hex()}", "ok")
        for machine in (1, 2):
            paused(reader, machine, OUTSIDE)

    meeting = Meeting(machines, LONG, take_lock, service)
    for _ in range(MEETINGS - 1):
        meeting.lead(leaves)
    meeting.lead(leaves_while_two_run)
    told = meeting.end()
    found = reader.ask_until("get 1 0 24", "bytes")
    want_equal(accounts_of(found), [0, *balances_after(told)], "the accounts")
    held = {1: bytes.fromhex(found.split()[1]), 2: of_eight(0)}
    want(reader.end() == "" and service.ends_well(held, [reply for _, reply in told], may_be_out=True), "the end of a service whose machines take a lock")


def show_locks(program: str) -> None:
    """Seven machines and eight clients, and four machines over `bpfagent store`."""
    move_under_lock(program, 7)
    server = Server(program)
    move_under_lock(program, 4, "--far", f"127.0.0.1:{server.port}")
    want(server.end() == (0, b"", b""), "the far server of accounts")


def show_lost(program: str) -> None:
    """A client that is cut off, or breaks off in a line, ends its connection alone."""
    service = Service(program, "--connections", 3, "--workers", 0, setup=["make 8"])
    stays, goes, breaks = Client(service), Client(service), Client(service)
    want([client.ask("get 1 0 1") for client in (stays, goes, breaks)] == ["bytes 00"] * 3, "three clients")
    goes.stream.setsockopt(socket.SOL_SOCKET, socket.SO_LINGER, b"\1\0\0\0\0\0\0\0")
    with goes:
        pass
    breaks.stream.sendall(b"get 1 0")
    want(breaks.end() == "cut\n", "a line that is broken off")
    want(stays.ask("put 1 0 05") == "ok" and stays.ask("get 1 0 1") == "bytes 05", "the client that stays")
    want(stays.end() == "" and service.ends_well({1: of_eight(5)}), "the end of a service that lost clients")


def show_first_end(program: str) -> None:
    """A client hears the end of its conversation while another is still to come."""
    service = Service(program, "--connections", 2)
    first = Client(service)
    want(first.ask("get 1 0 1") == "outside", "the first client")
    try:
        want(first.end() == "", "more than the reply")
    except TimeoutError:
        raise Failed("a client doesn't hear the end while another is still to come") from None
    want(Client(service).end() == "" and service.ends_well(), "the end of a service whose clients came one after the other")


def show_few_threads(program: str) -> None:
    """The mover, one of two workers or a client's thread can't be made, since addresses for its stack are wanting: those that are there
    end, the client is cut off, and nothing is said to have closed."""
    for threads in range(5):
        service, answered = Service(program, "--workers", 2, setup=["make 8"], limits=room_for(program, threads)), ""
        with contextlib.suppress(OSError), Client(service) as client:
            answered = client.ask("get 1 0 1") + client.end()
        try:
            service.process.wait(SECONDS)
        except subprocess.TimeoutExpired:
            service.process.kill()
            raise Failed(f"a service with room for {threads} threads doesn't end") from None
        found = answered, service.texts()
        is_served = found == ("bytes 00", (0, f"closed\n{object_line(1, of_eight(0))}\n", ""))
        want(found == ("", (3, "", "no memory\n")) or (threads == 4 and is_served), f"a service with room for {threads} threads: {found}")
    want(answered, "a service with room for all its threads")


def show_few_files(program: str) -> None:
    """A client that can't be accepted, or of whose stream there can be no second, ends the service, and those that are connected hear the
    end: it has three streams, listens by a fourth file, and takes two for each client."""
    for files in (4, 5, 6, 7):
        service = Service(program, "--connections", 2, setup=["make 8", f"ship 100000 0 0 0 0 0 {COUNTS}"], limits={resource.RLIMIT_NOFILE: files})
        with contextlib.ExitStack() as held:
            clients = [held.enter_context(Client(service)) for _ in range((files - 4) // 2)]
            want(files < 7 or clients[0].ask("get 1 0 1") == "bytes 00", "a client that is served")
            want(files % 2 == 0 or is_heard("127.0.0.1", service.port), "one client more")
            want([client.replies.read() for client in clients] == [""] * len(clients), "the end of those that are connected")
        want(service.texts() == (3, "", "net fault\n"), f"a service that may open {files} files")


def served(program: str, *arguments: object, setup: str = "", **streams: Any) -> tuple[int, str, str]:
    """The status, standard output and standard error of a service that takes no connection."""
    status, output, errors = ended(program, "serve", *arguments, given=setup.encode(), **streams)
    return status, output.decode(), errors.decode()


def show_statuses(program: str) -> None:
    """What goes wrong before a connection, in this order: words, setup, bind, an object that isn't here."""
    leaving = "make 8\nmake 8\nleave 2\n"
    want(served(program, setup=leaving) == (1, "made 1\nmade 2\nleaving 2\n", "object 2 isn't here\n"), "an object that is leaving")
    want(served(program, setup=leaving + "left 2\n") == (1, "made 1\nmade 2\nleaving 2\nleft 2\n", "object 2 isn't here\n"), "an object that is far")
    want(served(program, setup=leaving + "leave 1\n") == (1, "made 1\nmade 2\nleaving 2\nleaving 1\n", "object 1 isn't here\n"), "two objects that aren't here")
    with socket.create_server(("127.0.0.1", 0)) as taken:
        port = taken.getsockname()[1]
        want(served(program, "--port", port, setup=leaving) == (3, "made 1\nmade 2\nleaving 2\n", "net fault\n"), "a port that is taken")
        want(served(program, "--port", port, "--budget", 1, setup="make 2\n") == (3, "noroom\n", "net fault\n"), "the budget of the input")
        status, output, errors = served(program, "--port", port, "--connections", 9, setup=leaving)
        want((status, output) == (2, "") and errors.startswith("error: "), "words that are wrong come first")
    with open("/dev/full", "wb") as full:
        want(served(program, setup="make 8\n", stdout=full) == (3, "", "write fault\n"), "a full device, in the input's commands")
        want(served(program, stdout=full) == (3, "", "write fault\n"), "a full device, as it listens")
    with unreadable() as fails:
        want(served(program, stdin=fails) == (3, "", "read fault\n"), "an input that fails")
    far = ["--far", "127.0.0.1:1"]
    wrong = [
        ["--far"], far * 2, [*far, "--workers", "17"], ["--connections", "0"], ["--connections=9"], ["--workers", "17"], ["--workers=-1"],
        ["--port", "65536"], ["--budget", "67108865"], ["--sweep", "--sweep"], ["--connections"], ["--workers", "x"], ["x"], ["--sweep=true"],
        ["--keep", "65535"], ["--keep", "67108865"],
    ]
    for words in wrong:
        status, output, errors = served(program, *words)
        want((status, output) == (2, "") and errors.startswith("error: ") and errors.endswith("--help'.\n"), f"{words} ended with {status}, {output}, {errors}")
    status, output, errors = served(program, "--help")
    wanted = [
        "--port", "--unix <PATH>", "--connections", "--workers", "--budget", "--sweep", "--keep <BYTES>", "--far <HOST:PORT>", "--far-timeout <MS>",
        "--verbose", "regs", "listening P", "closed", "Status 1", "Status 3",
    ]
    want((status, errors) == (0, "") and all(word in output for word in wanted) and ".md" not in output, f"help: {status}, {output}, {errors}")


def show_port(program: str) -> None:
    """The port that is asked for, and the last words where the output fails."""
    port = free_port()
    service = Service(program, "--port", port, "--connections", 2)
    want(service.port == port and not is_heard("127.0.0.2", port), "it listens on more than 127.0.0.1")
    first, second = Client(service), Client(service)
    want(first.end() == "" and second.end() == "" and service.ends_well(), "clients that say nothing")
    again = Service(program, "--port", port, "--workers", 16)
    want(again.port == port and Client(again).end() == "" and again.ends_well(), "the port that is asked for")


SHOWN = [
    show_protocol, show_examples, show_row, show_digest, service_runs, service_moves, close_two, service_sweeps, show_without_sweep, show_crowd,
    show_debuggers, show_breakpoint, show_locks, show_lost, show_first_end, show_few_threads, show_few_files, show_far, show_far_bytes,
    show_lost_server, show_unreached, show_statuses, show_port,
]


if __name__ == "__main__":
    run_parts("service", SHOWN)

#!/usr/bin/env python3
"""What `serve --keep` keeps here, as its notes tell: keeping.py PROGRAM

Objects leave until the bound is kept. They do so at the start, when a machine that used more has ended, and while machines walk over much more than
is kept. memory.py measures the memory, and how many leave in a second.
"""
from __future__ import annotations

import os
import pathlib
import re
import sys
import threading
import time
from typing import Callable

sys.path.insert(0, str(pathlib.Path(__file__).resolve().parents[1]))
from lib.checks import run_parts, want, want_equal
from lib.programs import Client, Server, Service, ended, patience, until
from lib.walking import code_of, content, ships

MOST = 65_536
# What the walking machines find: so many objects of this length, of which a sixteenth fits below the bound.
OBJECTS, LENGTH = 256, 4096
MACHINES = 4
# How many objects a machine keeps in scope.
SCOPES = 4
# How long it may take until a few objects leave or the service ends, also on a busy machine, in seconds.
SOON = 60
# How long they walk at least, in seconds, and how many objects leave meanwhile, by a program without checks.
WALKS, LEAVE = 3, 300
END = re.compile(
    r"the service ends: (\d+) objects? of (\d+) bytes? here, (\d+) objects? of (\d+) bytes? far; (\d+) bytes? left, (\d+) bytes? returned, "
    r"(\d+) faults? in (\d+) ms, (\d+) evictions?, (\d+) failures?, (\d+) pass(?:es)? of the bound"
)
# Uses objects 1 to 3, and goes on as long as it has fuel.
USES = "".join(f"mov r1, {number}\nlsh r1, 32\nldxdw r0, [r1]\n" for number in (1, 2, 3)) + "again: ja again\n"


class Here:
    """Which objects are here, as the notes of a service tell while they come."""

    def __init__(self, service: Service, objects: int) -> None:
        self.here = set(range(1, objects + 1))
        self.left: list[int] = []
        self.most = 0
        self.last = ""
        self._errors = os.dup(service.process.stderr.fileno())
        self._thread = threading.Thread(target=self._hear, daemon=True)
        self._thread.start()

    def _hear(self) -> None:
        with open(self._errors, "rb") as errors:
            for line in errors:
                said = line.decode().rstrip("\n").partition(" ")[2]
                words = said.split()
                self.last = said if END.fullmatch(said) else self.last
                if words[0] == "object" and words[2:] == ["left"]:
                    self.here.discard(int(words[1]))
                    self.left.append(int(words[1]))
                if words[0] == "object" and words[2:] == ["returned"]:
                    self.here.add(int(words[1]))
                    self.most = max(self.most, len(self.here))

    def end(self, service: Service) -> list[int]:
        """The numbers of the last line, once the service has ended."""
        status = service.process.wait(timeout=SOON)
        self._thread.join(SOON)
        found = END.fullmatch(self.last)
        want(status == 0 and found is not None, f"the service ends with {status} and {self.last}")
        return [int(number) for number in found.groups()] if found else []


def soon(what: str, look: Callable[[], object]) -> None:
    """Waits until the mover has moved a few objects."""
    until(what, look, SOON)


def show_start(program: str) -> None:
    """Where more is here than is kept when nobody uses anything, the first objects leave."""
    service = Service(program, "--keep", 2 * MOST, "-v", setup=[f"make {MOST}"] * 4)
    with service, Client(service) as client:
        told = Here(service, 4)
        soon("two objects don't leave", lambda: len(told.left) == 2)
        time.sleep(0.2)
        want_equal(told.left, [1, 2], "the objects that leave")
        client.end()
        numbers = told.end(service)
    want_equal(numbers, [2, 2 * MOST, 2, 2 * MOST, 2 * MOST, 0, 0, numbers[7], 2, 0, 0], "the last line")


def show_second_chance(program: str) -> None:
    """The mover looks at objects in turn. One that was used since it was looked at stays, and makes room at the next look."""
    service = Service(program, "--keep", 2 * MOST, "--workers", 0, "-v", setup=[f"make {MOST}"] * 4)
    with service, Client(service) as client:
        told = Here(service, 4)
        soon("two objects don't leave", lambda: len(told.left) == 2)
        for used, back, left in ((3, 1, [1, 2, 4]), (1, 2, [1, 2, 4, 3])):
            client.ask_until(f"get {used} 0 1", "bytes 00")
            want_equal(client.ask(f"return {back}"), f"asked {back}", "an object that is to come back")
            soon(f"no object makes room for object {back}: {told.left}", lambda: len(told.left) == len(left))
            want_equal(told.left, left, "the objects that leave")
        client.end()
        told.end(service)


def show_in_use(program: str) -> None:
    """A machine that keeps three objects in scope has all of them, above the bound. When it has ended two leave."""
    code = code_of(program, USES)
    service = Service(program, "--keep", MOST, "--workers", 1, "-v", setup=[f"make {MOST}"] * 3)
    with service, Client(service) as client:
        told = Here(service, 3)
        soon("objects don't leave at the start", lambda: len(told.here) == 1)
        want_equal(client.ask(f"ship {4_000_000 // patience(program)} 0 0 0 0 0 {code}"), "shipped 1", "the machine")
        until("the machine doesn't end", lambda: client.ask("regs 1").split()[4] == "spent")
        soon("objects don't leave", lambda: len(told.here) == 1)
        client.end()
        numbers = told.end(service)
    want_equal(numbers[:4], [1, MOST, 2, 2 * MOST], "what is here and far at the end")
    want(numbers[6] >= 2 and numbers[10] >= 1, f"objects came back, above the bound: {numbers}")


def show_walk(program: str) -> str:
    """Machines walk over sixteen times as much as is kept. No more is here than what is kept and what they have in scope, all go on, and each object is
    as it was."""
    setup = [line for number in range(1, OBJECTS + 1) for line in (f"make {LENGTH}", f"put {number} 0 {content(number, LENGTH).hex()}")]
    with Server(program) as far:
        walking = [*setup, *ships(program, MACHINES, OBJECTS)]
        service = Service(program, "--far", f"127.0.0.1:{far.port}", "--keep", MOST, "--workers", MACHINES, "-v", setup=walking)
        with service, Client(service) as client:
            told = Here(service, OBJECTS)
            fitting = MOST // LENGTH
            until("the bound isn't kept", lambda: len(told.here) <= fitting + MACHINES * SCOPES)
            told.most, before = 0, len(told.left)
            fuels = [int(client.ask(f"regs {number}").split()[3]) for number in range(1, MACHINES + 1)]
            start = time.monotonic()
            time.sleep(WALKS)
            # On a busy machine they walk for longer.
            until("few objects leave", lambda: len(told.left) - before >= LEAVE // patience(program))
            left, most, walked = len(told.left) - before, told.most, time.monotonic() - start

            def goes_on(number: int, had: int) -> bool:
                words = client.ask(f"regs {number}").split()
                want(words[4] == "run", f"machine {number} has ended: {words[:5]}")
                return int(words[3]) < had

            for number, had in enumerate(fuels, 1):
                until(f"machine {number} stands still", lambda: goes_on(number, had))
            for number in range(1, MACHINES + 1):
                want_equal(client.ask(f"break {number} 1"), "ok", "a breakpoint")
            for number in range(1, MACHINES + 1):
                until(f"machine {number} isn't paused", lambda: client.ask(f"regs {number}").split()[4] == "paused")
            for number in range(1, OBJECTS + 1):
                want_equal(client.ask_until(f"get {number} 0 {LENGTH}", "bytes "), f"bytes {content(number, LENGTH).hex()}", f"object {number}")
            client.end()
            numbers = told.end(service)
    want(most <= fitting + MACHINES * SCOPES + 1, f"{most} objects were here, where {fitting} fit below the bound")
    want_equal((numbers[0] + numbers[2], numbers[9]), (OBJECTS, 0), "objects and failures in the last line")
    want_equal((numbers[4], numbers[8]), (LENGTH * numbers[8], len(told.left)), "bytes and evictions in the last line")
    want_equal(numbers[5], LENGTH * numbers[6], "bytes that returned, and faults, in the last line")
    return f"{left / walked:.0f} evictions a second, at most {most} of {OBJECTS} objects here, {1000 * numbers[7] / max(numbers[6], 1):.0f} us for a fault"


def show_wrong_words(program: str) -> None:
    """A bound that is too small or too great for any object, or no number. The least and the greatest are taken."""
    for word in ("65535", "67108865", "x", "-1", ""):
        status, output, errors = ended(program, "serve", f"--keep={word}")
        want((status, output) == (2, b"") and b"'--keep <BYTES>'" in errors, f"--keep={word}: {status}, {errors!r}")
    for number in (MOST, 1 << 26):
        with Service(program, "--keep", number) as service, Client(service) as client:
            client.end()
            want_equal(service.texts(), (0, "closed\n", ""), f"--keep {number}")
    errors = ended(program, "serve", "--keep", "65535")[2]
    want(errors.startswith(b"error: invalid value '65535' for '--keep <BYTES>': 65535 is not in 65536..=67108864\n"), f"--keep 65535: {errors!r}")


if __name__ == "__main__":
    run_parts("keeping", [show_start, show_second_chance, show_in_use, show_walk, show_wrong_words])

#!/usr/bin/env python3
"""How much memory a service has whose objects leave: memory.py PROGRAM

1,000 objects of 64 KiB leave for `bpfagent store` and come back, ten times. That is done by the program as it is installed, by `Service` of the
Python package, and in the unit's environment. With `--keep` four machines walk over 64 MiB of objects. PROGRAM is the proved one: that of `make try`
has an allocator of its own.
"""
from __future__ import annotations

import contextlib
import hashlib
import os
import pathlib
import re
import statistics
import sys
import tempfile
import threading
import time
from typing import Iterator, Sequence

sys.path.insert(0, str(pathlib.Path(__file__).resolve().parents[1]))
from lib.checks import run_parts, want, want_equal
from lib.package import PACKAGE
from lib.programs import LONG, Ask, Client, Listener, Server, Service, all_leave, ended, in_time, processor_time, run, size_of, until
from lib.sources import ROOT
from lib.walking import WORD, content, ships

sys.path.append(str(PACKAGE))
import bpfagent
from bpfagent.far import Store
from bpfagent.starting import THRESHOLD_NAME

UNIT = ROOT / "deploy/bpfagent@.service"
LENGTH, PIECE = 65_536, 4096
OBJECTS, ROUNDS = 1000, 10
# How many bytes of memory a service may have whose objects are far, and by how many it may have grown in the last round.
BOUND, GROWTH = 10 << 20, 1 << 20
# With `--keep`: what is kept of how many objects, and how much memory the service may then have.
KEEP, ALL, KEPT_BOUND = 1 << 24, 1024, 32 << 20
# How long it is looked at once it has no more, in seconds.
LOOKED = 20
# How many objects leave in a second at least, of 64 KiB and of 4 KiB, once in how many tries. Of the former each takes two digests, its own and that of
# the one that comes.
EVICTIONS, SMALL_EVICTIONS, AGAIN = 200, 2000, 3
SMALL, KEEP_SMALL = 4096, 1 << 20
# How many objects a machine walks over that fit below the bound, and how much longer it may take then.
FITTING, SLOWER, TRIES = 200, 1.03, 6


def setup(count: int, length: int = LENGTH) -> Iterator[str]:
    """So many objects, each touched whole, and one more that is small."""
    for number in range(1, count + 1):
        yield f"make {length}"
        for offset in range(0, length, PIECE):
            yield f"put {number} {offset} {content(number, LENGTH)[:PIECE].hex()}"
    if count < ALL:
        yield f"make {WORD}"


def plain() -> dict[str, str]:
    """The environment, in which nothing is said to the C library."""
    return {name: value for name, value in os.environ.items() if not name.startswith(("MALLOC_", "GLIBC_TUNABLES"))}


def each_begins(ask: Ask, count: int) -> None:
    """Brings all objects home, each with its number at its begin."""
    ask([f"return {number}" for number in range(1, count + 1)])
    rest = list(range(1, count + 1))
    end = time.monotonic() + LONG
    while rest:
        replies = ask([f"get {number} 0 {WORD}" for number in rest])
        for number, reply in zip(rest, replies):
            want(reply in (f"bytes {content(number, LENGTH)[:WORD].hex()}", f"away {number}", f"busy {number}"), f"object {number} begins with {reply}")
        rest = [number for number, reply in zip(rest, replies) if not reply.startswith("bytes")]
        want(time.monotonic() < end, f"{len(rest)} objects don't come home")


def rounds(pid: int, ask: Ask) -> str:
    """Objects leave and come back. How much memory the process has before, and at most while they are far."""
    far, here = [], [size_of(pid, "VmRSS")]
    for number in range(ROUNDS):
        all_leave(ask, OBJECTS)
        far.append(size_of(pid, "VmRSS"))
        want(far[-1] < BOUND, f"{far[-1] >> 10} KiB of memory in round {number + 1}, while {OBJECTS} objects of {LENGTH} bytes are far")
        each_begins(ask, OBJECTS)
        here.append(size_of(pid, "VmRSS"))
    for sizes in (far, here[1:]):
        want(sizes[-1] < sizes[0] + GROWTH, f"it grows from round to round: {[size >> 10 for size in sizes]} KiB")
    return f"{here[0] / 2**20:.0f} MiB, {max(far) / 2**20:.1f} far"


def want_left(lines: Sequence[str]) -> None:
    """The service left each object as it was."""
    told = [f"object {number} {LENGTH} {hashlib.sha256(content(number, LENGTH)).hexdigest()}" for number in range(1, OBJECTS + 1)]
    want(list(lines[: OBJECTS + 1]) == ["closed", *told], f"the service left {lines[:2]} ..")


def of_service(store: str, program: str | pathlib.Path, environment: dict[str, str]) -> str:
    """The rounds by a program that is started in this environment."""
    with Server(store) as far:
        service = Service(program, "--far", f"127.0.0.1:{far.port}", "--workers", 1, setup=setup(OBJECTS), env=environment)
        with service, Client(service) as client:
            said = rounds(service.process.pid, client.ask_at_once)
            client.end()
            status, output, errors = service.texts()
        want_equal((status, errors), (0, ""), "the end of the service")
        want_left(output.splitlines())
    return said


@contextlib.contextmanager
def installed(program: str) -> Iterator[str]:
    """The launcher that is installed."""
    with tempfile.TemporaryDirectory(prefix="memory-") as room:
        run(sys.executable, "-B", ROOT / "tools/install.py", "--program", program, "--library", ROOT / "include/bpfagent.h", f"{room}/prefix")
        yield f"{room}/prefix/bin/bpfagent"


def show_installed(program: str) -> str:
    """By the launcher that is installed."""
    with installed(program) as launcher:
        return f"installed: {of_service(program, launcher, plain())}"


def show_store(program: str) -> str:
    """A far store that is installed gives back the memory of what is forgotten, round after round."""
    sizes = []
    with installed(program) as launcher, Listener(launcher, "store", env=plain()) as server, Store(server.port or 0, timeout=LONG) as store:
        for _ in range(ROUNDS):
            kept = [store.put(content(number, LENGTH))[0] for number in range(1, OBJECTS + 1)]
            for number in kept:
                want(number is not None, "the store has no room")
                store.forget(number or 0)
            sizes.append(size_of(server.process.pid, "VmRSS"))
            want(sizes[-1] < BOUND, f"{sizes[-1] >> 10} KiB of memory of a store that has forgotten {OBJECTS} objects of {LENGTH} bytes")
    want(sizes[-1] < sizes[0] + GROWTH, f"the store grows from round to round: {[size >> 10 for size in sizes]} KiB")
    return f"store: {max(sizes) / 2**20:.1f} MiB"


def show_unit(program: str) -> str:
    """In the environment that the unit sets."""
    sets = dict(re.findall(r"(?m)^Environment=(\w+)=(.*)$", UNIT.read_text()))
    return f"unit: {of_service(program, program, {**plain(), **sets})}"


def show_python(program: str) -> str:
    """By the Python package, which starts the program behind a script that tells of its process."""
    with tempfile.TemporaryDirectory(prefix="memory-") as room, Server(program) as far:
        note, noting = pathlib.Path(room) / "pid", pathlib.Path(room) / "bpfagent"
        noting.write_text(f'#!/bin/sh\necho $$ > "{note}"\nexec "{program}" "$@"\n')
        noting.chmod(0o755)
        os.environ.pop(THRESHOLD_NAME, None)
        with bpfagent.Service(noting, "--far", f"127.0.0.1:{far.port}", "--workers", "1", timeout=600) as service:
            service.setup.tell_all(list(setup(OBJECTS)))
            service.listen()
            said = rounds(int(note.read_text()), service.connect(timeout=60).tell_all)
            want_left(service.close(60))
    return f"Python: {said}"


# ---- with --keep


class Noted:
    """Counts the lines about objects that left, which a service writes with `-v`, as they come."""

    def __init__(self, service: Service) -> None:
        self.left = 0
        self._errors = os.dup(service.process.stderr.fileno())
        threading.Thread(target=self._hear, daemon=True).start()

    def _hear(self) -> None:
        """It reads to the end, since a mover that can't write moves nothing."""
        with open(self._errors, "rb") as errors:
            for line in errors:
                self.left += line.endswith(b" left\n")


def fuel(client: Client, machine: int) -> int:
    """What a machine has left, which walks on."""
    words = client.ask(f"regs {machine}").split()
    want_equal(words[4:5], ["run"], f"the state of machine {machine}")
    return int(words[3])


def looked_at(service: Service, client: Client, machines: int) -> tuple[int, float]:
    """The most memory that it has while it is looked at, and how many objects leave in a second. All its machines go on."""
    noted = Noted(service)
    until("it doesn't go below its bound", lambda: size_of(service.process.pid, "VmRSS") < KEPT_BOUND)
    most, start, before = 0, time.monotonic(), noted.left
    fuels = [fuel(client, number) for number in range(1, machines + 1)]
    while time.monotonic() < start + LOOKED:
        most = max(most, size_of(service.process.pid, "VmRSS"))
        time.sleep(0.01)
    rate = (noted.left - before) / (time.monotonic() - start)
    for number, had in enumerate(fuels, 1):
        # On a busy machine it may take a while until it goes on.
        until(f"machine {number} stands still", lambda: fuel(client, number) < had)
    return most, rate


def paused(client: Client, machines: int) -> None:
    """Pauses the machines, so that nobody asks for objects any more."""
    for number in range(1, machines + 1):
        want_equal(client.ask(f"break {number} 1"), "ok", "a breakpoint")
    for number in range(1, machines + 1):
        until(f"machine {number} isn't paused", lambda: client.ask(f"regs {number}").split()[4] == "paused")


def whole(client: Client, number: int, length: int) -> bytes:
    """An object, piece by piece."""
    pieces = [client.ask_until(f"get {number} {offset} {PIECE}", "bytes") for offset in range(0, length, PIECE)]
    return b"".join(bytes.fromhex(piece.split()[1]) for piece in pieces)


def has_keep(program: str) -> bool:
    return b"--keep" in ended(program, "serve", "--help")[1]


def in_unit(**how: str) -> dict[str, str]:
    """The environment in which memory is freed."""
    return {**plain(), THRESHOLD_NAME: "32768", **how}


def kept(program: str, length: int, keep: int) -> tuple[int, float]:
    """Four machines walk over as many objects of this length as there may be, of which some are kept, and each object is as it was. The most memory
    of the service, and how many objects leave in a second."""
    with Server(program) as far:
        arguments = ["--far", f"127.0.0.1:{far.port}", "--keep", keep, "--workers", 4, "-v"]
        service = Service(program, *arguments, setup=[*setup(ALL, length), *ships(program, 4, ALL)], env=in_unit())
        with service, Client(service) as client:
            found = looked_at(service, client, 4)
            paused(client, 4)
            for number in range(1, ALL + 1):
                want(whole(client, number, length) == content(number, length), f"object {number} isn't as it was")
    return found


def show_kept(program: str) -> str:
    """Over four times as much as is kept: memory stays bounded. With small objects as many leave as machines want."""
    if not has_keep(program):
        return "skipped the bound, since there is no --keep"
    found: list[tuple[int, float]] = []

    def interval(length: int, keep: int) -> float:
        found.append(kept(program, length, keep))
        want(length == SMALL or found[-1][0] < KEPT_BOUND, f"{found[-1][0] >> 10} KiB of memory where {KEEP} bytes are kept")
        return 1 / max(found[-1][1], 1e-9)

    late = in_time(lambda: interval(LENGTH, KEEP), 1 / EVICTIONS, AGAIN)
    most, rate = found[-1]
    want(not late, f"an object of {LENGTH} bytes leaves each {late} s, and not {EVICTIONS} in a second")
    late = in_time(lambda: interval(SMALL, KEEP_SMALL), 1 / SMALL_EVICTIONS, AGAIN)
    want(not late, f"an object of {SMALL} bytes leaves each {late} s, and not {SMALL_EVICTIONS} in a second")
    return f"kept: at most {most / 2**20:.1f} MiB, {rate:.0f} evictions a second, {found[-1][1]:.0f} of {SMALL} bytes"


def cost(program: str, *arguments: object) -> float:
    """The processor time of an instruction of a machine that walks over objects which fit below the bound."""
    with Server(program) as far:
        service = Service(
            program, "--far", f"127.0.0.1:{far.port}", "--workers", 1, *arguments, setup=[*setup(FITTING), *ships(program, 1, FITTING)], env=in_unit()
        )
        with service, Client(service) as client:
            # What is left of the setup is done.
            time.sleep(0.5)
            before, used = fuel(client, 1), processor_time(service.process.pid)
            time.sleep(2)
            return (processor_time(service.process.pid) - used) / (before - fuel(client, 1))


def show_fitting(program: str) -> str:
    """Where everything fits below the bound, the bound costs next to nothing. Measured again where other programs were in the way."""
    if not has_keep(program):
        return ""
    ratio = 0.0
    for _ in range(TRIES):
        pairs = [(cost(program, "--keep", KEEP), cost(program)) for _ in range(3)]
        ratio = statistics.median(one / other for one, other in pairs)
        if ratio <= SLOWER:
            return f"fitting: {ratio:.2f} of the time without --keep"
    want(False, f"with --keep a machine takes {ratio:.2f} of the time")
    return ""


if __name__ == "__main__":
    run_parts("memory", [show_installed, show_store, show_unit, show_python, show_kept, show_fitting])

#!/usr/bin/env python3
"""Machines that wait keep nobody up, whatever the far store does: waiting.py PROGRAM

The far store is one of this script, which is slow, silent, refuses, lies or ends the connection, or `bpfagent store`, which is killed. The service
has 1, 2 and 16 workers and up to 48 machines, of which some, all or none wait. The script measures how long replies and the end of the service take,
and what processor time machines that wait take of the others and in all. It counts how often the store is asked, how often threads of an idle service
run, and how many of 100 `get` are answered `busy` on an object that machines add to. Machines have to go on when the store is well again. What was
too much is measured again, six times at most, since other programs may be in the way. Each time a trial begins with new services, since one may stay
slower than another by how its memory happens to lie. Whatever else is wrong fails at once.
"""
from __future__ import annotations

import contextlib
import os
import pathlib
import statistics
import subprocess
import sys
import time
from concurrent.futures import ThreadPoolExecutor
from typing import Callable, NamedTuple

sys.path.insert(0, str(pathlib.Path(__file__).resolve().parents[1]))
from lib.checks import Failed, run_parts, want
from lib.far import NEVER, Far
from lib.programs import Client, Server, Service, has_checks, is_heard, of_threads, processor_time, slowness, tells_what_is_out, threads_of, until

TRIES = 6
# in how many turns processor time is measured
TURNS = 4
# of how many machines it is seen how far they have run
LOOKED = 8
# what the far store is given, in milliseconds: a service that doesn't cut off a move at its end never ends
GIVEN = 600_000
# how many requests a store that fails gets in any second, for many objects, and for one, which is asked for after 10, 20, 40 .. milliseconds
REQUESTS, REQUESTS_OF_ONE = 20, 8
# how often threads of an idle service run in a second
SWITCHES = 5
# how many other objects are asked to leave, and more requests than the mover's queue takes
OTHERS, REPEATS = 10, 100
FUEL = 1 << 60
EXIT = "9500000000000000"
# how long a store that gives nothing back is looked at, in seconds, and for how many objects it is asked
KEPT = 1.5
MISSED = 24
# for how long lines are counted that are answered `busy`, in seconds
COUNTED = 0.5
# with how many workers, and how many processors other programs may keep busy meanwhile on a machine that is quiet
ADDING, QUIET = 4, 0.3
# ldxdw r0, [r1] · exit
LOADS = "7910000000000000" + EXIT
# ldxdw r0, [r1] · ldxdw r0, [r2] · ldxdw r0, [r3] · ja -1, and the least bound of what is kept
USES, BOUND = "7910000000000000" "7920000000000000" "7930000000000000" "0500ffff00000000", 65_536
# add r3, 1 · ja -2
COUNTS = "0703000001000000" "0500feff00000000"
# lock add [r1], r2 · ja -2
ADDS = "db21000000000000" "0500feff00000000"


class Bounds(NamedTuple):
    """How long a reply may take, the middle one, and the end of a service, in seconds; how much of a core machines that wait may take,
    and how much more processor time than alone those that run; and how many of 100 lines may be answered `busy` on a quiet machine, and
    on one where others run."""

    reply: float
    median: float
    end: float
    core: float
    share: float
    busy: float
    crowded: float


def bounds(program: str) -> Bounds:
    """A program with run-time checks is slower."""
    return Bounds(1.0, 0.05, 10.0, 0.1, 0.5, 25, 25) if has_checks(program) else Bounds(0.2, 0.005, 1.0, 0.02, 0.1, 1, 30)


class Killed(Server):
    """`bpfagent store`, which is killed instead of becoming worse."""

    def __init__(self, program: str) -> None:
        super().__init__(program)
        self.asked: list[float] = []

    @property
    def manner(self) -> str:
        return "killed"

    @manner.setter
    def manner(self, _: str) -> None:
        self.process.kill()
        self.process.wait()


def put_on(pid: int, processors: set[int]) -> None:
    """From now on all threads of a process run on these processors."""
    for thread in os.listdir(f"/proc/{pid}/task"):
        with contextlib.suppress(ProcessLookupError):
            os.sched_setaffinity(int(thread), processors)


def switches(pid: int) -> int:
    """How often the threads of a process were given a processor."""
    lines = [line for text in of_threads(pid, "status").values() for line in text.splitlines()]
    return sum(int(line.split()[1]) for line in lines if "ctxt_switches" in line)


class Slow(Failed):
    """What was measured was too much each time."""


def measured(what: str, least: Callable[[], float], most: float, tries: int = TRIES) -> None:
    """What is measured is at most so much, once in a few times."""
    found = []
    for _ in range(tries):
        found.append(least())
        if found[-1] <= most:
            return
    raise Slow(f"{what}: {found}, and not {most}")


def in_time(what: str, took: Callable[[], float], most: float, tries: int = TRIES) -> None:
    """The same of what the clock tells, of which a machine that is slow now may take more."""

    def slowly() -> float:
        found = took()
        return found if found <= most else found / slowness()

    measured(what, slowly, most, tries)


def ship(number: int, code: str) -> str:
    """A machine that has the address of the object of this number, and 1 to add."""
    return f"ship {FUEL} {number << 32} 1 0 0 0 {code}"


class Trial(Service):
    """A service with machines that run, and some, paused at first, that are to wait for their objects, which have left."""

    def __init__(self, program: str, far: Far | Killed, workers: int, waiting: int, running: int, others: int = OTHERS) -> None:
        self.bounds, self.far, self.waiting, self.running = bounds(program), far, waiting, running
        self.marker, self.other = waiting + 1, waiting + 2
        # the numbers of the machines that are to wait
        self.waiters = range(running + 1, running + waiting + 1)
        setup = ["make 8"] * (self.other + others) + [ship(self.other, COUNTS)] * running
        for number, machine in enumerate(self.waiters, start=1):
            setup += [ship(number, LOADS), f"break {machine} 0"]
        super().__init__(program, "--workers", workers, "--far", f"127.0.0.1:{far.port}", "--far-timeout", GIVEN, setup=setup)
        self.client = Client(self)
        self.client.stream.settimeout(NEVER)
        self.send_away()

    def send_away(self) -> None:
        """The objects of the machines that are to wait leave. Requests are served in turn, so they have when another has."""
        for number in range(1, self.marker):
            want(self.client.ask(f"leave {number}") == f"asked {number}", "an object that is to leave")
        self.client.there_and_back(f"bytes {bytes(8).hex()}", self.marker)

    def spoil(self, manner: str) -> None:
        """The far store becomes worse, and machines wait for it."""
        self.far.manner = manner
        self.far.asked.clear()
        for machine in self.waiters:
            self.client.ask_until(f"resume {machine}", "ok", pause=0.001)

    def mend(self) -> None:
        """The far store is well again: the machines that wait go on to their ends by themselves."""
        self.far.manner = "well"
        for machine in self.waiters:
            until(f"machine {machine} waits for ever", lambda: " exit " in self.client.ask(f"regs {machine}"), NEVER)

    def core(self, seconds: float) -> float:
        """How much of a core threads take of the time in which they don't wait for one: one that never sleeps takes all of it, on a busy
        machine too."""
        before, start = threads_of(self.process.pid), time.monotonic()
        time.sleep(seconds)
        after, passed = threads_of(self.process.pid), time.monotonic() - start
        shares = []
        # A thread that has ended isn't there afterwards.
        for thread, (ran, waited) in before.items():
            if thread not in after:
                continue
            runs, waits = after[thread][0] - ran, after[thread][1] - waited
            shares.append(runs / max(passed - waits, runs, 1e-6))
        return sum(shares)

    def fuel(self) -> int:
        """What fuel some of the machines that run have: they take turns, so each does as much as another."""
        return sum(int(self.client.ask(f"regs {number}").split()[3]) for number in range(1, min(self.running, LOOKED) + 1))

    def cost(self, seconds: float) -> float:
        """The processor time of an instruction, up to a factor, at its least in a few turns, since whatever else runs only adds to it.
        A turn lasts for so much of that time, however long it takes. Threads share one processor meanwhile, since what they cost each
        other depends on how many others they get."""
        pid, costs = self.process.pid, []
        put_on(pid, {min(os.sched_getaffinity(0))})
        for _ in range(TURNS):
            before, fuel = processor_time(pid), self.fuel()
            until("machines that run don't", lambda: processor_time(pid) - before > seconds, pause=0.01)
            spent, done = processor_time(pid) - before, fuel - self.fuel()
            want(done > 0, "machines that run don't")
            costs.append(spent / done)
        put_on(pid, os.sched_getaffinity(0))
        return min(costs)

    def replies(self) -> list[float]:
        """How long commands take, on machines and objects, also on those that are away."""
        want(set(self.client.ask_at_once(["return 1"] * REPEATS)) == {"asked 1"}, "a request that is repeated")
        spent = []
        for turn in range(20):
            at = turn % max(self.waiting, 1) + 1
            other = self.other + turn % OTHERS
            commands = [f"leave {other}", f"get {other} 0 1", f"get {at} 0 1", f"return {at}", f"regs {turn % (self.running + self.waiting) + 1}"]
            commands += [f"step {self.running + at}"] if self.waiting else []
            for command in commands:
                start = time.monotonic()
                reply = self.client.ask(command)
                spent.append(time.monotonic() - start)
                want(reply and reply != "full", f"{command} is answered {reply}")
        return spent

    def lateness(self) -> float:
        """The longest reply and the middle one, as a ratio to what they may take."""
        spent = self.replies()
        return max(max(spent) / self.bounds.reply, statistics.median(spent) / self.bounds.median)

    def ends_after(self) -> float:
        """How long the service takes to end after its last client."""
        want(self.client.end() == "", "more than the replies")
        start = time.monotonic()
        status, output, errors = self.texts()
        is_told = tells_what_is_out(output, errors)
        want(status == 0 and is_told and output.startswith("closed\n"), f"the service ended with {status}, {output[:80]}, {errors}")
        return time.monotonic() - start


def most_in_a_second(times: list[float]) -> int:
    """The most requests of any second."""
    return max((sum(1 for other in times if at <= other < at + 1) for at in times), default=0)


def show_trial(program: str, manner: str, workers: int, waiting: int, running: int, seconds: float) -> None:
    """A service whose far store becomes worse. Machines that run cost as much as before others waited."""
    with Killed(program) if manner == "killed" else Far() as far, Trial(program, far, workers, waiting, running) as trial:
        # what it costs at first is more
        before = [trial.cost(seconds) for _ in range(2)][1] if running else 0
        trial.spoil(manner)
        if running:
            measured("the processor time of an instruction, as a ratio", lambda: trial.cost(seconds) / before, 1 + trial.bounds.share, 3)
        elif waiting:
            measured("the share of a core that waits", lambda: trial.core(seconds), trial.bounds.core)
        asked = list(far.asked)
        in_time("replies, as a ratio to what they may take", trial.lateness, 1)
        # a store that only lies does what clients ask of it meanwhile
        most = most_in_a_second(asked if manner == "lying" else list(far.asked))
        want(most <= REQUESTS, f"the far store is asked {most} times in a second")
        if manner in ("slow", "refusing"):
            trial.mend()
        in_time("the service ends after seconds", trial.ends_after, trial.bounds.end, 1)


def show_trials(program: str) -> None:
    """Each manner of a store, with so many workers, machines that wait, machines that run, and seconds of measuring."""
    for manner, trials in TRIALS.items():
        for workers, waiting, running, seconds in trials:
            what = f"{manner}, {workers} workers, {waiting} machines that wait and {running} that run"
            for left in reversed(range(TRIES)):
                try:
                    show_trial(program, manner, workers, waiting, running, seconds)
                    break
                except (Failed, OSError, subprocess.SubprocessError) as error:
                    if not isinstance(error, Slow) or not left:
                        raise Failed(f"{what}: {error}") from error


def idle(program: str, workers: int) -> float:
    """How often the threads of an idle service run in a second."""
    with Service(program, "--workers", workers, setup=["make 8"]) as service:
        client = Client(service)
        want(client.ask("get 1 0 1") == "bytes 00", "an idle service")
        time.sleep(0.2)
        before = switches(service.process.pid)
        time.sleep(1)
        found = switches(service.process.pid) - before
        want(client.end() == "" and service.texts()[0] == 0, "the end of an idle service")
        return found


def idle_without_room(program: str) -> float:
    """The same of one with more in use than it keeps: a machine is paused with three objects in scope."""
    setup = [*[f"make {BOUND}"] * 3, f"ship {FUEL} {1 << 32} {2 << 32} {3 << 32} 0 0 {USES}", "break 1 3"]
    with Service(program, "--keep", BOUND, "--workers", 1, setup=setup) as service, Client(service) as client:
        until("the machine isn't paused", lambda: client.ask("regs 1").split()[4] == "paused")
        time.sleep(0.2)
        before = switches(service.process.pid)
        time.sleep(1)
        found = switches(service.process.pid) - before
        for number in (1, 2, 3):
            want(client.ask(f"get {number} 0 1") == "bytes 00", f"object {number}, which is in scope")
        want(client.end() == "" and service.texts()[0] == 0, "the end of a service without room")
        return found


def show_idle(program: str) -> None:
    """Nobody runs who has nothing to do."""
    for workers in (1, 2, 16):
        measured(f"context switches a second, {workers} workers", lambda: idle(program, workers), SWITCHES)
    measured("context switches a second, more in use than is kept", lambda: idle_without_room(program), SWITCHES)


def show_too_many(program: str) -> None:
    """A client too many is refused, as soon as the thread that accepts has run again."""
    with Service(program, "--connections", 2) as service:
        clients = [Client(service), Client(service)]
        want([client.ask("regs 1") for client in clients] == ["none", "none"], "two clients")
        until("a third client is let in", lambda: not is_heard("127.0.0.1", service.port))
        want([client.end() for client in clients] == ["", ""] and service.texts()[0] == 0, "the end of two clients")


def show_keeping(program: str) -> None:
    """A store that takes objects and gives none back is asked for them seldom, also while it takes others, and ever more seldom for one."""
    for missed, most in ((1, REQUESTS_OF_ONE), (MISSED, REQUESTS)):
        with Far() as far, Trial(program, far, 1, missed, 0, MISSED) as trial:
            far.manner = "keeping"
            for number in range(MISSED):
                away, other = number % missed + 1, trial.other + number
                want(trial.client.ask(f"get {away} 0 1") == f"away {away}", "an object that is away")
                want(trial.client.ask(f"leave {other}") == f"asked {other}", "an object that is to leave beside others that are to return")
            time.sleep(KEPT)
            until("a store that gives nothing back is given nothing, or not asked again", lambda: len(far.kept) > missed + 5 and len(far.gets) > 5)
            found = most_in_a_second(far.gets)
            want(found <= most, f"a store that gives nothing back is asked {found} times in a second for {missed} objects")
            trial.ends_after()


def worked() -> float:
    """The seconds that processors have worked for programs, or for other systems on the same machine."""
    user, nice, system, _, _, _, _, stolen = pathlib.Path("/proc/stat").read_text().split()[1:9]
    return (int(user) + int(nice) + int(system) + int(stolen)) / os.sysconf("SC_CLK_TCK")


def busy(program: str, machines: int, clients: int) -> float:
    """How many of 100 `get` are answered `busy`, as a ratio to how many may be. Whoever has the turn often doesn't run where other
    programs do, or where there are fewer processors than workers: then only a loose bound holds."""
    setup = ["make 8"] + [ship(1, ADDS)] * machines
    with Service(program, "--workers", ADDING, "--connections", clients, setup=setup) as service:
        every = [Client(service) for _ in range(clients)]

        def counted(client: Client) -> list[bool]:
            until_then = time.monotonic() + COUNTED
            found = []
            while time.monotonic() < until_then:
                found.append(client.ask("get 1 0 8").startswith("busy"))
            return found

        def others() -> float:
            return worked() - processor_time(service.process.pid) - time.process_time()

        before, start = others(), time.monotonic()
        with ThreadPoolExecutor(clients) as pool:
            found = sum(pool.map(counted, every), [])
        is_quiet = len(os.sched_getaffinity(0)) >= ADDING and (others() - before) / (time.monotonic() - start) < QUIET
        want(all(client.end() == "" for client in every) and service.texts()[0] == 0, "the end of clients of one object")
        return 100 * sum(found) / len(found) / (bounds(program).busy if is_quiet else bounds(program).crowded)


def show_busy(program: str) -> None:
    """Lines are seldom answered `busy`, since each is tried again: without that 60 of 100 are, where there are four machines."""
    for machines in (1, 4, 16):
        for clients in (1, 8):
            measured(f"`busy` lines of {clients} clients, {machines} machines, as a ratio to what may be", lambda: busy(program, machines, clients), 1)


TRIALS = {
    "slow": ((1, 1, 0, 1), (2, 4, 4, 0.1), (16, 24, 24, 0.1)),
    # where no machine waits nobody notices what becomes of the store
    "silent": ((1, 0, 1, 0.1), (2, 0, 8, 0.1), (16, 0, 48, 0.1), (1, 1, 0, 3), (2, 48, 0, 1), (16, 4, 4, 0.1)),
    "refusing": ((1, 24, 24, 0.1), (2, 1, 0, 3), (16, 48, 0, 2)),
    "lying": ((1, 48, 0, 2), (2, 4, 4, 0.1), (16, 1, 0, 2)),
    "cut": ((1, 4, 4, 0.1), (2, 24, 24, 0.1), (16, 8, 0, 2)),
    "killed": ((1, 8, 0, 3), (2, 1, 0, 1), (16, 24, 24, 0.1)),
}

if __name__ == "__main__":
    run_parts("waiting", [show_idle, show_too_many, show_busy, show_keeping, show_trials])

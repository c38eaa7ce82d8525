"""Starts what is debugged, or attaches to it."""
from __future__ import annotations

import contextlib
import pathlib
import sys
from dataclasses import dataclass, field
from types import TracebackType
from typing import Iterator, Optional, Sequence

from ..agent import Agent
from ..commands import fault_text
from ..image import load, program_path
from ..library import library_if_there
from ..line_engine import LineEngine
from ..preparing import prepared
from ..replies import RUNNING, Broken, Refused
from ..service import Service
from ..ship import FUEL, make_objects, shipped, values_of
from ..streams import Idle
from .engine import Conversation, Engine, Impossible, Unanswered
from .program import Program

# By default C is compiled so that all variables are there; a flag that is given comes later, and wins.
DEBUG_FLAGS = ("-O0",)
# The workers of a service: how many if nothing else is said, and the most.
WORKERS, MOST_WORKERS = 2, 16
# How long an agent may take for a reply, in seconds.
TIMEOUT = 30.0
# How long a service may take to undo what was set, and the end of what was started, in seconds: the debugger leaves within two.
LEAVING, ENDING = 1.8, 1.0


@dataclass
class Plan:
    """What is to be debugged: a file with its arguments, or a service to which the debugger connects."""

    file: Optional[str] = None
    arguments: Sequence[str] = ()
    bpfagent: Optional[str] = None
    fuel: int = FUEL
    entry: Optional[str] = None
    flags: Sequence[str] = ()
    serve: bool = False
    workers: int = WORKERS
    machines: int = 1
    place: Optional[str] = None
    others: Sequence[str] = field(default_factory=tuple)
    setup: Optional[str] = None


@contextlib.contextmanager
def closed_at_a_fault(agent: Conversation) -> Iterator[None]:
    """Ends a conversation if its block raises. A program that was started has nothing to do then, and gets no time for its end."""
    try:
        yield
    except BaseException:
        agent.patience = 0.0
        with contextlib.suppress(Broken):
            agent.close()
        raise


def attached(place: str, programs: Sequence[Program], idle: Idle) -> Engine:
    """A debugger of the machines of a service that runs."""
    try:
        agent = Agent.reach(place, TIMEOUT, idle)
    except OSError as why:
        raise Impossible(f"no service can be reached at {place}: {fault_text(why)}") from None
    with closed_at_a_fault(agent):
        engine = Engine(agent, True, programs)
        engine.look()
        return engine


class Session:
    """A debugger with what it started. It is a context manager that ends both."""

    def __init__(self, plan: Plan, idle: Idle) -> None:
        """`idle` is called again and again while the first replies are awaited, and may raise what ends this."""
        self.plan, self._values = plan, values_of(plan.arguments, bool(plan.setup))
        self._service: Optional[Service] = None
        self.is_started = plan.place is None
        files = [file for file in (plan.file, *plan.others) if file]
        self._programs = [Program(load(pathlib.Path(file), plan.entry, [*DEBUG_FLAGS, *plan.flags], plan.bpfagent)) for file in files]
        if plan.place is not None:
            self.engine = attached(plan.place, self._programs, idle)
        elif not self._programs:
            raise Impossible("there is no program to debug: name a file, or connect to a service")
        else:
            with self._killed_at_a_fault():
                self.engine = Engine(self._begun(), False, self._programs)
                self._load(idle)

    def restart(self, arguments: Optional[Sequence[str]] = None) -> None:
        """Begins the programs anew, with objects as at first, or with other arguments."""
        if not self.is_started:
            raise Impossible("the machines of a service to which the debugger is connected can't begin anew")
        if arguments is not None:
            self._values = values_of(arguments, bool(self.plan.setup))
        idle = self.engine.agent.idle
        self._end(ENDING)
        with self._killed_at_a_fault():
            self.engine.begin_anew(self._begun(), False)
            self._load(idle)
            self.engine.watch_anew()

    def _begun(self) -> Conversation:
        """An agent in this process; a service if the plan says so, a program is given, or the library isn't there."""
        plan = self.plan
        if not plan.serve and plan.bpfagent is None and library_if_there():
            return LineEngine()
        workers = plan.workers if plan.serve else 1
        self._service = Service(program_path(plan.bpfagent), "--workers", str(workers), timeout=TIMEOUT, is_heard=True)
        return self._service.setup

    def _load(self, idle: Optional[Idle]) -> None:
        """Makes the objects, and a machine of each program as often as the plan says, with the same arguments, all at their beginning."""
        engine, plan = self.engine, self.plan
        engine.agent.idle = idle
        if plan.setup:
            engine.objects.update(prepared(engine.agent, plan.setup))
        numbers, objects = make_objects(engine.agent, self._values)
        engine.objects.update(objects)
        for program in self._programs:
            for _ in range(plan.machines):
                engine.add(shipped(engine.agent, program.image, plan.fuel, numbers, plan.bpfagent), program)
        if plan.serve:
            self._listen([(number, 0) for number in engine.machines])
        # A service doesn't begin while an object is away, as it may be after a setup.
        is_own = self._service is not None and not plan.serve and not plan.setup
        engine.restart, engine.hasten = self.restart, self._hasten if is_own else None

    @contextlib.contextmanager
    def _killed_at_a_fault(self) -> Iterator[None]:
        """Ends what was started if its block raises."""
        try:
            yield
        except BaseException:
            if self._service:
                self._service.kill()
            raise

    def _listen(self, standing: Sequence[tuple[int, int]]) -> None:
        """Has the workers of the service run the machines that aren't paused. Those that stand at these slots are paused before."""
        engine, service = self.engine, self._service
        assert service
        for number, slot in standing:
            engine.place_temporaries(number, [slot])
        service.listen()
        idle, engine.agent = engine.agent.idle, service.connect(TIMEOUT)
        engine.agent.idle, engine.is_service, engine.has_worker = idle, True, not self.plan.serve or self.plan.workers > 0
        for number, slot in standing:
            # This pauses it at its breakpoint, also if no worker has come to it yet.
            engine.agent.step(number)
            engine.clear_own(number, [slot])

    def _hasten(self) -> None:
        """A machine that is stepped by lines runs in the service's worker from now on."""
        self.engine.hasten, self.engine.is_own = None, True
        found = [self.engine.registers(number) for number, machine in self.engine.machines.items() if machine.goal is None]
        self._listen([(registers.machine, registers.slot) for registers in found if registers.state == RUNNING])

    def close(self, seconds: float = ENDING) -> str:
        """Ends the conversation, and what was started, which may take so long. Machines of a service to which it is attached go on, without
        breakpoints. Says what may stay because the service doesn't answer; empty if nothing does."""
        left = ""
        with contextlib.suppress(Broken, Refused):
            if not self.is_started:
                left = self.engine.leave(LEAVING)
        self._end(seconds)
        return left

    def _end(self, seconds: float) -> None:
        """Ends the conversation, and what was started, which may take so long."""
        self.engine.agent.hurry(seconds)
        with contextlib.suppress(Broken, Refused):
            self.engine.give_up()
        self.engine.agent.patience = seconds
        with contextlib.suppress(Broken):
            self.engine.agent.close()
        service, self._service = self._service, None
        if service:
            with contextlib.suppress(Broken):
                if seconds:
                    service.close(seconds)
                else:
                    service.kill()

    def __enter__(self) -> Session:
        return self

    def __exit__(self, kind: Optional[type[BaseException]], error: Optional[BaseException], trace: Optional[TracebackType]) -> None:
        is_unanswered = isinstance(error, Unanswered)
        if left := self.close(0.0 if is_unanswered else ENDING):
            print(f"bpfagent-debug: {left}", file=sys.stderr)
            # The line says all that the error does.
            if error is None or is_unanswered:
                sys.exit(1)

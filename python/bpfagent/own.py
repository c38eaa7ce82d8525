"""An agent that nobody else uses, for a command that runs a program to its end. It is in this process if the library is there, otherwise in
a service of its own with one worker. Neither writes a line for each instruction. After a setup objects may be far: then a program that
isn't in this process is stepped, and they are brought home as it comes to them."""
from __future__ import annotations

from types import TracebackType
from typing import Callable, Optional, Union

from .agent import SHORT_PAUSE, Agent, PathLike, pauses
from .closing import Closing
from .engine import CHUNK, Engine
from .image import program_path
from .library import library_if_there
from .line_engine import LineEngine
from .replies import RUNNING, Ran, Refused, Registers, Run, Stopped, Waiting
from .service import Service

# Hears how far a machine is, again and again while it runs.
Seen = Callable[[Registers], None]


def fetch(agent: Union[Agent, Engine], number: int) -> None:
    """Brings home an object for which a machine waits, wherever it is on its way."""
    try:
        agent.bring_home(number)
    except Refused as why:
        if why.words[2:] == ["returning"]:
            agent.returned(number)
        elif why.words[2:] == ["leaving"]:
            agent.left(number)
            agent.bring_home(number)
        else:
            raise


class InProcess(Closing):
    """An agent in this process, which is a context manager."""

    def __init__(self) -> None:
        self.agent = LineEngine()

    def go(self, machine: int, seen: Seen) -> Run:
        """Runs a machine to its end."""
        instructions = 0
        while True:
            found = self.agent.run(machine, CHUNK)
            instructions += found.instructions
            if isinstance(found.last, Waiting):
                fetch(self.agent, found.last.object)
            elif not isinstance(found.last, Ran):
                return Run(found.last, instructions)
            seen(self.agent.regs(machine))

    def close(self) -> None:
        """Ends the agent."""
        self.agent.close()


class Stepped:
    """A started `bpfagent run`, which is a context manager."""

    def __init__(self, program: PathLike, timeout: float) -> None:
        """Starts it. `timeout`, in seconds, bounds each reply."""
        self.agent = Agent.run(program, timeout=timeout)

    def go(self, machine: int, seen: Seen) -> Run:
        """Runs a machine to its end."""
        return self.agent.run_until(machine, wait=lambda number: fetch(self.agent, number))

    def __enter__(self) -> Stepped:
        return self

    def __exit__(self, kind: Optional[type[BaseException]], error: Optional[BaseException], trace: Optional[TracebackType]) -> None:
        self.agent.__exit__(kind, error, trace)


class Served:
    """A service with one worker and one client, which is a context manager. Objects and machines are made before a machine first runs."""

    def __init__(self, program: PathLike, timeout: float) -> None:
        """Starts it. `timeout`, in seconds, bounds each reply."""
        self._service, self._timeout = Service(program, "--workers", "1", timeout=timeout, is_heard=True), timeout
        self.agent: Agent = self._service.setup

    def go(self, machine: int, seen: Seen) -> Run:
        """Has the worker run a machine to its end. From the first time on it runs all machines."""
        fuel = self.agent.regs(machine).fuel
        if not self._service.place:
            self._service.listen()
            self.agent = self._service.connect(self._timeout)
        for _ in pauses(first=SHORT_PAUSE):
            registers = self.agent.regs(machine)
            if registers.state != RUNNING:
                break
            seen(registers)
        value = registers.values[0] if registers.state == "exit" else None
        return Run(Stopped(machine, registers.state, value), fuel - registers.fuel - (value is not None))

    def __enter__(self) -> Served:
        self._service.__enter__()
        return self

    def __exit__(self, kind: Optional[type[BaseException]], error: Optional[BaseException], trace: Optional[TracebackType]) -> None:
        self._service.__exit__(kind, error, trace)


Own = Union[InProcess, Stepped, Served]


def opened(program: Optional[str], timeout: float, has_setup: bool = False) -> Own:
    """An agent of one's own; by a program if one is given, or the library isn't there. It takes lines if there is a setup."""
    if program is None and library_if_there():
        return InProcess()
    if has_setup:
        return Stepped(program_path(program), timeout)
    return Served(program_path(program), timeout)

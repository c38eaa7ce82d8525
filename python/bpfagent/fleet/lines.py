"""Jobs by one `bpfagent run`, which is asked by lines: where the library isn't there."""
from __future__ import annotations

import contextlib
import time
from dataclasses import dataclass
from typing import Optional

from ..agent import Agent
from ..limits import MACHINES, OBJECTS
from ..replies import Broken, Ran, Refused, Stopped, step_of
from .jobs import Job, Result, shipped, stopped
from .store import Read

# How many steps are asked for at once: first, and at most, so that neither pipe is ever full.
FIRST, BLOCK = 64, 4096
# The longest reply to a step, and how many seconds a reply may take.
LONGEST, REPLY = 64, 60.0


@dataclass
class Held:
    """An object that the agent has; its version is None from the moment when a program may have written it."""

    number: int
    length: int
    version: Optional[bytes]


class Runner(Agent):
    """An agent that is asked many lines at once: nobody else uses its objects and machines."""

    def run_out(self, machine: int) -> Stopped:
        """The stop of a machine. After it the machine answers each further step in the same way, so there may be too many."""
        line, count = f"step {machine}\n".encode("ascii"), FIRST
        while True:
            last = step_of(self._last(line * count, count))
            if isinstance(last, Stopped):
                return last
            if not isinstance(last, Ran):
                raise self._broken(f"machine {machine} neither ran nor stopped")
            count = min(2 * count, BLOCK)

    def _last(self, lines: bytes, count: int) -> str:
        """Sends so many lines, and gives the last of their replies."""
        try:
            self._stream.send(lines, time.monotonic() + REPLY)
            end = b""
            while count:
                piece = self._stream.receive(time.monotonic() + REPLY)
                if not piece:
                    raise self._broken("the agent ended the conversation")
                count -= piece.count(b"\n")
                end = (end + piece)[-LONGEST:]
        except OSError as error:
            raise self._broken(f"the stream failed: {error.strerror or error}") from None
        return end.split(b"\n")[-2].decode("ascii", "replace")


class ByLines:
    """One agent with the objects that it has. It is replaced when it is used up, or has failed."""

    def __init__(self, program: str) -> None:
        self._program = program
        self._agent: Optional[Runner] = None
        self._held: dict[str, Held] = {}
        self._made = self._shipped = 0

    def execute(self, job: Job, read: Read) -> tuple[Result, dict[str, bytes]]:
        """Runs a program on the objects as they are now, and gives its result and what it may have written."""
        try:
            return self._execute(job, read)
        except Broken:
            self.close()
            raise

    def wrote(self, job: Job, version: bytes) -> None:
        """What the last job may have written has this version now."""
        for key in job.written:
            self._held[key].version = version

    def close(self) -> None:
        """Ends the agent, if there is one."""
        agent, self._agent = self._agent, None
        self._held, self._made, self._shipped = {}, 0, 0
        if agent:
            with contextlib.suppress(Broken):
                agent.close()

    def _ready(self, objects: int) -> Runner:
        """An agent that has room for one more machine and so many objects; a fresh one, if need be."""
        if self._shipped == MACHINES or self._made + objects > OBJECTS:
            self.close()
        if self._agent is None:
            self._agent = Runner.run(self._program, timeout=REPLY)
        return self._agent

    def _execute(self, job: Job, read: Read) -> tuple[Result, dict[str, bytes]]:
        agent = self._ready(len(job.keys))
        numbers = {key: self._bring(agent, key, read) for key in job.keys}
        machine = shipped(agent, job, numbers)
        self._shipped += 1
        for key in job.written:
            self._held[key].version = None
        stop = agent.run_out(machine)
        if stop.value is None:
            raise stopped(agent, machine, job, stop)
        contents = {key: agent.read(numbers[key], self._held[key].length) for key in job.written}
        return Result(stop.value, agent.out(machine)), contents

    def _bring(self, agent: Runner, key: str, read: Read) -> int:
        """The number of an object that is as it is in Redis."""
        held = self._held.get(key)
        version, content = read(key, held.version if held else None)
        if content is not None:
            if held is None or held.length != len(content):
                self._drop(agent, key)
                held = self._held[key] = Held(agent.make(len(content)), len(content), None)
                self._made += 1
            agent.write(held.number, content)
            held.version = version
        assert held is not None
        return held.number

    def _drop(self, agent: Runner, key: str) -> None:
        """Frees an object whose length has changed. One in the scope of a machine that was stopped stays."""
        held = self._held.pop(key, None)
        if held:
            with contextlib.suppress(Refused):
                agent.free(held.number)

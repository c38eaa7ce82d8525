"""What a machine can be told to do: go on, or do an instruction. Steps by source are in `stepping`.

Each is a generator that does a little at a time, and gives a `Stop` at its end. Whatever it set on the machine it clears when it
ends or is closed.
"""
from __future__ import annotations

import time
from dataclasses import replace
from typing import Collection, Iterator, Optional

from ..engine import CHUNK
from ..line_engine import LineEngine
from ..replies import PAUSED, RUNNING, Hit, Paused, Ran, Refused, Registers, Step, Stopped, Waiting, step_of
from .engine import Conversation, Engine, Goal, Machine, Stop
from .expressions import Value
from .frames import CallSite, depth_of

# How many steps are sent at once, and how many instructions are done before others have their turn.
BATCH = 256
ONES = 64
# How long a machine in a service may stand still before it is stepped from here, in seconds.
STILL = 0.02
# How long a machine of a debugger's own service is stepped by lines before its worker takes over, in seconds.
LONG = 0.05


class Runner:
    """Runs one machine."""

    def __init__(self, engine: Engine, machine: Machine) -> None:
        self._engine, self._machine, self._number = engine, machine, machine.number

    @property
    def _agent(self) -> Conversation:
        """The agent, which may become another while the machine runs."""
        return self._engine.agent

    # ---- stops

    def _stop(self, reason: str, slot: int, text: str = "", value: Optional[Value] = None, hidden: Optional[int] = None) -> Stop:
        numbers = tuple(found.number for found in self._engine.breakpoints_at(self._number, slot)) if reason == "breakpoint" else ()
        return Stop(self._number, reason, slot, text, value, numbers, hidden)

    def _ended(self, stopped: Stopped) -> Stop:
        """The program has ended, or gone wrong."""
        slot = self._engine.registers(self._number).slot
        if stopped.why == "exit":
            return self._stop("exit", slot, f"exit {stopped.value or 0:016x}")
        return self._stop("stopped", slot, stopped.why)

    def _at_pause(self, slot: int, is_hit: bool = False) -> Stop:
        """The machine is paused: at a breakpoint, after a write, where a watched frame ends, or by somebody else."""
        numbers, told = self._engine.writes(self._number, is_hit)
        if told:
            return replace(self._stop("watch", slot, told), breakpoints=numbers)
        if self._engine.breakpoints_at(self._number, slot):
            return self._stop("breakpoint", slot)
        return self._stop("end" if self._engine.ends_at(self._number, slot) else "pause", slot)

    def _of_state(self, registers: Registers) -> Optional[Stop]:
        """The stop that the state of a machine in a service is, if it has stopped."""
        if registers.state == RUNNING:
            return None
        if registers.state == PAUSED:
            return self._at_pause(registers.slot)
        return self._ended(Stopped(self._number, registers.state, registers.values[0] if registers.state == "exit" else None))

    # ---- going on

    def _resume(self) -> None:
        """Ends the pause of the machine, if it is paused."""
        try:
            self._agent.resume(self._number)
        except Refused as why:
            if why.word != "notpaused":
                raise

    def to_the_end(self) -> Goal:
        """Until a breakpoint, a write, or the program's end."""
        self._machine.calls.clear()
        yield from self._go_on()

    def _go_on(self, wanted: Collection[int] = ()) -> Goal:
        """Goes on until the machine stands still. At the slots that are wanted it does so whatever a condition says."""
        while True:
            self._resume()
            stop: Optional[Stop] = None
            for stop in self._served() if self._engine.is_service else self._stepped():
                if stop is None:
                    yield None
            if stop is not None and stop.reason == "breakpoint":
                stop = replace(stop, breakpoints=self._engine.reach(self._number, stop.slot))
            # A breakpoint whose condition doesn't hold stops nobody, and neither does the end of another frame.
            if stop is None or stop.slot in wanted or not self._is_passed(stop):
                yield stop
                return
            yield None

    def _is_passed(self, stop: Stop) -> bool:
        """Whether a machine goes on where it has paused."""
        if stop.reason == "end":
            return not self._engine.outlived(self._number, depth_of(self._engine.registers(self._number)))
        return stop.reason == "breakpoint" and not stop.breakpoints

    def _stepped(self) -> Goal:
        """Steps the machine from here. Where each step is a line, workers take over if there are many."""
        since = time.monotonic()
        while True:
            is_near = isinstance(self._agent, LineEngine)
            stop = self._stop_of(self._agent.run(self._number, CHUNK).last) if isinstance(self._agent, LineEngine) else self._first_stop()
            if isinstance(stop, Waiting):
                wrong = self._bring_home(stop.object)
                stop = self._stop("waiting", self._engine.registers(self._number).slot, wrong) if wrong else None
            yield stop
            if stop is not None:
                return
            if not is_near and self._engine.hasten and time.monotonic() - since > LONG:
                self._engine.hasten()
                yield from self._served()
                return

    def _first_stop(self, count: int = BATCH) -> Stop | Waiting | None:
        """Sends so many steps, and gives what the first was that wasn't done."""
        for reply in self._agent.tell_all([f"step {self._number}"] * count):
            stop = self._stop_of(step_of(reply))
            if stop is not None:
                return stop
        return None

    def _stop_of(self, step: Optional[Step]) -> Stop | Waiting | None:
        """What a step was that wasn't done."""
        if isinstance(step, Waiting):
            return step
        if isinstance(step, Stopped):
            return self._ended(step)
        if isinstance(step, (Hit, Paused)):
            return self._at_pause(step.slot, isinstance(step, Hit))
        return None

    def _served(self) -> Goal:
        """Looks how far a service's workers are. A machine that stands still is stepped from here, which shows what it waits for."""
        before, since = None, time.monotonic()
        while True:
            registers = self._engine.registers(self._number)
            stop = self._of_state(registers)
            yield stop
            if stop is not None:
                return
            if (registers.slot, registers.fuel) != before:
                before, since, self._machine.waits_for = (registers.slot, registers.fuel), time.monotonic(), None
            elif time.monotonic() - since > STILL:
                stop = self._pushed()
                if stop is not None:
                    yield stop
                    return

    def _pushed(self) -> Optional[Stop]:
        """Steps a machine that nobody runs, or finds what it waits for. A worker of the debugger's own service runs it, if only late."""
        found = self._first_stop(1 if self._engine.has_worker else BATCH)
        self._machine.waits_for = found.object if isinstance(found, Waiting) else None
        return found if isinstance(found, Stop) else None

    def _bring_home(self, number: int) -> str:
        """Brings an object back for a machine that waits; why it can't be."""
        try:
            place = self._agent.tell(f"left {number}")
            if place == f"place {number} returning":
                self._agent.returned(number)
            else:
                self._agent.bring_home(number, [other for other, _, where in self._engine.all_objects() if where == "here"])
            return ""
        except Refused as why:
            return f"waits for object {number}, which can't be brought back: {why}"

    # ---- one instruction

    def _one(self) -> Step:
        """Does one instruction, and notes calls and returns."""
        program, calls = self._machine.program, self._machine.calls
        before = self._engine.registers(self._number)
        step = self._agent.one(self._number)
        if program and isinstance(step, (Ran, Hit)):
            if before.slot in program.calls:
                depth = depth_of(before)
                if depth == len(calls):
                    calls.append(CallSite(before.slot, before.values))
            elif program.is_exit(before.slot):
                del calls[max(depth_of(before) - 1, 0) :]
        return step

    def _insist(self) -> Iterator[Step | Stop | None]:
        """Does one instruction, also if it has to wait for an object; None while it waits in a service."""
        while True:
            step = self._one()
            if not isinstance(step, Waiting):
                yield step
                return
            self._machine.waits_for = step.object
            if self._engine.is_service:
                yield None
                continue
            wrong = self._bring_home(step.object)
            if wrong:
                yield self._stop("waiting", self._engine.registers(self._number).slot, wrong)
                return

    def instruction(self) -> Goal:
        """One instruction."""
        for step in self._insist():
            if isinstance(step, Stop):
                yield step
            elif step is None:
                yield None
            else:
                yield self._after(step) or self._stop("step", self._engine.registers(self._number).slot)

    def _after(self, step: Step) -> Optional[Stop]:
        """The stop that an instruction was; None if it was done as another."""
        self._machine.waits_for = None
        if isinstance(step, Stopped):
            return self._ended(step)
        if isinstance(step, Hit):
            return self._at_pause(step.slot, is_hit=True)
        return None

    # ---- pausing

    def paused(self) -> Stop:
        """Pauses the machine, and says where it is."""
        registers = self._engine.registers(self._number)
        if registers.state not in (RUNNING, PAUSED):
            return self._of_state(registers) or self._stop("pause", registers.slot)
        if not self._engine.is_service or registers.state == PAUSED:
            return self._stop("pause", registers.slot)
        step = self._agent.one(self._number)
        if isinstance(step, Waiting):
            return self._pause_waiting(step.object)
        if isinstance(step, Stopped):
            return self._ended(step)
        return self._stop("pause", self._engine.registers(self._number).slot)

    def _pause_waiting(self, number: int) -> Stop:
        """A machine that waits is paused by a breakpoint where it is."""
        slot = self._engine.registers(self._number).slot
        self._engine.place_temporaries(self._number, [slot])
        step = self._agent.step(self._number)
        self._engine.clear(self._number, [slot] if not self._engine.breakpoints_at(self._number, slot) else [])
        where = self._engine.registers(self._number).slot
        return self._stop("pause", where, f"waits for object {number}" if isinstance(step, Paused) else "")

"""Steps by source: to the next line, over calls or into them, out of a function, and on to where a loop ends.

A function that clang inlined has a frame like any other. It is entered at its first slot by a step, or passed over with the line that
calls it, as gdb does it.
"""
from __future__ import annotations

from dataclasses import dataclass, replace
from typing import Generator, Optional, Sequence

from ..replies import Registers, Step
from .engine import Goal, Impossible, Stop
from .expressions import Value
from .flow import Flow
from .frames import Frame as FoundFrame
from .frames import depth_of
from .lines import Lines, SourceLine
from .program import Program
from .running import ONES, Runner
from .symbols import Scope, Symbols

Frame = tuple[int, tuple[int, ...]]
Ending = Generator[Optional[Stop], None, Optional[Stop]]
# After so many instructions a step looks whether it is in a loop.
STRAIGHT = 16
# The stops behind which a step doesn't go on.
FINAL = ("exit", "stopped", "watch", "waiting")


@dataclass(frozen=True)
class Here:
    """Where a machine is: how many calls are open, the inlined functions that it has entered, and those that begin here and that it hasn't."""

    slot: int
    depth: int
    entered: tuple[Scope, ...]
    hidden: tuple[Scope, ...]
    line: Optional[SourceLine]

    @property
    def frame(self) -> Frame:
        """The frame, as it is compared with others."""
        return self.depth, tuple(map(id, self.entered))

    @property
    def shown(self) -> Optional[SourceLine]:
        """The line that is shown: that of the code, or that of a call that isn't entered."""
        return self.hidden[0].called_at if self.hidden else self.line

    def is_within(self, frame: Frame) -> bool:
        """Whether it is in a function that is inlined into that of a frame."""
        depth, entered = frame
        return self.depth == depth and len(self.entered) > len(entered) and self.frame[1][: len(entered)] == entered


class Stepper(Runner):
    """Steps one machine by its source."""

    @property
    def _program(self) -> Program:
        program = self._machine.program
        assert program
        return program

    @property
    def _symbols(self) -> Symbols:
        symbols = self._program.symbols
        assert symbols
        return symbols

    @property
    def lines(self) -> Lines:
        """The program's line table."""
        return self._symbols.lines

    @property
    def flow(self) -> Flow:
        """How the program's instructions follow on one another."""
        return self._program.flow

    @property
    def calls(self) -> set[int]:
        """The slots of the program's calls."""
        return set(self._program.calls)

    def is_empty(self, slot: int) -> bool:
        """Whether the code of a line is a jump to the next instruction alone, which clang leaves there without optimization."""
        return self.flow.jumps.get(slot) == slot + 1 and self.lines.line_at(slot) != self.lines.line_at(slot + 1)

    def function_at(self, slot: int) -> Optional[Scope]:
        """The function to which a slot belongs."""
        return self._symbols.function_at(slot)

    def stop_at(self, slot: int, hidden: int, reason: str = "step", text: str = "") -> Stop:
        """A stop before so many functions that begin there."""
        return self._stop(reason, slot, text, None, hidden)

    def _has_symbols(self) -> bool:
        return bool(self._machine.program and self._machine.program.symbols)

    def _begin(self) -> Here:
        """Where the machine stands before it goes on."""
        now = self._engine.registers(self._number)
        copies, hidden = self._symbols.copies_at(now.slot), self._engine.hidden(self._machine, now.slot)
        return self._of(now.slot, depth_of(now), len(copies) - hidden)

    def _of(self, slot: int, depth: int, entered: int) -> Here:
        copies = self._symbols.copies_at(slot)
        return Here(slot, depth, copies[:entered], copies[entered:], self._symbols.lines.line_at(slot))

    def here(self, frame: Frame) -> Here:
        """Where the machine is now, if it comes from a frame."""
        now = self._engine.registers(self._number)
        return self.at(now.slot, depth_of(now), frame)

    def at(self, slot: int, depth: int, frame: Frame) -> Here:
        """Where a machine is at a slot. If it comes from a frame, it doesn't enter the functions of that frame again: a loop may begin there."""
        copies = self._symbols.copies_at(slot)
        entered = len(copies) - self._symbols.beginning(slot)
        while entered < len(copies) and depth == frame[0] and id(copies[entered]) in frame[1]:
            entered += 1
        return self._of(slot, depth, entered)

    # ---- lines

    def line(self, into: bool) -> Goal:
        """To the next line; into the functions that it calls, or over them."""
        if not self._has_symbols():
            yield from self.instruction()
            return
        start = self._begin()
        if into and start.hidden:
            yield self._stop("step", start.slot, hidden=len(start.hidden) - 1)
            return
        yield (yield from self._steps(LineStep(self, start.frame, start.shown, into)))

    def until(self) -> Goal:
        """To the next line that is further on in the function: a loop goes on until it is left."""
        if not self._has_symbols():
            yield from self.instruction()
            return
        start = self._begin()
        function = self._symbols.function_at(start.slot)
        passed = range(function.slot if function else start.slot, self._symbols.lines.end_of(start.slot))
        yield (yield from self._steps(LineStep(self, start.frame, start.shown, False, passed)))

    def until_place(self, slots: Sequence[int]) -> Goal:
        """To one of these slots, in this frame or an outer one, or out of the function."""
        now = self._engine.registers(self._number)
        depth = depth_of(now)
        returns = self._returns(now.slot) if depth and self._has_symbols() else []
        stop = yield from self._until([*slots, *returns], depth)
        yield stop or self._stop("step", self._engine.registers(self._number).slot)

    def _steps(self, step: LineStep) -> Ending:
        """Goes on until a step has done what it is to do, or something else stops the machine."""
        done = 0
        while True:
            stop = yield from (self._over(step) if done < STRAIGHT else self._around(step))
            here = self.here(step.frame)
            if stop is None and (reached := self._engine.reach(self._number, here.slot)):
                stop = replace(self._stop("breakpoint", here.slot), breakpoints=reached)
            stop = stop or step.stop(here)
            if stop is not None:
                return stop
            done += 1
            if done % ONES == 0:
                yield None

    def _over(self, step: LineStep) -> Ending:
        """Does one instruction; if it is a call, goes on to its return, or into the function."""
        depth = depth_of(self._engine.registers(self._number))
        found: Step | Stop | None = None
        for found in self._insist():
            if found is None:
                yield None
        stop = found if isinstance(found, Stop) else self._after(found) if found else None
        now = self._engine.registers(self._number)
        if stop is None and depth_of(now) > depth:
            return (yield from self._in_call(step.into, now, depth))
        return stop

    def _around(self, step: LineStep) -> Ending:
        """Goes through a loop that a step passes at the machine's own speed, if its breakpoints suffice. Otherwise does one instruction."""
        here = self.here(step.frame)
        exits = step.exits(here)
        if exits:
            try:
                return (yield from self._until([*exits, *(self._returns(here.slot) if here.depth else [])], here.depth))
            except Impossible:
                step.has_room = False
        return (yield from self._over(step))

    def _in_call(self, into: bool, now: Registers, depth: int) -> Ending:
        """A function was called: stops in it, or goes on to its return."""
        function = self._symbols.function_at(now.slot)
        if into and function:
            while now.slot != function.body and depth_of(now) > depth:
                stop = self._after(self._one())
                if stop:
                    return stop
                now = self._engine.registers(self._number)
            return self._stop("step", now.slot)
        site = self._machine.calls[-1].slot if self._machine.calls else None
        targets = [self._program.after(site)] if site is not None else self._returns(now.slot)
        return (yield from self._until(targets, depth))

    def _returns(self, slot: int) -> list[int]:
        """The slots to which the function of a slot may return."""
        function = self._symbols.function_at(slot)
        return [self._program.after(site) for site, target in self._program.calls.items() if function and target == function.slot]

    def _until(self, slots: Sequence[int], depth: int) -> Ending:
        """Goes on to one of these slots at this depth. A stop on the way is given back; None if the slot is reached."""
        own = [slot for slot in dict.fromkeys(slots) if not self._engine.keeps(self._number, slot)]
        try:
            self._engine.place_temporaries(self._number, own)
            while True:
                stop = None
                for stop in self._go_on(slots):
                    if stop is None:
                        yield None
                if stop is None or stop.reason in FINAL:
                    return stop
                here = depth_of(self._engine.registers(self._number))
                if stop.slot in slots and here <= depth and not stop.breakpoints:
                    del self._machine.calls[here:]
                    return None
                if stop.slot not in slots or stop.breakpoints:
                    return stop
        finally:
            self._engine.clear_own(self._number, own)

    # ---- out of a function

    def out(self, level: int = 0) -> Goal:
        """Out of the current function, whose result is shown, or of that of an outer frame."""
        if not self._has_symbols():
            yield from self.to_the_end()
            return
        frames, start = self._engine.frames(self._number), self._begin()
        depth = start.depth - sum(not frame.is_inlined for frame in frames[:level])
        if not frames[level].is_inlined:
            yield from self._returned(frames, level, depth) if depth else self.to_the_end()
            return
        if depth < start.depth:
            last = max(k for k in range(level) if not frames[k].is_inlined)
            stop = yield from self._returned(frames, last, depth + 1)
            if stop is None or stop.reason != "finish":
                yield stop
                return
        yield (yield from self._steps(Leaving(self, frames[level].scopes[0], depth)))

    def _returned(self, frames: Sequence[FoundFrame], level: int, depth: int) -> Ending:
        """Goes on until the function of a frame, which is so many calls deep, has returned."""
        frame = frames[level]
        caller = next((outer.slot for outer in frames[level + 1 :]), None)
        targets = [self._program.after(caller)] if caller is not None else self._returns(frame.slot) if frame.slot is not None else []
        if not targets:
            raise Impossible("the call of this frame isn't known, so its return isn't either")
        stop = yield from self._until(targets, depth - 1)
        if stop is None:
            after, value = self._engine.registers(self._number), None
            function = self._symbols.function_at(frame.slot) if frame.slot is not None else None
            if function and function.type and 0 < function.type.size <= 8:
                value = Value(function.type, after.values[0].to_bytes(8, "little")[: function.type.size])
            stop = self._stop("finish", after.slot, f"{function.name if function else 'it'} returned", value)
        yield stop
        return stop


class LineStep:
    """A step to another line: the frame and the line from which it goes, which it takes anew where it comes out of a frame within a line."""

    def __init__(self, stepper: Stepper, frame: Frame, line: Optional[SourceLine], into: bool, passed: range = range(0)) -> None:
        self._stepper, self.frame, self._line, self.into, self._passed = stepper, frame, line, into, passed
        self._slots: dict[tuple[Frame, Optional[SourceLine]], tuple[set[int], list[int]]] = {}
        # Whether the machine has had room for the breakpoints that a loop needs.
        self.has_room = True

    def stop(self, here: Here) -> Optional[Stop]:
        """The stop that the step makes here, if it does."""
        if self._goes_on(here):
            return None
        hidden = len(here.hidden)
        if here.frame == self.frame and here.hidden:
            return self._stepper.stop_at(here.slot, hidden - (self.into and here.hidden[0].called_at == self._line))
        row = self._stepper.lines.row_from(here.slot)
        if here.is_within(self.frame) or row and row.at != self._line and row.is_statement:
            return self._stepper.stop_at(here.slot, hidden)
        self.frame, self._line = here.frame, here.line
        return None

    def _goes_on(self, here: Here) -> bool:
        """Whether the step passes this slot, and is the same behind it."""
        if self._stepper.lines.is_gap(here.slot) or here.depth == self.frame[0] and here.slot in self._passed:
            return True
        if here.frame == self.frame and here.hidden:
            return not self.into and here.hidden[0].called_at == self._line
        if here.frame == self.frame:
            row = self._stepper.lines.row_from(here.slot)
            return here.line == self._line or bool(row and not row.is_statement) or self._stepper.is_empty(here.slot)
        return here.is_within(self.frame) and not self.into

    def exits(self, here: Here) -> list[int]:
        """Where the step comes out of the slots that it passes, if it is before a loop among these, or in it; else none."""
        function = self._stepper.function_at(here.slot)
        if not self.has_room or not function or here.depth != self.frame[0]:
            return []
        flow, now = self._stepper.flow, (self.frame, self._line)
        if now not in self._slots:
            inside = (slot for begin, end in function.ranges for slot in range(begin, end))
            slots = {slot for slot in inside if self._goes_on(self._stepper.at(slot, here.depth, self.frame))}
            slots -= self._stepper.calls if self.into else set()
            self._slots[now] = (slots, flow.heads(slots))
        slots, heads = self._slots[now]
        found = flow.exits(slots)
        is_before = here.slot in slots and any(flow.reaches([here.slot], head, found) for head in heads)
        return found if is_before else []


class Leaving(LineStep):
    """A step out of an inlined function."""

    def __init__(self, stepper: Stepper, scope: Scope, depth: int) -> None:
        super().__init__(stepper, (depth, (id(scope),)), None, False)
        self._scope, self._depth = scope, depth

    def stop(self, here: Here) -> Optional[Stop]:
        """The stop behind the function."""
        return None if self._goes_on(here) else self._stepper.stop_at(here.slot, len(here.hidden), "finish", f"{self._scope.name} returned")

    def _goes_on(self, here: Here) -> bool:
        is_inside = here.depth > self._depth or here.depth == self._depth and any(scope is self._scope for scope in here.entered)
        return is_inside or self._stepper.lines.is_gap(here.slot)

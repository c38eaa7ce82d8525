"""The commands of docs/PROTOCOL.md for one machine: steps, breakpoints, watched ranges, pauses, and what is shown of it."""
from __future__ import annotations

from typing import Any

from interpreter import Machine

BREAKPOINTS, RANGES = 16, 8


class Debugger:
    """A machine that is stepped, until it is paused."""

    def __init__(self, machine: Machine) -> None:
        self.machine = machine
        # The slots where it pauses; address and length of what it pauses after writing.
        self.breakpoints: list[int] = []
        self.ranges: list[tuple[int, int]] = []
        # Whether the next instruction is done although a breakpoint stands there.
        self.is_paused, self.passes = False, False

    def do_step(self) -> str:
        if self.machine.stop is None and self.machine.slot in self.breakpoints and not self.passes:
            self.is_paused = True
        return f"paused {self.machine.number} {self.machine.slot}" if self.is_paused else self.go(False)

    def do_one(self) -> str:
        return self.go(True)

    def go(self, pauses: bool) -> str:
        """Does an instruction, after which the machine pauses if told so or if it wrote what is watched."""
        reply = self.machine.step()
        if self.machine.stop is not None:
            self.is_paused = False
        elif self.machine.has_run():
            is_hit = any(self.touches(address, length) for address, length in self.ranges)
            self.is_paused, self.passes = pauses or is_hit, False
            if is_hit:
                return f"hit {self.machine.number} {self.machine.slot}"
        return reply

    def touches(self, address: int, length: int) -> bool:
        """Whether the last instruction wrote a byte of a range."""
        if self.machine.wrote is None:
            return False
        number, begin, end = self.machine.wrote
        offset = address % (1 << 32)
        return number == address >> 32 and offset < end and begin < offset + length

    def added(self, among: list[Any], one: Any, most: int) -> str:
        """Sets a breakpoint or a range, of which there are at most so many. One that is set stays so."""
        if one not in among and len(among) == most:
            return "full"
        if one not in among:
            among.append(one)
        return "ok"

    def removed(self, among: list[Any], one: Any, otherwise: str) -> str:
        if one not in among:
            return otherwise
        among.remove(one)
        return "ok"

    def do_break(self, slot: int) -> str:
        return self.added(self.breakpoints, slot, BREAKPOINTS) if slot in self.machine.program else "noslot"

    def do_unbreak(self, slot: int) -> str:
        return self.removed(self.breakpoints, slot, "noslot")

    def do_watch(self, address: int, length: int) -> str:
        return self.added(self.ranges, (address, length), RANGES) if address % (1 << 32) + length <= 1 << 32 else "outside"

    def do_unwatch(self, address: int, length: int) -> str:
        return self.removed(self.ranges, (address, length), "nowatch")

    def do_resume(self) -> str:
        if not self.is_paused:
            return "notpaused"
        self.is_paused, self.passes = False, True
        return "ok"

    def do_regs(self) -> str:
        return self.machine.shown(self.is_paused)

    def do_out(self) -> str:
        return f"out {self.machine.number}" + "".join(f" {value:016x}" for value in self.machine.emitted)

    def do_stack(self, offset: int, length: int) -> str:
        return f"bytes {self.machine.stack[offset : offset + length].hex()}" if offset + length <= 4096 else "outside"

    def do_line(self, slot: int) -> str:
        row = self.machine.program.get(slot)
        return f"line {self.machine.number} {slot} {row.line()}" if row else "noslot"

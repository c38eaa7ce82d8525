"""How a program's instructions follow on one another, by its raw code."""
from __future__ import annotations

import struct
from typing import Collection, Iterable

from ..objectfile import SLOT, WIDE

# The classes of jumps on 64 and on 32 bits, and their operations that aren't conditions.
JUMPS, SHORT_JUMPS = 5, 6
ALWAYS, CALL, EXIT = 0, 8, 9


class Flow:
    """Where each instruction goes on in its function: a call behind itself, and a return nowhere."""

    def __init__(self, code: bytes) -> None:
        self._next: dict[int, tuple[int, ...]] = {}
        # The slot to which each jump without a condition leads, and all slots to which any jump leads.
        self.jumps: dict[int, int] = {}
        self.targets: set[int] = set()
        at, end = 0, len(code) // SLOT
        while at < end:
            opcode, _, offset, immediate = struct.unpack_from("<BBhi", code, at * SLOT)
            after = at + (2 if opcode == WIDE else 1)
            self._next[at] = self._following(at, after, opcode, offset, immediate)
            at = after

    def _following(self, at: int, after: int, opcode: int, offset: int, immediate: int) -> tuple[int, ...]:
        kind, operation = opcode & 7, opcode >> 4
        if kind not in (JUMPS, SHORT_JUMPS) or operation == CALL:
            return (after,)
        if operation == EXIT:
            return ()
        target = after + (immediate if operation == ALWAYS and kind == SHORT_JUMPS else offset)
        self.targets.add(target)
        if operation == ALWAYS:
            self.jumps[at] = target
            return (target,)
        return (after, target)

    def after(self, slot: int) -> tuple[int, ...]:
        """The slots at which the program may go on after this one."""
        return self._next.get(slot, ())

    def reaches(self, begins: Iterable[int], slot: int, avoided: Collection[int]) -> bool:
        """Whether a slot can be reached from one of these without passing those that are avoided."""
        rest, seen = list(begins), set(avoided)
        while rest:
            at = rest.pop()
            if at == slot:
                return True
            if at not in seen:
                seen.add(at)
                rest += self.after(at)
        return False

    def heads(self, slots: Collection[int]) -> list[int]:
        """The slots among these at which a loop begins that doesn't leave them."""
        outside = set(self._next).difference(slots)
        found = sorted({to for at in slots for to in self.after(at) if to <= at and to in slots})
        return [at for at in found if self.reaches(self.after(at), at, outside)]

    def exits(self, slots: Collection[int]) -> list[int]:
        """The slots behind these at which the program goes on when it leaves them."""
        return sorted({after for at in slots for after in self.after(at) if after not in slots})

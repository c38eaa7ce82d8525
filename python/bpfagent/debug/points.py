"""Breakpoints and watched values: when they stop a machine, and which bytes an instruction has written."""
from __future__ import annotations

import re
from dataclasses import dataclass
from typing import Optional

from ..agent import STACK
from ..limits import WORD
from ..replies import Registers
from .expressions import Invalid
from .frames import CALL, TOP
from .program import Place, Program
from .types import Type

# When a breakpoint's hits stop a machine: at one of them, or by a comparison or a divisor of their number.
HITS = re.compile(r"(==|=|>=|>|<=|<|%)?\s*([0-9]{1,9})")
# The instructions that write to memory, with the size of each, and their operands.
WRITES = re.compile(r"(?:stx?(?P<size>b|h|w|dw)|(?P<atomic>a[a-z]+?)(?P<short>32)?) \[r(?P<base>\d+)(?P<offset>[+-]\d+)?\](?:, r(?P<source>\d+))?")
SIZES = {"b": 1, "h": 2, "w": 4, "dw": 8}
# A message of a log point: text, with expressions in braces.
BRACED = re.compile(r"\{([^{}]*)\}")


@dataclass(frozen=True)
class Terms:
    """When a breakpoint stops a machine: if the condition holds, and its hits are so many. One that logs a message stops none."""

    condition: str = ""
    hits: str = ""
    log: str = ""
    is_temporary: bool = False


@dataclass
class Breakpoint:
    """A breakpoint by source, on all machines that run its program. At the slots that are left the agent had no room for it."""

    number: int
    text: str
    program: Program
    place: Place
    terms: Terms = Terms()
    hits: int = 0
    left: tuple[int, ...] = ()

    @property
    def lack(self) -> str:
        """Where it isn't set though it should be; empty if there is no such place."""
        return f"not set at slot{'s' if len(self.left) > 1 else ''} {', '.join(map(str, self.left))}: a machine has 16 breakpoints" if self.left else ""

    def __str__(self) -> str:
        at = f"{self.place.at}, " if self.place.at else ""
        slots = ", ".join(map(str, self.place.slots))
        parts = [f"{at}slot{'s' if len(self.place.slots) > 1 else ''} {slots}", f"if {self.terms.condition}" if self.terms.condition else "", self.lack]
        return ", ".join(part for part in parts if part)

    def counts(self) -> bool:
        """Whether the number of hits so far is one that stops a machine."""
        found = HITS.fullmatch(self.terms.hits)
        if not found:
            return True
        sign, number = found[1] or "==", int(found[2])
        if sign == "%":
            return number > 0 and self.hits % number == 0
        return {"==": self.hits == number, ">=": self.hits >= number, ">": self.hits > number, "<=": self.hits <= number, "<": self.hits < number}[
            sign if sign != "=" else "=="
        ]


def checked_hits(text: str) -> str:
    """When hits stop a machine, or `Invalid`."""
    if text and not HITS.fullmatch(text):
        raise Invalid(f"`{text}` is no number of hits: 5, >= 5 and % 5 are some")
    return text


@dataclass
class Watch:
    """A watched value of one machine, with its bytes when it was seen last. One on the stack goes when its frame does: its call is so deep, and
    returns to one of the slots `ends`."""

    number: int
    machine: int
    text: str
    address: int
    type: Type
    last: bytes
    ends: tuple[int, ...] = ()

    @property
    def length(self) -> int:
        """How many bytes are watched."""
        return self.type.size

    @property
    def depth(self) -> int:
        """How many calls are open in the frame that has it; -1 if it is in an object."""
        return (TOP - 1 - self.address) // CALL if self.address >> 32 == STACK else -1

    def meets(self, address: int, length: int) -> bool:
        """Whether it has one of these bytes."""
        return self.address < address + length and address < self.address + self.length


def written(instruction: str, after: Registers) -> Optional[tuple[int, int]]:
    """Where an instruction has written, and how many bytes, by the registers behind it; None if it writes nothing, or that can't be told."""
    found = WRITES.match(instruction)
    if not found:
        return None
    if found["atomic"] and found["base"] in ((found["source"],) if found["atomic"].startswith(("af", "axchg")) else ("0",)):
        return None
    size = SIZES[found["size"]] if found["size"] else 4 if found["short"] else 8
    return (after.values[int(found["base"])] + int(found["offset"] or 0)) & WORD, size

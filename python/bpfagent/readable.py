"""What a reply means, as further lines below it: numbers in decimal, code as assembly, and why a line is bad."""
from __future__ import annotations

import contextlib
import re
from typing import Callable, Iterator, Protocol, Sequence

from .accesses import access_text, place_text
from .agent import STACK
from .limits import OBJECTS
from .numerals import as_text, decimal, signed
from .protocol import BYTES, page, why_bad
from .replies import EMITTED, REGISTERS, SHOWN, Registers
from .stops import stop_kind

INDENT = "  "
# The bytes of a row, and the most rows that are shown.
ROW, ROWS = 8, 32
# The word of `ship` and `ship2` that is the code.
CODE = 7


class Talker(Protocol):
    """An agent that takes lines."""

    def tell(self, line: str) -> str:
        """Sends a line, and gives its reply."""

    def tell_all(self, lines: Sequence[str]) -> list[str]:
        """Sends lines, and gives their replies in order."""


def remarks(agent: Talker, line: str, reply: str) -> list[str]:
    """What stands below a reply. Where it needs code or registers, the agent is asked."""
    if not reply:
        return []
    first, *words = reply.split(" ")
    with contextlib.suppress(ValueError, IndexError):
        return [f"{INDENT}{text}" for text in REMARKS.get(first, nothing)(agent, line, words)]
    return []


Remark = Callable[[Talker, str, Sequence[str]], Iterator[str]]


def nothing(agent: Talker, line: str, words: Sequence[str]) -> Iterator[str]:
    """A reply that speaks for itself."""
    yield from ()


def on_bad(agent: Talker, line: str, words: Sequence[str]) -> Iterator[str]:
    """Which word is wrong, and what would fit."""
    with contextlib.suppress(OSError):
        yield from filter(None, [why_bad(line)])


def on_bytes(agent: Talker, line: str, words: Sequence[str]) -> Iterator[str]:
    """Bytes as numbers, whose lowest byte is the first, and as text."""
    content = bytes.fromhex(words[0])
    if len(content) <= ROW:
        yield number_text(content) + as_text(content)
        return
    for at in range(0, min(len(content), ROW * ROWS), ROW):
        row = content[at : at + ROW]
        yield f"+{at:<5} {row.hex():16} {number_text(row)}{as_text(row)}"
    if len(content) > ROW * ROWS:
        yield f".. of {len(content)} bytes"


def number_text(content: bytes) -> str:
    """A number of up to eight bytes in decimal: without a sign and, if it differs, with one."""
    number = int.from_bytes(content, "little")
    with_sign = int.from_bytes(content, "little", signed=True)
    return f"= {number}" + (f" = {with_sign}" if with_sign != number else "")


def on_stopped(agent: Talker, line: str, words: Sequence[str]) -> Iterator[str]:
    """The result in decimal, or where the machine stands, and what it was about to do."""
    machine, why = words[0], words[1]
    if why == "exit":
        yield decimal(int(words[2], 16))
        return
    registers = registers_of(agent.tell(f"regs {machine}"))
    text = instruction_at(agent, machine, registers.slot)
    yield f"at slot {registers.slot}: {text}"
    kind = stop_kind(why)
    access = access_text(text, registers, None) if kind.is_access else ""
    yield from filter(None, (access, kind.hint.partition(":")[0]))


def on_slot(agent: Talker, line: str, words: Sequence[str]) -> Iterator[str]:
    """The next instruction."""
    yield f"{words[1]}: {instruction_at(agent, words[0], int(words[1]))}"


def on_shipped(agent: Talker, line: str, words: Sequence[str]) -> Iterator[str]:
    """The code as assembly."""
    slots = len(line.split(" ")[CODE]) // 16
    asked = agent.tell_all([f"line {words[0]} {slot}" for slot in range(min(slots, ROWS))])
    for slot, reply in enumerate(asked):
        if text := SHOWN.read(reply):
            yield f"{slot}: {text}"
    if slots > ROWS:
        yield f".. of {slots} slots"


def on_refused(agent: Talker, line: str, words: Sequence[str]) -> Iterator[str]:
    """The slot's bytes, and what the page says of the reason."""
    code = line.split(" ")[CODE]
    if BYTES.fullmatch(code):
        yield f"slot {words[0]}: {code[16 * int(words[0]) :][:16]}"
    with contextlib.suppress(OSError):
        if found := re.search(rf"^\| `{words[1]}` \| [0-9]+ \| (.*) \|$", page(), re.M):
            yield found[1]


def on_registers(agent: Talker, line: str, words: Sequence[str]) -> Iterator[str]:
    """A row for each register: in hex, in decimal and, if it may be an address, as a place."""
    found = registers_of(" ".join(["regs", *words]))
    yield f"at slot {found.slot}: {instruction_at(agent, words[0], found.slot)}"
    for number, value in enumerate(found.values):
        place = place_text(value) if 1 <= value >> 32 <= OBJECTS or value >> 32 == STACK else ""
        yield f"r{number:<3} {value:016x}  {signed(value)}{place and f', {place}'}"


def on_emitted(agent: Talker, line: str, words: Sequence[str]) -> Iterator[str]:
    """A row for each value."""
    for value in EMITTED.read(" ".join(["out", *words])) or ():
        yield f"{value:016x} {decimal(value)}"


def registers_of(reply: str) -> Registers:
    """The registers that a reply has."""
    found = REGISTERS.read(reply)
    if not found:
        raise ValueError(reply)
    return found


def instruction_at(agent: Talker, machine: str, slot: int) -> str:
    """The instruction at a slot as assembly."""
    return SHOWN.read(agent.tell(f"line {machine} {slot}")) or "no instruction begins there"


REMARKS: dict[str, Remark] = {
    "bad": on_bad,
    "bytes": on_bytes,
    "stopped": on_stopped,
    "ran": on_slot,
    "hit": on_slot,
    "paused": on_slot,
    "shipped": on_shipped,
    "refused": on_refused,
    "regs": on_registers,
    "out": on_emitted,
}

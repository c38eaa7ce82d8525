"""Says in words which memory an instruction was about to reach."""
from __future__ import annotations

import re
from typing import Mapping, Optional

from .agent import STACK
from .limits import STACK_SIZE, WORD
from .replies import Registers

# The memory operand of an instruction in assembly.
OPERAND = re.compile(r"\[r(\d+)([+-]\d+)?\]")


def place_text(address: int) -> str:
    """An address as a person reads it: an object or the stack, and an offset."""
    number, offset = address >> 32, address & 0xFFFF_FFFF
    if number == STACK:
        return f"stack+{offset}"
    return f"object {number}+{offset}" if offset else f"object {number}"


def access_text(instruction: str, registers: Registers, lengths: Optional[Mapping[int, int]]) -> str:
    """Where an instruction reaches, and how long the object there is, if the lengths are known; empty if it reaches no memory."""
    found = OPERAND.search(instruction)
    if not found:
        return ""
    address = (registers.values[int(found[1])] + int(found[2] or 0)) & WORD
    number = address >> 32
    if number == STACK:
        return f"[r{found[1]}{found[2] or ''}] is {place_text(address)}, and the stack has {STACK_SIZE} bytes"
    if number == 0:
        return f"[r{found[1]}{found[2] or ''}] is 0x{address:x}, which is in no object"
    if lengths is None:
        return f"[r{found[1]}{found[2] or ''}] is {place_text(address)}"
    held = f"object {number} has {lengths[number]} bytes" if number in lengths else f"there is no object {number}"
    return f"[r{found[1]}{found[2] or ''}] is {place_text(address)}, and {held}"

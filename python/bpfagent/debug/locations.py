"""Evaluates DWARF's operations: where a variable is, given the registers of its frame."""
from __future__ import annotations

import re
from typing import Any, Callable, Optional, Sequence

from ..limits import WORD
from .symbols import FRAME, Location, Nowhere

# Operations on the two topmost values, and on the topmost one.
BINARY: dict[str, Callable[[int, int], int]] = {
    "DW_OP_plus": lambda a, b: a + b,
    "DW_OP_minus": lambda a, b: a - b,
    "DW_OP_mul": lambda a, b: a * b,
    "DW_OP_and": lambda a, b: a & b,
    "DW_OP_or": lambda a, b: a | b,
    "DW_OP_xor": lambda a, b: a ^ b,
    "DW_OP_shl": lambda a, b: a << min(b, 64),
    "DW_OP_shr": lambda a, b: a >> b,
    "DW_OP_shra": lambda a, b: signed(a) >> min(b, 64),
}
UNARY: dict[str, Callable[[int], int]] = {"DW_OP_neg": lambda a: -a, "DW_OP_not": lambda a: ~a}
CONSTANTS = re.compile(r"DW_OP_(?:const[1248u][us]?|consts|addr)")


def signed(value: int) -> int:
    """A word as a signed number."""
    return value - (1 << 64) if value >> 63 else value


class Evaluator:
    """Finds variables of one frame. `registers` are its registers, None where the protocol doesn't show one."""

    def __init__(self, registers: Sequence[Optional[int]], frame_size: int) -> None:
        self._registers, self._frame_size = registers, frame_size

    def register(self, number: int) -> int:
        """The value of a register."""
        value = self._registers[number] if number < len(self._registers) else None
        if value is None:
            raise Nowhere(f"in R{number}, which the protocol doesn't show of an outer frame")
        return value

    def pieces(self, operations: Sequence[Any]) -> list[tuple[Location, int]]:
        """The parts of a variable with their sizes in bytes; of size 0 if it is one."""
        found: list[tuple[Location, int]] = []
        part: list[Any] = []
        for operation in operations:
            if operation.op_name == "DW_OP_piece":
                found.append((self.locate(part), operation.args[0]))
                part = []
            else:
                part.append(operation)
        return found or [(self.locate(part), 0)]

    def locate(self, operations: Sequence[Any]) -> Location:
        """Where a variable is, or a part of it."""
        if not operations:
            raise Nowhere("optimized out")
        stack: list[int] = []
        for operation in operations:
            name, arguments = operation.op_name, operation.args
            if name == "value":
                return Location(value=arguments[0] & WORD)
            if found := re.fullmatch(r"DW_OP_reg(\d+)", name):
                self.register(int(found[1]))
                return Location(register=int(found[1]))
            if name == "DW_OP_stack_value":
                return Location(value=stack[-1])
            self._apply(name, arguments, stack)
        return Location(address=stack[-1])

    def _apply(self, name: str, arguments: Sequence[Any], stack: list[int]) -> None:
        """Does one operation on the stack of values."""
        if found := re.fullmatch(r"DW_OP_lit(\d+)", name):
            stack.append(int(found[1]))
        elif CONSTANTS.fullmatch(name):
            stack.append(arguments[0] & WORD)
        elif name == "DW_OP_fbreg":
            stack.append(self.register(FRAME) - self._frame_size + arguments[0] & WORD)
        elif found := re.fullmatch(r"DW_OP_breg(\d+)", name):
            stack.append(self.register(int(found[1])) + arguments[0] & WORD)
        elif name == "DW_OP_plus_uconst":
            stack.append(stack.pop() + arguments[0] & WORD)
        elif name in BINARY:
            second, first = stack.pop(), stack.pop()
            stack.append(BINARY[name](first, second) & WORD)
        elif name in UNARY:
            stack.append(UNARY[name](stack.pop()) & WORD)
        elif name == "DW_OP_dup":
            stack.append(stack[-1])
        else:
            raise Nowhere(f"found by {name}, which isn't supported")

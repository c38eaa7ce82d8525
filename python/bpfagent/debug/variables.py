"""Values as an editor shows them: a tree of variables, whose inner ones are asked for by a reference."""
from __future__ import annotations

import re
from dataclasses import dataclass
from typing import Any, Callable, Iterable, Optional

from ..agent import STACK
from .expressions import Invalid, Value
from .types import ARRAY, POINTER, VOID, member_bytes

# A name, a value, and the expression that has this value; empty if there is none.
Child = tuple[str, Value, str]
Children = Callable[[], Iterable[Child]]
Read = Callable[[int, int], bytes]
# An expression behind which an index or a member can follow as it is.
POSTFIX = re.compile(r"\$?[A-Za-z_][\w.\[\]]*(?:->[\w.\[\]]+)*")


def reference_of(machine: int, address: int) -> str:
    """An address for the editor. That of a stack has its machine before it, for each machine has its own."""
    return f"{machine}:0x{address:x}" if address >> 32 == STACK else f"0x{address:x}"


@dataclass(frozen=True)
class Held:
    """What a reference stands for: variables of a machine. An array has so many elements, each by its index."""

    machine: int
    children: Children
    read: Read
    element: Optional[Callable[[int], Child]] = None
    count: int = 0


class Tree:
    """The variables that an editor may ask for, until a machine goes on."""

    def __init__(self) -> None:
        self._held: dict[int, Held] = {}
        self._last = 0

    def clear(self, machine: Optional[int] = None) -> None:
        """Forgets the references of a machine that goes on, or all."""
        self._held = {} if machine is None else {number: held for number, held in self._held.items() if held.machine != machine}
        self._last = max(self._held, default=0)

    def add(self, machine: int, children: Children, read: Read) -> int:
        """A reference to these variables of a machine."""
        return self._add(Held(machine, children, read))

    def _add(self, held: Held) -> int:
        self._last += 1
        self._held[self._last] = held
        return self._last

    def list(self, number: int, kind: str = "", start: int = 0, count: int = 0) -> list[dict[str, Any]]:
        """The variables of a reference: all, or those of a kind, so many from one on."""
        held = self._held.get(number)
        if held is None or (kind == "named" and held.element) or (kind == "indexed" and not held.element):
            return []
        if held.element:
            found: Iterable[Child] = (held.element(k) for k in range(start, held.count)[: count or None])
        else:
            found = list(held.children())[start:][: count or None]
        return [self.shown(held.machine, child, held.read) for child in found]

    def expression(self, number: int, name: str) -> str:
        """The expression of a variable of a reference; empty if there is none."""
        held = self._held.get(number)
        if held is None:
            return ""
        if held.element:
            index = re.fullmatch(r"\[([0-9]{1,9})\]", name)
            return held.element(int(index[1]))[2] if index and int(index[1]) < held.count else ""
        return next((expression for found, _, expression in held.children() if found == name), "")

    def shown(self, machine: int, child: Child, read: Read) -> dict[str, Any]:
        """A variable, as the protocol has it."""
        name, value, expression = child
        made: dict[str, Any] = {"name": name, "value": str(value), "type": str(value.type), "variablesReference": 0}
        held = held_of(machine, value, expression, read)
        if held:
            made["variablesReference"] = self._add(held)
            if held.element:
                made["indexedVariables"] = held.count
            elif value.type.is_record:
                made["namedVariables"] = len(value.type.bare.members)
        if expression:
            made["evaluateName"] = expression
        address = value.number if value.type.bare.kind == POINTER and value.content is not None else value.address
        if address is not None and address >> 32:
            made["memoryReference"] = reference_of(machine, address)
        return made


def held_of(machine: int, value: Value, expression: str, read: Read) -> Optional[Held]:
    """What is within a value: members, elements, or what a pointer points to."""
    bare = value.type.bare
    if value.content is None:
        return None
    content, outer = value.content, bracketed(expression)
    if value.type.is_record:
        is_pointed = POSTFIX.fullmatch(expression[1:]) and expression.startswith("*")
        return Held(machine, lambda: members_of(value, content, f"{expression[1:]}->" if is_pointed else outer and f"{outer}."), read)
    if bare.kind == ARRAY and bare.target and bare.target.size:
        element, size, is_named = bare.target, bare.target.size, bool(outer) and value.address is not None

        def element_at(k: int) -> Child:
            part = Value(element, content[k * size : (k + 1) * size], moved(value, k * size))
            return f"[{k}]", part, f"{outer}[{k}]" if is_named else ""

        return Held(machine, lambda: [element_at(k) for k in range(bare.count)], read, element_at, bare.count)
    if bare.kind == POINTER and bare.target and bare.target.bare.kind != VOID and bare.target.size and value.number >> 32:
        return Held(machine, lambda: [pointed(value, f"*{outer}" if outer else "", read)], read)
    return None


def bracketed(expression: str) -> str:
    """An expression that an operator may follow on."""
    return expression if POSTFIX.fullmatch(expression) or not expression else f"({expression})"


def members_of(value: Value, content: bytes, before: str) -> Iterable[Child]:
    """The members of a struct or a union, each behind what its name follows on. Those of one that has no name are called as the outer one's."""
    for member in value.type.bare.members:
        part = Value(member.type, member_bytes(member, content), moved(value, member.offset), is_part=bool(member.bits))
        if member.name:
            yield member.name, part, f"{before}{member.name}" if before else ""
        elif member.type.is_record:
            yield from members_of(part, part.bytes, before)


def pointed(value: Value, expression: str, read: Read) -> Child:
    """What a pointer points to, or why that can't be read."""
    target = value.type.bare.target
    assert target
    try:
        return "*", Value(target, read(value.number, target.size), value.number), expression
    except Invalid as why:
        return "*", Value(target, why=str(why)), expression


def moved(value: Value, offset: int) -> Optional[int]:
    """The address of a part of a value."""
    return None if value.address is None else value.address + offset

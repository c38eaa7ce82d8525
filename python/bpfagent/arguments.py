"""Tests what a caller gives to a call, before anything is sent: `TypeError` or `ValueError` say in words what would fit."""
from __future__ import annotations

import operator
from typing import Mapping, Sequence, SupportsIndex, Union

from .limits import ARGUMENTS, GRANTS, LINE, LONGEST, MACHINES, OBJECTS, PIECE, SLOTS, STACK_SIZE, WORD

Bytes = Union[bytes, bytearray, memoryview]
# The words of `grants`.
RIGHTS = ("r", "w")


def kind_of(value: object) -> str:
    """What a value is, as a person reads it."""
    return "None" if value is None else f"a value of type {type(value).__name__}"


def within(number: SupportsIndex, most: int, least: int = 0, what: str = "a number") -> int:
    """A whole number in this range."""
    try:
        found = operator.index(number)
    except TypeError:
        raise TypeError(f"{what} is a whole number, and not {kind_of(number)}") from None
    if not least <= found <= most:
        raise ValueError(f"{what} is from {least} to {most}, and not {found}")
    return found


def of_object(number: int) -> int:
    """The number of an object that there may be."""
    return within(number, OBJECTS, 1, "an object's number")


def of_machine(number: int) -> int:
    """The number of a machine that there may be."""
    return within(number, MACHINES, 1, "a machine's number")


def of_slot(slot: int) -> int:
    """A slot that code may have."""
    return within(slot, SLOTS - 1, 0, "a slot")


def of_length(length: int, most: int = LONGEST) -> int:
    """How many bytes an object may have, or a part of it."""
    return within(length, most, 1, "a length")


def of_offset(offset: int) -> int:
    """Where bytes of an object may begin."""
    return within(offset, LONGEST - 1, 0, "an offset")


def of_stack(offset: int, length: int) -> tuple[int, int]:
    """Bytes that may be shown of a stack."""
    return within(offset, STACK_SIZE - 1, 0, "an offset in the stack"), of_length(length, STACK_SIZE)


def of_range(begin: int, length: int) -> tuple[int, int]:
    """Bytes that may be watched."""
    return within(begin, WORD, 0, "an address"), of_length(length, PIECE)


def of_bytes(content: Bytes) -> Bytes:
    """Bytes that a caller gives. A text is none: it has no bytes before it is encoded."""
    if not isinstance(content, (bytes, bytearray)):
        try:
            memoryview(content)
        except TypeError:
            advice = ": encode it first" if isinstance(content, str) else ""
            raise TypeError(f"the content is bytes, and not {kind_of(content)}{advice}") from None
    return content


def size_of(content: Bytes) -> int:
    """How many bytes there are."""
    return len(content) if isinstance(content, (bytes, bytearray)) else memoryview(content).nbytes


def of_piece(content: Bytes, most: int = PIECE) -> int:
    """The size of bytes that one `put` writes."""
    size = size_of(of_bytes(content))
    if not 1 <= size <= most:
        raise ValueError(f"one put takes 1 to {most} bytes, and not {size}")
    return size


def of_start(fuel: int, arguments: Sequence[int]) -> list[int]:
    """The fuel of a machine, and the numbers that R1 to R5 begin with."""
    if len(arguments) > ARGUMENTS:
        raise ValueError(f"a program takes {ARGUMENTS} arguments, and not {len(arguments)}")
    begins = [within(number, WORD, 0, f"argument {place}") for place, number in enumerate(arguments, 1)]
    return [within(fuel, WORD, 0, "the fuel"), *begins, *[0] * (ARGUMENTS - len(arguments))]


def of_grants(grants: Mapping[int, str]) -> list[str]:
    """The words of these grants, by rising numbers."""
    if not isinstance(grants, Mapping):
        raise TypeError(f"grants are a mapping of objects' numbers to 'r' or 'w', and not {kind_of(grants)}")
    if len(grants) > GRANTS:
        raise ValueError(f"a machine has up to {GRANTS} grants, and not {len(grants)}")
    for right in grants.values():
        if right not in RIGHTS:
            raise ValueError(f"a grant is 'r' or 'w', and not {right!r}")
    return [f"{grants[number]}{number}" for number in sorted(map(of_object, grants))]


def of_code(code: Bytes, command: str, start: Sequence[int], words: Sequence[str] = ()) -> Bytes:
    """Code that a line of this command can ship."""
    size = size_of(of_bytes(code))
    if not size:
        raise ValueError("a program has at least one instruction, and this code is empty")
    length = len(command) + sum(len(str(word)) + 1 for word in (*start, *words)) + 1 + 2 * size
    if length > LINE:
        raise ValueError(f"code of {size} bytes makes a line of {length}, and a line has up to {LINE}: a program has up to {SLOTS} slots")
    return code


def ship_line(command: str, code: Bytes, start: Sequence[int], words: Sequence[str] = ()) -> str:
    """The line that ships code. One that is too long is never sent."""
    return " ".join([command, *map(str, start), of_code(code, command, start, words).hex(), *words])

"""Machines that walk over objects without end, each of which holds its own number."""
from __future__ import annotations

from lib.checks import want_equal
from lib.programs import ended

WORD, FUEL = 8, 1 << 60
# Walks over r2 objects, the first of which is number r1, from the r3rd on. Exits if one doesn't begin with its number.
WALK = """mov r6, r3
next: mov r7, r6
add r7, r1
mov r8, r7
lsh r8, 32
ldxdw r9, [r8]
jne r9, r7, wrong
add r6, 1
jlt r6, r2, next
mov r6, 0
ja next
wrong: mov r0, r7
exit
"""


def content(number: int, length: int) -> bytes:
    """What object NUMBER holds: its number, again and again."""
    return number.to_bytes(WORD, "little") * (length // WORD)


def code_of(program: str, text: str) -> str:
    """The code of a text of assembly, in hex."""
    status, code, errors = ended(program, "asm", given=text.encode())
    want_equal((status, errors), (0, b""), "assembly")
    return code.hex()


def ships(program: str, machines: int, objects: int) -> list[str]:
    """The lines that ship machines over objects 1 to OBJECTS. Each begins at another object."""
    code = code_of(program, WALK)
    return [f"ship {FUEL} 1 {objects} {objects // machines * number} 0 0 {code}" for number in range(machines)]

#!/usr/bin/env python3
"""The interpreters in C beside which a run is measured: yardsticks.py

Each form of bench/flat.c whose compiler is installed, compiled with all warnings as errors. All make the same of the programs that are measured, run at
once and in portions of fuel. Each does every row of RFC 9669, the stops too, as the interpreter of tests/reference does it.
"""
from __future__ import annotations

import pathlib
import random
import sys
import tempfile
from typing import Iterator

ROOT = pathlib.Path(__file__).resolve().parents[2]
sys.path[:0] = [str(ROOT / "tests"), str(ROOT / "tests/reference"), str(ROOT / "bench")]
from forms import OTHERS, SWITCH, differing, results
from instructions import CLASS_JMP, EXIT, LDDW, ROWS, USED, Row, load
from interpreter import MASK64, Machine, Object
from lib.checks import run_parts, want, want_equal

# What bench/forms.c gives a program: its fuel, and the bytes of object 1, whose address is R1.
FUEL, OBJECT_BYTES, ADDRESS = 400_000, 65_536, 1 << 32
STOPS = ["exit", "outside", "misaligned", "depth", "spent"]
VALUES = [0, 1, 7, 0x7F, 0x80, 0xFFFF, 0x7FFFFFFF, 0x80000000, 0xFFFFFFFF, 1 << 63, (1 << 63) - 1, MASK64]
# How often each instruction is tried, and the offsets of accesses.
TIMES = 3
OFFSETS = [0, 8, 16, 3, -4, 32760]
END = bytes([EXIT << 4 | CLASS_JMP, *bytes(7)])


def slot(opcode: int, dst: int = 0, src: int = 0, offset: int = 0, imm: int = 0) -> bytes:
    return bytes([opcode, src << 4 | dst]) + offset.to_bytes(2, "little", signed=True) + imm.to_bytes(4, "little", signed=True)


def wide(register: int, value: int) -> bytes:
    """`lddw`."""
    low, high = (int.from_bytes((value >> shift & 0xFFFFFFFF).to_bytes(4, "little"), "little", signed=True) for shift in (0, 32))
    return slot(LDDW, register, imm=low) + slot(0, imm=high)


def instructions(opcode: int, row: Row, rng: random.Random) -> Iterator[bytes]:
    """Each instruction of an opcode, once. R1 is the base of an access; R3, R4 and R0 are the other operands."""
    is_load, is_access = row.kind == "load", row.kind in ("load", "store", "atomic")
    dst = 1 if is_access and not is_load else 3 if USED == row.dst else 0
    src = 1 if is_load or row.kind == "call" else rng.choice([3, 4]) if USED == row.src else 0
    leads = row.kind in ("condition", "ja")
    for offset in row.offset if isinstance(row.offset, dict) else [int(leads and len(row.offset) > 1)]:
        for imm in row.imm if isinstance(row.imm, dict) else [int(row.kind in ("ja", "call") and len(row.imm) > 1)]:
            if not isinstance(row.imm, dict) and len(row.imm) > 1 and row.kind not in ("ja", "call"):
                imm = rng.choice([1, -1]) * (rng.choice(VALUES) % (1 << 31))
            yield slot(opcode, dst, src, rng.choice(OFFSETS) if is_access else offset, imm) + (slot(0, imm=5) if opcode == LDDW else b"")


def codes() -> Iterator[bytes]:
    """A program for each instruction: registers and eight words of the object first, then it, two slots that show a jump, and the end."""
    rng = random.Random(1)
    for _ in range(TIMES):
        for opcode, row in ROWS.items():
            for one in instructions(opcode, row, rng):
                values = {register: rng.choice([*VALUES, rng.getrandbits(64)]) for register in (0, 3, 4, 6)}
                begin = b"".join(wide(register, value) for register, value in values.items())
                begin += b"".join(wide(5, rng.getrandbits(64)) + slot(0x7B, 1, 5, 8 * k) for k in range(8))
                # a compare-exchange that may write
                begin += slot(0x79, 0, 1, 8) * rng.randrange(2) + wide(1, ADDRESS + OBJECT_BYTES - 8) * (rng.randrange(4) == 0)
                yield begin + one + slot(0xB7, 7, imm=1) + slot(0xB7, 8, imm=2) + END
    # calls that go too deep, and one that returns
    yield slot(0x85, src=1, imm=-1) + END
    yield slot(0x85, src=1, imm=1) + END + slot(0xB7, 6, imm=9) + END
    # the stack's two ends, and numbers that no object has
    for base, offset in ((10, -4096), (10, -4097), (10, -8), (10, -7), (2, 0)):
        yield slot(0x7A, base, offset=offset, imm=-3) + slot(0x79, 0, base, offset) + END
    for number in (0, 2, 1024, 1025, 0x7FFFFFFF, 0xFFFFFFFE):
        yield wide(2, number << 32) + slot(0x71, 0, 2) + END


def expected(code: bytes) -> str:
    """The line of bench/forms.c without the name, by the reference."""
    machine = Machine(1, load(code), FUEL, [ADDRESS, 0, 0, 0, 0], {1: Object(OBJECT_BYTES)})
    while machine.stop is None:
        machine.step()
    digest = 1
    for memory in (machine.objects[1].body, machine.stack):
        for place, byte in enumerate(memory):
            if byte:
                digest = (digest ^ (place << 8 | byte)) * 0x100000001B3 & MASK64
    begin = [STOPS.index(machine.stop), FUEL - machine.fuel, machine.slot, len(machine.frames)]
    return " ".join([*map(str, begin), *(f"{value:x}" for value in machine.registers), f"{digest:x}"])


def forms() -> list[tuple[str, list[str]]]:
    """Each form that can be compiled, with its command."""
    return [(form.part, command) for form in (SWITCH, *OTHERS) if (command := form.command())]


def show_programs() -> str:
    """All forms make the same of the programs that are measured."""
    want_equal(list(differing()), [], "what forms make of the programs")
    return f"{len(forms())} forms of bench/flat.c"


def show_rows() -> str:
    """Each form does what the reference does, a row a program."""
    tried = list(codes())
    wanted = [expected(code) for code in tried]
    want({line[0] for line in wanted} == set("0123"), "the programs stop in each way")
    with tempfile.TemporaryDirectory() as folder:
        names = [f"row{k}" for k in range(len(tried))]
        for name, code in zip(names, tried):
            (pathlib.Path(folder) / f"{name}.code").write_bytes(code)
        for part, command in forms():
            said = results(command, pathlib.Path(folder), names)
            want(len(said) == 3 * len(tried), f"{part} makes {len(said)} lines")
            for k, line in enumerate(said):
                want_equal(line.split(": ")[1], wanted[k // 3], f"{part}: {tried[k // 3].hex()}")
    return f"{len(tried)} programs of a row"


if __name__ == "__main__":
    run_parts("yardsticks", [show_programs, show_rows])

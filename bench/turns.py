#!/usr/bin/env python3
"""An instruction of a machine that one worker runs, beside a worker of a service in C: turns.py BENCH_THREADS C_PROGRAM

The service in C keeps the machine's lock for a turn of 64 instructions, and its objects are shared by the same atomic operations. A
time is the processor time of a long run without that of a short one. Runs are interleaved, and of each the fastest counts. Where
there is valgrind, machine instructions too, counted by callgrind, in the same way.
"""
from __future__ import annotations

import struct

from counts import can_count, counted
from rows import words
from timing import timed

RUNS = 11
# The fuel of a short run and of a long one, for a time and for a count.
SHORT, LONG = 640_000, 12_800_000
FEW, MANY = 19_200, 64_000


def instruction(code: int, destination: int = 0, source: int = 0, offset: int = 0, number: int = 0) -> str:
    return struct.pack("<BBhi", code, source << 4 | destination, offset, number).hex()


def loop(*body: str) -> str:
    """These instructions again and again."""
    return "".join(body) + instruction(0x05, offset=-len(body) - 1)


KINDS = {
    "arithmetic": loop(
        instruction(0x07, 0, number=3), instruction(0xAF, 2, 0), instruction(0x67, 2, number=1), instruction(0x1F, 0, 2),
        instruction(0x04, 3, number=-5), instruction(0xBF, 4, 3), instruction(0x4F, 4, 2), instruction(0x57, 4, number=255),
    ),
    "loads": loop(*[instruction(0x79, 2, 1, 0), instruction(0x61, 3, 1, 8), instruction(0x71, 4, 1, 12), instruction(0x79, 5, 1, 16)] * 2),
    "stores": loop(*[instruction(0x7B, 1, 2, 0), instruction(0x63, 1, 3, 8), instruction(0x73, 1, 4, 12), instruction(0x7A, 1, 0, 16, 7)] * 2),
    "additions": loop(*[instruction(0xDB, 1, 2, 0), instruction(0xDB, 1, 3, 8, 1), instruction(0xDB, 1, 4, 16, 0xE1), instruction(0xC3, 1, 3, 24, 0x40)] * 2),
    "mixed": loop(
        instruction(0x79, 2, 1, 0), instruction(0x07, 2, number=1), instruction(0x7B, 1, 2, 0), instruction(0x0F, 3, 2),
        instruction(0xDB, 1, 2, 8), instruction(0xBF, 4, 3), instruction(0x61, 4, 1, 4), instruction(0x57, 4, number=63),
    ),
    "a loop of two instructions": loop(instruction(0x07, 1, number=7)),
}


def processor_time(program: str, fuel: int, code: str) -> float:
    """The seconds that a run takes of processors."""
    return timed(program, fuel, code)[0]


def fastest(programs: list[str], code: str) -> list[float]:
    """Nanoseconds of an instruction, for each program."""
    short, long = ([[processor_time(program, fuel, code) for program in programs] for _ in range(RUNS)] for fuel in (SHORT, LONG))
    return [(min(more) - min(less)) / (LONG - SHORT) * 1e9 for less, more in zip(zip(*short), zip(*long))]


def of_an_instruction(program: str, code: str) -> float:
    few, many = (counted([program, str(fuel), code])[0] for fuel in (FEW, MANY))
    return (many - few) / (MANY - FEW)


def main() -> None:
    programs = words("turns.py BENCH_THREADS C_PROGRAM", 2, 2)
    for name, code in KINDS.items():
        ours, c = fastest(programs, code)
        line = f"{name:26}  {ours:7.2f} ns, C {c:7.2f} ns, ratio {ours / c:.2f}"
        if can_count():
            ours, c = (of_an_instruction(program, code) for program in programs)
            line += f"; {ours:.1f} and {c:.1f} machine instructions"
        print(line, flush=True)


if __name__ == "__main__":
    main()

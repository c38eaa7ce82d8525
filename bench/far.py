#!/usr/bin/env python3
"""A far store over TCP beside the same in plain C, in one run: far.py PROGRAM C_PROGRAM

Client and server are two threads of one program. A put includes the forget after it, so that the server keeps one thing at a time. A time is the
difference of a long run and a short one, without the programs' start. Runs are interleaved, and of each the fastest counts. Both the processor time
of both threads and the time that passed are told. Where there is valgrind, machine instructions too. The digest alone is that of the kit's sha2, and
in C one written as FIPS 180-4 says it; both are compared with Python's.
"""
from __future__ import annotations

import hashlib
import sys

from counts import can_count, counted
from rows import words
from timing import timed

LENGTHS = {64: (1_000, 41_000), 65_536: (40, 840)}
COUNTED = {64: (100, 300), 65_536: (4, 12)}
RUNS = 11


def run(program: str, kind: str, count: int, length: int) -> tuple[float, float]:
    """The processor time and the time that passed, in seconds."""
    used, passed, printed = timed(program, kind, count, length)
    if int(printed) != expected(kind, count, length):
        sys.exit(f"{program} {kind} {count} {length}: {printed!r}")
    return used, passed


def expected(kind: str, count: int, length: int) -> int:
    """What the programs print: how many went well, or the sum of the digests' first words."""
    if kind != "digest":
        return count
    digest = hashlib.sha256(bytes(k % 251 for k in range(length))).digest()
    return count * int.from_bytes(digest[:4], "big")


def fastest(programs: list[str], kind: str, length: int) -> list[list[float]]:
    """Microseconds of one call, for each program: processor time and time passed."""
    few, many = LENGTHS[length]
    found: list[tuple[list[tuple[float, float]], list[tuple[float, float]]]] = [([], []) for _ in programs]
    for _ in range(RUNS):
        for program, (short, long) in zip(programs, found):
            short.append(run(program, kind, few, length))
            long.append(run(program, kind, many, length))
    return [[(min(long) - min(short)) / (many - few) * 1e6 for short, long in zip(zip(*shorts), zip(*longs))] for shorts, longs in found]


def of_a_call(program: str, kind: str, length: int) -> float:
    few, many = COUNTED[length]
    one, other = (counted([program, kind, str(count), str(length)])[0] for count in (few, many))
    return (other - one) / (many - few)


def main() -> None:
    programs = words("far.py PROGRAM C_PROGRAM", 2, 2)
    for kind in ("put", "get", "digest"):
        for length in LENGTHS:
            (ours, passed), (c, c_passed) = fastest(programs, kind, length)
            line = f"{f'{kind} of {length} bytes':22}  {ours:7.2f} us, C {c:7.2f} us, ratio {ours / c:.2f}; by time passed {passed / c_passed:.2f}"
            if can_count():
                ours, c = (of_a_call(program, kind, length) for program in programs)
                line += f"; {ours:.0f} and {c:.0f} machine instructions"
                if kind == "digest":
                    line += f": {ours / length:.1f} a byte, C {c / length:.1f}"
            print(line, flush=True)


if __name__ == "__main__":
    main()

#!/usr/bin/env python3
"""Time of `asm` and `dis` on a text of 4096 slots with 1,000 labels, beside a quarter of it: assembly.py PROGRAM

The time of the least input is taken off: of an empty text, and of code that is one EXIT. That the time grows linearly shows in that
of a line, and in its machine instructions.
"""
from __future__ import annotations

import subprocess
import time

from counts import can_count, counted
from rows import words

RUNS = 7
SIZES = ((1024, 250), (4096, 1000))
EXIT = bytes.fromhex("9500000000000000")


def text(slots: int, labels: int) -> bytes:
    """A line for each slot; of every three one compares and jumps to the label before it."""
    lines, every = [], max(slots // labels, 1)
    for k in range(slots - 1):
        place = f"place_{k // every}"
        label = f"{place}: " if k % every == 0 else ""
        lines.append(label + (f"jne r1, {k}, {place}", f"add r{k % 10}, {k}", f"ldxdw r1, [r10-{8 + 8 * (k % 60)}]")[k % 3])
    return "\n".join([*lines, "exit", ""]).encode()


def timed(arguments: list[str], data: bytes) -> tuple[float, bytes]:
    """The shortest time of some runs, and what was written."""
    best, output = float("inf"), b""
    for _ in range(RUNS):
        start = time.perf_counter()
        done = subprocess.run(arguments, input=data, stdout=subprocess.PIPE, check=True)
        spent = time.perf_counter() - start
        best, output = min(spent, best), done.stdout
    return best, output


def of_a_line(arguments: list[str], data: bytes, least: bytes, slots: int) -> float:
    """Machine instructions of a line."""
    return (counted(arguments, data)[0] - counted(arguments, least)[0]) / slots


def main() -> None:
    (program,) = words("assembly.py PROGRAM", 1, 1)
    texts = [text(*size) for size in SIZES]
    codes = [timed([program, "asm"], source)[1] for source in texts]
    for command, inputs, least in (("asm", texts, b""), ("dis", codes, EXIT)):
        shortest, _ = timed([program, command], least)
        few, many = (1e9 * (timed([program, command], data)[0] - shortest) / slots for data, (slots, _) in zip(inputs, SIZES))
        line = f"{command}, 1024 and 4096 slots    {many:6.0f} beside {few:6.0f} ns a line, ratio {many / few:.2f}"
        if can_count():
            one, other = (of_a_line([program, command], data, least, slots) for data, (slots, _) in zip(inputs, SIZES))
            line += f"; {other:.0f} beside {one:.0f} machine instructions"
        print(line, flush=True)


if __name__ == "__main__":
    main()

#!/usr/bin/env python3
"""The cost of a line with its reply: the agent beside a plain line loop in C, on the same scripts. Also what the number of objects, of machines, of
breakpoints and of scopes costs a `step` that loads from an object. All as ratios in one run.

lines.py AGENT LINES [STEPS]

Runs are interleaved, and of each the tenth percentile counts; the time of a script without the measured lines is taken off.
Where there is valgrind, the machine instructions of a line stand beside.
"""
from __future__ import annotations

import struct
import subprocess
import sys
import time
from typing import Sequence

from counts import can_count, counted
from rows import words

RUNS = 21

# A command with its arguments, the lines before the measured ones, and the measured line.
Side = tuple[list[str], str, str]


def slot(opcode: int, dst: int = 0, src: int = 0, offset: int = 0, imm: int = 0) -> str:
    return struct.pack("<BBhI", opcode, src << 4 | dst, offset, imm & 0xFFFFFFFF).hex()


EXIT = slot(0x95)
# r0 = 0; r0 += 1; if r0 != -1 goto -2; exit
COUNTING = slot(0xB7) + slot(0x07, imm=1) + slot(0x55, offset=-2, imm=-1) + EXIT
# 4096 slots: r1 += 7 over and over; exit
LONG = slot(0x07, dst=1, imm=7) * 4095 + EXIT
# four loads from the object at R1, over and over; sixteen slots that aren't reached
LOADS = slot(0x79, src=1, offset=8) * 4 + slot(0x05, offset=-5) + slot(0x07, imm=1) * 16 + EXIT


def loads_in_turn(numbers: Sequence[int]) -> str:
    """Loads from these five objects, over and over."""
    addresses = "".join(slot(0x18, dst=k + 2) + slot(0, imm=n) for k, n in enumerate(numbers))
    return addresses + "".join(slot(0x79, src=k + 2, offset=8) for k in range(5)) + slot(0x05, offset=-6)


def shipped(code: str, number: int = 1) -> str:
    """The line that ships the code, with the address of an object in R1."""
    return f"ship 1000000000 {number << 32} 0 0 0 0 {code}\n"


def once(command: list[str], script: bytes) -> tuple[float, bytes]:
    start = time.perf_counter()
    done = subprocess.run(command, input=script, stdout=subprocess.PIPE, check=True)
    return time.perf_counter() - start, done.stdout


def tenth_percentile(times: list[float]) -> float:
    return sorted(times)[len(times) // 10]


def nanoseconds(sides: list[Side], count: int, same: bool) -> list[float]:
    """Of each side the time of the measured line. Replies may have to be the same."""
    spent: list[tuple[list[float], list[float]]] = [([], []) for _ in sides]
    for _ in range(RUNS):
        told = []
        for (command, before, line), (without, whole) in zip(sides, spent):
            without.append(once(command, before.encode())[0])
            seconds, reply = once(command, (before + line * count).encode())
            whole.append(seconds)
            told.append(reply)
        if same and told[0] != told[1]:
            sys.exit("the replies differ")
    return [(tenth_percentile(whole) - tenth_percentile(without)) / count * 1e9 for without, whole in spent]


def instructions(sides: list[Side], count: int, word: str) -> str:
    """Of each side the machine instructions of the measured line, with this word between; nothing where they can't be counted."""
    if not can_count():
        return ""
    few, many = max(count // 400, 1), max(count // 100, 4)
    one, other = (
        (counted(command, (before + line * many).encode())[0] - counted(command, (before + line * few).encode())[0]) / (many - few)
        for command, before, line in sides
    )
    return f"; {one:.0f} {word} {other:.0f} machine instructions"


def compared(name: str, agent: list[str], plain: list[str], before: str, line: str, count: int) -> None:
    sides = [(agent, before, line), (plain, before, line)]
    ours, theirs = nanoseconds(sides, count, True)
    told = f"agent {ours:9.0f} ns a line, plain C {theirs:9.0f}, ratio {ours / theirs:.2f}"
    print(f"{name:32} {told}{instructions(sides, count, 'and')}", flush=True)


def grown(name: str, agent: list[str], few: tuple[str, str], many: tuple[str, str], count: int) -> None:
    sides = [(agent, *many), (agent, *few)]
    other, one = nanoseconds(sides, count, False)
    told = f"{other:9.0f} beside {one:9.0f} ns a line, ratio {other / one:.2f}"
    print(f"{name:32} {told}{instructions(sides, count, 'beside')}", flush=True)


def growth(agent: list[str], steps: int) -> None:
    alone = ("make 64\n" + shipped(LOADS), "step 1\n")
    objects = "make 64\n" * 1024 + shipped(LOADS, 1024)
    machines = "make 64\n" + shipped(LOADS) * 48
    breaks = alone[0] + "".join(f"break 1 {5 + k}\n" for k in range(16))
    others = machines + "".join(f"break {m} {5 + k}\n" for m in range(1, 48) for k in range(16))
    same, other = (("make 64\n" * 5 + shipped(loads_in_turn(n)), "step 1\n") for n in ([1] * 5, [1, 2, 3, 4, 5]))
    grown("step, 1 and 1024 objects", agent, alone, (objects, "step 1\n"), steps)
    grown("step, 1 and 48 machines", agent, alone, (machines, "step 48\n"), steps)
    grown("step, 0 and 16 breakpoints", agent, alone, (breaks, "step 1\n"), steps)
    grown("step, 0 and 752 others' ones", agent, alone, (others, "step 48\n"), steps)
    grown("step, open and new scope", agent, same, other, steps)


def main() -> None:
    program, c_program, *rest = words("lines.py AGENT LINES [STEPS]", 2, 3)
    agent, plain = [program, "run"], [c_program]
    steps = int(rest[0]) if rest else 100000
    compared("step", agent, plain, f"ship {steps + 10} 0 0 0 0 0 {COUNTING}\n", "step 1\n", steps)
    compared("get of 4096 bytes", agent, plain, "make 65536\n", "get 1 512 4096\n", 4000)
    compared("ship of 4096 slots", agent, plain, "", f"ship 9 0 0 0 0 0 {LONG}\n", 48)
    growth(agent, steps)


if __name__ == "__main__":
    main()

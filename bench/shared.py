#!/usr/bin/env python3
"""Accesses to shared objects beside the same in plain C, in one run: shared.py PROGRAM C_PROGRAM

An access takes the object's turn by one atomic operation and gives it back by another, on the same layout of memory on both
sides. A time is the difference of a long run and a short one, without the programs' start. Runs are interleaved, and of each
the fastest counts. Of one thread it is processor time. Of several, each on an object of its own, it is the processor time of an
access, which says what they cost one another, and the time that passed, which needs as many free processors; each beside that of
one thread. Where there is valgrind, machine instructions of an access too, which repeat exactly on a busy machine.
"""
from __future__ import annotations

import os

from counts import can_count, counted
from rows import words
from timing import timed

KINDS = ["load", "store", "add"]
SHORT, LONG = 1_000_000, 11_000_000
FEW, MANY = 20_000, 60_000
RUNS = 11


def run(program: str, kind: str, count: int, threads: int) -> tuple[float, float]:
    """The processor time and the time that passed, in seconds."""
    return timed(program, kind, count, threads)[:2]


def fastest(programs: list[str], kind: str, threads: int, which: int) -> list[float]:
    """Nanoseconds of an access of one thread, for each program: its long runs without its short ones."""
    found: list[tuple[list[float], list[float]]] = [([], []) for _ in programs]
    for _ in range(RUNS):
        for program, (short, long) in zip(programs, found):
            short.append(run(program, kind, SHORT, threads)[which])
            long.append(run(program, kind, LONG, threads)[which])
    return [(min(long) - min(short)) / (LONG - SHORT) * 1e9 for short, long in found]


def of_an_access(program: str, kind: str) -> float:
    few, many = (counted([program, kind, str(count), "1"])[0] for count in (FEW, MANY))
    return (many - few) / (MANY - FEW)


def of_threads(programs: list[str], threads: int, which: int, alone: list[float]) -> list[float]:
    """What so many threads do beside as many times one: by processor time, or by the time that passed."""
    share = threads if which == 0 else 1
    return [one * share / several for one, several in zip(alone, fastest(programs, "add", threads, which))]


def main() -> None:
    programs = words("shared.py PROGRAM C_PROGRAM", 2, 2)
    for kind in KINDS:
        ours, c = fastest(programs, kind, 1, 0)
        line = f"{'a shared ' + kind:22}  {ours:7.2f} ns, C {c:7.2f} ns, ratio {ours / c:.2f}"
        if can_count():
            ours, c = (of_an_access(program, kind) for program in programs)
            line += f"; {ours:.0f} and {c:.0f} machine instructions"
        print(line, flush=True)
    alone = [fastest(programs, "add", 1, which) for which in (0, 1)]
    for threads in (2, 4):
        if threads <= (os.cpu_count() or 1):
            used, passed = (of_threads(programs, threads, which, one) for which, one in enumerate(alone))
            told = f"{used[0]:.2f} of linear by processor time, C {used[1]:.2f}; {passed[0]:.2f} by time passed, C {passed[1]:.2f}"
            print(f"{threads} threads, own objects   {told}", flush=True)


if __name__ == "__main__":
    main()

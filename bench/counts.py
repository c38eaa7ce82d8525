#!/usr/bin/env python3
"""Machine instructions, counted by `valgrind --tool=callgrind`: they repeat exactly, on a busy machine too.

counts.py STEPS FOLDER [AGENT NAME..] > COUNTS

For each program that STEPS measures, or for those named, it writes a line. The line has the instructions of a step of the agent, those of a step of
the flat interpreter in C, and the program's name. Those of the agent are taken from the file AGENT, an earlier COUNTS. Without AGENT, lines of a load
of the agent in two settings follow: one object and several in turn, all objects granted and 16 of them, one object and 1024, one machine and 48. Each
is the difference of two runs of different length by the instructions of the program that ran between them. Nothing is written where there is no
valgrind.
"""
from __future__ import annotations

import re
import shutil
import subprocess
from pathlib import Path
from typing import Optional, Sequence, Union

from rows import words

PROGRAMS = [
    "checksum", "gcd", "sieve", "sort", "table",
    "counting loop", "straight arithmetic", "nested calls", "loads", "stores", "atomic operations",
]
# Programs without a loop.
STRAIGHT = ["arithmetic, 4000 slots", "loads, 4000 slots", "stores, 4000 slots", "additions, 4000 slots"]
SETTINGS = [
    ("loads, 1 and 2 objects in turn", "loads, 1 in turn", "loads, 2 in turn"),
    ("loads, 1 and 4 objects in turn", "loads, 1 in turn", "loads, 4 in turn"),
    ("loads, 1 and 5 objects in turn", "loads, 1 in turn", "loads, 5 in turn"),
    ("loads, 1 and 8 objects in turn", "loads, 1 in turn", "loads, 8 in turn"),
    ("loads, all and 16 granted", "loads", "loads, 16 granted"),
    ("loads, 1 and 1024 objects", "loads", "loads, 1024 objects"),
    ("loads, 1 and 48 machines", "loads", "loads, 48 machines"),
]
SHORT, LONG = 20_000, 60_000


def can_count() -> bool:
    return shutil.which("valgrind") is not None


def under_valgrind(command: Sequence[Union[str, Path]]) -> list[Union[str, Path]]:
    """The command, with its machine instructions counted, which standard error tells at its end."""
    return ["valgrind", "--tool=callgrind", "--callgrind-out-file=/dev/null", *command]


def told_count(errors: bytes) -> int:
    found = re.search(rb"Collected : (\d+)", errors)
    if found is None:
        raise OSError("valgrind tells no count")
    return int(found[1])


def counted(command: Sequence[Union[str, Path]], script: Optional[bytes] = None) -> tuple[int, bytes]:
    """How many machine instructions a command takes, and what it wrote."""
    done = subprocess.run(under_valgrind(command), input=script, stdout=subprocess.PIPE, stderr=subprocess.PIPE, check=True)
    return told_count(done.stderr), done.stdout


def of_a_step(steps: Union[str, Path], folder: str, side: str, name: str) -> float:
    (few, first), (many, second) = (counted([steps, folder, side, name, str(fuel)]) for fuel in (SHORT, LONG))
    return (many - few) / (int(second.split()[0]) - int(first.split()[0]))


def beside(steps: str, folder: str, known: str, names: Sequence[str]) -> None:
    """The lines of these programs, with the agent's counts of a file."""
    for line in Path(known).read_text().splitlines():
        of_agent, _, name = line.split(" ", 2)
        if name in names:
            print(f"{of_agent} {of_a_step(steps, folder, 'flat', name):.2f} {name}", flush=True)


def main() -> None:
    steps, folder, *known = words("counts.py STEPS FOLDER [AGENT NAME..]", 2, 3 + len(PROGRAMS) + len(STRAIGHT))
    if not can_count():
        return
    if known:
        beside(steps, folder, known[0], known[1:])
        return
    measured = [(name, ("agent", name), ("flat", name)) for name in [*PROGRAMS, *STRAIGHT]]
    measured += [(name, ("agent", one), ("agent", other)) for name, one, other in SETTINGS]
    for name, *sides in measured:
        one, other = (of_a_step(steps, folder, *side) for side in sides)
        print(f"{one:.2f} {other:.2f} {name}", flush=True)


if __name__ == "__main__":
    main()

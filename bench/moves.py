#!/usr/bin/env python3
"""What a move of the library for C takes, beside memcpy and SHA-256 in C: moves.py MOVES

MOVES measures the times. Where there is valgrind, machine instructions stand beside: those between the beginning and the end of a
call, which callgrind tells apart by the function's name.
"""
from __future__ import annotations

import re
import subprocess

from counts import can_count, told_count, under_valgrind
from rows import words

COUNT = 50
LINE = re.compile(r"(\w+) of (\d+) bytes: ")


def within(moves: str, function: str, length: str) -> float:
    """Machine instructions of one move within this function, for so many bytes."""
    command = under_valgrind([moves, length, str(COUNT)])
    command.insert(2, f"--toggle-collect={function}")
    return told_count(subprocess.run(command, stdout=subprocess.PIPE, stderr=subprocess.PIPE, check=True).stderr) / COUNT


def main() -> None:
    (moves,) = words("moves.py MOVES", 1, 1)
    timed = subprocess.run([moves], stdout=subprocess.PIPE, text=True, check=True).stdout
    for line in timed.splitlines():
        told = LINE.match(line)
        if told and can_count():
            ours, c = within(moves, f"bpfagent_{told[1]}", told[2]), within(moves, "alone", told[2])
            line += f"; {ours:.0f} and {c:.0f} machine instructions"
        print(line, flush=True)


if __name__ == "__main__":
    main()

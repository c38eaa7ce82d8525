"""What a job costs, part by part: processor time as /proc counts it, and the law that fits many such measurements."""
from __future__ import annotations

import contextlib
import os
import pathlib
from dataclasses import dataclass
from typing import Sequence

TICK = 1 / os.sysconf("SC_CLK_TCK")
# The two instructions of a turn of spin.c, and those before and after its loop.
TURN, AROUND = 2, 12
# Round trips to Redis in a job of two keys that the agent hasn't got: WATCH, GET of the record, HMGET of each key, EXEC.
TRIPS = 5


@dataclass(frozen=True)
class Spent:
    """Seconds of processor: of the client with the scheduler, of all workers, of their agents, and of Redis."""

    client: float
    workers: float
    agents: float
    redis: float

    def __sub__(self, other: Spent) -> Spent:
        return Spent(*(one - before for one, before in zip(vars(self).values(), vars(other).values())))


def times_of(process: int) -> tuple[float, float]:
    """Seconds of processor of a process, and of its children that ended; none of a process that has ended."""
    try:
        fields = pathlib.Path(f"/proc/{process}/stat").read_text().rpartition(")")[2].split()
    except OSError:
        return 0.0, 0.0
    user, system, ended_user, ended_system = map(int, fields[11:15])
    return (user + system) * TICK, (ended_user + ended_system) * TICK


def children_of(process: int) -> list[int]:
    """The children of a process, whichever of its threads started them."""
    found: list[int] = []
    for path in pathlib.Path(f"/proc/{process}/task").glob("*/children"):
        with contextlib.suppress(OSError):
            found += map(int, path.read_text().split())
    return found


def spent(workers: Sequence[int], redis: Sequence[int]) -> Spent:
    """What this process, these workers with their agents, and these servers have used until now."""
    own = [times_of(worker) for worker in workers]
    living = sum(times_of(child)[0] for worker in workers for child in children_of(worker))
    return Spent(times_of(os.getpid())[0], sum(it[0] for it in own), sum(it[1] for it in own) + living, sum(times_of(server)[0] for server in redis))


@dataclass(frozen=True)
class Law:
    """Seconds of processor for a job: a constant, for each byte of its object, and for each instruction of its program."""

    job: float
    byte: float
    instruction: float

    def of(self, length: float, instructions: float) -> float:
        return self.job + self.byte * length + self.instruction * instructions


def instructions_of(turns: int) -> int:
    """How many instructions spin.c does in so many turns."""
    return TURN * turns + AROUND


def fitted(rows: Sequence[tuple[float, float, float]], terms: int = 3) -> Law:
    """The law that is nearest to (length, instructions, seconds), by the squares of relative errors. No term is negative, and
    those after the first so many are 0."""
    kept = list(range(terms))
    while True:
        found = solved(rows, kept)
        negative = [place for place in kept if found[place] < 0]
        if not negative:
            return Law(*found)
        kept.remove(min(negative, key=lambda place: found[place]))


def solved(rows: Sequence[tuple[float, float, float]], kept: list[int]) -> list[float]:
    """Least squares by the normal equations, with these terms of the law alone."""
    lines = [([(1.0, length, instructions)[place] / seconds for place in kept], 1.0) for length, instructions, seconds in rows if seconds > 0]
    size = len(kept)
    table = [[sum(line[i] * line[j] for line, _ in lines) for j in range(size)] + [sum(line[i] * wanted for line, wanted in lines)] for i in range(size)]
    for i in range(size):
        pivot = max(range(i, size), key=lambda row: abs(table[row][i]))
        table[i], table[pivot] = table[pivot], table[i]
        for row in range(size):
            if row != i and table[i][i]:
                factor = table[row][i] / table[i][i]
                table[row] = [one - factor * other for one, other in zip(table[row], table[i])]
    found = [0.0, 0.0, 0.0]
    for i, place in enumerate(kept):
        found[place] = table[i][size] / table[i][i] if table[i][i] else 0.0
    return found

#!/usr/bin/env python3
"""Measures a fleet on this machine and keeps the figures: measure_fleet.py PROGRAM [options]

Jobs and bytes a second by agents, by size of object and by length of program, beside plain Python on the same workers. Then the processor time that a
job takes of each part, and what a lost worker costs. At last the examples of words and transfers, also while workers and a node of Redis are killed.
The figures go to figures.json, from which report.py makes the tables and plots of docs/SCALING.md and simulate_fleet.py its costs. All parts take a
quarter of an hour on four processors.

Each part is kept as soon as it is measured, with the program, the machine and the load. So an interrupted run keeps what it has,
and --part measures what is still to come. --size 0.1 measures a tenth of the jobs, which goes to out/figures.json unless --output
names a file.
"""
from __future__ import annotations

import argparse
import datetime
import os
import pathlib
import statistics
import time
from dataclasses import asdict, dataclass
from typing import Callable, Iterator

import costs
import engines
import figures

HERE = pathlib.Path(__file__).resolve().parent
# Where figures are kept that the page isn't made of.
TRIED = HERE / "out" / "figures.json"
OBJECTS, FUEL = 256, 10_000_000
# Seconds for each row, jobs for what a death costs, texts, and transfers.
SECONDS, LOST, TEXTS, MOVED = 2.0, 2000, 4096, 10_000
# Turns of spin.c with the smallest object, and sizes of object with the shortest program.
TURNS, LENGTHS = (10, 1000, 10_000, 100_000), (64, 4096, 16_384, 65_536)
KINDS = [(LENGTHS[0], turns) for turns in TURNS] + [(length, TURNS[0]) for length in LENGTHS[1:]]
# The most jobs that are measured at once.
MOST = 4000
# For how many seconds other work is looked at before a part.
LOOK = 5
# Of what a lost worker costs: turns of each job, agents, and seconds between two deaths.
LONG, FEW, APART = 20_000, 4, 1.0


@dataclass(frozen=True)
class Row:
    """Jobs that were measured: how many, how long they took, and the seconds of processor of each part."""

    way: str
    agents: int
    length: int
    turns: int
    jobs: int
    seconds: float
    client: float
    workers: float
    agent: float
    redis: float

    @property
    def rate(self) -> float:
        """Jobs a second."""
        return self.jobs / self.seconds


class Bench:
    """Workers over one Redis, with objects of each length."""

    def __init__(self, client, made, server: engines.Server, program: str) -> None:
        from bpfagent.fleet import Fleet
        import plain

        self.client, self.made, self.server = client, made, server
        self.fleet = Fleet(client, server.url, program)
        self.code = (HERE / "spin.code").read_bytes()
        self.ways: dict[str, Callable] = {"agents": self.fleet.map, "plain": lambda jobs: plain.start(client, plain.spin, jobs, self.fleet.setting)}

    def put(self, lengths: tuple[int, ...]) -> None:
        """Objects that end in 7, and totals."""
        for number in range(OBJECTS):
            self.fleet.put(f"total:{number}", bytes(8))
            for length in lengths:
                self.fleet.put(f"object:{length}:{number}", b"\x07".rjust(length, b"\0"))

    def jobs(self, length: int, turns: int, count: int) -> list:
        from bpfagent.fleet import Job

        for number in range(count):
            total, name = f"total:{number % OBJECTS}", f"object:{length}:{number % OBJECTS}"
            yield Job(self.code, {total: "w", name: "r"}, (total, name, turns), FUEL, name="spin")

    def take(self, way: str, jobs: list) -> float:
        """Seconds until all jobs are done; each gives 7."""
        begin = time.monotonic()
        found = engines.results(self.client, self.ways[way](jobs))
        took = time.monotonic() - begin
        if {it.value for it in found} != {7}:
            raise SystemExit("a job gave a wrong result")
        return took

    def row(self, way: str, agents: int, length: int, turns: int, seconds: float) -> Row:
        """As many jobs as take so many seconds, after some that aren't counted."""
        first = list(self.jobs(length, turns, 4 * agents))
        rate = len(first) / self.take(way, first)
        count = min(max(int(rate * seconds), 8 * agents), MOST)
        jobs = list(self.jobs(length, turns, count))
        before = self.spent()
        took = self.take(way, jobs)
        used = self.spent() - before
        return Row(way, agents, length, turns, count, took, used.client, used.workers, used.agents, used.redis)

    def spent(self) -> costs.Spent:
        workers = [it.pid for it in self.made.scheduler.workers.values()]
        return costs.spent(workers, [self.server.process.pid])


def throughput(program: str, agents: int, seconds: float) -> Iterator[Row]:
    """Each kind of job, by agents and by plain Python."""
    with engines.single() as server, engines.workers(agents) as (client, made):
        bench = Bench(client, made, server, program)
        bench.put(LENGTHS)
        for length, turns in KINDS:
            for way in bench.ways:
                row = bench.row(way, agents, length, turns, seconds)
                print(f"{way:7}{agents:3} agents, {length:6} bytes, {turns:7} turns: {row.rate:8.1f} jobs/s", flush=True)
                yield row


def lost(program: str, jobs: int, rounds: int) -> dict[str, float]:
    """What a lost worker costs: the same jobs with and without deaths, in worker-seconds for each death."""
    costly = []
    with engines.single() as server, engines.workers(FEW) as (client, made):
        bench = Bench(client, made, server, program)
        bench.put(LENGTHS[:1])
        killed = 0
        for _ in range(rounds):
            calm = bench.take("agents", list(bench.jobs(LENGTHS[0], LONG, jobs)))
            with engines.Killer(made, APART) as killer:
                wild = bench.take("agents", list(bench.jobs(LENGTHS[0], LONG, jobs)))
            engines.all_back(made, FEW)
            if killer.killed:
                costly.append((wild - calm) * FEW / killer.killed)
                killed += killer.killed
    found = {"worker_seconds": statistics.median(costly) if costly else 0.0, "killed": killed, "agents": FEW, "turns": LONG, "jobs": jobs * rounds}
    print(f"a lost worker costs {found['worker_seconds']:.2f} worker-seconds, in the median of {len(costly)} rounds with {killed} deaths", flush=True)
    return found


def words(program: str, objects: int, agents: int, *more: str) -> list[dict]:
    """The example that counts words."""
    import word_count

    return list(word_count.run(word_count.options().parse_args([program, "--objects", str(objects), "--agents", str(agents), *more])))


def transfers(program: str, jobs: int, agents: int, *more: str) -> list[dict]:
    """The example that moves money."""
    import transfers as example

    return [example.run(example.options().parse_args([program, "--jobs", str(jobs), "--agents", str(agents), *more]))]


def idle() -> float:
    """For how many seconds the processors have been idle or waited for a disk, in all."""
    _, *ticks = pathlib.Path("/proc/stat").read_text().splitlines()[0].split()
    return sum(int(it) for it in ticks[3:5]) / os.sysconf("SC_CLK_TCK")


def busy() -> float:
    """How many processors other work keeps busy, over a few seconds. A load average would count the part that was measured before."""
    begin, before = time.monotonic(), idle()
    time.sleep(LOOK)
    return max(0.0, (os.cpu_count() or 1) - (idle() - before) / (time.monotonic() - begin))


def machine() -> dict:
    """The machine at hand, and how busy it is with other work."""
    names = [line.partition(":")[2].strip() for line in pathlib.Path("/proc/cpuinfo").read_text().splitlines() if line.startswith("model name")]
    return {"processors": os.cpu_count(), "model": names[0] if names else "", "load": round(busy(), 1)}


# The options of the examples by part.
EXAMPLES = {
    "words": ("--plain",),
    "words-deaths": ("--kill-workers", "1"),
    "words-crash": ("--kill-node", "2"),
    "transfers": (),
    "transfers-deaths": ("--kill-workers", "1"),
}


def measured(part: str, program: str, size: float) -> object:
    """The figures of a part, of so large a share of the jobs."""
    if part in figures.ROWS:
        return [asdict(row) for row in throughput(program, figures.AGENTS[figures.ROWS.index(part)], size * SECONDS)]
    if part == "lost":
        return lost(program, max(round(size * LOST), 60), 2)
    if part in figures.WORDS:
        return words(program, max(round(size * TEXTS), 64), figures.AGENTS[-1], *EXAMPLES[part])
    return transfers(program, max(round(size * MOVED), 200), figures.AGENTS[-1], *EXAMPLES[part])


def parser() -> argparse.ArgumentParser:
    """The options of the command line."""
    options = argparse.ArgumentParser(description="Measures a fleet on this machine.")
    options.add_argument("program", type=engines.program)
    options.add_argument("--output", type=pathlib.Path, metavar="FILE", help="where the figures are kept")
    options.add_argument("--note", default="", metavar="TEXT", help="what PROGRAM is; it is kept with the figures")
    options.add_argument("--part", action="append", choices=figures.PARTS, help="only this part; may be repeated")
    options.add_argument("--size", type=float, default=1.0, metavar="F", help="measure so large a part of the jobs, 0 to 1")
    return options


def main() -> None:
    options = parser()
    given = options.parse_args()
    if not 0 < given.size <= 1:
        options.error("--size takes a number above 0, and at most 1")
    output = given.output or (figures.FIGURES if given.size == 1 else TRIED)
    program = str(pathlib.Path(given.program).resolve())
    for part in given.part or figures.PARTS:
        on = machine()
        begin = time.monotonic()
        found = measured(part, program, given.size)
        took = round(time.monotonic() - begin)
        day = datetime.date.today().isoformat()
        figures.keep(output, part, {"program": given.note or given.program, "machine": on, "day": day, "took": took, "figures": found})
        print(f"{part} took {took} s, and is kept in {output}", flush=True)


if __name__ == "__main__":
    engines.guarded(main)

#!/usr/bin/env python3
"""Simulates a fleet of up to 1,000 agents on 100 hosts, with costs that are fitted to measurements: simulate_fleet.py [FIGURES]

FIGURES is what measure_fleet.py wrote, figures.json beside this script unless it is given. A job takes processor time of the
scheduler, of a worker, of its agent and of Redis; each is a law of the job's bytes and instructions, fitted to what was measured
on one machine. Assumed and not measured: the network between hosts, and how many processors, schedulers and nodes of Redis there
are. First the simulation is compared with the measurements it is fitted to; then come jobs a second by agents. Standard library
only; the seed is fixed.
"""
from __future__ import annotations

import functools
import heapq
import pathlib
import random
import sys
from dataclasses import dataclass
from typing import Iterator, Optional, Sequence

import costs
import figures as kept
from plots import Curve, short

SEED = 1
# Agents of each host, hosts like the measured one, and primaries of Redis.
EACH, NODES = 10, 16
# A round trip between hosts, and a byte at ten gigabits a second: assumed.
TRIP, WIRE = 100e-6, 0.8e-9
COUNTS = (1, 3, 10, 30, 100, 300, 1000)
# Instructions of the programs, each with an object of so many bytes, and schedulers.
INSTRUCTIONS, LENGTH, SCHEDULERS = (1_000, 100_000, 10_000_000), 4096, (1, 10)
# Jobs that an agent has at hand, one of which it runs; how many jobs of each agent are simulated; and the fewest of all.
AHEAD, JOBS, FEWEST = 2, 8, 1000
# As many where workers die, since deaths are few.
MANY = 40
# The terms of each part's law: the scheduler sees neither bytes nor instructions, and Redis no instructions.
PARTS = {"client": 1, "workers": 3, "agent": 3, "redis": 2}
# Stages of a job before its first: a scheduler hands it over, or its worker is back after a death.
SCHEDULED, AGAIN = -2, -1


@dataclass(frozen=True)
class Laws:
    """Seconds of processor of each part, and the worker-seconds that a death costs."""

    scheduler: costs.Law
    worker: costs.Law
    agent: costs.Law
    redis: costs.Law
    death: float
    processors: int

    @classmethod
    def of(cls, figures: dict) -> Laws:
        """The laws that fit the rows of agents."""
        rows = [row for row in figures["rows"] if row["way"] == "agents"]
        laws = []
        for part, terms in PARTS.items():
            laws.append(costs.fitted([(row["length"], costs.instructions_of(row["turns"]), row[part] / row["jobs"]) for row in rows], terms))
        return cls(*laws, death=figures["lost"]["worker_seconds"], processors=figures["processors"])


@dataclass(frozen=True)
class Site:
    """Where a fleet runs: agents on each host, hosts, schedulers and nodes of Redis. Of `is_one` all share the one host."""

    agents: int
    hosts: int
    schedulers: int
    nodes: int
    trip: float
    wire: float
    is_one: bool = False


class Simulated:
    """A closed network: each agent has jobs at hand, and asks for another when one is done.

    Servers that serve alike, whoever comes first, are a heap of the times at which they are free. Events are (time, agent, stage that
    ends then), also in a heap.
    """

    def __init__(self, site: Site, laws: Laws, length: float, instructions: float, deaths: float = 0.0) -> None:
        """`deaths` is how many workers of the fleet die each second."""
        self.agents, self.death, self.mortality, self.is_one = site.agents, laws.death, deaths / site.agents, site.is_one
        self.chance = random.Random(SEED)
        schedulers = [[0.0] for _ in range(site.schedulers)]
        hosts = [[0.0] * laws.processors for _ in range(site.hosts)]
        self.nodes = [[0.0] for _ in range(site.nodes)]
        # Of each agent its host and its scheduler.
        self.hosts = [hosts[agent % site.hosts] for agent in range(site.agents)]
        self.schedulers = [schedulers[agent % site.schedulers] for agent in range(site.agents)]
        # The stages of a job at its agent: whether a node of Redis serves, how long, and the pause before it.
        worker, redis, agent = (law.of(length, instructions) for law in (laws.worker, laws.redis, laws.agent))
        wire, trips = site.trip / 2, costs.TRIPS * site.trip / 2
        self.stages = [
            (False, worker / 2, wire),
            (True, redis / 2, trips),
            (False, agent, site.wire * length),
            (False, worker / 2, 0.0),
            (True, redis / 2, trips),
        ]
        self.scheduling = laws.scheduler.of(length, instructions)
        self.events: list[tuple[float, int, int]] = []
        self.waiting = [0] * site.agents
        # When each agent began its job.
        self.begun: list[Optional[float]] = [None] * site.agents

    def serve(self, servers: list[float], agent: int, now: float, seconds: float) -> float:
        """When a part has done its work for a job. On one host all parts share its processors."""
        host = self.hosts[agent]
        if self.is_one and servers is not host:
            now = taken(host, now, seconds) - seconds
        return taken(servers, now, seconds)

    def schedule(self, agent: int, now: float) -> None:
        """A scheduler hands a job to an agent."""
        heapq.heappush(self.events, (self.serve(self.schedulers[agent], agent, now, self.scheduling), agent, SCHEDULED))

    def begin(self, agent: int, now: float) -> None:
        """An agent that is free takes its next job."""
        if self.waiting[agent] and self.begun[agent] is None:
            self.waiting[agent] -= 1
            self.begun[agent] = now
            heapq.heappush(self.events, self.after(agent, now, 0))

    def after(self, agent: int, now: float, stage: int) -> tuple[float, int, int]:
        """The end of a stage that a job comes to now."""
        is_node, seconds, pause = self.stages[stage]
        servers = self.chance.choice(self.nodes) if is_node else self.hosts[agent]
        return self.serve(servers, agent, now + pause, seconds), agent, stage

    def has_died(self, agent: int, now: float) -> bool:
        """Whether the worker died while it did the job that would end now."""
        return self.chance.random() < self.mortality * (now - (self.begun[agent] or now))

    def end(self, agent: int, now: float) -> bool:
        """The last stage of a job is over: whether the job is done. Else its worker has died, and it is done again."""
        if self.has_died(agent, now):
            self.begun[agent] = now + self.death
            heapq.heappush(self.events, (now + self.death, agent, AGAIN))
            return False
        self.begun[agent] = None
        self.schedule(agent, now)
        self.begin(agent, now)
        return True

    def rate(self, jobs: int = JOBS) -> float:
        """Jobs a second over so many of each agent, after a quarter of them."""
        wanted, done, now, first = max(jobs * self.agents, FEWEST), 0, 0.0, 0.0
        events, last = self.events, len(self.stages) - 1
        for agent in range(self.agents):
            for _ in range(AHEAD):
                self.schedule(agent, now)
        while done < wanted:
            now, agent, stage = events[0]
            if SCHEDULED < stage < last:
                heapq.heapreplace(events, self.after(agent, now, stage + 1))
                continue
            heapq.heappop(events)
            if stage == SCHEDULED:
                self.waiting[agent] += 1
                self.begin(agent, now)
            elif self.end(agent, now):
                done += 1
                first = now if done == wanted // 4 else first
        return (done - wanted // 4) / (now - first)


def taken(servers: list[float], now: float, seconds: float) -> float:
    """When a request that comes now and takes so many seconds is served by the first of these that is free."""
    free = servers[0]
    end = (now if now > free else free) + seconds
    heapq.heapreplace(servers, end)
    return end


def here(agents: int) -> Site:
    """The measured machine: everything on one host, and no network."""
    return Site(agents, 1, 1, 1, 0.0, 0.0, is_one=True)


def far(agents: int, schedulers: int) -> Site:
    """So many agents, ten on each host."""
    return Site(agents, max(agents // EACH, 1), min(schedulers, agents), NODES, TRIP, WIRE)


def compared(figures: dict, laws: Laws) -> Iterator[tuple[dict, float]]:
    """Each measured row of agents, and the jobs a second that are simulated."""
    for row in figures["rows"]:
        if row["way"] == "agents":
            yield row, Simulated(here(row["agents"]), laws, row["length"], costs.instructions_of(row["turns"])).rate()


@functools.lru_cache(maxsize=None)
def rate_of(laws: Laws, agents: int, schedulers: int, instructions: int) -> float:
    """Jobs a second of a fleet on many hosts."""
    return Simulated(far(agents, schedulers), laws, LENGTH, instructions).rate()


def curves(laws: Laws, schedulers: Sequence[int] = SCHEDULERS) -> list[Curve]:
    """Jobs a second by agents, for each number of schedulers and length of program."""
    return [
        Curve(f"{short(length)} instructions, {count} scheduler{'s' * (count > 1)}", [(agents, rate_of(laws, agents, count, length)) for agents in COUNTS])
        for count in schedulers
        for length in INSTRUCTIONS
    ]


def print_tables(figures: dict, laws: Laws) -> None:
    """The fitted costs, how well they fit, and the tables."""
    print("processor time of a job, in microseconds     job    KiB  1,000 instructions")
    for name in ("scheduler", "worker", "agent", "redis"):
        law = getattr(laws, name)
        print(f"{name:38}{law.job * 1e6:10.0f}{law.byte * 1024e6:7.1f}{law.instruction * 1e9:20.0f}")
    errors = sorted(abs(rate / (row["jobs"] / row["seconds"]) - 1) for row, rate in compared(figures, laws))
    print(f"simulated against measured: {errors[len(errors) // 2]:.0%} off in the median, {errors[-1]:.0%} at most")
    print(f"\n{'jobs a second, by agents':38}" + "".join(f"{count:>8}" for count in COUNTS[::2]))
    for curve in curves(laws):
        print(f"{curve.name:38}" + "".join(f"{short(rate):>8}" for _, rate in curve.points[::2]))
    calm, wild = (Simulated(far(COUNTS[-1], SCHEDULERS[-1]), laws, LENGTH, INSTRUCTIONS[-1], deaths).rate(MANY) for deaths in (0.0, 1.0))
    print(f"\nif one of {COUNTS[-1]} workers dies each second: {short(wild)} in place of {short(calm)} jobs a second of {short(INSTRUCTIONS[-1])} instructions")


def main() -> None:
    if len(sys.argv) > 2 or sys.argv[1:2] in (["-h"], ["--help"]):
        print(__doc__, file=sys.stderr)
        sys.exit(2)
    path = pathlib.Path(sys.argv[1]) if sys.argv[1:] else kept.FIGURES
    try:
        figures = kept.load(path)
        laws = Laws.of(figures)
    except (OSError, ValueError, KeyError, TypeError) as why:
        sys.exit(f"{path}: {why}")
    print_tables(figures, laws)


if __name__ == "__main__":
    main()

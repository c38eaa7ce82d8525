#!/usr/bin/env python3
"""Counts the words of many objects of text by agents on a Redis Cluster of three nodes: word_count.py PROGRAM [options]

Each job counts one text and adds to one of 64 totals, which many jobs share. The counts are compared with Python's, so a job
that is lost or takes effect twice shows. With --kill-workers a worker is killed every so many seconds. With --kill-node a node of
the Cluster is killed, and started again when its replica has taken over. --plain counts the same by plain Python on Dask.
"""
from __future__ import annotations

import argparse
import contextlib
import pathlib
import random
import sys
import time
from typing import Iterator

import engines

CODE = pathlib.Path(__file__).resolve().with_name("word_count.code")
SEED, LENGTH, TOTALS, FUEL = 1, 65_536, 64, 10_000_000
SPACES = [" ", " ", " ", "\n", "  ", "\t"]


def texts(count: int, length: int) -> Iterator[bytes]:
    """Texts of random words between spaces of several kinds, which are cut out of one that is longer."""
    chance = random.Random(SEED)
    words = ["".join(chance.choices("abcdefghijklmnopqrstuvwxyz\xe9\xfc", k=chance.randint(1, 12))) for _ in range(1000)]
    pieces = [(word + space).encode() for word in words for space in SPACES]
    whole = b"".join(chance.choices(pieces, k=length))
    for _ in range(count):
        begin = chance.randrange(len(whole) - length)
        yield whole[begin : begin + length]


def name_of(number: int) -> str:
    """The key of a text. Its hash tag is that of the total that it is added to."""
    return f"text:{{{number % TOTALS}}}:{number}"


def total_of(number: int) -> str:
    return f"total:{{{number % TOTALS}}}"


def jobs_of(code: bytes, count: int) -> list:
    """A job for each text."""
    from bpfagent.fleet import Job

    return [Job(code, {total_of(it): "w", name_of(it): "r"}, (total_of(it), name_of(it)), FUEL, name="words") for it in range(count)]


def compare(fleet, found: list[int], wanted: list[int]) -> None:
    """Ends the script if a job's result or the totals are not Python's."""
    wrong = sum(one != other for one, other in zip(found, wanted))
    totals = sum(int.from_bytes(fleet.get(total_of(it)), "little") for it in range(min(TOTALS, len(wanted))))
    if wrong or totals != sum(wanted):
        sys.exit(f"{wrong} jobs have a wrong result, and the totals are {totals} in place of {sum(wanted)}")


def load(fleet, given: argparse.Namespace) -> list[int]:
    """Puts the texts, and gives the number of words of each by Python."""
    begin, wanted = time.monotonic(), []
    for number, text in enumerate(texts(given.objects, given.length)):
        fleet.put(name_of(number), text)
        wanted.append(len(text.split()))
    print(f"{given.objects} texts of {given.length} bytes were put in {time.monotonic() - begin:.1f} s")
    return wanted


def run(given: argparse.Namespace) -> Iterator[dict]:
    """Loads the texts, counts their words, compares, and gives the figures."""
    from bpfagent.fleet import Fleet
    import plain

    with engines.cluster() as servers, engines.workers(given.agents) as (client, made):
        fleet = Fleet(client, [it.url for it in servers], given.program, replicas=1)
        wanted = load(fleet, given)
        ways = {"agents": fleet.map}
        if given.plain:
            ways["plain"] = lambda jobs: plain.start(client, plain.words, jobs, fleet.setting)
        for way, call in ways.items():
            for number in range(min(TOTALS, given.objects)):
                fleet.put(total_of(number), bytes(8))
            with contextlib.ExitStack() as stack:
                killer = stack.enter_context(engines.Killer(made, given.kill_workers)) if given.kill_workers else None
                crash = stack.enter_context(engines.Crash(servers, given.kill_node)) if given.kill_node else None
                begin = time.monotonic()
                found = [result.value for result in engines.results(client, call(jobs_of(CODE.read_bytes(), given.objects)))]
                took = time.monotonic() - begin
            compare(fleet, found, wanted)
            if crash and crash.took is None:
                sys.exit("no replica took over")
            killed = killer.killed if killer else 0
            yield shown(
                {
                    "way": way,
                    "objects": given.objects,
                    "length": given.length,
                    "agents": given.agents,
                    "words": sum(found),
                    "seconds": took,
                    "killed": killed,
                    "takeover": crash.took if crash else None,
                }
            )


def shown(figures: dict) -> dict:
    """Prints a line of figures."""
    size, took = figures["objects"] * figures["length"], figures["seconds"]
    print(f"{figures['way']}: {figures['words']} words in {took:.1f} s, as Python counts them")
    print(f"{figures['objects'] / took:.0f} jobs/s, {size / took / 1e6:.1f} MB/s")
    if figures["killed"]:
        print(f"{figures['killed']} workers were killed")
    if figures["takeover"] is not None:
        print(f"a node was killed, and its replica took over after {figures['takeover']:.1f} s")
    return figures


def options() -> argparse.ArgumentParser:
    """The options of the command line."""
    made = argparse.ArgumentParser(description="Counts words by agents on a Redis Cluster.")
    made.add_argument("program", type=engines.program)
    made.add_argument("--objects", type=engines.number_from(1), default=4096)
    made.add_argument("--length", type=engines.number_from(1, LENGTH), default=LENGTH)
    made.add_argument("--agents", type=engines.number_from(1), default=8)
    made.add_argument("--kill-workers", type=engines.number_from(0, kind=float), default=0, metavar="SECONDS")
    made.add_argument("--kill-node", type=engines.number_from(0, kind=float), default=0, metavar="SECONDS")
    made.add_argument("--plain", action="store_true", help="also by plain Python on Dask")
    return made


if __name__ == "__main__":
    engines.guarded(lambda: list(run(options().parse_args())))

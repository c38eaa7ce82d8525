#!/usr/bin/env python3
"""Moves money between 1,000 accounts by 10,000 jobs at once, and adds the accounts up: transfers.py PROGRAM [options]

Each account is a key of one Redis. A job may write two of them, so jobs that share an account are serial. A job whose worker
dies is run again and takes effect once. So the sum stays, and each account is what Python makes of the jobs that moved money.
With --kill-workers a worker is killed every so many seconds.
"""
from __future__ import annotations

import argparse
import contextlib
import pathlib
import random
import sys
import time

import engines

CODE = pathlib.Path(__file__).resolve().with_name("transfer.code")
SEED, START, MOST = 1, 1000, 500


def transfers(accounts: int, count: int) -> list[tuple[int, int, int]]:
    """From which account to which other one, and how much."""
    chance = random.Random(SEED)
    return [(*chance.sample(range(accounts), 2), chance.randint(1, MOST)) for _ in range(count)]


def compare(found: list[int], moved: list[int], wanted: list[tuple[int, int, int]]) -> None:
    """Ends the script if the accounts are not what the jobs that moved money make of them."""
    balances = [START] * len(found)
    for (one, other, amount), has_moved in zip(wanted, moved):
        balances[one] -= amount * has_moved
        balances[other] += amount * has_moved
    if sum(found) != START * len(found) or found != balances:
        sys.exit(f"the accounts have {sum(found)} in place of {START * len(found)}, and {sum(map(int.__ne__, found, balances))} are wrong")


def run(given: argparse.Namespace) -> dict:
    """Makes the accounts, runs all jobs, compares, and gives the figures."""
    from bpfagent.fleet import Fleet, Job

    with engines.single() as server, engines.workers(given.agents) as (client, made):
        fleet = Fleet(client, server.url, given.program)
        names = [f"account:{it}" for it in range(given.accounts)]
        for name in names:
            fleet.put(name, START.to_bytes(8, "little"))
        code = CODE.read_bytes()
        wanted = transfers(given.accounts, given.jobs)
        jobs = [Job(code, {names[one]: "w", names[other]: "w"}, (names[one], names[other], amount), name="transfer") for one, other, amount in wanted]
        with contextlib.ExitStack() as stack:
            killer = stack.enter_context(engines.Killer(made, given.kill_workers)) if given.kill_workers else None
            begin = time.monotonic()
            moved = [result.value for result in engines.results(client, fleet.map(jobs))]
            took = time.monotonic() - begin
        found = [int.from_bytes(fleet.get(name), "little") for name in names]
    compare(found, moved, wanted)
    killed = killer.killed if killer else 0
    print(f"{given.jobs} transfers in {took:.1f} s, {given.jobs / took:.0f} jobs/s; {sum(moved)} moved money")
    print(f"{given.accounts} accounts have {sum(found)} as before")
    if killed:
        print(f"{killed} workers were killed")
    return {"jobs": given.jobs, "accounts": given.accounts, "agents": given.agents, "moved": sum(moved), "seconds": took, "killed": killed}


def options() -> argparse.ArgumentParser:
    """The options of the command line."""
    made = argparse.ArgumentParser(description="Moves money between accounts by jobs at once.")
    made.add_argument("program", type=engines.program)
    made.add_argument("--accounts", type=engines.number_from(2), default=1000)
    made.add_argument("--jobs", type=engines.number_from(1), default=10_000)
    made.add_argument("--agents", type=engines.number_from(1), default=8)
    made.add_argument("--kill-workers", type=engines.number_from(0, kind=float), default=0, metavar="SECONDS")
    return made


if __name__ == "__main__":
    engines.guarded(lambda: run(options().parse_args()))

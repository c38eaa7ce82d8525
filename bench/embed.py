#!/usr/bin/env python3
"""Machine instructions a step of the library for C, counted by callgrind: embed.py EMBED FOLDER

For each stored program those by bpfagent_run in one call, in calls of one step, by bpfagent_step, and of Machine::step in a loop of its
own; and the first beside the last. Nothing is written where there is no valgrind.
"""
import sys

from counts import can_count, of_a_step

SIDES = ("run", "one", "step", "bare")


def main():
    if not can_count():
        return
    for name in ("checksum", "gcd", "sieve", "sort", "table"):
        found = [of_a_step(sys.argv[1], sys.argv[2], side, name) for side in SIDES]
        told = ", ".join(f"{side} {count:.1f}" for side, count in zip(SIDES, found))
        print(f"{name:10}{told} machine instructions a step; run beside bare {found[0] / found[-1]:.2f}", flush=True)


if __name__ == "__main__":
    main()

#!/usr/bin/env python3
"""Tells which rows of bench/figures.json got worse than in the last commit: worse.py [REVISION]

A row is worse if it takes more than 3 in 100 machine instructions more than in that revision, HEAD if none is named, or if it is
gone. Times aren't compared, since they differ from hour to hour. Status 1 if a row is worse.
"""
from __future__ import annotations

import subprocess
import sys

from rows import FIGURES, Row, load_figures, parse_figures, words

ALLOWED = 1.03


def committed(revision: str) -> list[Row]:
    """The figures of a revision; none where it has no such file."""
    path = f"{revision}:bench/{FIGURES.name}"
    done = subprocess.run(["git", "show", path], cwd=FIGURES.parent, stdout=subprocess.PIPE, stderr=subprocess.DEVNULL, text=True)
    return [] if done.returncode else parse_figures(done.stdout)


def worse(before: list[Row], now: list[Row]) -> list[str]:
    """A line for each row that takes more machine instructions than is allowed, and for each that is gone."""
    found = {(row.part, row.name): row for row in now}
    told = []
    for old in before:
        new = found.get((old.part, old.name))
        if new is None or (old.ours is not None and new.ours is None):
            told.append(f"{old.part}, {old.name}: gone")
        elif old.ours is not None and new.ours is not None and new.ours > ALLOWED * old.ours:
            told.append(f"{old.part}, {old.name}: {new.ours:g} machine instructions, {old.ours:g} before")
    return told


def main() -> None:
    revision = (words("worse.py [REVISION]", 0, 1) or ["HEAD"])[0]
    before, now = committed(revision), load_figures()
    told = worse(before, now)
    for line in told:
        print(line)
    print(f"{len(now)} rows, {len(before)} in {revision}: {len(told)} worse")
    sys.exit(1 if told else 0)


if __name__ == "__main__":
    main()

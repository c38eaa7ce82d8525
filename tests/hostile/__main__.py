"""Gives parts hostile input: python3 -m hostile PROGRAM SECONDS SEED [PART..]

With 0 seconds only the corpus and what was kept are run. The first case that fails is made shorter, kept, and told.
"""
from __future__ import annotations

import sys
import time
from typing import Callable

from hostile.editors import Dap
from hostile.frame import Part, cases_of, keep, kept, shorter, stored
from hostile.lines import Front
from hostile.objects import Dwarf, Elf
from hostile.replies import Gateway

PARTS: dict[str, Callable[[str], Part]] = {"elf": Elf, "dwarf": Dwarf, "dap": Dap, "gateway": Gateway, "front": Front}


def run(part: Part, seconds: float, seed: str) -> str:
    """Runs stored cases, and others until the time is over. What was done; a failure ends the program."""
    corpus = stored(part.name)
    if why := part.begin(corpus):
        sys.exit(f"{part.name}: the corpus itself: {why}")
    for path in kept(part.name):
        if why := part.wrong(path.read_bytes()):
            sys.exit(f"{part.name}: {path}: {why}")
    until, count = time.monotonic() + seconds, 0
    for case in cases_of(part, seed, corpus):
        if time.monotonic() > until:
            break
        count += 1
        if why := part.wrong(case):
            first, least = keep(part.name, case), shorter(case, part.wrong)
            if least != case:
                first.unlink()
            sys.exit(f"{part.name}, case {count - 1} of seed {seed}, kept as {keep(part.name, least)}: {part.wrong(least) or why}")
    return f"{part.name}: {len(corpus) + len(kept(part.name))} stored cases, {count} of seed {seed}"


def main() -> None:
    if len(sys.argv) < 4 or not set(sys.argv[4:]) <= set(PARTS):
        sys.exit(__doc__)
    program, seconds, seed, *names = sys.argv[1:]
    for name in names or PARTS:
        part = PARTS[name](program)
        try:
            print(run(part, float(seconds), seed), flush=True)
        finally:
            part.close()


if __name__ == "__main__":
    main()

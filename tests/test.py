#!/usr/bin/env python3
"""Whether everything works, without a proof, in minutes: test.py RT

Builds the program as `make try` does, and runs the scripts over it. Beside that it runs the tests of every crate by `rt try --test`, many crates in
one compilation, as many at a time as processors and memory allow. At the end comes what looks at time. The last line is `N passed, M failed`: tests
of crates and scripts.
"""
from __future__ import annotations

import concurrent.futures
import functools
import os
import re
import sys
import time
from typing import Callable, Sequence

from lib.calls import ALONE, FORM, SLEEPING, TEST, Done, call_script, jobs, need_toolchain
from lib.joined import TOGETHER, counts, joined, tried
from lib.sources import ROOT, crates, tests_in

Call = Callable[[], Done]
PROGRAM = "out/bpfagent-unproved"
# How many bytes of memory the building and running of crates' tests takes at most. How many seconds that, or a script, may take, also on a busy
# machine.
OF_A_CRATE = 4_000_000_000
SECONDS = 3600
# How long the tests of crates that are compiled together may take, in seconds, also on a machine that does much else.
OF_A_GROUP = 3600
# How long a test may run, in seconds. The limit of `rt` itself is 60, which the slowest test reaches on a machine that does much else.
OF_A_TEST = 300
RESULT = re.compile(r"(?m)^test result: \w+\. (\d+) passed; (\d+) failed;")
# How many lines of a part that fails are shown, and how much of each.
SHOWN, WIDTH = 40, 300


def of_crate(rt: str, crate: str) -> Done:
    """The tests of a crate, without a proof."""
    start = time.monotonic()
    status, output = tried(rt, ROOT / "crates" / crate, SECONDS)
    found = RESULT.search(output)
    passed, failed = (int(found[1]), int(found[2])) if found else (0, 0)
    return Done(f"crates/{crate}", passed, max(failed, int(status != 0 or passed == 0)), output, time.monotonic() - start)


def of_crates(rt: str, members: Sequence[str]) -> Done:
    """The tests of crates, compiled together. If not all pass, each crate is tried alone, and that counts."""
    start = time.monotonic()
    with joined(members) as folder:
        status, output = tried(rt, folder, OF_A_GROUP)
    wanted = {crate: tests_in(crate) for crate in members}
    passed, failed = sum(wanted.values()), 0
    if status or counts(output) != wanted:
        alone = [told(of_crate(rt, crate)) for crate in members]
        passed, failed = sum(done.passed for done in alone), sum(done.failed for done in alone)
        print("\n".join([f"test: together, {len(members)} crates ended with {status}:", *output.splitlines()[-SHOWN:]]), flush=True)
    return Done(f"crates/{{{','.join(members)}}}", passed, failed, output, time.monotonic() - start)


def told(done: Done) -> Done:
    print(f"test: {done.name}: {done.passed} passed{f', {done.failed} FAILED' if done.failed else ''}, {done.seconds:.0f} s", flush=True)
    if done.failed:
        lines = [line[:WIDTH] for line in done.output.splitlines() if not line.endswith(" ... ok")]
        print("\n".join(lines[-SHOWN:]), flush=True)
    return done


def groups() -> list[list[str]]:
    """The crates that have tests, those of a list that are compiled together."""
    left = [crate for crate in crates() if tests_in(crate)]
    named = [[crate for crate in group if crate in left] for group in TOGETHER]
    return [*named[:-1], named[-1] + [crate for crate in left if not any(crate in group for group in TOGETHER)]]


def side_by_side(first: Sequence[Call], others: Sequence[Call], width: int) -> list[Done]:
    """Makes so many calls at a time. Those of `others` wait for the end of the first one, since they need what it builds."""

    def made(it: Call) -> Done:
        return told(it())

    with concurrent.futures.ThreadPoolExecutor(width) as pool:
        begun = [pool.submit(made, it) for it in first]
        begun[0].result()
        begun += [pool.submit(made, it) for it in others]
        return [it.result() for it in begun]


def main() -> None:
    if len(sys.argv) != 2:
        sys.exit(__doc__)
    rt, start = sys.argv[1], time.monotonic()
    need_toolchain(rt)
    os.environ.setdefault("RT_SECONDS", str(OF_A_TEST))

    def scripts(lines: Sequence[str]) -> list[Call]:
        return [functools.partial(call_script, line, rt, PROGRAM, SECONDS) for line in lines]

    # What takes long comes first.
    built: list[Call] = [*scripts(["tools/build.py RT try"]), *(functools.partial(of_crates, rt, group) for group in groups())]
    found = side_by_side(built, scripts([*TEST, *FORM]), jobs(OF_A_CRATE))
    found += side_by_side(scripts(SLEEPING), [], len(SLEEPING))
    found += [told(it()) for it in scripts(ALONE)]
    passed, failed = sum(done.passed for done in found), sum(done.failed for done in found)
    print(f"test: {(time.monotonic() - start) / 60:.1f} minutes on {len(os.sched_getaffinity(0))} processors", flush=True)
    print(f"{passed} passed, {failed} failed", flush=True)
    sys.exit(1 if failed or not passed else 0)


if __name__ == "__main__":
    main()

#!/usr/bin/env python3
"""The gate: gate.py RT, or gate.py --quick [RT] for what takes seconds.

First the scripts of form/, and whether a crate has changed since its edits in edits/ were tried. Then `rt ci`, with a line on how far
it is, and beside it the scripts over the program, from when `rt ci` has built that. Then what calls the toolchain or looks at times, and the library for
C. The last line is that of `rt ci`; whatever else fails is counted in it.
"""
from __future__ import annotations

import concurrent.futures
import os
import re
import resource
import subprocess
import sys
import time
from typing import Callable, Iterable

import edits
from form import listed
from lib.calls import ALONE, ALONE_PROVED, EITHER, FORM, LIBRARY, PROVE, SLEEPING, Done, call_script, jobs, need_toolchain
from lib.sources import ROOT, crates

BUILT = ["crates/bpfagent/out/bpfagent", "crates/bpfagent/out/bpfagent.by-rattle"]
PROVED = re.compile(r"rt: \w+(: its tests are)? proved$")
# What `rt ci` says once the program is built.
BUILDS = re.compile(r"rt: bpfagent (proved$|is kept: )")
LAST = re.compile(r"(\d+) passed, (\d+) failed")
# How long a script may take, in seconds, also on a slow machine: one that hangs fails.
SECONDS = 4 * 3600
# What a check may take of memory, in bytes. A check that spreads over several processors takes up to half as much again.
OF_A_CHECK = 5_000_000_000


def told(done: Done) -> int:
    """Tells what a script says and how long it took; how many failed."""
    print("\n".join(filter(None, [done.output, f"gate: {done.name}: {'FAILED, ' * done.failed}{done.seconds:.0f} s"])), flush=True)
    return done.failed


def failures_of(lines: Iterable[str], rt: str = "") -> int:
    """How many of these scripts fail, over the proved programs."""
    return sum(told(call_script(line, rt, str(ROOT / program), SECONDS)) for line in lines for program in (BUILT if "BOTH" in line else BUILT[:1]))


def spent(start: float) -> str:
    """How long the gate has taken, by the clock and by the processors."""
    used = [resource.getrusage(who) for who in (resource.RUSAGE_SELF, resource.RUSAGE_CHILDREN)]
    of_processors = sum(it.ru_utime + it.ru_stime for it in used) / 60
    return f"{(time.monotonic() - start) / 60:.0f} minutes, {of_processors:.0f} of processor time, on {len(os.sched_getaffinity(0))} processors"


def run_ci(rt: str, is_built: Callable[[], object]) -> tuple[int, str]:
    """Passes on what `rt ci` says, but for its last line, and gives its status and that line. Tells when the program is built."""
    start, proved, tests, last = time.monotonic(), 0, 0, ""
    environment = {"RT_JOBS": str(jobs(OF_A_CHECK)), **os.environ}
    process = subprocess.Popen([rt, "ci"], cwd=ROOT, env=environment, stdout=subprocess.PIPE, stderr=subprocess.STDOUT, text=True, errors="replace")
    for line in process.stdout:
        if last:
            print(last, flush=True)
        if BUILDS.match(last):
            is_built()
        if done := PROVED.match(last):
            tests += bool(done[1])
            proved += not done[1]
            print(f"gate: {proved} of {len(crates())} crates and {tests} crates' tests proved, {(time.monotonic() - start) / 60:.0f} minutes", flush=True)
        last = line.rstrip("\n")
    return process.wait(), last


def judged(status: int, last: str) -> tuple[int, int]:
    """How much passed and failed by what `rt ci` says. Each crate and each edit is one that has to pass."""
    found = LAST.fullmatch(last)
    if not found:
        print(f"gate: rt ci ended with: {last}")
        return 0, 1
    passed, failed = int(found[1]), int(found[2])
    wanted = len(crates()) + listed.edits()
    if passed + failed < wanted:
        print(f"gate: rt ci tried {passed + failed}, and there are {wanted} crates and edits")
        failed += 1
    return passed, failed + (status != 0 and failed == 0)


def prove(rt: str, start: float) -> tuple[int, int]:
    """How much passed and failed by `rt ci`, and of the scripts over what is proved."""
    with concurrent.futures.ThreadPoolExecutor(2) as pool:
        beside: list[concurrent.futures.Future[int]] = []
        passed, failed = judged(*run_ci(rt, lambda: beside.append(pool.submit(failures_of, EITHER, rt))))
        print(f"gate: rt ci: {spent(start)}", flush=True)
        if not beside:
            print("gate: rt ci has built no program", flush=True)
            return passed, failed + 1
        failed += sum(ended.result() for ended in beside)
        failed += sum(pool.map(lambda lines: failures_of(lines, rt), (PROVE, LIBRARY)))
    with concurrent.futures.ThreadPoolExecutor(len(SLEEPING)) as pool:
        failed += sum(pool.map(lambda line: failures_of([line], rt), SLEEPING))
    return passed, failed + failures_of([*ALONE, *ALONE_PROVED], rt)


def main() -> None:
    if not sys.argv[1:]:
        sys.exit(__doc__)
    is_quick, given = "--quick" in sys.argv, [word for word in sys.argv[1:] if word != "--quick"]
    rt = given[0] if given else "rt"
    need_toolchain(rt)
    start = time.monotonic()
    failed = failures_of(FORM, rt)
    failed += edits.say_changed() > 0
    if failed or is_quick:
        print(f"{len(FORM) + 1 - failed} passed, {failed} failed")
        sys.exit(1 if failed else 0)
    passed, failed = prove(rt, start)
    print(f"gate: {spent(start)}", flush=True)
    print(f"{passed} passed, {failed} failed", flush=True)
    sys.exit(1 if failed else 0)


if __name__ == "__main__":
    main()

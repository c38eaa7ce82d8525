"""What `make test` and `make prove` run over the program. A line is a call; a new script gets a line in EITHER or ALONE, or in TEST and in PROVE.

PROGRAM is the program: that of `make try` for `make test`, the proved one for `make prove`. `make prove` calls those with BOTH a second time, with
the program of Rattle's own compiler. RT is the toolchain's command.
"""
from __future__ import annotations

import os
import pathlib
import shutil
import subprocess
import sys
import time
from dataclasses import dataclass

from lib.sources import ROOT

FORM = [
    *(f"tests/form/{name}.py" for name in ("definitions", "generated", "failures", "documents", "kinds", "listed", "planted")),
    "tests/form/formatted.py RT",
]

# What both targets run, one by one; `make prove` from when `rt ci` has built the program, beside what it still does. So none of them calls the
# toolchain.
EITHER = [
    "tests/product/python_package.py PROGRAM",
    "tests/product/program.py BOTH",
    "tests/product/store.py BOTH",
    "tests/product/deploy.py PROGRAM",
    "tests/product/header.py",
    "tests/product/yardsticks.py",
    "tests/product/manual.py PROGRAM",
    "tests/product/install.py PROGRAM",
    "tests/product/verbose.py PROGRAM",
    "tests/product/keeping.py PROGRAM",
    "tests/product/spelling.py PROGRAM",
    "tests/product/explained.py PROGRAM",
    "tests/product/fuzzing.py",
    "tests/product/door.py PROGRAM",
    "tests/product/conformance.py PROGRAM",
    "tests/product/client.py PROGRAM",
    "tests/product/protocol.py PROGRAM",
]
# Beside the tests of crates.
TEST = [*EITHER, "tests/product/sweep.py PROGRAM --thin", "tests/product/fuzz.py PROGRAM 0"]
# After `rt ci`, beside those of LIBRARY.
PROVE = [
    "tests/form/generated.py --vectors",
    "tests/product/fuzz.py PROGRAM 30 --part agent",
    "tests/product/fuzz.py PROGRAM 5 --part elf --part dwarf --part dap --part gateway --part front",
    "tests/product/sweep.py PROGRAM",
    "tests/product/refusals.py RT",
    "tools/build.py RT stamp",
    "tests/product/targets.py RT",
]
# One by one. The first proves the library's crate once more, over what `rt ci` has left, since that builds no library.
LIBRARY = [
    "tools/library.py RT --over-ci",
    "tests/product/embed.py RT",
    "tests/product/fuzz.py PROGRAM 10 --part library",
    "tests/product/python_package.py PROGRAM --library test_engine test_agent test_ship test_shipping test_terminal test_stepping "
    "test_adapter test_protocol test_wrong_words test_wheel test_fleet",
    "tests/product/consumer.py RT PROGRAM",
    "tests/product/packages.py PROGRAM",
]
# After the others of both targets, side by side: the first takes all processors at times, and the others sleep most of the time.
SLEEPING = [
    "tests/product/python_package.py PROGRAM test_fleet",
    "tests/product/silence.py PROGRAM",
    "tests/product/far_client.py PROGRAM",
    "tests/product/connects.py PROGRAM",
]
# After those, one by one, since they look at how long something takes.
ALONE = [
    "tests/product/service.py BOTH",
    "tests/product/turns.py PROGRAM",
    "tests/product/waiting.py PROGRAM",
]
# After those, with the proved program alone.
ALONE_PROVED = ["tests/product/memory.py PROGRAM"]


@dataclass
class Done:
    """What a call came to: of a script one passed or failed, of a crate its tests."""

    name: str
    passed: int
    failed: int
    output: str
    seconds: float


def need_toolchain(rt: str) -> None:
    """Ends the script with a line that says so where the toolchain's command isn't there."""
    if not shutil.which(rt):
        sys.exit(f"{rt} can't be run: it belongs to the Rattle toolchain, see 'What it needs' in README.md")


def jobs(memory: int) -> int:
    """How many programs that take so many bytes of memory run side by side, each on one processor."""
    there = os.sysconf("SC_PAGE_SIZE") * os.sysconf("SC_PHYS_PAGES")
    return max(1, min(len(os.sched_getaffinity(0)), there // memory))


def call(name: str, words: list[str], folder: pathlib.Path = ROOT, seconds: float | None = None) -> Done:
    """Calls a command, and waits until it ends."""
    start = time.monotonic()
    try:
        done = subprocess.run(
            words, cwd=folder, stdin=subprocess.DEVNULL, stdout=subprocess.PIPE, stderr=subprocess.STDOUT, text=True, errors="replace", timeout=seconds
        )
        passed, output = int(done.returncode == 0), done.stdout.rstrip()
    except subprocess.TimeoutExpired as slow:
        said = slow.output.decode(errors="replace") if isinstance(slow.output, bytes) else slow.output or ""
        passed, output = 0, f"{said}\nit hadn't ended after {seconds:.0f} seconds"
    return Done(name, passed, 1 - passed, output, time.monotonic() - start)


def call_script(line: str, rt: str, program: str, seconds: float | None = None, folder: pathlib.Path = ROOT) -> Done:
    """Calls a script of the lists above, in the repository or a copy of it."""
    words = [{"BOTH": program, "PROGRAM": program, "RT": rt}.get(word, word) for word in line.split()]
    return call(" ".join(words), [sys.executable, *words], folder, seconds)

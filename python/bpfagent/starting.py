"""How bpfagent is started: which program, and in which environment."""
from __future__ import annotations

import os
import re
import shutil
import subprocess
from typing import Iterable, Sequence

from .printable import printable

NAMED = "BPFAGENT"
# The C library keeps a block of so many bytes or more outside of its heap. So an object that leaves frees its memory, as
# docs/FAR-MEMORY.md says.
THRESHOLD_NAME, THRESHOLD = "MALLOC_MMAP_THRESHOLD_", "32768"

# What stands before a line of `-v`, and the lines of a fault that have no details.
TIME = re.compile("[0-9-]+T[0-9:.]+Z ")
BARE = ("net fault", "read fault", "write fault", "no memory", "far server can't be reached")


def environment() -> dict[str, str]:
    """The environment of this process, with the threshold unless it is set there."""
    return {THRESHOLD_NAME: THRESHOLD, **os.environ}


def telling(arguments: Sequence[str]) -> list[str]:
    """Options of `serve` with -v, which may be given only once."""
    return [*arguments] if {"-v", "--verbose"} & {*arguments} else ["-v", *arguments]


def reason_of(told: Iterable[str]) -> str:
    """Why a service ended, by what it told with -v, behind a colon; empty if it told nothing."""
    lines = [line for line in told if line and line not in BARE]
    alone = [line for line in lines if not TIME.match(line)]
    return f": {printable(TIME.sub('', (alone or lines[-1:])[0], 1))}" if lines else ""


def ended(program: str, *arguments: str, given: bytes, seconds: float) -> subprocess.CompletedProcess[bytes]:
    """The end of bpfagent with these arguments and this input, and what it wrote. It may take so many seconds."""
    return subprocess.run([program, *arguments], input=given, capture_output=True, timeout=seconds, env=environment())


def found_program() -> str:
    """The path of bpfagent: that of the environment's BPFAGENT, or else the one on PATH. `FileNotFoundError` says what was tried."""
    named = os.environ.get(NAMED)
    if named:
        if not shutil.which(named):
            raise FileNotFoundError(f"{named} can't be run, and {NAMED} names it")
        return named
    path = os.environ.get("PATH", os.defpath)
    found = shutil.which("bpfagent", path=path)
    if not found:
        raise FileNotFoundError(f"there is no bpfagent: {NAMED} isn't set, and PATH has none in {path}")
    return found

"""What the examples by task share: programs of examples/c, compiled from their sources, and faults as a line."""
from __future__ import annotations

import pathlib
import sys
from typing import Callable

from bpfagent import Broken, NotExited, Refused, Unloadable, load
from bpfagent.image import program_path

SOURCES = pathlib.Path(__file__).resolve().parents[1] / "c"
FUEL = 10_000_000
SECONDS = 60.0


def code(name: str) -> bytes:
    """The raw code of a program of examples/c."""
    return load(SOURCES / f"{name}.c").code


def run(example: Callable[[str], None]) -> None:
    """Runs an example with the program that the command line names, BPFAGENT, or the one on PATH. What goes wrong is a line."""
    try:
        example(program_path(sys.argv[1] if sys.argv[1:] else None))
    except (Broken, NotExited, Refused, Unloadable, OSError) as why:
        sys.exit(f"{pathlib.Path(sys.argv[0]).name}: {why}")

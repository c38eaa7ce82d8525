"""The programs of this package. Each calls `keep` before it imports its own module, so an interrupt ends it quietly from then on."""
from __future__ import annotations

import importlib
import sys
from typing import NoReturn

from .interrupt import keep


def run(module: str) -> NoReturn:
    """Does what the `main` of a module does, and ends the process."""
    keep()
    importlib.import_module(f"bpfagent.{module}").main()
    sys.exit()


def ship() -> NoReturn:
    """`bpfagent-ship`."""
    run("ship")


def debug() -> NoReturn:
    """`bpfagent-debug`."""
    run("debug.main")


def redis() -> NoReturn:
    """`bpfagent-redis`."""
    run("gateway")


def front() -> NoReturn:
    """`bpfagent-front`."""
    run("front.main")


def cli() -> NoReturn:
    """`bpfagent-cli`."""
    run("cli")

"""What `bpfagent-redis` says of Redis: when it begins to fail, and when it works again."""
from __future__ import annotations

import contextlib
import os
import threading

from .printable import printable

STDERR = 2
# How much is shown of what Redis says, which may be long.
SHOWN = 200


class Unkept(Exception):
    """Redis can't be reached, or it answered an error. `is_reached` says which."""

    def __init__(self, why: str, is_reached: bool = True) -> None:
        super().__init__(why.strip() or "an error without a text")
        self.is_reached = is_reached


class Health:
    """Says on standard error when Redis begins to fail and when it works again: one line each, however often it is asked."""

    def __init__(self) -> None:
        self._wrong: set[str] = set()
        self._lock = threading.Lock()
        # Set when Redis can be reached again; who waits for that clears it.
        self.is_back = threading.Event()

    def failed(self, command: str, fault: Unkept) -> None:
        """A command failed. If Redis wasn't reached, that holds for all commands."""
        what = command if fault.is_reached else ""
        with self._lock:
            is_new = what not in self._wrong
            self._wrong.add(what)
        if is_new:
            say(str(fault) if fault.is_reached else f"can't be reached: {fault}")

    def worked(self, command: str) -> None:
        """A command was done."""
        with self._lock:
            over = self._wrong & {"", command}
            self._wrong -= over
        if "" in over:
            say("can be reached again")
            self.is_back.set()
        if command in over:
            say(f"{command} works again")


def say(text: str) -> None:
    """A line about Redis. If nobody can read it, it is lost, and the clients are served all the same."""
    with contextlib.suppress(OSError):
        os.write(STDERR, f"redis: {printable(text[:SHOWN])}\n".encode(errors="backslashreplace"))

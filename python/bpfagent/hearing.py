"""Hears what a started program tells on its standard error."""
from __future__ import annotations

import atexit
import contextlib
import os
import select
import socket
import threading
from collections import deque
from typing import IO

from .streams import PIECE


class Hearing:
    """Keeps the lines that a program tells, in a thread. If nobody read them, the program would wait.

    The thread ends with `close`, or else before Python ends: if it woke then, it could crash Python.
    """

    def __init__(self, errors: IO[bytes], told: deque[str]) -> None:
        self._errors, self._told = errors, told
        self._wakes, self._woken = socket.socketpair()
        self._thread = threading.Thread(target=self._hear, daemon=True)
        atexit.register(self._end)
        self._thread.start()

    def _hear(self) -> None:
        """Reads to the end, or until it is woken."""
        polled, rest = select.poll(), b""
        polled.register(self._errors, select.POLLIN)
        polled.register(self._woken, select.POLLIN)
        with self._errors, self._woken:
            while self._woken.fileno() not in dict(polled.poll()) and (piece := os.read(self._errors.fileno(), PIECE)):
                *lines, rest = (rest + piece).split(b"\n")
                self._told.extend(map(text_of, lines))
            if rest:
                self._told.append(text_of(rest))

    def wait(self, seconds: float) -> None:
        """Waits for the program's last line, but no longer than so many seconds."""
        self._thread.join(seconds)

    def close(self, seconds: float) -> None:
        """Waits as `wait` does, and ends the thread. Another process may keep the program's standard error open."""
        self.wait(seconds)
        self._end()
        atexit.unregister(self._end)

    def _end(self) -> None:
        """Ends the thread. A process that was forked from this one has none."""
        if self._thread.is_alive():
            # Another thread may have done so meanwhile.
            with contextlib.suppress(OSError):
                self._wakes.shutdown(socket.SHUT_RDWR)
            self._thread.join()
        self._wakes.close()


def text_of(line: bytes) -> str:
    """A line as text, whatever its bytes are."""
    return line.decode("utf-8", "backslashreplace")

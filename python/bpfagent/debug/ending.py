"""SIGTERM and SIGHUP end the debugger as `quit` does, so that nothing it has set stays in a service."""
from __future__ import annotations

import contextlib
import os
import signal
import threading
from typing import Iterator

SIGNALS = (signal.SIGTERM, signal.SIGHUP)
# Those that may raise an exception in the main thread, which mustn't come between the thread and its end.
RAISING = (*SIGNALS, signal.SIGINT)
# How long a signal may wait for the main thread until it is sent again, in seconds.
NUDGE = 0.1


class Ending:
    """Keeps these signals while a line may be on its way to the agent. A second one gets through."""

    def __init__(self) -> None:
        self._is_open = self._is_nudged = False
        self._came: list[int] = []
        self._is_over = threading.Event()

    @contextlib.contextmanager
    def listen(self) -> Iterator[None]:
        """Hears the signals from now on, except those that are ignored. The thread ends with the block: if it woke while Python ends, it could
        crash it."""
        woken, wakes = os.pipe()
        os.set_blocking(wakes, False)
        thread = threading.Thread(target=self._nudge, args=(woken,))
        # The thread keeps this mask, so the signals come to the main thread.
        mask = signal.pthread_sigmask(signal.SIG_BLOCK, RAISING)
        thread.start()
        try:
            signal.set_wakeup_fd(wakes, warn_on_full_buffer=False)
            for number in SIGNALS:
                if signal.getsignal(number) == signal.SIG_DFL:
                    signal.signal(number, self._note)
            signal.pthread_sigmask(signal.SIG_SETMASK, mask)
            yield
        finally:
            try:
                signal.pthread_sigmask(signal.SIG_BLOCK, RAISING)
            finally:
                signal.set_wakeup_fd(-1)
                self._is_over.set()
                os.close(wakes)
                thread.join()
                os.close(woken)
                signal.pthread_sigmask(signal.SIG_SETMASK, mask)

    def _nudge(self, woken: int) -> None:
        """Sends a signal again that came just before the main thread began to wait for input: it would sleep until a key is pressed."""
        main = threading.main_thread().ident
        while numbers := os.read(woken, 64):
            for number in set(numbers).intersection(SIGNALS):
                if not self._is_over.wait(NUDGE) and main and not self._came:
                    self._is_nudged = True
                    signal.pthread_kill(main, number)

    def _note(self, number: int, _: object) -> None:
        if self._came and self._is_nudged:
            self._is_nudged = False
            return
        self._came.append(number)
        if self._is_open or len(self._came) > 1:
            self.check()

    @property
    def has_come(self) -> bool:
        """Whether a signal has come."""
        return bool(self._came)

    def check(self) -> None:
        """Ends the debugger if a signal has come."""
        if self._came:
            self._is_open = False
            raise SystemExit(128 + self._came[0])

    @contextlib.contextmanager
    def awaiting(self, is_open: bool = True) -> Iterator[None]:
        """While input is awaited a signal ends the debugger at once, also one that came before. A block within can close this again."""
        before, self._is_open = self._is_open, is_open
        try:
            if is_open:
                self.check()
            yield
        finally:
            self._is_open = before
        if before:
            self.check()

"""An interrupt ends a program of this package quietly, with status 130, also while Python still imports modules.

Importing this module has no effect. `programs` calls `keep`.
"""
from __future__ import annotations

import contextlib
import os
import signal
from typing import Iterator

INTERRUPTED = 130


def end(*_: object) -> None:
    """Ends the process at once. An exception could come within an import, which would say so."""
    os._exit(INTERRUPTED)


def keep() -> None:
    """Has an interrupt end the process at once, unless it is ignored or something else hears it."""
    if signal.getsignal(signal.SIGINT) is signal.default_int_handler:
        signal.signal(signal.SIGINT, end)


@contextlib.contextmanager
def raising() -> Iterator[None]:
    """Within it an interrupt raises `KeyboardInterrupt` again, if `keep` was called."""
    is_kept = signal.getsignal(signal.SIGINT) is end
    try:
        if is_kept:
            signal.signal(signal.SIGINT, signal.default_int_handler)
        yield
    finally:
        if is_kept:
            keep()

"""What scripts have in common: a failure, how they report, and parts that are run one after the other."""
from __future__ import annotations

import inspect
import os
import shutil
import signal
import subprocess
import sys
from typing import Callable, Iterable, Sequence

# How long a part may take, in seconds, also on a machine that does much else.
LIMIT = 1800


class Failed(Exception):
    """The program did something else than it should."""


def want(holds: object, text: str) -> None:
    if not holds:
        raise Failed(text)


def want_equal(found: object, wanted: object, what: str) -> None:
    want(found == wanted, f"{what}: {str(found)[:300]}, and not {str(wanted)[:300]}")


def report(wrong: Iterable[str], well: str) -> None:
    """Ends a script: says what is wrong, or else that all is well."""
    said = list(wrong)
    print("\n".join(said or [well]))
    sys.exit(1 if said else 0)


def give_up(*_: object) -> None:
    raise Failed("it hadn't ended in time")


def run_parts(name: str, parts: Sequence[Callable[..., str | None]], seconds: int = LIMIT) -> None:
    """Runs each part with the paths of the command line, up to the first that fails or hangs. A part may say what it did or left out."""
    given = [os.path.abspath(shutil.which(word) or word) for word in sys.argv[1:]]
    if len(given) != len(inspect.signature(parts[0]).parameters):
        sys.exit((sys.modules["__main__"].__doc__ or "").split("\n")[0])
    notes = []
    signal.signal(signal.SIGALRM, give_up)
    for part in parts:
        signal.alarm(seconds)
        try:
            notes.append(part(*given))
        except (Failed, OSError, subprocess.SubprocessError) as error:
            sys.exit(f"{name}: {part.__name__}: {error}")
    signal.alarm(0)
    print("; ".join([f"{name}: {len(parts)} parts as they should be", *filter(None, notes)]))

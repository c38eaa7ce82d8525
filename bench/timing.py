"""How long a program takes, by the processors and by the clock."""
from __future__ import annotations

import os
import subprocess
import sys
import time


def timed(*command: object) -> tuple[float, float, bytes]:
    """The processor time and the time that passed, in seconds, and what the program printed. If the program fails, this script does."""
    words = [str(word) for word in command]
    start = time.monotonic()
    process = subprocess.Popen(words, stdout=subprocess.PIPE)
    assert process.stdout is not None
    with process.stdout as output:
        printed = output.read()
    _, status, used = os.wait4(process.pid, 0)
    passed = time.monotonic() - start
    if status:
        sys.exit(f"{' '.join(words)}: status {status}, {printed!r}")
    return used.ru_utime + used.ru_stime, passed, printed

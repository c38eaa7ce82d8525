#!/usr/bin/env python3
"""What the Python package adds to the engine: engine.py PROGRAM LIBRARY

Ten million instructions of a counting loop, by `bpfagent-ship` and by `continue` of `bpfagent-debug` to a breakpoint at the end, each
beside one call of the library for C over the same. What a command takes before its first instruction is the time of a short run, and
is told apart. A time is processor time. Of several rounds the median counts; they are interleaved.
"""
from __future__ import annotations

import os
import pathlib
import resource
import statistics
import subprocess
import sys
import tempfile
import time

ROOT = pathlib.Path(__file__).resolve().parent.parent
sys.path.insert(0, str(ROOT / "python"))
from bpfagent import Engine, Stopped

LOOP = "mov r0, 0\nagain: add r0, 1\njlt r0, r1, again\nexit\n"
LAST_SLOT, ROUNDS, SECONDS = 3, 9, 120
LONG, SHORT = 5_000_000, 1
FUEL = 20_000_000


def spent() -> float:
    """Processor time of the commands that have ended."""
    used = resource.getrusage(resource.RUSAGE_CHILDREN)
    return used.ru_utime + used.ru_stime


def timed(command: list[str], given: str = "") -> float:
    begun = spent()
    done = subprocess.run(command, input=given, stdout=subprocess.PIPE, stderr=subprocess.STDOUT, text=True, timeout=SECONDS)
    took = spent() - begun
    if done.returncode:
        sys.exit(f"{' '.join(command)} ends with {done.returncode}:\n{done.stdout}")
    return took


def shipped(source: str, count: int) -> float:
    return timed([sys.executable, "-m", "bpfagent.ship", f"--fuel={FUEL}", source, str(count)])


def debugged(source: str, count: int) -> float:
    given = f"break *{LAST_SLOT}\ncontinue\ncontinue\n"
    return timed([sys.executable, "-m", "bpfagent.debug.main", f"--fuel={FUEL}", source, str(count)], given)


def called(code: bytes, count: int) -> float:
    with Engine() as engine:
        machine = engine.ship(code, FUEL, count)
        begun = time.process_time()
        # a run of the package is cut into chunks, between which signals are heard
        _, ended = engine._advance(engine._library.long_calls["run"], machine, FUEL)
        took = time.process_time() - begun
    if not isinstance(ended, Stopped) or ended.value != count:
        sys.exit(f"the loop ended with {ended}")
    return took


def main() -> None:
    program, library = sys.argv[1:]
    os.environ.update(BPFAGENT=os.path.abspath(program), BPFAGENT_LIBRARY=os.path.abspath(library), PYTHONPATH=str(ROOT / "python"))
    taken: dict[str, list[float]] = {name: [] for name in ("call", "ship", "ship first", "debug", "debug first")}
    with tempfile.TemporaryDirectory() as folder:
        # modules are compiled once, as where the package is installed
        os.environ["PYTHONPYCACHEPREFIX"] = folder
        os.environ.pop("PYTHONDONTWRITEBYTECODE", None)
        source = pathlib.Path(folder) / "loop.asm"
        source.write_text(LOOP)
        code = Engine.assemble(LOOP)
        shipped(str(source), SHORT)
        debugged(str(source), SHORT)
        for _ in range(ROUNDS):
            taken["call"].append(called(code, LONG))
            taken["ship"].append(shipped(str(source), LONG))
            taken["ship first"].append(shipped(str(source), SHORT))
            taken["debug"].append(debugged(str(source), LONG))
            taken["debug first"].append(debugged(str(source), SHORT))
    median = {name: statistics.median(times) for name, times in taken.items()}
    for name, title in (("ship", "bpfagent-ship"), ("debug", "bpfagent-debug, continue")):
        ran = median[name] - median[f"{name} first"]
        first = f"before the first instruction {1e3 * median[f'{name} first']:.0f} ms"
        print(f"{title}: {1e3 * ran:.1f} ms, one call {1e3 * median['call']:.1f} ms, ratio {ran / median['call']:.2f}; {first}", flush=True)


if __name__ == "__main__":
    main()

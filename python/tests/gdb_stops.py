"""Run by gdb's own Python: where a program stops. gdb -batch -ex 'py TASKS = ..' -x gdb_stops.py PROGRAM; the last line is JSON.

A task is [KIND, PLACE, COUNT]. The stops of `next`, `step` and `break` go until the program has returned; those of `finish` are the frames at
each stop at the place, and the place behind it.
"""
from __future__ import annotations

import json
from typing import Any

import gdb

# KIND, PLACE and COUNT of each task, set before this is read.
TASKS: list[tuple[str, str, int]] = globals()["TASKS"]


def frames() -> list[Any]:
    """The frames down to `program`, the innermost first, as function and line; none if it has returned."""
    found: list[Any] = []
    frame = gdb.newest_frame()
    while frame is not None:
        found.append([frame.name(), frame.find_sal().line])
        if frame.name() == "program":
            return found
        frame = frame.older()
    return []


def is_running() -> bool:
    """Whether the program hasn't ended."""
    return bool(gdb.selected_inferior().pid)


def stops(kind: str, place: str, most: int) -> list[Any]:
    """The stops of a task."""
    gdb.execute("delete", to_string=True)
    gdb.execute("break program" if kind in ("next", "step") else f"break {place}", to_string=True)
    gdb.execute("run", to_string=True)
    found: list[Any] = []
    while is_running() and len(found) < most and (here := frames()):
        if kind == "finish":
            gdb.execute("finish", to_string=True)
            found.append([here, (frames() if is_running() else [])[:1]])
            gdb.execute("continue", to_string=True)
        else:
            found.append(here[0])
            gdb.execute("continue" if kind == "break" else kind, to_string=True)
    if is_running():
        gdb.execute("kill", to_string=True)
    return found


gdb.execute("set confirm off")
gdb.execute("set pagination off")
# Whoever stops this machine's processes for a while doesn't end a task.
gdb.execute("handle SIGSTOP SIGCONT nostop noprint nopass", to_string=True)
print(json.dumps([stops(*task) for task in TASKS]))

"""The debugger's stops beside those of gdb, which runs the same program on this machine: for `next`, `step`, `break`, `backtrace` and `finish`.

Some programs are compared here, and all ten at each level of optimization with BPFAGENT_GDB=all, which also prints the table of what differs.
The stops are the same in the same order, but for the lines in DIFFER, each with its reason.
"""
from __future__ import annotations

import collections
import json
import os
import pathlib
import shutil
import subprocess
import tempfile
import unittest
from typing import Any, Callable, Iterator, Optional

from bpfagent.debug.engine import Goal
from bpfagent.debug.points import Terms
from bpfagent.debug.session import Plan, Session
from bpfagent.debug.stepping import Stepper
from support import SECONDS, has_elftools

HERE = pathlib.Path(__file__).resolve().parent
PROGRAMS = sorted((HERE / "stepping").glob("*.c"))
SHORT = (("nested", "-O2"), ("loops", "-O0"))
LEVELS = ("-O0", "-O1", "-O2")
# No program makes more stops.
MOST = 60
ARGUMENT = "3"
# The functions of each program in which `backtrace` and `finish` are tried.
INNER = {
    "calls": "third",
    "choices": "chosen",
    "early": "found",
    "inlined": "twice",
    "looped": "more",
    "nested": "inner",
    "recursion": "sum_to",
    "spread": "joined",
}
# Why stops differ, and at which lines: of a function, and of `finish`.
WHY = {
    "return": "this machine's code returns without an instruction of this line",
    "first": "this machine's code begins the function with instructions of its first line, which save registers",
    "address": "BPF's code takes the address of a local variable before a call, once more by its own line",
    "merged": "clang makes code of its own of this line for one of the two, or moves it elsewhere",
    "jump": "without optimization clang leaves a jump to the next instruction there for one of the two",
    "turns": "the debugger stops at each turn of a loop, and gdb at its begin alone",
    "inside": "gdb's place in the function is within its loop",
}
DIFFER: dict[str, dict[str, str]] = {
    **{f"calls {level}": {"return": "program:18", "first": "second:8"} for level in ("-O1", "-O2")},
    "choices -O0": {"address": "program:18 program:19", "jump": "chosen:13"},
    **{f"choices {level}": {"first": "chosen:3", "merged": "chosen:15"} for level in ("-O1", "-O2")},
    "early -O1": {"return": "program:18", "first": "found:3", "merged": "found:5 found:7 found:9"},
    "early -O2": {"return": "program:18"},
    **{f"inlined {level}": {"merged": "twice:6"} for level in ("-O1", "-O2")},
    "looped -O0": {"address": "program:11 program:12 program:13 program:14", "inside": "finish"},
    **{f"looped {level}": {"merged": "more:6"} for level in ("-O1", "-O2")},
    "loops -O0": {"jump": "program:11", "turns": "program:9"},
    "loops -O1": {"merged": "program:7", "turns": "program:5"},
    "loops -O2": {"turns": "program:5"},
    **{f"nested {level}": {"return": "program:25"} for level in ("-O1", "-O2")},
    "recursion -O0": {"address": "program:13 program:14"},
    **{f"recursion {level}": {"first": "sum_to:3"} for level in ("-O1", "-O2")},
    "spread -O0": {"address": "program:9"},
    **{f"spread {level}": {"address": "program:11 program:12", "return": "program:16"} for level in ("-O1", "-O2")},
}
Stops = list[Any]
Task = tuple[str, str, int]


def tasks_of(source: pathlib.Path) -> list[Task]:
    """What is tried on a program."""
    marked = [number for number, line in enumerate(source.read_text().splitlines(), 1) if "// break" in line]
    found: list[Task] = [("next", "", MOST), ("step", "", MOST), *(("break", f"{source.name}:{number}", MOST) for number in marked)]
    return [*found, *([("finish", INNER[source.stem], MOST)] if source.stem in INNER else [])]


def by_gdb(source: pathlib.Path, level: str, folder: str) -> list[Stops]:
    """The stops that gdb makes."""
    program = f"{folder}/{source.stem}{level}"
    subprocess.run(["clang", "-g", level, "-o", program, str(source)], check=True, timeout=SECONDS)
    tasks = f"py TASKS = {[list(task) for task in tasks_of(source)]!r}"
    command = ["gdb", "-nx", "-q", "-batch", "-ex", tasks, "-x", str(HERE / "gdb_stops.py"), program]
    done = subprocess.run(command, stdin=subprocess.DEVNULL, capture_output=True, text=True, timeout=SECONDS)
    if not done.stdout.strip():
        raise AssertionError(f"gdb: {done.stderr}")
    found: list[Stops] = json.loads(done.stdout.strip().splitlines()[-1])
    return found


class Ours:
    """The debugger over one program."""

    def __init__(self, source: pathlib.Path, level: str) -> None:
        self._plan = Plan(str(source), [ARGUMENT], flags=[level])

    def stops(self) -> list[Stops]:
        """The stops of each task."""
        assert self._plan.file
        with Session(self._plan, lambda: None) as session:
            self._engine = session.engine
            found = []
            for task in tasks_of(pathlib.Path(self._plan.file)):
                found.append(list(self._stops(*task)))
                session.restart()
            return found

    def _do(self, goal: Callable[[Stepper], Goal]) -> bool:
        """Has the machine do something; whether it still runs then."""
        self._engine.begin(1, goal(Stepper(self._engine, self._engine.machine(1))))
        while self._engine.is_running(1):
            self._engine.poll()
        last = self._engine.machine(1).last
        return last is not None and last.reason != "exit"

    def _frames(self) -> Stops:
        return [[frame.name, frame.at.line if frame.at else 0] for frame in self._engine.frames(1)]

    def _stops(self, kind: str, place: str, most: int) -> Iterator[Any]:
        for number in list(self._engine.breakpoints):
            self._engine.delete_breakpoint(number)
        program = self._engine.programs[0]
        text = "program" if kind in ("next", "step") else place
        self._engine.set_breakpoint(program, text, program.place(text), Terms())
        goes_on = self._do(lambda stepper: stepper.to_the_end())
        while goes_on and most:
            most -= 1
            here = self._frames()
            if kind == "finish":
                goes_on = self._do(lambda stepper: stepper.out())
                yield [here, self._frames()[:1] if goes_on else []]
                goes_on = goes_on and self._do(lambda stepper: stepper.to_the_end())
            else:
                yield here[0]
                goes_on = self._do(lambda stepper: stepper.to_the_end() if kind == "break" else stepper.line(kind == "step"))


def differences(source: pathlib.Path, level: str) -> Iterator[tuple[Task, Stops, Stops]]:
    """The tasks whose stops aren't the same: gdb's, and ours."""
    with tempfile.TemporaryDirectory() as folder:
        for task, theirs, ours in zip(tasks_of(source), by_gdb(source, level, folder), Ours(source, level).stops()):
            if theirs != ours and not (task[0] == "finish" and len(theirs) == len(ours) and all(map(is_shown, theirs, ours))):
                yield task, theirs, ours


def is_shown(theirs: Any, ours: Any) -> bool:
    """Whether we show gdb's frames and the place behind `finish`. Behind a frame whose call the protocol doesn't show there are none."""
    known = next((k for k, frame in enumerate(ours[0]) if not frame[1]), len(ours[0]))
    unknown = ours[0][known:]
    names = [frame[0] for frame in theirs[0][known : known + 1]]
    is_same = theirs[0][:known] == ours[0][:known] and names == [frame[0] for frame in unknown] if unknown else theirs[0] == ours[0]
    return bool(is_same and theirs[1] == ours[1])


def lines_of(theirs: Stops, ours: Stops) -> Optional[set[str]]:
    """The lines at which one stops more often than the other; None if the others aren't the same in the same order."""
    counts = [collections.Counter(f"{name}:{line}" for name, line in stops) for stops in (theirs, ours)]
    found = {at for at in counts[0] | counts[1] if counts[0][at] != counts[1][at]}
    rests = [[f"{name}:{line}" for name, line in stops if f"{name}:{line}" not in found] for stops in (theirs, ours)]
    return found if rests[0] == rests[1] else None


@unittest.skipUnless(shutil.which("gdb") and shutil.which("clang") and has_elftools(), "needs gdb, clang and pyelftools")
class Stopping(unittest.TestCase):
    """Where both stop."""

    def compare(self, source: pathlib.Path, level: str) -> list[str]:
        """The stops are the same but for those that DIFFER explains. Gives a line of the table for each that isn't."""
        reasons = {at: reason for reason, places in DIFFER.get(f"{source.stem} {level}", {}).items() for at in places.split()}
        told, seen = [], set()
        for task, theirs, ours in differences(source, level):
            found = {"finish"} if task[0] == "finish" else lines_of(theirs, ours)
            assert found is not None, f"{source.stem} {level} {task}: {theirs}, {ours}"
            self.assertLessEqual(found, set(reasons), f"{source.stem} {level} {task}: {theirs}, {ours}")
            seen |= found
            told += [f"{source.stem} {level} {' '.join(task[:2]).strip()}: {at}, {WHY[reasons[at]]}" for at in sorted(found)]
        self.assertEqual(seen, set(reasons), f"{source.stem} {level}")
        return told

    def setUp(self) -> None:
        done = subprocess.run(["clang", "--version"], capture_output=True, text=True, timeout=SECONDS)
        if "version 14." not in done.stdout:
            self.skipTest("the table is of the code that clang 14 makes")

    def test_some(self) -> None:
        """Some of the programs."""
        for name, level in SHORT:
            self.compare(HERE / "stepping" / f"{name}.c", level)

    @unittest.skipUnless(os.environ.get("BPFAGENT_GDB") == "all", "BPFAGENT_GDB=all compares all programs")
    def test_all(self) -> None:
        """All programs at all levels, with the table of what differs."""
        for source in PROGRAMS:
            for level in LEVELS:
                for line in self.compare(source, level):
                    print(line)


if __name__ == "__main__":
    unittest.main()

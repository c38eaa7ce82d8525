"""Tests of several crates, compiled together: `rt try --test` reads and compiles the standard library each time, which takes half a minute.

Each crate becomes a module of one crate in a folder that goes again. A test's name says which crate it is of.
"""
from __future__ import annotations

import contextlib
import os
import pathlib
import re
import shutil
import signal
import subprocess
import tempfile
import time
from typing import Iterator, Sequence

from lib.sources import ROOT, crates, crates_below

# Crates whose tests are compiled together; the last list gets those that no list names. The lists take about as long as each other.
TOGETHER = [
    ["shared_objects_tests", "workers_tests", "mover_tests", "ship_service_tests", "far_stream_tests"],
    ["memory_tests", "object_store_tests", "machine_tests", "debugger_tests", "world_tests", "console_tests"],
    ["asm_tests", "agent_tests"],
]
NAME = "joined"
# What a crate's module is called: no crate has this name, so what the module uses is still the crate.
MODULE = "tests_of_"
# A test's line. Where a test writes something, its end is in a later line.
BEGUN = re.compile(rf"(?m)^test {MODULE}(\w+?)::(\S+) \.\.\. ")
# `rt try` looks for reserved names beside what it runs, by a check that takes as long as the try. `rt ci` refuses them anyway.
LOOKED_FOR = b"--start\0no function\0"
PAUSE = 0.05


def of_module(crate: str, text: str) -> str:
    """A file of a crate as one of its module. What attributes say of proofs goes, for nothing is proved."""
    code = re.sub(r"#\[tactic\(auto,[^\]]*\]", "#[tactic(auto)]", re.sub(r"(?m)^(?:#!\[|//!).*\n", "", text))
    return re.sub(r"\bcrate::", f"crate::{MODULE}{crate}::", code)


def write_module(crate: str, sources: pathlib.Path) -> None:
    """The sources of a crate, as a module of the joined one."""
    folder = ROOT / "crates" / crate / "src"
    for path in sorted(folder.rglob("*.rt")):
        name = path.relative_to(folder)
        made = sources / (f"{MODULE}{crate}.rt" if str(name) == "lib.rt" else f"{MODULE}{crate}/{name}")
        made.parent.mkdir(parents=True, exist_ok=True)
        made.write_text(of_module(crate, path.read_text()))


@contextlib.contextmanager
def joined(members: Sequence[str]) -> Iterator[pathlib.Path]:
    """The folder of a crate that has the tests of these, in a repository of its own."""
    known = crates()
    used = list(dict.fromkeys(below for crate in members for below in known[crate]))
    needed = list(dict.fromkeys(other for crate in members for other in crates_below(crate)))
    lines = [line for line in (ROOT / "crates.txt").read_text().splitlines() if line.partition(":")[0].split(" ")[0] in needed]
    with tempfile.TemporaryDirectory() as top:
        for crate in needed:
            shutil.copytree(ROOT / "crates" / crate / "src", pathlib.Path(top, "crates", crate, "src"))
        sources = pathlib.Path(top, "crates", NAME, "src")
        sources.mkdir(parents=True)
        for crate in members:
            write_module(crate, sources)
        modules = "".join(f"#[cfg(test)]\nmod {MODULE}{crate};\n" for crate in members)
        (sources / "lib.rt").write_text(f"//! Tests of several crates.\n#![tactic(auto)]\n\n{modules}")
        pathlib.Path(top, "crates.txt").write_text("\n".join([*lines, f"{NAME}: {' '.join(used)}\n"]))
        yield sources.parent


def children(process: int) -> list[int]:
    """The processes that the first thread of a process has started and that go on."""
    with contextlib.suppress(OSError):
        return [int(word) for word in pathlib.Path(f"/proc/{process}/task/{process}/children").read_text().split()]
    return []


def end_look(process: int) -> bool:
    """Ends the check for reserved names that this `rt try` has begun; whether there was one."""
    for child in children(process):
        with contextlib.suppress(OSError):
            if LOOKED_FOR in pathlib.Path(f"/proc/{child}/cmdline").read_bytes():
                os.kill(child, signal.SIGKILL)
                return True
    return False


def tried(rt: str, folder: pathlib.Path, seconds: float) -> tuple[int, str]:
    """What `rt try --test` says of a crate, and its status."""
    begun, has_ended_look = time.monotonic(), False
    with tempfile.TemporaryFile() as said:
        with subprocess.Popen([rt, "try", "--test"], cwd=folder, stdin=subprocess.DEVNULL, stdout=said, stderr=said) as process:
            while process.poll() is None:
                has_ended_look = has_ended_look or end_look(process.pid)
                if time.monotonic() > begun + seconds:
                    process.terminate()
                    break
                with contextlib.suppress(subprocess.TimeoutExpired):
                    process.wait(PAUSE)
        said.seek(0)
        return process.returncode, said.read().decode(errors="replace")


def counts(output: str) -> dict[str, int]:
    """How many tests of each crate ended well."""
    found: dict[str, int] = {}
    names = list(BEGUN.finditer(output))
    for name, end in zip(names, [*(after.start() for after in names[1:]), len(output)]):
        if re.match(r"(?s).*?\bok\n", output[name.end() : end]):
            found[name[1]] = found.get(name[1], 0) + 1
    return found

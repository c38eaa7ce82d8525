#!/usr/bin/env python3
"""The forms of the interpreter in C, beside which a run is measured: forms.py

It compiles bench/flat.c in each form whose compiler is installed, and compares what they make of the programs that are measured: how
each stops, its registers, its stack and its object. Status 1 if one differs from the first, the `switch`.
"""
from __future__ import annotations

import os
import pathlib
import shutil
import subprocess
import sys
import tempfile
from dataclasses import dataclass
from itertools import zip_longest
from typing import Iterator, Optional, Sequence

ROOT = pathlib.Path(__file__).resolve().parents[1]
PROGRAMS = ROOT / "bench/programs"
# How long a form may take for all programs: a second where nothing is wrong.
SECONDS = 60
COMPILER = [os.environ.get("CC", "cc"), "-O2"]


@dataclass
class Form:
    """How bench/flat.c is compiled: the compilers that may do so, and the options."""

    part: str
    compilers: Sequence[str]
    options: Sequence[str] = ()

    def command(self) -> Optional[list[str]]:
        """The first compiler that can, with the options; None where there is none."""
        commands = ([compiler, "-O2", *self.options] for compiler in self.compilers)
        return next((command for command in commands if can_compile(command)), None)


def can_compile(command: list[str]) -> bool:
    if not shutil.which(command[0]):
        return False
    # an older clang has no `musttail`
    return subprocess.run([*command, "-fsyntax-only", "bench/flat.c"], cwd=ROOT, stderr=subprocess.DEVNULL).returncode == 0


SWITCH = Form("run", COMPILER[:1])
OTHERS = [
    Form("run beside clang's switch", ["clang"]),
    Form("run beside threaded C", COMPILER[:1], ["-DFLAT_THREADED"]),
    Form("run beside tail calls in C", ["clang", *COMPILER[:1]], ["-DFLAT_TAIL"]),
]


def results(command: Sequence[str], folder: pathlib.Path, names: Sequence[str] = ()) -> list[str]:
    """What a form makes of the programs that are measured, or of the code of these names in the folder."""
    with tempfile.TemporaryDirectory() as made:
        sources = ["bench/forms.c", "bench/flat.c"]
        subprocess.run([*command, "-Wall", "-Wextra", "-Werror", "-o", f"{made}/forms", *sources], cwd=ROOT, check=True)
        told = subprocess.run([f"{made}/forms", str(folder), *names], stdout=subprocess.PIPE, check=True, text=True, timeout=SECONDS)
    return told.stdout.splitlines()


def differing() -> Iterator[str]:
    """A line for each program of which a form makes something else than the first."""
    if not (first := SWITCH.command()):
        return
    wanted = results(first, PROGRAMS)
    for form in OTHERS:
        if command := form.command():
            for line, other in zip_longest(results(command, PROGRAMS), wanted):
                if line != other:
                    yield f"{form.part}: {line}, and not {other}"


def main() -> None:
    said = list(differing())
    print("\n".join(said or ["the forms of the interpreter in C make the same of all programs"]))
    sys.exit(1 if said else 0)


if __name__ == "__main__":
    main()

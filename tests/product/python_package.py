#!/usr/bin/env python3
"""Runs the tests of the Python package in python/tests, module by module, side by side: python_package.py PROGRAM [--library] [MODULE..]

Without names it runs all but test_fleet, which takes all processors. With --library agents run in the tests' own processes, by the library of `make lib`,
and without it none does. What needs a package that isn't there says that it was skipped, and names it.
"""
from __future__ import annotations

import concurrent.futures
import pathlib
import subprocess
import sys
from typing import Mapping

sys.path.insert(0, str(pathlib.Path(__file__).resolve().parents[1]))
from lib import package
from lib.checks import Failed, want
from lib.sources import ROOT

TESTS = ROOT / "python/tests"
SECONDS = 3600
# How many modules run side by side.
PROCESSES = 4
ALONE = "test_fleet"


def tests_of(module: str, environment: Mapping[str, str]) -> str:
    """Runs the tests of a module; how many there are, and what was skipped."""
    command = [package.python(), "-m", "unittest", "discover", "-v", "-s", TESTS, "-t", TESTS, "-p", f"{module}.py"]
    done = subprocess.run(
        command, stdin=subprocess.DEVNULL, stdout=subprocess.PIPE, stderr=subprocess.STDOUT, text=True, timeout=SECONDS, env=environment, cwd=ROOT
    )
    want(done.returncode == 0 and "\nRan 0 tests" not in done.stdout, f"{module}: {done.stdout}")
    lines = done.stdout.splitlines()
    return "\n".join(f"python: {module}: {line}" for line in lines if line.startswith(("Ran ", "OK")) or "... skipped" in line)


if __name__ == "__main__":
    if len(sys.argv) < 2:
        sys.exit(__doc__)
    program, *names = (word for word in sys.argv[1:] if word != "--library")
    library = package.LIBRARY if "--library" in sys.argv else ""
    if library and not library.is_file():
        sys.exit(f"python: {library} isn't there: make lib builds it")
    # The longest first, and so the wheel.
    modules = names or sorted((path.stem for path in TESTS.glob("test_*.py") if path.stem != ALONE), reverse=True)
    environment = package.environment(program, library)
    try:
        with concurrent.futures.ThreadPoolExecutor(PROCESSES) as pool:
            for said in pool.map(lambda module: tests_of(module, environment), modules):
                print(said)
    except (Failed, OSError, ValueError, subprocess.TimeoutExpired) as wrong:
        sys.exit(f"python: {wrong}")

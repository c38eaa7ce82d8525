"""Runs the commands of the Python package from its sources, without installing it."""
from __future__ import annotations

import atexit
import functools
import os
import pathlib
import shlex
import shutil
import subprocess
import sys
import tempfile

from lib.sources import ROOT

PACKAGE = ROOT / "python"
# The library for an agent in this process, as `make lib` leaves it.
LIBRARY = ROOT / "out/lib/libbpfagent.so.0"
MODULES = {
    "bpfagent-ship": "bpfagent.ship",
    "bpfagent-redis": "bpfagent.gateway",
    "bpfagent-debug": "bpfagent.debug.main",
    "bpfagent-front": "bpfagent.front.main",
    "bpfagent-cli": "bpfagent.cli",
}
# How long a Python may take to import a module.
SECONDS = 60
# Of Debian's own Python, which has what is installed by apt-get.
DEBIAN = "/usr/bin/python3"
# pyelftools, Dask and the client of Redis.
USED = ("elftools", "distributed", "redis")


@functools.lru_cache(maxsize=None)
def python() -> str:
    """This Python, or Debian's if that has more of what the package can use."""
    return max((sys.executable, DEBIAN), key=lambda path: sum(has(path, module) for module in USED))


@functools.lru_cache(maxsize=None)
def has(path: str, modules: str) -> bool:
    """Whether a Python has modules, such as "redis" or "setuptools, wheel". They aren't imported: some take a second."""
    looks = f"import importlib.util, sys; sys.exit(any(importlib.util.find_spec(name) is None for name in {modules.split(', ')!r}))"
    return bool(shutil.which(path)) and subprocess.run([path, "-c", looks], stderr=subprocess.DEVNULL, timeout=SECONDS).returncode == 0


def reads_object_files() -> bool:
    """Whether the package can read what clang makes."""
    return has(python(), "elftools")


@functools.lru_cache(maxsize=None)
def folder() -> tempfile.TemporaryDirectory[str]:
    """A folder with the package's commands, and a `python3` that has pyelftools, if there is one."""
    made = tempfile.TemporaryDirectory()
    atexit.register(made.cleanup)
    (pathlib.Path(made.name) / "python3").symlink_to(python())
    for name, module in MODULES.items():
        path = pathlib.Path(made.name) / name
        path.write_text(f'#!/bin/sh\nexec {shlex.quote(python())} -m {module} "$@"\n')
        path.chmod(0o755)
    return made


def environment(program: str | os.PathLike[str], library: str | os.PathLike[str] = "") -> dict[str, str]:
    """The environment in which the package's commands are found, this program as `bpfagent`, and this library, or none."""
    link = pathlib.Path(folder().name) / "bpfagent"
    if not link.is_symlink() or os.readlink(link) != os.path.abspath(program):
        link.unlink(missing_ok=True)
        link.symlink_to(os.path.abspath(program))
    paths = [folder().name, os.environ.get("PATH", os.defpath)]
    found = {"PATH": os.pathsep.join(paths), "BPFAGENT": os.path.abspath(program), "BPFAGENT_LIBRARY": str(library)}
    return {**os.environ, "PYTHONPATH": str(PACKAGE), "PYTHONDONTWRITEBYTECODE": "1", **found}

#!/usr/bin/env python3
"""Calls make as the pages do: targets.py RT

`make bench` says nothing beside other work, and proves the library for C once more. So only its files are looked at: each is there and compiles.
"""
from __future__ import annotations

import os
import pathlib
import re
import shutil
import subprocess
import sys

sys.path.insert(0, str(pathlib.Path(__file__).resolve().parents[1]))
from lib import package
from lib.checks import run_parts, want, want_equal
from lib.programs import run
from product.program import has_clang, talk_to
from lib.scripts import conversations
from lib.sources import ROOT

FIRST = ROOT / "crates/bpfagent"
UNPROVED = ROOT / "out/bpfagent-unproved"


def make(*arguments: str) -> str:
    """What make writes, called as by a user, and not by another make."""
    env = {name: value for name, value in os.environ.items() if not name.startswith(("MAKE", "MFLAGS", "GNUMAKE"))}
    return run("make", "--no-print-directory", *arguments, cwd=ROOT, env=env)


def show_program(rt: str) -> None:
    """The gate has proved it, so there is nothing to do, and nothing is said."""
    want_equal(make(f"RT={rt}", "program"), "", "what make program says")


def show_missing(rt: str) -> None:
    """Without the toolchain a target that builds says in a line what is missing."""
    builds = {target: " (No such file or directory)" for target in ("try", "run", "program", "lib")}
    for target, why in {**builds, "edits NAME=scopes": "", "test": "", "prove": ""}.items():
        command = ["make", "--no-print-directory", "RT=/none/rt", *target.split()]
        done = subprocess.run(command, cwd=ROOT, stdin=subprocess.DEVNULL, capture_output=True, text=True, timeout=60)
        lines = done.stderr.splitlines()
        is_told = len(lines) == 2 and f"/none/rt can't be run{why}: it belongs to the Rattle toolchain" in lines[0]
        want(done.returncode == 2 and is_told, f"make {target} without rt says {done.stderr}")


def show_run(rt: str) -> None:
    """Each command beside its reply, by the proved program, of which nothing is said."""
    talk = zip(*((FIRST / name).read_text().splitlines() for name in ("stdin", "stdout")))
    want_equal(make(f"RT={rt}", "run"), "\n".join(f"{command}\n> {reply}" for command, reply in talk), "what make run shows")


def show_try(rt: str) -> None:
    """It says that its program isn't proved, and that one holds the first conversation; `make test` looks at the rest of it."""
    said = make(f"RT={rt}", "try")
    want("is not proved" in said, f"make try says {said}")
    talk_to(str(UNPROVED), *conversations((ROOT / "crates/script_runner/data/protocol.script").read_text())[0])


def show_help(rt: str) -> None:
    """Each target that pages may name is in the list."""
    said = make("help")
    for name in ("run", "try", "program", "test", "prove", "edits", "vectors", "bench"):
        want(f"make {name} " in said, f"make help doesn't name {name}: {said}")


def show_c(rt: str) -> str | None:
    """What clang 14 and gcc make of the programs in C."""
    if not (has_clang() and package.reads_object_files() and shutil.which("gcc")):
        return "skipped what is made of programs in C, since clang 14, pyelftools or gcc isn't there"
    make(f"RT={rt}", "-C", "examples/c", "check")
    make("-C", "examples/requests", "same")
    return None


def show_no_compiler() -> None:
    """Without a C compiler bench says at once which package is missing."""
    command = [sys.executable, "-B", "bench/run.py", "/none/rt", "/none/bpfagent"]
    done = subprocess.run(command, cwd=ROOT, env={**os.environ, "CC": "/none/cc"}, stdin=subprocess.DEVNULL, capture_output=True, text=True, timeout=60)
    wanted = (1, "", "bench: there is no C compiler /none/cc: apt-get install gcc, or set CC to the path of one\n")
    want_equal((done.returncode, done.stdout, done.stderr), wanted, "what bench says without a C compiler")


def show_bench(rt: str) -> str | None:
    """What `make bench` names is there, and compiles."""
    named = re.findall(r'"((?:bench/)?\w+\.(?:py|c))"', (ROOT / "bench/run.py").read_text())
    gone = [name for name in named if not (ROOT / "bench" / name.removeprefix("bench/")).exists()]
    want(named and not gone, f"bench/run.py names {gone or named}")
    for path in sorted((ROOT / "bench").glob("*.py")):
        compile(path.read_text(), path.name, "exec")
    show_no_compiler()
    if not shutil.which("cc"):
        return "skipped what make bench compiles, since there is no C compiler"
    for path in sorted((ROOT / "bench").glob("*.c")):
        if path.name != "dpdk.c":
            run("cc", "-fsyntax-only", "-Wall", "-Wextra", "-Werror", "-Iinclude", path, cwd=ROOT)
    if not shutil.which("pkg-config") or subprocess.run(["pkg-config", "--exists", "libdpdk"]).returncode:
        return "skipped bench/dpdk.c, since libdpdk-dev isn't there"
    run("cc", "-fsyntax-only", "-Wall", "-Wextra", "-Werror", *run("pkg-config", "--cflags", "libdpdk").split(), "bench/dpdk.c", cwd=ROOT)
    return None


if __name__ == "__main__":
    run_parts("targets", [show_help, show_missing, show_program, show_run, show_try, show_c, show_bench])

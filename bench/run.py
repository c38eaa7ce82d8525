#!/usr/bin/env python3
"""Measures the proved program and its crates beside plain C, as ratios in one run: run.py RT PROGRAM [PART..]

Steps, lines, accesses to shared objects, a far store over TCP and a service, and the time of a line of assembly. Where there is
valgrind, each with its machine instructions, which repeat exactly on a busy machine too. It needs a C compiler. What was measured
is kept in bench/figures.json, a row a line, and drawn as docs/performance.svg by bars.py, which needs matplotlib; worse.py compares
it with the last commit's.
"""
from __future__ import annotations

import functools
import pathlib
import shutil
import subprocess
import sys
from typing import Callable, Iterable

from counts import PROGRAMS as MEASURED, STRAIGHT
from forms import COMPILER, OTHERS, Form, differing
from rows import Row, joined, read_rows, store_figures, words

ROOT = pathlib.Path(__file__).resolve().parents[1]
MADE = ROOT / "out/bench"
PROGRAMS = "bench/programs"
THREADS = "crates/bench_threads/out/bench_threads"
# made by `make lib`
LIBRARY = "out/lib/libbpfagent.so.0"
# How bench/dpdk.c is compiled.
DPDK: dict[str, list[str]] = {"run beside DPDK's interpreter": [], "run beside DPDK's JIT": ["-DDPDK_JIT"]}


class Bench:
    """The toolchain and the program that is measured."""

    def __init__(self, rt: str, program: str) -> None:
        self.rt, self.program = rt, program
        self.runtime = pathlib.Path(rt).resolve().parents[1] / "c/liblibc_c.a"
        self.rows: list[Row] = []

    def run(self, part: str, *command: object) -> None:
        """A command at the top of the repository. Shows what it prints, and keeps the rows of it."""
        told = []
        with subprocess.Popen([str(word) for word in command], cwd=ROOT, stdout=subprocess.PIPE, text=True) as process:
            assert process.stdout is not None
            for line in process.stdout:
                print(line, end="", flush=True)
                told.append(line)
        if process.returncode:
            raise subprocess.CalledProcessError(process.returncode, process.args)
        self.rows += read_rows(part, told)

    def python(self, part: str, script: str, *arguments: object) -> None:
        self.run(part, sys.executable, "-B", f"bench/{script}", *arguments)

    @functools.lru_cache(maxsize=None)
    def library(self, crate: str) -> pathlib.Path:
        subprocess.run([self.rt, "lib"], cwd=ROOT / "crates" / crate, stdout=subprocess.DEVNULL, check=True)
        return ROOT / f"crates/{crate}/out/lib{crate}.a"

    def threads(self) -> str:
        subprocess.run([self.rt, "run"], cwd=ROOT / "crates/bench_threads", stdout=subprocess.DEVNULL, check=True)
        return THREADS

    def worker(self) -> pathlib.Path:
        """A worker in C, whose objects are shared."""
        return self.compile("worker", "-pthread", "-DFLAT_SHARED", "bench/worker.c", "bench/flat.c")

    def replies(self) -> pathlib.Path:
        """A service in C that answers `get`."""
        return self.compile("replies", "-pthread", "-DFLAT_SHARED", "bench/replies.c")

    def linked(self, crate: str, *arguments: object, after: Iterable[str] = ()) -> pathlib.Path:
        """The program in C of these sources, with the crate of the agent behind a place that no source moves."""
        return self.compile("measured", *arguments, "bench/place.c", self.library(crate), self.runtime, *after)

    def compile(self, name: str, *arguments: object) -> pathlib.Path:
        """The program in C of this name, of these sources and with these options."""
        subprocess.run([*COMPILER, "-o", str(MADE / name), *(str(word) for word in arguments)], cwd=ROOT, check=True)
        return MADE / name


def steps(bench: Bench) -> None:
    if wrong := list(differing()):
        raise OSError("\n".join(["the forms of the interpreter in C differ", *wrong]))
    for side, title in (("steps", "Machine::step, called once an instruction"), ("runs", "World::run_machine, called once a program")):
        made = bench.linked(f"bench_{side}", "bench/steps.c", "bench/flat.c")
        count(made, MADE / f"counts_{side}")
        print(title, flush=True)
        bench.run(side[:-1], made, PROGRAMS, MADE / f"counts_{side}")
    made = bench.linked("bench_runs", "-DPLACE=16", "bench/steps.c", "bench/flat.c")
    print("World::run_machine, its code 16 bytes further", flush=True)
    bench.run("run, 16 bytes further", made, PROGRAMS, MADE / "counts_runs", "all")
    for form in OTHERS:
        beside_form(bench, form)
    beside_dpdk(bench)


def count(made: pathlib.Path, told: pathlib.Path, *words: object) -> None:
    """Counts the machine instructions of the programs."""
    with told.open("w") as counts:
        subprocess.run([sys.executable, "bench/counts.py", made, PROGRAMS, *map(str, words)], cwd=ROOT, stdout=counts, check=True)


def beside(bench: Bench, part: str, made: pathlib.Path, which: str, names: list[str]) -> None:
    """A run beside another interpreter, which is linked in the place of flat.c's `switch`."""
    count(made, MADE / "counts_beside", MADE / "counts_runs", *names)
    print(part, flush=True)
    bench.run(part, made, PROGRAMS, MADE / "counts_beside", which)


def beside_form(bench: Bench, form: Form) -> None:
    """A run beside a form of the interpreter in C, if there is a compiler for it."""
    command = form.command()
    if command is None:
        print(f"{form.part}: skipped, there is no compiler for it", flush=True)
        return
    subprocess.run([*command, "-c", "-o", str(MADE / "flat.o"), "bench/flat.c"], cwd=ROOT, check=True)
    made = bench.linked("bench_runs", *form.options, "bench/steps.c", MADE / "flat.o")
    beside(bench, form.part, made, "all", [*MEASURED, *STRAIGHT])


def beside_dpdk(bench: Bench) -> None:
    """A run beside DPDK's interpreter and beside its compiler. DPDK takes no program with a loop."""
    asked = ["pkg-config", "--cflags", "libdpdk"]
    flags = subprocess.run(asked, stdout=subprocess.PIPE, stderr=subprocess.DEVNULL, text=True) if shutil.which(asked[0]) else None
    if flags is None or flags.returncode:
        print("run beside DPDK: skipped, there is no libdpdk-dev", flush=True)
        return
    for part, options in DPDK.items():
        made = bench.linked("bench_runs", *flags.stdout.split(), *options, "bench/steps.c", "bench/dpdk.c", after=("-lrte_bpf", "-lrte_eal"))
        beside(bench, part, made, "straight", STRAIGHT)


def library(bench: Bench) -> None:
    made = bench.compile("embed", "-Iinclude", "bench/embed.c", bench.library("bpfagent_c"), bench.library("bench_steps"), bench.runtime)
    print("the library for C", flush=True)
    timed, part = len(bench.rows), "library for C"
    bench.run(part, made, PROGRAMS)
    bench.python(part, "embed.py", made, PROGRAMS)
    bench.rows[timed:] = joined(bench.rows[timed:])
    moves = bench.compile("embed_moves", "-Iinclude", "bench/embed_moves.c", bench.library("bpfagent_c"), bench.runtime)
    bench.python("move of the library", "moves.py", moves)


def lines(bench: Bench) -> None:
    bench.python("line", "lines.py", bench.program, bench.compile("lines", "bench/lines.c", "bench/flat.c"))


def assembly(bench: Bench) -> None:
    bench.python("assembly", "assembly.py", bench.program)


def shared(bench: Bench) -> None:
    bench.python("shared object", "shared.py", bench.threads(), bench.compile("shared", "-pthread", "bench/shared.c"))


def far(bench: Bench) -> None:
    bench.python("far store", "far.py", bench.threads(), bench.compile("far", "-pthread", "bench/far.c"))
    bench.python("fault", "faults.py", bench.program, bench.compile("delay", "-pthread", "bench/delay.c"))


def service(bench: Bench) -> None:
    bench.python("service", "service.py", bench.program, bench.worker(), bench.replies())


def turns(bench: Bench) -> None:
    bench.python("worker", "turns.py", bench.threads(), bench.worker())


def replies(bench: Bench) -> None:
    bench.python("replies", "replies.py", bench.program, bench.replies())


def engine(bench: Bench) -> None:
    bench.python("engine in Python", "engine.py", bench.program, LIBRARY)


def stores(bench: Bench) -> None:
    bench.python("far store's server", "stores.py", bench.program)


def front(bench: Bench) -> None:
    bench.python("front", "front.py", bench.program)


PARTS: list[Callable[[Bench], None]] = [steps, library, lines, assembly, shared, far, service, turns, replies, stores, engine, front]
# The parts without a side in C.
WITHOUT_C = {"assembly", "stores", "engine", "front"}


def missing_compiler(parts: Iterable[str]) -> str:
    """What is missing for these parts, and how to get it; empty if nothing is."""
    compiler = COMPILER[0]
    if WITHOUT_C.issuperset(parts) or shutil.which(compiler):
        return ""
    return f"there is no C compiler {compiler}: apt-get install gcc, or set CC to the path of one"


def main() -> None:
    rt, program, *named = words("run.py RT PROGRAM [PART..]", 2, 2 + len(PARTS))
    parts = {part.__name__: part for part in PARTS}
    unknown = [name for name in named if name not in parts]
    if unknown:
        print(f"bench: no part is called {', '.join(unknown)}; there are {', '.join(parts)}", file=sys.stderr)
        sys.exit(2)
    if why := missing_compiler(named or parts):
        sys.exit(f"bench: {why}")
    MADE.mkdir(parents=True, exist_ok=True)
    bench = Bench(rt, program)
    try:
        for name in named or parts:
            parts[name](bench)
    except (OSError, subprocess.SubprocessError) as wrong:
        sys.exit(f"bench: {wrong}")
    store_figures(bench.rows)
    sys.exit(subprocess.run([sys.executable, "-B", "bench/bars.py"], cwd=ROOT).returncode)


if __name__ == "__main__":
    main()

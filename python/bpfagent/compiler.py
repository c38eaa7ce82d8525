"""Calls clang for a program in C, with the flags that programs need."""
from __future__ import annotations

import functools
import os
import pathlib
import re
import subprocess
from typing import Sequence

from .objectfile import is_object_file
from .printable import printable

# The header for programs, bpfagent_program.h. The old name, bpfagent.h, is that of the library for C too.
INCLUDE = pathlib.Path(__file__).resolve().parent / "include"
# `-ffreestanding` keeps clang from the C library's headers, which don't compile for BPF.
FLAGS = ("-O2", "-g", "-gdwarf-4", "-ffreestanding", "-Wall", "-Wextra")
TARGET = ("-target", "bpfel")
# The instructions of RFC 9669. Clang before 18 has those of v3: without signed division, moves and loads that extend the sign, and far jumps.
NEWEST, OLDER = "v4", "v3"
SECONDS = 60

# What clang's messages mean, as those of versions 13 to 19 say it, and what to do about it. The first that is found counts.
ADVICE = [
    (r"bits/libc-header-start\.h|gnu/stubs-32\.h", "include bpfagent_program.h instead: there is no C library for BPF"),
    (r"XADD return value|please use 64 bit version", "compile with -mcpu=v3, which has atomic operations on 32 bits"),
    (r"please use 32/64 bit version", "use a field of 32 or 64 bits"),
    (r"Cannot select: .*AtomicLoad<", "use atomic_read and atomic_write of bpfagent_program.h"),
    (r"Cannot select: .*AtomicStore<", "use atomic_read and atomic_write of bpfagent_program.h"),
    (r"Cannot select: .*AtomicFence", "use compiler_barrier() of bpfagent_program.h"),
    (r"Cannot select: .*AtomicLoad\w+<", "use a loop with atomic_compare_exchange of bpfagent_program.h"),
    (
        r"unsupport\w* signed division|Cannot select: .*= s(?:div|rem) ",
        "divide unsigned numbers; with -mcpu=v4, which clang 18 and later have, signed ones too",
    ),
    (r"'__multi3' is not supported", "use numbers of at most 64 bits; a loop of which clang makes such a product needs compiler_barrier() inside"),
    (r"'__\w+(?:f|f2|f3|[sdt]f\w*)' is not supported", "use whole numbers"),
    (r"'(?:memcpy|memset|memmove|memcmp)' is not supported", "write a loop: the length isn't a constant"),
    (r"'(?:abort|__bpf_trap)' is not supported", "return a value instead of a trap"),
    (r"BPF stack limit", "put the array into an object"),
    (r"unsupported dynamic stack allocation", "put the array into an object"),
    (r"too many arg|stack arguments are not supported", "pass a pointer to a struct: a function takes five arguments"),
    (r"VarArgs or StructRet|aggregate returns are not supported|only small returns supported", "pass a pointer to the result"),
    (r"variadic functions are not supported", "pass a pointer to the arguments"),
]


class Uncompiled(Exception):
    """Why clang made no object file."""


@functools.lru_cache(maxsize=None)
def processor_of(clang: str) -> str:
    """The newest processor for which a clang compiles."""
    words = [clang, *TARGET, "--print-supported-cpus"]
    done = subprocess.run(words, stdin=subprocess.DEVNULL, capture_output=True, text=True, errors="replace", timeout=SECONDS)
    return NEWEST if NEWEST in (done.stdout + done.stderr).split() else OLDER


def compile_c(source: pathlib.Path, target: pathlib.Path, flags: Sequence[str] = ()) -> str:
    """Compiles a program, with further flags, and gives clang's warnings."""
    clang = os.environ.get("CLANG") or "clang"
    own = ["-fno-crash-diagnostics", f"-I{INCLUDE}", *flags, "-c", named(source), "-o", os.fspath(target)]
    try:
        command = [clang, *TARGET, f"-mcpu={processor_of(clang)}", *FLAGS, *own]
        done = subprocess.run(command, stdin=subprocess.DEVNULL, capture_output=True, text=True, errors="replace", timeout=SECONDS)
    except FileNotFoundError:
        raise Uncompiled(f"{clang} isn't installed: apt-get install clang, or set CLANG to its path") from None
    except OSError as why:
        raise Uncompiled(f"{clang} can't be run: {why.strerror}") from None
    except subprocess.TimeoutExpired:
        raise Uncompiled(f"{clang} didn't end within {SECONDS} seconds") from None
    if done.returncode:
        raise Uncompiled("\n".join([printable(without_traces(done.stderr), "\t\n"), *advice_on(done.stderr)]))
    if not target.is_file() or not is_object_file(target.read_bytes()):
        raise Uncompiled(f"{clang} made no object file of {source}: its flags ask for something else")
    return printable(done.stderr, "\t\n")


def named(source: pathlib.Path) -> str:
    """A file's path as an argument of clang, which takes one that begins with a dash for an option."""
    path = os.fspath(source)
    return f"./{path}" if path.startswith("-") else path


def without_traces(errors: str) -> str:
    """Clang's errors without the stack of its backend, if that gave up."""
    cut = re.search(r"^(?:PLEASE submit a bug report|Stack dump:)", errors, re.M)
    return (errors[: cut.start()] if cut else errors).rstrip()


def advice_on(errors: str) -> list[str]:
    """What to do about the first of clang's errors, if that is known."""
    return [f"advice: {text}" for pattern, text in ADVICE if re.search(pattern, errors, re.I)][:1]

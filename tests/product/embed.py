#!/usr/bin/env python3
"""The library for C at work: embed.py RT

The library is built by the commands of docs/EMBEDDING.md, and linked with the programs of examples/embed/. These say by themselves whether all is as
it should be. The static library and the shared one are tried with each compiler, its sanitizers, and under valgrind. The shared one exports what the
header declares. The page's pieces of C are compiled. What isn't installed is skipped, and named.
"""
from __future__ import annotations

import os
import pathlib
import re
import shlex
import shutil
import sys
import tempfile
from dataclasses import dataclass
from typing import Sequence

sys.path.insert(0, str(pathlib.Path(__file__).resolve().parents[1]))
from lib.checks import Failed, run_parts, want, want_equal
from lib.programs import run
from lib.sources import ROOT

LIBRARY = ROOT / "out/lib/libbpfagent.a"
SHARED = LIBRARY.with_name("libbpfagent.so.0")
INCLUDE = ROOT / "include"
HEADER = INCLUDE / "bpfagent.h"
EXAMPLES = ROOT / "examples/embed"
PAGE = ROOT / "docs/EMBEDDING.md"
STRICT = ["-O2", "-g", "-Wall", "-Wextra", "-Wpedantic", "-Werror"]
COMPILERS = ("gcc", "clang")
SANITIZERS = ("address,undefined", "thread")
VALGRIND = ["valgrind", "-q", "--error-exitcode=9", "--leak-check=full", "--errors-for-leak-kinds=all"]
# How long a program may take, in seconds.
LIMIT = 300


@dataclass
class Program:
    """A program of examples/embed/: its arguments, and what it is linked with besides."""

    name: str
    words: Sequence[object] = ()
    more: Sequence[str] = ()
    # whether it needs the C library's allocator, or has one of its own, so that a sanitizer's would get into the way
    has_allocator: bool = False
    # what it is linked with besides where the library is shared
    with_shared: Sequence[str] | None = None

    def linked(self, library: pathlib.Path) -> Sequence[str]:
        """What it is linked with besides."""
        return self.more if library == LIBRARY or self.with_shared is None else self.with_shared


ALLOCATOR = ("malloc", "realloc", "free")
# Wrapping at link time doesn't reach into a shared library. So the program's own functions get the names that the library looks for, and call the C
# library's.
IN_PLACE = ["-fno-builtin", *(f"-D__wrap_{name}={name}" for name in ALLOCATOR), *(f"-D__real_{name}=__libc_{name}" for name in ALLOCATOR)]
PROGRAMS = (
    Program("table", [ROOT / "examples/c/hash_table.lookup.code"]),
    Program("requests", [ROOT / "examples/requests/table.code", "18"]),
    Program("misuse"),
    Program("failing", more=["-Wl,--wrap=malloc,--wrap=realloc,--wrap=free"], has_allocator=True, with_shared=IN_PLACE),
    Program("memory", has_allocator=True),
    Program("runtime", more=["-pthread"]),
    Program("runtime", ["2000", "4"], more=["-pthread"]),
)


class Room:
    """A folder for what is built, with what was done there."""

    def __init__(self, folder: str) -> None:
        self.folder = pathlib.Path(folder)
        self.done: list[str] = []
        self.skipped: list[str] = []

    def can_link(self, compiler: str, flag: str) -> bool:
        """Whether a program with this sanitizer can be built and run here."""
        (self.folder / "empty.c").write_text("int main(void) { return 0; }\n")
        try:
            run(compiler, flag, "-o", self.folder / "empty", self.folder / "empty.c")
            run(self.folder / "empty")
            return True
        except Failed:
            return False

    def show(self, what: str, compiler: str, flags: Sequence[str] = (), under: Sequence[str] = (), is_told: bool = False) -> None:
        """Builds and runs all programs over both libraries, but for those whose allocator would get into the way."""
        for library in (LIBRARY, SHARED):
            for program in PROGRAMS:
                if program.has_allocator and (flags or under):
                    continue
                made, environment = self.folder / program.name, {**os.environ, "LD_LIBRARY_PATH": str(SHARED.parent)}
                run(compiler, *STRICT, *flags, f"-I{INCLUDE}", "-o", made, *program.linked(library), EXAMPLES / f"{program.name}.c", library)
                told = run(*under, made, *program.words, seconds=LIMIT, env=environment)
                if is_told:
                    print(told, flush=True)
        self.done.append(what)

    def show_sanitized(self, compiler: str, sanitizer: str) -> None:
        flag = f"-fsanitize={sanitizer}"
        if self.can_link(compiler, flag):
            self.show(f"{compiler} {flag}", compiler, [flag, "-fno-sanitize-recover=all"])
        else:
            self.skipped.append(f"{compiler} {flag}")


def page_command(page: str, rt: str, compiler: str, made: pathlib.Path) -> str:
    """The commands of the page that build the library and a program, with this compiler and rt."""
    commands = re.search(r"(?s)^```\n(make lib\n.*?)^```", page, re.M)[1]
    for named, used in (("make lib", f"make RT={shlex.quote(rt)} lib"), ("cc -O2", f"{shlex.quote(compiler)} -O2"), ("out/table", shlex.quote(str(made)))):
        want(named in commands, f"{PAGE.name} doesn't say {named}")
        commands = commands.replace(named, used)
    return commands


def show_page(compiler: str, rt: str, room: Room) -> None:
    """The commands of the page, which build the library. And each piece of C as the body of a function."""
    page = PAGE.read_text()
    run("sh", "-ec", page_command(page, rt, compiler, room.folder / "shown"), cwd=ROOT, seconds=3000)
    pieces = re.findall(r"(?s)^```c\n(.*?)^```", page, re.M)
    want(pieces, f"{PAGE.name} has no piece of C")
    head = "int piece(const uint8_t *code, size_t length)"
    for number, piece in enumerate(pieces):
        name = room.folder / f"piece{number}.c"
        name.write_text(f'#include "bpfagent.h"\n{head};\n{head}\n{{\n{piece}return (int)(code[0] + length) & 0;\n}}\n')
        run(compiler, *STRICT, "-Wno-unused-variable", f"-I{INCLUDE}", "-c", "-o", name.with_suffix(".o"), name)


def show_library(rt: str) -> str:
    compiler = shutil.which(os.environ.get("CC", "cc"))
    if not compiler:
        return "skipped, since there is no C compiler"
    found = [one for one in COMPILERS if shutil.which(one)] or [compiler]
    with tempfile.TemporaryDirectory(prefix="embed-") as folder:
        room = Room(folder)
        show_page(compiler, rt, room)
        for number, one in enumerate(found):
            room.show(one, one, is_told=number == 0)
            for sanitizer in SANITIZERS:
                room.show_sanitized(one, sanitizer)
        if shutil.which("valgrind"):
            room.show("valgrind", found[0], under=VALGRIND)
        else:
            room.skipped.append("valgrind")
    return f"with {', '.join(room.done)}" + (f"; skipped {', '.join(room.skipped)}" if room.skipped else "")


def declared() -> list[str]:
    """The functions that the header declares, and doesn't hold itself."""
    text = re.sub(r"(?s)/\*.*?\*/", "", HEADER.read_text())
    return sorted(re.findall(r"(?m)^(?:uint32_t|void) (bpfagent_\w+)\(", text))


def show_exports(_: str) -> str:
    """The shared library exports the header's functions and nothing else, under the name that its version has, and needs the C library alone."""
    if not shutil.which("readelf") or not SHARED.is_file():
        return "skipped, since there is no readelf, or no shared library"
    symbols = [line.split() for line in run("readelf", "--wide", "--dyn-syms", SHARED).splitlines()]
    exported = [words[7] for words in symbols if len(words) > 7 and words[4] in ("GLOBAL", "WEAK") and words[6] not in ("UND", "ABS")]
    version = re.search(r"#define BPFAGENT_VERSION (\d+)", HEADER.read_text())
    soname = f"libbpfagent.so.{int(version[1]) // 10000}"
    want_equal(sorted(exported), [f"{name}@@BPFAGENT_{int(version[1]) // 10000}" for name in declared()], "what the shared library exports")
    dynamic = run("readelf", "--wide", "--dynamic", SHARED)
    want_equal(re.findall(r"\(SONAME\).*\[(.*)\]", dynamic), [soname], "its soname")
    want_equal(re.findall(r"\(NEEDED\).*\[(.*)\]", dynamic), ["libc.so.6"], "what it needs")
    want("TEXTREL" not in dynamic, "its code is written to")
    return f"{len(exported)} exports"


if __name__ == "__main__":
    run_parts("embed", [show_library, show_exports], 3600)

#!/usr/bin/env python3
"""Proves and builds the library for C: library.py RT [--over-ci]

It writes out/lib/libbpfagent.a: the crate bpfagent_c, and what that needs of the toolchain's C runtime. A program links it and the
C library alone. Of that, a C compiler links out/lib/libbpfagent.so.0, which exports the names of include/bpfagent.h. The script says how many crates are proved, and how long that took; what didn't change isn't proved again, and if nothing
did, nothing is done. With --over-ci the crates below are taken as `rt ci` has just proved them, which `rt lib` would prove again.
"""
from __future__ import annotations

import os
import pathlib
import re
import shutil
import subprocess
import sys
import tempfile

from build import ROOT, Wrong, ending, is_current, proved, say, sources, stamp_of

CRATE = ROOT / "crates/bpfagent_c"
ARCHIVE = CRATE / f"out/lib{CRATE.name}.a"
MADE = ROOT / "out/lib/libbpfagent.a"
HEADER = ROOT / "include/bpfagent.h"
SONAME = "libbpfagent.so.0"
SHARED = MADE.with_name(SONAME)
# Nothing may stay undefined, no code may be written to, and what nobody calls is left out. The version is that of the names.
LINKING = ["-shared", "-nostartfiles", "-s", f"-Wl,-soname,{SONAME}", "-Wl,--no-undefined,--no-undefined-version", "-Wl,-z,relro,-z,now,-z,noexecstack,-z,text",
           "-Wl,--gc-sections", "-Wl,--build-id=none", "-Wl,--hash-style=gnu"]
VERSIONED = "BPFAGENT_0 {{\n  global:\n{names}  local: *;\n}};\n"


def home_of(rt: str) -> pathlib.Path:
    """The folder of the toolchain, which is that of the page that `rt doc` names."""
    return pathlib.Path(subprocess.run([rt, "doc"], stdout=subprocess.PIPE, text=True, check=True).stdout.strip()).parent


def join(archiver: pathlib.Path, archives: list[pathlib.Path], made: pathlib.Path) -> None:
    """One archive of the members of several."""
    made.parent.mkdir(parents=True, exist_ok=True)
    with tempfile.TemporaryDirectory(prefix="library-") as room:
        members: list[str] = []
        for number, archive in enumerate(archives):
            folder = pathlib.Path(room, str(number))
            folder.mkdir()
            subprocess.run([str(archiver), "x", str(archive)], cwd=folder, check=True)
            members += [str(path) for path in sorted(folder.iterdir())]
        joined = pathlib.Path(room, made.name)
        subprocess.run([str(archiver), "qcs", str(joined), *members], check=True)
        made.write_bytes(joined.read_bytes())


def names_of(header: pathlib.Path) -> list[str]:
    """The functions that a header declares, without those that stand in it."""
    text = re.sub(r"(?s)/\*.*?\*/", "", header.read_text())
    return re.findall(r"(?m)^\w+ (bpfagent_\w+)\([^)]*\);", text)


def link(archive: pathlib.Path, made: pathlib.Path) -> None:
    """Links a shared library of all members of an archive, which exports what the header declares."""
    compiler = shutil.which(os.environ.get("CC", "cc"))
    if not compiler:
        made.unlink(missing_ok=True)
        say(f"There is no C compiler, so {made.relative_to(ROOT)} isn't linked.")
        return
    with tempfile.TemporaryDirectory(prefix="library-", dir=made.parent) as room:
        script, linked = pathlib.Path(room, "names.map"), pathlib.Path(room, made.name)
        script.write_text(VERSIONED.format(names="".join(f"    {name};\n" for name in names_of(HEADER))))
        whole = ["-Wl,--whole-archive", str(archive), "-Wl,--no-whole-archive"]
        subprocess.run([compiler, *LINKING, f"-Wl,--version-script={script}", "-o", str(linked), *whole], check=True)
        os.replace(linked, made)


def prove_over_ci(home: pathlib.Path) -> bool:
    """Proves the crate over the libraries that `rt ci` has left, and builds it. Whether it went well; otherwise what was said is shown."""
    sys.path.insert(0, str(home / "bin"))
    import rtlib  # the toolchain's own, which knows how a crate is checked

    ARCHIVE.parent.mkdir(exist_ok=True)
    crate = rtlib.Crate(str(CRATE), str(ROOT), {})
    words = [*crate.words(["--jobs", "1"], keeps=False), "--toolchain", str(home / "toolchain"), "--backend", "llvm", "-o", str(ARCHIVE)]
    done = subprocess.run([rtlib.RATTLE, "build", *words], cwd=CRATE, stdout=subprocess.PIPE, stderr=subprocess.STDOUT, text=True, errors="replace")
    if done.returncode:
        say(done.stdout.rstrip("\n"))
    return done.returncode == 0


def prove(rt: str, is_over_ci: bool) -> None:
    """Proves and builds the static library, unless that was done of these sources."""
    known = sources(rt, CRATE.name)
    if is_current(MADE, known):
        return
    home = home_of(rt)
    if not (prove_over_ci(home) if is_over_ci else proved([rt, "lib"], CRATE, "the library")):
        raise Wrong("the library isn't proved")
    join(home / "toolchain/bin/llvm-ar", [ARCHIVE, home / "c/liblibc_c.a"], MADE)
    stamp_of(MADE).write_text(known)


def main() -> None:
    rt, *options = sys.argv[1:] or [""]
    if not rt or options not in ([], ["--over-ci"]):
        say(__doc__.splitlines()[0])
        sys.exit(2)
    with ending("library"):
        prove(rt, bool(options))
        link(MADE, SHARED)
        print(" and ".join(str(path.relative_to(ROOT)) for path in (MADE, SHARED) if path.is_file()), "are built")


if __name__ == "__main__":
    main()

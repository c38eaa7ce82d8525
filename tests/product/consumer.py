#!/usr/bin/env python3
"""The installed library, as those have it who use it: consumer.py RT PROGRAM

Both libraries are built as `make lib` does it, and installed into a folder of its own. examples/consumer/ is built against each by pkg-config and by
CMake, as C and as C++17, and run. Then everything is uninstalled. What isn't installed is skipped, and named.
"""
from __future__ import annotations

import os
import pathlib
import shutil
import subprocess
import sys
import tempfile

sys.path.insert(0, str(pathlib.Path(__file__).resolve().parents[1]))
from lib.checks import run_parts, want, want_equal
from lib.programs import run
from lib.sources import ROOT

CONSUMER = ROOT / "examples/consumer"
INSTALL = [sys.executable, "-B", str(ROOT / "tools/install.py")]
ANSWER = "0.9.0: 42"
PLACES = ["bin/bpfagent", "include/bpfagent.h", "lib/libbpfagent.a", "lib/libbpfagent.so", "lib/libbpfagent.so.0", "lib/pkgconfig/bpfagent.pc",
          "lib/pkgconfig/bpfagent-shared.pc",
          "lib/cmake/bpfagent/bpfagent-config.cmake", "lib/cmake/bpfagent/bpfagent-config-version.cmake",
          "share/man/man1/bpfagent.1", "share/bash-completion/completions/bpfagent", "share/zsh/site-functions/_bpfagent"]
OTHER = "cmake_minimum_required(VERSION 3.16)\nproject(other LANGUAGES C)\nfind_package(bpfagent 9.0 REQUIRED)\n"


def show_programs(prefix: pathlib.Path, folder: pathlib.Path, is_shared: bool) -> None:
    """Both programs answer. They need the shared library if they were linked with it, and else they don't."""
    for name in ("consumer", "consumer_cxx"):
        want_equal(run(folder / name, env={**os.environ, "LD_LIBRARY_PATH": str(prefix / "lib")}), ANSWER, name)
        want_equal("libbpfagent.so.0" in run("readelf", "--dynamic", folder / name), is_shared, f"whether {name} needs the shared library")


def show_pkg_config(prefix: pathlib.Path, folder: pathlib.Path) -> None:
    for package in ("bpfagent", "bpfagent-shared"):
        command = ["make", "-B", "-C", CONSUMER, f"OUT={folder}", f"PACKAGE={package}"]
        run(*command, env={**os.environ, "PKG_CONFIG_PATH": str(prefix / "lib/pkgconfig")})
        show_programs(prefix, folder, package.endswith("shared"))


def show_cmake(prefix: pathlib.Path, folder: pathlib.Path) -> None:
    """The package is found, but one of another version isn't."""
    for library in ("bpfagent::bpfagent", "bpfagent::shared"):
        run("cmake", "-S", CONSUMER, "-B", folder, f"-DCMAKE_PREFIX_PATH={prefix}", f"-DLIBRARY={library}")
        run("cmake", "--build", folder)
        show_programs(prefix, folder, library.endswith("shared"))
    (folder / "other").mkdir()
    (folder / "other/CMakeLists.txt").write_text(OTHER)
    command = ["cmake", "-S", folder / "other", "-B", folder / "other/out", f"-DCMAKE_PREFIX_PATH={prefix}"]
    ran = subprocess.run(command, stdout=subprocess.PIPE, stderr=subprocess.STDOUT, text=True, timeout=300)
    want(ran.returncode != 0 and "0.9.0" in ran.stdout, f"CMake takes version 0.9.0 for 9.0: {ran.stdout[-500:]}")


def show_uninstalled(prefix: pathlib.Path) -> None:
    """Nothing is left but what was there before; a second time there is nothing to remove."""
    (prefix / "lib/other").write_text("another's\n")
    run(*INSTALL, "--uninstall", prefix)
    want_equal([str(path.relative_to(prefix)) for path in sorted(prefix.rglob("*")) if path.is_file()], ["lib/other"], "what is left")
    again = subprocess.run([*INSTALL, "--uninstall", str(prefix)], stdout=subprocess.PIPE, stderr=subprocess.STDOUT, text=True, timeout=300)
    want(again.returncode == 1 and "Traceback" not in again.stdout, f"a second --uninstall ends with {again.returncode}: {again.stdout}")


def show_unwritable(prefix: pathlib.Path, program: str) -> None:
    """Where a file can't be put in its place, a line says so, and no part of it is left."""
    (prefix / "bin/bpfagent/another").mkdir(parents=True)
    done = subprocess.run([*INSTALL, "--program", program, str(prefix)], stdout=subprocess.PIPE, stderr=subprocess.STDOUT, text=True, timeout=300)
    is_one_line = done.stdout.startswith("install: ") and done.stdout.count("\n") == 1
    want(done.returncode == 1 and is_one_line, f"an installation over a folder ends with {done.returncode}: {done.stdout}")
    want_equal([path.name for path in (prefix / "bin").iterdir()], ["bpfagent"], "what is left of a file that couldn't be put in its place")


def show_installed(rt: str, program: str) -> str:
    """Builds, installs, uses and removes the library; what was skipped."""
    tools = {"pkg-config": show_pkg_config, "cmake": show_cmake}
    skipped = [tool for tool in ("cc", "c++", *tools) if not shutil.which(tool)]
    if "cc" in skipped or "c++" in skipped:
        return "skipped, since there is no compiler of C and C++"
    run(sys.executable, "-B", ROOT / "tools/library.py", rt, seconds=3000)
    with tempfile.TemporaryDirectory(prefix="consumer-") as room:
        # A blank in it is one more thing that pkg-config and CMake have to pass on.
        prefix = pathlib.Path(room) / "a prefix"
        run(*INSTALL, "--program", program, prefix)
        missing = [place for place in PLACES if not (prefix / place).is_file()]
        want(not missing, f"{', '.join(missing)} isn't installed")
        for tool in sorted({*tools} - {*skipped}):
            (prefix.parent / tool).mkdir()
            tools[tool](prefix, prefix.parent / tool)
        show_uninstalled(prefix)
        show_unwritable(prefix.parent / "unwritable", program)
    return f"skipped {', '.join(skipped)}" if skipped else ""


if __name__ == "__main__":
    run_parts("consumer", [show_installed], 3600)

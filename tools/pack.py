#!/usr/bin/env python3
"""Builds packages: pack.py deb|dist [--program FILE] [--library FILE] [--folder FOLDER]

`deb` builds the Debian packages of deploy/debian, by debhelper, of the program and the library that have been proved and built. What each
package has, tools/install.py knows; setup.py installs the Python package. `dist` builds a wheel and a source archive of the Python package, and an
archive of the repository's last commit where there is one. The packages go to FOLDER, out/packages or out/dist by default.

The time of the last commit is that of the files, unless SOURCE_DATE_EPOCH is set.
"""
from __future__ import annotations

import argparse
import email.utils
import os
import pathlib
import shutil
import subprocess
import sys
import tempfile
import time

from build import ROOT, Wrong, ending
from install import LIBRARY, PROGRAM, version
from lib.package import DEBIAN, PACKAGE
from lib.package import has as has_module

DEBIAN_FILES = ROOT / "deploy/debian"
# A command that each task needs, and the package that has it.
NEEDED = {"dpkg-buildpackage": "dpkg-dev", "dh": "debhelper", "dh_python3": "dh-python"}
CHANGES = """bpfagent ({version}) unstable; urgency=medium

  * Version {version}; CHANGELOG.md has what is new.

 -- {maintainer}  {date}
"""
# The Python package has the commands of the protocol from it.
PAGE = ROOT / "docs/PROTOCOL.md"
# What lies in the folder of the Python package and isn't packed.
LEFT_OUT = shutil.ignore_patterns("__pycache__", "build", "dist", "*.egg-info", ".*")


def done(command: list[str | os.PathLike[str]], folder: pathlib.Path, environment: dict[str, str]) -> None:
    """Does a command, which shows what it says only if it fails."""
    ended = subprocess.run(command, cwd=folder, env=environment, stdin=subprocess.DEVNULL, stdout=subprocess.PIPE, stderr=subprocess.STDOUT, text=True)
    if ended.returncode:
        raise Wrong(f"{command[0]} ended with status {ended.returncode}:\n{ended.stdout[-4000:]}")


def epoch() -> str:
    """The time of all files in a package, in seconds."""
    asked = ["git", "log", "-1", "--format=%ct"]
    told = subprocess.run(asked, cwd=ROOT, capture_output=True, text=True) if shutil.which("git") else None
    return os.environ.get("SOURCE_DATE_EPOCH") or (told.stdout.strip() if told else "") or str(int(time.time()))


def maintainer() -> str:
    return next(line.partition(": ")[2] for line in (DEBIAN_FILES / "control").read_text().splitlines() if line.startswith("Maintainer: "))


def copy_package(folder: pathlib.Path) -> None:
    """The folder of the Python package, with the page that the package carries."""
    shutil.copytree(PACKAGE, folder, ignore=LEFT_OUT)
    shutil.copyfile(PAGE, folder / "bpfagent" / PAGE.name)


def build_debs(args: argparse.Namespace, room: pathlib.Path) -> list[pathlib.Path]:
    """Builds the Debian packages in a room, in a tree that has debian/ and python/ alone."""
    missing = [package for command, package in NEEDED.items() if not shutil.which(command)]
    if missing:
        raise Wrong(f"this needs Debian's {', '.join(missing)}: apt-get install {' '.join(missing)}")
    for needed, target in ((args.program, "program"), (args.library, "lib")):
        if not needed.is_file():
            raise Wrong(f"{needed} isn't there: make {target} builds it")
    tree = room / f"bpfagent-{version()}"
    shutil.copytree(DEBIAN_FILES, tree / "debian")
    copy_package(tree / "python")
    date = email.utils.formatdate(int(epoch()))
    (tree / "debian/changelog").write_text(CHANGES.format(version=version(), maintainer=maintainer(), date=date))
    inputs = {"REPOSITORY": str(ROOT), "PROGRAM": str(args.program.resolve()), "LIBRARY": str(args.library.resolve()), "SOURCE_DATE_EPOCH": epoch()}
    # Debian's own Python, for which the packages are.
    path = f"/usr/sbin:/usr/bin:/sbin:/bin:{os.environ.get('PATH', '')}"
    done(["dpkg-buildpackage", "--build=binary", "--no-sign", "--no-check-builddeps"], tree, {**os.environ, **inputs, "PATH": path})
    return sorted(path for path in room.iterdir() if path.suffix in (".deb", ".changes", ".buildinfo"))


def build_dist(args: argparse.Namespace, room: pathlib.Path) -> list[pathlib.Path]:
    """Builds wheel and source archive, by a Python that has setuptools and wheel."""
    has = [python for python in (sys.executable, DEBIAN) if has_module(python, "setuptools, wheel")]
    if not has:
        raise Wrong("this needs setuptools and wheel: apt-get install python3-setuptools python3-wheel")
    made = room / "made"
    made.mkdir()
    copy_package(room / "python")
    library = args.library.with_name("libbpfagent.so.0").resolve()
    environment = {**os.environ, "SOURCE_DATE_EPOCH": epoch(), "BPFAGENT_LIBRARY": str(library) if library.is_file() else ""}
    done([has[0], "setup.py", "--quiet", "sdist", "--dist-dir", made, "bdist_wheel", "--dist-dir", made], room / "python", environment)
    if shutil.which("git") and (ROOT / ".git").exists():
        name = f"bpfagent-repository-{version()}"
        done(["git", "archive", f"--prefix={name}/", "--output", made / f"{name}.tar.gz", "HEAD"], ROOT, environment)
    return sorted(made.iterdir())


def main() -> None:
    parser = argparse.ArgumentParser(description="Builds packages for Debian, or a wheel and source archives.")
    parser.add_argument("task", choices=("deb", "dist"))
    parser.add_argument("--program", type=pathlib.Path, default=PROGRAM, help="the program, proved and built")
    parser.add_argument("--library", type=pathlib.Path, default=LIBRARY, help="the static library, with the shared one beside it")
    parser.add_argument("--folder", type=pathlib.Path, help="where the packages go")
    args = parser.parse_args()
    folder = args.folder or ROOT / ("out/packages" if args.task == "deb" else "out/dist")
    with ending("pack"), tempfile.TemporaryDirectory(prefix="packages-") as room:
        built = (build_debs if args.task == "deb" else build_dist)(args, pathlib.Path(room))
        folder.mkdir(parents=True, exist_ok=True)
        for path in built:
            shutil.copyfile(path, folder / path.name)
            print(folder / path.name)


if __name__ == "__main__":
    main()

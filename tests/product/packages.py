#!/usr/bin/env python3
"""Builds the packages and looks at what is in them: packages.py PROGRAM

tools/install.py puts each part where it is told. The Debian packages have the files that it lists, lintian finds nothing wrong, and a tree of them
answers: the program, the commands in Python, a program in C. Wheel and source archive carry their metadata. Where `make lib` hasn't linked the library,
one that does nothing takes its place. What isn't installed is skipped, and named.

packages.py --fresh FOLDER installs the packages of that folder in a fresh Debian, which debootstrap makes as root, and tries them there.
"""
from __future__ import annotations

import contextlib
import os
import pathlib
import re
import shutil
import subprocess
import sys
import tarfile
import tempfile
import zipfile
from typing import Iterator

sys.path[:0] = [str(pathlib.Path(__file__).resolve().parents[1]), str(pathlib.Path(__file__).resolve().parents[2] / "tools")]
from install import PARTS, PYTHON, version
from lib.checks import Failed, run_parts, want, want_equal
from lib.package import DEBIAN, LIBRARY, has
from lib.programs import Process, run
from lib.sources import ROOT
from library import LINKING, VERSIONED, names_of

TOOLS = [sys.executable, "-B"]
INSTALL, PACKAGES = [*TOOLS, ROOT / "tools/install.py"], [*TOOLS, ROOT / "tools/pack.py"]
STATIC = LIBRARY.with_name("libbpfagent.a")
NEEDED = ("dpkg-buildpackage", "dh", "dh_python3")
MULTIARCH = "lib/x86_64-linux-gnu"
# In place of the library: each function of the header does nothing, but for its need of the C library.
STAND_IN = "#include <stdlib.h>\n{functions}"
FUNCTION = "void *{name}(void) {{ return malloc(1); }}\n"
CONSUMER = '#include <bpfagent.h>\nint main(void) { bpfagent agent = BPFAGENT_INIT; return bpfagent_new(&agent, 64) == BPFAGENT_OK ? 0 : 0; }\n'
# What a fresh Debian is tried with, once the packages are installed there.
FRESH = """set -e
printf 'make 8\\nget 1 0 8\\n' | bpfagent run
bpfagent --version
man -w bpfagent-ship 2> /dev/null || ls /usr/share/man/man1/bpfagent-ship.1.gz
bpfagent-ship --version
bpfagent-front --version
printf 'mov r0, 7\\nexit\\n' | bpfagent asm > /tmp/seven.code
bpfagent-ship /tmp/seven.code
python3 -c 'import bpfagent, bpfagent.library as found
print(found.library().path)
with bpfagent.Engine() as engine: print(engine.read(engine.make_of(b"hello"), 5))'
"""
ADDRESS = "Project-URL: Specification, https://www.rfc-editor.org/rfc/rfc9669"
SECONDS = 1200


@contextlib.contextmanager
def library(room: pathlib.Path) -> Iterator[pathlib.Path | None]:
    """The library of `make lib`, or one of the same names; None without a C compiler."""
    if STATIC.is_file() and LIBRARY.is_file():
        yield STATIC
        return
    if not shutil.which("cc"):
        yield None
        return
    names = names_of(ROOT / "include/bpfagent.h")
    (room / "all.c").write_text(STAND_IN.format(functions="".join(FUNCTION.format(name=name) for name in names)))
    (room / "names.map").write_text(VERSIONED.format(names="".join(f"    {name};\n" for name in names)))
    run("cc", "-fPIC", "-c", "all.c", cwd=room)
    run("ar", "qcs", "libbpfagent.a", "all.o", cwd=room)
    run("cc", *LINKING, "-Wl,--version-script=names.map", "-o", LIBRARY.name, "-Wl,--whole-archive", "libbpfagent.a", "-Wl,--no-whole-archive", cwd=room)
    yield room / "libbpfagent.a"


def files(folder: pathlib.Path) -> set[str]:
    return {str(path.relative_to(folder)) for path in folder.rglob("*") if not path.is_dir() or path.is_symlink()}


def staged(program: str, static: pathlib.Path, folder: pathlib.Path, *options: str) -> set[str]:
    """What tools/install.py puts below a prefix."""
    run(*INSTALL, "--program", program, "--library", static, "--destdir", folder, *options, "/usr")
    return files(folder)


def show_parts(program: str) -> str | None:
    """Each part is put where it is told, and no file is of two parts. Only a whole installation writes a list."""
    with tempfile.TemporaryDirectory(prefix="parts-") as name:
        room = pathlib.Path(name)
        with library(room) as static:
            if not static:
                return "no parts were installed, since there is no C compiler"
            folders = ["--libdir", f"/usr/{MULTIARCH}", "--mandir", "man", "--docdir", "share/doc/agent"]
            parts = {part: staged(program, static, room / part, "--part", part, *folders) for part in PARTS}
            whole = staged(program, static, room / "whole", *folders)
        together = [place for part in PARTS for place in parts[part]]
        want_equal(len(together), len(set(together)), "how many files are of one part alone")
        want_equal(whole - {"usr/share/bpfagent/installed.txt"}, set(together) - parts[PYTHON], "what is installed without parts")
        for place in ("man/man1/bpfagent.1", f"{MULTIARCH}/pkgconfig/bpfagent.pc", "share/doc/agent/docs/PROTOCOL.md", "lib/systemd/system/bpfagent@.service"):
            want(f"usr/{place}" in whole, f"{place} isn't installed")
        unit = (room / PYTHON / "usr/lib/systemd/system/bpfagent-front@.service").read_text()
        want("ExecStart=/usr/bin/bpfagent-front " in unit and "/usr/local" not in unit, f"the unit starts {re.findall('ExecStart=.*', unit)}")
        if shutil.which("pkg-config"):
            told = run("pkg-config", "--variable=libdir", room / f"whole/usr/{MULTIARCH}/pkgconfig/bpfagent.pc")
            want_equal(told, f"/usr/{MULTIARCH}", "the folder that pkg-config tells")
    command = [str(word) for word in INSTALL]
    refused = subprocess.run([*command, "--libdir", "/elsewhere", "/usr"], capture_output=True, text=True, timeout=60)
    want_equal((refused.returncode, refused.stderr), (1, "install: /elsewhere isn't below /usr\n"), "a folder outside of the prefix")
    return None


def show_debs(program: str) -> str | None:
    """The packages have what is listed, lintian takes them, and a tree of them answers."""
    missing = [command for command in NEEDED if not shutil.which(command)]
    if missing:
        return f"no Debian packages were built, since {', '.join(missing)} isn't there"
    with tempfile.TemporaryDirectory(prefix="debs-") as name:
        room = pathlib.Path(name)
        with library(room) as static:
            if not static:
                return "no Debian packages were built, since there is no C compiler"
            run(*PACKAGES, "deb", "--program", program, "--library", static, "--folder", room / "made", seconds=SECONDS)
            for part in PARTS:
                (deb,) = (room / "made").glob(f"{part}_*.deb")
                run("dpkg-deb", "--extract", deb, room / "tree")
                run("dpkg-deb", "--extract", deb, room / part)
                wanted = staged(program, static, room / f"staged-{part}", "--part", part, "--libdir", MULTIARCH)
                found = {place.removesuffix(".gz") for place in files(room / part)}
                want(wanted <= found, f"{part} lacks {sorted(wanted - found)}")
                others = {place for place in found - wanted if f"/doc/{part}/" not in place and "dist-packages/" not in place and "/bin/bpfagent-" not in place}
                want(not others, f"{part} has {sorted(others)}, which tools/install.py doesn't name")
        answers(room / "tree/usr", static == STATIC)
        return lint(room / "made")


def lint(folder: pathlib.Path) -> str | None:
    if not shutil.which("lintian"):
        return "lintian wasn't asked, since it isn't there"
    (changes,) = folder.glob("*.changes")
    done = subprocess.run(["lintian", "--allow-root", "--tag-display-limit", "0", changes], stdout=subprocess.PIPE, text=True, timeout=SECONDS)
    said = [line for line in done.stdout.splitlines() if re.match("[EW]:", line)]
    want(not said, f"lintian says {said}")
    return "lintian finds nothing; that no license is chosen stands in debian/copyright"


def answers(prefix: pathlib.Path, is_whole: bool) -> None:
    """What is installed below a prefix answers. Only the library itself, and nothing in its place, can be called."""
    with Process(prefix / "bin/bpfagent", "run") as process:
        want_equal(process.answer(b"make 8\n"), b"made 1\n", "the packed program")
    modules = {**os.environ, "PYTHONPATH": str(prefix / "lib/python3/dist-packages"), "BPFAGENT_LIBRARY": str(prefix / MULTIARCH / LIBRARY.name)}
    for command in sorted((prefix / "bin").glob("bpfagent-*")):
        want_equal(run(DEBIAN, command, "--version", env=modules), f"{command.name} {version()}", f"the packed {command.name}")
    told = run(DEBIAN, "-c", "import bpfagent\nprint(bpfagent.why_bad('make'))", env=modules)
    want_equal(told, "make LENGTH: LENGTH is missing", "the page that the packed Python package carries")
    with tempfile.TemporaryDirectory(prefix="consumer-") as name:
        source = pathlib.Path(name, "consumer.c")
        source.write_text(CONSUMER)
        for how in ([str(prefix / MULTIARCH / "libbpfagent.a")], [f"-L{prefix / MULTIARCH}", "-lbpfagent"]):
            run("cc", f"-I{prefix / 'include'}", source, "-o", f"{name}/consumer", *how)
            run(f"{name}/consumer", env={**os.environ, "LD_LIBRARY_PATH": str(prefix / MULTIARCH)})
    if is_whole:
        told = run(DEBIAN, "-c", "import bpfagent\nwith bpfagent.Engine() as engine: print(engine.make(8))", env=modules)
        want_equal(told, "1", "the packed library under the packed Python package")


def show_dist(program: str) -> str | None:
    """Wheel and source archive have classifiers and an address. The archive holds what the wheel is made of."""
    want(has(sys.executable, "json, os") and not has(sys.executable, "json, no_such_module"), "it isn't seen which modules are there")
    if not any(has(python, "setuptools, wheel") for python in (sys.executable, DEBIAN)):
        return "no wheel was built, since setuptools and wheel aren't there"
    with tempfile.TemporaryDirectory(prefix="dist-") as name:
        room = pathlib.Path(name)
        run(*PACKAGES, "dist", "--library", room / "none.a", "--folder", room)
        with zipfile.ZipFile(room / f"bpfagent-{version()}-py3-none-any.whl") as wheel:
            metadata = wheel.read(f"bpfagent-{version()}.dist-info/METADATA").decode()
            modules = {place for place in wheel.namelist() if place.startswith("bpfagent/")}
        for line in (f"Version: {version()}", ADDRESS, "Classifier: Typing :: Typed", "Requires-Python: >=3.9"):
            want(f"\n{line}\n" in metadata, f"the wheel's metadata lacks {line}")
        with tarfile.open(room / f"bpfagent-{version()}.tar.gz") as archive:
            held = {place.partition("/")[2] for place in archive.getnames()}
        want(modules <= held and "setup.py" in held, f"the source archive lacks {sorted(modules - held)}")
    return None


@contextlib.contextmanager
def folder_of_its_own() -> Iterator[pathlib.Path]:
    """A folder that goes at the end. Whatever is mounted there stays as it is."""
    tree = pathlib.Path(tempfile.mkdtemp(prefix="fresh-"))
    tree.chmod(0o755)
    try:
        yield tree
    finally:
        subprocess.run(["rm", "-rf", "--one-file-system", tree], timeout=SECONDS)


def try_fresh(folder: str) -> None:
    """Makes a fresh Debian, installs the packages there with what they depend on, and tries them. Each command has mounts of its own, which end with it."""
    if os.geteuid() or not (shutil.which("debootstrap") and shutil.which("unshare")):
        sys.exit("packages: --fresh needs debootstrap, unshare and root")
    debs = [path for part in PARTS for path in sorted(pathlib.Path(folder).glob(f"{part}_*.deb"))]
    want_equal(len(debs), len(PARTS), f"how many packages are in {folder}")
    apart = ["unshare", "--mount", "--propagation", "private"]
    with folder_of_its_own() as tree:
        run(*apart, "debootstrap", "--variant=minbase", "--include=ca-certificates", "bookworm", tree, seconds=SECONDS)
        for path in debs:
            shutil.copyfile(path, tree / "tmp" / path.name)
        local = " ".join(f"/tmp/{path.name}" for path in debs)
        environment = {"PATH": "/usr/sbin:/usr/bin:/sbin:/bin", "DEBIAN_FRONTEND": "noninteractive", "HOME": "/root", "LC_ALL": "C.UTF-8"}
        for script in (f"apt-get -q update && apt-get -q install -y --no-install-recommends {local}", FRESH, f"apt-get -q purge -y {' '.join(PARTS)}"):
            said = run(*apart, "chroot", tree, "/bin/sh", "-c", script, seconds=SECONDS, env=environment)
            print("\n".join(said.splitlines()[-12:]))
        left = [path for path in files(tree / "usr") if "bpfagent" in path]
        want(not left, f"{left} is left of the packages")


if __name__ == "__main__":
    if sys.argv[1:2] == ["--fresh"] and len(sys.argv) == 3:
        try:
            try_fresh(sys.argv[2])
        except (Failed, OSError, subprocess.SubprocessError) as wrong:
            sys.exit(f"packages: {wrong}")
    else:
        run_parts("packages", [show_parts, show_dist, show_debs], SECONDS)

#!/usr/bin/env python3
"""Installs program and library: install.py [--uninstall] [--part PART ..] [--libdir FOLDER] [--mandir FOLDER] [--docdir FOLDER] PREFIX

Below PREFIX it writes bin/bpfagent, which starts libexec/bpfagent/bpfagent, include/bpfagent.h and lib/libbpfagent.a. It writes bpfagent.pc for
pkg-config, a package for CMake's find_package, the man pages, the completions of the shells, systemd's unit, pages and examples. If `make lib` has
linked the shared library, it also writes that with its links, and bpfagent-shared.pc. --destdir is put before PREFIX in every path.

A part is what a Debian package of its name has. With --part only that is installed, without a list, since a package manager keeps one.

share/bpfagent/installed.txt lists these files with their digests, those of earlier versions too, and the folders that were made for
them. By it --uninstall removes what is as it was installed; a file that was changed since stays.
"""
from __future__ import annotations

import argparse
import contextlib
import hashlib
import os
import pathlib
import re
import subprocess
import sys
import tempfile
from dataclasses import dataclass, field
from typing import Collection, Iterator

from build import ROOT, Wrong, ending
from lib.package import MODULES

PROGRAM = ROOT / "crates/bpfagent/out/bpfagent"
LIBRARY = ROOT / "out/lib/libbpfagent.a"
# Beside it stands the shared one, if it was linked: its soname, and what a linker looks for.
SONAME, LINKED = "libbpfagent.so.0", "libbpfagent.so"
HEADER = ROOT / "include/bpfagent.h"
MANUAL = ROOT / "tools/manual.py"
LAUNCHER = ROOT / "tools/launcher.sh"
DEPLOY = ROOT / "deploy"
# What is installed together, by the name of its Debian package. The last one's commands are installed by setup.py, so `make install` leaves it out.
TOOL, SHARED, DEVELOPMENT, PYTHON = "bpfagent", "libbpfagent0", "libbpfagent-dev", "python3-bpfagent"
PARTS = (TOOL, SHARED, DEVELOPMENT, PYTHON)
# Pages, and what they show, with the headers that examples include. Links between them lead on where they are installed.
DOCUMENTS = ("*.md", "docs/*.md", "docs/*.svg", "python/README.md", "python/bpfagent/include/*.h", "examples/**/*")
# What examples leave when they are built, and test data.
UNDOCUMENTED = {"out", "__pycache__", "node_modules"}
UNITS = {TOOL: ("bpfagent@.service",), PYTHON: ("bpfagent-front@.service", "bpfagent-front@.socket")}
# Where a unit of the repository finds the commands.
UNIT_PREFIX = "/usr/local/bin/"
LIST = pathlib.Path("share/bpfagent/installed.txt")
# What stands before a folder in the list, and before a file whose digest isn't known.
FOLDER, UNKNOWN = "folder", "-"
# A line of the list. Those of version 0.9.0 were names of files alone.
LISTED = re.compile(rf"(?m)^(?:({FOLDER}|{UNKNOWN}|[0-9a-f]{{64}})  )?(.+)$")
# The name of folders that nobody else uses.
OWN = "bpfagent"
FOLDER_MODE = 0o755

PKG_CONFIG = """prefix={escaped}
libdir=${{prefix}}/{libdir}
includedir=${{prefix}}/include

Name: bpfagent
Description: Objects that move between memory and a far store, and small programs that run beside them
Version: {version}
Libs: {libs}
Cflags: -I${{includedir}}
"""
# How a program links each library.
STATIC_LIBS, SHARED_LIBS = "${libdir}/libbpfagent.a", "-L${libdir} -lbpfagent"

CMAKE = """# The target bpfagent::bpfagent is the static library with its header, and bpfagent::shared the shared one, if it is installed.
get_filename_component(_bpfagent_prefix "${{CMAKE_CURRENT_LIST_DIR}}/{above}" ABSOLUTE)
if(NOT TARGET bpfagent::bpfagent)
  add_library(bpfagent::bpfagent STATIC IMPORTED)
  set_target_properties(bpfagent::bpfagent PROPERTIES
    IMPORTED_LOCATION "${{_bpfagent_prefix}}/{libdir}/libbpfagent.a"
    INTERFACE_INCLUDE_DIRECTORIES "${{_bpfagent_prefix}}/include")
endif()
if(NOT TARGET bpfagent::shared AND EXISTS "${{_bpfagent_prefix}}/{libdir}/{linked}")
  add_library(bpfagent::shared SHARED IMPORTED)
  set_target_properties(bpfagent::shared PROPERTIES
    IMPORTED_LOCATION "${{_bpfagent_prefix}}/{libdir}/{linked}"
    IMPORTED_SONAME "{soname}"
    INTERFACE_INCLUDE_DIRECTORIES "${{_bpfagent_prefix}}/include")
endif()
unset(_bpfagent_prefix)
set(bpfagent_VERSION {version})
"""

CMAKE_VERSION = """# A caller of the same first and second part gets what it asks for.
set(PACKAGE_VERSION "{version}")
if(PACKAGE_FIND_VERSION VERSION_GREATER PACKAGE_VERSION)
  set(PACKAGE_VERSION_COMPATIBLE FALSE)
elseif("${{PACKAGE_FIND_VERSION_MAJOR}}.${{PACKAGE_FIND_VERSION_MINOR}}" VERSION_EQUAL "{minor}" OR "${{PACKAGE_FIND_VERSION}}" STREQUAL "")
  set(PACKAGE_VERSION_COMPATIBLE TRUE)
  if(PACKAGE_FIND_VERSION VERSION_EQUAL PACKAGE_VERSION)
    set(PACKAGE_VERSION_EXACT TRUE)
  endif()
else()
  set(PACKAGE_VERSION_COMPATIBLE FALSE)
endif()
"""


def version() -> str:
    found = re.search(r'#define BPFAGENT_VERSION_TEXT "([\d.]+)"', HEADER.read_text())
    if not found:
        raise Wrong(f"{HEADER} has no BPFAGENT_VERSION_TEXT")
    return found[1]


def escaped(prefix: str) -> str:
    """A path as pkg-config reads it: it passes a blank on only behind a backslash."""
    return re.sub(r"([\\ ])", r"\\\1", prefix)


def shared_of(library: pathlib.Path) -> pathlib.Path:
    """The shared library beside a static one."""
    return library.with_name(SONAME)


@dataclass(frozen=True)
class Item:
    """What is installed: its part, its place below the prefix, and the file that is copied, the text, or the name to which a link leads."""

    part: str
    place: str
    source: pathlib.Path | None = None
    text: str = ""
    leads_to: str = ""
    mode: int = 0o644

    def content(self) -> bytes:
        return self.source.read_bytes() if self.source else self.text.encode()


@dataclass(frozen=True)
class Folders:
    """Where libraries, man pages and documents lie below the prefix."""

    prefix: str
    libdir: str
    mandir: str
    docdir: str


def libraries(folders: Folders, library: pathlib.Path) -> Iterator[Item]:
    """The library for C, static and, if it was linked, shared, with its links: those that a loader and a linker look for."""
    yield Item(DEVELOPMENT, "include/bpfagent.h", HEADER)
    yield Item(DEVELOPMENT, f"{folders.libdir}/libbpfagent.a", library)
    if shared_of(library).is_file():
        whole = f"{LINKED}.{version()}"
        yield Item(SHARED, f"{folders.libdir}/{whole}", shared_of(library), mode=0o755)
        yield Item(SHARED, f"{folders.libdir}/{SONAME}", leads_to=whole)
        yield Item(DEVELOPMENT, f"{folders.libdir}/{LINKED}", leads_to=SONAME)


def finders(folders: Folders, has_shared: bool) -> Iterator[Item]:
    """By what pkg-config and CMake find the library."""
    told, libdir = version(), folders.libdir
    packages = {"bpfagent": STATIC_LIBS, **({"bpfagent-shared": SHARED_LIBS} if has_shared else {})}
    for name, libs in packages.items():
        text = PKG_CONFIG.format(escaped=escaped(folders.prefix), libdir=libdir, version=told, libs=libs)
        yield Item(DEVELOPMENT, f"{libdir}/pkgconfig/{name}.pc", text=text)
    place = pathlib.PurePath(libdir, "cmake/bpfagent")
    above = "/".join(".." for _ in place.parts)
    cmake = CMAKE.format(version=told, libdir=libdir, above=above, linked=LINKED, soname=SONAME)
    yield Item(DEVELOPMENT, str(place / "bpfagent-config.cmake"), text=cmake)
    of_version = CMAKE_VERSION.format(version=told, minor=told.rpartition(".")[0])
    yield Item(DEVELOPMENT, str(place / "bpfagent-config-version.cmake"), text=of_version)


def told_by(program: pathlib.Path, room: str, folders: Folders, parts: Collection[str]) -> Iterator[Item]:
    """The man pages and completions, which a script makes of what the program and the commands of the Python package say of themselves."""
    words = [str(program)] * (TOOL in parts) + ["--python"] * (PYTHON in parts) + ["--documents"] * bool({TOOL, DEVELOPMENT} & {*parts})
    if not words:
        return
    subprocess.run([sys.executable, "-B", str(MANUAL), *words, "--folder", room], stdout=subprocess.DEVNULL, check=True)
    for page in sorted(pathlib.Path(room, "man").iterdir()):
        part = PYTHON if page.stem in MODULES else DEVELOPMENT if page.suffix == ".3" else TOOL
        yield Item(part, f"{folders.mandir}/man{page.suffix[1:]}/{page.name}", page)
    for path in sorted(pathlib.Path(room, "completion").glob("*")):
        name = path.stem.removeprefix("_")
        place = f"share/bash-completion/completions/{name}" if path.suffix == ".bash" else f"share/zsh/site-functions/_{name}"
        yield Item(PYTHON if name in MODULES else TOOL, place, path)


def units(prefix: str) -> Iterator[Item]:
    """systemd's units, which start the commands below the prefix."""
    command = f"{prefix.rstrip('/')}/bin/".replace("%", "%%").replace("\\", "\\\\").replace(" ", "\\x20")
    for part, names in UNITS.items():
        for name in names:
            yield Item(part, f"lib/systemd/system/{name}", text=(DEPLOY / name).read_text().replace(UNIT_PREFIX, command))


def documents(docdir: str) -> Iterator[Item]:
    for pattern in DOCUMENTS:
        for path in sorted(ROOT.glob(pattern)):
            place = path.relative_to(ROOT)
            if path.is_file() and not UNDOCUMENTED & {*place.parts}:
                yield Item(TOOL, f"{docdir}/{place}", path)


def items(args: argparse.Namespace, folders: Folders, room: str) -> Iterator[Item]:
    """All that is installed of the parts that are asked for. What scripts make lies in a room."""
    yield Item(TOOL, "bin/bpfagent", LAUNCHER, mode=0o755)
    yield Item(TOOL, "libexec/bpfagent/bpfagent", args.program, mode=0o755)
    yield from libraries(folders, args.library)
    yield from finders(folders, shared_of(args.library).is_file())
    yield from told_by(args.program.resolve(), room, folders, args.part)
    yield from units(folders.prefix)
    yield from documents(folders.docdir)


def digest_of(path: pathlib.Path) -> str:
    """The SHA-256 of a file, or of the name to which a link leads."""
    content = os.fsencode(os.readlink(path)) if path.is_symlink() else path.read_bytes()
    return hashlib.sha256(content).hexdigest()


@dataclass
class Installed:
    """What an installation has put below a folder: the digest of each file by its place, and the folders that it made."""

    below: pathlib.Path
    digests: dict[str, str] = field(default_factory=dict)
    folders: set[str] = field(default_factory=set)

    @classmethod
    def read(cls, below: pathlib.Path) -> Installed:
        """What the list there names; nothing if there is no list."""
        found = cls(below)
        listed = (below / LIST).read_text() if (below / LIST).is_file() else ""
        for kind, place in LISTED.findall(listed):
            if pathlib.Path(place).is_absolute() or ".." in pathlib.Path(place).parts:
                raise Wrong(f"{below / LIST} names a file outside of {below}")
            if kind == FOLDER:
                found.folders.add(place)
            else:
                found.digests[place] = kind or UNKNOWN
        return found

    def make_folder(self, folder: pathlib.Path) -> None:
        """Makes a folder and those above it, whatever the umask, and notes those below the prefix that weren't there."""
        if folder.is_dir():
            return
        self.make_folder(folder.parent)
        folder.mkdir()
        folder.chmod(FOLDER_MODE)
        with contextlib.suppress(ValueError):
            self.folders.add(str(folder.relative_to(self.below)))

    def write(self, place: str, content: bytes, mode: int) -> None:
        """A whole file or none: written beside its place, and moved there."""
        path = self.below / place
        self.make_folder(path.parent)
        made = tempfile.NamedTemporaryFile(dir=path.parent, delete=False)
        try:
            with made:
                made.write(content)
            os.chmod(made.name, mode)
            os.replace(made.name, path)
        except BaseException:
            os.unlink(made.name)
            raise
        self.digests[place] = digest_of(path)

    def link(self, place: str, leads_to: str) -> None:
        """A link in place of whatever file has its name. Its digest is that of the name to which it leads."""
        path = self.below / place
        self.make_folder(path.parent)
        with tempfile.TemporaryDirectory(dir=path.parent) as room:
            made = pathlib.Path(room, path.name)
            made.symlink_to(leads_to)
            os.replace(made, path)
        self.digests[place] = digest_of(path)

    def write_list(self) -> None:
        """The list, which names itself by its folder alone: its digest can't stand in it."""
        self.make_folder((self.below / LIST).parent)
        lines = [f"{FOLDER}  {place}" for place in sorted(self.folders)] + [f"{digest}  {place}" for place, digest in self.digests.items()]
        self.write(str(LIST), "".join(f"{line}\n" for line in lines).encode(), 0o644)

    def is_changed(self, place: str) -> bool:
        """Whether something else is at a place than what was installed. An earlier version noted no digests."""
        path, digest = self.below / place, self.digests[place]
        if path.is_symlink():
            return digest != digest_of(path)
        return not path.is_file() or digest not in (UNKNOWN, digest_of(path))

    def remove(self) -> tuple[int, list[str]]:
        """Removes the files that are as they were installed, then the folders that were made for them, if they are empty. How many
        files were removed, and the places of those that stay."""
        there = [place for place in self.digests if os.path.lexists(self.below / place)]
        kept = [place for place in there if self.is_changed(place)]
        for place in (*there, str(LIST)):
            if place not in kept:
                (self.below / place).unlink(missing_ok=True)
        above = {str(parent) for place in self.digests for parent in pathlib.Path(place).parents}
        own = self.folders | {folder for folder in above if pathlib.Path(folder).name == OWN} | {str(LIST.parent)}
        for folder in sorted(own, key=lambda one: len(pathlib.Path(one).parts), reverse=True):
            path = self.below / folder
            if path.is_dir() and not path.is_symlink() and not any(path.iterdir()):
                path.rmdir()
        return len(there) - len(kept), kept


def install(args: argparse.Namespace, folders: Folders, below: pathlib.Path) -> int:
    """How many files were installed of the parts. Nothing is, unless all that they are copied from is there."""
    needed = {args.program: TOOL, args.library: DEVELOPMENT}
    missing = [str(source) for source, part in needed.items() if part in args.part and not source.is_file()]
    if missing:
        raise Wrong(f"make lib and make program come first, which build {' and '.join(missing)}")
    made = Installed.read(below)
    with tempfile.TemporaryDirectory(prefix="install-") as room:
        found = [item for item in items(args, folders, room) if item.part in args.part]
        for item in found:
            if item.leads_to:
                made.link(item.place, item.leads_to)
            else:
                made.write(item.place, item.content(), item.mode)
    if args.is_listed:
        made.write_list()
    return len(found)


def uninstall(below: pathlib.Path) -> str:
    """Removes what is as it was installed, and says what became of it."""
    if not (below / LIST).is_file():
        raise Wrong(f"nothing is installed below {below}: there is no {LIST}")
    count, kept = Installed.read(below).remove()
    return "\n".join([f"{count} files are removed from {below}", *(f"{below / place} was changed since, and stays" for place in kept)])


def below_prefix(prefix: str, folder: str) -> str:
    """A folder by its name below the prefix. A whole path below it does as well."""
    path = pathlib.PurePath(os.path.normpath(os.path.join(prefix, folder)))
    try:
        return str(path.relative_to(os.path.normpath(prefix)))
    except ValueError:
        raise Wrong(f"{folder} isn't below {prefix}") from None


def arguments() -> argparse.Namespace:
    parser = argparse.ArgumentParser(description="Installs program and library, or removes them.")
    parser.add_argument("prefix", help="an absolute path, as /usr/local")
    parser.add_argument("--uninstall", action="store_true", help="remove what was installed")
    parser.add_argument("--destdir", default="", help="put before the prefix in every path")
    parser.add_argument("--part", action="append", choices=PARTS, help="install this part alone, without a list; may be given several times")
    parser.add_argument("--libdir", default="lib", help="the folder of the libraries, below the prefix (default: lib)")
    parser.add_argument("--mandir", default="share/man", help="the folder of the man pages (default: share/man)")
    parser.add_argument("--docdir", default="share/doc/bpfagent", help="the folder of pages and examples (default: share/doc/bpfagent)")
    parser.add_argument("--program", type=pathlib.Path, default=PROGRAM, help="the program")
    parser.add_argument("--library", type=pathlib.Path, default=LIBRARY, help="the library")
    args = parser.parse_args()
    if not os.path.isabs(args.prefix):
        parser.error("the prefix has to be an absolute path")
    args.is_listed = args.part is None
    args.part = args.part or [part for part in PARTS if part != PYTHON]
    return args


def main() -> None:
    args = arguments()
    below = pathlib.Path(args.destdir + args.prefix)
    with ending("install"):
        if args.uninstall:
            print(uninstall(below))
        else:
            folders = Folders(args.prefix, *(below_prefix(args.prefix, folder) for folder in (args.libdir, args.mandir, args.docdir)))
            print(f"{install(args, folders, below)} files are installed below {below}")


if __name__ == "__main__":
    main()

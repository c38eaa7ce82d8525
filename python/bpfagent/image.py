"""Loads a program for shipping: a C file, an object file of clang, a text of assembly, or raw code."""
from __future__ import annotations

import pathlib
import shutil
import subprocess
import sys
import tempfile
from dataclasses import dataclass
from typing import Optional, Sequence

from .agent import PathLike
from .compiler import Uncompiled, compile_c
from .objectfile import SLOT, Linked, Unlinkable, after_closing, is_object_file, link
from .starting import ended, found_program

# No file that can be shipped is longer, in bytes.
LONGEST = 1 << 26
# Where the launcher of an installed program finds it, beside its own folder.
LAUNCHED = "libexec/bpfagent/bpfagent"
# How long bpfagent may take to assemble a text, in seconds.
SECONDS = 60.0


class Unloadable(Exception):
    """Why a file can't be shipped."""


@dataclass(frozen=True)
class Image:
    """A program: its raw code and, if it comes from an object file, that file's bytes and where its functions are."""

    path: pathlib.Path
    code: bytes
    linked: Optional[Linked] = None
    content: bytes = b""

    @property
    def slots(self) -> int:
        """The number of its slots."""
        return len(self.code) // SLOT

    @property
    def awaits(self) -> tuple[int, ...]:
        """The slots at which a machine is to pause until a request comes: those that `await_request` marks, or in raw code the one
        after the only `call 4`. Raises `Unloadable` if there is none, or it isn't clear which."""
        if self.linked and self.linked.awaits:
            return self.linked.awaits
        slots = after_closing(self.code)
        if len(slots) == 1:
            return tuple(slots)
        if slots:
            found = ", ".join(map(str, slots))
            raise Unloadable(f"{self.path}: has a `call 4` before each of the slots {found}: await_request() marks the one that awaits requests")
        raise Unloadable(f"{self.path}: awaits no request: it calls neither await_request() nor, in raw code, helper 4")


def load(file: PathLike, entry: Optional[str] = None, flags: Sequence[str] = (), bpfagent: Optional[str] = None) -> Image:
    """Loads a program, or raises `Unloadable`.

    `.c` files are compiled by clang with these further flags, `.asm` files are assembled by bpfagent. Other files are object
    files of clang, or raw code. The program begins at the function `entry`; without one at `program`, or at the only function
    that isn't static.
    """
    path = pathlib.Path(file)
    content = content_of(path)
    if path.suffix == ".c":
        content = compiled(path, flags)
    elif path.suffix == ".asm":
        content = assembled(path, content, program_path(bpfagent))
    if not is_object_file(content):
        if is_text(content):
            raise Unloadable(f"{path}: is a text, and no code: the name of a C file ends in .c, and that of assembly in .asm")
        if entry is not None:
            raise Unloadable(f"{path}: raw code has no names, so --entry can't choose one")
        return Image(path, content)
    try:
        linked = link(content, entry)
    except Unlinkable as why:
        raise Unloadable(f"{place_of(path, content, why)}: {why}") from None
    return Image(path, linked.code, linked, content)


def is_text(content: bytes) -> bool:
    """Whether these bytes are a text. Raw code has zeros, since its last instruction has."""
    try:
        return bool(content.decode()) and 0 not in content
    except UnicodeDecodeError:
        return False


def content_of(path: pathlib.Path) -> bytes:
    """The bytes of a file. One more than the most shows that it is too long, also if it never ends."""
    try:
        with path.open("rb") as file:
            content = file.read(LONGEST + 1)
    except OSError as why:
        raise Unloadable(f"{path}: {why.strerror}") from None
    if len(content) > LONGEST:
        raise Unloadable(f"{path}: has more than {LONGEST} bytes")
    return content


def compiled(path: pathlib.Path, flags: Sequence[str]) -> bytes:
    """The object file of a C file. Clang's warnings are shown."""
    try:
        with tempfile.TemporaryDirectory() as folder:
            target = pathlib.Path(folder) / "program.o"
            sys.stderr.write(compile_c(path, target, flags))
            return target.read_bytes()
    except (OSError, Uncompiled) as why:
        raise Unloadable(str(why)) from None


def assembled(path: pathlib.Path, text: bytes, program: str) -> bytes:
    """The raw code of a text of assembly."""
    try:
        done = ended(program, "asm", "--explain", given=text, seconds=SECONDS)
    except OSError as fault:
        raise Unloadable(f"{path}: {program} can't be run: {fault.strerror}") from None
    except subprocess.TimeoutExpired:
        raise Unloadable(f"{path}: {program} asm didn't end within {SECONDS:g} seconds") from None
    if done.returncode:
        why = done.stderr.decode("ascii", "replace").rstrip()
        raise Unloadable(f"{path}: {why or f'{program} asm ended with status {done.returncode}'}")
    return done.stdout


def place_of(path: pathlib.Path, content: bytes, why: Unlinkable) -> str:
    """The source line that a refusal is about, if there is one, or else the file."""
    from .debug.lines import line_of_place

    found = line_of_place(content, why.place) if why.place else None
    return str(found) if found else str(path)


def has_sanitizer(program: str) -> bool:
    """Whether a program, or the one that it launches, was built with an address sanitizer, as that of `make try` is, which isn't proved."""
    path = pathlib.Path(shutil.which(program) or program).resolve()
    return any(b"AddressSanitizer" in each.read_bytes() for each in (path, path.parent.parent / LAUNCHED) if each.is_file())


def program_path(given: Optional[str]) -> str:
    """The path of bpfagent: the one that is given, that of the environment's BPFAGENT, or the one on PATH."""
    if given and shutil.which(given):
        return given
    try:
        if not given:
            return found_program()
        why = f"{given} can't be run"
    except FileNotFoundError as fault:
        why = str(fault)
    raise Unloadable(f"{why}: give the path of bpfagent by --bpfagent, or set BPFAGENT")

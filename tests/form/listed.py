#!/usr/bin/env python3
"""Checks that the gate passes over nothing. It finds a folder of crates/ that isn't in crates.txt, a folder of edits of another name, and an edit
that can't be made. It finds a file that no `mod` leads to, a test that is left out, and a script or a part of one that nothing calls.
"""
from __future__ import annotations

import os
import pathlib
import re
import sys
from typing import Iterator

sys.path.insert(0, str(pathlib.Path(__file__).resolve().parents[1]))
from lib.checks import report
from lib.sources import ROOT, blanked, changes_of, crates

# What a crate's folder has: sources, statements, proofs, edits, and what a program is run on. Scripts that write sources, too.
PARTS = {"src", "specs", "proofs", "must-fail", "edits", "data", "args", "stdin", "stdout", "status", "out", "__pycache__"}
ROOMS = ("must-fail", "edits")
# How many edits the gate tries at most; the others lie in edits/.
MOST = 150
# What uses tests/lib, beside the scripts of tests/.
USERS = ("bench", "python/tests", "tools")
# What calls the scripts of tests/.
CALLERS = ("Makefile", "tests/lib/calls.py")


def edits_in(room: str) -> list[pathlib.Path]:
    return sorted((ROOT / "crates").glob(f"*/{room}/*.edit"))


def edits() -> int:
    """How many edits `rt ci` has to refuse."""
    return len(edits_in("must-fail"))


def links() -> Iterator[pathlib.Path]:
    """The links of the clone, at one of which `rt ci` stops, also in what is built and never committed."""
    for at, folders, names in os.walk(ROOT):
        yield from (path for path in (pathlib.Path(at, name) for name in folders + names) if path.is_symlink())
        folders[:] = [name for name in folders if name != ".git"]


def strays() -> Iterator[str]:
    """What the gate would pass over, or would stop at after minutes."""
    named = crates()
    for path in links():
        yield f"{path.relative_to(ROOT)} is a link, which rt ci refuses"
    for folder in sorted(path for path in (ROOT / "crates").iterdir() if path.is_dir()):
        if folder.name not in named:
            yield f"crates/{folder.name} isn't in crates.txt"
        for part in sorted(folder.iterdir()):
            if part.name not in PARTS and part.suffix != ".py":
                yield f"crates/{folder.name}/{part.name} is nothing that the gate knows"
        for path in sorted(path for room in ROOMS for path in (folder / room).glob("*")):
            if path.name != "TRIED" and (path.suffix != ".edit" or "\nnew:" not in path.read_text()):
                yield f"{path.relative_to(ROOT)} is no edit"
    if edits() > MOST:
        yield f"there are {edits()} edits in must-fail/, and the gate takes {MOST}: those that show least go to crates/NAME/edits/"


def unread() -> Iterator[str]:
    """The files that no `mod` leads to, and what is compiled for other than tests alone."""
    for crate in sorted(crates()):
        src = ROOT / "crates" / crate / "src"
        found = [path for path in (src / "lib.rt", src / "main.rt") if path.is_file()]
        for path in found:
            code = blanked(path.read_text())
            below = src if path.parent == src and path.stem in ("lib", "main") else path.parent if path.stem == "mod" else path.with_suffix("")
            named = re.findall(r"(?m)^\s*(?:pub(?:\([^)]*\))? )?mod (\w+);", code)
            found += [file for name in named for file in (below / f"{name}.rt", below / name / "mod.rt") if file.is_file() and file not in found]
            others = [cfg for cfg in re.findall(r"#!?\s*\[\s*cfg[^\]]*\]", code) if cfg != "#[cfg(test)]"]
            yield from (f"{path.relative_to(ROOT)} has {other}, which may leave out a test" for other in others)
        yield from (f"{path.relative_to(ROOT)} is in no `mod` of its crate" for path in sorted(src.rglob("*.rt")) if path not in found)


def uncalled() -> Iterator[str]:
    """The functions of scripts that are named nowhere but where they stand, and the scripts that nothing calls."""
    texts = {path: path.read_text() for path in sorted((ROOT / "tests").rglob("*.py"))}
    others = [path.read_text() for folder in USERS for path in (ROOT / folder).rglob("*.py")]
    everything, calls = "\n".join([*texts.values(), *others]), "\n".join((ROOT / name).read_text() for name in CALLERS)
    for path, text in texts.items():
        for name in re.findall(r"(?m)^def (\w+)", text):
            elsewhere = rf"(?m)^from (?:\w+\.)?{path.stem} import .*\b{name}\b|\b{path.stem}\.{name}\b"
            if len(re.findall(rf"\b{name}\b", text)) < 2 and not re.search(elsewhere, everything):
                yield f"{path.relative_to(ROOT)}: nothing calls {name}"
        if path.parent.name in ("form", "product") and not re.search(rf'{path.parent.name}/{path.name}|"{path.stem}"', calls):
            yield f"{path.relative_to(ROOT)} is called by none of {', '.join(CALLERS)}"


def misfits() -> Iterator[str]:
    """The edits that can't be made: of a file that isn't there, of a text that doesn't stand there once, or by a method that is gone. The last one fails
    nowhere else before the end of `rt ci`.
    """
    functions = {name for path in (ROOT / "crates").glob("*/src/**/*.rt") for name in re.findall(r"\bfn (\w+)", path.read_text())}
    for edit in [*edits_in("must-fail"), *edits_in("edits")]:
        texts: dict[pathlib.Path, str] = {}
        for name, old, new in changes_of(edit):
            path = edit.parent.parent / name
            text = texts.setdefault(path, path.read_text() if path.is_file() else "")
            if text.count(old) != 1:
                yield f"{edit.relative_to(ROOT)}: {old!r} stands {text.count(old)} times in {path}"
            yield from (f"{edit.relative_to(ROOT)}: no function is named {call}" for call in re.findall(r"\bself\.(\w+)\(", new) if call not in functions)
            texts[path] = text.replace(old, new)


if __name__ == "__main__":
    READ = f"all files of the {len(crates())} crates are read; {edits()} edits in must-fail/ and {len(edits_in('edits'))} in edits/ can be made"
    report([*strays(), *unread(), *uncalled(), *misfits()], READ)

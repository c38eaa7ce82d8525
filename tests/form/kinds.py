#!/usr/bin/env python3
"""Checks that the kinds of atomic steps stand in one private module, and that one module alone can say that memory is refused.

A proof of a step of threads says no more than its kind: another one, anywhere, could assert anything. So each `impl` of a trait that makes one is there.
That memory is refused is a name without a meaning of its own: who opens it can assert it.
"""
from __future__ import annotations

import pathlib
import re
import sys
from typing import Iterable, Iterator

sys.path.insert(0, str(pathlib.Path(__file__).resolve().parents[1]))
from lib.checks import report
from lib.sources import ROOT, blanked

MODULE = "crates/shared_objects/src/kinds.rt"
# The definition, and the module that opens it.
REFUSAL = "crates/far_stream/specs/Refusals.antt"
ROOM = "crates/far_stream/src/room.rt"
OPENS = re.compile(r"\bunfolding\b[^\n]*\bMemoryIsRefused\b")
KIND = re.compile(r"\bimpl\b[^{}]*?\b(?:TableRule|Split|Join|Play)\b[^{}]*?\bfor\s+(\w+|[^{}]*?(?=\s*(?:\bwhere\b|\{)))")
# Another name for such a trait, under which an `impl` of it would not be found.
RENAMED = re.compile(r"\b(?:TableRule|Split|Join|Play)\s+as\b")


def is_private(names: Iterable[str]) -> bool:
    """Whether the module is private, and no kind is handed out, by its root or by way of another module."""
    root = (ROOT / MODULE).with_name("lib.rt")
    for path in sorted(root.parent.rglob("*.rt")):
        for item in re.findall(r"\bpub(?:\([^)]*\))? (?:use|type)\s([^;]*);", blanked(path.read_text())):
            words = set(re.findall(r"\w+|\*", item))
            if words & set(names) or "kinds" in words and words & {"*", "self"}:
                return False
    return bool(re.search(r"(?m)^mod kinds;", blanked(root.read_text())))


def wrong(kinds: list[str]) -> Iterator[str]:
    """What is wrong; the kinds of the module are added to the list."""
    for path in sorted((ROOT / "crates").glob("*/src/**/*.rt")):
        code, name = blanked(path.read_text()), path.relative_to(ROOT).as_posix()
        if RENAMED.search(code):
            yield f"{name} gives a trait of kinds another name"
        found = KIND.findall(code)
        if name == MODULE:
            kinds += found
        else:
            yield from (f"{name}: {kind} stands outside of {MODULE}" for kind in found)
    if not kinds or not is_private(kinds):
        yield f"{MODULE} has no kinds, or isn't private"


def opened() -> Iterator[str]:
    """Where it is opened that memory is refused, other than where memory is asked for."""
    for path in sorted((ROOT / "crates").glob("*/*/**/*")):
        name = path.relative_to(ROOT).as_posix()
        if path.suffix in (".rt", ".antt") and "/out/" not in name and name != ROOM and OPENS.search(path.read_text()):
            yield f"{name} opens MemoryIsRefused, as {ROOM} alone may"
    if "unfoldable pub MemoryIsRefused" not in (ROOT / REFUSAL).read_text() or not OPENS.search((ROOT / ROOM).read_text()):
        yield f"{ROOM} doesn't open MemoryIsRefused, or {REFUSAL} doesn't hide it"


if __name__ == "__main__":
    KINDS: list[str] = []
    report([*wrong(KINDS), *opened()], f"the {len(KINDS)} kinds of atomic steps stand in one private module, and one says that memory is refused")

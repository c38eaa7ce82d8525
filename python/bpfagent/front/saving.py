"""The bytes of all objects in a file, with their digests.

The first line is `bpfagent-objects 1 COUNT`. Each object has a line `object N LENGTH SHA256`, its bytes and a line end. The last line is
`end SHA256`, with the digest of all that stands before it.
"""
from __future__ import annotations

import hashlib
import os
import re
import tempfile
from pathlib import Path
from typing import Mapping

from ..limits import LONGEST, OBJECTS

KIND = "bpfagent-objects 1"
HEAD = re.compile(rb"bpfagent-objects 1 ([0-9]{1,4})\n")
OBJECT = re.compile(rb"object ([1-9][0-9]{0,3}) ([1-9][0-9]{0,4}) ([0-9a-f]{64})\n")
# A file of all objects that there can be, with their lines, is shorter.
LONGEST_FILE = (OBJECTS + 1) * (LONGEST + 128)


class Damaged(Exception):
    """A file isn't what was saved. The text says where."""


def digest(content: bytes) -> str:
    return hashlib.sha256(content).hexdigest()


def save(path: Path, objects: Mapping[int, bytes]) -> None:
    """Writes the file. It takes the place of the one that was there only when all of it lies on the disk."""
    whole = f"{KIND} {len(objects)}\n".encode() + b"".join(
        f"object {number} {len(content)} {digest(content)}\n".encode() + content + b"\n" for number, content in sorted(objects.items())
    )
    whole += f"end {digest(whole)}\n".encode()
    descriptor, name = tempfile.mkstemp(prefix=f".{path.name}.", dir=path.parent)
    try:
        with os.fdopen(descriptor, "wb") as file:
            file.write(whole)
            file.flush()
            os.fsync(file.fileno())
        os.replace(name, path)
    except BaseException:
        os.unlink(name)
        raise
    folder = os.open(path.parent, os.O_RDONLY)
    try:
        os.fsync(folder)
    finally:
        os.close(folder)


def restored(path: Path, lengths: Mapping[int, int]) -> dict[int, bytes]:
    """What a file has. It has to be whole, and to have the objects of these lengths, and no others."""
    with path.open("rb") as file:
        whole = file.read(LONGEST_FILE + 1)
    objects = parsed(whole)
    for number in sorted({*lengths, *objects}):
        content, length = objects.get(number), lengths.get(number)
        if content is None or length is None or len(content) != length:
            has = "no such object" if content is None else f"{len(content)} bytes"
            wants = "makes no such object" if length is None else f"makes it of {length} bytes"
            raise Damaged(f"object {number}: the file has {has}, and the setup {wants}")
    return objects


def parsed(whole: bytes) -> dict[int, bytes]:
    """The objects of a file's bytes."""
    head = HEAD.match(whole)
    if not head:
        raise Damaged(f"it doesn't begin with {KIND!r}")
    objects: dict[int, bytes] = {}
    at = head.end()
    for _ in range(int(head[1])):
        found = OBJECT.match(whole, at)
        if not found:
            raise Damaged(f"at byte {at} there is no object's line")
        number, length = int(found[1]), int(found[2])
        content = whole[found.end() : found.end() + length]
        if len(content) < length or digest(content) != found[3].decode():
            raise Damaged(f"object {number} isn't whole")
        objects[number] = content
        at = found.end() + length + 1
    if len(objects) != int(head[1]) or whole[at:] != f"end {digest(whole[:at])}\n".encode():
        raise Damaged("its end isn't that of what stands before")
    return objects

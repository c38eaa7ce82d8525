"""What the front knows of the objects' bytes, should the agent die."""
from __future__ import annotations

import re
from typing import Iterable, Mapping

# The number of an object in a command, as the agent reads it. It stands in so many bytes of a line.
OBJECT = re.compile(rb"^(?:get|put|leave|return) (0x[0-9a-fA-F]{1,16}|[0-9]{1,20})(?![^ \n])", re.MULTILINE)
HEAD = 30
# Lines that are shorter together are looked through as they are.
SHORT = 256
WRITABLE = re.compile(rb"w([0-9]{1,4})")


def objects_of(lines: bytes) -> set[int]:
    """The objects that commands name."""
    heads = lines if len(lines) < SHORT else b"\n".join([line[:HEAD] for line in lines.split(b"\n")])
    return {int(number, 0) for number in OBJECT.findall(heads) if number[:1] != b"0" or number[1:2] == b"x"}


def written_by(line: bytes, objects: Iterable[int]) -> set[int]:
    """The objects to which a machine may write that this line ships; none if it ships no machine."""
    if line.startswith(b"ship "):
        return set(objects)
    if not line.startswith(b"ship2 "):
        return set()
    return {int(found[1]) for word in line.split(b" ")[8:] if (found := WRITABLE.fullmatch(word))}


class Kept:
    """The bytes that were last acknowledged, of each object to which no machine may write.

    All that clients without machines tell goes by one connection. So the replies come in the order in which the agent has done the commands, and
    nobody has seen a byte that isn't here when the agent dies. A client with machines uses another connection: what it writes isn't kept.
    """

    def __init__(self, lengths: Mapping[int, int]) -> None:
        self._lengths = lengths
        self._objects: dict[int, bytearray] = {}
        self.unkept: set[int] = set()
        # Whether a command can't change an object that is kept.
        self.is_all_unkept = not lengths

    def base(self, objects: Mapping[int, bytes]) -> None:
        """These are the bytes now."""
        for number, content in objects.items():
            if number not in self.unkept:
                self._objects[number] = bytearray(content)

    def wrote(self, lines: bytes, replies: bytes) -> None:
        """Notes the puts among these lines that were done."""
        for line, reply in zip(lines.split(b"\n"), replies.split(b"\n")):
            if reply == b"ok" and line.startswith(b"put "):
                self._put(line)

    def _put(self, line: bytes) -> None:
        _, word, offset, content = line.split(b" ")
        number, at = int(word, 0), int(offset, 0)
        if number in self._lengths and number not in self.unkept:
            held = self._objects.get(number)
            if held is None:
                held = self._objects[number] = bytearray(self._lengths[number])
            held[at : at + len(content) // 2] = bytes.fromhex(content.decode("ascii"))

    def lose(self, numbers: Iterable[int]) -> None:
        """The bytes of these objects aren't known from now on."""
        for number in numbers:
            self.unkept.add(number)
            self._objects.pop(number, None)
        self.is_all_unkept = self.unkept.issuperset(self._lengths)

    def objects(self) -> dict[int, bytes]:
        """The objects that have other bytes than when they were made."""
        return {number: bytes(content) for number, content in self._objects.items()}

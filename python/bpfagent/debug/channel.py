"""The messages of the Debug Adapter Protocol on two streams: JSON behind a head with its length."""
from __future__ import annotations

import json
import os
import select
from typing import Any, Optional

# No message of an editor is longer.
LONGEST = 1 << 24
PIECE = 1 << 16


class Ended(Exception):
    """The editor has gone: nothing more comes."""


class NoMessage(Exception):
    """Why what came is no message."""


class Channel:
    """Reads and writes messages; both streams are given by their descriptors."""

    def __init__(self, reads: int, writes: int) -> None:
        self._reads, self._writes, self._rest, self._sequence = reads, writes, b"", 0

    def send(self, kind: str, **parts: Any) -> None:
        """Writes a message of this kind."""
        self._sequence += 1
        content = json.dumps({"seq": self._sequence, "type": kind, **parts}).encode()
        rest = memoryview(b"Content-Length: %d\r\n\r\n" % len(content) + content)
        while rest:
            rest = rest[os.write(self._writes, rest) :]

    def is_leaving(self) -> bool:
        """Whether the editor has gone, or asks to leave by a message that is still to be received. This doesn't wait."""
        try:
            if select.select([self._reads], [], [], 0)[0]:
                piece = os.read(self._reads, PIECE)
                if not piece:
                    return True
                self._rest += piece
            message, rest = first_of(self._rest)
            while message is not None:
                if message.get("command") in ("disconnect", "terminate"):
                    return True
                message, rest = first_of(rest)
        except NoMessage:
            pass  # It is told when it is received.
        return False

    def receive(self, seconds: Optional[float]) -> Optional[dict[str, Any]]:
        """The next message; None if none comes within so many seconds."""
        while True:
            found, self._rest = first_of(self._rest)
            if found is not None:
                return found
            if not select.select([self._reads], [], [], seconds)[0]:
                return None
            piece = os.read(self._reads, PIECE)
            if not piece:
                raise Ended("the editor has gone")
            self._rest += piece


def first_of(content: bytes) -> tuple[Optional[dict[str, Any]], bytes]:
    """The first message, if all of it is there, and what follows on it."""
    head, separator, rest = content.partition(b"\r\n\r\n")
    if not separator:
        if len(head) > PIECE:
            raise NoMessage("this is no message of the Debug Adapter Protocol")
        return None, content
    length = length_of(head)
    if len(rest) < length:
        return None, content
    try:
        found = json.loads(rest[:length])
    except ValueError:
        raise NoMessage("a message is no JSON") from None
    except RecursionError:
        raise NoMessage("a message is nested too deeply") from None
    if not isinstance(found, dict):
        raise NoMessage("a message is no object")
    return found, rest[length:]


def length_of(head: bytes) -> int:
    """The length that a message's head says."""
    for line in head.split(b"\r\n"):
        name, _, value = line.partition(b":")
        digits = value.strip()
        if name.strip().lower() == b"content-length" and digits.isdigit() and len(digits) <= len(str(LONGEST)) and int(digits) <= LONGEST:
            return int(digits)
    raise NoMessage("a message has no length")

"""Makes what a program finds: the lines of a setup, which are those of docs/PROTOCOL.md."""
from __future__ import annotations

import pathlib
import re
from typing import Protocol, Sequence

from .protocol import quoted, why_bad
from .replies import FREED, MADE, REFUSAL

# The first words of a line of `make`.
LENGTH = re.compile("make ([0-9a-fx]+)")


class Unprepared(Exception):
    """Why a setup can't be done: its file, its line, and the reply."""


class Talker(Protocol):
    """An agent that takes lines."""

    def tell_all(self, lines: Sequence[str]) -> list[str]:
        """Sends lines, and gives their replies in order."""


def setup_of(path: str) -> list[str]:
    """The lines of a setup. The last may lack its end."""
    try:
        lines = pathlib.Path(path).read_bytes().decode("ascii").split("\n")
    except UnicodeDecodeError as why:
        raise Unprepared(f"{path}: isn't ASCII, from byte {why.start} on") from None
    return lines[:-1] if lines[-1] == "" else lines


def prepared(agent: Talker, path: str) -> dict[int, int]:
    """Does the lines of a setup, and gives the length of each object that is made and not freed."""
    lines, lengths = setup_of(path), {}
    for number, (line, reply) in enumerate(zip(lines, agent.tell_all(lines)), 1):
        if REFUSAL.fullmatch(reply):
            why = why_bad(line) if reply == "bad" else ""
            raise Unprepared(f"{path}:{number}: {quoted(line)} is answered {reply}{why and f': {why}'}")
        made, freed, length = MADE.read(reply), FREED.read(reply), LENGTH.fullmatch(line)
        if made is not None and length:
            lengths[made] = int(length[1], 0)
        elif freed is not None:
            lengths.pop(freed, None)
    return lengths

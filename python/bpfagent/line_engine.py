"""An `Engine` that also takes lines of docs/PROTOCOL.md, as a conversation does: for the debugger."""
from __future__ import annotations

from typing import Mapping, Optional, Sequence, Union

from .engine import Engine
from .protocol import CONTENT, GRANTED, Command, commands, why_bad
from .replies import Refused, reply_of
from .streams import Idle

# A word of a line, or its grants, as a method takes it.
Argument = Union[int, bytes, dict[int, str]]
# Where a command has these, its method takes them first, in this order.
FIRST = ("CODE", "FUEL", GRANTED)


class LineEngine(Engine):
    """An engine with the parts of `Agent` that are of a conversation. No reply is ever awaited, so nothing bounds one."""

    timeout: Optional[float] = None
    patience: float = 0.0
    has_ended: bool = False
    silence: float = 0.0
    idle: Optional[Idle] = None

    def hurry(self, seconds: float) -> None:
        """All replies together may take so many seconds: here each comes at once."""

    def tell(self, line: str) -> str:
        """Does a line, and gives its reply without the line end. This also works for a line that is no command."""
        if not line.isascii() or "\n" in line:
            raise ValueError("a line is ASCII, without a line end within")
        if why_bad(line):
            return "bad"
        name, *words = line.split(" ")
        command = commands()[name]
        given = arguments_of(command, words)
        try:
            value = getattr(self, command.method)(*ordered(given))
        except Refused as refusal:
            return str(refusal)
        except ValueError:
            # Code that is too long for a line with its numbers in decimal, by which a method bounds it.
            return "bad"
        return reply_of(command.replies[0], given, value)

    def tell_all(self, lines: Sequence[str]) -> list[str]:
        """Does lines, and gives their replies in order."""
        return [self.tell(line) for line in lines]


def arguments_of(command: Command, words: Sequence[str]) -> dict[str, Argument]:
    """The words behind a command's name as values, by the synopsis' words for them."""
    found: dict[str, Argument] = {place: bytes.fromhex(word) if place in CONTENT else int(word, 0) for place, word in zip(command.words, words)}
    if command.takes_grants:
        found[GRANTED] = {int(word[1:], 0): word[0] for word in words[len(command.words) :]}
    return found


def ordered(given: Mapping[str, Argument]) -> list[Argument]:
    """The values in the order in which a method takes them."""
    return [given[place] for place in sorted(given, key=lambda place: FIRST.index(place) if place in FIRST else len(FIRST))]

"""The replies of an agent as values, how they are read and written, and the two ways in which a command can fail.

docs/PROTOCOL.md has the replies as they are written. A new kind of reply needs a `Form`, and a line of `reply_of` or `said` if its value has a
new type.
"""
from __future__ import annotations

import enum
import re
from dataclasses import dataclass
from typing import Callable, Generic, Mapping, Optional, TypeVar, Union

from .stops import STOPS

T = TypeVar("T")
NUMBER = "(0|[1-9][0-9]{0,19})"
WORD = "[0-9a-f]{16}"
REFUSAL = re.compile(
    rf"bad|full|noroom|nomem|outside|none|noslot|notpaused|nowatch|worn|unserved|(?:away|busy) {NUMBER}"
    rf"|place {NUMBER} (?:here|leaving|far|returning)|kept {NUMBER} (?:scoped|fault (?:here|far))|refused {NUMBER} [A-Za-z0-9]+"
)


# The states of a machine that goes on, and of one that is paused.
RUNNING, PAUSED = "run", "paused"


class Refused(Exception):
    """The agent refused a command, and nothing changed.

    There is one exception: after `kept n fault PLACE` the object is at PLACE. If a method sends several commands, those before
    the refused one were done. The text is the reply. `words` are its words, and `word` is the first.
    """

    def __init__(self, reply: str) -> None:
        super().__init__(reply)
        self.words: list[str] = reply.split(" ")
        self.word: str = self.words[0]


class Broken(Exception):
    """The conversation is over: it ended early, its stream failed or timed out, or an impossible reply came."""


class Closed(Broken):
    """An `Engine` was closed, or belongs to another process, which has forked this one."""


class NotExited(Exception):
    """A program has no value, since it didn't come to its exit. The text says where it is."""


@dataclass(frozen=True)
class AtSlot:
    """A machine is at this slot then. A value of one kind equals none of another."""

    machine: int
    slot: int


class Ran(AtSlot):
    """The instruction completed, and the machine goes on at this slot."""


class Hit(AtSlot):
    """The instruction completed and wrote to a watched range. The machine is paused, and goes on at this slot."""


class Paused(AtSlot):
    """The machine is paused at this slot, and nothing was done."""


@dataclass(frozen=True)
class Waiting:
    """The instruction needs an object that isn't here or, in a service, one that somebody else uses at this moment.

    The instruction wasn't done, and the step may be tried again.
    """

    machine: int
    object: int


@dataclass(frozen=True)
class Stopped:
    """The machine has stopped: `exit` with a value, or the name of another stop."""

    machine: int
    why: str
    value: Optional[int] = None


Step = Union[Ran, Hit, Paused, Waiting, Stopped]
STEPS: dict[str, Callable[[int, int], Step]] = {"ran": Ran, "hit": Hit, "paused": Paused, "waiting": Waiting}


@dataclass(frozen=True)
class Run:
    """The end of `run_until`: the last step, and the number of instructions that were answered `ran` or `hit`, without EXIT."""

    last: Step
    instructions: int

    @property
    def value(self) -> int:
        """R0 at the program's exit. Raises `NotExited` if the last step was another."""
        if isinstance(self.last, Stopped) and self.last.value is not None:
            return self.last.value
        raise NotExited(f"the program didn't exit: {self.last}")


@dataclass(frozen=True)
class Registers:
    """A machine as `regs` shows it. The state is `run`, `paused` or the name of the stop; the values are R0 to R10."""

    machine: int
    slot: int
    fuel: int
    state: str
    values: tuple[int, ...]

    @property
    def value(self) -> int:
        """R0 at the program's exit. Raises `NotExited` in another state."""
        if self.state == "exit":
            return self.values[0]
        raise NotExited(f"machine {self.machine} didn't exit: {self.state} at slot {self.slot}")


class Move(enum.Enum):
    """The result of a command that moves an object. A service answers ASKED, and its mover moves the object later."""

    LEAVING = "leaving"
    LEFT = "left"
    RETURNING = "returning"
    HOME = "home"
    ASKED = "asked"


# ---- forms


class Form(Generic[T]):
    """A form of reply: its pattern, and the value of what matches it."""

    def __init__(self, pattern: str, value_of: Callable[[re.Match[str]], T]) -> None:
        self.pattern, self._value_of = re.compile(pattern), value_of

    def read(self, reply: str, *numbers: int) -> Optional[T]:
        """The value of a reply. None if it has another form, or doesn't have these numbers behind its first word."""
        found = self.pattern.fullmatch(reply)
        if not found or any(int(word) != number for word, number in zip(reply.split(" ")[1:], numbers)):
            return None
        return self._value_of(found)


def number_in(found: re.Match[str]) -> int:
    return int(found[1])


def words_of(text: str) -> tuple[int, ...]:
    """The values of words of sixteen hex digits."""
    return tuple(int(word, 16) for word in text.split())


def step_in(found: re.Match[str]) -> Step:
    if found["how"]:
        return STEPS[found["how"]](int(found["machine"]), int(found["number"]))
    value = found["value"]
    return Stopped(int(found["stopped"]), found["why"] or "exit", int(value, 16) if value else None)


DONE = Form("ok", lambda found: True)
MADE = Form(f"made {NUMBER}", number_in)
FREED = Form(f"freed {NUMBER}", number_in)
SHIPPED = Form(f"shipped {NUMBER}", number_in)
BYTES = Form("bytes ((?:[0-9a-f]{2})+)", lambda found: bytes.fromhex(found[1]))
MOVED = Form(f"({'|'.join(move.value for move in Move)}) {NUMBER}", lambda found: Move(found[1]))
STEPPED = Form(
    f"(?P<how>{'|'.join(STEPS)}) (?P<machine>{NUMBER}) (?P<number>{NUMBER})"
    f"|stopped (?P<stopped>{NUMBER}) (?:exit (?P<value>{WORD})|(?P<why>{'|'.join(STOPS)}))",
    step_in,
)
EMITTED = Form(f"out {NUMBER}((?: {WORD})*)", lambda found: words_of(found[2]))
SHOWN = Form(f"line {NUMBER} {NUMBER} (.+)", lambda found: found[3])
REGISTERS = Form(
    f"regs {NUMBER} {NUMBER} {NUMBER} ([a-z]+)((?: {WORD}){{11}})",
    lambda found: Registers(int(found[1]), int(found[2]), int(found[3]), found[4], words_of(found[5])),
)
step_of = STEPPED.read


# ---- writing

# What the methods for commands give.
Value = Union[None, int, str, bytes, tuple[int, ...], Move, Registers, Step]


def reply_of(form: str, given: Mapping[str, object], value: Value) -> str:
    """The reply that a value is. `form` is that of the synopsis, as `line m SLOT TEXT`. It says how a reply begins whose value doesn't name its
    machine, and which of the command's words, which are `given`, come next."""
    if isinstance(value, (AtSlot, Waiting, Stopped)):
        return step_text(value)
    if isinstance(value, Registers):
        return " ".join([f"regs {value.machine} {value.slot} {value.fuel} {value.state}", *said(value.values)])
    first, *places = form.split(" ")
    own = [str(given[place]) for place in places if place in given]
    return " ".join([value.value if isinstance(value, Move) else first, *own, *said(value)])


def said(value: Union[None, int, str, bytes, tuple[int, ...], Move]) -> list[str]:
    """The last words of the reply that a value is."""
    if value is None or isinstance(value, Move):
        return []
    if isinstance(value, tuple):
        return [f"{word:016x}" for word in value]
    return [value.hex() if isinstance(value, bytes) else str(value)]


def step_text(step: Step) -> str:
    """The reply that a step is."""
    if isinstance(step, Stopped):
        return f"stopped {step.machine} {step.why}" if step.value is None else f"stopped {step.machine} exit {step.value:016x}"
    return f"{type(step).__name__.lower()} {step.machine} {step.object if isinstance(step, Waiting) else step.slot}"

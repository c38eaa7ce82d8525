"""The agent of docs/PROTOCOL.md in Python, around the interpreter beside it."""
from __future__ import annotations

import pathlib
import re
import sys
from typing import Any, Mapping, Sequence

sys.path.insert(0, str(pathlib.Path(__file__).resolve().parents[1]))
from debugger import Debugger
from instructions import Fault, load
from interpreter import MACHINES, OBJECTS, Machine, Object
from lib.commands import Form, commands

NUMBER = re.compile(r"0|[1-9][0-9]{0,19}|0x[0-9a-fA-F]{1,16}")
GRANT = re.compile(rf"([rw])({NUMBER.pattern})")
BYTES = re.compile(r"(?:[0-9a-fA-F]{2})+")
LINE = 70000
GRANTS = 16
BUDGET = 67108864


class Bad(Exception):
    """The line isn't a command."""


# The words after each command.
COMMANDS = commands()
# Each move: the place that it begins in and the one that it ends in, and its reply.
MOVES = {
    "leave": ("here", "leaving", "leaving"), "left": ("leaving", "far", "left"),
    "return": ("far", "returning", "returning"), "returned": ("returning", "here", "home"),
}


def number(word: str, among: range) -> int:
    """The number that a word spells, if it is among these."""
    if not NUMBER.fullmatch(word) or int(word, 0) not in among:
        raise Bad
    return int(word, 0)


def octets(word: str, most: int) -> bytes:
    """The bytes that a word spells, at most so many."""
    if not BYTES.fullmatch(word) or len(word) > 2 * most:
        raise Bad
    return bytes.fromhex(word)


def grants_of(words: Sequence[str]) -> dict[int, bool]:
    """The objects that are granted, and whether for writing too: their numbers rise."""
    found = [GRANT.fullmatch(word) for word in words]
    if len(found) > GRANTS or not all(found):
        raise Bad
    numbers = [number(it[2], range(1, OBJECTS + 1)) for it in found]
    if any(one >= following for one, following in zip(numbers, numbers[1:])):
        raise Bad
    return {n: it[1] == "w" for n, it in zip(numbers, found)}


def values_of(form: Form, words: Sequence[str]) -> list[Any]:
    """What the words of a command say."""
    count = len(form.numbers) + bool(form.most_bytes)
    if len(words) < count or (len(words) > count and not form.takes_grants):
        raise Bad
    values: list[Any] = [number(word, among) for word, among in zip(words, form.numbers)]
    if form.most_bytes:
        values.append(octets(words[count - 1], form.most_bytes))
    if form.takes_grants:
        values.append(grants_of(words[count:]))
    return values


class Agent:
    """Its objects and machines, and the reply to each line."""

    def __init__(self, budget: int = BUDGET) -> None:
        self.budget = budget
        self.objects: dict[int, Object] = {}
        self.made = 0
        self.debuggers: list[Debugger] = []

    def reply(self, line: str) -> str:
        name, *words = line.split(" ")
        try:
            if len(line) > LINE or name not in COMMANDS:
                raise Bad
            values = values_of(COMMANDS[name], words)
        except Bad:
            return "bad"
        if hasattr(Debugger, f"do_{name}"):
            m, *rest = values
            return getattr(self.debuggers[m - 1], f"do_{name}")(*rest) if m <= len(self.debuggers) else "none"
        return self.move(name, *values) if name in MOVES else getattr(self, name)(*values)

    def has_no_room(self, length: int) -> bool:
        """Whether so many bytes more are too many beside all objects that aren't far."""
        return sum(len(it.body) for it in self.objects.values() if it.place != "far") + length > self.budget

    def misplaced(self, n: int, place: str) -> str | None:
        """Why a command that fits one place is refused, if it is: also since an object that is here has an open scope."""
        if n not in self.objects:
            return "none"
        found = self.objects[n].place
        if found != place:
            return f"place {n} {found}"
        return f"kept {n} scoped" if place == "here" and any(n in it.machine.window for it in self.debuggers) else None

    def move(self, name: str, n: int) -> str:
        place, following, word = MOVES[name]
        if refusal := self.misplaced(n, place):
            return refusal
        if name == "return" and self.has_no_room(len(self.objects[n].body)):
            return "noroom"
        self.objects[n].place = following
        return f"{word} {n}"

    def make(self, length: int) -> str:
        if self.made == OBJECTS:
            return "full"
        if self.has_no_room(length):
            return "noroom"
        self.made += 1
        self.objects[self.made] = Object(length)
        return f"made {self.made}"

    def free(self, n: int) -> str:
        if refusal := self.misplaced(n, "here"):
            return refusal
        del self.objects[n]
        return f"freed {n}"

    def unreached(self, n: int, end: int) -> str | None:
        """Why bytes up to this one can't be read or written, if they can't."""
        if n not in self.objects or end > len(self.objects[n].body):
            return "outside"
        return None if self.objects[n].place == "here" else f"away {n}"

    def put(self, n: int, offset: int, data: bytes) -> str:
        if refusal := self.unreached(n, offset + len(data)):
            return refusal
        self.objects[n].body[offset : offset + len(data)] = data
        return "ok"

    def get(self, n: int, offset: int, length: int) -> str:
        return self.unreached(n, offset + length) or f"bytes {self.objects[n].body[offset : offset + length].hex()}"

    def ship(self, fuel: int, r1: int, r2: int, r3: int, r4: int, r5: int, code: bytes, grants: Mapping[int, bool] | None = None) -> str:
        if len(self.debuggers) == MACHINES:
            return "full"
        try:
            program = load(code)
        except Fault as fault:
            return f"refused {fault.slot} {fault.name}"
        self.debuggers.append(Debugger(Machine(len(self.debuggers) + 1, program, fuel, [r1, r2, r3, r4, r5], self.objects, grants)))
        return f"shipped {len(self.debuggers)}"

    # its last value is the grants
    ship2 = ship

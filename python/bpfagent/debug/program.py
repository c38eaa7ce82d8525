"""A program that is debugged: its image, its symbols, and where breakpoints on it go."""
from __future__ import annotations

import functools
import os
import pathlib
import re
import subprocess
from dataclasses import dataclass
from typing import Optional, Sequence

from ..image import Image, Unloadable, program_path
from ..objectfile import SLOT, WIDE, instructions
from ..starting import ended
from .expressions import Names
from .flow import Flow
from .lines import NoDwarf, SourceLine, short
from .symbols import Symbols, below, names_of

EXIT = 0x95
SECONDS = 30.0


class NoPlace(Exception):
    """Why a breakpoint can't be set."""


@dataclass(frozen=True)
class Place:
    """Where a breakpoint is: its slots, the source line, and the function if it is on one."""

    slots: tuple[int, ...]
    at: Optional[SourceLine]
    function: str = ""


class Program:
    """A program, with symbols if there is debugging information. `why` says why there is none."""

    def __init__(self, image: Image) -> None:
        self.image = image
        self.symbols: Optional[Symbols] = None
        self.why = ""
        try:
            self.symbols = Symbols(image)
        except NoDwarf as why:
            self.why = str(why)
        self.starts = [at // SLOT for at, _, _, _ in instructions(image.code)]
        self._opcodes = {at // SLOT: opcode for at, opcode, _, _ in instructions(image.code)}
        self.calls: dict[int, int] = dict(self.symbols.calls()) if self.symbols else {}
        self.flow = Flow(image.code)

    def runs_as(self, replies: Sequence[str]) -> bool:
        """Whether a machine that answers `line` like this, slot by slot, runs this program. Without a bpfagent here only the slots at
        which instructions begin are compared."""
        texts = self.texts
        found = [(slot, reply.split(" ", 3)[3]) for slot, reply in enumerate(replies) if reply.startswith("line ")]
        return [slot for slot, _ in found] == self.starts and (texts is None or [text for _, text in found] == texts)

    @functools.cached_property
    def texts(self) -> Optional[list[str]]:
        """The program's assembly, by bpfagent; None if there is none here."""
        try:
            done = ended(program_path(None), "dis", given=self.image.code, seconds=SECONDS)
        except (Unloadable, OSError, subprocess.TimeoutExpired):
            return None
        return done.stdout.decode("ascii", "replace").splitlines() if done.returncode == 0 else None

    def is_exit(self, slot: int) -> bool:
        """Whether the instruction at a slot returns."""
        return self._opcodes.get(slot) == EXIT

    def after(self, slot: int) -> int:
        """The slot after the instruction at a slot."""
        return slot + (2 if self._opcodes.get(slot) == WIDE else 1)

    def line_at(self, slot: int) -> Optional[SourceLine]:
        """The source line of a slot."""
        return self.symbols.lines.line_at(slot) if self.symbols else None

    def function_name(self, slot: int) -> str:
        """The name of the function to which a slot belongs."""
        function = self.symbols.function_at(slot) if self.symbols else None
        return function.name if function else ""

    def names_at(self, slots: Sequence[int]) -> Names:
        """The names of the variables that are declared at one of these slots."""
        functions = [(slot, self.symbols.function_at(slot)) for slot in slots] if self.symbols else []
        return names_of(variable for slot, function in functions if function for scope in function.chain(slot) for variable in scope.variables)

    def place(self, text: str, here: Optional[SourceLine] = None) -> Place:
        """The place that FILE:LINE, LINE, FUNCTION or *SLOT means. A LINE alone is in the file of `here`."""
        if found := re.fullmatch(r"\*([0-9]{1,9})", text):
            slot = int(found[1])
            if slot not in self.starts:
                raise NoPlace(f"no instruction begins at slot {slot}")
            return Place((slot,), self.line_at(slot))
        if not self.symbols:
            raise NoPlace(f"only *SLOT can be found: {self.why}")
        if found := re.fullmatch(r"(?:(.+):)?([0-9]{1,9})", text):
            return self.place_of_line(self.path(found[1], here), int(found[2]))
        return self._place_of_function(text)

    def path(self, name: Optional[str], here: Optional[SourceLine]) -> str:
        """The source file that a name means."""
        if not self.symbols:
            raise NoPlace(self.why)
        paths = self.symbols.lines.paths()
        if name is None:
            first = self.symbols.lines.line_at(0)
            return (here or first or SourceLine(paths[0] if paths else "", 0)).path
        found = [path for path in paths if is_path(path, name)]
        if not found:
            raise NoPlace(f"there is no source file {name}; there are {', '.join(map(short, paths))}")
        return found[0]

    def place_of_line(self, path: str, line: int) -> Place:
        """The place of a line or, if it has no code, of the next one in this file that has."""
        assert self.symbols
        # A line may have no code of its own but that of a function that is inlined there.
        inlined = [(copy.called_at, copy.slot) for function in self.symbols.functions for copy in below(function) if copy.called_at]
        ats = [*(row.at for row in self.symbols.lines.rows), *(at for at, _ in inlined)]
        for later in sorted({at.line for at in ats if at.path == path and at.line >= line}):
            at = SourceLine(path, later)
            slots = self.symbols.lines.slots_of(path, later, self.flow.targets)
            found = self._needed([self._after_jumps(self._after_prologue(slot)) for slot in slots])
            if found:
                return Place(tuple(found), self.symbols.lines.begins_at(found[0]) or at)
            if calls := sorted({slot for called, slot in inlined if called == at}):
                return Place(tuple(calls), at)
        raise NoPlace(f"no code is at or after line {line} of {short(path)}")

    def _after_jumps(self, slot: int) -> int:
        """The slot to which jumps lead that do nothing else and stay on their line, as those before the test of a loop."""
        assert self.symbols
        at, seen = self.symbols.lines.line_at(slot), {slot}
        while (target := self.flow.jumps.get(slot)) is not None and target not in seen and self.symbols.lines.line_at(target) == at:
            slot = target
            seen.add(slot)
        return slot

    def _needed(self, slots: Sequence[int]) -> list[int]:
        """Those of a line's slots that stop each turn of a loop once: another is passed on each way to the others. A function that is inlined
        again and again has its own in each copy."""
        assert self.symbols
        kept: dict[int, list[int]] = {}
        for slot in sorted(set(slots)):
            function = self.symbols.function_at(slot)
            copy = next(reversed(self.symbols.copies_at(slot)), function)
            others = kept.setdefault(id(copy), [])
            begins = [*([function.slot] if function else [slot]), *self.flow.after(slot)]
            if self.flow.reaches(begins, slot, others):
                others.append(slot)
        return sorted(slot for others in kept.values() for slot in others)

    def _after_prologue(self, slot: int) -> int:
        """The slot of a line's code; of a function's first line, that after its prologue."""
        assert self.symbols
        function = self.symbols.function_at(slot)
        return function.body if function and slot == function.slot else slot

    def _place_of_function(self, name: str) -> Place:
        assert self.symbols
        function = self.symbols.function_named(name)
        slots = [function.body] if function else []
        slots += self.symbols.inlined_slots(name)
        if not slots:
            names = ", ".join(sorted(function.name for function in self.symbols.functions))
            raise NoPlace(f"there is no function {name}; there are {names}")
        return Place(tuple(slots), self.line_at(slots[0]), name)


def is_path(path: str, name: str) -> bool:
    """Whether a name means this path: the whole path, or its end."""
    return path == name or path.endswith(f"/{name}") or os.path.realpath(path) == os.path.realpath(name) or pathlib.Path(path).name == name

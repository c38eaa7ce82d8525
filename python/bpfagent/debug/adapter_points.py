"""The requests of an editor for breakpoints and watched values."""
from __future__ import annotations

import contextlib
import re
from typing import Sequence

from ..replies import Refused
from .adapter_state import State
from .engine import Impossible
from .expressions import Invalid
from .given import Body, Given
from .points import Terms
from .program import NoPlace

# What a watched value is called: its machine, address, length and name.
WATCHED = re.compile(r"([0-9]{1,5}):0x([0-9a-f]{1,16}):([0-9]{1,5}):(.*)", re.S)


class Points(State):
    """Breakpoints and watched values."""

    def on_setBreakpoints(self, given: Given) -> Body:
        """The breakpoints of a source file, in place of those before."""
        path = self._client.path_from(given.part("source"))
        wanted = list(given.parts("breakpoints"))
        lines = [self._client.line_from(each) for each in wanted]
        self._delete(self._by_source.pop(path, []))
        made = [self._set(f"{path}:{line}", each) for line, each in zip(lines, wanted)]
        self._by_source[path] = [body["id"] for body in made if "id" in body]
        return {"breakpoints": made}

    def on_setFunctionBreakpoints(self, given: Given) -> Body:
        """The breakpoints on functions, in place of those before."""
        wanted = [(each.text("name"), each) for each in given.parts("breakpoints")]
        self._delete(self._by_name)
        made = [self._set(name, each) for name, each in wanted]
        self._by_name = [body["id"] for body in made if "id" in body]
        return {"breakpoints": made}

    def on_setExceptionBreakpoints(self, given: Given) -> Body:
        """There is nothing to choose: a stop always stops."""
        return {"breakpoints": []}

    def _delete(self, numbers: Sequence[int]) -> None:
        for number in numbers:
            with contextlib.suppress(Impossible):
                self._engine.delete_breakpoint(number)

    def _set(self, text: str, wanted: Given) -> Body:
        """A breakpoint, as the protocol has it; with a message if it can't be set, or not wherever it should be."""
        if self._runs_only:
            return {"verified": False, "message": "the program runs without debugging"}
        condition = wanted.text("condition", "")
        terms = Terms(condition if condition.strip() else "", wanted.text("hitCondition", "").strip(), wanted.text("logMessage", ""))
        why = "no program is known"
        for program in self._engine.programs:
            try:
                made = self._engine.set_breakpoint(program, text, program.place(text), terms)
            except (NoPlace, Impossible, Invalid) as wrong:
                why = str(wrong)
                continue
            return {"id": made.number, "verified": not made.left, **({"message": made.lack} if made.left else {}), **self._place(made.place.at)}
        return {"verified": False, "message": why}

    def on_dataBreakpointInfo(self, given: Given) -> Body:
        """Whether a variable can be watched, and by which name."""
        name = given.text("name")
        if given.has("variablesReference") and (known := self._tree.expression(given.number("variablesReference"), name)):
            name = known
        frame = self._frame_of(given)
        value = self._engine.evaluate(name, frame)
        if value.address is None or value.is_part:
            return {"dataId": None, "description": f"{name} is in a register or computed, and can't be watched"}
        return {
            "dataId": f"{frame.machine}:0x{value.address:x}:{value.type.size}:{name}",
            "description": f"{name}, writes by machine {frame.machine}",
            "accessTypes": ["write"],
        }

    def on_setDataBreakpoints(self, given: Given) -> Body:
        """The watched values, in place of those before."""
        wanted = [each.text("dataId") for each in given.parts("breakpoints")]
        for number in list(self._engine.watches):
            self._engine.delete_watch(number)
        made = [self._watch(identity) for identity in wanted]
        self._watched = [body["id"] for body in made if "id" in body]
        return {"breakpoints": made}

    def _watch(self, identity: str) -> Body:
        found = WATCHED.fullmatch(identity)
        if not found:
            return {"verified": False, "message": "this dataId isn't one that dataBreakpointInfo gave"}
        try:
            machine = self._engine.machine(int(found[1])).number
            made = self._engine.watch_at(machine, int(found[2], 16), int(found[3]), found[4])
            return {"id": made.number, "verified": True}
        except (Impossible, Invalid, Refused) as why:
            return {"verified": False, "message": str(why)}

    def _forget_watched(self) -> None:
        """Tells the editor which watched values went with their frames."""
        for number in [number for number in self._watched if number not in self._engine.watches]:
            self._watched.remove(number)
            self._event("breakpoint", reason="removed", breakpoint={"id": number, "verified": False})

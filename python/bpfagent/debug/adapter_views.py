"""The requests of an editor that look at machines: frames, variables, memory and instructions."""
from __future__ import annotations

import base64
import re
from typing import Optional

from .. import limits
from ..agent import STACK
from ..limits import WORD
from .adapter_state import LEVELS, State
from .engine import Impossible
from .expressions import Invalid, Value, integer
from .frames import Frame
from .given import Body, Given
from .types import UNSIGNED
from .variables import Child

# The address of an instruction, for the editor: this, the machine and the slot.
CODE = 0xC0DE << 48
SLOTS = 1 << 32
# How many instructions and bytes are shown at a time.
MOST_INSTRUCTIONS, MOST_BYTES = 1 << 16, 1 << 16
REFERENCE = re.compile(r"(?:([0-9]{1,5}):)?(?:0x([0-9a-fA-F]{1,16})|([0-9]{1,20}))")


class Views(State):
    """What an editor shows."""

    def on_threads(self, given: Given) -> Body:
        """The machines."""
        return {"threads": [{"id": number, "name": self._name(number)} for number in sorted(self._engine.machines) if number not in self._ended]}

    def _name(self, number: int) -> str:
        waits = self._engine.machine(number).waits_for
        return f"machine {number}" + (f", waits for object {waits}" if waits is not None else "")

    def on_stackTrace(self, given: Given) -> Body:
        """The frames of a machine."""
        number, begin, count = self._standing(self._machine_of(given)), given.number("startFrame", 0), given.number("levels", 0)
        frames = [self._shown(frame, level) for level, frame in enumerate(self._engine.frames(number))]
        return {"totalFrames": len(frames), "stackFrames": frames[begin : begin + (count or len(frames))]}

    def _shown(self, frame: Frame, level: int) -> Body:
        at = frame.at or next(iter(frame.candidates), None)
        body: Body = {
            "id": frame.machine * LEVELS + level,
            "name": frame.name if frame.slot is not None else f"{frame.name} (call site unknown)",
            "line": 0,
            "column": self._client.column if at else 0,
            **self._place(at),
        }
        if frame.slot is not None:
            body["instructionPointerReference"] = f"0x{CODE + frame.machine * SLOTS + frame.slot:x}"
        if level and frame.slot is None:
            body["presentationHint"] = "subtle"
        return body

    def on_scopes(self, given: Given) -> Body:
        """What can be looked at in a frame."""
        frame = self._frame(given.number("frameId"))
        context = self._engine.context(frame)
        parts = [
            ("Locals", "locals", lambda: [(variable.name, context.value_of(variable), variable.name) for variable in context.variables()]),
            ("Registers", "registers", lambda: [(f"r{k}", registered(value), f"$r{k}") for k, value in enumerate(frame.registers)]),
            ("Machine", "", lambda: self._machine_values(frame.machine)),
        ]
        return {
            "scopes": [
                {
                    "name": name,
                    "expensive": False,
                    "variablesReference": self._tree.add(frame.machine, children, context.memory),
                    **({"presentationHint": hint} if hint else {}),
                }
                for name, hint, children in parts
            ]
        }

    def _machine_values(self, number: int) -> list[Child]:
        """Slot and fuel of a machine, and what it has emitted."""
        registers, emitted = self._engine.registers(number), self._engine.agent.out(number)
        values = [("slot", registered(registers.slot), "$slot"), ("fuel", registered(registers.fuel), "$fuel")]
        return [*values, *((f"emitted[{k}]", integer(value), "") for k, value in enumerate(emitted))]

    def on_variables(self, given: Given) -> Body:
        """The variables of a reference, all or some of them."""
        kind = given.text("filter", "")
        if kind not in ("", "indexed", "named"):
            raise Impossible(f"filter is indexed or named, and not {kind}")
        return {"variables": self._tree.list(given.number("variablesReference"), kind, given.number("start", 0), given.number("count", 0))}

    def on_evaluate(self, given: Given) -> Body:
        """The value of an expression."""
        text, frame = given.text("expression"), self._frame_of(given)
        context = self._engine.context(frame)
        shown = self._tree.shown(frame.machine, ("", self._engine.evaluate(text, frame), text.strip()), context.memory)
        names = ("type", "variablesReference", "indexedVariables", "namedVariables", "memoryReference")
        return {"result": shown["value"], **{name: shown[name] for name in names if name in shown}}

    def on_readMemory(self, given: Given) -> Body:
        """Bytes of an object, or of a machine's stack: the reference of a stack begins with its machine and a colon."""
        machine, begin = self._memory_of(given)
        address = begin + given.number("offset", 0, -WORD, WORD)
        count = given.number("count", None, 0, MOST_BYTES)
        if not 0 <= address <= WORD:
            raise Impossible("this address has more than 64 bits")
        number = machine if machine is not None else self._any_frame().machine if address >> 32 == STACK else 0
        content = self._readable(number, address, count)
        return {"address": f"0x{address:x}", "data": base64.b64encode(content).decode("ascii"), "unreadableBytes": count - len(content)}

    @staticmethod
    def _memory_of(given: Given) -> tuple[Optional[int], int]:
        """The machine and the address that a reference means."""
        found = REFERENCE.fullmatch(given.text("memoryReference"))
        if not found:
            raise Impossible("memoryReference is an address, as 0x100000000, with a machine before it for a stack")
        return (int(found[1]) if found[1] else None), int(found[2], 16) if found[2] else int(found[3])

    def _readable(self, machine: int, address: int, count: int) -> bytes:
        """As many of these bytes as there are."""
        try:
            return self._engine.memory(machine, address, count) if count > 0 else b""
        except Invalid:
            pass
        low, high = 0, count - 1
        while low < high:
            middle = (low + high + 1) // 2
            try:
                self._engine.memory(machine, address, middle)
                low = middle
            except Invalid:
                high = middle - 1
        return self._engine.memory(machine, address, low) if low else b""

    def on_disassemble(self, given: Given) -> Body:
        """Instructions around an address. What is before the first and after the last instruction is said to be none."""
        address = self._memory_of(given)[1] + given.number("offset", 0, -WORD, WORD)
        number, slot = divmod(address - CODE, SLOTS)
        program = self._engine.machine(number).program
        starts = program.starts if program else list(range(limits.SLOTS))
        if slot not in starts:
            raise Impossible("no instruction begins at this address")
        here = starts.index(slot) + given.number("instructionOffset", 0, -MOST_INSTRUCTIONS, MOST_INSTRUCTIONS)
        chosen = range(here, here + given.number("instructionCount", None, 0, MOST_INSTRUCTIONS))
        return {"instructions": [self._instruction(number, starts[k]) if 0 <= k < len(starts) else nothing(number, k) for k in chosen]}

    def _instruction(self, number: int, slot: int) -> Body:
        program = self._engine.machine(number).program
        at = program.line_at(slot) if program else None
        body: Body = {
            "address": f"0x{CODE + number * SLOTS + slot:x}",
            "instruction": self._engine.agent.line(number, slot),
            "symbol": program.function_name(slot) if program else "",
        }
        if at:
            body.update(location=self._client.source(at), line=self._client.line(at.line))
        return body


def registered(value: Optional[int]) -> Value:
    """A register, or that it isn't shown."""
    return Value(UNSIGNED, why="not shown by the protocol") if value is None else Value(UNSIGNED, value.to_bytes(8, "little"))


def nothing(number: int, place: int) -> Body:
    """An instruction that there isn't."""
    return {"address": f"0x{CODE + number * SLOTS + SLOTS // 2 + place:x}", "instruction": "(none)", "presentationHint": "invalid"}

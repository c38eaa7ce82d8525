"""What came of a program that ran, as lines for a person, or as JSON."""
from __future__ import annotations

from dataclasses import dataclass, field
from typing import Any, Callable, Iterator, Mapping, Optional, Union

from .accesses import access_text
from .agent import Agent
from .engine import Engine
from .numerals import as_text, decimal, signed
from .replies import Refused, Run, Stopped
from .stops import stop_kind

AnyAgent = Union[Agent, Engine]
# As many bytes of each object are shown if nothing else is said.
SHOWN = 256


@dataclass
class Outcome:
    """The stop of a machine, what it emitted, and objects with their lengths and first bytes."""

    machine: int
    stop: str
    instructions: int
    value: Optional[int] = None
    slot: int = 0
    instruction: str = ""
    source: str = ""
    access: str = ""
    hint: str = ""
    emitted: tuple[int, ...] = ()
    objects: dict[int, tuple[int, Optional[bytes]]] = field(default_factory=dict)

    @property
    def has_exited(self) -> bool:
        """Whether the program came to its exit."""
        return self.value is not None

    def lines(self, quiet: bool = False) -> Iterator[str]:
        """For a person: the stop first, and with `quiet` that alone."""
        if self.value is not None:
            yield f"stopped {self.machine} exit {self.value:016x} {decimal(self.value)}"
        else:
            yield f"stopped {self.machine} {self.stop}"
        if quiet:
            return
        yield f"{self.instructions} instructions"
        if self.value is None:
            yield f"at slot {self.slot}: {self.instruction}"
            yield from filter(None, (self.source, self.access, self.hint))
        yield from (f"emitted {value:016x} {decimal(value)}" for value in self.emitted)
        for number, (length, content) in self.objects.items():
            if content is None:
                yield f"object {number}: {length} bytes, which are away"
                continue
            rest = f" .. of {length} bytes; --show N shows N" if len(content) < length else ""
            yield f"object {number}: {content.hex()}{as_text(content)}{rest}"

    def as_json(self) -> dict[str, Any]:
        """For a program. Numbers above 2^53 are also there in hex."""
        found: dict[str, Any] = {"machine": self.machine, "stop": self.stop, "instructions": self.instructions}
        if self.value is not None:
            found.update(value_of(self.value))
        else:
            found.update(slot=self.slot, instruction=self.instruction, source=self.source, access=self.access, hint=self.hint)
        found["emitted"] = [value_of(value) for value in self.emitted]
        found["objects"] = [
            {"number": number, "length": length, "hex": None if content is None else content.hex()} for number, (length, content) in self.objects.items()
        ]
        return found


def value_of(value: int) -> dict[str, Union[int, str]]:
    """A word in its three forms."""
    return {"hex": f"{value:016x}", "unsigned": value, "signed": signed(value)}


def first_of(agent: AnyAgent, number: int, length: int) -> Optional[bytes]:
    """So many bytes of an object; None if it is away."""
    try:
        return agent.read(number, length)
    except Refused as why:
        if why.word != "away":
            raise
        return None


def outcome_of(
    agent: AnyAgent, machine: int, run: Run, place: Callable[[int], str], lengths: Optional[Mapping[int, int]] = None, shown: int = SHOWN
) -> Outcome:
    """What came of a run. `place` gives the source line of a slot. `lengths` are those of the objects to be shown; None if objects aren't known."""
    stop = run.last
    assert isinstance(stop, Stopped)
    found = Outcome(machine, stop.why, run.instructions + (stop.value is not None), stop.value, emitted=agent.out(machine))
    if stop.value is None:
        registers = agent.regs(machine)
        found.slot, found.instruction, found.source = registers.slot, agent.line(machine, registers.slot), place(registers.slot)
        kind = stop_kind(stop.why)
        found.access = access_text(found.instruction, registers, lengths) if kind.is_access else ""
        found.hint = kind.hint
    if shown:
        found.objects = {number: (length, first_of(agent, number, min(length, shown))) for number, length in (lengths or {}).items()}
    return found

"""What a job is, what it gives, and how it stops."""
from __future__ import annotations

import binascii
import functools
import itertools
import json
import uuid
from dataclasses import dataclass, field
from typing import Mapping, Optional, Union

from ..agent import ARGUMENTS, Agent, address
from ..engine import Engine
from ..image import Image
from ..limits import WORD
from ..replies import Refused, Stopped

# The most keys of a job, which is what `ship2` grants, and a job's fuel unless it says otherwise.
GRANTS, FUEL = 16, 10_000_000
# How many hash slots a Redis Cluster has.
SLOTS = 16_384


class JobStopped(Exception):
    """A job's program stopped by another stop than `exit`. Nothing was written.

    `why` is the name of the stop and `registers` are R0 to R10. `instruction` is the assembly at `slot`, and `source` its line in
    the source, if the job has a table of lines.
    """

    def __init__(self, job: str, why: str, slot: int, instruction: str, source: Optional[str], registers: tuple[int, ...]) -> None:
        super().__init__(job, why, slot, instruction, source, registers)
        self.job, self.why, self.slot, self.instruction, self.source, self.registers = job, why, slot, instruction, source, registers

    def __str__(self) -> str:
        place = f"slot {self.slot}, {self.instruction}" + (f", at {self.source}" if self.source else "")
        values = " ".join(f"r{number}={value:#x}" for number, value in enumerate(self.registers))
        return f"{self.job}: stopped {self.why} at {place}; {values}"


class JobRefused(Exception):
    """An agent refused a job's code: `why` is the reason, `slot` where, and `source` its line in the source, if the job has one."""

    def __init__(self, job: str, why: str, slot: int, source: Optional[str]) -> None:
        super().__init__(job, why, slot, source)
        self.job, self.why, self.slot, self.source = job, why, slot, source

    def __str__(self) -> str:
        return f"{self.job}: refused at slot {self.slot}, {self.why}" + (f", at {self.source}" if self.source else "")


@dataclass(frozen=True)
class Job:
    """A program, its keys with their rights (`r` or `w`), and up to five arguments: a number, or a key whose address is passed.

    `lines` has the source lines of slots, as `lines_of` gives them. Jobs of one `id` take effect once.
    """

    code: bytes
    keys: Mapping[str, str]
    arguments: tuple[Union[int, str], ...] = ()
    fuel: int = FUEL
    lines: Mapping[int, str] = field(default_factory=dict)
    name: str = "job"
    id: str = field(default_factory=lambda: uuid.uuid4().hex)

    def __post_init__(self) -> None:
        unknown = [it for it in self.arguments if isinstance(it, str) and it not in self.keys]
        if unknown:
            raise ValueError(f"an argument names {unknown[0]!r}, which is no key of the job")
        if len(self.arguments) > ARGUMENTS or len(self.keys) > GRANTS:
            raise ValueError(f"a job has at most {ARGUMENTS} arguments and {GRANTS} keys")
        if not set(self.keys.values()) <= {"r", "w"}:
            raise ValueError("the right to a key is 'r' or 'w'")

    @property
    def home(self) -> str:
        """The key whose hash slot is the job's: the first that it may write, else the first."""
        return [*self.written, *self.keys][0]

    @property
    def written(self) -> list[str]:
        """The keys that the job may write."""
        return [key for key, right in self.keys.items() if right == "w"]

    @property
    def record(self) -> str:
        """The key of the job's result, in the hash slot of the keys that it writes."""
        tag = hashed(self.home)
        # A hash tag ends at its first brace, so none is such a text.
        return f"bpfagent-job:{{{tag_of(slot_of(tag)) if '}' in tag else tag}}}:{self.id}"

    def source(self, slot: int) -> Optional[str]:
        """The source line of a slot: that of the last entry at or before it."""
        return self.lines.get(max((it for it in self.lines if it <= slot), default=-1))


@dataclass(frozen=True)
class Result:
    """R0 at the exit, and the values that the program emitted."""

    value: int
    emitted: tuple[int, ...]

    def recorded(self) -> str:
        """The result as it stands in a record."""
        return json.dumps([self.value, self.emitted])

    @classmethod
    def of_record(cls, text: bytes) -> Result:
        """The result in a record."""
        value, emitted = json.loads(text)
        return cls(value, tuple(emitted))


def hashed(key: str) -> str:
    """What Redis hashes of a key: what stands between its first `{` and the next `}`, if there is something, or else all of it (Redis
    Cluster specification, "Hash tags")."""
    begin = key.find("{")
    end = key.find("}", begin + 1)
    return key[begin + 1 : end] if begin >= 0 and end > begin + 1 else key


def slot_of(text: str) -> int:
    """The hash slot of what Redis hashes: its CRC-16 of the kind XMODEM, modulo the number of slots."""
    return binascii.crc_hqx(text.encode(), 0) % SLOTS


@functools.lru_cache(maxsize=SLOTS)
def tag_of(slot: int) -> str:
    """A hash tag of this slot."""
    return next(tag for tag in map(str, itertools.count()) if slot_of(tag) == slot)


def shipped(agent: Union[Agent, Engine], job: Job, numbers: Mapping[str, int]) -> int:
    """The number of the machine that a job becomes, where its keys are these objects. It reaches no others."""
    arguments = [address(numbers[it]) if isinstance(it, str) else it & WORD for it in job.arguments]
    try:
        return agent.ship2(job.code, job.fuel, {numbers[key]: right for key, right in job.keys.items()}, *arguments)
    except Refused as refusal:
        if refusal.word != "refused":
            raise
        slot, why = int(refusal.words[1]), refusal.words[2]
        raise JobRefused(job.name, why, slot, job.source(slot)) from None


def stopped(agent: Union[Agent, Engine], machine: int, job: Job, stop: Stopped) -> JobStopped:
    """How a job stopped, and where."""
    state = agent.regs(machine)
    return JobStopped(job.name, stop.why, state.slot, agent.line(machine, state.slot), job.source(state.slot), state.values)


def lines_of(image: Image) -> dict[int, str]:
    """The source lines of a program that `bpfagent.image.load` has loaded; none without debugging information."""
    from ..debug.lines import Lines, NoDwarf, dwarf_of

    try:
        lines = Lines(dwarf_of(image.content), image.linked) if image.linked else None
    except NoDwarf:
        lines = None
    found = {slot: lines.line_at(slot) for slot in range(image.slots)} if lines else {}
    return {slot: str(line) for slot, line in found.items() if line}

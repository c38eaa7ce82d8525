"""The frames of a machine, by what the protocol shows, and what names mean in each.

The protocol shows the registers, the slot and the stack of a machine. It doesn't show where its open calls return to. R10 falls
by 512 a call, so their number is known. A call site is known if the debugger stepped into the call, or if the program has only
one call that leads there.
"""
from __future__ import annotations

from dataclasses import dataclass
from typing import Optional, Protocol, Sequence

from ..replies import Registers
from .expressions import Invalid, Value
from .lines import SourceLine
from .locations import Evaluator
from .symbols import FRAME, Location, Nowhere, Scope, Symbols, Variable
from .types import UNSIGNED, Type

# R10 of the outermost function, and by how much a call lowers it.
TOP = 0xFFFF_FFFF_0000_1000
CALL = 512
# A call keeps these registers; the others are the callee's.
KEPT = (6, 7, 8, 9)


@dataclass(frozen=True)
class CallSite:
    """A call that was stepped into: its slot, and the registers before it."""

    slot: int
    registers: tuple[int, ...]


@dataclass(frozen=True)
class Frame:
    """A frame: of a function, or of one that clang inlined. Without a slot its call site isn't known, but one of `candidates`."""

    machine: int
    name: str
    slot: Optional[int]
    at: Optional[SourceLine]
    registers: tuple[Optional[int], ...]
    scopes: tuple[Scope, ...] = ()
    candidates: tuple[SourceLine, ...] = ()
    is_inlined: bool = False
    frame_size: int = 0

    def __str__(self) -> str:
        if self.slot is None:
            places = " or ".join(str(at) for at in self.candidates)
            return f"{self.name} at {places} (the protocol doesn't show which)" if places else self.name
        where = f" at {self.at}" if self.at else ""
        return f"{self.name}{where}, slot {self.slot}{' (inlined)' if self.is_inlined else ''}"


def depth_of(registers: Registers) -> int:
    """How many local calls are open."""
    return max((TOP - registers.values[FRAME]) // CALL, 0)


class Unwinder:
    """Finds the frames of a machine that is at some registers. So many functions are inlined where it is, but not entered yet."""

    def __init__(self, symbols: Symbols, registers: Registers, calls: Sequence[CallSite], hidden: int = 0) -> None:
        self._symbols, self._registers, self._calls, self._hidden = symbols, registers, calls, hidden
        self._sites = list(symbols.calls())

    def frames(self) -> list[Frame]:
        """The frames, the innermost first, as far as the call sites are known."""
        depth = depth_of(self._registers)
        found = self._physical(self._registers.slot, self._registers.values)[self._hidden :]
        slot: Optional[int] = self._registers.slot
        for level in range(depth - 1, -1, -1):
            if level < len(self._calls):
                site = self._calls[level]
                slot, known = site.slot, site.registers
            else:
                sites = self._possible(slot, level)
                slot, known = (sites[0] if len(sites) == 1 else None), ()
                if slot is None:
                    return [*found, self._unknown(sites, level)]
            found += self._physical(slot, self._outer(level, known))
        return found

    def _outer(self, level: int, known: tuple[int, ...]) -> tuple[Optional[int], ...]:
        """The registers of an outer frame, as far as they are known."""
        return tuple(TOP - CALL * level if k == FRAME else known[k] if known and k in KEPT else None for k in range(FRAME + 1))

    def _physical(self, slot: int, registers: Sequence[Optional[int]]) -> list[Frame]:
        """The frame of a function at a slot, after those of the functions that are inlined there."""
        function, machine = self._symbols.function_at(slot), self._registers.machine
        if function is None:
            return [Frame(machine, f"slot {slot}", slot, None, tuple(registers))]
        chain, found, at = function.chain(slot), [], self._symbols.lines.line_at(slot)
        for depth in range(len(chain), 0, -1):
            scope = chain[depth - 1]
            if scope.called_at or scope is function:
                found.append(Frame(machine, scope.name, slot, at, tuple(registers), tuple(chain[:depth]), (), scope is not function, function.frame_size))
                at = scope.called_at
        # A function sees the blocks within it, up to the next one that is inlined.
        return [self._with_blocks(frame, chain) for frame in found]

    @staticmethod
    def _with_blocks(frame: Frame, chain: list[Scope]) -> Frame:
        count = len(frame.scopes)
        while count < len(chain) and not chain[count].called_at:
            count += 1
        begin = max((k for k in range(len(frame.scopes)) if chain[k].called_at), default=0)
        return Frame(frame.machine, frame.name, frame.slot, frame.at, frame.registers, tuple(chain[begin:count]), (), frame.is_inlined, frame.frame_size)

    def _reachable(self, level: int) -> set[int]:
        """The first slots of the functions that may be this many calls deep."""
        levels = {0}
        for _ in range(level):
            levels = {target for site, target in self._sites if (function := self._symbols.function_at(site)) and function.slot in levels}
        return levels

    def _possible(self, slot: Optional[int], level: int) -> list[int]:
        """The call sites that may have led to the function of a slot, at this level."""
        called = self._symbols.function_at(slot) if slot is not None else None
        if called is None:
            return []
        callers = self._reachable(level)
        return [site for site, target in self._sites if target == called.slot and (function := self._symbols.function_at(site)) and function.slot in callers]

    def _unknown(self, sites: list[int], level: int) -> Frame:
        """The frame whose call site isn't known."""
        functions = {function.slot: function for site in sites if (function := self._symbols.function_at(site))}
        lines = tuple(dict.fromkeys(at for site in sites if (at := self._symbols.lines.line_at(site))))
        machine, registers = self._registers.machine, self._outer(level, ())
        if len(functions) != 1:
            return Frame(machine, "a caller", None, None, registers, (), lines)
        function = next(iter(functions.values()))
        return Frame(machine, function.name, None, None, registers, (function,), lines, False, function.frame_size)


class Memory(Protocol):
    """The memory that a machine sees."""

    def memory(self, machine: int, address: int, length: int) -> bytes:
        """Bytes from an address on; `Unreadable` if they can't be had."""


class Unreadable(Invalid):
    """Why memory can't be read."""


class FrameContext:
    """What names mean in a frame."""

    def __init__(self, frame: Frame, symbols: Optional[Symbols], registers: Registers, memory: Memory) -> None:
        self._frame, self._symbols, self._registers, self._memory = frame, symbols, registers, memory

    def named(self, name: str) -> Value:
        """A register, as `$r3`, `$slot` or `$fuel`, or a variable."""
        if name.startswith("$"):
            return self._register(name[1:].lower())
        for scope in reversed(self._frame.scopes):
            for variable in scope.variables:
                if variable.name == name:
                    return self.value_of(variable)
        raise Invalid(f"there is no variable {name} in {self._frame.name}")

    def _register(self, name: str) -> Value:
        numbers = {"slot": self._registers.slot, "pc": self._registers.slot, "fuel": self._registers.fuel}
        numbers.update({f"r{k}": value for k, value in enumerate(self._frame.registers) if value is not None})
        if name not in numbers:
            raise Invalid(f"${name} isn't shown by the protocol here: there are $r0 to $r10, $slot and $fuel")
        return Value(UNSIGNED, numbers[name].to_bytes(8, "little"))

    def type_named(self, name: str) -> Optional[Type]:
        """A type of the program."""
        return self._symbols.named_types.get(name) if self._symbols else None

    def memory(self, address: int, length: int) -> bytes:
        """Bytes that the machine sees."""
        return self._memory.memory(self._frame.machine, address, length)

    def variables(self) -> list[Variable]:
        """The variables of the frame, the innermost of a name alone, parameters first."""
        found = {variable.name: variable for scope in self._frame.scopes for variable in scope.variables}
        return sorted(found.values(), key=lambda variable: not variable.is_parameter)

    def value_of(self, variable: Variable) -> Value:
        """The value of a variable, or why it has none here."""
        evaluator = Evaluator(self._frame.registers, self._frame.frame_size)
        try:
            pieces = evaluator.pieces(variable.operations(self._frame.slot))
            if len(pieces) == 1:
                location = pieces[0][0]
                if variable.is_parameter and location.address is not None and self._is_at_its_beginning():
                    return Value(variable.type, address=location.address, why="not stored yet")
                return self._at(variable.type, location)
            content = b"".join(self._at(Type("base", size=size), location).bytes for location, size in pieces)
            return Value(variable.type, content)
        except Nowhere as why:
            return Value(variable.type, why=str(why))
        except (Unreadable, IndexError) as why:
            return Value(variable.type, why=str(why) or "its place isn't known")

    def _is_at_its_beginning(self) -> bool:
        """Whether the frame stands at its function's first instruction, which has yet to store the parameters."""
        scopes = self._frame.scopes
        return bool(scopes) and self._frame.slot == scopes[0].slot < scopes[0].body

    def _at(self, type_: Type, location: Location) -> Value:
        """The value of a type at a place."""
        if location.address is not None:
            try:
                return Value(type_, self.memory(location.address, type_.size), location.address)
            except Unreadable as why:
                return Value(type_, address=location.address, why=str(why))
        number = location.value
        if location.register is not None:
            number = self._frame.registers[location.register]
        return Value(type_, (number or 0).to_bytes(max(type_.size, 8), "little")[: type_.size])

"""Functions and variables of a program, from DWARF."""
from __future__ import annotations

import struct
from dataclasses import dataclass, field
from typing import TYPE_CHECKING, Any, Iterable, Iterator, Optional, Sequence

from ..image import Image
from ..objectfile import SLOT, Linked, instructions, reading
from .lines import SECTION, FilePaths, Lines, NoDwarf, SourceLine, dwarf_of, line_program, units_of
from .types import Type, TypeReader, name_of, number_at

if TYPE_CHECKING:
    from elftools.dwarf.compileunit import CompileUnit

# The registers of BPF, and R10, from which a function finds its frame.
REGISTERS = 11
FRAME = 10
VARIABLES = ("DW_TAG_variable", "DW_TAG_formal_parameter")


@dataclass(frozen=True)
class Location:
    """Where a variable is, or a part of it: in a register, at an address, or a value that is nowhere. One of the three is set."""

    register: Optional[int] = None
    address: Optional[int] = None
    value: Optional[int] = None


class Nowhere(Exception):
    """Why a variable has no value at a slot."""


@dataclass
class Variable:
    """A variable or parameter: where it is from one slot to another, as DWARF's operations. A fixed one is always there."""

    name: str
    type: Type
    is_parameter: bool
    places: list[tuple[int, int, Sequence[Any]]] = field(default_factory=list)
    is_fixed: bool = False

    def operations(self, slot: Optional[int]) -> Sequence[Any]:
        """The operations that find the variable at a slot; without one, only where it is fixed."""
        if slot is None:
            if self.is_fixed and self.places:
                return self.places[0][2]
            raise Nowhere("its frame's call site isn't known")
        for begin, end, operations in self.places:
            if begin <= slot < end:
                return operations
        raise Nowhere("optimized out here" if self.places else "optimized out")


@dataclass
class Scope:
    """A function, one that was inlined into another, or a block; from slots to slots, with what is declared in it."""

    name: str
    ranges: list[tuple[int, int]]
    variables: list[Variable] = field(default_factory=list)
    inner: list[Scope] = field(default_factory=list)
    called_at: Optional[SourceLine] = None
    type: Optional[Type] = None
    # Of a function: where its frame ends, from R10 down, and its first slot after the prologue.
    frame_size: int = 0
    body: int = 0

    @property
    def slot(self) -> int:
        """The first slot."""
        return min((begin for begin, _ in self.ranges), default=0)

    def holds(self, slot: int) -> bool:
        """Whether a slot belongs to it."""
        return any(begin <= slot < end for begin, end in self.ranges)

    def chain(self, slot: int) -> list[Scope]:
        """The scopes of a slot, from this one inwards."""
        inner = next((scope for scope in self.inner if scope.holds(slot)), None)
        return [self, *(inner.chain(slot) if inner else [])]


class Symbols:
    """What a program's debugging information says."""

    def __init__(self, image: Image) -> None:
        if image.linked is None:
            raise NoDwarf(f"{image.path} is raw code, which has no lines and no names")
        self._image, self._linked = image, image.linked
        self._dwarf = dwarf_of(image.content)
        self.lines = Lines(self._dwarf, self._linked)
        self._types = TypeReader()
        self.functions: list[Scope] = []
        self.named_types: dict[str, Type] = {}
        self._copies: dict[int, tuple[Scope, ...]] = {}
        with reading(NoDwarf):
            for unit in units_of(self._dwarf):
                Unit(self._dwarf, unit, self._linked, self._types).read(self)
        for function in self.functions:
            self._finish(function)

    def _finish(self, function: Scope) -> None:
        begin, end = function.slot, max(end for _, end in function.ranges)
        function.body = self.lines.body_of(begin, end)
        function.frame_size = 0 if has_negative(function) else frame_size(self._image.code[begin * SLOT : end * SLOT])

    def function_at(self, slot: int) -> Optional[Scope]:
        """The function to which a slot belongs."""
        return next((function for function in self.functions if function.holds(slot)), None)

    def copies_at(self, slot: int) -> tuple[Scope, ...]:
        """The functions that are inlined at a slot, the outermost first."""
        if slot not in self._copies:
            function = self.function_at(slot)
            self._copies[slot] = tuple(scope for scope in function.chain(slot) if scope.called_at) if function else ()
        return self._copies[slot]

    def beginning(self, slot: int) -> int:
        """How many of them, the innermost, begin at exactly this slot."""
        copies = self.copies_at(slot)
        return next((count for count, copy in enumerate(reversed(copies)) if copy.slot != slot), len(copies))

    def function_named(self, name: str) -> Optional[Scope]:
        """The function of this name."""
        return next((function for function in self.functions if function.name == name), None)

    def inlined_slots(self, name: str) -> list[int]:
        """The slots at which inlined copies of a function begin."""
        return sorted(scope.slot for function in self.functions for scope in below(function) if scope.name == name and scope.called_at)

    def calls(self) -> Iterator[tuple[int, int]]:
        """The slot of each local call, and the slot that it calls."""
        for at, opcode, source, immediate in instructions(self._image.code):
            if opcode == 0x85 and source == 1:
                yield at // SLOT, at // SLOT + 1 + immediate


def below(scope: Scope) -> Iterator[Scope]:
    """A scope and all within it."""
    yield scope
    for inner in scope.inner:
        yield from below(inner)


def names_of(variables: Iterable[Variable]) -> dict[str, Optional[Type]]:
    """The type of variables by their names; None where those of one name have several."""
    found: dict[str, Optional[Type]] = {}
    for variable in variables:
        found[variable.name] = variable.type if found.get(variable.name, variable.type) is variable.type else None
    return found


def has_negative(function: Scope) -> bool:
    """Whether a variable is below the frame's base: then the base is R10 itself."""
    places = (place for scope in below(function) for variable in scope.variables for place in variable.places)
    return any(operation.op_name == "DW_OP_fbreg" and operation.args[0] < 0 for _, _, operations in places for operation in operations)


def frame_size(code: bytes) -> int:
    """How far a function's frame goes down from R10, by its code.

    Clang counts a variable's place from the frame's lower end, and says R10 of its base. The lower end is the lowest place that
    the code reaches by R10.
    """
    lowest = 0
    copies: set[int] = set()
    for at in range(0, len(code) - SLOT + 1, SLOT):
        opcode, registers, offset, immediate = struct.unpack_from("<BBhi", code, at)
        target, source = registers & 15, registers >> 4
        if opcode & 7 in (1, 2, 3):
            base = source if opcode & 7 == 1 else target
            lowest = min(lowest, offset) if base == FRAME else lowest
        if opcode == 0xBF:
            copies = copies | {target} if source == FRAME else copies - {target}
        elif opcode == 0x07 and target in copies:
            lowest = min(lowest, immediate)
            copies.discard(target)
    return (-lowest + SLOT - 1) // SLOT * SLOT


class Unit:
    """Reads one unit of the debugging information."""

    def __init__(self, dwarf: Any, unit: CompileUnit, linked: Linked, types: TypeReader) -> None:
        from elftools.dwarf.dwarf_expr import DWARFExprParser
        from elftools.dwarf.locationlists import LocationParser

        self._dwarf, self._unit, self._linked, self._types = dwarf, unit, linked, types
        self._expressions = DWARFExprParser(unit.structs)
        self._locations = LocationParser(dwarf.location_lists())
        self._top = unit.get_top_DIE()
        program = line_program(dwarf, unit)
        self._paths = FilePaths(program, unit) if program else None

    def read(self, symbols: Symbols) -> None:
        """Adds the unit's functions and types."""
        for die in self._top.iter_children():
            if die.tag == "DW_TAG_subprogram" and (ranges := self._ranges(die)):
                symbols.functions.append(self._scope(die, ranges))
            elif die.tag in ("DW_TAG_structure_type", "DW_TAG_union_type", "DW_TAG_enumeration_type", "DW_TAG_typedef", "DW_TAG_base_type"):
                found = self._types.read(die)
                symbols.named_types.setdefault(found.name, found)

    def _scope(self, die: Any, ranges: list[tuple[int, int]]) -> Scope:
        made = Scope(name_of(die) if die.tag != "DW_TAG_lexical_block" else "", ranges)
        if die.tag == "DW_TAG_subprogram":
            made.type = self._types.of(die)
        if die.tag == "DW_TAG_inlined_subroutine" and self._paths and "DW_AT_call_line" in die.attributes:
            made.called_at = SourceLine(self._paths.path(number_at(die, "DW_AT_call_file")), number_at(die, "DW_AT_call_line"))
        for child in die.iter_children():
            if child.tag in VARIABLES:
                made.variables.append(self._variable(child, ranges))
            elif child.tag in ("DW_TAG_lexical_block", "DW_TAG_inlined_subroutine") and (inner := self._ranges(child)):
                made.inner.append(self._scope(child, inner))
        return made

    def _ranges(self, die: Any) -> list[tuple[int, int]]:
        """The slots of an entry; none if it isn't part of the program."""
        if "DW_AT_low_pc" in die.attributes:
            begin, high = number_at(die, "DW_AT_low_pc"), die.attributes.get("DW_AT_high_pc")
            spans = [(begin, high.value if high.form == "DW_FORM_addr" else begin + high.value)] if high else []
        elif "DW_AT_ranges" in die.attributes:
            spans = list(self._spans(number_at(die, "DW_AT_ranges")))
        else:
            spans = []
        found = [self._slots(begin, end) for begin, end in spans]
        return [slots for slots in found if slots]

    def _spans(self, offset: int) -> Iterator[tuple[int, int]]:
        base = number_at(self._top, "DW_AT_low_pc")
        for entry in self._dwarf.range_lists().get_range_list_at_offset(offset, self._unit):
            if hasattr(entry, "base_address"):
                base = entry.base_address
            else:
                yield placed(entry, base)

    def _slots(self, begin: int, end: int) -> Optional[tuple[int, int]]:
        """The slots of addresses of the object file."""
        slot = self._linked.slot_of(begin >> SECTION, begin & ((1 << SECTION) - 1))
        return None if slot is None or begin >= end else (slot, slot + (end - begin) // SLOT)

    def _variable(self, die: Any, ranges: list[tuple[int, int]]) -> Variable:
        origin = die.get_DIE_from_attribute("DW_AT_abstract_origin") if "DW_AT_abstract_origin" in die.attributes else die
        made = Variable(name_of(die), self._types.of(origin), die.tag == "DW_TAG_formal_parameter")
        if "DW_AT_const_value" in die.attributes:
            operation = constant(number_at(die, "DW_AT_const_value"))
            made.places = [(begin, end, [operation]) for begin, end in ranges]
        found = die.attributes.get("DW_AT_location")
        if found and found.form == "DW_FORM_exprloc":
            operations = self._expressions.parse_expr(found.value)
            made.places, made.is_fixed = [(begin, end, operations) for begin, end in ranges], True
        elif found:
            made.places = list(self._listed(found, die))
        return made

    def _listed(self, attribute: Any, die: Any) -> Iterator[tuple[int, int, Sequence[Any]]]:
        """The places of a variable that moves."""
        base = number_at(self._top, "DW_AT_low_pc")
        for entry in self._locations.parse_from_attribute(attribute, self._unit["version"], die):
            if hasattr(entry, "base_address"):
                base = entry.base_address
            elif hasattr(entry, "begin_offset"):
                slots = self._slots(*placed(entry, base))
                if slots:
                    yield (*slots, self._expressions.parse_expr(entry.loc_expr))


def placed(entry: Any, base: int) -> tuple[int, int]:
    """The addresses of a list's entry. DWARF 5 has entries that need no base."""
    begin = 0 if getattr(entry, "is_absolute", False) else base
    return begin + entry.begin_offset, begin + entry.end_offset


@dataclass(frozen=True)
class Constant:
    """An operation that is a value, for a variable that is one."""

    args: tuple[int]
    op_name: str = "value"


def constant(value: int) -> Constant:
    """The value as an operation."""
    return Constant((value,))

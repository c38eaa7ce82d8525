"""Raw code from an object file of clang for BPF, by pyelftools.

A program is one function with the functions that it calls. They may be in any sections: `link` puts the entry point first, the
others behind it, and fills in the calls between them. What only a platform's loader could fill in is refused: maps, data,
addresses of functions, and functions of other files.
"""
from __future__ import annotations

import contextlib
import io
import re
import struct
import zlib
from dataclasses import dataclass, replace
from typing import TYPE_CHECKING, Any, Callable, Iterator, Optional

from .elfcheck import want_sound
from .printable import printable

if TYPE_CHECKING:
    from elftools.elf.elffile import ELFFile

ELF = b"\x7fELF"
BPF = "EM_BPF"
SLOT = 8
ENTRY = "program"
NEEDS = "this needs pyelftools: apt-get install python3-pyelftools, or pip install 'bpfagent[debug]'"
# Section flags.
ALLOCATED, CODE = 2, 4
# Opcodes, the source registers of a call, and the kinds of relocation in code.
WIDE, CALL = 0x18, 0x85
HELPER_CALL, LOCAL_CALL = 0, 1
TO_DATA, TO_CODE = 1, 10
# A symbol, and relocations without and with an addend, as they are in a 64-bit file.
SYMBOL, REL, RELA = struct.Struct("<IBBHQQ"), struct.Struct("<QQ"), struct.Struct("<QQq")
# The kinds of symbols that are looked at, and the first of the numbers that are no sections.
DATA, FUNCTION, RESERVED = 1, 2, 0xFF00
# What reading a damaged file may raise.
DAMAGE = (ArithmeticError, AssertionError, AttributeError, LookupError, MemoryError, RecursionError, TypeError, ValueError, struct.error, zlib.error)
# No program with more slots is linked. An agent takes far fewer, and says so.
MOST_SLOTS = 1 << 20
# How many names an error shows.
NAMES = 20
# Sections that only a loader reads.
IGNORED = {"license", "version"}
MAPS = {".maps", "maps"}
# The names by which `await_request` of bpfagent_program.h marks where a machine is to pause.
AWAITS = re.compile(r"await_request\.[0-9]+")
CLOSE_SCOPES = 4


class Unlinkable(Exception):
    """Why an object file can't be shipped. `place` is the section and the offset of the code that it is about, if it is."""

    def __init__(self, why: str, place: Optional[tuple[int, int]] = None) -> None:
        super().__init__(why)
        self.place = place


@dataclass(frozen=True)
class Function:
    """A function of an object file: its section's number, and where it begins and how long it is there, in bytes."""

    name: str
    section: int
    begin: int
    size: int
    is_global: bool


@dataclass(frozen=True)
class Placed:
    """A function of a program: its first slot, and the function in the object file."""

    slot: int
    function: Function

    @property
    def end(self) -> int:
        """The slot after its last."""
        return self.slot + self.function.size // SLOT


@dataclass(frozen=True)
class Linked:
    """A program: its raw code, and where its functions are, with the entry point first."""

    code: bytes
    functions: tuple[Placed, ...]
    # The slots that `await_request` marks.
    awaits: tuple[int, ...] = ()

    def slot_of(self, section: int, offset: int) -> Optional[int]:
        """The slot at which a place of the object file is now; None if it isn't part of the program."""
        for placed in self.functions:
            at = offset - placed.function.begin
            if placed.function.section == section and 0 <= at < placed.function.size:
                return placed.slot + at // SLOT
        return None

    def function_at(self, slot: int) -> Optional[Placed]:
        """The function to which a slot belongs."""
        return next((placed for placed in self.functions if placed.slot <= slot < placed.end), None)


@dataclass(frozen=True)
class Symbol:
    """A symbol, as a relocation means it."""

    name: str
    kind: int
    section: Optional[int]
    value: int
    size: int
    is_global: bool


@contextlib.contextmanager
def reading(fault: Callable[[str], Exception]) -> Iterator[None]:
    """Turns whatever pyelftools raises over a damaged file into this fault."""
    try:
        yield
    except DAMAGE as why:
        raise fault(f"this is not a whole object file ({why})") from None
    except Exception as why:  # pyelftools has classes of its own, and of `construct`
        if type(why).__module__.split(".")[0] != "elftools":
            raise
        raise fault("this is not a whole object file") from None


def is_object_file(content: bytes) -> bool:
    """Whether these bytes are an ELF file, and no raw code."""
    return content.startswith(ELF)


def elf_of(content: bytes) -> ELFFile:
    """The file, read by pyelftools."""
    try:
        from elftools.elf.elffile import ELFFile
    except ImportError:
        raise Unlinkable(NEEDS) from None
    with reading(Unlinkable):
        elf = ELFFile(io.BytesIO(content))
        if elf["e_machine"] != BPF or not elf.little_endian or elf.elfclass != 64:
            raise Unlinkable("this isn't an object file for little-endian BPF: clang -target bpfel -c makes one")
        want_sound(content)
        return elf


class ObjectFile:
    """The sections with code, the functions, and the relocations of an object file."""

    def __init__(self, content: bytes) -> None:
        elf = elf_of(content)
        with reading(Unlinkable):
            self._sections: list[Any] = list(elf.iter_sections())
            self._data = {k: section.data() for k, section in enumerate(self._sections) if section["sh_flags"] & CODE and section["sh_size"]}
            self.symbols = list(self._symbol_table())
            self.functions = sorted(self._found_functions(), key=lambda function: (function.section, function.begin))
            self._begins = {(function.section, function.begin): function for function in self.functions}
            self._relocations = {code: dict(self._relocations_of(code)) for code in self._data}

    def _symbol_table(self) -> Iterator[Symbol]:
        for section in self._sections:
            if section["sh_type"] == "SHT_SYMTAB":
                names = self._sections[section["sh_link"]]
                if names["sh_type"] != "SHT_STRTAB":
                    raise Unlinkable("this is not a whole object file (its symbols have no names)")
                text: bytes = names.data()
                for name, info, _, where, value, size in SYMBOL.iter_unpack(section.data()):
                    yield Symbol(text_in(text, name), info & 0xF, where if 0 < where < RESERVED else None, value, size, info >> 4 != 0)

    def _found_functions(self) -> Iterator[Function]:
        """The functions that have a size, each place once."""
        seen = set()
        for symbol in sorted(self.symbols, key=lambda symbol: not symbol.is_global):
            place = (symbol.section, symbol.value)
            if symbol.kind == FUNCTION and symbol.section in self._data and symbol.size and place not in seen:
                seen.add(place)
                if symbol.value % SLOT or symbol.size % SLOT or symbol.value + symbol.size > len(self._data[symbol.section]):
                    raise Unlinkable(f"the function {symbol.name} isn't where its section is")
                yield Function(symbol.name, symbol.section, symbol.value, symbol.size, symbol.is_global)

    def _relocations_of(self, code: int) -> Iterator[tuple[int, tuple[int, Symbol]]]:
        """Place, kind and symbol of each slot of a section that has to be filled in."""
        for section in self._sections:
            form = {"SHT_REL": REL, "SHT_RELA": RELA}.get(section["sh_type"])
            if form and section["sh_info"] == code:
                for place, info, *_ in form.iter_unpack(section.data()):
                    yield place, (info & 0xFFFF_FFFF, self.symbols[info >> 32])

    def relocation(self, section: int, at: int) -> Optional[tuple[int, Symbol]]:
        """Kind and symbol of what has to be filled in at this place."""
        return self._relocations[section].get(at)

    def code_of(self, function: Function) -> bytes:
        """The code of a function, as it is in the file."""
        code: bytes = self._data[function.section]
        return code[function.begin : function.begin + function.size]

    def code_of_section(self, name: str) -> bytes:
        """The code of a section, as it is in the file."""
        return next((data for section, data in self._data.items() if self.name_of(section) == name), b"")

    def name_of(self, section: Optional[int]) -> str:
        """The name of a section."""
        return "" if section is None else printable(str(self._sections[section].name))

    def holds_code(self, section: Optional[int]) -> bool:
        """Whether a section has code."""
        return section in self._data

    def function_from(self, section: Optional[int], offset: int) -> Optional[Function]:
        """The function that begins at a place."""
        return None if section is None else self._begins.get((section, offset))

    def name_at(self, symbol: Symbol, offset: int) -> str:
        """The name that a relocation means; if its symbol is a section, that of the data at this offset."""
        if symbol.name:
            return symbol.name
        held = (s.name for s in self.symbols if s.section == symbol.section and s.kind == DATA and s.value <= offset < s.value + s.size)
        return next(held, self.name_of(symbol.section))

    def data_sections(self) -> Iterator[tuple[str, int]]:
        """Name and size of the sections that would have to be in memory."""
        for section in self._sections:
            if section["sh_flags"] & ALLOCATED and not section["sh_flags"] & CODE and section["sh_size"] and section.name not in IGNORED:
                yield printable(str(section.name)), section["sh_size"]


def text_in(names: bytes, at: int) -> str:
    """A name in a table of names."""
    return printable(names[at : names.index(b"\0", at)].decode("utf-8", "replace"))


def entry_of(file: ObjectFile, name: Optional[str]) -> Function:
    """The function of this name, or `program`, or else the only one that isn't static."""
    outer = [function for function in file.functions if function.is_global]
    found = [function for function in file.functions if function.name == (name or ENTRY)]
    if not found and name is None and len(outer) == 1:
        found = outer
    if found:
        return found[0]
    names = ", ".join([*(function.name for function in outer[:NAMES]), *[".."] * (len(outer) > NAMES)]) or "none"
    if name is None:
        raise Unlinkable(f"there is no function {ENTRY}; --entry NAME chooses another: {names}")
    raise Unlinkable(f"there is no function {name}; the functions that aren't static: {names}")


def instructions(code: bytes) -> Iterator[tuple[int, int, int, int]]:
    """Place, opcode, source register and immediate of each instruction."""
    at = 0
    while at + SLOT <= len(code):
        opcode, registers, _, immediate = struct.unpack_from("<BBhi", code, at)
        yield at, opcode, registers >> 4, immediate
        at += 2 * SLOT if opcode == WIDE else SLOT


@dataclass(frozen=True)
class Call:
    """A call within a program: where it is in its function, and the function that it calls."""

    at: int
    called: Function


class Linker:
    """Collects the functions of a program."""

    def __init__(self, file: ObjectFile) -> None:
        self.file = file
        self.calls: dict[Function, list[Call]] = {}

    def visit(self, entry: Function) -> None:
        """Finds all functions that the entry point reaches."""
        rest, slots = [entry], 0
        while rest:
            function = rest.pop()
            if function not in self.calls:
                slots += function.size // SLOT
                if slots > MOST_SLOTS:
                    raise Unlinkable(f"the functions that {entry.name} reaches have more than {MOST_SLOTS} slots")
                self.calls[function] = list(self._calls_of(function))
                rest += [call.called for call in self.calls[function]]

    def _calls_of(self, function: Function) -> Iterator[Call]:
        for at, opcode, source, immediate in instructions(self.file.code_of(function)):
            try:
                called = self._checked(function, at, opcode, source, immediate)
            except Unlinkable as why:
                raise Unlinkable(f"slot {at // SLOT} of {function.name} {why}", (function.section, function.begin + at)) from None
            if called:
                yield Call(at, called)

    def _checked(self, function: Function, at: int, opcode: int, source: int, immediate: int) -> Optional[Function]:
        """The function that an instruction calls, if it is a call; nothing that needs a platform comes through."""
        found = self.file.relocation(function.section, function.begin + at)
        if opcode == CALL and source == LOCAL_CALL:
            return self._called(function, at, immediate, found)
        if found:
            raise Unlinkable(self._why_data(immediate, *found))
        if opcode == WIDE and source:
            raise Unlinkable(f"loads a constant of kind {source}, which needs a platform's maps or variables")
        if opcode == CALL and source != HELPER_CALL:
            raise Unlinkable("calls a function of a kernel, which needs a platform")
        return None

    def _called(self, function: Function, at: int, immediate: int, found: Optional[tuple[int, Symbol]]) -> Function:
        """The function that a call reaches."""
        section: Optional[int] = function.section
        offset = function.begin + at + SLOT + immediate * SLOT
        if found:
            kind, symbol = found
            if symbol.section is None:
                raise Unlinkable(f"calls {symbol.name}, which this file doesn't define")
            if kind != TO_CODE:
                raise Unlinkable(f"has a relocation of kind {kind}, which isn't that of a call")
            section, offset = symbol.section, symbol.value + (immediate + 1) * SLOT
        called = self.file.function_from(section, offset)
        if called is None:
            raise Unlinkable("calls a place where no function begins")
        return called

    def _why_data(self, immediate: int, kind: int, symbol: Symbol) -> str:
        """Why a relocation other than a call's can't be filled in."""
        section = self.file.name_of(symbol.section)
        name = self.file.name_at(symbol, immediate)
        if symbol.section is None:
            return f"needs {name}, which this file doesn't define: a platform would have to provide it"
        if section in MAPS:
            return f"needs the map {name}: there are no maps here; take an object's address as an argument"
        if self.file.holds_code(symbol.section):
            return "needs the address of a function: only direct calls can be shipped"
        if kind != TO_DATA:
            return f"has a relocation of kind {kind} to {name}"
        of = f"{name} in {section}" if name != section else section
        return f"needs the address of {of}: a program has no data of its own; put it into an object"


def link(content: bytes, entry: Optional[str] = None) -> Linked:
    """The raw code of an object file, from its entry point on: `program`, or the function that is named."""
    file = ObjectFile(content)
    if not file.functions:
        raise Unlinkable("there is no function in this object file")
    linker = Linker(file)
    first = entry_of(file, entry)
    linker.visit(first)
    for name, size in file.data_sections():
        raise Unlinkable(f"{name} has {size} bytes, and a program has no data of its own; put it into an object")
    order = [first, *(function for function in file.functions if function in linker.calls and function is not first)]
    slots, slot = {}, 0
    for function in order:
        slots[function] = slot
        slot += function.size // SLOT
    code = bytearray(b"".join(file.code_of(function) for function in order))
    for function in order:
        for call in linker.calls[function]:
            at = slots[function] + call.at // SLOT
            struct.pack_into("<i", code, at * SLOT + 4, slots[call.called] - at - 1)
    linked = Linked(bytes(code), tuple(Placed(slots[function], function) for function in order))
    return replace(linked, awaits=tuple(sorted(marked(file, linked))))


def marked(file: ObjectFile, linked: Linked) -> Iterator[int]:
    """The slots that `await_request` marks."""
    for symbol in file.symbols:
        if AWAITS.fullmatch(symbol.name) and symbol.section is not None:
            slot = linked.slot_of(symbol.section, symbol.value)
            if slot is not None:
                yield slot


def after_closing(code: bytes) -> list[int]:
    """The slot after each call of the helper that closes scopes."""
    return [at // SLOT + 1 for at, *call in instructions(code) if call == [CALL, HELPER_CALL, CLOSE_SCOPES]]

"""The line table of an object file, by pyelftools."""
from __future__ import annotations

import bisect
import io
import os
import pathlib
import struct
from dataclasses import dataclass
from typing import TYPE_CHECKING, Any, Collection, Iterator, Optional, Sequence

from ..objectfile import CODE, NEEDS, REL, RESERVED, SYMBOL, Linked, Unlinkable, elf_of, reading
from ..printable import printable

if TYPE_CHECKING:
    from elftools.dwarf.compileunit import CompileUnit
    from elftools.dwarf.dwarfinfo import DWARFInfo

# In a relocatable file each section begins at address 0. So that addresses of different sections differ, an address is the
# section's number times 2^32, and the offset.
SECTION = 32
# The relocations in debugging sections, and what each fills in.
FIELDS = {1: "<Q", 2: "<Q", 3: "<I", 4: "<I"}


class NoDwarf(Exception):
    """Why there is no debugging information."""


@dataclass(frozen=True)
class SourceLine:
    """A line of a source file."""

    path: str
    line: int

    def __str__(self) -> str:
        return f"{printable(short(self.path))}:{self.line}"


@dataclass(frozen=True)
class Row:
    """A row of the line table: from this slot on the code is of this line."""

    slot: int
    at: SourceLine
    is_statement: bool
    ends_prologue: bool


def short(path: str) -> str:
    """A path as it is shown: from the working folder, if it is below it."""
    try:
        return os.fspath(pathlib.Path(path).relative_to(pathlib.Path.cwd()))
    except ValueError:
        return path


def relocated(content: bytes) -> bytes:
    """The file with the relocations of its debugging sections done. pyelftools doesn't know those of BPF."""
    elf, done = elf_of(content), bytearray(content)
    sections = list(elf.iter_sections())
    symbols = elf.get_section_by_name(".symtab")
    values = [value + base_of(sections, where) for _, _, _, where, value, _ in SYMBOL.iter_unpack(symbols.data())] if symbols else []
    for section in sections:
        if section["sh_type"] != "SHT_REL":
            continue
        target = sections[section["sh_info"]]
        if not target.name.startswith(".debug"):
            continue
        for place, info in REL.iter_unpack(section.data()):
            field, at = FIELDS[info & 0xFFFF_FFFF], target["sh_offset"] + place
            struct.pack_into(field, done, at, struct.unpack_from(field, done, at)[0] + values[info >> 32])
    return bytes(done)


def base_of(sections: Sequence[Any], where: int) -> int:
    """The address at which a section begins: 0, unless it has code."""
    return where << SECTION if 0 < where < RESERVED and sections[where]["sh_flags"] & CODE else 0


def want_readable(elf: Any) -> None:
    """The debugging sections have their content, and are compressed, if they are, in a way that says how long they are."""
    for section in elf.iter_sections():
        if section.name.startswith(".zdebug") or section.name.startswith(".debug") and section["sh_type"] == "SHT_NOBITS":
            raise NoDwarf(f"the section {printable(section.name)} can't be read: compile with -g, and without -gz")


def dwarf_of(content: bytes) -> DWARFInfo:
    """The debugging information of an object file."""
    try:
        from elftools.elf.elffile import ELFFile
    except ImportError:
        raise NoDwarf(NEEDS) from None
    with reading(NoDwarf):
        try:
            found = ELFFile(io.BytesIO(relocated(content)))
        except Unlinkable as why:
            raise NoDwarf(str(why)) from None
        want_readable(found)
        if not found.has_dwarf_info():
            raise NoDwarf("the file has no debugging information: compile with -g")
        return found.get_dwarf_info(relocate_dwarf_sections=False)


def units_of(dwarf: DWARFInfo) -> Iterator[CompileUnit]:
    """The units of a file's debugging information."""
    with reading(NoDwarf):
        yield from dwarf.iter_CUs()


def rows_of_unit(dwarf: DWARFInfo, unit: CompileUnit) -> Iterator[tuple[int, SourceLine, bool, bool]]:
    """Address, line, and whether a statement begins and a prologue ends, of each row of a unit's line table. Line 0 is none."""
    with reading(NoDwarf):
        program = line_program(dwarf, unit)
        paths = FilePaths(program, unit) if program else None
        for entry in program.get_entries() if program else []:
            state = entry.state
            if state is not None and not state.end_sequence and paths:
                yield state.address, SourceLine(paths.path(state.file), state.line), bool(state.is_stmt), bool(state.prologue_end)


def add_form(unit: CompileUnit) -> None:
    """Adds a form of DWARF 5 that older versions of pyelftools lack: that of a file's MD5 in the line table."""
    from elftools.construct import Array

    forms = unit.structs.Dwarf_dw_form
    if "DW_FORM_data16" not in forms:
        forms["DW_FORM_data16"] = Array(16, unit.structs.Dwarf_uint8(""))


def line_program(dwarf: DWARFInfo, unit: CompileUnit) -> Any:
    """A unit's line program, if it has one."""
    add_form(unit)
    try:
        return dwarf.line_program_for_CU(unit)
    except KeyError as why:
        raise NoDwarf(f"this version of pyelftools can't read line tables of DWARF 5 ({why}): compile with -gdwarf-4") from None


class FilePaths:
    """The names of a line program's files, as paths."""

    def __init__(self, program: Any, unit: CompileUnit) -> None:
        top = unit.get_top_DIE()
        self._folder = text_of(top, "DW_AT_comp_dir")
        self._files = program.header["file_entry"]
        self._folders = [folder_name(item) for item in program.header.get("include_directory") or []]
        self._is_five = program.header["version"] >= 5

    def path(self, number: int) -> str:
        """The path of a file by its number, which counts from 1 before DWARF 5."""
        entry = self._files[number if self._is_five else number - 1]
        name, folder = entry.name.decode(), entry.dir_index
        if self._is_five:
            held = self._folders[folder]
        else:
            held = self._folders[folder - 1] if folder else ""
        return os.path.normpath(os.path.join(self._folder, held, name))


def folder_name(item: Any) -> str:
    """The name of a folder in a line program's header, which is bytes before DWARF 5, and then an entry."""
    name: bytes = item if isinstance(item, bytes) else item["DW_LNCT_path"]
    return name.decode("utf-8", "replace")


def text_of(die: Any, name: str) -> str:
    """A text attribute of an entry, empty if it has none."""
    found = die.attributes.get(name)
    return found.value.decode("utf-8", "replace") if found and isinstance(found.value, bytes) else ""


class Lines:
    """The line table of a program, by slots."""

    def __init__(self, dwarf: DWARFInfo, linked: Linked) -> None:
        found = sorted(self._placed(dwarf, linked), key=lambda row: row.slot)
        self.rows: list[Row] = [row for row in found if row.at.line]
        self._linked = linked
        # Where code begins that is of no line, and of one.
        self._begins = {row.slot: bool(row.at.line) for row in found}
        self._ordered = sorted(self._begins)
        # Of the rows at one slot the last statement holds, as for gdb, or the last row if there is none.
        held: dict[int, Row] = {}
        for row in self.rows:
            if row.is_statement or not (row.slot in held and held[row.slot].is_statement):
                held[row.slot] = row
        self._by_slot, self._slots = held, sorted(held)

    @staticmethod
    def _placed(dwarf: DWARFInfo, linked: Linked) -> Iterator[Row]:
        for unit in units_of(dwarf):
            for address, at, is_statement, ends_prologue in rows_of_unit(dwarf, unit):
                slot = linked.slot_of(address >> SECTION, address & ((1 << SECTION) - 1))
                if slot is not None:
                    yield Row(slot, at, is_statement, ends_prologue)

    def row_at(self, slot: int) -> Optional[Row]:
        """The row to which a slot belongs: the last one before it in its function."""
        place = bisect.bisect_right(self._slots, slot)
        found = self._by_slot[self._slots[place - 1]] if place else None
        placed = self._linked.function_at(slot)
        return found if found and placed and found.slot >= placed.slot else None

    def line_at(self, slot: int) -> Optional[SourceLine]:
        """The source line of a slot."""
        row = self.row_at(slot)
        return row.at if row else None

    def is_gap(self, slot: int) -> bool:
        """Whether the compiler says of a slot that it is of no line. It is shown as of the line before."""
        place = bisect.bisect_right(self._ordered, slot)
        return bool(place) and not self._begins[self._ordered[place - 1]]

    def row_from(self, slot: int) -> Optional[Row]:
        """The row that begins at exactly this slot."""
        return self._by_slot.get(slot)

    def begins_at(self, slot: int) -> Optional[SourceLine]:
        """The line of a statement that begins at exactly this slot."""
        row = self.row_from(slot)
        return row.at if row and row.is_statement else None

    def end_of(self, slot: int) -> int:
        """The slot behind the rows of the line to which a slot belongs."""
        at = self.line_at(slot)
        return next((other for other in self._slots if other > slot and self._by_slot[other].at != at), 1 << 32)

    def paths(self) -> list[str]:
        """The source files."""
        return sorted({row.at.path for row in self.rows})

    def slots_of(self, path: str, line: int, targets: Collection[int]) -> list[int]:
        """The slots at which a line's statements begin: the first of each run of rows, and those to which a jump leads."""
        found, wanted, is_in = [], SourceLine(path, line), False
        for row in self.rows:
            if row.at != wanted:
                is_in = False
            elif row.is_statement and (not is_in or row.slot in targets):
                found.append(row.slot)
                is_in = True
        return found

    def body_of(self, slot: int, end: int) -> int:
        """The first slot after a function's prologue, given where the function begins and ends."""
        inside = [row for row in self.rows if slot <= row.slot < end]
        marked = next((row.slot for row in inside if row.ends_prologue), None)
        if marked is not None:
            return marked
        first = inside[0].at if inside else None
        return next((row.slot for row in inside if row.is_statement and row.at != first and row.slot > slot), slot)


def line_of_place(content: bytes, place: tuple[int, int]) -> Optional[SourceLine]:
    """The source line of a place of an object file, if there is debugging information that says so."""
    section, offset = place
    found, address = None, (section << SECTION) + offset
    try:
        dwarf = dwarf_of(content)
        for unit in units_of(dwarf):
            for begin, at, _, _ in rows_of_unit(dwarf, unit):
                if at.line and begin <= address and begin >> SECTION == section and (found is None or begin >= found[0]):
                    found = (begin, at)
    except NoDwarf:
        return None
    return found[1] if found else None

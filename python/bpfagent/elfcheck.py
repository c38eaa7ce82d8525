"""Whether an object file is one that can be read in a moment, looked at before pyelftools reads it.

pyelftools trusts a file's numbers. It makes as many zeros as a section without content has bytes, and inflates whatever a section says.
Some hundred thousand symbols take it a minute. The numbers are those of the ELF format (System V gABI, "Sections").
"""
from __future__ import annotations

import struct
from dataclasses import dataclass
from typing import Iterator

# The head of a 64-bit file from `e_shoff` on, a section's head, and that of a compressed section.
HEAD, HEAD_AT, SECTION, COMPRESSED = struct.Struct("<QIHHHHHH"), 40, struct.Struct("<IIQQQQIIQQ"), struct.Struct("<IIQQ")
SYMBOL, REL, RELA = 24, 16, 24
# Kinds of sections, and flags of them.
NOTHING, SYMTAB, STRTAB, OF_RELA, NOBITS, OF_REL = 0, 2, 3, 4, 8, 9
ALLOCATED, CODE, IS_COMPRESSED = 2, 4, 1 << 11
# What no program has that can be shipped: more sections, symbols and relocations of its code, names that are longer, and
# compressed sections that are longer together, in bytes.
SECTIONS, ENTRIES, NAME, INFLATED = 4096, 65_536, 4096, 1 << 26


class Unsound(ValueError):
    """Why a file isn't read."""


@dataclass(frozen=True)
class Section:
    """The head of a section."""

    number: int
    kind: int
    flags: int
    offset: int
    size: int
    info: int
    entry: int


def want_sound(content: bytes) -> None:
    """Raises `Unsound` unless this 64-bit little-endian file can be read in a moment. It may be damaged in other ways."""
    sections = list(sections_of(content))
    for section in sections:
        want_there(section, len(content))
        if section.kind == STRTAB:
            want_names(section, content)
        elif section.kind == SYMTAB:
            want_entries(section, SYMBOL, "symbols")
        elif section.kind in (OF_REL, OF_RELA) and section.info < len(sections) and sections[section.info].flags & CODE:
            want_entries(section, REL if section.kind == OF_REL else RELA, "relocations")
    inflated = sum(inflated_size(section, content) for section in sections if section.flags & IS_COMPRESSED)
    if inflated > INFLATED:
        raise Unsound(f"its compressed sections have {inflated} bytes, and may have {INFLATED}")


def sections_of(content: bytes) -> Iterator[Section]:
    """The heads of the sections."""
    if len(content) < HEAD_AT + HEAD.size:
        raise Unsound("it ends within its head")
    offset, _, _, _, _, size, count, _ = HEAD.unpack_from(content, HEAD_AT)
    if not offset or not count or count > SECTIONS:
        raise Unsound(f"it has {count if offset else 0} sections, and may have 1 to {SECTIONS}")
    if size != SECTION.size or offset + count * size > len(content):
        raise Unsound("it ends before its table of sections")
    for number in range(count):
        _, kind, flags, _, place, length, _, info, _, entry = SECTION.unpack_from(content, offset + number * size)
        yield Section(number, kind, flags, place, length, info, entry)


def want_there(section: Section, size: int) -> None:
    """The file has the section's bytes. Only data that a loader makes may have none."""
    if section.kind == NOBITS:
        if section.flags & CODE or not section.flags & ALLOCATED:
            raise Unsound(f"section {section.number} has no content")
    elif section.kind != NOTHING and section.offset + section.size > size:
        raise Unsound(f"it ends before section {section.number} does")


def want_names(section: Section, content: bytes) -> None:
    """The section has no name that takes long to read, again and again."""
    if any(len(name) > NAME for name in content[section.offset : section.offset + section.size].split(b"\0")):
        raise Unsound(f"section {section.number} has a name of more than {NAME} bytes")


def want_entries(section: Section, size: int, what: str) -> None:
    """The section is a table of entries of this size, and of not too many."""
    if section.entry != size:
        raise Unsound(f"section {section.number} has {what} of {section.entry} bytes, and not {size}")
    if section.size // size > ENTRIES:
        raise Unsound(f"it has {section.size // size} {what}, and may have {ENTRIES}")


def inflated_size(section: Section, content: bytes) -> int:
    """How long a compressed section says that it is."""
    if section.size < COMPRESSED.size:
        raise Unsound(f"section {section.number} has no head of a compressed one")
    size: int = COMPRESSED.unpack_from(content, section.offset)[2]
    return size

"""C types, from DWARF, and how a value of each is shown."""
from __future__ import annotations

from dataclasses import dataclass, field
from typing import Any, Callable, Optional

from ..accesses import place_text
from ..printable import printable

ENUM = "enum"
BASE, POINTER, RECORD, ARRAY, ALIAS, ENUMERATION, FUNCTION, VOID = "base", "pointer", "record", "array", "alias", ENUM, "function", "void"
# Encodings of base types. `char` is signed for BPF; uint8_t isn't, and is taken for a number.
BOOLEAN, SIGNED, CHARACTER = 2, 5, 6
# Entries of DWARF that only add a word to another type.
WORDS = {"DW_TAG_const_type": "const", "DW_TAG_volatile_type": "volatile", "DW_TAG_restrict_type": "restrict", "DW_TAG_atomic_type": "_Atomic"}
RECORDS = {"DW_TAG_structure_type": "struct", "DW_TAG_union_type": "union", "DW_TAG_class_type": "class"}
# How many elements of an array are shown.
SHOWN = 32


@dataclass
class Member:
    """A member of a struct or union. A bit field has a number of bits, and where they begin from the member's offset on."""

    name: str
    type: Type
    offset: int
    bits: int = 0
    first_bit: int = 0


@dataclass
class Type:
    """A C type. `target` is what a pointer points to, an array consists of, or an alias means."""

    kind: str
    name: str = ""
    size: int = 0
    target: Optional[Type] = None
    members: list[Member] = field(default_factory=list)
    count: int = 0
    encoding: int = 0
    names: dict[int, str] = field(default_factory=dict)

    @property
    def bare(self) -> Type:
        """The type without aliases, `const` and `volatile`."""
        return self.target.bare if self.kind == ALIAS and self.target else self

    @property
    def is_signed(self) -> bool:
        """Whether values may be negative."""
        return self.bare.encoding in (SIGNED, CHARACTER)

    @property
    def is_record(self) -> bool:
        """Whether it is a struct or a union."""
        return self.bare.kind == RECORD

    def member(self, name: str) -> Optional[Member]:
        """The member of this name, also one of an unnamed struct or union within."""
        for member in self.bare.members:
            if member.name == name:
                return member
            if not member.name and member.type.is_record and (inner := member.type.member(name)):
                return Member(name, inner.type, member.offset + inner.offset, inner.bits, inner.first_bit)
        return None

    def __str__(self) -> str:
        if self.kind == POINTER:
            return f"{self.target} *" if self.target and self.target.kind != POINTER else f"{self.target}*"
        if self.kind == ARRAY:
            return f"{self.target} [{self.count}]"
        return self.name or self.kind


VOID_TYPE = Type(VOID, "void")
UNSIGNED = Type(BASE, "unsigned long", 8, encoding=7)
INTEGER = Type(BASE, "long", 8, encoding=SIGNED)
BYTE = Type(BASE, "uint8_t", 1, encoding=7)
INTEGERS = {1: BYTE, 2: Type(BASE, "uint16_t", 2, encoding=7), 4: Type(BASE, "uint32_t", 4, encoding=7), 8: Type(BASE, "uint64_t", 8, encoding=7)}


def pointer_to(target: Type) -> Type:
    """The type of pointers to a type."""
    return Type(POINTER, size=8, target=target)


class TypeReader:
    """The types of a file's debugging information, each once."""

    def __init__(self) -> None:
        self._known: dict[int, Type] = {}

    def of(self, die: Any) -> Type:
        """The type that an entry names by its attribute; `void` if it names none."""
        if "DW_AT_type" not in die.attributes:
            return VOID_TYPE
        return self.read(die.get_DIE_from_attribute("DW_AT_type"))

    def read(self, die: Any) -> Type:
        """The type that an entry describes."""
        known = self._known.get(die.offset)
        if known is None:
            # A struct may point to itself, so it is known before it is read.
            known = self._known[die.offset] = Type(VOID)
            self._fill(known, die)
        return known

    def _fill(self, made: Type, die: Any) -> None:
        made.name, made.size = name_of(die), number_at(die, "DW_AT_byte_size")
        if die.tag == "DW_TAG_base_type":
            made.kind, made.encoding = BASE, number_at(die, "DW_AT_encoding")
        elif die.tag == "DW_TAG_pointer_type":
            made.kind, made.size, made.target = POINTER, 8, self.of(die)
        elif die.tag in RECORDS:
            made.kind, made.name = RECORD, f"{RECORDS[die.tag]} {made.name or '{..}'}"
            made.members = [self._member(child) for child in die.iter_children() if child.tag == "DW_TAG_member"]
        elif die.tag == "DW_TAG_array_type":
            self._fill_array(made, die)
        elif die.tag == "DW_TAG_enumeration_type":
            made.kind, made.name = ENUMERATION, f"enum {made.name}".rstrip()
            made.names = {number_at(child, "DW_AT_const_value"): name_of(child) for child in die.iter_children() if child.tag == "DW_TAG_enumerator"}
        elif die.tag == "DW_TAG_subroutine_type":
            made.kind, made.name = FUNCTION, "function"
        elif die.tag == "DW_TAG_typedef" or die.tag in WORDS:
            made.kind, made.target = ALIAS, self.of(die)
            made.size = made.target.size
            made.name = made.name or f"{WORDS[die.tag]} {made.target}"

    def _fill_array(self, made: Type, die: Any) -> None:
        """An array, of which each dimension but the first is an array within."""
        counts = [count_of(child) for child in die.iter_children() if child.tag == "DW_TAG_subrange_type"] or [0]
        element = self.of(die)
        for count in reversed(counts[1:]):
            element = Type(ARRAY, target=element, count=count, size=element.size * count)
        made.kind, made.target, made.count, made.size = ARRAY, element, counts[0], element.size * counts[0]

    def _member(self, die: Any) -> Member:
        type_, bits = self.of(die), number_at(die, "DW_AT_bit_size")
        if "DW_AT_data_bit_offset" in die.attributes:
            first = number_at(die, "DW_AT_data_bit_offset")
            offset = first // 8 // max(type_.size, 1) * type_.size
            return Member(name_of(die), type_, offset, bits, first - offset * 8)
        offset = number_at(die, "DW_AT_data_member_location")
        # Before DWARF 5 the bits are counted from the highest of the storage unit.
        first = type_.size * 8 - number_at(die, "DW_AT_bit_offset") - bits if bits else 0
        return Member(name_of(die), type_, offset, bits, first)


def name_of(die: Any) -> str:
    """The name of an entry, or of that from which it comes."""
    found = die.attributes.get("DW_AT_name")
    if found:
        return printable(found.value.decode("utf-8", "replace"))
    return name_of(die.get_DIE_from_attribute("DW_AT_abstract_origin")) if "DW_AT_abstract_origin" in die.attributes else ""


def number_at(die: Any, name: str) -> int:
    """A number that an entry has, else 0."""
    found = die.attributes.get(name)
    return found.value if found and isinstance(found.value, int) else 0


def count_of(die: Any) -> int:
    """How many elements a dimension of an array has."""
    if "DW_AT_count" in die.attributes:
        return number_at(die, "DW_AT_count")
    return number_at(die, "DW_AT_upper_bound") + 1 if "DW_AT_upper_bound" in die.attributes else 0


def number_of(type_: Type, content: bytes) -> int:
    """The number that bytes are in this type."""
    return int.from_bytes(content, "little", signed=type_.is_signed)


def member_bytes(member: Member, content: bytes) -> bytes:
    """The bytes of a member of a struct with these bytes; of a bit field, as many as its type has."""
    found = content[member.offset : member.offset + member.type.size]
    if not member.bits:
        return found
    value = int.from_bytes(found, "little") >> member.first_bit & ((1 << member.bits) - 1)
    if member.type.is_signed and value >> (member.bits - 1):
        value -= 1 << member.bits
    return value.to_bytes(member.type.size, "little", signed=value < 0)


def shown(type_: Type, content: bytes, depth: int = 0) -> str:
    """A value as text, as C would write it."""
    bare = type_.bare
    if bare.kind == POINTER:
        address = int.from_bytes(content, "little")
        return f"({type_}) 0x{address:x}" + (f" <{place_text(address)}>" if address >> 32 else "")
    if bare.kind == RECORD:
        parts = [
            f"{member.name} = {shown(member.type, member_bytes(member, content), depth + 1)}"
            if member.name
            else shown(member.type, member_bytes(member, content), depth + 1)
            for member in bare.members
        ]
        return "{" + ", ".join(parts) + "}"
    if bare.kind == ARRAY and bare.target:
        return shown_array(bare, bare.target, content, depth)
    if bare.kind == ENUMERATION:
        number = number_of(type_, content)
        return bare.names.get(number, str(number))
    if bare.encoding == BOOLEAN:
        return "true" if any(content) else "false"
    if bare.encoding == CHARACTER:
        return f"{number_of(type_, content)} {character(content[0])}"
    return str(number_of(type_, content))


# How a number is shown in each form, given its bits and whether the type's values may be negative.
FORMS: dict[str, Callable[[int, int], str]] = {
    "x": lambda number, bits: f"0x{number:x}",
    "d": lambda number, bits: str(number - (1 << bits) if number >> bits - 1 else number),
    "u": lambda number, bits: str(number),
    "o": lambda number, bits: f"0{number:o}",
    "t": lambda number, bits: f"{number:b}",
    "c": lambda number, bits: character(number & 255),
}


def formed_bytes(type_: Type, content: bytes, form: str) -> str:
    """A value whose numbers are all in one form: hex, signed, unsigned, octal, binary, or a character."""
    bare = type_.bare
    if bare.kind == RECORD:
        parts = [(f"{member.name} = " if member.name else "") + formed_bytes(member.type, member_bytes(member, content), form) for member in bare.members]
        return "{" + ", ".join(parts) + "}"
    if bare.kind == ARRAY and bare.target:
        size = max(bare.target.size, 1)
        parts = [formed_bytes(bare.target, content[at : at + size], form) for at in range(0, min(len(content), SHOWN * size), size)]
        return "{" + ", ".join(parts) + (", .." if bare.count > SHOWN else "") + "}"
    return FORMS[form](int.from_bytes(content, "little"), max(8 * len(content), 1))


def shown_array(array: Type, element: Type, content: bytes, depth: int) -> str:
    """An array: text if it is of characters, else its first elements."""
    if element.bare.encoding == CHARACTER and element.size == 1:
        text = content.split(b"\0")[0]
        return '"' + "".join(chr(byte) if 32 <= byte < 127 and byte not in b'"\\' else f"\\x{byte:02x}" for byte in text) + '"'
    size = max(element.size, 1)
    parts = [shown(element, content[at : at + size], depth + 1) for at in range(0, min(len(content), SHOWN * size), size)]
    return "{" + ", ".join(parts) + (", .." if array.count > SHOWN else "") + "}"


def character(byte: int) -> str:
    """A byte as a character of C."""
    return f"'{chr(byte)}'" if 32 <= byte < 127 and byte not in b"'\\" else f"'\\x{byte:02x}'"

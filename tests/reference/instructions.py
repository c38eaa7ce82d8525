"""The instructions of RFC 9669 as one table, written from its text and docs/PROTOCOL.md alone, and the code that consists of them."""
from __future__ import annotations

from typing import Collection, Iterator, NamedTuple

MASK32 = (1 << 32) - 1
MASK64 = (1 << 64) - 1

# Section 4.1: the codes of arithmetic with two operands. The code is the high four bits of the opcode.
ADD, SUB, MUL, DIV, OR, AND, LSH, RSH, NEG, MOD, XOR, MOV, ARSH, END = range(14)
ARITHMETIC = {ADD: "add", SUB: "sub", MUL: "mul", DIV: "div", OR: "or", AND: "and", LSH: "lsh", RSH: "rsh", MOD: "mod", XOR: "xor", MOV: "mov", ARSH: "arsh"}

# Section 4.3: the codes of conditional jumps.
JEQ, JGT, JGE, JSET, JNE, JSGT, JSGE = 1, 2, 3, 4, 5, 6, 7
JLT, JLE, JSLT, JSLE = 10, 11, 12, 13
CONDITIONS = {JEQ: "jeq", JGT: "jgt", JGE: "jge", JSET: "jset", JNE: "jne", JSGT: "jsgt", JSGE: "jsge", JLT: "jlt", JLE: "jle", JSLT: "jslt", JSLE: "jsle"}
JA, CALL, EXIT = 0, 8, 9

CLASS_LDX, CLASS_ST, CLASS_STX, CLASS_ALU, CLASS_JMP, CLASS_JMP32, CLASS_ALU64 = 1, 2, 3, 4, 5, 6, 7
IMMEDIATE, REGISTER = 0, 8
LDDW = 0x18
PACKET = {0x20, 0x28, 0x30, 0x40, 0x48, 0x50}

# Section 5: bits 5 to 7 of the opcode are the mode of an access, bits 3 and 4 its size.
MEM, MEMSX, ATOMIC = 3, 4, 6
SIZE_BITS = {4: 0, 2: 1, 1: 2, 8: 3}
LETTERS = {1: "b", 2: "h", 4: "w", 8: "dw"}

# Section 5.3: the imm of an atomic operation.
FETCH, XCHG, CMPXCHG = 0x01, 0xE1, 0xF1
PLAIN_ATOMICS = {0x00: "add", 0x40: "or", 0x50: "and", 0xA0: "xor"}
FETCHING_ATOMICS = {imm | FETCH: f"f{name}" for imm, name in PLAIN_ATOMICS.items()}
ATOMICS = {imm: f"a{name}" for imm, name in {**PLAIN_ATOMICS, **FETCHING_ATOMICS, XCHG: "xchg", CMPXCHG: "cmpxchg"}.items()}

HELPERS = [1, 2, 3, 4]

# What a field may hold: anything, nothing but 0, or a register that is used.
ANY_OFFSET, ANY_IMM, ZERO, USED = range(-(1 << 15), 1 << 15), range(-(1 << 31), 1 << 31), (0,), range(11)


class Row(NamedTuple):
    """What an opcode does, what its fields may hold, and its line of assembly. A dictionary names the instruction for each number of a field."""

    kind: str
    dst: Collection[int]
    src: Collection[int]
    offset: Collection[int]
    imm: Collection[int]
    text: str


def access(klass: int, mode: int, size: int) -> int:
    """The opcode of an access."""
    return klass | SIZE_BITS[size] << 3 | mode << 5


def arithmetic_rows(klass: int, narrow: str) -> Iterator[tuple[int, Row]]:
    """Sections 4.1 and 4.2."""
    for code, name in ARITHMETIC.items():
        names = {0: name + narrow, **({1: f"s{name}{narrow}"} if code in (DIV, MOD) else {})}
        moves = {width: f"movs{width}{'_' * (narrow != '')}{narrow}" for width in ((8, 16) if narrow else (8, 16, 32)) if code == MOV}
        yield code << 4 | IMMEDIATE | klass, Row("alu", USED, ZERO, names, ANY_IMM, "{name} r{dst}, {imm}")
        yield code << 4 | REGISTER | klass, Row("alu", USED, USED, {**names, **moves}, ZERO, "{name} r{dst}, r{src}")
    yield NEG << 4 | IMMEDIATE | klass, Row("alu", USED, ZERO, ZERO, ZERO, f"neg{narrow} r{{dst}}")
    for source, name in ((IMMEDIATE, "le"), (REGISTER, "be")) if narrow else ((IMMEDIATE, "bswap"),):
        yield END << 4 | source | klass, Row("alu", USED, ZERO, ZERO, {width: f"{name}{width}" for width in (16, 32, 64)}, "{name} r{dst}")


def jump_rows(klass: int, narrow: str) -> Iterator[tuple[int, Row]]:
    """Section 4.3."""
    for code, name in CONDITIONS.items():
        yield code << 4 | IMMEDIATE | klass, Row("condition", USED, ZERO, ANY_OFFSET, ANY_IMM, f"{name}{narrow} r{{dst}}, {{imm}}, {{offset:+d}}")
        yield code << 4 | REGISTER | klass, Row("condition", USED, USED, ANY_OFFSET, ZERO, f"{name}{narrow} r{{dst}}, r{{src}}, {{offset:+d}}")
    if narrow:
        yield JA << 4 | klass, Row("ja", ZERO, ZERO, ZERO, ANY_IMM, "ja32 {imm:+d}")
    else:
        yield JA << 4 | klass, Row("ja", ZERO, ZERO, ANY_OFFSET, ZERO, "ja {offset:+d}")
        yield CALL << 4 | klass, Row("call", ZERO, range(3), ZERO, ANY_IMM, "")
        yield EXIT << 4 | klass, Row("exit", ZERO, ZERO, ZERO, ZERO, "exit")


def memory_rows() -> Iterator[tuple[int, Row]]:
    """Section 5."""
    for size, letter in LETTERS.items():
        yield access(CLASS_LDX, MEM, size), Row("load", USED, USED, ANY_OFFSET, ZERO, f"ldx{letter} r{{dst}}, {{place}}")
        yield access(CLASS_ST, MEM, size), Row("store", USED, ZERO, ANY_OFFSET, ANY_IMM, f"st{letter} {{place}}, {{imm}}")
        yield access(CLASS_STX, MEM, size), Row("store", USED, USED, ANY_OFFSET, ZERO, f"stx{letter} {{place}}, r{{src}}")
        if size < 8:
            yield access(CLASS_LDX, MEMSX, size), Row("load", USED, USED, ANY_OFFSET, ZERO, f"ldxs{letter} r{{dst}}, {{place}}")
    for size, narrow in ((4, "32"), (8, "")):
        names = {imm: name + narrow for imm, name in ATOMICS.items()}
        yield access(CLASS_STX, ATOMIC, size), Row("atomic", USED, USED, ANY_OFFSET, names, "{name} {place}, r{src}")
    yield LDDW, Row("wide", USED, range(7), ZERO, ANY_IMM, "lddw r{dst}, 0x{number:x}")


ROWS = {
    **dict(arithmetic_rows(CLASS_ALU64, "")), **dict(arithmetic_rows(CLASS_ALU, "32")),
    **dict(jump_rows(CLASS_JMP, "")), **dict(jump_rows(CLASS_JMP32, "32")), **dict(memory_rows()),
}


class Fault(Exception):
    """Why code is refused, and at which slot."""

    def __init__(self, slot: int, name: str) -> None:
        super().__init__(name)
        self.slot = slot
        self.name = name


class Instruction:
    """The instruction that begins at a slot of some code."""

    def __init__(self, code: bytes, slot: int) -> None:
        here, after = code[8 * slot : 8 * slot + 8], code[8 * slot + 8 : 8 * slot + 16]
        if len(here) < 8:
            raise Fault(slot, "Short")
        self.slot, self.opcode, self.dst, self.src = slot, here[0], here[1] & 15, here[1] >> 4
        self.offset, self.imm = (int.from_bytes(part, "little", signed=True) for part in (here[2:4], here[4:]))
        self.klass, self.code, self.is_register = self.opcode & 7, self.opcode >> 4, bool(self.opcode & REGISTER)
        self.mode = self.opcode >> 5
        self.size = next(size for size, bits in SIZE_BITS.items() if bits == self.opcode >> 3 & 3)
        self.second = after if len(after) == 8 else None
        if name := self.fault():
            raise Fault(slot, name)
        self.kind = ROWS[self.opcode].kind
        self.slots = 2 if self.kind == "wide" else 1
        self.number = int.from_bytes(after[4:], "little") << 32 | self.imm & MASK32

    def fault(self) -> str | None:
        """The first fault of the slot, and of the next where that belongs to it."""
        row = ROWS.get(self.opcode)
        if row is None:
            return "Packet" if self.opcode in PACKET else "Opcode"
        if any(taken is USED and register not in USED for taken, register in ((row.dst, self.dst), (row.src, self.src))):
            return "Register"
        if any(found not in taken for found, taken in zip((self.dst, self.src, self.offset, self.imm), row[1:5])):
            return "Field"
        if row.kind == "wide" and any((self.second or b"")[:4]):
            return "Field"
        if row.kind == "wide" and self.second is None:
            return "HalfWide"
        return "Platform" if row.kind == "wide" and self.src or row.kind == "call" and self.src == 2 else None

    def is_memory(self) -> bool:
        return self.kind in ("load", "store", "atomic")

    def is_local(self) -> bool:
        return self.kind == "call" and self.src == 1

    def target(self) -> int | None:
        """The slot to which a jump or a local call leads."""
        if self.is_local() or self.kind == "ja" and self.klass == CLASS_JMP32:
            return self.slot + 1 + self.imm
        return self.slot + 1 + self.offset if self.kind in ("condition", "ja") else None

    def writes_r10(self) -> bool:
        fetches = self.kind == "atomic" and self.imm & FETCH and self.imm != CMPXCHG
        return self.src == 10 if fetches else self.dst == 10 and self.kind in ("alu", "wide", "load")

    def line(self) -> str:
        """The canonical spelling of docs/ASSEMBLY.md."""
        if self.kind == "call":
            return f"call local {self.imm:+d}" if self.is_local() else f"call {self.imm}"
        row = ROWS[self.opcode]
        name = next((names[by] for names, by in ((row.offset, self.offset), (row.imm, self.imm)) if isinstance(names, dict)), "")
        place = f"[r{self.src if self.kind == 'load' else self.dst}{f'{self.offset:+d}' if self.offset else ''}]"
        return row.text.format(name=name, place=place, **vars(self))


def load(code: bytes) -> dict[int, Instruction]:
    """The instructions by their slots, or the fault that refuses the code."""
    if not code:
        raise Fault(0, "Empty")
    if len(code) > 32768:
        raise Fault(0, "TooLong")
    found: dict[int, Instruction] = {}
    slot = 0
    while 8 * slot < len(code):
        found[slot] = Instruction(code, slot)
        slot += found[slot].slots
    for at, instruction in found.items():
        target = instruction.target()
        if target is not None and not 0 <= target < slot:
            raise Fault(at, "JumpOut")
        if target is not None and target not in found:
            raise Fault(at, "JumpInside")
        if instruction.writes_r10():
            raise Fault(at, "WritesR10")
        if instruction.kind == "call" and not instruction.is_local() and instruction.imm not in HELPERS:
            raise Fault(at, "Helper")
        if at + instruction.slots == slot and instruction.kind not in ("ja", "exit"):
            raise Fault(at, "FallsOff")
    return found

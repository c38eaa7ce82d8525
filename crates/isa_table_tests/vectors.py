#!/usr/bin/env python3
"""Writes the tables of operands and expected values, computed on Python's integers from RFC 9669, sections 4.1 to 4.3 and 5.3:

    python3 crates/isa_table_tests/vectors.py crates/isa_table_tests/src
"""
import pathlib
import sys

ALL64 = 2**64 - 1
LEAST64, GREATEST64 = 2**63, 2**63 - 1
LEAST32, GREATEST32 = 2**31, 2**31 - 1


def signed(bits, x):
    x %= 2**bits
    return x - 2**bits if x >= 2 ** (bits - 1) else x


def toward_zero(a, b):
    quotient = abs(a) // abs(b)
    return quotient if (a < 0) == (b < 0) else -quotient


def sdiv(bits, d, s):
    return 0 if s == 0 else toward_zero(signed(bits, d), signed(bits, s))


def smod(bits, d, s):
    if s == 0:
        return d
    a, b = signed(bits, d), signed(bits, s)
    return a - b * toward_zero(a, b)


# Section 4.1: the operations with two operands.
BINARY = {
    "Add": lambda bits, d, s: d + s,
    "Sub": lambda bits, d, s: d - s,
    "Mul": lambda bits, d, s: d * s,
    "Div": lambda bits, d, s: d // s if s else 0,
    "SDiv": sdiv,
    "Or": lambda bits, d, s: d | s,
    "And": lambda bits, d, s: d & s,
    "Lsh": lambda bits, d, s: d << (s & (bits - 1)),
    "Rsh": lambda bits, d, s: d >> (s & (bits - 1)),
    "Mod": lambda bits, d, s: d % s if s else d,
    "SMod": smod,
    "Xor": lambda bits, d, s: d ^ s,
    "Mov": lambda bits, d, s: s,
    "Arsh": lambda bits, d, s: signed(bits, d) >> (s & (bits - 1)),
}

# Section 4.3: the conditions.
CONDITIONS = {
    "Eq": lambda bits, d, s: d == s,
    "Gt": lambda bits, d, s: d > s,
    "Ge": lambda bits, d, s: d >= s,
    "Set": lambda bits, d, s: d & s != 0,
    "Ne": lambda bits, d, s: d != s,
    "SGt": lambda bits, d, s: signed(bits, d) > signed(bits, s),
    "SGe": lambda bits, d, s: signed(bits, d) >= signed(bits, s),
    "Lt": lambda bits, d, s: d < s,
    "Le": lambda bits, d, s: d <= s,
    "SLt": lambda bits, d, s: signed(bits, d) < signed(bits, s),
    "SLe": lambda bits, d, s: signed(bits, d) <= signed(bits, s),
}

# Section 5.3: what an atomic operation writes to memory, from the old value, the source register and R0.
ATOMICS = {
    "Add": lambda old, src, r0: old + src,
    "Or": lambda old, src, r0: old | src,
    "And": lambda old, src, r0: old & src,
    "Xor": lambda old, src, r0: old ^ src,
    "Exchange": lambda old, src, r0: src,
}

PAIRS = [
    (0, 0),
    (ALL64, 0),
    (LEAST64, ALL64),
    (GREATEST64, 1),
    (ALL64, 1),
    (-13, 3),
    (13, -3),
    (0, -1),
    (0x1_0000_0005, 0x1_0000_0000),
    (0x5_8000_0000, ALL64),
    (GREATEST32, 1),
    (0x1122_3344_5566_7788, 0x8877_6655_4433_2211),
]
COUNTS = [
    (0x1122_3344_5566_7788, 0),
    (0x8877_6655_4433_2211, 1),
    (-8, 1),
    (1, 31),
    (LEAST64 + LEAST32, 31),
    (-3, 32),
    (1, 33),
    (LEAST64, 63),
    (7, 64),
    (LEAST64 + 5, 65),
    (0x8877_6655_4433_2211, -1),
    (-1, 0x1_0000_0004),
]
COMPARED = [
    (0, 0),
    (0, 1),
    (1, 0),
    (ALL64, 0),
    (0, -1),
    (ALL64, ALL64),
    (LEAST64, GREATEST64),
    (GREATEST64, LEAST64),
    (0x1_0000_0000, 0),
    (LEAST32, GREATEST32),
    (GREATEST32, -(2**31)),
    (6, 9),
    (6, 3),
]
# The old value, the source register and R0.
TRIPLES = [
    (0, 0, 0),
    (0, -1, 1),
    (ALL64, 1, ALL64),
    (GREATEST32, 1, GREATEST32),
    (LEAST32, LEAST32, LEAST64),
    (5, 7, 0x1_0000_0005),
    (5, 7, 5),
    (0x1_0000_0005, 7, 5),
    (LEAST64, LEAST64, LEAST64),
    (0xF0F0, 0xFF00, 0),
    (-13, 13, -13),
    (0x1122_3344_5566_7788, 0x8877_6655_4433_2211, 0x1122_3344_5566_7788),
]
SINGLE = [0, 1, -1, 127, 128, 0xFF80, 0x7FFF, 0x8000, GREATEST32, LEAST32, GREATEST64, LEAST64, 0x1122_3344_5566_7788]


def number(x):
    x %= 2**64
    if x < 256:
        return str(x)
    digits = f"{x:x}"
    parts = []
    while digits:
        parts.insert(0, digits[-4:])
        digits = digits[:-4]
    return "0x" + "_".join(parts)


def laid(indent, parts):
    """The parts in lines of at most 140 columns."""
    lines = [indent]
    for part in parts:
        if len(lines[-1]) + len(part) > 138:
            lines.append(indent)
        lines[-1] += f"{'' if lines[-1] == indent else ' '}{part},"
    return "\n".join(lines)


def row(key, values):
    line = f"    ({key}, [{', '.join(values)}]),"
    return line if len(line) <= 140 else f"    ({key}, [\n{laid(' ' * 8, values)}\n    ]),"


def table(what, name, kinds, rows):
    """A table that the formatter leaves as it is: of each row its key, and its values in the order of the operands."""
    parts = "\n".join(row(key, values) for key, values in rows)
    return f"/// {what}\n#[rattlefmt::skip]\npub const {name}: &[({kinds})] = &[\n{parts}\n];\n"


def listed(what, name, kind, parts):
    return f"/// {what}\n#[rattlefmt::skip]\npub const {name}: [{kind}; {len(parts)}] = [\n{laid(' ' * 4, parts)}\n];\n"


def operands(what, name, kind, values):
    return listed(what, name, kind, [f"({', '.join(map(number, value))})" if isinstance(value, tuple) else number(value) for value in values])


def binary(bits):
    for name, operation in BINARY.items():
        pairs = COUNTS if name in ("Lsh", "Rsh", "Arsh") else PAIRS
        yield f"Binary::{name}", [number(operation(bits, d % 2**bits, s % 2**bits) % 2**bits) for d, s in pairs]


def conditions():
    for bits in (64, 32):
        for name, condition in CONDITIONS.items():
            yield f"Width::W{bits}, Cond::{name}", [str(condition(bits, d % 2**bits, s % 2**bits)).lower() for d, s in COMPARED]


def atomics(bits):
    for name, operation in ATOMICS.items():
        yield f"AtomicOp::{name}", [number(operation(*(x % 2**bits for x in triple)) % 2**bits) for triple in TRIPLES]


def exchanges(bits):
    """What a compare-exchange writes, from the old value, the source register and R0, if it does."""
    for triple in TRIPLES:
        old, src, r0 = (x % 2**bits for x in triple)
        yield f"Some({number(src)})" if old == r0 else "None"


def reverse(bits, x):
    return int.from_bytes((x % 2**bits).to_bytes(bits // 8, "little"), "big")


def moves():
    """NEG and the moves with sign extension (section 4.1)."""
    for bits in (64, 32):
        yield f"Width::W{bits}, AluOp::Neg", [number(-x % 2**bits) for x in SINGLE]
        for low in (8, 16):
            yield f"Width::W{bits}, AluOp::MovSx{low}", [number(signed(low, x) % 2**bits) for x in SINGLE]


def swaps():
    """Byte swaps (section 4.2), on a little-endian host."""
    for bits in (16, 32, 64):
        yield f"Order::Little, SwapWidth::W{bits}", [number(x % 2**bits) for x in SINGLE]
        for order in ("Big", "Swapped"):
            yield f"Order::{order}, SwapWidth::W{bits}", [number(reverse(bits, x)) for x in SINGLE]


def main():
    text = "\n".join(
        [
            "//! Operands of each operation, and what it gives for them. Written by `vectors.py`.\n"
            "use isa_table::{AluOp, AtomicOp, Binary, Cond, Order, SwapWidth, Width};\n",
            operands("Destination and second operand of an operation.", "PAIRS", "(u64, u64)", PAIRS),
            operands("The same of a shift.", "COUNTS", "(u64, u64)", COUNTS),
            table("What an operation on 64 bits computes.", "BINARY64", "Binary, [u64; 12]", binary(64)),
            table("What an operation on 32 bits computes.", "BINARY32", "Binary, [u64; 12]", binary(32)),
            operands("Destination and second operand of a condition.", "COMPARED", "(u64, u64)", COMPARED),
            table("Whether a condition holds.", "CONDITIONS", "Width, Cond, [bool; 13]", conditions()),
            operands("The old value, the source register and R0.", "TRIPLES", "(u64, u64, u64)", TRIPLES),
            table("What an atomic operation on 64 bits writes.", "ATOMICS64", "AtomicOp, [u64; 12]", atomics(64)),
            listed("What a compare-exchange of 64 bits writes, if it does.", "EXCHANGES64", "Option<u64>", list(exchanges(64))),
            table("What an atomic operation on 32 bits writes.", "ATOMICS32", "AtomicOp, [u64; 12]", atomics(32)),
            listed("What a compare-exchange of 32 bits writes, if it does.", "EXCHANGES32", "Option<u64>", list(exchanges(32))),
            operands("The operand of an operation on one.", "SINGLE", "u64", SINGLE),
            table("What it computes.", "UNARY", "Width, AluOp, [u64; 13]", moves()),
            operands("What a move of 32 bits with sign extension computes.", "MOVED", "u64", [signed(32, x) for x in SINGLE]),
            table("What a byte swap computes.", "SWAPS", "Order, SwapWidth, [u64; 13]", swaps()),
        ]
    )
    (pathlib.Path(sys.argv[1]) / "tables.rt").write_text(text)


main()

"""Writes src/form_list.rt: each form of assembly with the bytes that RFC 9669 gives it.

The opcodes are typed from the RFC's tables and not taken from the program."""

import struct

ALU = {  # name: (K, X, offset), of 64 bits; of 32 bits the class is 4 and not 7
    "add": (0x07, 0x0f, 0), "sub": (0x17, 0x1f, 0), "mul": (0x27, 0x2f, 0), "div": (0x37, 0x3f, 0), "sdiv": (0x37, 0x3f, 1),
    "or": (0x47, 0x4f, 0), "and": (0x57, 0x5f, 0), "lsh": (0x67, 0x6f, 0), "rsh": (0x77, 0x7f, 0), "mod": (0x97, 0x9f, 0),
    "smod": (0x97, 0x9f, 1), "xor": (0xa7, 0xaf, 0), "mov": (0xb7, 0xbf, 0), "arsh": (0xc7, 0xcf, 0),
}
JUMPS = {
    "jeq": 0x15, "jgt": 0x25, "jge": 0x35, "jset": 0x45, "jne": 0x55, "jsgt": 0x65, "jsge": 0x75, "jlt": 0xa5, "jle": 0xb5,
    "jslt": 0xc5, "jsle": 0xd5,
}
ATOMICS = {
    "aadd": 0x00, "aor": 0x40, "aand": 0x50, "axor": 0xa0, "afadd": 0x01, "afor": 0x41, "afand": 0x51, "afxor": 0xa1,
    "axchg": 0xe1, "acmpxchg": 0xf1,
}


def slot(op, dst, src, off, imm):
    return struct.pack("<BBhi", op, src * 16 + dst, off, imm).hex()


def forms():
    r = lambda k: f"r{k % 11}"
    n = 0
    for name, (k, x, off) in ALU.items():
        for suffix, less in (("", 0), ("32", 3)):
            n += 1
            d, s = n % 11, (n * 3 + 1) % 11
            yield f"{name}{suffix} {r(d)}, {r(s)}", slot(x - less, d, s, off, 0)
            for imm in (n, -2147483648, 2147483647):
                yield f"{name}{suffix} {r(d)}, {imm}", slot(k - less, d, 0, off, imm)
    for name, op, off in (("movs8", 0xbf, 8), ("movs16", 0xbf, 16), ("movs32", 0xbf, 32), ("movs8_32", 0xbc, 8), ("movs16_32", 0xbc, 16)):
        n += 1
        yield f"{name} {r(n)}, {r(n + 4)}", slot(op, n % 11, (n + 4) % 11, off, 0)
    yield "neg r3", slot(0x87, 3, 0, 0, 0)
    yield "neg32 r4", slot(0x84, 4, 0, 0, 0)
    for name, op in (("le", 0xd4), ("be", 0xdc), ("bswap", 0xd7)):
        for bits in (16, 32, 64):
            n += 1
            yield f"{name}{bits} {r(n)}", slot(op, n % 11, 0, 0, bits)
    for value in (0, 1, 0xdeadbeef, 2**63, 2**64 - 1):
        low, high = struct.unpack("<ii", struct.pack("<Q", value))
        yield f"lddw r7, {value:#x}", slot(0x18, 7, 0, 0, low) + slot(0, 0, 0, 0, high)
    offsets = (0, 8, -8, 32767, -32768)
    at = lambda base, off: f"[{r(base)}]" if off == 0 else f"[{r(base)}{off:+}]"
    sizes = (("b", 0x10), ("h", 0x08), ("w", 0x00), ("dw", 0x18))
    for off in offsets:
        for size, bits in sizes:
            n += 1
            d, s = n % 11, (n * 5 + 2) % 11
            yield f"ldx{size} {r(d)}, {at(s, off)}", slot(0x61 | bits, d, s, off, 0)
            yield f"stx{size} {at(d, off)}, {r(s)}", slot(0x63 | bits, d, s, off, 0)
            for imm in (-1, 2147483647):
                yield f"st{size} {at(d, off)}, {imm}", slot(0x62 | bits, d, 0, off, imm)
        for size, bits in sizes[:3]:
            n += 1
            d, s = n % 11, (n * 5 + 2) % 11
            yield f"ldxs{size} {r(d)}, {at(s, off)}", slot(0x81 | bits, d, s, off, 0)
    for name, imm in ATOMICS.items():
        for suffix, op in (("", 0xdb), ("32", 0xc3)):
            n += 1
            d, s = n % 11, (n * 7 + 3) % 11
            off = offsets[n % 5]
            yield f"{name}{suffix} {at(d, off)}, {r(s)}", slot(op, d, s, off, imm)
    for off in (0, 1, -1, 32767, -32768):
        yield f"ja {off:+}", slot(0x05, 0, 0, off, 0)
    for off in (0, 1, -1, 2147483647, -2147483648):
        yield f"ja32 {off:+}", slot(0x06, 0, 0, 0, off)
        yield f"call local {off:+}", slot(0x85, 0, 1, 0, off)
    for name, op in JUMPS.items():
        for suffix, more in (("", 0), ("32", 1)):
            n += 1
            d, s = n % 11, (n * 3 + 5) % 11
            off = (0, 1, -1, 32767, -32768)[n % 5]
            yield f"{name}{suffix} {r(d)}, {r(s)}, {off:+}", slot(op + more + 8, d, s, off, 0)
            yield f"{name}{suffix} {r(d)}, {-n}, {off:+}", slot(op + more, d, 0, off, -n)
    for number in (1, 4, -1, 2147483647, -2147483648):
        yield f"call {number}", slot(0x85, 0, 0, 0, number)
    yield "exit", slot(0x95, 0, 0, 0, 0)


def group(text):
    word = text.split()[0]
    base = word[:-2] if word.endswith("32") and word not in ("le32", "be32", "bswap32", "movs32") else word
    base = base.rstrip("_")
    if base in ALU:
        return "ARITHMETIC" if base == word else "ARITHMETIC_32"
    if base in JUMPS:
        return "JUMPS"
    if base in ATOMICS:
        return "ATOMICS"
    if base.startswith("ldx"):
        return "LOADS"
    if base.startswith("st"):
        return "STORES"
    return "OTHERS"


if __name__ == "__main__":
    groups = {}
    for text, code in forms():
        groups.setdefault(group(text), []).append((text, code))
    print("//! Written by make_forms.py: canonical lines, and their bytes in hex.")
    for name, rows in groups.items():
        print()
        print(f"pub const {name}: &[(&str, &str)] = &[")
        for text, code in rows:
            line = f'    ("{text}", "{code}"),'
            if len(line) > 64:
                line = f'    (\n        "{text}",\n        "{code}",\n    ),'
            print(line)
        print("];")

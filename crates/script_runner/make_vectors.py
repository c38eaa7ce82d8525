#!/usr/bin/env python3
"""Makes `crates/script_runner/data/vectors.script`: commands, and the replies that RFC 9669 and docs/PROTOCOL.md ask for.

The replies come from `interpreter.py` and `reference_agent.py` of tests/reference, which share nothing with the crates. `make vectors` runs
this and compares its output with the file that the repository holds. With `--check FILE..` it compares the replies of
other scripts.
"""
import itertools
import pathlib
import random
import sys

sys.path.append(str(pathlib.Path(__file__).resolve().parents[2] / "tests/reference"))
from instructions import (
    ARITHMETIC, ATOMIC, ATOMICS, CLASS_ALU, CLASS_ALU64, CLASS_JMP, CLASS_JMP32, CLASS_LDX, CLASS_ST, CLASS_STX, CMPXCHG, CONDITIONS, DIV, FETCH,
    IMMEDIATE, LDDW, MASK32, MASK64, MEM, MEMSX, MOD, MOV, NEG, REGISTER, XCHG, Fault, access, load,
)
from interpreter import STACK
from reference_agent import Agent

PROGRAMS_A_BLOCK = 40
STEP_LIMIT = 60


def slot(opcode, dst=0, src=0, offset=0, imm=0):
    """One slot (section 3)."""
    return bytes([opcode, (src << 4) | dst]) + (offset % (1 << 16)).to_bytes(2, "little") + (imm % (1 << 32)).to_bytes(4, "little")


def wide(dst, number, src=0, reserved=0):
    """A load of a 64-bit number (section 5.4)."""
    low, high = number & MASK32, number >> 32 & MASK32
    return slot(LDDW, dst, src, 0, low) + reserved.to_bytes(4, "little") + high.to_bytes(4, "little")


EXIT_SLOT = slot(0x95)


class Script:
    """Blocks of commands, each for an agent of its own, with their replies."""

    def __init__(self):
        self.lines = []
        self.agent = Agent()
        self.programs = 0
        self.in_block = PROGRAMS_A_BLOCK

    def note(self, text):
        self.lines.append(f"# {text}")

    def tell(self, command):
        reply = self.agent.reply(command)
        self.lines += [command, f"> {reply}"]
        return reply

    def write(self, parts):
        for part in parts:
            part(self)
        sys.stdout.write("\n".join(self.lines) + "\n")

    def write_as(self, path, parts):
        """The same, as what another script makes, which has this path."""
        self.note(f"Made by {pathlib.Path(path).name}, as vectors.script is made by make_vectors.py; `make vectors` compares.")
        self.write(parts)

    def begin_program(self):
        if self.in_block >= PROGRAMS_A_BLOCK:
            self.lines.append("---")
            self.agent = Agent()
            self.in_block = 0

    def object(self, body):
        """A new object with these bytes, and its address."""
        n = int(self.tell(f"make {len(body)}").split()[1])
        if any(body):
            self.tell(f"put {n} 0 {body.hex()}")
        return n << 32

    def ship(self, code, arguments=(), fuel=1000, grants=None):
        """The number of the machine, or none where the code is refused. Grants are words as in `r1 w2`; none grants all."""
        self.programs += 1
        self.in_block += 1
        arguments = [*arguments, 0, 0, 0, 0, 0][:5]
        spelt = " ".join(f"0x{value:x}" if value > 9 else str(value) for value in arguments)
        line = f"ship {fuel} {spelt} {code.hex()}" if grants is None else " ".join([f"ship2 {fuel} {spelt} {code.hex()}", *grants])
        reply = self.tell(line).split()
        return int(reply[1]) if reply[0] == "shipped" else None

    def steps(self, machine, limit=STEP_LIMIT):
        for _ in range(limit):
            if self.tell(f"step {machine}").startswith("stopped"):
                return

    def run(self, code, arguments=(), fuel=1000, shows=False, body=None, limit=STEP_LIMIT, then=None):
        """A program by itself, or over one object with these bytes, in which the first argument is a place. At the end the bytes are
        compared, or `then` is asked of machine m and object n, and the registers are shown."""
        self.begin_program()
        address = self.object(body) if body else 0
        if body:
            arguments = [(address + arguments[0]) & MASK64, *arguments[1:]]
        machine = self.ship(code, arguments, fuel)
        if machine is not None:
            self.steps(machine, limit)
            asked = ([f"get {{n}} 0 {len(body)}"] if body else []) if then is None else then
            for command in [*asked, *["regs {m}"] * shows]:
                self.tell(command.format(m=machine, n=address >> 32))


WIDE_EDGES = [
    (0, 0), (1, MASK64), (MASK64, 1), (1 << 63, MASK64), (1 << 63, 1), ((1 << 63) - 1, 1 << 63), (0xFFFFFFFF_80000000, 0x1_FFFFFFFF),
    (0x1122334455667788, 0x40), (0xFEDCBA9876543210, 0x21), (0x100000005, 0x100000000),
]
IMM_EDGES = [0, 1, -1, 2, -3, 31, 33, 64, 0x7FFFFFFF, -0x80000000]


def opcode(klass, source, code):
    return code << 4 | source | klass


def add_arithmetic(script):
    rows = [(code, 0) for code in ARITHMETIC] + [(DIV, 1), (MOD, 1)]
    for klass in (CLASS_ALU64, CLASS_ALU):
        for code, offset in rows:
            script.note(f"opcode {opcode(klass, REGISTER, code):02x} with offset {offset}")
            for i, (d, s) in enumerate(WIDE_EDGES):
                body = slot(0xBF, 0, 1) + slot(opcode(klass, REGISTER, code), 0, 2, offset)
                script.run(body + EXIT_SLOT, (d, s), shows=i % 5 == 0)
            script.note(f"opcode {opcode(klass, IMMEDIATE, code):02x} with offset {offset}")
            for i, imm in enumerate(IMM_EDGES):
                d = WIDE_EDGES[-1 - i][0]
                body = slot(0xBF, 0, 1) + slot(opcode(klass, IMMEDIATE, code), 0, 0, offset, imm)
                script.run(body + EXIT_SLOT, (d,), shows=i % 5 == 1)


def add_one_operand(script):
    script.note("negation, moves with sign, byte order, numbers of 64 bits")
    for klass in (CLASS_ALU64, CLASS_ALU):
        for d, _ in WIDE_EDGES:
            body = slot(0xBF, 3, 1) + slot(opcode(klass, IMMEDIATE, NEG), 3) + slot(0xBF, 0, 3)
            script.run(body + EXIT_SLOT, (d,))
        for width in (8, 16, 32) if klass == CLASS_ALU64 else (8, 16):
            for d in (0x7F, 0x80, 0x7FFF, 0x8000, 0x7FFFFFFF, 0x80000000, MASK64, 0x123456789ABCDEF0):
                body = slot(opcode(klass, REGISTER, MOV), 0, 1, width)
                script.run(body + EXIT_SLOT, (d,))
    for op in (0xD4, 0xDC, 0xD7):
        for width in (16, 32, 64):
            for d in (0x1122334455667788, 0xFF, 1 << 63, 0xFEDCBA9876543210):
                body = slot(0xBF, 0, 1) + slot(op, 0, 0, 0, width)
                script.run(body + EXIT_SLOT, (d,), shows=d == 0xFF)
    for i, number in enumerate((0, 1, 1 << 31, MASK32, 1 << 32, 1 << 63, MASK64, 0x1122334455667788)):
        script.run(wide(i, number) + slot(0xBF, 0, i) + EXIT_SLOT, shows=True)


def add_jumps(script):
    for klass in (CLASS_JMP, CLASS_JMP32):
        for code in CONDITIONS:
            script.note(f"opcode {opcode(klass, REGISTER, code):02x}")
            for d, s in WIDE_EDGES[:8]:
                body = slot(opcode(klass, REGISTER, code), 1, 2, 1)
                script.run(body + EXIT_SLOT + slot(0xB7, 0, 0, 0, 1) + EXIT_SLOT, (d, s))
            script.note(f"opcode {opcode(klass, IMMEDIATE, code):02x}")
            for i, imm in enumerate(IMM_EDGES[:8]):
                body = slot(opcode(klass, IMMEDIATE, code), 1, 0, 1, imm)
                d = WIDE_EDGES[i][1]
                script.run(body + EXIT_SLOT + slot(0xB7, 0, 0, 0, 1) + EXIT_SLOT, (d,))


def add_control(script):
    script.note("jumps without condition, local calls, exit, fuel and depth")
    one = slot(0xB7, 0, 0, 0, 1)
    for distance in (1, 0):
        script.run(slot(0x05, offset=distance) + one + EXIT_SLOT)
        script.run(slot(0x06, imm=distance) + one + EXIT_SLOT)
    script.run(slot(0x05, offset=2) + one + EXIT_SLOT + slot(0x05, offset=-3))
    script.run(slot(0x06, imm=2) + one + EXIT_SLOT + slot(0x06, imm=-3))
    script.run(slot(0x05, offset=-1), fuel=7, shows=True)
    script.run(slot(0x06, imm=-1), fuel=3, shows=True)
    for fuel in range(5):
        script.run(one + one + EXIT_SLOT, fuel=fuel, shows=True)
    script.run(slot(0x85, 0, 1, 0, -1) + EXIT_SLOT, fuel=100, shows=True)
    # A function that changes R6 to R9 gives them back, but not R0 and R5.
    callee = b"".join(slot(0xB7, register, 0, 0, register) for register in range(10)) + EXIT_SLOT
    script.run(slot(0x85, 0, 1, 0, 1) + EXIT_SLOT + callee, (1, 2, 3, 4, 5), shows=True)
    # Nested functions, each of which calls the next one and adds what R10 is there.
    for depth in range(1, 10):
        body = (slot(0x85, 0, 1, 0, 2) + slot(0x0F, 0, 10) + EXIT_SLOT) * depth
        script.run(body + slot(0xBF, 0, 10) + EXIT_SLOT, shows=True)
    # A loop with a test at its end.
    for count in (1, 2, 7):
        body = slot(0xB7, 0) + slot(0x07, 0, 0, 0, 3) + slot(0x17, 1, 0, 0, 1) + slot(0x55, 1, 0, -3)
        script.run(body + EXIT_SLOT, (count,), shows=True)


def add_opcodes(script):
    script.note("each opcode with all other fields zero, and with the fields that it doesn't use")
    for op in range(256):
        script.run(slot(op) + bytes(8) + EXIT_SLOT)
    for op in range(256):
        script.run(slot(op, 1, 11) + EXIT_SLOT)
        script.run(slot(op, 11, 1) + EXIT_SLOT)
        script.run(slot(op, 1, 2, 1) + EXIT_SLOT)
        script.run(slot(op, 0, 0, 0, 16) + EXIT_SLOT)


PATTERN = bytes((0x7D * i + 0x80) & 0xFF for i in range(24))
# A distance from the object's begin in the register, and one in the instruction.
PLACES = [(0, 0), (3, 0), (0, 5), (16, -7), (23, 0), (0, 16), (0, 17), (0, 20), (0, 21), (22, 1), (24, 0), (0, -1), (MASK64, 1)]


def add_loads(script):
    rows = [(MEM, size) for size in (1, 2, 4, 8)] + [(MEMSX, size) for size in (1, 2, 4)]
    for mode, size in rows:
        op = access(CLASS_LDX, mode, size)
        script.note(f"opcode {op:02x}")
        for i, (begin, offset) in enumerate(PLACES):
            code = slot(op, 0, 1, offset) + EXIT_SLOT
            script.run(code, [begin], body=PATTERN, shows=i == 0)
        for offset in (-8, -7, -size, 1 - size, -4096, -4097):
            code = slot(0x7B, 10, 2, -8) + slot(op, 0, 10, offset) + EXIT_SLOT
            script.run(code, (0, 0x8081828384858687), shows=offset == -8)


def add_stores(script):
    for klass in (CLASS_ST, CLASS_STX):
        for size in (1, 2, 4, 8):
            op = access(klass, MEM, size)
            script.note(f"opcode {op:02x}")
            for i, (begin, offset) in enumerate(PLACES):
                source = (0, -2 - i) if klass == CLASS_ST else (2, 0)
                code = slot(op, 1, source[0], offset, source[1]) + EXIT_SLOT
                script.run(code, [begin, 0x8877665544332211 + i], body=PATTERN, shows=i == 0)
            add_stack_stores(script, op, klass, size)


def add_stack_stores(script, op, klass, size):
    for offset in (-size, 1 - size, -4096, -4097):
        source = (0, 0x7F01FE03) if klass == CLASS_ST else (2, 0)
        code = slot(op, 10, source[0], offset, source[1]) + EXIT_SLOT
        script.run(code, (0, 0xF1E2D3C4B5A69788), then=["stack {m} 0 16", "stack {m} 4080 16"])


ATOMIC_PAIRS = [
    (0, 0), (5, 7), (MASK64, 1), (0x80000000_80000000, 0x80000000_80000000), (0x1122334455667788, 0x0F0F0F0F_F0F0F0F0),
    (0xFFFFFFFF_00000001, 0x1_FFFFFFFF),
]


def add_atomics(script):
    for size in (4, 8):
        op = access(CLASS_STX, ATOMIC, size)
        for imm in ATOMICS:
            script.note(f"opcode {op:02x} with imm {imm:02x}")
            shown = b"" if imm == CMPXCHG else slot(0xBF, 0, 2)
            code = wide(0, 5) + slot(op, 1, 2, 8, imm) + shown + EXIT_SLOT
            for i, (old, source) in enumerate(ATOMIC_PAIRS):
                body = bytes(8) + old.to_bytes(8, "little") + b"\xee" * 8
                script.run(code, [0, source], body=body, shows=i == 0 or imm == CMPXCHG)
            for begin, offset in ((4, 0), (2, 0), (0, 1), (20, 4), (24, 0), (0, 24), (23, 0), (0, -8)):
                code = slot(op, 1, 2, offset, imm) + EXIT_SLOT
                script.run(code, [begin, 9], body=PATTERN, shows=begin == 4 and imm == FETCH)
            add_stack_atomics(script, op, imm)


def add_stack_atomics(script, op, imm):
    for offset in (-8, -6, -4, 0):
        code = slot(0x7A, 10, 0, -8, 77) + slot(0xB7, 0, 0, 0, 77) + slot(op, 10, 2, offset, imm) + EXIT_SLOT
        script.run(code, (0, 0x100000006), then=["stack {m} 4080 16"], shows=True)


def add_atomic_registers(script):
    script.note("atomic operations whose registers are one, and all imm of both opcodes")
    for size in (4, 8):
        op = access(CLASS_STX, ATOMIC, size)
        for imm in ATOMICS:
            for dst, src in ((1, 1), (1, 0), (0, 0), (0, 1), (1, 10)):
                code = slot(0xBF, 0, 1) + slot(op, dst, src, 0, imm) + EXIT_SLOT
                script.run(code, [0], body=PATTERN, shows=True)
        for imm in range(256):
            script.run(slot(op, 1, 2, 0, imm) + EXIT_SLOT)
        for imm in (-1, 0x100, 0x1E1, -0x0F):
            script.run(slot(op, 1, 2, 0, imm) + EXIT_SLOT)


def add_addresses(script):
    script.note("addresses that are no object's, and that pass from one object to another")
    for size in (1, 2, 4, 8):
        load, store, add = access(CLASS_LDX, MEM, size), access(CLASS_ST, MEM, size), access(CLASS_STX, ATOMIC, max(size, 4))
        for row in (slot(load, 0, 1), slot(store, 1, 0, 0, 1), slot(add, 1, 2, 0, FETCH)):
            for address in (0, 7, 8, 0x3FF00000000, 0x40000000000, 0x40100000000, (STACK - 1) << 32, MASK64, 1 << 63):
                script.run(row + EXIT_SLOT, (address,))
            for address in (STACK << 32, (STACK << 32) + 4092, (STACK << 32) + 4095, (STACK << 32) + 4096):
                script.run(row + EXIT_SLOT, (address,))
    for first, offset in ((0xFFFFFFFF, 1), (0xFFFFFFF8, 8), (0xFFFFFFFC, 2), (0xFFFF8000, 0x7FFF)):
        script.begin_program()
        one, two = script.object(PATTERN), script.object(PATTERN[::-1])
        machine = script.ship(slot(0x61, 0, 1, offset) + slot(0x72, 1, 0, offset, 3) + EXIT_SLOT, [one + first])
        script.steps(machine)
        for address in (one, two):
            script.tell(f"get {address >> 32} 0 24")
    script.begin_program()
    two = script.object(PATTERN)
    machine = script.ship(slot(0x71, 0, 1, -1) + EXIT_SLOT, [two])
    script.steps(machine)


def add_helpers(script):
    script.note("helpers: lengths, the own number, emitted values, scopes")
    script.begin_program()
    freed = script.object(bytes(9)) >> 32
    big = script.object(bytes(65536)) >> 32
    script.tell(f"free {freed}")
    for r1 in (0, freed, big, big + 1, 1024, 1025, STACK, big << 32, big + (1 << 32), MASK64):
        script.steps(script.ship(slot(0x85, 0, 0, 0, 1) + EXIT_SLOT, [r1]))
    for number in (-1, 0, 5, 0x7FFFFFFF):
        script.run(slot(0x85, 0, 0, 0, number) + EXIT_SLOT)
    everything = b"".join(slot(0x85, 0, 0, 0, number) for number in (4, 2, 3, 1))
    script.run(everything + EXIT_SLOT, (0xABCDEF, 2, 3, 4, 5), shows=True)
    for count in (0, 1, 63, 64, 65, 66):
        loop = slot(0xB7, 2, 0, 0, count) + slot(0x15, 2, 0, 4) + slot(0x85, 0, 0, 0, 3) + slot(0x07, 1, 0, 0, 1)
        code = loop + slot(0x17, 2, 0, 0, 1) + slot(0x05, offset=-5) + EXIT_SLOT
        script.run(code, [0xFFFFFFFFFFFFFFF0], limit=400, then=["out {m}"], shows=True)


def add_stops(script):
    script.note("stops come in their order, and change nothing; helper calls and accesses take fuel")
    body = PATTERN[:8]
    for fuel in (0, 1, 2):
        for code in (slot(0xDB, 1, 2, 4) + EXIT_SLOT, slot(0x79, 0, 1, 1) + EXIT_SLOT, slot(0x7A, 1, 0, 0, -1) + EXIT_SLOT):
            script.run(code, [0], fuel, body=body, limit=4, then=["regs {m}", "get {n} 0 8"])
    script.begin_program()
    address = script.object(body)
    script.tell(f"free {address >> 32}")
    for code in (slot(0x71, 0, 1), slot(0x73, 1, 1), slot(0xDB, 1, 2, 1), slot(0xDB, 1, 2)):
        script.steps(script.ship(code + EXIT_SLOT, [address]))


def add_frames_on_the_stack(script):
    script.note("functions write to their own part of the stack, and to that of their callers")
    callee = slot(0x7B, 10, 6, -8) + slot(0x7B, 10, 7, 504) + slot(0x79, 0, 10, 504) + EXIT_SLOT
    caller = slot(0xB7, 6, 0, 0, 0x55) + slot(0xB7, 7, 0, 0, 0x66) + slot(0x85, 0, 1, 0, 2) + slot(0x79, 6, 10, -8) + EXIT_SLOT
    for fuel in (3, 5, 1000):
        script.run(caller + callee, (), fuel, then=["stack {m} 3568 32", "stack {m} 4080 16"], shows=True)
    deep = slot(0x7B, 10, 10, -8) + slot(0x85, 0, 1, 0, -2) + EXIT_SLOT
    script.run(deep, then=[f"stack {{m}} {max(0, 4088 - 512 * frame)} 8" for frame in range(9)])


def add_limits(script):
    script.note("1024 objects are ever made, and 48 machines")
    script.begin_program()
    for command in (*["make 1"] * 1025, "free 5", "free 5", "make 1", "put 5 0 01", "get 5 0 1", "free 1024", "free 1025", "get 1023 0 1"):
        script.tell(command)
    for _ in range(49):
        script.ship(EXIT_SLOT)
    for command in ("step 48", "step 49", "make 0", "make 1", "make 65536", "make 65537"):
        script.tell(command)
    script.in_block = PROGRAMS_A_BLOCK


def sample_rows():
    """Rows of all opcodes that load by themselves, with a few of the numbers that each may hold."""
    rows = {}
    for op in range(256):
        for src, offset, imm in itertools.product((0, 1), (0, 1, -1, 8, 16, 32), (0, 1, -1, 16, 32, 64, 0x41, 0x50, 0x51, 0xA1, XCHG, CMPXCHG)):
            row = slot(op, 2, src, offset, imm) if op not in (0x05, 0x06, 0x85, 0x95) else slot(op, 0, src, offset, imm)
            try:
                found = load(slot(0x05) + row + EXIT_SLOT * 66)[1]
            except Fault:
                continue
            text = found.line()
            rows.setdefault((text.split(" ")[0], "local" in text), []).append(row)
    return [row for name in rows for row in rows[name][:4]]


def add_lines(script):
    script.note("instructions as assembly, and slots at which none begins")
    rows = sample_rows() + [wide(3, number) for number in (0, 1, 1 << 63, MASK64, 0x1122334455667788)]
    rows += [slot(0x61, 4, 5, -32768), slot(0x7B, 10, 9, 32767), slot(0xB7, 6, 0, 0, -(1 << 31)), slot(0xB7, 6, 0, 0, (1 << 31) - 1)]
    for at in range(0, len(rows), 60):
        script.begin_program()
        code = slot(0x05) + b"".join(rows[at : at + 60]) + EXIT_SLOT * 66
        machine = script.ship(code)
        for place in range(len(code) // 8 - 64):
            script.tell(f"line {machine} {place}")
    for command in ("line 1 4095", "line 48 0", "line 1 4096", "line 0 0", "line 1"):
        script.tell(command)


def random_access_row(chooser):
    """An access by R1 to R3, which are addresses, or by R10, most of the time inside."""
    base = chooser.choice([1, 1, 2, 2, 3, 10])
    offset = chooser.choice([0, 4, 8, 8, 12, 16, chooser.randrange(-2, 34)])
    offset = offset - 40 if base == 10 else offset
    kind, other = chooser.random(), chooser.choice([0, 4, 5, 6, 7, 8, 9])
    size = chooser.choice([1, 2, 4, 8])
    if kind < 0.3:
        mode = MEMSX if size < 8 and chooser.random() < 0.5 else MEM
        return slot(access(CLASS_LDX, mode, size), other, base, offset)
    if kind < 0.45:
        return slot(access(CLASS_ST, MEM, size), base, 0, offset, chooser.choice(IMM_EDGES))
    if kind < 0.6:
        return slot(access(CLASS_STX, MEM, size), base, other, offset)
    size = chooser.choice([4, 8])
    return slot(access(CLASS_STX, ATOMIC, size), base, other, offset - offset % size, chooser.choice(list(ATOMICS)))


def random_memory_program(chooser, length):
    body = b""
    for _ in range(length):
        kind = chooser.random()
        if kind < 0.65:
            body += random_access_row(chooser)
        elif kind < 0.72:
            body += slot(0x85, 0, 0, 0, chooser.choice([1, 2, 3, 4]))
        else:
            klass = chooser.choice([CLASS_ALU, CLASS_ALU64])
            dst, src = chooser.choice([0, 4, 5, 6, 7, 8, 9]), chooser.randrange(11)
            body += slot(chooser.choice(list(ARITHMETIC)) << 4 | REGISTER | klass, dst, src)
    return body + EXIT_SLOT


def add_random_memory(script):
    script.note("programs of random accesses to two objects and the stack, one alone and two in turn")
    chooser = random.Random(5)
    for i in range(160):
        script.begin_program()
        bodies = [bytes(chooser.getrandbits(8) for _ in range(chooser.choice([8, 24, 32]))) for _ in range(2)]
        first, second = (script.object(body) for body in bodies)
        machines = []
        for _ in range(1 + i % 2):
            code = random_memory_program(chooser, chooser.randrange(2, 14))
            arguments = [first, second, chooser.choice([first + 4, second + 1]), chooser.getrandbits(64), chooser.getrandbits(8)]
            machines.append(script.ship(code, arguments, chooser.choice([6, 30, 30])))
        for _ in range(16 * len(machines)):
            script.tell(f"step {chooser.choice(machines)}")
        for address, body in zip((first, second), bodies):
            script.tell(f"get {address >> 32} 0 {len(body)}")
        for machine in machines:
            script.tell(f"stack {machine} 4048 48")
            script.tell(f"regs {machine}")
            script.tell(f"out {machine}")


def random_row(chooser, left):
    """A row, most of the time one that is valid `left` slots before the end."""
    kind = chooser.random()
    if kind < 0.1:
        return wide(chooser.randrange(11), chooser.getrandbits(64), chooser.choice([0, 0, 0, 0, 1]))
    if kind < 0.2:
        return slot(chooser.choice([0x05, 0x06]), 0, 0, *chooser.choice([(1, 0), (0, 1), (0, 0)]))
    if kind < 0.45:
        op = opcode(chooser.choice([CLASS_JMP, CLASS_JMP32]), IMMEDIATE, chooser.choice(list(CONDITIONS)))
        return slot(op, chooser.randrange(11), 0, chooser.randrange(-1, left + 2), chooser.choice(IMM_EDGES))
    klass = chooser.choice([CLASS_ALU, CLASS_ALU64])
    code = chooser.choice(list(ARITHMETIC))
    if kind < 0.7:
        dst = chooser.choice([0, 1, 2, 3, 4, 5, 6, 7, 8, 9, 9, 10])
        return slot(opcode(klass, IMMEDIATE, code), dst, 0, 0, chooser.choice(IMM_EDGES))
    if kind < 0.95:
        return slot(opcode(klass, REGISTER, code), chooser.randrange(10), chooser.randrange(11))
    return bytes(chooser.getrandbits(8) for _ in range(8))


def add_random(script):
    script.note("programs of random rows, most of which are valid")
    chooser = random.Random(9669)
    for i in range(400):
        length = chooser.randrange(1, 9)
        body = b"".join(random_row(chooser, length - at) for at in range(length))
        tail = chooser.choice([EXIT_SLOT] * 12 + [b"", EXIT_SLOT[:5], slot(0x05, offset=-1)])
        arguments = [chooser.getrandbits(64) for _ in range(5)]
        script.run(body + tail, arguments, fuel=chooser.choice([5, 40]), shows=i % 3 == 0)


def agent_of(line):
    """A fresh agent, with the budget that a line such as `--- --budget 8` gives it."""
    words = line.split()
    return Agent(int(words[2])) if words[1:2] == ["--budget"] else Agent()


def differences(path):
    """The replies of a script that the agent in Python doesn't give."""
    agent, found, command = Agent(), [], None
    for line in open(path, encoding="ascii").read().splitlines():
        if line.startswith("---"):
            agent = agent_of(line)
        elif line.startswith("> "):
            reply = agent.reply(command)
            if reply != line[2:]:
                found.append(f"{path}: {command[:70]} is answered {reply}, and the script says {line[2:]}")
        elif line and not line.startswith("#"):
            command = line
    return found


PARTS = [
    add_arithmetic, add_one_operand, add_jumps, add_control, add_opcodes, add_random, add_loads, add_stores, add_atomics,
    add_atomic_registers, add_addresses, add_helpers, add_stops, add_limits, add_frames_on_the_stack, add_lines, add_random_memory,
]


def main():
    if sys.argv[1:2] == ["--check"]:
        found = [text for path in sys.argv[2:] for text in differences(path)]
        sys.exit("\n".join(found) if found else 0)
    script = Script()
    script.note("Made by make_vectors.py, with an interpreter of RFC 9669 of its own; `make vectors` compares.")
    script.note("Each `---` begins with a fresh agent.")
    script.write(PARTS)
    print(f"{script.programs} programs", file=sys.stderr)


if __name__ == "__main__":
    main()

"""Object files for the shipper, and their debugging information for the debugger."""
from __future__ import annotations

import os
import random
import re
import struct
from typing import Sequence

from bpfagent import ship
from bpfagent.debug import main as debugger

from hostile.changes import changed, changed_in_place
from hostile.frame import OTHERS, Answer, Forked

FILE = "case.o"
# The head of a 64-bit ELF file from `e_shoff` on, and that of a section (System V gABI).
HEAD, HEAD_AT, SECTION = struct.Struct("<QIHHHHHH"), 40, struct.Struct("<IIQQQQIIQQ")
LINE = re.compile(r"bpfagent-\w+: [^\n]+\n")
# What the debugger is asked.
SESSION = """info functions|break program|continue|info locals|backtrace|list|step|info scopes|print *table|finish|info sources|disassemble
x/4xg 0x100000000|up|info locals|info line|next|continue"""
TABLE, HELD = "case.object", struct.pack("<QIIIIQQ", 2, 7, 40, 8, 2, 0, 0)
COMMANDS = re.split(r"[|\n]", SESSION)


def sections(content: bytes) -> list[tuple[str, int, int, int]]:
    """Of each section of a whole file its name, where it begins and ends, and where its head is."""
    heads, _, _, _, _, size, count, names = HEAD.unpack_from(content, HEAD_AT)
    read = [(heads + k * size, SECTION.unpack_from(content, heads + k * size)) for k in range(count)]
    texts = read[names][1][4]
    found = []
    for head, (name, kind, _, _, offset, length, *_) in read:
        at = texts + name
        found.append((content[at : content.index(b"\0", at)].decode(), offset, offset + length * (kind != 8), head))
    return found


class Elf(Forked):
    """`bpfagent-ship --check`."""

    name = "elf"

    def mutated(self, chance: random.Random, corpus: Sequence[bytes]) -> bytes:
        """A file whose heads, tables or names are changed, or any bytes."""
        content = chance.choice(corpus)
        parts = sections(content)
        if chance.random() < 0.15:
            return changed(chance, content, corpus)
        spans = [(0, 64), *((head, head + SECTION.size) for _, _, _, head in parts)]
        spans += [(begin, end) for name, begin, end, _ in parts if not name.startswith(".debug")]
        return changed_in_place(chance, content, spans)

    def show(self, case: bytes) -> None:
        """Compiles and links alone."""
        os.chdir(self.folder)
        with open(FILE, "wb") as file:
            file.write(case)
        ship.main(["--check", FILE])

    def refused(self, case: bytes, answer: Answer) -> str:
        """Nothing is said, or one line."""
        errors = answer.errors.decode(errors="backslashreplace")
        if (answer.status, answer.output, errors) == (0, b"", "") or answer.status == 1 and not answer.output and LINE.fullmatch(errors):
            return ""
        return f"status {answer.status}, {answer.output[:200]!r}, {errors[:500]!r}"


class Dwarf(Elf):
    """`bpfagent-debug`, which runs the program and shows what it can."""

    name = "dwarf"
    wait = OTHERS

    def mutated(self, chance: random.Random, corpus: Sequence[bytes]) -> bytes:
        """A file whose debugging information is changed."""
        content = chance.choice(corpus)
        spans = [(begin, end) for name, begin, end, _ in sections(content) if name.startswith((".debug", ".rel.debug"))]
        return changed_in_place(chance, content, spans)

    def show(self, case: bytes) -> None:
        """A session without a terminal."""
        os.chdir(self.folder)
        with open(FILE, "wb") as file:
            file.write(case)
        words = [word for command in COMMANDS for word in ("-x", command)]
        with open(TABLE, "wb") as file:
            file.write(HELD)
        debugger.main(["--bpfagent", self.program, "--fuel", "10000", *words, FILE, f"@{TABLE}", "7"])

    def refused(self, case: bytes, answer: Answer) -> str:
        """Whatever is shown, the command ends by itself."""
        return "" if answer.status in (0, 1) else f"status {answer.status}, {answer.errors[-300:]!r}"

#!/usr/bin/env python3
"""Compares `dis --llvm` and the column of docs/ASSEMBLY.md with llvm-objdump, line by line: spelling.py PROGRAM

The program shows the instructions of that page, and each row of RFC 9669 with several operands. An llvm-objdump below 18 doesn't know the instructions
of -mcpu=v4. Their lines are left out then, and the last line says so.
"""
from __future__ import annotations

import itertools
import pathlib
import re
import shutil
import struct
import subprocess
import sys
import tempfile
from typing import Collection, Iterator

sys.path.insert(0, str(pathlib.Path(__file__).resolve().parents[1]))
from lib.checks import run_parts, want, want_equal
from lib.programs import patience, run
from lib.sources import ROOT
from reference.instructions import ANY_IMM, ANY_OFFSET, HELPERS, ROWS, USED, Row, load

PAGE = ROOT / "docs/ASSEMBLY.md"
ROW = re.compile(r"(?m)^\| `.* \| `(.*)` \| `[^`|]+` \| `([0-9a-f]{16,32})` \|$")
SHOWN = re.compile(r"(?m)^ +\d+:\t(.*?)(?: <\S*\.text\S*>)?$")
VERSIONS = range(30, 13, -1)
# The first version that knows all instructions of RFC 9669.
WHOLE = 18
# Instructions of -mcpu=v4, by their spelling: older versions show other ones, or nothing.
NEWER = re.compile(r"s/=|s%=|\(s\d+\)|bswap|\*\(s\d+ |\) = -?\d|gotol|%=|&.*goto")
# Of an object file for BPF: its headers, and those of two sections, the code and the names of sections.
MACHINE, HEADER, SECTION = 247, struct.Struct("<16sHHIQQQIHHHHHH"), struct.Struct("<IIQQQQIIQQ")
NAMES = b"\0.text\0.shstrtab\0"
# An instruction's opcode, registers, offset and imm.
SLOT = struct.Struct("<BBhi")
EXIT = bytes.fromhex("9500000000000000")
# Registers, offset and imm: small ones, the least, the greatest.
OPERANDS = [(1, 2, 6, 7), (9, 10, -(1 << 15), -(1 << 31)), (3, 0, (1 << 15) - 1, (1 << 31) - 1), (0, 9, 0, 0), (8, 8, -1, -1)]
# Where jumps and calls lead, in slots from the next one.
JUMPS = [3, -5, 0]
# What stands before and after an instruction of the page: as many slots as any of its jumps skips.
AROUND = EXIT * 16


def object_file(code: bytes) -> bytes:
    """An object file of this code alone."""
    head = HEADER.pack(b"\x7fELF\2\1\1".ljust(16, b"\0"), 1, MACHINE, 1, 0, 0, HEADER.size + len(code) + len(NAMES), 0, HEADER.size, 0, 0, SECTION.size, 3, 2)
    sections = [
        SECTION.pack(0, 0, 0, 0, 0, 0, 0, 0, 0, 0),
        SECTION.pack(NAMES.index(b".text"), 1, 6, 0, HEADER.size, len(code), 0, 0, 8, 0),
        SECTION.pack(NAMES.index(b".shstrtab"), 3, 0, 0, HEADER.size + len(code), len(NAMES), 0, 0, 1, 0),
    ]
    return head + code + NAMES + b"".join(sections)


def shown_by(command: str, version: int, code: bytes) -> list[str]:
    """What llvm-objdump shows of each instruction, without the names of places to which jumps lead."""
    options = ["--mcpu=v4", "--no-print-imm-hex"] if version >= WHOLE else ["--mattr=+alu32"]
    with tempfile.TemporaryDirectory(prefix="spelling-") as room:
        path = pathlib.Path(room, "code.o")
        path.write_bytes(object_file(code))
        return SHOWN.findall(run(command, "-d", "--no-show-raw-insn", *options, path))


def newest() -> tuple[str, int]:
    """The newest llvm-objdump that is there, and its version; none has version 0."""
    for version in VERSIONS:
        if shutil.which(f"llvm-objdump-{version}"):
            return f"llvm-objdump-{version}", version
    if not shutil.which("llvm-objdump"):
        return "", 0
    told = subprocess.run(["llvm-objdump", "--version"], stdout=subprocess.PIPE, text=True, timeout=60).stdout
    found = re.search(r"version (\d+)", told)
    return "llvm-objdump", int(found[1]) if found else 0


def taken(field: Collection[int], wanted: int) -> Collection[int]:
    """What an instruction has in this field: the number that is wanted where any may stand there, otherwise each of those that may."""
    return (wanted,) if field in (ANY_OFFSET, ANY_IMM, USED) else field


def spelled(opcode: int, row: Row, dst: int, src: int, offset: int, imm: int) -> Iterator[bytes]:
    """The instructions of this row with these operands."""
    for fields in itertools.product(taken(row.dst, dst), taken(row.src, src), taken(row.offset, offset), taken(row.imm, imm)):
        first = SLOT.pack(opcode, fields[0] | fields[1] << 4, *fields[2:])
        yield first + SLOT.pack(0, 0, 0, offset) if row.kind == "wide" else first


def every_row() -> Iterator[bytes]:
    """Each row with several operands."""
    for opcode, row in ROWS.items():
        if row.kind == "call":
            yield from (SLOT.pack(opcode, 0, 0, number) for number in HELPERS)
            yield from (SLOT.pack(opcode, 1 << 4, 0, jump) for jump in JUMPS)
            continue
        row = row._replace(src=(0,)) if row.kind == "wide" else row
        for number, (dst, src, offset, imm) in enumerate(OPERANDS):
            jump = JUMPS[number % len(JUMPS)]
            # R10 can't be written, as a fetching operation writes its source register.
            source = min(src, 9) if row.kind == "atomic" else src
            yield from spelled(opcode, row, dst, source, jump if row.kind in ("condition", "ja") else offset, jump if row.kind == "ja" else imm)


def lines_of(program: str, code: bytes) -> list[str]:
    """What `dis --llvm` writes of this code."""
    told = subprocess.run([program, "dis", "--llvm"], input=code, stdout=subprocess.PIPE, check=True, timeout=60 * patience(program)).stdout.decode()
    want(told.endswith("\n"), "dis --llvm ends its last line")
    return told.splitlines()


def known(version: int, line: str) -> bool:
    """Whether an llvm-objdump of this version knows the instruction."""
    return version >= WHOLE or not NEWER.search(line)


def page_rows() -> list[tuple[bytes, str]]:
    """The instructions of the page, with the spelling beside them."""
    rows = [(bytes.fromhex(code), spelling.replace("\\|", "|")) for spelling, code in ROW.findall(PAGE.read_text())]
    want(len(rows) > 50, f"{PAGE.name} has {len(rows)} instructions with their spelling")
    return rows


def show_spelling(program: str) -> str | None:
    """The column of the page is what llvm-objdump says."""
    rows = page_rows()
    command, version = newest()
    if not version:
        return "llvm-objdump wasn't asked, since it isn't there"
    shown = shown_by(command, version, b"".join(code for code, _ in rows))
    want_equal(len(shown), len(rows), f"how many instructions {command} shows")
    asked = [(spelling, said) for (_, spelling), said in zip(rows, shown) if known(version, spelling)]
    for spelling, said in asked:
        want_equal(said, spelling, f"what {command} says in place of what {PAGE.name} has")
    return f"{len(asked)} of {len(rows)} lines by {command}"


def show_column(program: str) -> None:
    """`dis --llvm` writes the column of the page."""
    rows = page_rows()
    lines = lines_of(program, b"".join(AROUND + code + AROUND for code, _ in rows))
    between = 2 * len(AROUND) // len(EXIT)
    want_equal(lines[between // 2 :: between + 1], [spelling for _, spelling in rows], "the instructions of the page by dis --llvm")
    want_equal(lines.count("exit"), len(rows) * between + 1, "how often dis --llvm writes exit")


def show_every_row(program: str) -> str | None:
    """`dis --llvm` writes of each row what llvm-objdump does."""
    code = b"".join(every_row()) + EXIT
    lines = lines_of(program, code)
    want_equal(len(lines), len(load(code)), "how many lines dis --llvm writes")
    command, version = newest()
    if not version:
        return "llvm-objdump wasn't asked, since it isn't there"
    shown = shown_by(command, version, code)
    want_equal(len(shown), len(lines), f"how many instructions {command} shows")
    asked = [(line, said) for line, said in zip(lines, shown) if known(version, line)]
    for line, said in asked:
        want_equal(line, said, f"what dis --llvm writes in place of what {command} does")
    return f"{len(asked)} of {len(lines)} lines by {command}"


if __name__ == "__main__":
    run_parts("spelling", [show_spelling, show_column, show_every_row])

#!/usr/bin/env python3
"""Compares what `check --explain` and `asm --explain` say with stored lines: explained.py PROGRAM [--write]

A line of explained.jsonl has the subcommand, the input, and both lines of standard error. The input is hex for `check` and Latin-1 for `asm`; a list
has parts, each with how often it comes. The lines come from a program whose contracts stated each explanation in full. No contract does so now.
With --write the lines of this program are stored instead.
"""
from __future__ import annotations

import concurrent.futures
import itertools
import json
import pathlib
import struct
import sys
from typing import Any, Collection, Iterator, List

sys.path.insert(0, str(pathlib.Path(__file__).resolve().parents[1]))
from lib.checks import run_parts, want, want_equal
from lib.programs import ended, patience
from reference.instructions import ROWS, USED, ZERO, Row

STORED = pathlib.Path(__file__).with_suffix(".jsonl")
# The fields of a slot beside its opcode (RFC 9669, section 3.1).
FIELDS = ("dst", "src", "offset", "imm")
SECONDS = 20
# How many runs of the program go on side by side.
PROCESSES = 4

# The subcommand, the input, and the two lines.
Case = List[Any]


def stored() -> list[Case]:
    """The stored cases."""
    return [json.loads(line) for line in STORED.read_text().splitlines()]


def input_of(case: Case) -> bytes:
    """The bytes that the program reads."""
    task, given = case[:2]
    text = given if isinstance(given, str) else "".join(part * count for part, count in zip(given[::2], given[1::2]))
    return bytes.fromhex(text) if task == "check" else text.encode("latin-1")


def said(program: str, case: Case, *options: str) -> tuple[int, bytes, bytes]:
    """The status of a run, its output and what it says on standard error."""
    return ended(program, case[0], *options, given=input_of(case), seconds=SECONDS * patience(program))


def want_case(program: str, case: Case) -> None:
    """The program explains the refusal by its second line, and doesn't unless it is asked to."""
    first, second = (f"{line}\n".encode() for line in case[2:])
    for options, lines in (((), first), (("--explain",), first + second)):
        want_equal(said(program, case, *options), (1, b"", lines), f"{case[0]} {' '.join(options)} on {str(case[1])[:60]}")


def show_lines(program: str) -> str:
    """Each refusal has its two lines."""
    cases = stored()
    with concurrent.futures.ThreadPoolExecutor(PROCESSES) as pool:
        for done in [pool.submit(want_case, program, case) for case in cases]:
            done.result()
    return f"{len(cases)} refusals are explained"


def choices(row: Row) -> tuple[dict[str, Collection[int]], dict[int, str]]:
    """What the four fields of a row may hold here, where there is no platform, and the names of its instructions by what tells them apart."""
    taken = dict(zip(FIELDS, row[1:5]))
    if row.kind in ("call", "wide"):
        taken["src"] = {0: "call", 1: "call local"} if row.kind == "call" else ZERO
    return taken, next((numbers for numbers in taken.values() if isinstance(numbers, dict)), {0: row.text.split()[0]} if row.text else {})


def said_of(taken: Collection[int], name: str) -> str:
    """What a field may hold, in words: a register, or the numbers of the instructions that they name, or 0."""
    if isinstance(taken, dict):
        return " or ".join(f"{number} in {named}" for number, named in sorted(taken.items()))
    return f"{'0 to 10' if taken is USED else '0'} in {name}"


def wrong_fields() -> Iterator[tuple[bytes, str, str]]:
    """For each instruction, a slot for each field that holds what it may not hold: the slot, the fault, and the explanation."""
    for opcode, row in ROWS.items():
        taken, names = choices(row)
        for (key, name), field in itertools.product(names.items(), FIELDS):
            held = {other: key if isinstance(numbers, dict) else 0 for other, numbers in taken.items()}
            held[field] = 13 if field in ("dst", "src") else -13
            if held[field] not in taken[field]:
                slot = struct.pack("<BBhi", opcode, held["dst"] | held["src"] << 4, held["offset"], held["imm"])
                text = f"{slot.hex()}: {field} is {held[field]}, and has to be {said_of(taken[field], name)}; see RFC 9669, sections 3 to 5"
                yield slot, "Register" if taken[field] is USED else "Field", text


def show_wrong_fields(_program: str) -> str:
    """The stored explanation of each wrong field names it, its number, and what the table of tests/reference has there."""
    found = {input_of(case): case[2:] for case in stored() if case[0] == "check"}
    wanted = sorted(set(wrong_fields()))
    for slot, fault, text in wanted:
        want_equal(found.get(slot + bytes(8)), [f"slot 0: {fault}", text], f"what is stored of {slot.hex()}")
    return f"{len(wanted)} wrong fields are among them"


def write(program: str) -> None:
    """Stores the lines of this program."""
    cases = stored()
    for case in cases:
        status, output, errors = said(program, case, "--explain")
        want((status, output, errors.count(b"\n")) == (1, b"", 2), f"{case[:2]} ended with {status}, {output!r}, {errors!r}")
        case[2:] = errors.decode().splitlines()
    STORED.write_text("".join(json.dumps(case) + "\n" for case in cases))


if __name__ == "__main__":
    if sys.argv[2:] == ["--write"]:
        write(sys.argv[1])
    else:
        run_parts("explained", [show_lines, show_wrong_fields])

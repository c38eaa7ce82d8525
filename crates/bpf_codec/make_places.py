#!/usr/bin/env python3
"""Prints the two tables of crates/bpf_codec/src/places.rt after a change of the list of rows, crates/isa_table/src/row_list.rt:
by opcode, where its rows begin in the list, and how many it has. The check of bpf_codec refuses wrong ones."""
from __future__ import annotations

import pathlib
import re
import sys
from typing import Callable

sys.path.append(str(pathlib.Path(__file__).resolve().parents[2] / "tests"))
from lib.sources import ROOT

LIST = ROOT / "crates/isa_table/src/row_list.rt"


def table(number_of: Callable[[str], int]) -> str:
    """A table of 256 numbers, sixteen a line."""

    def row(start: int) -> str:
        numbers = "".join(f"{number_of(f'{code:02x}')}, " for code in range(start, start + 16))
        return f"    {numbers}// {start:02x} to {start + 15:02x}\n"

    return "".join(map(row, range(0, 256, 16)))


def main() -> None:
    opcodes = re.findall(r"(?m)// ([0-9a-f]{2})$", LIST.read_text())
    print(table(lambda code: opcodes.index(code) if code in opcodes else 0))
    print(table(opcodes.count), end="")


if __name__ == "__main__":
    main()

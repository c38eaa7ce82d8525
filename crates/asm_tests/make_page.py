"""Writes src/page_list.rt: the examples of docs/ASSEMBLY.md, which a test runs.

    python3 crates/asm_tests/make_page.py docs/ASSEMBLY.md > crates/asm_tests/src/page_list.rt"""

import re
import sys


def cells(line):
    return [c.strip() for c in line.strip().strip("|").split("|")]


def code(cell):
    found = re.fullmatch(r"`([^`]*)`", cell)
    return found.group(1) if found else None


def row(first, second):
    line = f'    ("{first}", "{second}"),'
    return line if len(line) <= 64 else f'    (\n        "{first}",\n        "{second}",\n    ),'


def main(path):
    examples, refusals = [], []
    for line in open(path):
        if not line.startswith("|"):
            continue
        last = cells(line)[-2:]
        text, answer = code(last[0]), code(last[1])
        if text and answer:
            (refusals if answer.startswith("line ") else examples).append((text, answer))
    print("//! Written by make_page.py from docs/ASSEMBLY.md: its examples, with their bytes or their answers.")
    for name, rows in (("EXAMPLES", examples), ("REFUSALS", refusals)):
        print()
        print(f"pub const {name}: &[(&str, &str)] = &[")
        for r in rows:
            print(row(*r))
        print("];")


main(sys.argv[1])

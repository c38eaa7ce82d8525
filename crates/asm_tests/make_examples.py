"""Writes src/example_list.rt: the texts of examples/ and the bytes of their code, which a test compares.

    python3 crates/asm_tests/make_examples.py examples > crates/asm_tests/src/example_list.rt"""

import pathlib
import sys

# How many hex digits stand in a line: those of eight slots.
DIGITS = 128


def escaped(line):
    """A line of a text as it stands in a literal. A continuation skips the blanks that a line begins with, so the first is an escape."""
    text = line.replace("\\", "\\\\").replace('"', '\\"').replace("\n", "\\n").replace("\t", "\\t")
    return "\\x20" + text[1:] if text.startswith(" ") else text


def literal(parts):
    """A literal in which each part has a line of its own."""
    return '"' + "\\\n         ".join(parts) + '"'


print("//! Written by make_examples.py from examples/: texts, and their bytes in hex.")
print()
print("pub const EXAMPLES: &[(&str, &str)] = &[")
for path in sorted(pathlib.Path(sys.argv[1]).glob("*.asm")):
    text = literal([escaped(line) for line in path.read_text().splitlines(keepends=True)])
    digits = path.with_suffix(".code").read_bytes().hex()
    code = literal([digits[at : at + DIGITS] for at in range(0, len(digits), DIGITS)])
    print(f"    (\n        {text},\n        {code},\n    ),")
print("];")

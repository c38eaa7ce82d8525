"""The commands with the forms of their lines, from the table of crates/agent_tests/src/commands.rt. A test there compares it with the program's own."""
from __future__ import annotations

import re
from dataclasses import dataclass

from lib.checks import Failed, want
from lib.sources import ROOT

SOURCE = "crates/agent_tests/src/commands.rt"
TABLE = re.compile(r'(?m)^const TABLE: &str = "\\\n((?:[^"\\\n]+\n)+)";$')
# A line of a table: the command's name, the limits of its numbers, how many bytes come at most, and whether words that grant do.
ROW = re.compile(r"(?P<name>[a-z]\w*)(?P<limits>(?: \d+-\d+)*)(?: bytes-(?P<bytes>\d+))?(?P<grants> grants)?")


@dataclass(frozen=True)
class Form:
    """The words after a command's name, in this order."""

    numbers: tuple[range, ...]
    # The most bytes; 0 if the command takes none.
    most_bytes: int
    takes_grants: bool


def form_of(row: re.Match[str]) -> Form:
    limits = [limit.split("-") for limit in row["limits"].split()]
    return Form(tuple(range(int(least), int(most) + 1) for least, most in limits), int(row["bytes"] or 0), bool(row["grants"]))


def commands() -> dict[str, Form]:
    """Each command of the table by its name."""
    table = TABLE.search((ROOT / SOURCE).read_text())
    if not table:
        raise Failed(f"{SOURCE} has no TABLE, or one of another shape than a text with a command in each line")
    found: dict[str, Form] = {}
    for line in table[1].splitlines():
        row = ROW.fullmatch(line)
        if not row or not all(form_of(row).numbers):
            raise Failed(f"{SOURCE}: a line of TABLE isn't a command with its limits: {line!r}")
        want(row["name"] not in found, f"{SOURCE}: TABLE has {row['name']} twice")
        found[row["name"]] = form_of(row)
    return found

#!/usr/bin/env python3
"""Prints crates/machine/proofs/processor/Processor/run_to/Answers.antt, made for the rows of a run: make_answers.py [--write]

Each arm of `rows!` and of `run_rows!` has an entry in `came`, one in `came_ready`, and an import. The script makes these and keeps the rest of the file.
With --write it writes the file, after a change of the rows. The check of machine refuses a wrong entry."""
from __future__ import annotations

import itertools
import pathlib
import re
import sys
import textwrap
from typing import Iterator, NamedTuple

sys.path.append(str(pathlib.Path(__file__).resolve().parents[2] / "tests"))
from lib.sources import ROOT, block, uncommented

CRATE = ROOT / "crates/machine"
ANSWERS = CRATE / "proofs/processor/Processor/run_to/Answers.antt"
# An arm: its first row, the function that it calls, and the first of that function's arguments.
ARM = re.compile(r"Row::(\w+)(?:\s*\|\s*Row::\w+)*\s*=>\s*\$machine\.\$?(\w+)\(([$\w,\s]*)")
IMPORT = "use Rattle.machine.proofs.processor.Processor.run_to.Goals.{"
# What the script writes: the imports, and the two lists.
PARTS = re.compile(rf"^(?:{re.escape(IMPORT)}.*\n)+|(?<=^    elim m\.match-row\.branch \[\n)(?: {{6}}.*\n)+", re.MULTILINE)
# The goals that are imported beside the arms.
OTHERS = [
    "then-fuel-most-via-then-fuel-most",
    "then-fuel-most-via-else-fuel-most+then-has_slot-2",
    *("in-Past", "in-One", "in-PastTwo", "in-Two", "in-Other+in_default"),
]
# `rt fmt` breaks no line, so the script does: more than LONGEST characters become lines of at most WIDTH. Other numbers would change lines that are proved.
LONGEST = 158
WIDTH = 154


class Arm(NamedTuple):
    """An arm of the match by its first row: the call's name among the goals, and whether the call is told how many instructions may be done."""

    row: str
    call: str
    has_left: bool


def macro(name: str, file: str) -> str:
    """The text of a macro without its comments."""
    text = uncommented((CRATE / "src" / file).read_text())
    begin = text.index(f"macro_rules! {name} {{")
    return text[begin : block(text, text.index("{", begin))]


def arms() -> Iterator[Arm]:
    """The arms in the order of the match. The first call of a function is named without its row."""
    rows, runs = macro("rows", "rows.rt"), macro("run_rows", "runs.rt")
    # the first list in brackets: `rows!` names the functions that it is given, and `run_rows!` gives them
    own, given = (re.findall(r"\w+", text[text.index("[") : text.index("]")]) for text in (rows.replace(":ident", ""), runs))
    function_of, called = dict(zip(own, given)), set()
    for row, name, arguments in ARM.findall(rows) + ARM.findall(runs):
        function = function_of.get(name, name)
        place = f"-in-{row}" if function in called else ""
        yield Arm(row, f"w.{function}-dispatched{place}", "$left" in arguments)
        called.add(function)


def filled(text: str, begin: str, further: str) -> list[str]:
    """The text in lines, broken at blanks alone. The first line begins with one text, and each further one with the other."""
    if len(begin + text) <= LONGEST:
        return [begin + text]
    return textwrap.wrap(text, WIDTH, initial_indent=begin, subsequent_indent=further, break_on_hyphens=False, break_long_words=False)


def imports(found: list[Arm]) -> str:
    """The imports. Pairs have lines of their own."""
    groups = [[f"in-{arm.row}" for arm in group] for _, group in itertools.groupby(found, lambda arm: arm.has_left)]
    groups[0][:0] = OTHERS
    lines = [line for names in groups for line in filled(", ".join(names) + "}", IMPORT, IMPORT)]
    return "".join(f"{line[:-1]}}}\n" for line in lines)


def entry(first: str, *others: str) -> str:
    """An entry of a list in these lines, which are broken where they are too long."""
    further = " " * 10
    lines = [*filled(first, " " * 6, further), *(part for line in others for part in filled(line, further, further))]
    return "".join(f"{line}\n" for line in lines)


def came(arm: Arm) -> str:
    """An entry that says what became of the instruction. Its first two lines are one if that is short enough."""
    results = f"| in-{arm.row} w ↦ from {arm.call}.new.self {arm.call}.result {arm.call}.new.memory"
    same = "w.self-is w.dispatched-is w.memory-is"
    # a call that isn't told how many instructions may be done says `does` of each number
    does = f"{arm.call}.ensures.does" if arm.has_left else f"({arm.call}.ensures.does m.unseen-unseen.result)"
    joined = entry(f"{results} {same}", does)
    return joined if joined.count("\n") == 2 else entry(results, same, does)


def came_ready(arm: Arm) -> str:
    """An entry that says that the memory is ready again."""
    return entry(f"| in-{arm.row} w ↦ subst g.M.Memory.is_ready (sym w.memory-is) {arm.call}.ensures.ready")


def main() -> None:
    if sys.argv[1:] not in ([], ["--write"]):
        sys.exit(__doc__)
    found = list(arms())
    parts = [imports(found), "".join(map(came, found)), "".join(map(came_ready, found))]
    text = ANSWERS.read_text()
    if len(PARTS.findall(text)) != len(parts):
        sys.exit(f"{ANSWERS} hasn't one place for the imports and one for each of the lists")
    fresh = iter(parts)
    text = PARTS.sub(lambda _: next(fresh), text)
    if sys.argv[1:]:
        ANSWERS.write_text(text)
    else:
        print(text, end="")


if __name__ == "__main__":
    main()

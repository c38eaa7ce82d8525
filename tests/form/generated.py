#!/usr/bin/env python3
"""Compares stored files with what their scripts write now: lists of tests, however they are laid out, answers for the rows of a run, and files that
stand in several crates. The number of replies that `script_runner` tells is that of its scripts. The numbers of docs/performance.svg, of
docs/SCALING.md and of its picture are those of the figures. With --vectors it also makes the long scripts of crates/script_runner again, by an
interpreter of RFC 9669 of its own, and says whether the replies of the other scripts are those that it gives.
"""
from __future__ import annotations

import itertools
import pathlib
import re
import subprocess
import sys
import tempfile
from dataclasses import replace
from typing import Iterator, Sequence

TOP = pathlib.Path(__file__).resolve().parents[2]
sys.path[:0] = [str(TOP / "tests"), str(TOP / "bench"), str(TOP / "examples/scaling")]
import bars
import plots
import report as scaling
from figures import load as load_parts
from lib.checks import report
from lib.sources import LITERAL, ROOT
from rows import load_figures

ASSEMBLY = "crates/asm_tests"
WRITTEN = {
    f"{ASSEMBLY}/src/page_list.rt": [f"{ASSEMBLY}/make_page.py", "docs/ASSEMBLY.md"],
    f"{ASSEMBLY}/src/example_list.rt": [f"{ASSEMBLY}/make_examples.py", "examples"],
    f"{ASSEMBLY}/src/form_list.rt": [f"{ASSEMBLY}/make_forms.py"],
    "crates/agent_tests/src/help_list.rt": ["crates/agent_tests/make_helps.py", "crates/agent/src/arguments/help_texts.rt"],
}
COPIED = "compared.rt"
# How long a script that makes a list may take.
SECONDS = 1800
TABLES = "crates/isa_table_tests"
PLACES = "crates/bpf_codec/src/places.rt"
ANSWERS = "crates/machine/proofs/processor/Processor/run_to/Answers.antt"
RUNNER = "crates/script_runner"
VECTORS = {name: f"{RUNNER}/data/{name}.script" for name in ("vectors", "moves_vectors", "grants_vectors")}


def output(call: Sequence[str]) -> str:
    return subprocess.run([sys.executable, *call], cwd=ROOT, check=True, capture_output=True, text=True, timeout=SECONDS).stdout


def plain(text: str) -> tuple[str, list[str]]:
    """The code without its layout, and its texts as they are."""
    kept = []
    spaced = LITERAL.sub(lambda found: kept.append(found[0]) or "\0", text)
    return re.sub(r",(?=[)\]])", "", "".join(spaced.split())), [part.strip() for part in kept]


def differing() -> Iterator[str]:
    for name, call in WRITTEN.items():
        if plain((ROOT / name).read_text()) != plain(output(call)):
            yield f"{name} isn't what {' '.join(call)} writes"
    with tempfile.TemporaryDirectory() as folder:
        output([f"{TABLES}/vectors.py", folder])
        written = {path.name for path in pathlib.Path(folder).iterdir()}
        if written != {path.name for path in (ROOT / TABLES / "src").glob("*.rt") if "Written by `vectors.py`" in path.read_text()}:
            yield f"{TABLES}/vectors.py doesn't write all of {TABLES}/src that says so: {sorted(written)}"
        for path in sorted(pathlib.Path(folder).iterdir()):
            if plain((ROOT / TABLES / "src" / path.name).read_text()) != plain(path.read_text()):
                yield f"{TABLES}/src/{path.name} isn't what {TABLES}/vectors.py writes"


def differing_places() -> Iterator[str]:
    """The lines of the codec's tables that its script doesn't print."""
    source = (ROOT / PLACES).read_text()
    yield from (f"{PLACES} lacks {line}" for line in output(["crates/bpf_codec/make_places.py"]).split("\n") if line not in source)


def differing_answers() -> Iterator[str]:
    """The script prints the whole file, and the parts that it doesn't make as they are."""
    if (ROOT / ANSWERS).read_text() != output(["crates/machine/make_answers.py"]):
        yield f"{ANSWERS} isn't what crates/machine/make_answers.py --write makes of it"


def differing_copies() -> Iterator[str]:
    if len({path.read_text() for path in ROOT.glob(f"crates/*/src/{COPIED}")}) != 1:
        yield f"the files {COPIED} of crates differ, or there is none"


def miscounted_replies() -> Iterator[str]:
    """The program that runs the scripts has to say of each how many replies are written there."""
    folder = ROOT / RUNNER
    said = (folder / "stdout").read_text().splitlines()
    for name, line in itertools.zip_longest((folder / "args").read_text().split(), said):
        replies = sum(it.startswith("> ") for it in (folder / "data" / name).read_text().splitlines()) if name else 0
        if line != f"{name}: {replies} replies as written":
            yield f"{RUNNER}/stdout says {line!r}, and {name} has {replies} replies"


def differing_pictures() -> Iterator[str]:
    """The figures that a page or its picture doesn't show."""
    yield from bars.differing(load_figures())
    yield from scaling.wrong(load_parts())


def unseen_changes() -> Iterator[str]:
    """The figures of a picture that could be others by a hundredth, and it would still seem to show them."""
    rows, panels = load_figures(), scaling.measured(load_parts()["rows"])
    for row in bars.drawn_rows(rows).values():
        for changed in (replace(row, ratio=1.01 * (row.ratio or 0)), replace(row, ours=1.01 * (row.ours or 0))):
            if changed != row and not list(bars.differing([changed if it is row else it for it in rows])):
                yield f"{bars.PICTURE.name} seems to show other figures of {row.part}, {row.name}"
    for curve, at in ((curve, at) for panel in panels for curve in panel.curves for at in range(len(curve.points))):
        points = [(place, rate * (1.01 if number == at else 1)) for number, (place, rate) in enumerate(curve.points)]
        changed_panels = [replace(it, curves=[replace(one, points=points) if one is curve else one for one in it.curves]) for it in panels]
        if not list(plots.differing(changed_panels, scaling.PICTURE)):
            yield f"{scaling.PICTURE.name} seems to show another point {at} of {curve.name}"


def differing_vectors() -> Iterator[str]:
    for name, script in VECTORS.items():
        if (ROOT / script).read_text() != output([f"{RUNNER}/make_{name}.py"]):
            yield f"{script} isn't what {RUNNER}/make_{name}.py writes"
    scripts = [*ROOT.glob(f"{RUNNER}/data/*.script"), *ROOT.glob("examples/*.script"), *ROOT.glob("examples/c/*.script")]
    command = [sys.executable, f"{RUNNER}/make_vectors.py", "--check", *sorted(map(str, scripts))]
    done = subprocess.run(command, cwd=ROOT, capture_output=True, text=True, timeout=SECONDS)
    if done.returncode:
        yield f"not all replies are those of the interpreter: {done.stdout}{done.stderr}"


if __name__ == "__main__":
    has_vectors = sys.argv[1:] == ["--vectors"]
    found = [*differing(), *differing_places(), *differing_answers(), *differing_copies(), *miscounted_replies(), *differing_pictures(), *unseen_changes()]
    found += differing_vectors() if has_vectors else []
    more = "; so are the long scripts; the replies of all scripts are those of the interpreter" if has_vectors else ""
    report(found, f"lists of tests and of answers are what they are made from, and pictures show what was measured{more}")

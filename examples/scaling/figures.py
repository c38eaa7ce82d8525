"""The figures that measure_fleet.py keeps, part by part, each with the program, the machine and the day it was measured on."""
from __future__ import annotations

import json
import os
import pathlib

FIGURES = pathlib.Path(__file__).resolve().with_name("figures.json")
# How many workers the throughput is measured with, each in a part of its own.
AGENTS = (1, 2, 4, 8)
ROWS = tuple(f"rows-{count}" for count in AGENTS)
# The examples: as they are, while workers are killed, and while a node of Redis is.
WORDS = ("words", "words-deaths", "words-crash")
TRANSFERS = ("transfers", "transfers-deaths")
PARTS = (*ROWS, "lost", *WORDS, *TRANSFERS)


def stored(path: pathlib.Path) -> dict:
    """What a file keeps of each part; nothing if there is no such file."""
    return json.loads(path.read_text()) if path.exists() else {}


def keep(path: pathlib.Path, part: str, measured: dict) -> None:
    """Replaces a part in a file. An interruption leaves the file as it was, or as it is to be."""
    path.parent.mkdir(exist_ok=True)
    whole = {**stored(path), part: measured}
    beside = path.with_name(f"{path.name}.new")
    beside.write_text(json.dumps({name: whole[name] for name in PARTS if name in whole}, indent=1) + "\n")
    os.replace(beside, path)


def load(path: pathlib.Path = FIGURES) -> dict:
    """All parts together: `rows`, `lost`, `words` and `transfers`, the number of processors, and in `parts` what each was measured on.
    Raises `ValueError` if a part is missing."""
    parts = stored(path)
    if missing := [name for name in PARTS if name not in parts]:
        raise ValueError(f"there are no figures of {', '.join(missing)}: measure_fleet.py PROGRAM --part {' --part '.join(missing)}")
    together = {name: [row for part in names for row in parts[part]["figures"]] for name, names in (("rows", ROWS), ("words", WORDS), ("transfers", TRANSFERS))}
    return {**together, "lost": parts["lost"]["figures"], "processors": parts[ROWS[0]]["machine"]["processors"], "parts": parts}

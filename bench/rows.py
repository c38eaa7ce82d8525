"""The rows that `make bench` measures: read from what its parts print, kept in bench/figures.json, drawn as docs/performance.svg."""
from __future__ import annotations

import json
import re
import sys
from dataclasses import asdict, dataclass, fields
from pathlib import Path
from typing import Iterable, Iterator, Optional

FIGURES = Path(__file__).resolve().parent / "figures.json"

# The name of a line, and what it may tell: fields of a row.
NAME = re.compile(r"(\S.*?)(?: {2,}|: )")
TOLD = re.compile(
    r"ratio +(?P<ratio>[\d.]+)|(?P<ours>[\d.]+) (?:and|beside) +(?P<theirs>[\d.]+) machine instructions"
    r"|median +(?P<median>[\d.]+) us, 99th percentile +(?P<percentile>[\d.]+) us|(?P<share>[\d.]+) of 100"
    r"|(?P<rate>[\d.]+) faults a second"
)
# The library for C: a run in one call beside a step in a loop, once in nanoseconds and once in machine instructions.
LIBRARY = re.compile(r"(\w+) +run +([\d.]+)( ns)?,.*? bare +([\d.]+)( ns)?")


@dataclass
class Row:
    """One row: time as a ratio to the other side's, and machine instructions of both sides; or a latency in microseconds, its median
    and its 99th percentile; or a share of a hundred; or how much is done in a second."""

    part: str
    name: str
    ratio: Optional[float] = None
    ours: Optional[float] = None
    theirs: Optional[float] = None
    median: Optional[float] = None
    percentile: Optional[float] = None
    share: Optional[float] = None
    rate: Optional[float] = None

    @property
    def counts(self) -> Optional[float]:
        """Machine instructions as a ratio to the other side's."""
        return self.ours / self.theirs if self.ours is not None and self.theirs else None


def rows_of_line(part: str, line: str) -> Iterator[Row]:
    """The rows that a printed line tells; a line that only informs has none."""
    if library := LIBRARY.match(line):
        ours, theirs = float(library[2]), float(library[4])
        yield Row(part, library[1], ratio=round(ours / theirs, 3)) if library[3] else Row(part, library[1], ours=ours, theirs=theirs)
    elif name := NAME.match(line):
        told = {field: float(value) for found in TOLD.finditer(line) for field, value in found.groupdict().items() if value}
        if told:
            yield Row(part, name[1], **told)


def joined(rows: Iterable[Row]) -> list[Row]:
    """Of rows with one name a single row, which has what any of them has."""
    found: dict[tuple[str, str], Row] = {}
    for row in rows:
        known = found.setdefault((row.part, row.name), row)
        for field in fields(row):
            if getattr(row, field.name) is not None:
                setattr(known, field.name, getattr(row, field.name))
    return list(found.values())


def read_rows(part: str, lines: Iterable[str]) -> list[Row]:
    """The rows that a part's lines tell."""
    return joined(row for line in lines for row in rows_of_line(part, line))


def parse_figures(text: str) -> list[Row]:
    return [Row(**row) for row in json.loads(text)]


def load_figures(path: Path = FIGURES) -> list[Row]:
    return parse_figures(path.read_text()) if path.exists() else []


def store_figures(measured: list[Row], path: Path = FIGURES) -> list[Row]:
    """Puts what was measured in the place of the same parts' rows, and gives all rows. A row is a line, so that a commit shows it."""
    parts = {row.part for row in measured}
    rows = [row for row in load_figures(path) if row.part not in parts] + measured
    lines = ",\n".join("  " + json.dumps({name: value for name, value in asdict(row).items() if value is not None}) for row in rows)
    path.write_text(f"[\n{lines}\n]\n")
    return rows


def words(usage: str, least: int, most: int) -> list[str]:
    """The arguments of a script; if there are too few or too many, its usage and status 2."""
    given = sys.argv[1:]
    if not least <= len(given) <= most:
        print(f"usage: {usage}", file=sys.stderr)
        sys.exit(2)
    return given

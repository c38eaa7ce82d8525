#!/usr/bin/env python3
"""Writes the tables and the picture of docs/SCALING.md anew from figures.json: report.py [--check]

A table stands between `<!-- NAME -->` and `<!-- end -->`. With --check nothing is written, and the status is 1 if a table or the
picture doesn't show the figures. Only drawing needs matplotlib (Debian's python3-matplotlib).
"""
from __future__ import annotations

import pathlib
import re
import sys
from typing import Iterator

import costs
import figures as kept
from plots import Curve, Panel, differing, draw, short

HERE = pathlib.Path(__file__).resolve().parent
DOCS = HERE.parents[1] / "docs"
PAGE, PICTURE = DOCS / "SCALING.md", DOCS / "scaling-measured.svg"
# Objects of which the bytes a second are shown, in bytes.
LARGE = 4096
WAYS = {"agents": "agents", "plain": "plain Python"}


def rates(rows: list[dict], way: str, length: int, turns: int) -> list[tuple[float, float]]:
    """(agents, jobs a second) of a kind of job."""
    return [(row["agents"], row["jobs"] / row["seconds"]) for row in rows if (row["way"], row["length"], row["turns"]) == (way, length, turns)]


def kinds(rows: list[dict]) -> list[tuple[int, int]]:
    """The kinds of jobs, as (length, turns) in the order in which they were measured."""
    return list(dict.fromkeys((row["length"], row["turns"]) for row in rows))


def table(head: list[str], lines: list[list[str]]) -> str:
    """A table of Markdown, of which all columns but the first are numbers."""
    ruler = ["---", *["---:"] * (len(head) - 1)]
    return "\n".join("| " + " | ".join(line) + " |" for line in [head, ruler, *lines])


def throughput(rows: list[dict]) -> str:
    """Jobs a second by workers, of agents and of plain Python; also MB a second, for as many workers as do most."""
    agents = list(dict.fromkeys(row["agents"] for row in rows))
    lines = []
    for length, turns in kinds(rows):
        both = [dict(rates(rows, way, length, turns)) for way in WAYS]
        cells = [f"{short(both[0][count])}/{short(both[1][count])}" for count in agents]
        best = [short(max(rate.values()) * length / 1e6) for rate in both]
        lines.append([f"{length:,}", f"{costs.instructions_of(turns):,}", *cells, "/".join(best) if length >= LARGE else ""])
    return table(["Bytes", "Instructions", *[f"{count} worker{'s' * (count > 1)}" for count in agents], "MB/s at most"], lines)


def examples(figures: dict) -> str:
    """The examples, line by line."""
    lines = []
    for it in figures["words"]:
        what = (
            f", {it['killed']} workers killed"
            if it["killed"]
            else f", a node killed, its replica takes over after {it['takeover']:.1f} s"
            if it["takeover"]
            else ""
        )
        lines.append(
            [
                f"words, {WAYS[it['way']]}{what}",
                f"{it['objects']:,}",
                f"{it['seconds']:.1f}",
                f"{it['objects'] / it['seconds']:.0f}",
                f"{it['objects'] * it['length'] / it['seconds'] / 1e6:.1f}",
            ]
        )
    for it in figures["transfers"]:
        what = f", {it['killed']} workers killed" if it["killed"] else ""
        lines.append([f"transfers, agents{what}", f"{it['jobs']:,}", f"{it['seconds']:.1f}", f"{it['jobs'] / it['seconds']:.0f}", ""])
    return table(["Example", "Jobs", "Seconds", "Jobs/s", "MB/s"], lines)


def facts(figures: dict) -> str:
    """What was measured on what, and what a lost worker costs."""
    parts, gone = figures["parts"].values(), figures["lost"]
    programs = dict.fromkeys(part["program"] for part in parts)
    machines = dict.fromkeys(f"{part['machine']['processors']} processors ({part['machine']['model']})" for part in parts)
    loads = sorted(part["machine"]["load"] for part in parts)
    load = f"{loads[0]}" if loads[0] == loads[-1] else f"{loads[0]} to {loads[-1]}"
    rough = " So the figures are rough." if loads[-1] > figures["processors"] / 2 else ""
    return (
        f"Measured on {' and '.join(programs)}, on {' and '.join(machines)}, while other work kept {load} of them busy.{rough}\n"
        f"A lost worker costs {gone['worker_seconds']:.1f} worker-seconds, by the times of {gone['jobs']:,} jobs over {gone['killed']} deaths."
    )


def measured(rows: list[dict]) -> list[Panel]:
    """The diagrams of jobs and bytes by agents."""
    agents = [float(it) for it in dict.fromkeys(row["agents"] for row in rows)]
    short_one, *_ = kinds(rows)
    long_one = max(kinds(rows), key=lambda kind: kind[1] if kind[1] < 100_000 else 0)
    jobs = [
        Curve(f"{costs.instructions_of(turns):,} instructions, {name}", rates(rows, way, length, turns))
        for length, turns in (short_one, long_one)
        for way, name in WAYS.items()
    ]
    sizes = sorted(length for length, _ in kinds(rows))
    sizes = [sizes[-1], sizes[-3]]
    moved = [
        Curve(f"{length:,} bytes, {name}", [(count, rate * length / 1e6) for count, rate in rates(rows, way, length, short_one[1])])
        for length in sizes
        for way, name in WAYS.items()
    ]
    return [Panel("jobs a second", "workers", jobs, agents), Panel("MB a second", "workers", moved, agents)]


def page(figures: dict) -> str:
    """The page as the figures make it."""
    text = PAGE.read_text()
    blocks = {"throughput": throughput(figures["rows"]), "examples": examples(figures), "facts": facts(figures)}
    for name, content in blocks.items():
        text, count = re.subn(rf"(<!-- {name} -->\n).*?(\n<!-- end -->)", lambda found: found[1] + content + found[2], text, flags=re.S)
        if count != 1:
            raise SystemExit(f"{PAGE} has {count} places for {name}")
    return text


def wrong(figures: dict) -> Iterator[str]:
    """What of the figures page and picture don't show."""
    if PAGE.read_text() != page(figures):
        yield f"{PAGE.name} hasn't the tables that the figures make"
    yield from differing(measured(figures["rows"]), PICTURE)


def main() -> None:
    if sys.argv[1:] not in ([], ["--check"]):
        print(__doc__, file=sys.stderr)
        sys.exit(2)
    try:
        figures = kept.load()
    except (OSError, ValueError, KeyError, TypeError) as why:
        sys.exit(f"{kept.FIGURES}: {why}")
    if sys.argv[1:]:
        if found := list(wrong(figures)):
            sys.exit("\n".join([*found, "run report.py"]))
        return
    draw(measured(figures["rows"]), PICTURE)
    PAGE.write_text(page(figures))


if __name__ == "__main__":
    main()

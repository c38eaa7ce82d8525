#!/usr/bin/env python3
"""Draws eleven of the rows of bench/figures.json as bars, in one picture: docs/performance.svg. It needs matplotlib (Debian's python3-matplotlib)."""
from __future__ import annotations

import math
import sys
from pathlib import Path
from typing import Iterator

from rows import Row, load_figures, words

ROOT = Path(__file__).resolve().parents[1]
sys.path.append(str(ROOT / "examples/scaling"))
from plots import CLOSE, Picture, blank, name_of, save

PICTURE = ROOT / "docs/performance.svg"
# The rows that are drawn, by part and name, and what stands beside each.
SHOWN = {
    ("step", "mean of the five"): "a step, mean of five programs",
    ("run", "mean of the five"): "a run of many steps, mean of five programs",
    ("run beside threaded C", "mean of the five"): "the same beside threaded C",
    ("run", "loads"): "a run of loads",
    ("run", "atomic operations"): "a run of atomic operations",
    ("worker", "mixed"): "a worker, mixed instructions",
    ("shared object", "a shared load"): "a load from a shared object",
    ("line", "step"): "a step line of run",
    ("line", "ship of 4096 slots"): "a ship line of 4,096 slots",
    ("replies", "pipelined replies, 1 clients"): "a reply of serve to a get, pipelined",
    ("far store", "put of 65536 bytes"): "a put of 65,536 bytes to a far store",
}

# Inches, how high a bar is of a row, and how far apart the ticks are.
WIDE, HIGH, THICK, TICK = 9.0, 5.0, 0.36, 0.5
# What the bars of a row are, each with its colour.
KINDS = {"time": "#1b6ca8", "machine instructions": "#8e9aa6"}
TITLE = "ours divided by the same in C (a ratio: 1 is equal, less is better)"


def drawn_rows(rows: list[Row]) -> dict[str, Row]:
    """The rows of the picture by what stands beside them, as far as they were measured."""
    known = {(row.part, row.name): row for row in rows if row.ratio is not None or row.counts is not None}
    return {label: known[place] for place, label in SHOWN.items() if place in known}


def ratios(rows: dict[str, Row], kind: str) -> dict[str, float]:
    """The bars of a kind by what stands beside them: of time, or of machine instructions."""
    both = {label: row.ratio if kind == "time" else row.counts for label, row in rows.items()}
    return {label: ratio for label, ratio in both.items() if ratio is not None}


def longest(rows: dict[str, Row]) -> float:
    """The number at the right end: that of a tick."""
    return max([1.0, *(math.ceil(ratio / TICK) * TICK for kind in KINDS for ratio in ratios(rows, kind).values())])


def draw(rows: list[Row], path: Path = PICTURE) -> None:
    """Writes the picture: the rows from above, of each its bars, and behind a bar its number."""
    shown = drawn_rows(rows)
    figure = blank(WIDE, HIGH)
    axes = figure.subplots()
    axes.set(xlim=(0, longest(shown)), ylim=(len(shown) - 0.5, -0.5), xlabel=TITLE)
    axes.set_xticks([count * TICK for count in range(round(longest(shown) / TICK) + 1)])
    axes.set_yticks(range(len(shown)), list(shown))
    axes.tick_params(axis="y", length=0)
    axes.spines[["top", "right"]].set_visible(False)
    axes.patch.set_gid("frame")
    axes.axvline(1, color="#c0392b", linestyle="--", linewidth=1)
    places = {label: place for place, label in enumerate(shown)}
    for number, (kind, colour) in enumerate(KINDS.items()):
        bars = ratios(shown, kind)
        drawn = axes.barh([places[label] + (number - 0.5) * THICK for label in bars], list(bars.values()), THICK, color=colour, label=kind)
        white = {"facecolor": "white", "edgecolor": "none", "pad": 0.5}
        texts = axes.bar_label(drawn, fmt="%.2f", padding=3, fontsize=8, bbox=white)
        for label, bar, text in zip(bars, drawn, texts):
            bar.set_gid(name_of(kind, label))
            text.set_gid(name_of("number", kind, label))
    axes.legend(loc="lower left", bbox_to_anchor=(0, 1), ncol=len(KINDS), frameon=False)
    save(figure, path)


def differing(rows: list[Row], path: Path = PICTURE) -> Iterator[str]:
    """What of the rows the picture doesn't show, by the length of a bar or by its number."""
    shown, picture = drawn_rows(rows), Picture(path)
    yield from (f"{path.name} has no {text!r}" for text in (TITLE, *KINDS, *shown) if text not in picture.texts)
    for kind in KINDS:
        for label, ratio in ratios(shown, kind).items():
            length = max((across for across, _ in picture.shares("frame", name_of(kind, label))), default=0.0) * longest(shown)
            number = picture.text(name_of("number", kind, label))
            if not math.isclose(length, ratio, rel_tol=CLOSE) or number != f"{ratio:.2f}":
                yield f"{path.name} shows {kind} of {label} by a bar of {length:.3f} and {number!r}, and not as {ratio:.3f}"


if __name__ == "__main__":
    words("bars.py", 0, 0)
    draw(load_figures())

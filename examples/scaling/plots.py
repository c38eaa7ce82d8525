"""Diagrams with logarithmic axes, side by side, as SVG: drawn by matplotlib, and read again by the standard library alone."""
from __future__ import annotations

import math
import os
import re
import sys
from dataclasses import dataclass
from pathlib import Path
from typing import Any, Iterator, Sequence
from xml.etree import ElementTree

# The Python that has what apt-get installs.
DEBIAN = "/usr/bin/python3"
SVG = "{http://www.w3.org/2000/svg}"
COLOURS = ["#1b6ca8", "#c0392b", "#2e8b57", "#8e44ad", "#b9770e", "#566573"]
DASHES: list[Any] = ["solid", (0, (5, 2)), (0, (1, 1.5)), (0, (6, 2, 1, 2)), (0, (9, 3)), (0, (3, 1.5))]
# Text stays text, and the same version of matplotlib draws the same bytes.
STYLE = {
    "svg.fonttype": "none",
    "svg.hashsalt": "bpfagent",
    "font.sans-serif": ["DejaVu Sans", "Verdana"],
    "axes.axisbelow": True,
    "grid.color": "#dddddd",
}
# Inches of each diagram, and the share of its width that is free beside its first and last points.
WIDE, HIGH, FREE = 5.0, 4.4, 0.04
# How far a number that is read from a picture may be off: its places have six digits.
CLOSE = 1e-4


@dataclass(frozen=True)
class Curve:
    """Points with a name."""

    name: str
    points: list[tuple[float, float]]


@dataclass(frozen=True)
class Panel:
    """A diagram: what its numbers up and across are, with their units, its curves, and the numbers across that are written."""

    up: str
    across: str
    curves: list[Curve]
    marks: list[float]

    def limits(self) -> tuple[tuple[float, float], tuple[float, float]]:
        """The least and the greatest number, across and up. Up they are powers of ten."""
        places, rates = zip(*(point for curve in self.curves for point in curve.points))
        free = (max(places) / min(places)) ** FREE
        return (min(places) / free, max(places) * free), (10 ** math.floor(math.log10(min(rates))), 10 ** math.ceil(math.log10(max(rates))))


def short(number: float) -> str:
    """Two digits, with k or M."""
    for unit, name in ((1e6, "M"), (1e3, "k")):
        if number >= unit * 0.995:
            return f"{number / unit:.2g}{name}" if number < 99.5 * unit else f"{number / unit:.0f}{name}"
    return f"{number:.2g}" if number < 99.5 else f"{number:.0f}"


def name_of(*words: object) -> str:
    """The name of a group of a picture."""
    return re.sub(r"\W+", "-", " ".join(map(str, words)))


def blank(wide: float, high: float) -> Any:
    """An empty figure of matplotlib. If this Python has no matplotlib, Debian's runs the script. If that has none, a line says so and ends it."""
    try:
        import matplotlib
        from matplotlib.figure import Figure
    except ImportError:
        if os.path.realpath(sys.executable) != os.path.realpath(DEBIAN) and os.access(DEBIAN, os.X_OK):
            os.execv(DEBIAN, [DEBIAN, *sys.argv])
        sys.exit(f"{Path(sys.argv[0]).name}: this needs matplotlib: apt-get install python3-matplotlib")
    matplotlib.rcdefaults()
    matplotlib.rcParams.update(STYLE)
    return Figure(figsize=(wide, high), layout="constrained")


def save(figure: Any, path: Path) -> None:
    """Writes a figure, without the date."""
    figure.savefig(path, format="svg", metadata={"Creator": None, "Date": None})


def draw(panels: Sequence[Panel], path: Path) -> None:
    """Writes diagrams side by side."""
    figure = blank(WIDE * len(panels), HIGH)
    for number, (panel, axes) in enumerate(zip(panels, figure.subplots(1, len(panels), squeeze=False)[0])):
        across, up = panel.limits()
        axes.set(xscale="log", yscale="log", xlim=across, ylim=up, xlabel=panel.across, ylabel=panel.up)
        axes.set_xticks(panel.marks, [f"{mark:g}" for mark in panel.marks])
        axes.set_xticks([], minor=True)
        ticks = [digit * 10**power for power in range(round(math.log10(up[0])), round(math.log10(up[1]))) for digit in (1, 2, 5)] + [up[1]]
        axes.set_yticks(ticks, [short(tick) for tick in ticks])
        axes.set_yticks([], minor=True)
        axes.grid()
        axes.patch.set_gid(name_of("frame", number))
        for curve, colour, dash in zip(panel.curves, COLOURS, DASHES):
            axes.plot(*zip(*curve.points), color=colour, linestyle=dash, marker="o", markersize=4, label=curve.name, gid=name_of("curve", number, curve.name))
        axes.legend(loc="upper center", bbox_to_anchor=(0.5, -0.14), frameon=False, handlelength=4)
    save(figure, path)


class Picture:
    """What a picture shows, by the names of its groups. Where there is no such picture, a line says so and ends the script."""

    def __init__(self, path: Path) -> None:
        try:
            self._root = ElementTree.parse(path).getroot()
        except (OSError, ElementTree.ParseError) as why:
            sys.exit(f"{path}: {why}")
        self.texts = [text.text for text in self._root.iter(f"{SVG}text")]

    def text(self, name: str) -> str:
        """The text of a group."""
        return "".join(text for group in self._root.findall(f".//{SVG}g[@id='{name}']") for text in group.itertext()).strip()

    def points(self, name: str) -> list[tuple[float, float]]:
        """The corners of a line or a box."""
        drawn = "".join(path.get("d", "") for path in self._root.findall(f".//{SVG}g[@id='{name}']/{SVG}path"))
        return [(float(x), float(y)) for x, y in re.findall(r"[ML] ([-\d.]+) ([-\d.]+)", drawn)]

    def shares(self, frame: str, name: str) -> list[tuple[float, float]]:
        """The corners as shares of a frame's width, from its left, and of its height, from its foot."""
        corners = self.points(frame) or [(0.0, 0.0), (1.0, 1.0)]
        (left, top), (right, foot) = min(corners), max(corners)
        return [((x - left) / (right - left), (foot - y) / (foot - top)) for x, y in self.points(name)]


def between(limits: tuple[float, float], share: float) -> float:
    """The number at this share of a logarithmic axis."""
    return limits[0] * math.pow(limits[1] / limits[0], share)


def told(points: Sequence[tuple[float, float]]) -> str:
    """Points in words."""
    return ", ".join(f"{rate:g} at {place:g}" for place, rate in points) or "nothing"


def differing(panels: Sequence[Panel], path: Path) -> Iterator[str]:
    """What of these diagrams a picture doesn't show."""
    picture = Picture(path)
    for number, panel in enumerate(panels):
        across, up = panel.limits()
        yield from (f"{path.name} has no {text!r}" for text in (panel.across, panel.up, *(it.name for it in panel.curves)) if text not in picture.texts)
        for curve in panel.curves:
            shares = picture.shares(name_of("frame", number), name_of("curve", number, curve.name))
            found = [(between(across, x), between(up, y)) for x, y in shares]
            pairs = [pair for one, other in zip(found, curve.points) for pair in zip(one, other)]
            if len(found) != len(curve.points) or not all(math.isclose(*pair, rel_tol=CLOSE) for pair in pairs):
                yield f"{path.name} shows {curve.name} as {told(found)}, and not as {told(curve.points)}"

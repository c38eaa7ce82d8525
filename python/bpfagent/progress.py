"""How far a run is: one line on a terminal, which is written again and again. Nowhere else anything is shown."""
from __future__ import annotations

import shutil
import sys
import time
from typing import Callable, Optional

from .replies import Registers

# From when on a run is long, and how often the line is written then, in seconds.
LATE, EACH = 0.5, 0.2
# Goes to the line's beginning, and clears what stands behind.
BEGIN, CLEAR = "\r", "\x1b[K"


class Progress:
    """Hears how far a machine is, by its registers."""

    def __init__(self, fuel: int, place: Callable[[int], str]) -> None:
        """`place` gives the source line of a slot as it is shown, or an empty text."""
        self._fuel, self._place = fuel, place
        self._is_shown = bool(sys.stderr) and sys.stderr.isatty()
        self._start = time.monotonic()
        self._due, self._has_line = self._start + LATE, False
        self._last: Optional[Registers] = None

    def __call__(self, registers: Registers) -> None:
        """The machine is there now."""
        self._last = registers
        if self._is_shown and time.monotonic() >= self._due:
            self._write(f"{self._text(registers)}, {self._speed(registers)}, {self._at(registers)}")
            self._due = time.monotonic() + EACH

    def _write(self, text: str) -> None:
        """Shows a text in place of the last."""
        width = shutil.get_terminal_size().columns - 1
        # An interrupt may come before the line is written whole.
        self._has_line = True
        print(f"{BEGIN}{text[:width]}{CLEAR}", end="", file=sys.stderr, flush=True)
        self._has_line = bool(text)

    def _text(self, registers: Registers) -> str:
        """How many instructions were done."""
        done = self._fuel - registers.fuel
        share = 100 * done / max(self._fuel, 1)
        return f"{done:,} instructions, {f'{share:.3g}' if share >= 0.1 else '<0.1'} % of the fuel"

    def _speed(self, registers: Registers) -> str:
        """How many instructions are done in a second."""
        return f"{(self._fuel - registers.fuel) / (time.monotonic() - self._start) / 1e6:,.3g} million/s"

    def _at(self, registers: Registers) -> str:
        """Where the machine is."""
        return f"at {self._place(registers.slot) or f'slot {registers.slot}'}"

    def end(self) -> None:
        """The run has ended: no line stays."""
        if self._has_line:
            self._write("")

    def interrupted(self, advice: str) -> None:
        """An interrupt has ended the run: says on a terminal where it was, and what to do."""
        self.end()
        if self._is_shown:
            where = f" after {self._text(self._last)}, {self._at(self._last)}" if self._last else ""
            print(f"interrupted{where}\n{advice}", file=sys.stderr, flush=True)

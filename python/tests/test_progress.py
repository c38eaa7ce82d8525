"""How far a run is: what one line on a terminal says and when, and what an interrupt leaves there."""
from __future__ import annotations

import io
import unittest
from unittest import mock

from bpfagent import progress
from bpfagent.replies import Registers

# The fuel of a run, and the columns of its terminal.
FUEL, WIDTH = 10_000_000, 200
SOURCE = "sum.c:7: total += n;"


class Terminal(io.StringIO):
    """Standard error, which is a terminal or a file."""

    def __init__(self, is_terminal: bool = True) -> None:
        super().__init__()
        self._is_terminal = is_terminal

    def isatty(self) -> bool:
        return self._is_terminal


class Lines(unittest.TestCase):
    """By a clock of its own, so that a busy machine changes nothing."""

    def setUp(self) -> None:
        self.now = 100.0
        self.with_terminal(Terminal())
        self.patch("bpfagent.progress.time.monotonic", lambda: self.now)
        self.patch("bpfagent.progress.shutil.get_terminal_size", lambda: mock.Mock(columns=WIDTH))

    def patch(self, name: str, value: object) -> None:
        """Has this value there until the test ends."""
        patched = mock.patch(name, value)
        patched.start()
        self.addCleanup(patched.stop)

    def with_terminal(self, made: Terminal) -> None:
        """Has this as standard error."""
        self.terminal = made
        self.patch("sys.stderr", made)

    def begun(self) -> progress.Progress:
        """A run whose slot 3 has a source line."""
        return progress.Progress(FUEL, lambda slot: SOURCE if slot == 3 else "")

    def seen(self, run: progress.Progress, now: float, done: int, slot: int = 3) -> str:
        """What is written when a run has done so much at this time."""
        self.now, before = 100.0 + now, self.terminal.tell()
        run(Registers(1, slot, FUEL - done, "run", (0,) * 11))
        return self.terminal.getvalue()[before:]

    def test_line(self) -> None:
        """From half a second on, five times a second: instructions, share of the fuel, speed, and place."""
        run = self.begun()
        self.assertEqual(self.seen(run, 0.49, 1_000_000), "")
        self.assertEqual(self.seen(run, 0.5, 1_500_000), f"\r1,500,000 instructions, 15 % of the fuel, 3 million/s, at {SOURCE}\x1b[K")
        self.assertEqual(self.seen(run, 0.69, 1_600_000), "")
        self.assertEqual(self.seen(run, 0.8, 2_000_000, 4), "\r2,000,000 instructions, 20 % of the fuel, 2.5 million/s, at slot 4\x1b[K")
        run.end()
        self.assertTrue(self.terminal.getvalue().endswith("\r\x1b[K"), "a line that stays")

    def test_shares(self) -> None:
        """A small share, and a line that is wider than the terminal."""
        self.assertIn("5,000 instructions, <0.1 % of the fuel", self.seen(self.begun(), 0.5, 5_000))
        with mock.patch(f"{__name__}.WIDTH", 21):
            self.assertEqual(self.seen(self.begun(), 9.0, 5_000), "\r5,000 instructions, \x1b[K")

    def test_short(self) -> None:
        """A short run shows nothing, not even at its end."""
        run = self.begun()
        self.seen(run, 0.2, 1_000_000)
        run.end()
        self.assertEqual(self.terminal.getvalue(), "")

    def test_interrupted(self) -> None:
        """An interrupt leaves where the run was, and what to do, in place of the line."""
        run = self.begun()
        self.seen(run, 0.6, 1_000_000)
        before = self.terminal.tell()
        run.interrupted("advice")
        self.assertEqual(self.terminal.getvalue()[before:], f"\r\x1b[Kinterrupted after 1,000,000 instructions, 10 % of the fuel, at {SOURCE}\nadvice\n")
        self.with_terminal(Terminal())
        self.begun().interrupted("advice")
        self.assertEqual(self.terminal.getvalue(), "interrupted\nadvice\n", "before anything was done")

    def test_pipe(self) -> None:
        """Where standard error is no terminal nothing is ever written."""
        self.with_terminal(Terminal(is_terminal=False))
        run = self.begun()
        self.assertEqual(self.seen(run, 60.0, 1_000_000), "")
        run.end()
        run.interrupted("advice")
        self.assertEqual(self.terminal.getvalue(), "")


if __name__ == "__main__":
    unittest.main()

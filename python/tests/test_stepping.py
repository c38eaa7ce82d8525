"""Steps by inlined frames, breakpoints on loops, watched locals, and what a terminal shows: sessions in this process."""
from __future__ import annotations

import contextlib
import io
import pathlib
import unittest
from typing import Iterator, Sequence
from unittest import mock

from bpfagent import Agent
from bpfagent.debug.ending import Ending
from bpfagent.debug.expressions import Value
from bpfagent.debug.frames import Frame
from bpfagent.debug.session import Plan, Session
from bpfagent.debug.terminal import Terminal
from bpfagent.library import library_if_there
from bpfagent.line_engine import LineEngine
from support import TABLE, folder_of, needs_debugger

STEPPING = pathlib.Path(__file__).resolve().parent / "stepping"
NESTED, LOOPS, LOOPED, RECURSION = (str(STEPPING / f"{name}.c") for name in ("nested", "loops", "looped", "recursion"))
# Its function is inlined in twenty places, more than a machine has breakpoints.
MANY = """#include "native.h"
INLINED void more(volatile uint64_t *cell)
{
    *cell += 1;
}
uint64_t program(uint64_t n)
{
    volatile uint64_t cell = n;
    %s
    return cell;
}
""" % "\n    ".join(["more(&cell);"] * 20)
LOCALS = """#include "bpfagent.h"
CALLED uint64_t kept(volatile uint64_t *cell)
{
    volatile uint64_t local = *cell;
    local += 1;
    local = local;
    *cell += local;
    return local;
}
uint64_t program(volatile uint64_t *cell)
{
    uint64_t sum = kept(cell);
    *cell = *cell;
    sum += kept(cell);
    return sum;
}
"""
LONG = """#include "native.h"
uint64_t program(uint64_t n)
{
    volatile uint64_t cell = 0;
    while (n--)
        cell += n;
    return cell;
}
"""
# What commands show where key is 8.
SHOWN = {
    "p/x key": "key = 0x8",
    "p/d -1": "-1 = -1",
    "p/u -1": f"-1 = {2**64 - 1}",
    "p/o key": "key = 010",
    "p/t key": "key = 1000",
    "p/c 65": "65 = 'A'",
    "print/x table->pairs[0]": "table->pairs[0] = {key = 0x7, value = 0x28}",
    "p/q 1": "/q is no form of a value: there are /x, /d, /u, /o, /t, /c",
    "display nothing": "nothing is called nothing there",
    "undisplay 7": "there is no display 7",
    "list 3,2": "list takes the first line and then the last",
    "run 7": "run takes no arguments: those of the program are given when the debugger starts",
}


@needs_debugger
class Sessions(unittest.TestCase):
    """What a person types, and what is shown."""

    def setUp(self) -> None:
        self.folder = folder_of(self)

    def source(self, text: str) -> str:
        """The path of a C file of this text."""
        path = self.folder / "program.c"
        path.write_text(text)
        (self.folder / "native.h").write_text((STEPPING / "native.h").read_text())
        return str(path)

    @contextlib.contextmanager
    def terminal(self, plan: Plan) -> Iterator[Terminal]:
        """The debugger's command line over a program."""
        with Session(plan, lambda: None) as session, mock.patch("sys.stdin", io.StringIO()):
            yield Terminal(session.engine, Ending())

    def ask(self, terminal: Terminal, *commands: str) -> list[str]:
        """The lines that the last of these commands shows."""
        for command in commands:
            shown = io.StringIO()
            with contextlib.redirect_stdout(shown):
                terminal.onecmd(command)
        return shown.getvalue().splitlines()

    def places(self, terminal: Terminal, commands: Sequence[str]) -> list[str]:
        """Where each of these commands stops, as function and line; how it ends."""
        found = []
        for command in commands:
            shown = self.ask(terminal, command)
            found.append(next((f"{line.split(' at ')[0]}:{line.rpartition(':')[2]}" for line in shown if ".c:" in line), shown[0]))
        return found

    def test_inlined(self) -> None:
        """A step enters a function that clang inlined, `next` passes it, and `finish` comes out of it behind its call."""
        with self.terminal(Plan(NESTED, ["3"], flags=["-O2"])) as terminal:
            self.ask(terminal, "break program", "continue")
            found = self.places(terminal, ["next", "step", "step", "step", "finish", "finish"])
            self.assertEqual(found, ["program:23", "outer:10", "outer:11", "inner:4", "outer:12", "program:24"])
            self.assertEqual(self.places(terminal, ["step", "step", "step"]), ["other:17", "other:18", "outer:10"])
            frames = [line.split(",")[0].split("/")[-1] for line in self.ask(terminal, "backtrace")]
            self.assertEqual(frames, ["nested.c:10", "nested.c:18", "nested.c:24"])
            self.assertEqual(self.ask(terminal, "up", "finish")[0], "machine 1: other returned 91")
        with self.terminal(Plan(NESTED, ["3"], flags=["-O2"])) as terminal:
            self.ask(terminal, "break inner", "continue")
            self.assertEqual([line.split()[1 if line[0] == " " else 2] for line in self.ask(terminal, "backtrace")], ["inner", "outer", "program"])
            self.assertEqual(self.ask(terminal, "up", "finish")[0], "machine 1: outer returned")

    def test_loops(self) -> None:
        """`next` passes an inlined loop, `until` comes out of one, and a breakpoint on a loop's line stops at each turn."""
        with self.terminal(Plan(LOOPED, ["3"], flags=["-O2"])) as terminal:
            self.ask(terminal, "break program", "continue")
            self.assertEqual(self.places(terminal, ["next", "next", "next"])[:2], ["program:12", "program:13"])
        for level in ("-O0", "-O1", "-O2"):
            with self.terminal(Plan(LOOPS, ["3"], flags=[level])) as terminal:
                self.ask(terminal, "break 5")
                shown = [self.ask(terminal, "continue")[0] for _ in range(5)]
                self.assertEqual(shown, ["machine 1, breakpoint 1"] * 4 + ["machine 1 ended: exit 000000000000001e (30)"], level)
        with self.terminal(Plan(LOOPS, ["3"])) as terminal:
            self.ask(terminal, "break 9")
            shown = [self.ask(terminal, "continue")[0] for _ in range(5)]
            self.assertEqual(shown, ["machine 1, breakpoint 1"] * 4 + ["machine 1 ended: exit 000000000000001e (30)"])
            self.ask(terminal, "delete", "tbreak 6")
            self.assertEqual(self.places(terminal, ["run", "until", "until", "until"]), ["program:6", "program:7", "program:5", "program:9"])

    def test_long(self) -> None:
        """A step over a loop on one line goes at the machine's speed, over the library as over a service of its own."""
        with self.terminal(Plan(self.source(LONG), ["3000"], fuel=10**6, machines=2)) as terminal:
            self.assertIsInstance(terminal.engine.agent, LineEngine if library_if_there() else Agent)
            self.ask(terminal, "break 5", "continue", "delete", "next")
            self.assertEqual(self.places(terminal, ["until", "until"])[-1], "program:7")
            self.assertEqual(self.ask(terminal, "print n", "continue"), ["machine 1 ended: exit 000000000044a444 (4498500)"])
            self.assertEqual(self.ask(terminal, "info machines")[1][:22], "  machine 2: standing,")
            self.assertEqual(self.ask(terminal, "run"), ["machine 1 ended: exit 000000000044a444 (4498500)"])

    def test_many(self) -> None:
        """A breakpoint with more places than a machine has takes those that it can, and says which it lacks."""
        with self.terminal(Plan(self.source(MANY), ["3"], flags=["-O2"])) as terminal:
            self.assertRegex(self.ask(terminal, "break more")[0], r"slots (\d+, ){15}\d+, not set at slots \d+, \d+, \d+, \d+: a machine has 16 breakpoints$")
            shown = [self.ask(terminal, "continue")[0] for _ in range(17)]
            self.assertEqual(shown, ["machine 1, breakpoint 1"] * 16 + ["machine 1 ended: exit 0000000000000017 (23)"])
            self.assertEqual(self.ask(terminal, "break *0"), ["machine 1 has 16 breakpoints, and can have no more"])

    def watched(self, plan: Plan) -> None:
        """Which range was written, though the value is the same, and what becomes of one on a local."""
        with self.terminal(plan) as terminal:
            self.ask(terminal, "break 5", "continue", "watch local", "watch *cell", "delete 1")
            self.assertEqual(self.ask(terminal, "continue")[0], "machine 1, watchpoint 2: local: 4 -> 5")
            self.assertEqual(self.ask(terminal, "continue")[0], "machine 1, watchpoint 2: local: 5, written again")
            self.assertEqual(self.ask(terminal, "continue")[0], "machine 1, watchpoint 3: *cell: 4 -> 9")
            shown = self.ask(terminal, "continue")
            self.assertEqual((shown[0], shown[1][-12:]), ("watchpoint 2: local is gone with its frame", "program.c:12"))
            self.assertEqual([line.split(":")[0] for line in self.ask(terminal, "info watchpoints")], ["3"])
            self.assertEqual(self.ask(terminal, "continue")[0], "machine 1, watchpoint 3: *cell: 9, written again")
            self.assertEqual(self.ask(terminal, "delete", "continue"), ["machine 1 ended: exit 000000000000000f (15)"])

    def test_watched(self) -> None:
        """The same alone and in a service whose workers write."""
        path = self.source(LOCALS)
        data = self.folder / "data"
        data.write_bytes((4).to_bytes(8, "little"))
        for is_service in (False, True):
            self.watched(Plan(path, [f"@{data}"], serve=is_service))

    def test_shown(self) -> None:
        """Values in each form, expressions at each stop, lines by their numbers, texts to their end, and the program again."""
        with self.terminal(Plan(TABLE[0], TABLE[1:])) as terminal:
            self.ask(terminal, "break 16", "display/x key", "display i", "continue")
            self.assertEqual(self.ask(terminal, "continue")[-2:], ["1: key = 0x8", "2: i = 0"])
            self.assertEqual(self.ask(terminal, "undisplay 1", "info display"), ["2: i"])
            for command, shown in SHOWN.items():
                self.assertEqual(self.ask(terminal, command), [shown], command)
            self.assertEqual([line.split("\t")[0].strip(" >") for line in self.ask(terminal, "list 14,17")], ["14", "15", "16", "17"])
            self.assertEqual(self.ask(terminal, "list")[0].split("\t")[0].strip(), "18")
            self.ask(terminal, "set *(uint64_t *)0x100000008 = 0x0063626120796874", "delete")
            self.assertEqual(self.ask(terminal, "x/s 0x100000008"), ['object 1+8: "thy abc"'])
            self.assertEqual(self.ask(terminal, "watch table->count", "run")[0], "machine 1, watchpoint 2: table->count: 2 -> 1")
            self.assertEqual(self.ask(terminal, "continue"), ["machine 1 ended: exit 0000000000000028 (40)"])

    def test_recursion(self) -> None:
        """A condition is looked at in the frame of its breakpoint, and a frame further out can be finished."""
        with self.terminal(Plan(RECURSION, ["3"])) as terminal:
            self.assertEqual(self.ask(terminal, "break sum_to if n == 1", "continue")[0], "machine 1, breakpoint 1")
            self.assertEqual(self.ask(terminal, "print n"), ["n = 1"])
            self.assertEqual(self.ask(terminal, "delete", "finish")[0], "machine 1: sum_to returned 5")

    @contextlib.contextmanager
    def evaluated(self, terminal: Terminal) -> Iterator[list[str]]:
        """The expressions that the engine evaluates meanwhile."""
        found, evaluate = list[str](), terminal.engine.evaluate

        def noted(text: str, frame: Frame) -> Value:
            found.append(text)
            return evaluate(text, frame)

        with mock.patch.object(terminal.engine, "evaluate", noted):
            yield found

    def test_asked(self) -> None:
        """A condition is evaluated where its own breakpoint is hit, once for each hit, and nowhere else."""
        with self.terminal(Plan(LOOPS, ["3"])) as terminal:
            self.ask(terminal, "break 6 if n == 2", "break 10")
            with self.evaluated(terminal) as asked:
                self.assertEqual(self.places(terminal, ["continue", "next", "next", "next"]), ["program:6", "program:7", "program:5", "program:6"])
                # n was 3, 2 and 1: the steps came to the line once more.
                self.assertEqual(asked, ["n == 2"] * 3)
                shown = [self.ask(terminal, "continue")[0] for _ in range(4)]
                self.assertEqual(shown, ["machine 1, breakpoint 2"] * 3 + ["machine 1 ended: exit 000000000000001e (30)"])
                self.assertEqual(asked, ["n == 2"] * 3)
        with self.terminal(Plan(RECURSION, ["3"])) as terminal:
            program = terminal.engine.machine(1).program
            assert program and program.symbols
            (outer,) = (site for site, target in program.calls.items() if program.symbols.function_at(site) != program.symbols.function_at(target))
            self.ask(terminal, "break 14", "continue", f"break *{program.after(outer)} if n == 9")
            with self.evaluated(terminal) as asked:
                # The step ends the call there, and then goes on by instructions.
                self.assertEqual(self.places(terminal, ["next", "next", "next"])[-1], "program:15")
            self.assertEqual(asked, ["n == 9"])


if __name__ == "__main__":
    unittest.main()

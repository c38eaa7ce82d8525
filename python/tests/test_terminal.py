"""The debugger in a terminal: whole sessions by a pseudo-terminal, over `run` and over `serve`."""
from __future__ import annotations

import os
import pathlib
import signal
import subprocess
import tempfile
import time
import unittest
from typing import Callable, Optional

import bpfagent
import stand_in
from bpfagent import Service, patiently
from bpfagent.debug.main import main
from bpfagent.debug.terminal import SILENCE
from support import DEBUGGER, ENDLESS, PROGRAM, ROOT, SECONDS, SIGNALS, TABLE
from support import Pseudoterminal, changes, endless_service, folder_of, hang, heard, is_at_once, is_soon, needs_debugger, noting_program, program_of
from support import silent_program, stop, until_asked, until_gone, until_running, usage_of, with_signals

DEEP = """#include "bpfagent.h"
CALLED uint64_t sum(uint64_t n)
{
    if (n == 0)
        return 0;
    uint64_t rest = sum(n - 1);
    return rest + n;
}
uint64_t program(uint64_t n)
{
    return sum(n);
}
"""
TYPES = """#include "bpfagent.h"
enum colour { RED, GREEN = 5 };
union word { uint32_t whole; uint8_t bytes[4]; };
struct inner { int16_t small; char letter; };
struct all {
    enum colour colour; union word word; struct inner inner[2]; char name[8]; unsigned low : 3, high : 5; struct all *self; int64_t minus; const uint8_t *end;
};
uint64_t program(struct all *all)
{
    struct all copy = *all;
    uint8_t byte = copy.name[0];
    emit(byte);
    return copy.low + byte;
}
"""
# Expressions in a program of TYPES, and their values; those that have none, and why.
VALUES = {
    "all->colour": "GREEN",
    "all->word": "{whole = 67305985, bytes = {1, 2, 3, 4}}",
    "all->inner[0]": "{small = -2, letter = 97 'a'}",
    "copy.inner[1].small": "2",
    "all->name": '"name"',
    "all->low": "5",
    "copy.high": "21",
    "all->minus": "-7",
    "all->self": "(struct all *) 0x100000000 <object 1>",
    "all->self->self->minus + 8": "1",
    "all->end": "(const uint8_t *) 0x100000003 <object 1+3>",
    "*all->end": "0",
    "&all->minus": "(int64_t *) 0x100000028 <object 1+40>",
    "byte": "110",
    "*(uint32_t *)0x100000004": "67305985",
    "(uint8_t)0x1ff": "255",
    "2 + 3 * 4": "14",
    "-(7 - 9)": "2",
    "7 / 2 % 2": "1",
    "(uint64_t)-1 == -1": "1",
    "(uint64_t)0 > -1": "0",
    "(int64_t)0 > -1": "1",
    "byte > -1": "1",
    "all->end != -1": "1",
    "-7 / 2": "-3",
    "7 / -2": "-3",
    "-7 / -2": "3",
    "-7 % 2": "-1",
    "7 % -2": "1",
    "all->minus / 2": "-3",
    "$r10": str(0xFFFFFFFF00001000),
    "copy.name": '"name"',
    "(void *)all": "(void *) 0x100000000 <object 1>",
    "(byte) * 2": "220",
    "(byte * 2)": "220",
}
VALUELESS = {
    "nothing": "there is no variable nothing in program",
    "all->none": "struct all has no member none; it has colour, word, inner, name, low, high, self, minus, end",
    "1 +": "the expression ends too early",
    "byte->x": "this is no pointer, but uint8_t: cast it, as in *(uint64_t *)",
    "&(1 + 2)": "this value is in no memory, so it has no address",
    "*(uint64_t *)0x900000000": "there is no object 9, or it ends before offset 8",
    "*(uint64_t *)8": "0x8 is in no object",
    "1 / 0": "division by zero",
    "(struct nope *)5": "the program has no type struct nope",
    "*(nope_t *)all": "the program has no type nope_t",
    "(enum nope)1": "the program has no type enum nope",
    "(struct)1": "the program has no type struct",
    "(struct all * 5": "`)` is missing",
    "*(void *)all": "void has no size",
    "(void)1": "a cast to void isn't possible: cast a pointer",
    "all->": "the name of a member is missing",
    "all ; 1": "`; 1` is no expression",
    "$r11": "$r11 isn't shown by the protocol here: there are $r0 to $r10, $slot and $fuel",
}
# Those that have none by their types alone, so that no condition is made of them.
TYPELESS = ("all->none", "byte->x", "*(void *)all", "(struct nope *)5")


@needs_debugger
class Sessions(unittest.TestCase):
    """Sessions of a person with the debugger."""

    def setUp(self) -> None:
        self.folder = folder_of(self)

    def debugger(self, *arguments: str) -> Pseudoterminal:
        """The debugger in a terminal."""
        made = Pseudoterminal(*arguments, home=str(self.folder))
        self.addCleanup(made.__exit__, None, None, None)
        return made

    def source(self, text: str) -> str:
        """The path of a C file of this text."""
        path = self.folder / "program.c"
        path.write_text(text)
        return str(path)

    def session(self, terminal: Pseudoterminal, machine: int) -> None:
        """Break on a line, look at variables, step into a function, finish it, watch a value, and go on to the end."""
        at = "examples/debug/table.c"
        self.assertEqual(terminal.ask("break table.c:23"), [f"breakpoint 1 at {at}:23, slot 2"])
        self.assertEqual(terminal.ask("continue"), [f"machine {machine}, breakpoint 1", f"program at {at}:23", "23\t    uint64_t sum = find(table, key);"])
        self.assertEqual(terminal.ask("info locals"), ["table = (struct table *) 0x100000000 <object 1>", "key = 7", "sum = 0"])
        self.assertEqual(terminal.ask("step"), [f"find at {at}:15", "15\t    for (uint64_t i = 0; i < table->count; i++)"])
        self.assertEqual(terminal.ask("backtrace"), [f"* #0 find at {at}:15, slot 21", f"  #1 program at {at}:23, slot 4"])
        self.assertEqual(
            terminal.ask("print *table"),
            ["*table = {count = 2, pairs = {{key = 7, value = 40}, {key = 8, value = 2}, {key = 0, value = 0}, {key = 0, value = 0}}}"],
        )
        self.assertEqual(terminal.ask("print table->pairs[1]"), ["table->pairs[1] = {key = 8, value = 2}"])
        self.assertEqual(terminal.ask("next"), [f"find at {at}:16", "16\t        if (table->pairs[i].key == key)"])
        self.assertEqual(terminal.ask("finish"), [f"machine {machine}: find returned 40", f"program at {at}:23", "23\t    uint64_t sum = find(table, key);"])
        self.assertEqual(terminal.ask("watch table->count"), [f"watchpoint 2: table->count (machine {machine}, 8 bytes at object 1)"])
        self.assertEqual(
            terminal.ask("continue"), [f"machine {machine}, watchpoint 2: table->count: 2 -> 1", f"program at {at}:25", "25\t    sum += find(table, key + 1);"]
        )
        self.assertEqual(
            terminal.ask("x/16xb 0x100000000"), ["0x100000000 <object 1>: 0x01 0x00 0x00 0x00 0x00 0x00 0x00 0x00 0x07 0x00 0x00 0x00 0x28 0x00 0x00 0x00"]
        )
        self.assertEqual(terminal.ask("print sum"), ["sum = 40"])
        self.assertEqual(terminal.ask("continue"), [f"machine {machine} ended: exit 0000000000000028 (40)"])

    def test_run(self) -> None:
        """A whole session over `run`."""
        with self.debugger(*TABLE) as terminal:
            self.assertEqual(terminal.greeting, ["* machine 1: standing, program at examples/debug/table.c:22, fuel 1000000"])
            self.session(terminal, 1)
            self.assertEqual(terminal.ask("info scopes"), ["object 1: in no scope", "the protocol doesn't show which machine holds a scope"])
            self.assertEqual(terminal.close(), 0)

    def test_serve(self) -> None:
        """The same over `serve` with four workers and three machines, of which the second is followed; the others go on after."""
        with self.debugger("--serve", "--workers", "4", "--machines", "3", *TABLE) as terminal:
            self.assertEqual(
                terminal.greeting, [f"{'*' if k == 1 else ' '} machine {k}: paused, program at examples/debug/table.c:22, fuel 1000000" for k in (1, 2, 3)]
            )
            terminal.ask("machine 2")
            self.session(terminal, 2)
            self.assertIn("a service doesn't show scopes", terminal.ask("info scopes")[0])
            terminal.ask("delete")
            self.assertEqual(terminal.ask("machine 3"), ["* machine 3: paused, program at examples/debug/table.c:22, fuel 1000000"])
            self.assertEqual(terminal.ask("continue"), ["machine 3 ended: exit 0000000000000028 (40)"])
            self.assertEqual(terminal.ask("info machines")[0], "  machine 1: paused, program at examples/debug/table.c:22, fuel 1000000")
            self.assertEqual(terminal.close(), 0)

    def test_versions(self) -> None:
        """DWARF 5 and 4, and object files of clang by itself, tell the same; with the optimizer variables move, and are found or said to be gone."""
        shown = {}
        for version in ("-gdwarf-4", "-gdwarf-5"):
            for level in ("-O0", "-O2"):
                path = f"{self.folder}/table{version}{level}.o"
                flags = ["-target", "bpf", "-mcpu=v3", level, version, "-ffreestanding", f"-I{ROOT / 'python/bpfagent/include'}"]
                subprocess.run(["clang", *flags, "-c", "table.c", "-o", path], cwd=ROOT / "examples/debug", check=True, timeout=SECONDS)
                with self.debugger(path, *TABLE[1:]) as terminal:
                    commands = [
                        "break table.c:16",
                        "continue",
                        "backtrace",
                        "info locals",
                        "print *table",
                        "finish",
                        "info functions",
                        "disassemble program",
                        "delete",
                        "continue",
                    ]
                    shown[version, level] = [terminal.ask(command) for command in commands]
        for level in ("-O0", "-O2"):
            self.assertEqual(shown["-gdwarf-4", level], shown["-gdwarf-5", level])
            self.assertEqual(shown["-gdwarf-5", level][1][1:], ["find at examples/debug/table.c:16", "16\t        if (table->pairs[i].key == key)"])
            self.assertEqual(shown["-gdwarf-5", level][3], ["table = (const struct table *) 0x100000000 <object 1>", "key = 7", "i = 0"])
            self.assertEqual(shown["-gdwarf-5", level][-1], ["machine 1 ended: exit 0000000000000028 (40)"])
        self.assertIn("(inlined)", shown["-gdwarf-5", "-O2"][2][0])

    def test_attach(self) -> None:
        """A service that runs: its machine is recognized, paused, looked at, and goes on when the debugger has left."""
        with endless_service(pathlib.Path(self.source(ENDLESS))) as service:
            number = 1
            other = service.connect(SECONDS)
            with self.debugger("--connect", service.place, self.source(ENDLESS)) as terminal:
                self.assertRegex(terminal.greeting[0], r"^\* machine 1: running, ")
                self.assertEqual(terminal.ask("print last"), ["machine 1 is running: `pause` stops it"])
                self.assertRegex(terminal.ask("pause")[0], "^machine 1: pause$")
                before = patiently(other.get, number, 0, 8)
                time.sleep(0.05)
                self.assertEqual(patiently(other.get, number, 0, 8), before)
                self.assertEqual(terminal.ask("break more")[0].split(" at ")[0], "breakpoint 1")
                self.assertEqual(terminal.ask("continue")[0], "machine 1, breakpoint 1")
                self.assertEqual(terminal.ask("print *count"), [f"*count = {int.from_bytes(patiently(other.get, number, 0, 8), 'little')}"])
                self.assertRegex(terminal.ask("finish")[0], r"^machine 1: more returned \d+$")
                terminal.ask("delete")
                self.assertIn("machine 1: pause", terminal.interrupt("continue"))
                self.assertEqual(other.regs(1).state, "paused")
                self.assertEqual(terminal.close(), 0)
            self.assertTrue(changes(other, number), "the machine doesn't go on")
            self.assertIn(other.tell("one 1").split()[0], ("ran", "waiting"))

    def test_signals(self) -> None:
        """A signal that ends the debugger, as when its terminal is closed, leaves the machines of a service as `quit` does; also while a
        command waits."""
        at_once = ["break more", "continue"]
        never = ["break more if *count == 0", "continue"]
        with_signals(self)
        for number in SIGNALS:
            for commands in (at_once, never):
                with endless_service(pathlib.Path(self.source(ENDLESS))) as service:
                    other = service.connect(SECONDS)
                    with self.debugger("--connect", service.place, self.source(ENDLESS)) as terminal:
                        terminal.ask("pause")
                        terminal.ask(commands[0])
                        terminal.press(f"{commands[1]}\n")
                        if commands is at_once:
                            terminal.wait("breakpoint 1")
                            self.assertEqual(other.regs(1).state, "paused")
                        terminal.process.send_signal(number)
                        self.assertEqual(terminal.process.wait(SECONDS), 128 + number, commands)
                    self.assertEqual(other.regs(1).state, "run", commands)
                    self.assertEqual([other.tell(f"unbreak 1 {slot}") for slot in range(40)], ["noslot"] * 40, commands)

    def test_hung(self) -> None:
        """The debugger leaves a service that has hung, and says what may stay there. One that it started ends with it."""
        with_signals(self)
        for is_signal in (False, True):
            self.assertTrue(is_soon(self.left_hung, is_signal))
        ways: list[list[str]] = [[], ["--serve"]]
        for options in ways:
            self.assertTrue(is_soon(self.left_hung_program, options))

    def left_hung(self, is_signal: bool) -> float:
        """Leaves a service that has hung. Gives how long that takes."""
        wanted = "bpfagent-debug: the service doesn't answer, and may keep watchpoint 2, breakpoint 1, the pause of machine 1"
        path = self.source(ENDLESS)
        with endless_service(pathlib.Path(path)) as service, self.debugger("--connect", service.place, path) as terminal:
            terminal.ask("pause")
            terminal.ask("break more")
            terminal.ask("watch *(uint64_t *)0x100000000")
            terminal.ask("continue")
            hang(service)
            start = time.monotonic()
            if is_signal:
                terminal.press("info registers\n")
                until_asked(service.process)
                terminal.process.send_signal(signal.SIGTERM)
            else:
                terminal.press("quit\n")
            shown = terminal._until(lambda got: False)
            self.assertEqual(terminal.process.wait(SECONDS), 143 if is_signal else 1)
            took = time.monotonic() - start
            self.assertIn(wanted, shown.splitlines())
            service._process.send_signal(signal.SIGCONT)
            return took

    def left_hung_program(self, options: list[str]) -> float:
        """Leaves a program that the debugger started, and that has hung. Gives how long that takes."""
        note = self.folder / "number"
        program = noting_program(note.with_name("starts"), note)
        with self.debugger("--bpfagent", str(program), *options, self.source(ENDLESS), "+8") as terminal:
            stop(int(note.read_text()))
            start = time.monotonic()
            self.assertEqual(terminal.close(), 0)
            took = time.monotonic() - start
            until_gone(int(note.read_text()))
            return took

    def interrupted(self, terminal: Pseudoterminal, hung: int, said: str) -> float:
        """An interrupt while a reply is awaited that doesn't come: the debugger says so and ends. Gives how long that takes."""
        until_asked(hung)
        # The debugger gives up who has said nothing for so long.
        time.sleep(SILENCE)
        start = time.monotonic()
        terminal.press("\x03")
        shown = terminal._until(lambda got: False).splitlines()
        self.assertEqual((terminal.process.wait(SECONDS), shown[-1]), (1, f"bpfagent-debug: {said}"), shown)
        return time.monotonic() - start

    def interrupted_at_service(self, commands: list[str], before: str, after: str, kept: str) -> float:
        """The same of a service that hangs between what is typed before and what is typed after."""
        path = self.source(ENDLESS)
        with endless_service(pathlib.Path(path)) as service, self.debugger("--connect", service.place, path) as terminal:
            other = service.connect(SECONDS)
            for command in commands:
                terminal.ask(command)
            terminal.press(before)
            if before:
                until_running(other, 1)
            hang(service)
            terminal.press(after)
            try:
                return self.interrupted(terminal, service.process, f"the service doesn't answer{kept}")
            finally:
                service._process.send_signal(signal.SIGCONT)

    def interrupted_at_program(self, options: list[str], said: str) -> float:
        """The same of a program that the debugger started."""
        note = self.folder / "number"
        program = noting_program(note.with_name("starts"), note)
        with self.debugger("--bpfagent", str(program), *options, self.source(ENDLESS), "+8") as terminal:
            number = int(note.read_text())
            stop(number)
            terminal.press("stepi\n")
            took = self.interrupted(terminal, number, said)
            until_gone(number)
            return took

    def test_interrupts_hung(self) -> None:
        """An interrupt ends a debugger that awaits a reply of a service, or of a program that it started, which has hung."""
        kept = ", and may keep breakpoint 1, the pause of machine 1"
        self.assertTrue(is_at_once(self.interrupted_at_service, ["pause", "break more", "continue"], "", "info registers\n", kept), "a machine that stands")
        self.assertTrue(is_at_once(self.interrupted_at_service, ["pause"], "continue\n", "", ""), "a machine that runs")
        self.assertTrue(is_at_once(self.interrupted_at_program, [], "bpfagent doesn't answer"), "run")
        self.assertTrue(is_at_once(self.interrupted_at_program, ["--serve"], "the service doesn't answer"), "serve")

    def is_paused_late(self) -> bool:
        """Whether an interrupt pauses a machine though the service is late with its replies, and the session goes on."""
        path = self.source(ENDLESS)
        with endless_service(pathlib.Path(path)) as service, self.debugger("--connect", service.place, path) as terminal:
            other = service.connect(SECONDS)
            terminal.ask("pause")
            terminal.press("continue\n")
            until_running(other, 1)
            hang(service)
            terminal.press("\x03")
            time.sleep(0.3)
            service._process.send_signal(signal.SIGCONT)
            shown = terminal.wait("machine 1: pause")
            return "machine 1: pause" in shown and terminal.ask("print 1 + 1") == ["1 + 1 = 2"] and terminal.close() == 0

    def test_interrupts_late(self) -> None:
        """An interrupt doesn't end a debugger whose service is only late. A busy machine may delay it too long, so it is tried again."""
        self.assertTrue(any(self.is_paused_late() for _ in range(3)))

    def ended(self, number: int, begun: Callable[[], Optional[int]], *words: str) -> float:
        """A signal ends a debugger whose session doesn't begin, with its status and without a word. Gives how long that takes."""
        with subprocess.Popen([*DEBUGGER, *words], stdin=subprocess.PIPE, stdout=subprocess.PIPE, stderr=subprocess.PIPE, preexec_fn=heard) as debugger:
            process = begun()
            start = time.monotonic()
            debugger.send_signal(number)
            self.assertEqual((*debugger.communicate(timeout=SECONDS), debugger.returncode), (b"", b"", 128 + number), words)
            took = time.monotonic() - start
            if process is not None:
                until_gone(process)
            return took

    def ended_at_service(self, number: int, service: stand_in.StandIn) -> float:
        """The same of a debugger that is to connect to a service."""
        with service() as (port, begun):
            return self.ended(number, begun, "--connect", f"127.0.0.1:{port}")

    def test_silent(self) -> None:
        """A signal ends the debugger at once while it waits for the first reply of a service, or of a program that it started."""
        with_signals(self)
        folder = self.folder
        started: dict[tuple[str, ...], tuple[str, Callable[[], int]]] = {(): silent_program(folder), ("--serve",): silent_program(folder, "shipped 1", "ok")}
        for number in (signal.SIGINT, *SIGNALS):
            for service in (stand_in.silent, stand_in.full):
                self.assertTrue(is_at_once(self.ended_at_service, number, service), f"{service.__name__}, {number}")
            for options, (path, begun) in started.items():
                self.assertTrue(is_at_once(self.ended, number, begun, "--bpfagent", path, *options, TABLE[0]), f"{options}, {number}")

    def test_recognition(self) -> None:
        """Machines of two programs, one with other code of the same shape, and one that isn't known."""
        paths = [self.folder / f"{name}.c" for name in ("seven", "eight", "nine")]
        for path, value in zip(paths, (7, 8, 9)):
            path.write_text(f'#include "bpfagent.h"\nuint64_t program(uint64_t n)\n{{\n    n += {value};\n    return n;\n}}\n')
        with Service(PROGRAM, "--workers", "2", "--connections", "1", timeout=SECONDS) as service:
            for path in paths:
                code = path.with_suffix(".code")
                subprocess.run([*DEBUGGER[:2], "bpfagent.ship", "--flag=-O0", "--output", str(code), str(path)], check=True, timeout=SECONDS)
                service.setup.break_(service.setup.ship(code.read_bytes(), 100, 1), 0)
            service.listen()
            with self.debugger("--connect", service.place, "--with", str(paths[1]), str(paths[0])) as terminal:
                self.assertRegex(terminal.greeting[0], r"^\* machine 1: paused, program at .*seven\.c:3, ")
                self.assertRegex(terminal.greeting[1], r"^  machine 2: paused, program at .*eight\.c:3, ")
                self.assertRegex(terminal.greeting[2], r"^  machine 3: paused, slot 0, fuel 100, another program$")
                self.assertEqual(terminal.ask("machine 2") and terminal.ask("break 5")[0].split(" at ")[0], "breakpoint 1")
                self.assertEqual(terminal.ask("continue")[0], "machine 2, breakpoint 1")
                self.assertEqual(terminal.ask("print n"), ["n = 9"])
                self.assertEqual(terminal.ask("machine 3") and terminal.ask("stepi"), ["slot 1: ldxdw r1, [r10-8]"])
                self.assertEqual(terminal.close(), 0)

    def test_flags(self) -> None:
        """A machine that bpfagent-ship shipped is recognized with its flags, and without them the debugger names them."""
        with Service(PROGRAM, "--workers", "0", "--connections", "2", timeout=SECONDS) as service:
            code = self.folder / "optimized.code"
            subprocess.run([*DEBUGGER[:2], "bpfagent.ship", "--output", str(code), TABLE[0]], check=True, timeout=SECONDS)
            service.setup.ship(code.read_bytes(), 100)
            at = service.listen()
            with self.debugger("--connect", at, TABLE[0]) as terminal:
                self.assertRegex(terminal.greeting[0], r", another program$")
                self.assertRegex(terminal.greeting[1], r"^no machine runs .*table\.c as the debugger compiles it: .* --flag=-O2$")
            with self.debugger("--connect", at, "--flag=-O2", TABLE[0]) as terminal:
                self.assertRegex(terminal.greeting[0], r"program at .*table\.c:")
                self.assertEqual(len(terminal.greeting), 1)

    def test_parameters(self) -> None:
        """Where a function hasn't stored its parameters yet, they have no values, rather than what the stack had before."""
        with self.debugger(*TABLE) as terminal:
            self.assertEqual(terminal.ask("print key"), ["key = <not stored yet>"])
            self.assertEqual(terminal.ask("print *table"), ["not stored yet"])
            terminal.ask("next")
            self.assertEqual(terminal.ask("print key"), ["key = 7"])

    def test_interrupt(self) -> None:
        """An interrupt stops a program that doesn't end, over `run`."""
        with self.debugger("--fuel", str(2**63), self.source(ENDLESS), "+8") as terminal:
            self.assertIn("machine 1: pause", terminal.interrupt("continue"))
            self.assertIsNone(terminal.process.poll())
            self.assertGreater(int(terminal.ask("print *(uint64_t *)0x100000000")[0].split(" = ")[1]), 0)
            self.assertEqual(terminal.close(), 0)

    def test_recursion(self) -> None:
        """A function that calls itself: frames, variables of each, over and out of calls at the right depth."""
        with self.debugger(self.source(DEEP), "3") as terminal:
            terminal.ask("break program.c:5")
            terminal.ask("continue")
            shown = terminal.ask("backtrace")
            self.assertEqual([line[2:].split()[1] for line in shown], ["sum", "sum", "sum", "sum", "program"])
            self.assertEqual([terminal.ask(f"frame {k}") and terminal.ask("print n")[0] for k in range(5)], ["n = 0", "n = 1", "n = 2", "n = 3", "n = 3"])
            terminal.ask("frame 0")
            self.assertEqual([terminal.ask("finish")[0] for _ in range(4)], [f"machine 1: sum returned {n}" for n in (0, 1, 3, 6)])
            self.assertEqual(terminal.ask("finish"), ["machine 1 ended: exit 0000000000000006 (6)"])
        with self.debugger(self.source(DEEP), "3") as terminal:
            terminal.ask("tbreak program.c:6")
            terminal.ask("continue")
            self.assertEqual(terminal.ask("next")[1], "7\t    return rest + n;")
            self.assertEqual(terminal.ask("print rest"), ["rest = 3"])
            self.assertEqual(terminal.ask("print n"), ["n = 3"])
        with self.debugger(self.source(DEEP), "9") as terminal:
            self.assertEqual(terminal.ask("continue")[0], "machine 1 stopped: outside (an access to bytes that aren't all there)")

    def test_conditions(self) -> None:
        """A breakpoint with a condition stops only where it holds, over `run` and `serve`; one that can't be told stops."""
        ways: list[list[str]] = [[], ["--serve", "--workers", "4"]]
        for options in ways:
            with self.debugger(*options, self.source(ENDLESS), "+8") as terminal:
                self.assertEqual(terminal.ask("break more if *count == 7 && count != 0")[0].split(", ")[-1], "if *count == 7 && count != 0")
                self.assertEqual(terminal.ask("continue")[0], "machine 1, breakpoint 1")
                self.assertEqual(terminal.ask("print *count"), ["*count = 7"])
                refused = "the condition `nothing > 1` can't be read: nothing is called nothing there"
                self.assertEqual(terminal.ask("delete") + terminal.ask("break more if nothing > 1"), [refused])
                terminal.ask("break more if 1 / (*count - 8) > 1")
                self.assertEqual(terminal.ask("continue")[0], "machine 1, breakpoint 2")
                self.assertEqual(terminal.ask("print !(*count < 8) || *count >= 9"), ["!(*count < 8) || *count >= 9 = 1"])
                self.assertEqual(terminal.close(), 0)

    def test_stop(self) -> None:
        """A program that goes wrong shows where it reached, and how long the object there is."""
        with self.debugger(TABLE[0], "+4", "7") as terminal:
            shown = terminal.ask("continue")
            self.assertEqual(
                shown[:3],
                [
                    "machine 1 stopped: outside (an access to bytes that aren't all there)",
                    "[r2] is object 1, and object 1 has 4 bytes",
                    "find at examples/debug/table.c:15",
                ],
            )
            self.assertEqual(terminal.ask("continue")[0], shown[0])

    def test_types(self) -> None:
        """Values of each kind of type, and memory in each form."""
        data = self.folder / "all"
        address = 1 << 32
        content = (5).to_bytes(4, "little") + bytes([1, 2, 3, 4]) + b"\xfe\xffa\0\x02\0b\0" + b"name\0\0\0\0" + bytes([0b10101101, 0, 0, 0]) + bytes(4)
        content += address.to_bytes(8, "little") + (-7).to_bytes(8, "little", signed=True) + (address + 3).to_bytes(8, "little")
        data.write_bytes(content)
        with self.debugger(self.source(TYPES), f"@{data}") as terminal:
            terminal.ask("break program.c:12")
            terminal.ask("continue")
            for text, value in VALUES.items():
                self.assertEqual(terminal.ask(f"print {text}"), [f"{text} = {value}"])
            for text, why in VALUELESS.items():
                self.assertEqual(terminal.ask(f"print {text}"), [why])
            for text in VALUES:
                self.assertRegex(terminal.ask(f"break program.c:12 if {text}")[0], r"^breakpoint \d+ at ")
            for text in TYPELESS:
                self.assertEqual(terminal.ask(f"break program.c:12 if {text}"), [f"the condition `{text}` can't be read: {VALUELESS[text]}"])
            self.assertEqual(terminal.ask("x/2xw all"), ["0x100000000 <object 1>: 0x00000005 0x04030201"])
            self.assertEqual(terminal.ask("x/4c all->name"), ["0x100000010 <object 1+16>: 110 'n' 97 'a' 109 'm' 101 'e'"])
            self.assertEqual(terminal.ask("x/s all->name")[0].split(": ")[1], '"name"')
            self.assertEqual(terminal.ask("x/1dg &all->minus"), ["0x100000028 <object 1+40>: -7"])
            self.assertEqual(terminal.ask("set all->minus = 40 + 2") + terminal.ask("print all->minus"), ["all->minus = 42"])
            self.assertEqual(terminal.ask("set byte = 1"), ["the protocol can write objects only, and no stacks or registers"])
            self.assertEqual(terminal.ask("watch all->low"), ["only a value in memory can be watched, and this one is in a register or is computed"])
            terminal.ask("next")
            self.assertEqual(terminal.ask("emitted"), ["emitted 0x6e (110)"])

    def test_away(self) -> None:
        """An object that is far: it can't be looked at in `run`, and comes back when the machine reaches it; in a service it comes back."""
        with self.debugger(*TABLE) as terminal:
            self.assertEqual(terminal.ask("tell leave 1") + terminal.ask("tell left 1"), ["> leaving 1", "> left 1"])
            self.assertEqual(terminal.ask("info objects"), ["object 1: 40 bytes at 0x100000000, away"])
            self.assertEqual(terminal.ask("break 23") and terminal.ask("c")[0], "machine 1, breakpoint 1")
            self.assertEqual(terminal.ask("print *table"), ["object 1 is away: a machine that reaches it brings it back"])
            terminal.ask("step")
            self.assertEqual(terminal.ask("next")[1][:2], "16")
            self.assertEqual(terminal.ask("print table->count"), ["table->count = 2"])
            self.assertEqual(terminal.ask("tell leave 1"), ["> kept 1 scoped"])
            terminal.ask("delete")
            self.assertEqual(terminal.ask("continue"), ["machine 1 ended: exit 0000000000000028 (40)"])
        with self.debugger("--serve", "--workers", "4", *TABLE) as terminal:
            # The look that finds it away has it brought back, so it is sent away once more.
            end = time.monotonic() + SECONDS
            while terminal.ask("tell get 1 0 1") != ["> away 1"]:
                self.assertIn(terminal.ask("tell leave 1"), (["> asked 1"], ["> full"]))
                self.assertLess(time.monotonic(), end, "the object doesn't leave")
            self.assertIn(terminal.ask("tell leave 1"), (["> asked 1"], ["> full"]))
            terminal.ask("break 25")
            self.assertEqual(terminal.ask("continue")[0], "machine 1, breakpoint 1")
            self.assertEqual(terminal.ask("print *table")[0][:19], "*table = {count = 1")
            self.assertEqual(terminal.ask("continue"), ["machine 1 ended: exit 0000000000000028 (40)"])

    def test_keys(self) -> None:
        """Completion, history, an empty line that steps again, and abbreviations."""
        with self.debugger(*TABLE) as terminal:
            self.assertEqual(terminal.ask("b fi\t")[0].split(" at ")[0], "breakpoint 1")
            self.assertEqual(terminal.ask("c")[0], "machine 1, breakpoint 1")
            self.assertEqual(terminal.ask("p tab\t->count"), ["table->count = 2"])
            self.assertEqual(terminal.ask("n")[1][:2], "16")
            self.assertEqual(terminal.ask("")[1][:2], "17")
            self.assertEqual(terminal.close(), 0)
        with self.debugger(*TABLE) as terminal:
            terminal.press("\x10" * 5 + "\n")
            self.assertIn("breakpoint 1 at examples/debug/table.c:15, slot 21", terminal.wait("breakpoint 1"))

    def test_wrong(self) -> None:
        """Commands that can't be done say why, and the session goes on."""
        with self.debugger(*TABLE) as terminal:
            for command, why in {
                "break nothing": "there is no function nothing; there are find, program",
                "break none.c:3": "there is no source file none.c; there are examples/debug/table.c",
                "break 999": "no code is at or after line 999 of examples/debug/table.c",
                "break *1000": "no instruction begins at slot 1000",
                "delete 9": "there is no breakpoint 9",
                "machine 7": "there is no machine 7",
                "frame 5": "there is no frame 5",
                "info nothing": "info takes one of",
                "jump 3": "jump: no such command; help lists them",
                "x/q": "x takes a form and an address",
                "break": "break takes FILE:LINE, LINE, FUNCTION or *SLOT",
                "break 23 if": "a condition is missing behind `if`",
                "break 23 if (": "the condition `(` can't be read: the expression ends too early",
                "break 23 if key == ": "the condition `key ==` can't be read: the expression ends too early",
                "break 23 if key = 1": "the condition `key = 1` can't be read: `= 1` is no expression",
                "break 23 if table->": "the condition `table->` can't be read: the name of a member is missing",
                "break 23 if table[1": "the condition `table[1` can't be read: `]` is missing",
                "break 23 if (struct nope *)5": "the condition `(struct nope *)5` can't be read: the program has no type struct nope",
                "break 23 if " + "(" * 900: "the condition `((((",
                "info breakpoints": "no breakpoints",
                "step x": "a repeated step takes a number",
                "step \u00b2": "a repeated step takes a number",
                "print": "there is no expression",
                "set": "set takes a number in an object, as in set table->count = 3",
                "set *table": "set takes a number in an object, as in set table->count = 3",
                "x/2i 4095": "no instruction begins at slot 4095",
                "x/i 99999999": "no instruction begins at slot 99999999",
                "x/2xg 0x100000028": "there is no object 1, or it ends before offset 56",
                "print " + "(" * 900: "the expression is nested too deeply",
                "print 0x10000000000000000": "0x10000000000000000 has more than 64 bits",
                "print " + "9" * 900: "9999",
                "tell \u00b2": "a line of the protocol is ASCII",
                "x/999999xb 0": "x takes a form and an address",
            }.items():
                self.assertTrue(terminal.ask(command)[0].startswith(why), command)
            for _ in range(16):
                terminal.ask("stepi")
            for slot in range(20, 36):
                terminal.ask(f"break *{slot}")
            self.assertEqual(terminal.ask("break *40"), ["machine 1 has 16 breakpoints, and can have no more"])
            self.assertEqual(terminal.close(), 0)


@needs_debugger
class Arguments(unittest.TestCase):
    """What the command line refuses."""

    def said(self, *words: str) -> tuple[int, str, str]:
        """Status, output and errors."""
        done = subprocess.run([*DEBUGGER, *words], stdin=subprocess.DEVNULL, capture_output=True, text=True, timeout=SECONDS, cwd=ROOT)
        return done.returncode, done.stdout, done.stderr

    def test_usage(self) -> None:
        """Wrong arguments get the usage and status 2."""
        cases: list[list[str]] = [
            [],
            ["--dap", "x.c"],
            ["--dap", "--serve"],
            ["--connect", "x"],
            ["--connect", "127.0.0.1:1", "x.c", "7"],
            ["--serve", "--connect", "127.0.0.1:1"],
            ["--serve", "--workers", "17", "x.c"],
            ["--workers", "2", "x.c"],
            ["--none"],
            ["--machines", "0", "x.c"],
            [TABLE[0], "nine"],
            [TABLE[0], "+65537"],
            [TABLE[0], *"123456"],
        ]
        for words in cases:
            status, output, errors = usage_of(main, words)
            self.assertEqual((status, output, errors[:22]), (2, "", "usage: bpfagent-debug "), words)
        self.assertEqual(self.said("--version"), (0, f"bpfagent-debug {bpfagent.__version__}\n", ""))

    def test_faults(self) -> None:
        """What can't be done is a line, and no traceback."""
        for words in (["none.c"], ["--connect", "127.0.0.1:1"], [TABLE[0], "@/none"], ["--bpfagent", "/none", TABLE[0]], ["--entry", "none", TABLE[0]]):
            status, output, errors = self.said(*words)
            self.assertEqual((status, output, errors.count("\n")), (1, "", 1), (words, errors))
            self.assertTrue(errors.startswith("bpfagent-debug: "), errors)

    def test_agent_that_ends(self) -> None:
        """An agent that ends in a session ends the debugger with a line and status 1."""
        with tempfile.TemporaryDirectory() as folder:
            text = (
                f"import subprocess\nagent = subprocess.Popen([{PROGRAM!r}, *sys.argv[1:]], stdin=subprocess.PIPE)\nfor line in sys.stdin.buffer:\n"
                "    if line.startswith(b'get 9'):\n        break\n    agent.stdin.write(line)\n    agent.stdin.flush()\nagent.kill()\nagent.wait()"
            )
            words = ["--bpfagent", str(program_of(pathlib.Path(folder) / "ends", text)), str(ROOT / "examples/c/counter.code"), "+8", "3"]
            done = subprocess.run([*DEBUGGER, *words], input="tell get 9 0 1\nquit\n", capture_output=True, text=True, timeout=SECONDS)
            self.assertEqual((done.returncode, done.stderr), (1, "bpfagent-debug: the agent ended the conversation\n"), done.stdout)

    def test_closed_streams(self) -> None:
        """A standard stream that is closed is taken as the null device, also by the adapter for editors."""
        code = [str(ROOT / "examples/c/counter.code"), "+8", "3"]
        stands = f"* machine 1: standing, slot 0, fuel 1000000\n{code[0]}: {code[0]} is raw code, which has no lines and no names\n"
        for words, greeting in ((code, stands), (["--dap"], "")):
            for closed, shown in (("<&-", greeting), ("</dev/null 2>&-", greeting), ("</dev/null >&-", "")):
                done = subprocess.run(["sh", "-c", f'exec "$@" {closed}', "sh", *DEBUGGER, *words], capture_output=True, text=True, timeout=SECONDS)
                self.assertEqual((done.returncode, done.stdout, done.stderr), (0, shown, ""), (words, closed))

    def test_raw_code(self) -> None:
        """Raw code has no lines, but instructions can be stepped and shown."""
        done = subprocess.run(
            [
                *DEBUGGER,
                "-x",
                "stepi",
                "-x",
                "break 3",
                "-x",
                "break *4",
                "-x",
                "c",
                "-x",
                "disassemble",
                "-x",
                "info registers",
                "-x",
                "q",
                str(ROOT / "examples/c/counter.code"),
                "+8",
                "3",
            ],
            capture_output=True,
            text=True,
            timeout=SECONDS,
            stdin=subprocess.DEVNULL,
        )
        self.assertEqual((done.returncode, done.stderr), (0, ""))
        self.assertIn("slot 1: jeq r0, 0, +5", done.stdout)
        self.assertIn("only *SLOT can be found: ", done.stdout)
        self.assertIn("machine 1, breakpoint 1\nslot 4: aadd [r1], r3", done.stdout)
        self.assertIn("=>     4: aadd [r1], r3", done.stdout)


if __name__ == "__main__":
    signal.signal(signal.SIGINT, signal.default_int_handler)
    os.chdir(ROOT)
    unittest.main()

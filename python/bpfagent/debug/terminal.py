"""The debugger in a terminal."""
from __future__ import annotations

import cmd
import contextlib
import os
import pathlib
import re
import signal
import sys
from typing import Any, Callable, Iterator, Mapping, Optional

from ..accesses import place_text
from ..agent import pauses
from ..commands import fault_text
from ..replies import Refused
from . import views
from .ending import Ending
from .engine import Engine, Goal, Impossible, Stop, Unanswered
from .expressions import Invalid, Names, Value, evaluate, parse
from .frames import Frame
from .lines import NoDwarf, SourceLine
from .points import Terms
from .program import NoPlace, Program
from .session import LEAVING
from .stepping import Stepper
from .symbols import Nowhere, below, names_of
from .types import FORMS, Type, formed_bytes

# Where no home is known, this stays a path that can't be read or written.
HISTORY = pathlib.Path(os.path.expanduser("~/.bpfagent_history"))
HISTORY_LENGTH = 1000
PROMPT = "(bpfagent) "
# How long an agent may say nothing once an interrupt has come, in seconds. A slow one answers sooner, and its machine is paused.
SILENCE = 1.0
# No number that the debugger takes has more digits.
DIGITS = 20
FAULTS = (Impossible, Invalid, Nowhere, NoPlace, NoDwarf, Refused, OSError)
SHORT = {
    "b": "break", "tb": "tbreak", "d": "delete", "c": "continue", "s": "step", "n": "next", "fin": "finish", "si": "stepi", "bt": "backtrace",
    "where": "backtrace", "p": "print", "l": "list", "dis": "disassemble", "disas": "disassemble", "i": "info", "f": "frame", "q": "quit", "exit": "quit",
    "thread": "machine", "m": "machine", "w": "watch", "EOF": "quit", "r": "run", "u": "until", "advance": "until",
}  # fmt: skip
STEPS = {"continue", "step", "next", "until", "finish", "stepi"}
# What `list` shows at a time.
LISTED = 10
INFO = ("breakpoints", "display", "frame", "functions", "locals", "line", "machines", "objects", "registers", "scopes", "sources", "watchpoints")


class Interrupts:
    """Keeps an interrupt until it is asked for, so that none comes between a line and its reply. A third one gets through."""

    def __init__(self) -> None:
        self.count = 0

    def _note(self, *_: object) -> None:
        self.count += 1
        if self.count > 2:
            raise KeyboardInterrupt

    @contextlib.contextmanager
    def kept(self) -> Iterator[None]:
        """Keeps those that come meanwhile. A block within a block keeps them for the outer one."""
        if signal.getsignal(signal.SIGINT) == self._note:
            yield
            return
        # First the count: one that comes as soon as the handler is there counts.
        self.count = 0
        before = signal.signal(signal.SIGINT, self._note)
        try:
            yield
        finally:
            signal.signal(signal.SIGINT, before)


class Terminal(cmd.Cmd):
    """The debugger's command line."""

    prompt = PROMPT
    doc_header = "Commands (help COMMAND tells more):"

    def __init__(self, engine: Engine, ending: Ending) -> None:
        super().__init__()
        self.engine, self.ending = engine, ending
        self.selected = min(engine.machines, default=0)
        self.level = 0
        self.listed: Optional[SourceLine] = None
        self.interrupts = Interrupts()
        # The expressions that are shown at each stop, by their numbers, with the form of each.
        self.displays: dict[int, tuple[str, str]] = {}
        self.is_asked = sys.stdin.isatty()
        if not self.is_asked:
            self.use_rawinput, self.prompt = False, ""

    def look_up(self) -> None:
        """While a reply is awaited: if the debugger is to end, the agent has little time. An interrupt gives up one that is silent."""
        agent = self.engine.agent
        if self.ending.has_come:
            agent.hurry(LEAVING)
        elif self.interrupts.count and agent.silence > SILENCE:
            print()
            raise Unanswered(f"{'the service' if self.engine.is_service else 'bpfagent'} doesn't answer")

    # ---- the loop

    def preloop(self) -> None:
        """Reads the history of earlier sessions."""
        if self.is_asked:
            with contextlib.suppress(ImportError, OSError):
                import readline

                readline.set_completer_delims(" \t\n*&(")
                # The loop begins anew after an interrupt; the history is read once.
                if readline.get_current_history_length() == 0:
                    readline.read_history_file(HISTORY)

    def postloop(self) -> None:
        """Keeps the history."""
        if self.is_asked:
            with contextlib.suppress(ImportError, OSError):
                import readline

                readline.set_history_length(HISTORY_LENGTH)
                readline.write_history_file(HISTORY)

    def greet(self) -> None:
        """Says where the machines stand."""
        for number in sorted(self.engine.machines):
            print(views.machine_line(self.engine, number, number == self.selected))
        for program in self.engine.programs:
            if program.why:
                print(f"{program.image.path}: {program.why}")
        files = [program.image.path for program in self.engine.programs if program.image.path.suffix == ".c"]
        if files and self.engine.machines and not any(machine.program for machine in self.engine.machines.values()):
            print(f"no machine runs {files[0]} as the debugger compiles it: for what bpfagent-ship shipped, give --flag=-O2")

    def onecmd(self, line: str) -> bool:
        """Does one command; what it can't do it says in a line."""
        line = re.sub(r"^\s*(x|p|print|disp|display)/", r"\1 /", line)
        word, _, rest = line.strip().partition(" ")
        if word == "EOF" and self.is_asked:
            print()
        try:
            with self.interrupts.kept(), self.ending.awaiting(False):
                return bool(super().onecmd(f"{SHORT.get(word, word)} {rest}".strip()))
        except FAULTS as why:
            print(fault_text(why))
        return False

    def precmd(self, line: str) -> str:
        """A command that is typed is one that is seen also where no terminal echoes it."""
        if not self.is_asked and line != "EOF":
            print(f"{PROMPT}{line}")
        return line

    def emptyline(self) -> bool:
        """Does the last command again, if it was a step."""
        word = self.lastcmd.partition(" ")[0]
        return self.onecmd(self.lastcmd) if SHORT.get(word, word) in STEPS | {"list"} else False

    def default(self, line: str) -> None:
        """What is no command."""
        print(f"{line.split()[0]}: no such command; help lists them")

    # ---- the machine and its frame

    @property
    def frame(self) -> Frame:
        """The frame that is looked at."""
        frames = self.engine.frames(self._machine())
        return frames[min(self.level, len(frames) - 1)]

    def _machine(self) -> int:
        """The machine that is looked at, which has to stand still."""
        self.engine.machine(self.selected)
        if self.engine.is_running(self.selected):
            raise Impossible(f"machine {self.selected} is running: `pause` stops it")
        return self.selected

    def _program(self) -> Program:
        program = self.engine.machine(self.selected).program if self.selected in self.engine.machines else None
        program = program or next(iter(self.engine.programs), None)
        if program is None:
            raise Impossible("no program is known: name its file when the debugger starts")
        return program

    def _value(self, text: str) -> Value:
        return evaluate(text, self.engine.context(self.frame))

    def _number(self, text: str, what: str) -> int:
        if not text.isdecimal() or len(text) > DIGITS:
            raise Impossible(f"{what} takes a number")
        return int(text)

    # ---- running

    def _do(self, goal: Callable[[Stepper], Goal], number: Optional[int] = None) -> None:
        """Gives the machine something to do, and waits until it stands still."""
        number = self.selected if number is None else number
        self.engine.begin(number, goal(Stepper(self.engine, self.engine.machine(number))))
        self.wait(number)

    def wait(self, number: int) -> None:
        """Waits for a machine. An interrupt pauses it."""
        turns = pauses()
        while self.engine.is_running(number):
            self.ending.check()
            # The workers of a service run it meanwhile; in `run` the debugger steps it.
            if self.engine.is_service:
                next(turns)
            for stop in self.engine.poll():
                self.tell(stop)
            if self.interrupts.count and self.engine.is_running(number):
                print()
                self.tell(self.engine.pause(number))

    def tell(self, stop: Stop) -> None:
        """Says why a machine stopped, and where."""
        if stop.machine == self.selected or not self.engine.is_running(stop.machine):
            self.selected, self.level, self.listed = stop.machine, 0, None
        for line in views.stop_lines(self.engine, stop):
            print(line)
        if stop.reason != "exit" and stop.machine == self.selected:
            for number, (form, text) in self.displays.items():
                print(f"{number}: {self._displayed(form, text)}")

    def _displayed(self, form: str, text: str) -> str:
        """An expression with its value, or why it has none here."""
        try:
            return f"{text} = {formed(self._value(text), form)}"
        except (Invalid, Nowhere) as why:
            return f"{text}: {why}"

    def _repeat(self, text: str, goal: Callable[[Stepper], Goal]) -> None:
        """Steps so many times, or until the machine stops for another reason."""
        for _ in range(self._number(text, "a repeated step") if text else 1):
            self._do(goal)
            last = self.engine.machine(self.selected).last
            if last and last.reason != "step":
                break

    def do_continue(self, argument: str) -> None:
        """continue: lets the machine go on until a breakpoint, a write to a watched value, or its end. Interrupt pauses it."""
        if argument == "all":
            for number in sorted(self.engine.machines):
                if not self.engine.is_running(number):
                    self.engine.run(number)
            for number in sorted(self.engine.machines):
                self.wait(number)
        else:
            self._do(lambda stepper: stepper.to_the_end())

    def do_step(self, argument: str) -> None:
        """step [N]: to the next line, into functions that are called; N times."""
        self._repeat(argument, lambda stepper: stepper.line(into=True))

    def do_next(self, argument: str) -> None:
        """next [N]: to the next line, over functions that are called; N times."""
        self._repeat(argument, lambda stepper: stepper.line(into=False))

    def do_until(self, argument: str) -> None:
        """until [PLACE]: to a line further on, so that a loop goes on to its end; or to a place as of break, or out of the function."""
        if not argument:
            self._do(lambda stepper: stepper.until())
            return
        place = self._program().place(argument, self.engine.here(self.selected))
        self._do(lambda stepper: stepper.until_place(place.slots))

    def do_finish(self, argument: str) -> None:
        """finish: out of the function of the frame, and shows what it returns. In the outermost one: to the program's end."""
        level = self.level
        self._do(lambda stepper: stepper.out(level))

    def do_run(self, argument: str) -> None:
        """run: begins the program anew, with objects as at first, and goes on until something stops it."""
        if argument:
            raise Impossible("run takes no arguments: those of the program are given when the debugger starts")
        if self.engine.restart is None:
            raise Impossible("the machines of a service to which the debugger is connected can't begin anew")
        if any(machine.last for machine in self.engine.machines.values()):
            self.engine.restart()
        self.selected, self.level, self.listed = min(self.engine.machines), 0, None
        self._do(lambda stepper: stepper.to_the_end())

    def do_stepi(self, argument: str) -> None:
        """stepi [N]: one instruction; N times."""
        self._repeat(argument, lambda stepper: stepper.instruction())

    def do_pause(self, argument: str) -> None:
        """pause [MACHINE]: stops a machine of a service that runs."""
        self.tell(self.engine.pause(self._number(argument, "pause") if argument else self.selected))

    def do_wait(self, argument: str) -> None:
        """wait [MACHINE]: waits until a machine of a service that runs stands still."""
        self.wait(self._number(argument, "wait") if argument else self.selected)

    # ---- breakpoints

    def do_break(self, argument: str, is_temporary: bool = False) -> None:
        """break FILE:LINE | LINE | FUNCTION | *SLOT [if EXPRESSION]: a breakpoint on all machines that run the program."""
        text, has_condition, condition = f"{argument} ".partition(" if ")
        if not text.strip():
            raise Impossible("break takes FILE:LINE, LINE, FUNCTION or *SLOT")
        if has_condition and not condition.strip():
            raise Impossible("a condition is missing behind `if`")
        program = self._program()
        place = program.place(text.strip(), self.engine.here(self.selected) if self.selected in self.engine.machines else None)
        made = self.engine.set_breakpoint(program, text.strip(), place, Terms(condition.strip(), is_temporary=is_temporary))
        print(f"breakpoint {made.number} at {made}")

    def do_tbreak(self, argument: str) -> None:
        """tbreak PLACE: a breakpoint that is deleted when it stops a machine."""
        self.do_break(argument, is_temporary=True)

    def do_watch(self, argument: str) -> None:
        """watch EXPRESSION: stops the machine when it writes to this value. Writes of other machines are not seen."""
        made = self.engine.watch(argument, self.frame)
        print(f"watchpoint {made.number}: {made.text} (machine {made.machine}, {made.length} bytes at {place_text(made.address)})")

    def do_delete(self, argument: str) -> None:
        """delete [N]: deletes a breakpoint or a watchpoint, or all of them."""
        numbers = [self._number(word, "delete") for word in argument.split()] or [*self.engine.breakpoints, *self.engine.watches]
        for number in numbers:
            if number in self.engine.watches:
                self.engine.delete_watch(number)
            else:
                self.engine.delete_breakpoint(number)

    # ---- looking

    def do_backtrace(self, argument: str) -> None:
        """backtrace: the frames of the machine. The protocol doesn't show return addresses, so a call site may be unknown."""
        for level, frame in enumerate(self.engine.frames(self._machine())):
            print(f"{'*' if level == self.level else ' '} #{level} {frame}")

    def do_frame(self, argument: str) -> None:
        """frame [N]: looks at a frame by its number."""
        self._select(self._number(argument, "frame") if argument else self.level)

    def do_up(self, argument: str) -> None:
        """up: looks at the caller."""
        self._select(self.level + 1)

    def do_down(self, argument: str) -> None:
        """down: looks at the function that was called."""
        self._select(self.level - 1)

    def _select(self, level: int) -> None:
        frames = self.engine.frames(self._machine())
        if not 0 <= level < len(frames):
            raise Impossible(f"there is no frame {level}")
        self.level, self.listed = level, None
        print(f"#{level} {frames[level]}")
        at = frames[level].at
        if at:
            print(views.source_line(at))

    def do_print(self, argument: str) -> None:
        """print[/F] EXPRESSION: a value, such as print *table, print table->pairs[2].key, print $r3. F: x d u o t c, as in print/x key."""
        form, text = form_and_text(argument)
        print(f"{text} = {formed(self._value(text), form)}")

    def do_display(self, argument: str) -> None:
        """display[/F] EXPRESSION: shows a value at each stop. Without one: shows them now."""
        if argument:
            form, text = form_and_text(argument)
            parse(text, *self._names())
            self.displays[max(self.displays, default=0) + 1] = (form, text)
        for number, (form, text) in self.displays.items():
            if not argument or number == max(self.displays):
                print(f"{number}: {self._displayed(form, text)}")

    def _names(self) -> tuple[Mapping[str, Type], Names]:
        """The types of the program, and all names of its variables."""
        symbols = self._program().symbols
        if symbols is None:
            return {}, {}
        return symbols.named_types, names_of(variable for function in symbols.functions for scope in below(function) for variable in scope.variables)

    def do_undisplay(self, argument: str) -> None:
        """undisplay [N]: no longer shows a value at each stop, or any."""
        for number in [self._number(word, "undisplay") for word in argument.split()] or list(self.displays):
            if self.displays.pop(number, None) is None:
                raise Impossible(f"there is no display {number}")

    def do_x(self, argument: str) -> None:
        """x/NFU ADDRESS: N units of memory. F: x d u c, s (a text up to its zero) or i (instructions, by slot); U: b h w g, for 1 2 4 8 bytes."""
        form, _, text = argument.partition(" ") if argument.startswith("/") else ("/1xg", "", argument)
        found = re.fullmatch(r"/([0-9]{0,5})([xduci]?|s)([bhwg]?)", form)
        if not found or not text:
            raise Impossible("x takes a form and an address, as in x/16xb 0x100000000")
        count, kind, size = int(found[1] or 1), found[2] or "x", {"b": 1, "h": 2, "w": 4, "g": 8}[found[3] or ("b" if found[2] in ("c", "s") else "g")]
        value = self._value(text)
        address = value.address if value.type.bare.kind == "array" and value.address is not None else value.number
        for line in views.memory_lines(self.engine, self._machine(), address, count, kind, size):
            print(line)

    def do_list(self, argument: str) -> None:
        """list [LINE | FIRST,LAST | FUNCTION]: source lines around the current one, or more of them."""
        found = re.fullmatch(r"(?:(.+):)?([0-9]{1,9})\s*,\s*([0-9]{1,9})?", argument)
        if found:
            first = int(found[2])
            last = int(found[3]) if found[3] else first + LISTED - 1
            if last < first:
                raise Impossible("list takes the first line and then the last")
            path = self._program().path(found[1], self.frame.at)
        elif argument:
            path, first, last = self._around(self._program().place(argument, self.frame.at).at)
        elif self.listed:
            path, first, last = self.listed.path, self.listed.line + 1, self.listed.line + LISTED
        else:
            path, first, last = self._around(self.frame.at)
        for line in views.source_lines(path, first, last, self.frame.at):
            print(line)
        self.listed = SourceLine(path, last)

    @staticmethod
    def _around(at: Optional[SourceLine]) -> tuple[str, int, int]:
        """The lines around one."""
        if at is None:
            raise Impossible("no source line is known here")
        return at.path, at.line - views.AROUND, at.line + views.AROUND - 1

    def do_disassemble(self, argument: str) -> None:
        """disassemble [FUNCTION]: the instructions of a function, with the current line marked."""
        number = self._machine()
        slot = self._program().place(argument).slots[0] if argument else self.frame.slot
        if slot is None:
            slot = self.frame.scopes[0].slot if self.frame.scopes else self.engine.registers(number).slot
        for line in views.disassembly(self.engine, number, slot):
            print(line)

    def do_machine(self, argument: str) -> None:
        """machine [N]: looks at another machine."""
        if argument:
            number = self._number(argument, "machine")
            self.engine.machine(number)
            self.selected, self.level, self.listed = number, 0, None
        print(views.machine_line(self.engine, self.selected, True))

    def do_emitted(self, argument: str) -> None:
        """emitted: the values that the machine has emitted."""
        print("emitted", *[f"0x{value:x} ({views.both(value)})" for value in self.engine.agent.out(self.selected)])

    def do_set(self, argument: str) -> None:
        """set EXPRESSION = EXPRESSION: writes a number to a value in an object. The protocol can't write registers and stacks."""
        left, equals, right = argument.partition("=")
        taken = "set takes a number in an object, as in set table->count = 3"
        if not equals:
            raise Impossible(taken)
        place, value = self._value(left.removeprefix("var ")), self._value(right)
        if place.address is None or place.is_part or place.type.size > 8:
            raise Impossible(taken)
        self.engine.write(place.address, (value.number & ((1 << 8 * place.type.size) - 1)).to_bytes(place.type.size, "little"))

    def do_tell(self, argument: str) -> None:
        """tell LINE: sends a line of the protocol as it is, and shows the reply."""
        if not argument.isascii():
            raise Impossible("a line of the protocol is ASCII")
        print(f"> {self.engine.agent.tell(argument)}")

    def do_info(self, argument: str) -> None:
        """info breakpoints | display | frame | functions | locals | line | machines | objects | registers | scopes | sources | watchpoints"""
        topics = [topic for topic in INFO if argument and topic.startswith(argument)]
        if len(topics) != 1 and argument not in INFO:
            raise Impossible(f"info takes one of {', '.join(INFO)}")
        if self.engine.is_service:
            self.engine.look()
        for line in getattr(views, f"info_{argument if argument in INFO else topics[0]}")(self):
            print(line)

    def do_quit(self, argument: str) -> bool:
        """quit: ends the debugger, and what it started. Machines of a service to which it is attached go on."""
        return True

    # ---- completion

    # The stubs of `cmd` have it give a list.
    def complete(self, text: str, state: int) -> Any:
        """A completion. An interrupt doesn't come between a line to the agent and its reply."""
        with self.interrupts.kept(), self.ending.awaiting(False):
            return super().complete(text, state)

    def completenames(self, text: str, *ignored: object) -> list[str]:
        """Commands that begin so."""
        return [name for name in super().completenames(text) if name != "EOF"]

    def complete_info(self, text: str, *ignored: object) -> list[str]:
        """Topics of info."""
        return [topic for topic in INFO if topic.startswith(text)]

    def _places(self, text: str) -> list[str]:
        symbols = self._program().symbols
        if symbols is None:
            return []
        names = [function.name for function in symbols.functions] + [f"{os.path.basename(path)}:" for path in symbols.lines.paths()]
        return [name for name in names if name.startswith(text)]

    def complete_break(self, text: str, *ignored: object) -> list[str]:
        """Functions and source files."""
        return self._places(text)

    complete_tbreak = complete_until = complete_list = complete_disassemble = complete_break

    def complete_print(self, text: str, *ignored: object) -> list[str]:
        """Variables and registers."""
        names = [variable.name for variable in self.engine.context(self.frame).variables()]
        return [name for name in [*names, *(f"$r{k}" for k in range(11)), "$slot", "$fuel"] if name.startswith(text)]

    complete_watch = complete_x = complete_set = complete_display = complete_print


def formed(value: Value, form: str) -> str:
    """A value in a form, or as C writes it."""
    return formed_bytes(value.type, value.bytes, form) if form else str(value)


def form_and_text(argument: str) -> tuple[str, str]:
    """The form in which a value is to be shown, and the expression."""
    found = re.fullmatch(r"/\s*(\S*)\s*(.*)", argument)
    if not found:
        return "", argument
    if found[1] not in FORMS:
        raise Impossible(f"/{found[1]} is no form of a value: there are {', '.join('/' + form for form in FORMS)}")
    return found[1], found[2]


# An abbreviation is completed as its command.
for short, command in SHORT.items():
    if hasattr(Terminal, f"complete_{command}"):
        setattr(Terminal, f"complete_{short}", getattr(Terminal, f"complete_{command}"))


def run(engine: Engine, commands: list[str], ending: Ending) -> None:
    """Does these commands, and then those that are typed, until the debugger is left. Raises `Broken` if the agent ends."""
    terminal = Terminal(engine, ending)
    engine.agent.idle = terminal.look_up
    terminal.greet()
    for line in commands:
        print(f"{PROMPT}{line}")
        if terminal.onecmd(line):
            return
        terminal.lastcmd = line
    while True:
        try:
            with ending.awaiting():
                terminal.cmdloop()
            return
        except KeyboardInterrupt:
            print("^C (quit leaves the debugger)")

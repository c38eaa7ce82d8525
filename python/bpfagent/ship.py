"""From a program to its result in one command: `bpfagent-ship`.

It takes a C file, which clang compiles, an object file of clang, assembly, or raw code. The program is shipped to an agent in this
process, to a new service, or to one that runs already. Its stop, what it emitted, and the objects made for it are shown.
"""
from __future__ import annotations

# Before the imports: an interrupt during them ends the program quietly.
if __name__ == "__main__":
    import bpfagent.programs

    bpfagent.programs.run("ship")

import argparse
import functools
import json
import os
import pathlib
import re
import shlex
import sys
import time
from typing import TYPE_CHECKING, Callable, Optional, Sequence, TypeVar, Union

from .agent import ARGUMENTS, Agent, address, pauses
from .checking import explained, verdict_of
from .commands import add_version, fault_text, guarded, parsed, service_of
from .engine import Engine
from .image import Image, Unloadable, has_sanitizer, load, program_path
from .limits import LONGEST, OBJECTS, SLOTS
from .outcome import SHOWN, Outcome, outcome_of
from .own import InProcess, Own, opened
from .preparing import Unprepared, prepared
from .progress import Progress
from .replies import Broken, Refused, Run, Stopped

if TYPE_CHECKING:
    from .debug.lines import Lines

NUMBER = re.compile(r"-?(?:0[xX][0-9a-fA-F]+|0|[1-9][0-9]*)")
# No number from 0 to 2^64 - 1 has more digits.
DIGITS = 20
FUEL = 1_000_000
# How long the agent may take for a reply, in seconds.
SECONDS = 60.0
# How long a program of a service may wait for an object before that is said, in seconds.
LONG = 3.0
ARGUMENT = "is neither a number nor +N, =TEXT or @FILE"
PREPARED = "is neither a number nor :N, +N, =TEXT or @FILE"
JOINED = "is neither a number nor :N, an object of the service"
ALONE = "isn't a number, and --line takes numbers alone"
SLOW = "this bpfagent was built without a proof and with an address sanitizer: it is some hundred times slower than the one of `make program`"
T = TypeVar("T")
AnyAgent = Union[Agent, Engine]
# What to do about a run that was interrupted.
CLOSER = "there an interrupt of `continue` pauses it, and shows where it is; --fuel N ends a run by itself"
EPILOG = """FILE is a C file (its name ends in .c), an object file of clang, assembly (.asm), or raw code. ARGUMENT is a number, R1 to R5 of the program, or
an object, whose address is given: +N is an object of N zero bytes, @PATH one of a file's bytes, =TEXT one of a text's bytes. With --connect it
is a number, or :N for the service's object N. After --setup :N is object N of the setup.
Clang is called as `clang`, or as the environment's CLANG says. Status 0: the program exited. 1: it stopped otherwise, or something failed, as
standard error says. 2: wrong arguments."""


class Unshippable(Exception):
    """Why a program can't be shipped or run."""


class WrongArgument(Unshippable):
    """Why a word of the command line is no argument of a program."""


# What ends the command with a line.
FAULTS = (Unshippable, Unloadable, Unprepared, Broken, Refused)


def ship_line(code: bytes, fuel: object, arguments: Sequence[object]) -> str:
    """The `ship` line of raw code."""
    return " ".join(["ship", str(fuel), *map(str, arguments), *["0"] * (ARGUMENTS - len(arguments)), code.hex()])


def number_of(text: str, otherwise: str = ARGUMENT) -> int:
    """The number that an argument is. `otherwise` says what is wrong with a text that isn't one."""
    if not NUMBER.fullmatch(text):
        raise WrongArgument(otherwise)
    if len(text) > DIGITS or not 0 <= int(text, 0) < 2**64:
        raise WrongArgument("isn't from 0 to 2^64 - 1")
    return int(text, 0)


def length_of(text: str) -> int:
    """The length of an object that an argument asks for."""
    length = number_of(text)
    if not 1 <= length <= LONGEST:
        raise WrongArgument(f"isn't from +1 to +{LONGEST}, the lengths of an object")
    return length


def object_of(text: str, otherwise: str = JOINED) -> int:
    """The number, or the address of an object that is there, that an argument is."""
    if not text.startswith(":"):
        return number_of(text, otherwise)
    number = number_of(text[1:], otherwise)
    if not 1 <= number <= OBJECTS:
        raise WrongArgument(f"isn't from :1 to :{OBJECTS}, the numbers of objects")
    return address(number)


def wrong_length(content: bytes) -> str:
    """Why there is no object of these bytes; empty if there is one."""
    if 1 <= len(content) <= LONGEST:
        return ""
    return f"has {f'more than {LONGEST}' if content else 'no'} bytes, and an object has 1 to {LONGEST}"


def form_of(argument: str, has_setup: bool = False) -> None:
    """Raises `WrongArgument` unless this is an argument of a program. A file isn't read yet. `:N` is an object of the setup."""
    if argument.startswith("+"):
        length_of(argument[1:])
    elif argument.startswith("="):
        if wrong := wrong_length(os.fsencode(argument[1:])):
            raise WrongArgument(wrong)
    elif argument.startswith("@"):
        return
    elif has_setup:
        object_of(argument, PREPARED)
    else:
        number_of(argument)


def each_of(arguments: Sequence[str], take: Callable[[str], T]) -> list[T]:
    """What each argument of a program is taken for. `WrongArgument` says which one is none."""
    if len(arguments) > ARGUMENTS:
        raise WrongArgument(f"{len(arguments)} arguments are given, and a program takes at most five")
    found = []
    for place, argument in enumerate(arguments, 1):
        try:
            found.append(take(argument))
        except WrongArgument as why:
            raise WrongArgument(f"argument {place}, `{argument}`: {why}") from None
    return found


def checked(arguments: Sequence[str], has_setup: bool = False) -> None:
    """Raises `WrongArgument` unless these are arguments of a program. Files aren't read yet."""
    each_of(arguments, lambda argument: form_of(argument, has_setup))


def value_of(argument: str) -> Union[int, bytes]:
    """The number that an argument is, or the bytes of the object that it asks for."""
    if argument.startswith("+"):
        return bytes(length_of(argument[1:]))
    if argument.startswith("="):
        return os.fsencode(argument[1:])
    if argument.startswith("@"):
        # One byte too many shows that the file is too long, however long it is.
        with open(argument[1:], "rb") as file:
            return file.read(LONGEST + 1)
    return object_of(argument)


def values_of(arguments: Sequence[str], has_setup: bool = False) -> list[Union[int, bytes]]:
    """What each argument is. Files are read. After a setup `:N` is the address of its object N."""
    checked(arguments, has_setup)
    found = []
    for place, argument in enumerate(arguments, 1):
        try:
            value = value_of(argument)
        except (OSError, ValueError) as why:
            raise Unshippable(f"argument {place}, `{argument}`: {getattr(why, 'strerror', None) or why}") from None
        if isinstance(value, bytes) and (wrong := wrong_length(value)):
            raise Unshippable(f"argument {place}, `{argument}`: {wrong}")
        found.append(value)
    return found


def made(agent: AnyAgent, content: bytes) -> int:
    """The number of a new object of these bytes."""
    try:
        return agent.make_of(content)
    except Refused as why:
        raise Unshippable(f"an object of {len(content)} bytes: {why}") from None


def make_objects(agent: AnyAgent, values: Sequence[Union[int, bytes]]) -> tuple[list[int], dict[int, int]]:
    """Makes the objects of these bytes: the program's numbers, which are an object's address for its bytes, and the length of each object."""
    numbers, objects = [], {}
    for value in values:
        if isinstance(value, bytes):
            number = made(agent, value)
            objects[number] = len(value)
            value = address(number)
        numbers.append(value)
    return numbers, objects


def shipped(agent: AnyAgent, image: Image, fuel: int, numbers: Sequence[int], bpfagent: Optional[str] = None) -> int:
    """The number of the machine that a program becomes. `bpfagent` is the program that says why code is refused."""
    try:
        return agent.ship(image.code, fuel, *numbers)
    except Refused as why:
        if why.word == "full":
            raise Unshippable(f"{image.path}: the agent has as many machines as it can have") from None
        raise Unshippable(f"{image.path}: {why}{source_of(image, why)}{explained(image.code, bpfagent)}") from None
    except ValueError:
        raise Unshippable(f"{image.path}: has {image.slots} slots, and a program has 1 to {SLOTS}") from None


def source_of(image: Image, why: Refused) -> str:
    """The source line of a slot that the agent refuses, if it is known."""
    return f" ({at})" if why.word == "refused" and (at := line_of(image, int(why.words[1]))) else ""


class Places:
    """The source lines of a program's slots, which are read when one is first asked for."""

    def __init__(self, image: Image) -> None:
        self._image = image

    def __call__(self, slot: int) -> str:
        """The source line of a slot as it is shown, empty if it isn't known."""
        from .debug.sources import text_at

        at = self._found.line_at(slot) if self._found else None
        return f"{at}: {text_at(at)}" if at else ""

    @functools.cached_property
    def _found(self) -> Optional[Lines]:
        from .debug.lines import Lines, NoDwarf, dwarf_of

        if self._image.linked is None:
            return None
        try:
            return Lines(dwarf_of(self._image.content), self._image.linked)
        except NoDwarf:
            return None


def line_of(image: Image, slot: int) -> str:
    """The source line of a slot as it is shown, empty if it isn't known."""
    return Places(image)(slot)


def show(given: argparse.Namespace, outcome: Outcome) -> bool:
    """Shows what came of a program, as the options say. Gives whether it came to its exit."""
    if given.json:
        print(json.dumps({"file": given.file, **outcome.as_json()}))
    else:
        print("\n".join(outcome.lines(given.quiet)))
    return outcome.has_exited


def converse(own: Own, image: Image, given: argparse.Namespace, values: Sequence[Union[int, bytes]]) -> bool:
    """Does the setup, makes the objects, ships the code, runs it and shows the result. Gives whether the program came to its exit."""
    lengths = prepared(own.agent, given.setup) if given.setup else {}
    numbers, objects = make_objects(own.agent, values)
    lengths.update(objects)
    machine = shipped(own.agent, image, given.fuel, numbers, given.bpfagent)
    progress = Progress(given.fuel, Places(image))
    try:
        run = own.go(machine, progress)
    except KeyboardInterrupt:
        progress.interrupted(f"{shlex.join(['bpfagent-debug', given.file, *given.arguments])}: {CLOSER}")
        raise
    progress.end()
    return show(given, outcome_of(own.agent, machine, run, Places(image), lengths, 0 if given.quiet else given.show))


class Rest:
    """Gives a service time to bring an object back to a machine: more each time that the machine still waits for it."""

    def __init__(self, agent: Agent, machine: int) -> None:
        self._agent, self._machine, self._is_told = agent, machine, False
        self._begin(0)

    def _begin(self, number: int) -> None:
        """The machine waits for another object, or again after it went on."""
        self._object, self._fuel = number, self._agent.regs(self._machine).fuel
        self._turns, self._since = pauses(), time.monotonic()

    def __call__(self, number: int) -> None:
        """Waits for an object. If the machine does nothing for long, standard error says so once."""
        if number != self._object:
            self._begin(number)
        next(self._turns)
        if time.monotonic() - self._since > LONG and not self._is_told:
            if self._agent.regs(self._machine).fuel != self._fuel:
                self._begin(number)
                return
            self._is_told = True
            print(f"the program waits for object {number}, which isn't here; an interrupt ends the waiting", file=sys.stderr, flush=True)


def join(agent: Agent, image: Image, given: argparse.Namespace, numbers: Sequence[int]) -> bool:
    """The same in a service, whose workers run the program too."""
    machine = shipped(agent, image, given.fuel, numbers, given.bpfagent)
    last = agent.run_until(machine, wait=Rest(agent, machine)).last
    if not isinstance(last, Stopped):
        raise Unshippable(f"machine {machine} is paused, as another client asked")
    used = given.fuel - agent.regs(machine).fuel
    return show(given, outcome_of(agent, machine, Run(last, used - (last.value is not None)), Places(image)))


def fuel_of(text: str) -> int:
    """The fuel, as an option."""
    try:
        return number_of(text)
    except WrongArgument:
        raise argparse.ArgumentTypeError("takes a number from 0 to 2^64 - 1") from None


def program_parser(name: str, usage: str, description: str, epilog: str) -> argparse.ArgumentParser:
    """The command line of a command that loads a program and starts bpfagent, with the options that all of these have."""
    options = argparse.ArgumentParser(prog=name, usage=usage, description=description, epilog=epilog)
    add_version(options)
    options.add_argument("--bpfagent", metavar="PATH", help="the program bpfagent; else the environment's BPFAGENT, or the one on PATH")
    options.add_argument("--fuel", type=fuel_of, default=FUEL, metavar="N", help=f"how many instructions the program may do ({FUEL})")
    options.add_argument("--entry", metavar="NAME", help="the function at which the program begins (program)")
    options.add_argument("--flag", action="append", default=[], metavar="FLAG", help="a further flag of clang, such as --flag=-O0; may be repeated")
    options.add_argument("--setup", metavar="FILE", help="lines of the protocol that are done first; ARGUMENT :N is object N of theirs")
    return options


def shown_of(text: str) -> int:
    """How many bytes of an object are shown, as an option."""
    if not text.isdecimal() or int(text) > LONGEST:
        raise argparse.ArgumentTypeError(f"{text!r} is not a number from 0 to {LONGEST}")
    return int(text)


def parser() -> argparse.ArgumentParser:
    """The options of the command line."""
    description = "Ships a program to an agent of its own, or to a service, runs it to its end and shows the result."
    options = program_parser("bpfagent-ship", "%(prog)s [OPTION ..] FILE [ARGUMENT ..]", description, EPILOG)
    task = options.add_mutually_exclusive_group()
    task.add_argument("--check", action="store_true", help="only compile and link, and say why the file can't be shipped")
    task.add_argument("--line", action="store_true", help="only print the `ship` line; arguments are numbers")
    task.add_argument("--awaits", action="store_true", help="only print the slots at which the program awaits requests, for `break`")
    task.add_argument("--connect", type=service_of, metavar="PLACE", help="ship it to the service at HOST:PORT, unix:PATH or tls:HOST:PORT, and run it there")
    task.add_argument("--output", metavar="PATH", help="only write the raw code to a file")
    form = options.add_mutually_exclusive_group()
    form.add_argument("--json", action="store_true", help="show the result as JSON; with --check also whether the code is valid")
    form.add_argument("--quiet", "-q", action="store_true", help="show the stop alone")
    options.add_argument("--show", type=shown_of, default=SHOWN, metavar="N", help=f"show the first N bytes of each object ({SHOWN})")
    options.add_argument("file", metavar="FILE", help="the program")
    options.add_argument("arguments", nargs="*", default=[], metavar="ARGUMENT", help="up to five numbers and objects")
    return options


def ship(given: argparse.Namespace) -> None:
    """Does what the options say."""
    image = load(pathlib.Path(given.file), given.entry, given.flag, given.bpfagent)
    if given.output:
        pathlib.Path(given.output).write_bytes(image.code)
    elif given.awaits:
        print(*image.awaits)
    elif given.line:
        print(ship_line(image.code, given.fuel, given.arguments))
    elif not (check(given, image) if given.check else run(given, image)):
        sys.exit(1)


def check(given: argparse.Namespace, image: Image) -> bool:
    """Whether code is valid, where the options have that shown. Otherwise it is enough that the file was loaded."""
    if not given.json:
        return True
    verdict = verdict_of(image.code, given.bpfagent)
    if not verdict["valid"]:
        verdict["source"] = line_of(image, verdict["slot"])
    print(json.dumps({"file": given.file, **verdict}))
    return bool(verdict["valid"])


def told(given: argparse.Namespace) -> None:
    """The same as JSON, also of a fault."""
    try:
        ship(given)
    except (OSError, *FAULTS) as why:
        print(json.dumps({"file": given.file, "error": fault_text(why)}), flush=True)
        raise


def connected(place: str) -> Agent:
    """A client of a service."""
    try:
        return Agent.reach(place, timeout=SECONDS)
    except OSError as why:
        raise Unshippable(f"the service at {place} can't be reached: {why.strerror or why}") from None


def run(given: argparse.Namespace, image: Image) -> bool:
    """Whether a program came to its exit, where the options have it run."""
    if given.connect:
        with connected(given.connect) as agent:
            return join(agent, image, given, each_of(given.arguments, object_of))
    values = values_of(given.arguments, bool(given.setup))
    with opened(given.bpfagent, SECONDS, bool(given.setup)) as own:
        if not isinstance(own, InProcess) and sys.stderr.isatty() and has_sanitizer(program_path(given.bpfagent)):
            print(SLOW, file=sys.stderr, flush=True)
        return converse(own, image, given, values)


def reader_of(given: argparse.Namespace) -> Callable[[str], object]:
    """What an argument of the program may be, by what the options have done with it."""
    if given.line:
        return lambda text: number_of(text, ALONE)
    if given.connect:
        return object_of
    return lambda text: form_of(text, bool(given.setup))


def wrong(given: argparse.Namespace) -> str:
    """What is wrong with the options together; empty if nothing is."""
    alone = next((f"--{name}" for name in ("check", "output", "awaits", "line") if getattr(given, name)), "")
    if given.arguments and alone not in ("", "--line"):
        return f"{alone} takes no ARGUMENT: nothing is run"
    if given.setup and (alone or given.connect):
        return f"--setup is for an agent of its own: {'the service has its objects' if given.connect else f'{alone} runs nothing'}"
    if given.json and alone not in ("", "--check"):
        return f"--json goes with a run or with --check, and not with {alone}"
    try:
        each_of(given.arguments, reader_of(given))
    except WrongArgument as why:
        return str(why)
    return ""


def main(words: Optional[Sequence[str]] = None) -> None:
    """The command line."""
    given = parsed(parser(), words, wrong)
    guarded("bpfagent-ship", lambda: told(given) if given.json else ship(given), *FAULTS)

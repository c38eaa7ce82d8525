"""The command `bpfagent-debug`."""
from __future__ import annotations

# Before the imports: an interrupt during them ends the program quietly.
if __name__ == "__main__":
    import bpfagent.programs

    bpfagent.programs.run("debug.main")

import argparse
from typing import Callable, Optional, Sequence

from ..commands import guarded, parsed, service_of
from ..image import Unloadable
from ..limits import MACHINES
from ..preparing import Unprepared
from ..replies import Broken, Refused
from ..ship import Unshippable, WrongArgument, checked, program_parser
from .channel import NoMessage
from .ending import Ending
from .engine import Impossible
from .lines import NoDwarf
from .session import MOST_WORKERS, WORKERS, Plan, Session

USAGE = """%(prog)s [OPTION ..] FILE [ARGUMENT ..]
       %(prog)s [OPTION ..] --connect HOST:PORT [FILE]
       %(prog)s --dap"""
EPILOG = """FILE is a C file (compiled with -g -O0, unless --flag says otherwise), an object file of clang, assembly, or raw code. ARGUMENT is as
for bpfagent-ship. With --connect, FILE is the program that the service's machines run, and takes no arguments."""


def count_of(least: int, most: int) -> Callable[[str], int]:
    """A number in a range, as an option."""

    def number(text: str) -> int:
        if not text.isdecimal() or not least <= int(text) <= most:
            raise argparse.ArgumentTypeError(f"{text!r} is not a number from {least} to {most}")
        return int(text)

    return number


def parser() -> argparse.ArgumentParser:
    """The options of the command line."""
    description = "Debugs programs by source: in an agent of its own, in a new service, or in one that runs."
    options = program_parser("bpfagent-debug", USAGE, description, EPILOG)
    where = options.add_mutually_exclusive_group()
    where.add_argument("--serve", action="store_true", help="start `bpfagent serve`, whose workers run the machines")
    where.add_argument("--connect", type=service_of, metavar="PLACE", help="attach to the service at HOST:PORT, unix:PATH or tls:HOST:PORT")
    where.add_argument("--dap", action="store_true", help="speak the Debug Adapter Protocol on standard input and output, for editors")
    options.add_argument("--workers", type=count_of(0, MOST_WORKERS), metavar="W", help=f"the workers of --serve ({WORKERS})")
    options.add_argument("--machines", type=count_of(1, MACHINES), default=1, metavar="N", help="how many machines run the program (1)")
    options.add_argument("--with", dest="others", action="append", default=[], metavar="FILE", help="another program, with the same arguments; may be repeated")
    options.add_argument(
        "--execute", "-x", action="append", default=[], metavar="COMMAND", help="a command of the debugger that is done first; may be repeated"
    )
    options.add_argument("file", nargs="?", metavar="FILE", help="the program")
    options.add_argument("arguments", nargs="*", default=[], metavar="ARGUMENT", help="up to five numbers and objects")
    return options


def wrong(given: argparse.Namespace) -> str:
    """What is wrong with the arguments together; empty if nothing is."""
    if given.dap and (given.file or given.execute):
        return "with --dap the editor says what is debugged"
    if not given.dap and not given.file and not given.connect:
        return "a FILE or --connect is required"
    if given.connect and given.arguments:
        return "--connect takes no ARGUMENT: the machines of the service have theirs"
    if given.setup and (given.connect or given.dap):
        return "--setup is for an agent of its own"
    if given.workers is not None and not given.serve:
        return "--workers goes with --serve"
    try:
        checked(given.arguments, bool(given.setup))
    except WrongArgument as why:
        return str(why)
    return ""


def debug(given: argparse.Namespace) -> None:
    """Does what the options say."""
    from . import dap, terminal

    ending = Ending()
    with ending.listen():
        if given.dap:
            dap.serve(ending)
            return
        workers = WORKERS if given.workers is None else given.workers
        plan = Plan(
            given.file, given.arguments, given.bpfagent, given.fuel, given.entry, given.flag, given.serve, workers, given.machines, given.connect, given.others
        )
        plan.setup = given.setup
        with Session(plan, ending.check) as session:
            try:
                terminal.run(session.engine, given.execute, ending)
            except Broken:
                ending.check()
                raise


def main(words: Optional[Sequence[str]] = None) -> None:
    """The command line."""
    given = parsed(parser(), words, wrong)
    guarded("bpfagent-debug", lambda: debug(given), Impossible, Unshippable, Unloadable, Unprepared, NoDwarf, NoMessage, Broken, Refused)

"""The command `bpfagent-cli`: a shell for the commands of docs/PROTOCOL.md, over an agent of its own or a service."""
from __future__ import annotations

# Before the imports: an interrupt during them ends the program quietly.
if __name__ == "__main__":
    import bpfagent.programs

    bpfagent.programs.run("cli")

import argparse
import contextlib
import os
import pathlib
import select
import shutil
import socket
import sys
from typing import Callable, Iterator, NoReturn, Optional, Sequence

from . import __version__
from .agent import Agent, PathLike
from .commands import add_version, guarded, service_of
from .image import Unloadable, program_path
from .protocol import commands, help_of, why_bad
from .readable import remarks
from .replies import REFUSAL, Broken
from .service import Service
from .starting import environment, telling
from .streams import reached

NAME = "bpfagent-cli"
USAGE = """%(prog)s [--raw] [--bpfagent PATH]
       %(prog)s [--raw] HOST:PORT | unix:PATH [COMMAND [WORD ..]]
       %(prog)s [--raw] [--bpfagent PATH] -- [OPTION OF SERVE ..]"""
EPILOG = """Without a place it starts `bpfagent run`. With -- it starts `bpfagent serve` with these options: first come the commands of its setup, and
`listen` ends that. With a COMMAND it sends that line alone. On a terminal lines are edited and completed, and a reply is explained below it.
Otherwise bytes go through as they are. Status 0: done. 1: the command was refused, or something failed, as standard error says. 2: wrong arguments."""
HISTORY, HISTORY_LENGTH = "~/.bpfagent_cli_history", 1000
# How long the connecting may take, in seconds.
SECONDS = 30.0
PIECE = 1 << 16
# What the shell itself does.
OWN = {
    "help": "help [COMMAND]: lists the commands, or says what one does",
    "listen": "listen: ends the setup of a service that was started here, and connects to it",
    "quit": "quit: leaves the shell, and ends what it started",
}


class Unreachable(Exception):
    """Why there is nobody to talk to."""


def parser() -> argparse.ArgumentParser:
    """The options of the command line. Those behind `--` are taken off before."""
    description = "Sends commands to an agent, and explains its replies."
    options = argparse.ArgumentParser(prog=NAME, usage=USAGE, description=description, epilog=EPILOG)
    add_version(options)
    options.add_argument("--bpfagent", metavar="PATH", help="the program bpfagent; else the environment's BPFAGENT, or the one on PATH")
    options.add_argument("--raw", action="store_true", help="let bytes through as they are, also on a terminal")
    options.add_argument("place", nargs="?", type=service_of, metavar="PLACE", help="a service, HOST:PORT or unix:PATH")
    options.add_argument("command", nargs="*", default=[], metavar="COMMAND", help="a line for the service")
    return options


# ---- lines of a person


class Shell:
    """Reads lines, and shows replies."""

    def __init__(self, agent: Agent, prompt: str, listen: Optional[Callable[[], tuple[Agent, str]]] = None) -> None:
        """`listen` ends a setup, and gives the client and the prompt behind it."""
        self._agent, self._prompt, self._listen = agent, prompt, listen

    def run(self) -> None:
        """Until it is left, or the agent ends."""
        print(f"bpfagent {__version__}: `help` lists the commands, and `quit` leaves")
        with edited(self._names()):
            while True:
                try:
                    line = input(self._prompt).strip()
                    if line == "quit":
                        return
                    for text in self._answer(line):
                        print(text)
                except EOFError:
                    print()
                    return
                except KeyboardInterrupt:
                    print("^C (quit leaves)")

    def _names(self) -> list[str]:
        """What a line may begin with."""
        return sorted([*commands(), *(name for name in OWN if name != "listen" or self._listen)])

    def _answer(self, line: str) -> Iterator[str]:
        """What is shown below a line."""
        word, _, rest = line.partition(" ")
        if word == "help":
            yield from self._help(rest.strip())
        elif line == "listen" and self._listen:
            (self._agent, self._prompt), self._listen = self._listen(), None
        elif not line.isascii():
            yield f"isn't sent: {why_bad(line) or 'a line is ASCII'}"
        elif line:
            reply = self._agent.tell(line)
            yield reply
            yield from remarks(self._agent, line, reply)

    def _help(self, name: str) -> Iterator[str]:
        """All commands, or one of them as docs/PROTOCOL.md has it."""
        if name in commands():
            yield from help_of(name, min(shutil.get_terminal_size().columns, 120))
        elif name in OWN:
            yield OWN[name]
        elif name:
            yield why_bad(name)
        else:
            yield from (command.form for command in commands().values())
            yield from (text for word, text in OWN.items() if word in self._names())


@contextlib.contextmanager
def edited(names: Sequence[str]) -> Iterator[None]:
    """Lines can be edited and completed within, and those of earlier sessions are there. Without the module they can't."""
    try:
        import readline
    except ImportError:
        yield
        return
    history = pathlib.Path(HISTORY).expanduser()
    readline.set_completer_delims(" ")
    readline.set_completer(completer(names, readline.get_line_buffer))
    readline.parse_and_bind("tab: complete")
    with contextlib.suppress(OSError):
        readline.read_history_file(history)
    try:
        yield
    finally:
        readline.set_history_length(HISTORY_LENGTH)
        with contextlib.suppress(OSError):
            readline.write_history_file(history)


def completer(names: Sequence[str], line: Callable[[], str]) -> Callable[[str, int], Optional[str]]:
    """Completes a command at the beginning of a line, and behind `help`."""

    def complete(text: str, state: int) -> Optional[str]:
        before = line().split(" ")[:-1]
        found = [f"{name} " for name in names if name.startswith(text)] if before in ([], ["help"]) else []
        return found[state] if state < len(found) else None

    return complete


# ---- bytes as they are


def let_through(stream: socket.socket) -> None:
    """Copies standard input to a service, and its replies to standard output, until both have ended. No thread, which could crash Python at its end."""
    stream.setblocking(False)
    unsent: Optional[bytes] = b""
    while True:
        ready, free, _ = select.select([stream, 0] if unsent == b"" else [stream], [stream] if unsent else [], [])
        if stream in ready:
            if not (piece := stream.recv(PIECE)):
                return
            sys.stdout.buffer.write(piece)
            sys.stdout.buffer.flush()
        if unsent and free:
            unsent = left_of(stream, unsent)
        elif 0 in ready:
            unsent = taken_in(stream)


def taken_in(stream: socket.socket) -> Optional[bytes]:
    """The next bytes of standard input. At its end, which is sent on, there are none."""
    with contextlib.suppress(OSError):
        if piece := os.read(0, PIECE):
            return piece
        stream.shutdown(socket.SHUT_WR)
    return None


def left_of(stream: socket.socket, unsent: bytes) -> Optional[bytes]:
    """Sends some of these bytes, and gives the others. There are none where the service takes no more."""
    try:
        return unsent[stream.send(unsent) :]
    except BlockingIOError:
        return unsent
    except OSError:
        return None


def become(program: str, *arguments: str) -> NoReturn:
    """Runs a program in place of this one, with its standard streams."""
    sys.stdout.flush()
    os.execve(program, [program, *arguments], environment())


# ---- who is talked to


@contextlib.contextmanager
def told(place: str) -> Iterator[None]:
    """Has a service that can't be reached within be named."""
    try:
        yield
    except OSError as why:
        raise Unreachable(f"the service at {place} can't be reached: {why.strerror or why}") from None


def connected(place: str, timeout: Optional[float] = None) -> Agent:
    """A client of a service."""
    with told(place):
        return Agent.reach(place, timeout)


def talk(given: argparse.Namespace, options: Optional[Sequence[str]]) -> None:
    """Does what the command line says. `options` are those of `serve`, if there are any."""
    is_raw = given.raw or not (sys.stdin.isatty() and sys.stdout.isatty())
    if given.command:
        tell(given.place, " ".join(given.command))
    elif given.place and is_raw:
        with told(given.place):
            stream = reached(given.place, SECONDS)
        with stream:
            let_through(stream)
    elif given.place:
        with connected(given.place) as agent:
            Shell(agent, f"{given.place}> ").run()
    elif options is not None:
        serve(program_path(given.bpfagent), options, is_raw)
    elif is_raw:
        become(program_path(given.bpfagent), "run")
    else:
        with Agent.run(program_path(given.bpfagent)) as agent:
            Shell(agent, "bpfagent> ").run()


def tell(place: str, line: str) -> None:
    """Sends one line. A refusal has status 1."""
    if not line.isascii() or "\n" in line:
        raise Unreachable(why_bad(line) or "a line is ASCII, without a line end within")
    with connected(place, SECONDS) as agent:
        reply = agent.tell(line)
    print(reply)
    if REFUSAL.fullmatch(reply):
        sys.exit(f"{NAME}: {why_bad(line)}" if reply == "bad" else 1)


def serve(program: PathLike, options: Sequence[str], is_raw: bool) -> None:
    """Starts a service: the shell is its setup, and then its client. At its end the last state is shown."""
    if is_raw:
        become(os.fspath(program), "serve", *telling(options))
    with Service(program, *options, is_heard=True) as service:

        def listen() -> tuple[Agent, str]:
            place = service.listen()
            print(f"listening {place}")
            return service.connect(), f"{place}> "

        Shell(service.setup, "setup> ", listen).run()
        for text in service.close():
            print(text)


def main(words: Optional[Sequence[str]] = None) -> None:
    """The command line."""
    given_words = list(sys.argv[1:] if words is None else words)
    at = given_words.index("--") if "--" in given_words else len(given_words)
    served = given_words[at + 1 :] if at < len(given_words) else None
    options = parser()
    given = options.parse_args(given_words[:at])
    if given.place and served is not None:
        options.error("-- starts a service, and a place is one that runs")
    guarded(NAME, lambda: talk(given, served), Unreachable, Unloadable, Broken)

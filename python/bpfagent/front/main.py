"""The command `bpfagent-front`: one agent for any number of clients."""
from __future__ import annotations

# Before the imports: an interrupt during them ends the program quietly.
if __name__ == "__main__":
    import bpfagent.programs

    bpfagent.programs.run("front.main")

import argparse
import asyncio
import contextlib
import gc
import grp
import importlib
import os
import signal
import sys
from pathlib import Path
from typing import Iterator, Optional, Sequence

from ..commands import add_version, guarded, place_of, port_of
from ..replies import Broken
from ..starting import found_program
from . import doors
from .doors import Door, door_of
from .numbers import told_on
from .saving import Damaged
from .serving import NAME, Front, Log
from .upstream import Refused, Setup

LOCAL = "127.0.0.1"
# So many more objects are made before Python looks for those that only refer to each other.
GARBAGE = 20_000


class Wrong(Exception):
    """The options can't be had together. The text says why."""


# ---- the command line


def group_of(text: str) -> int:
    """A group's number, by its name or as it is."""
    try:
        return int(text) if text.isdecimal() else grp.getgrnam(text).gr_gid
    except KeyError:
        raise argparse.ArgumentTypeError(f"there is no group {text!r}") from None


def mode_of(text: str) -> int:
    """The mode of a file, in octal."""
    try:
        mode = int(text, 8)
    except ValueError:
        mode = -1
    if not 0 <= mode <= 0o777:
        raise argparse.ArgumentTypeError(f"{text!r} is no mode in octal, as 0660")
    return mode


def seconds_of(text: str) -> float:
    """A time above 0, in seconds."""
    with contextlib.suppress(ValueError):
        if 0 < float(text) <= 86_400:
            return float(text)
    raise argparse.ArgumentTypeError(f"{text!r} is no time in seconds, above 0 and at most 86400")


def options() -> argparse.ArgumentParser:
    """The options."""
    made = argparse.ArgumentParser(
        prog=NAME, description="Serves any number of clients with one agent. SETUP has the commands that make its objects and machines.",
        epilog="Options after -- are those of bpfagent serve, as in: bpfagent-front FILE -- --workers 4",
    )
    add_version(made)
    made.add_argument("setup", type=Path, metavar="SETUP", help="file of commands that the agent does first")
    made.add_argument("--program", type=Path, default=None, help="the program bpfagent (BPFAGENT, then that on the PATH)")
    made.add_argument("--unix", type=Path, metavar="PATH", help="listen on a Unix socket")
    made.add_argument("--mode", type=mode_of, default=0o600, help="the socket's mode in octal (0600)")
    made.add_argument("--group", type=group_of, help="the socket's group")
    made.add_argument("--listen", type=listen_of, metavar="HOST:PORT", help="listen on TCP; port 0 is any free one")
    made.add_argument("--certificate", type=Path, metavar="FILE", help="TLS on TCP with this certificate; needs --key")
    made.add_argument("--key", type=Path, metavar="FILE", help="the certificate's key")
    made.add_argument("--client-authority", type=Path, metavar="FILE", help="serve only clients whose certificate this authority signed")
    made.add_argument("--token-file", type=Path, metavar="FILE", help="serve only clients whose first line is the word token and this file's line")
    made.add_argument("--client-timeout", type=seconds_of, default=30.0, metavar="SECONDS", help="drop a client that doesn't read for so long (30)")
    about = "how long requests may take at the end, and clients with machines before the next agent (10)"
    made.add_argument("--grace", type=seconds_of, default=10.0, metavar="SECONDS", help=about)
    made.add_argument("--renew", action=argparse.BooleanOptionalAction, default=True, help="have another agent take over when machines are used up")
    made.add_argument("--save", type=Path, metavar="FILE", help="keep all objects in this file at the end")
    made.add_argument("--restore", type=Path, metavar="FILE", help="begin with the objects of this file")
    made.add_argument("--metrics", type=metrics_of, metavar="[HOST:]PORT", help="answer /metrics and /health there; port 0 is any free one")
    made.add_argument("--log", choices=["text", "json"], default="text", help="form of the lines on standard error (text)")
    made.add_argument("-v", "--verbose", action="store_true", help="also write what the agent tells")
    return made


def listen_of(text: str) -> tuple[str, int]:
    """HOST:PORT, whose port may be 0."""
    host, _, port = text.rpartition(":")
    return (host.strip("[]") or LOCAL, 0) if port == "0" else place_of(text)


def metrics_of(text: str) -> tuple[str, int]:
    """PORT of this host, or HOST:PORT."""
    return listen_of(text) if ":" in text else (LOCAL, port_of(text))


def checked(given: argparse.Namespace) -> None:
    """Completes the options. Raises `Wrong` for options that can't be had together."""
    if bool(given.certificate) != bool(given.key):
        raise Wrong("--certificate and --key are given together")
    if given.client_authority and not given.certificate:
        raise Wrong("--client-authority needs --certificate")
    if any(word.split("=")[0] in ("--connections", "--port", "--unix") for word in given.agent):
        raise Wrong("connections and the agent's own port are the front's")
    if given.program is None:
        try:
            given.program = Path(found_program())
        except FileNotFoundError as why:
            raise Wrong(f"{why}: --program names it") from None


def token_of(path: Optional[Path]) -> Optional[bytes]:
    """The line of a token's file."""
    if path is None:
        return None
    line = path.read_bytes().partition(b"\n")[0].strip()
    if not line:
        raise Wrong(f"{path}: the token is empty")
    return line


@contextlib.contextmanager
def listening(given: argparse.Namespace) -> Iterator[list[Door]]:
    """The sockets of the front, also those that systemd hands over."""
    context = doors.tls(given.certificate, given.key, given.client_authority) if given.certificate else None
    with contextlib.ExitStack() as stack:
        made = [door_of(stack.enter_context(handed), context) for handed in doors.handed()]
        if given.unix:
            bound = stack.enter_context(doors.unix(given.unix, given.mode, given.group))
            stack.callback(given.unix.unlink, missing_ok=True)
            made.append(Door(bound, "unix", os.fspath(given.unix)))
        if given.listen or not made:
            made.append(door_of(stack.enter_context(doors.tcp(*(given.listen or (LOCAL, 0)))), context))
        for door in made:
            check_closed(given, door)
        if context and not any(door.context for door in made):
            raise Wrong("TLS is for TCP: --listen says where")
        yield made


def check_closed(given: argparse.Namespace, door: Door) -> None:
    """Raises `Wrong` for a door that everybody reaches, and that asks for nothing."""
    host = door.socket.getsockname()[0] if door.kind != "unix" else LOCAL
    if not (doors.is_loopback(host) or given.client_authority or given.token_file):
        raise Wrong(f"anybody could command the agent at {door.name}: give --client-authority or --token-file, or listen on {LOCAL}")


async def front(given: argparse.Namespace, opened: Sequence[Door]) -> int:
    """Serves until SIGINT or SIGTERM."""
    log, ending, loop = Log(given.log == "json"), asyncio.Event(), asyncio.get_running_loop()
    loop.set_exception_handler(log.failed)
    for number in (signal.SIGINT, signal.SIGTERM):
        loop.add_signal_handler(number, ending.set)
    it = Front(given, Setup.of(given.setup), token_of(given.token_file), log)
    async with contextlib.AsyncExitStack() as stack:
        if given.metrics:
            host, port = given.metrics
            log.say("numbers are told", port=await stack.enter_async_context(told_on(host, port, it.numbers, it.is_healthy)))
        status = await it.serve(opened, ending)
    return status


def run(given: argparse.Namespace) -> int:
    """Does what the options say. Gives the status."""
    checked(given)
    doors.raise_limit()
    # Little of what is made here refers to itself, and what was imported stays.
    gc.freeze()
    gc.set_threshold(GARBAGE)
    with contextlib.suppress(ImportError):
        # Its loop takes less time for TLS.
        importlib.import_module("uvloop").install()
    with listening(given) as opened:
        return asyncio.run(front(given, opened))


def split(words: list[str]) -> tuple[list[str], list[str], list[str]]:
    """The words before the first `--`, that word, and those after it."""
    at = words.index("--") if "--" in words else len(words)
    return words[:at], words[at : at + 1], words[at + 1 :]


def main(words: Optional[Sequence[str]] = None) -> None:
    """The command line."""
    own, _, agent = split(list(sys.argv[1:] if words is None else words))
    given = options().parse_args(own, argparse.Namespace(agent=agent))
    status: list[int] = []
    guarded(NAME, lambda: status.append(run(given)), Wrong, Refused, Broken, Damaged, doors.Unbound)
    sys.exit(status[0])

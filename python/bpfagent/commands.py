"""What the commands of this package share: options, and faults as one line on standard error instead of a traceback."""
from __future__ import annotations

import argparse
import os
import sys
from typing import Callable, Optional, Sequence

from . import __version__, interrupt
from .printable import printable
from .streams import TLS, UNIX, checked_place, parted

# The control characters of a fault that has several lines, as clang's.
KEPT = "\t\n"


def guarded(name: str, call: Callable[[], None], *faults: type[BaseException]) -> None:
    """Does a command. One of these faults, or an `OSError`, ends it with status 1, an interrupt with 130.

    If nobody reads standard output any more, the command ends quietly.
    """
    known: tuple[type[BaseException], ...] = (OSError, *faults)
    open_standard_streams()
    # A file's name, or a line of it, may have bytes that the terminal can't show.
    for stream in (sys.stdout, sys.stderr):
        if hasattr(stream, "reconfigure"):
            stream.reconfigure(errors="backslashreplace")
    try:
        # Behind this block an interrupt ends the process at once. Nothing is left to be done, and Python's own end would show a traceback.
        with interrupt.raising():
            call()
            if sys.stdout:
                sys.stdout.flush()
    except BrokenPipeError:
        os.dup2(os.open(os.devnull, os.O_WRONLY), sys.stdout.fileno())
        sys.exit(1)
    except KeyboardInterrupt:
        sys.exit(interrupt.INTERRUPTED)
    except known as why:
        sys.exit(f"{name}: {printable(fault_text(why), KEPT)}")


def open_standard_streams() -> None:
    """Opens the null device for each standard stream that is closed. Otherwise a socket or a pipe would get its number."""
    for number, name, mode in ((0, "stdin", "r"), (1, "stdout", "w"), (2, "stderr", "w")):
        try:
            os.fstat(number)
        except OSError:
            os.set_inheritable(os.open(os.devnull, os.O_RDWR), True)
        if getattr(sys, name) is None:
            setattr(sys, name, open(number, mode, closefd=False))


def fault_text(why: BaseException) -> str:
    """A fault as a person reads it. An error of the system is the file, if it is about one, and the reason."""
    if isinstance(why, OSError) and why.strerror:
        return f"{os.fsdecode(why.filename)}: {why.strerror}" if isinstance(why.filename, (str, bytes)) else why.strerror
    return str(why)


def add_version(options: argparse.ArgumentParser) -> None:
    """The option `--version`."""
    options.add_argument("--version", action="version", version=f"%(prog)s {__version__}")


def parsed(options: argparse.ArgumentParser, words: Optional[Sequence[str]], wrong: Callable[[argparse.Namespace], str]) -> argparse.Namespace:
    """What the options of a command line are. They may stand among its arguments; behind `--` there are none. If they go wrong together,
    `wrong` says why, and the command ends with status 2."""
    given = sys.argv[1:] if words is None else words
    found = options.parse_args(given) if "--" in given else options.parse_intermixed_args(given)
    if why := wrong(found):
        options.error(why)
    return found


def port_of(text: str) -> int:
    """A TCP port as an argument, 0 to 65535."""
    if not text.isdecimal() or int(text) > 65_535:
        raise argparse.ArgumentTypeError(f"{text!r} is not a port, 0 to 65535")
    return int(text)


def place_of(text: str) -> tuple[str, int]:
    """HOST:PORT as an argument. Without a host it is this one."""
    try:
        return parted(text)
    except ValueError as why:
        raise argparse.ArgumentTypeError(str(why)) from None


def service_of(text: str) -> str:
    """The place of a service as an argument, HOST:PORT, unix:PATH or tls:HOST:PORT. Without a host it is this one."""
    try:
        return text if checked_place(text).startswith((UNIX, TLS)) else address_text(*parted(text))
    except ValueError as why:
        raise argparse.ArgumentTypeError(str(why)) from None


def address_text(host: str, port: int) -> str:
    """HOST:PORT as `place_of` reads it."""
    return f"[{host}]:{port}" if ":" in host else f"{host}:{port}"

"""A client of bpfagent, of the standard library alone.

An `Agent` is a conversation: with a program that it starts, or with a service over TCP. It has a method for each command of
docs/PROTOCOL.md. Replies are values, and refusals are exceptions with the words of the reply. Here `program` is the path of
bpfagent, and the code is `ldxdw r0, [r1]`, `add r0, r2`, `exit`:

    >>> code = bytes.fromhex("7910000000000000" "0f20000000000000" "9500000000000000")
    >>> with Agent.run(program, "--budget", "4096", timeout=10) as agent:
    ...     number = agent.make(8)
    ...     agent.put(number, 0, (40).to_bytes(8, "little"))
    ...     machine = agent.ship(code, 100, address(number), 2)
    ...     first = agent.step(machine)
    ...     run = agent.run_until(machine)
    >>> first
    Ran(machine=1, slot=1)
    >>> run
    Run(last=Stopped(machine=1, why='exit', value=42), instructions=1)

A refusal says why. The command changed nothing, and the conversation goes on:

    >>> with Agent.run(program) as agent:
    ...     agent.get(7, 0, 1)
    Traceback (most recent call last):
    bpfagent.replies.Refused: outside

`Agent.reach(place)` talks to a service in the same way, and `Service` starts one. An `Engine` is an agent in this process, by the
library for C, and has the same methods. README.md of this package shows two clients of one service. An agent isn't for several threads at once: give each its own connection.
"""
from importlib import import_module
from typing import TYPE_CHECKING

if TYPE_CHECKING:
    from .agent import ARGUMENTS, PIECE, REPLY, STACK, Agent, address, patiently
    from .engine import Engine, FarStore
    from .image import Image, Unloadable, load
    from .library import NoLibrary
    from .procedure import Exhausted, Failed, Procedure
    from .protocol import why_bad
    from .replies import Broken, Closed, Hit, Move, NotExited, Paused, Ran, Refused, Registers, Run, Step, Stopped, Waiting
    from .service import Service

__version__ = "0.9.0"
__all__ = [
    "ARGUMENTS",
    "PIECE",
    "REPLY",
    "STACK",
    "Agent",
    "Broken",
    "Closed",
    "Engine",
    "Exhausted",
    "Failed",
    "FarStore",
    "Hit",
    "Image",
    "Move",
    "NoLibrary",
    "NotExited",
    "Paused",
    "Procedure",
    "Ran",
    "Refused",
    "Registers",
    "Run",
    "Service",
    "Step",
    "Stopped",
    "Unloadable",
    "Waiting",
    "address",
    "load",
    "patiently",
    "why_bad",
]
# The modules that have these names.
_MODULES = ("agent", "engine", "image", "library", "procedure", "protocol", "replies", "service")

if not TYPE_CHECKING:

    def __getattr__(name: str) -> object:
        """Imports a name's module when the name is first used. So a program calls `keep` of `interrupt` before it imports the others."""
        if name not in __all__:
            raise AttributeError(f"module {__name__!r} has no attribute {name!r}")
        modules = (import_module(f".{module}", __name__) for module in _MODULES)
        found = globals()[name] = next(getattr(module, name) for module in modules if hasattr(module, name))
        return found

    def __dir__() -> list[str]:
        """The names, used or not."""
        return sorted({*globals(), *__all__})

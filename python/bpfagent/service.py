"""A started `bpfagent serve`."""
from __future__ import annotations

import contextlib
import os
import pathlib
import re
import shutil
import subprocess
import tempfile
import time
from collections import deque
from types import TracebackType
from typing import TYPE_CHECKING, Mapping, Optional, Sequence, TypeVar, Union

from .agent import Agent, PathLike, started, wait_or_end
from .hearing import Hearing
from .image import Image, load
from .limits import WORD
from .replies import Broken
from .shared import SharedAgent
from .starting import reason_of, telling
from .streams import UNIX, Idle, Pipes, awaited

if TYPE_CHECKING:
    from .procedure import Procedure

LISTENING = re.compile("listening (.+)")
HOST = "127.0.0.1"
# The name of a socket file in its private folder, and the longest path that `serve` takes.
SOCKET, LONGEST = "agent.sock", 103
# The options that say where `serve` listens.
DOORS = ("--port", "--unix")
# The number of connections that `serve` takes if `--connections` isn't given.
CONNECTIONS = 1
# How long the end of a process may take that has nothing more to do, in seconds.
GRACE = 0.5
CLOSED = "the service was closed"
# So many lines of its standard error are kept.
KEPT = 50
A = TypeVar("A", bound=Agent)


class Service:
    """A started `bpfagent serve`, with arguments such as "--connections", "2". It is a context manager.

    It listens at a socket file in a private folder, to which only this user can connect, unless the arguments have "--port" or "--unix".
    First comes `setup`, a conversation that makes objects and may ship machines. After `listen` clients connect. `close` ends
    the service: it closes the clients that `connect` gave, and the connections that nobody used. A service that isn't closed
    goes on when this process has ended, so use it in a `with` block.

    With `is_heard` it is started with -v, and the text of a `Broken` has the reason that it tells, as `port 7070 is taken`. What it
    tells doesn't go to standard error then; `told` has the last lines.
    """

    def __init__(self, program: Optional[PathLike] = None, *arguments: str, timeout: Optional[float] = None, is_heard: bool = False) -> None:
        """Starts it, or raises an `OSError`. Without a program it is found as `Agent.run` does. `timeout`, in seconds, bounds each
        reply of `setup`, and the time until it listens."""
        self._program = None if program is None else os.fspath(program)
        self._folder = None if any(word.partition("=")[0] in DOORS for word in arguments) else private_folder()
        if self._folder:
            arguments = ("--unix", str(self._folder / SOCKET), *arguments)
        self._path = value_of(arguments, "--unix")
        self.told: deque[str] = deque(maxlen=KEPT)
        words = telling(arguments) if is_heard else arguments
        try:
            self._process = started(program, "serve", *words, errors=subprocess.PIPE if is_heard else None)
        except BaseException:
            self._remove_folder()
            raise
        self._hearing = Hearing(self._process.stderr, self.told) if self._process.stderr else None
        self._pipes = Pipes(self._process)
        self._rest = b""
        self._unused = connections_of(arguments)
        self._clients: list[Agent] = []
        self._is_closed = False
        self._timeout = timeout
        self.setup: Agent = Agent(self._pipes, self._pipes.end_input, timeout)
        # Where it listens: "unix:PATH" or "127.0.0.1:PORT", empty until it does; and the port, 0 for a socket file.
        self.place: str = ""
        self.port: int = 0

    @property
    def process(self) -> int:
        """The number of its process."""
        return self._process.pid

    def listen(self) -> str:
        """Ends the setup, and gives the place, as `Agent.reach` takes it, also of a service that listens already. Raises `Broken` if the
        service ends, or doesn't listen in time."""
        if self._is_closed:
            raise Broken(CLOSED)
        if self.place:
            return self.place
        self.setup.close()
        return self._listen(None if self._timeout is None else time.monotonic() + self._timeout, self.setup.idle)

    def _listen(self, until: Optional[float], idle: Optional[Idle] = None) -> str:
        """The place, which the service tells by the deadline."""
        while b"\n" not in self._rest:
            piece = self._receive(until, idle)
            if not piece:
                break
            self._rest += piece
        line, _, rest = self._rest.partition(b"\n")
        found = LISTENING.fullmatch(os.fsdecode(line))
        if not found or not (found[1] == self._path or found[1].isdecimal()):
            raise Broken(f"the service doesn't listen, but {self._instead(line)}")
        self._rest = rest
        if found[1] == self._path:
            self.place = UNIX + os.path.abspath(found[1])
        else:
            self.port, self.place = int(found[1]), f"{HOST}:{found[1]}"
        return self.place

    def _why(self) -> str:
        """The reason that the service told last; empty if it told none."""
        if self._hearing:
            self._hearing.wait(GRACE)
        return reason_of(self.told)

    def _instead(self, line: bytes) -> str:
        """What the service does in place of listening."""
        if line:
            return f"says {line[:60].decode('ascii', 'replace')!r}"
        try:
            return f"ended with status {self._process.wait(GRACE)}{self._why()}"
        except subprocess.TimeoutExpired:
            return "has closed its output"

    def _receive(self, until: Optional[float], idle: Optional[Idle] = None) -> bytes:
        try:
            return awaited(self._pipes.receive, lambda: until, idle)
        except TimeoutError:
            raise Broken("the service didn't answer in time") from None

    def connect(self, timeout: Optional[float] = None) -> Agent:
        """One more client, after `listen`; before it, and after `close`, this raises `Broken`. `timeout`, in seconds, bounds the
        connecting and each reply."""
        if self._is_closed or not self.place:
            raise Broken(CLOSED if self._is_closed else "the service doesn't listen yet")
        return self._client(Agent, timeout)

    def connect_shared(self, timeout: Optional[float] = None) -> SharedAgent:
        """A client for several threads at once. The service listens, if it doesn't yet."""
        self.listen()
        return self._client(SharedAgent, timeout)

    def _client(self, kind: type[A], timeout: Optional[float]) -> A:
        """One more client of this kind."""
        agent = kind.reach(self.place, timeout)
        self._clients.append(agent)
        self._unused = max(self._unused - 1, 0)
        return agent

    def procedure(
        self,
        source: Union[PathLike, Image],
        *objects: int,
        machines: int = 1,
        grants: Union[None, str, Mapping[int, str]] = None,
        fuel: int = WORD,
        timeout: Optional[float] = 60.0,
        entry: Optional[str] = None,
        flags: Sequence[str] = (),
    ) -> Procedure:
        """Ships a program that answers requests, before `listen`: docs/REQUESTS.md. It takes one of the service's connections.

        The program's first argument is the address of the request, and then come those of these objects. Without `grants` it may
        write to them; `grants` has 'r' or 'w' for each object's number, or is "all". `timeout`, in seconds, bounds each request.
        """
        from .procedure import Procedure, Program

        if self.place or self._is_closed:
            raise Broken("a procedure has to be made before the service listens, since its objects are")
        image = source if isinstance(source, Image) else load(source, entry, flags, self._program)
        return Procedure.shipped(self, Program(image, fuel, grants, objects), machines, timeout)

    def close(self, seconds: float = 10.0) -> list[str]:
        """Ends the service, and gives its last lines: `closed`, the objects and the machines.

        This takes `seconds` at most, and two more. A service that hasn't ended by then is killed, and this raises `Broken`: that
        happens while others are connected. It also raises `Broken` if the service ends with another status than 0.
        """
        if self._is_closed:
            raise Broken(CLOSED)
        self._is_closed = True
        until = time.monotonic() + seconds
        output, fault = b"", ""
        try:
            try:
                self._let_go(until)
                output = self._rest + self._to_the_end(until)
            except Broken as why:
                fault = str(why)
            status = wait_or_end(self._process, max(until - time.monotonic(), GRACE))
        finally:
            self.kill()
        if status is None:
            raise Broken(f"the service hadn't ended after {seconds:g} seconds, and was killed")
        if status or fault:
            raise Broken(f"the service ended with status {status}{self._why()}" if status else fault)
        return output.decode("ascii", "replace").splitlines()

    def _let_go(self, until: float) -> None:
        """Ends the setup and the clients, and uses up the connections for which the service would wait."""
        for agent in (self.setup, *self._clients):
            with contextlib.suppress(Broken):
                agent.close()
        if not self.place:
            self._listen(until)
        # A service that listens no more has all its connections. One that has hung accepts none in time.
        with contextlib.suppress(OSError):
            for _ in range(self._unused):
                Agent.reach(self.place, timeout=max(until - time.monotonic(), GRACE)).close()

    def _to_the_end(self, until: float) -> bytes:
        """The rest of the service's output."""
        pieces: list[bytes] = []
        while True:
            piece = self._receive(until)
            if not piece:
                return b"".join(pieces)
            pieces.append(piece)

    def kill(self) -> None:
        """Ends the service by force, if it hasn't ended."""
        self._is_closed = True
        self._process.kill()
        with contextlib.suppress(Broken):
            self.setup.close()
        self._pipes.close()
        wait_or_end(self._process, GRACE)
        self._remove_folder()
        if self._hearing:
            self._hearing.close(GRACE)

    def _remove_folder(self) -> None:
        """Removes the private folder, and what a service that was killed left in it."""
        if self._folder:
            shutil.rmtree(self._folder, ignore_errors=True)

    def __enter__(self) -> Service:
        return self

    def __exit__(self, kind: Optional[type[BaseException]], error: Optional[BaseException], trace: Optional[TracebackType]) -> None:
        """Waits for the end, or kills the service if something went wrong."""
        if error is not None:
            self.kill()
        elif not self._is_closed:
            self.close()


def private_folder() -> pathlib.Path:
    """A new folder that only this user may enter. The path of a socket file in it is short enough for `serve`."""
    folder = pathlib.Path(tempfile.mkdtemp(prefix="bpfagent-"))
    if len(os.fsencode(folder / SOCKET)) <= LONGEST:
        return folder
    folder.rmdir()
    return pathlib.Path(tempfile.mkdtemp(prefix="bpfagent-", dir="/tmp"))


def value_of(arguments: Sequence[str], option: str) -> Optional[str]:
    """The value that arguments give an option; None if they don't."""
    for word, following in zip(arguments, [*arguments[1:], None]):
        if word.startswith(f"{option}="):
            return word.partition("=")[2]
        if word == option:
            return following
    return None


def connections_of(arguments: Sequence[str]) -> int:
    """The number of connections that `serve` takes with these arguments."""
    number = value_of(arguments, "--connections") or ""
    return int(number) if number.isdecimal() else CONNECTIONS

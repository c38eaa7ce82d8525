"""The agent behind the front: a started `bpfagent serve`, all of whose connections the front takes."""
from __future__ import annotations

import asyncio
import contextlib
import os
import shutil
import socket
import time
from collections import deque
from pathlib import Path
from typing import Awaitable, Callable, Iterable, Iterator, Mapping, Sequence

from ..agent import PIECE
from ..limits import MACHINES
from ..protocol import why_bad
from ..replies import FREED, MADE, REFUSAL, SHIPPED, Broken
from ..service import GRACE, KEPT, LISTENING, SOCKET, private_folder
from ..starting import environment, reason_of, telling
from .lanes import Lane
from .wires import Wires

# How many connections an agent takes. The first one is for commands on objects, the last one for the front itself.
CONNECTIONS = 8
# As many bytes of a line of the agent's output are read.
LINE_LIMIT = 1 << 18
# How long the agent may take until it listens, and until it ends when its connections have ended, in seconds.
START_SECONDS, END_SECONDS = 60.0, 10.0
# An object that is away, or in use, is asked for again after such pauses, for so many seconds in all.
FIRST_PAUSE, LAST_PAUSE, PATIENCE = 0.001, 0.05, 30.0
# As many pieces of objects are asked for at once, on each connection.
AT_ONCE = 32
# A line to which each agent has a short reply.
GREETING = b"regs 1"
AWAY = (b"away ", b"busy ")
# What stands before the hex digits of a reply.
BYTES = b"bytes "

Bytes = dict[int, bytes]
# The number of an object, an offset and a length.
Piece = tuple[int, int, int]


class Refused(Exception):
    """The setup, or what is to be restored, is refused. The text says why."""


class Setup:
    """The lines that the agent does before it listens, and the objects that they make."""

    def __init__(self, lines: Sequence[bytes]) -> None:
        self.lines = list(lines)
        self.replies: list[str] = []
        self.lengths: dict[int, int] = {}
        self.machines = 0

    @classmethod
    def of(cls, path: Path) -> Setup:
        """The setup that a file has. Its last line may lack its end."""
        return cls(path.read_bytes().splitlines())

    def answered(self, replies: Sequence[str]) -> None:
        """Notes what the replies say. One that is a refusal is raised."""
        self.replies, self.lengths, self.machines = list(replies), {}, 0
        for number, (line, reply) in enumerate(zip(self.lines, replies), 1):
            if REFUSAL.fullmatch(reply):
                why = why_bad(line.decode("ascii", "replace")) if reply == "bad" else ""
                raise Refused(f"line {number} of the setup was answered {reply!r}{why and f': {why}'}")
            if (made := MADE.read(reply)) is not None:
                self.lengths[made] = int(line.split()[1], 0)
            elif (freed := FREED.read(reply)) is not None:
                self.lengths.pop(freed, None)
            elif SHIPPED.read(reply) is not None:
                self.machines += 1


class Upstream:
    """A started agent with its connections."""

    def __init__(self, process: asyncio.subprocess.Process, folder: Path, setup: Setup, wires: Wires, heard: Callable[[str], None]) -> None:
        self.process, self._folder, self.setup, self._wires = process, folder, setup, wires
        self.lanes: list[Lane] = []
        self.has_ended = False
        self._heard = heard
        self._ended: Callable[[], None] = lambda: None
        self._told: deque[str] = deque(maxlen=KEPT)
        self._errors = asyncio.ensure_future(self._read_errors())

    @classmethod
    async def start(
        cls, program: Path, arguments: Iterable[str], setup: Setup, wires: Wires, heard: Callable[[str], None], ended: Callable[[], None]
    ) -> Upstream:
        """Starts an agent, does its setup, and takes all its connections. `heard` gets each line of its standard error, and `ended` is
        called once if it ends before it is closed. Raises `Refused` or `Broken`, and leaves nothing behind then."""
        folder = private_folder()
        words = ["serve", "--unix", os.fspath(folder / SOCKET), "--connections", str(CONNECTIONS), *telling([*arguments])]
        try:
            process = await asyncio.create_subprocess_exec(
                os.fspath(program), *words, stdin=asyncio.subprocess.PIPE, stdout=asyncio.subprocess.PIPE, stderr=asyncio.subprocess.PIPE,
                limit=LINE_LIMIT, env=environment(), start_new_session=True,
            )
        except BaseException:
            folder.rmdir()
            raise
        made = cls(process, folder, setup, wires, heard)
        try:
            await asyncio.wait_for(made._begin(), START_SECONDS)
        except BaseException as why:
            await made.kill()
            if isinstance(why, asyncio.TimeoutError):
                raise Broken(f"the agent didn't listen within {START_SECONDS:g} seconds") from None
            raise
        made._ended = ended
        return made

    async def _begin(self) -> None:
        """Does the setup, and takes all connections. Each has to answer, since another process of this user may have taken one before."""
        await self._listens()
        for _ in range(CONNECTIONS):
            connecting = socket.socket(socket.AF_UNIX, socket.SOCK_STREAM)
            connecting.setblocking(False)
            await asyncio.get_running_loop().sock_connect(connecting, os.fspath(self._folder / SOCKET))
            self.lanes.append(Lane(self._wires, connecting, self._lost))
        await asyncio.gather(*(lane.tell([GREETING]) for lane in self.lanes))

    async def _listens(self) -> None:
        """Does the setup, and waits until the agent listens."""
        assert self.process.stdin and self.process.stdout
        sending = asyncio.ensure_future(self._send_setup(self.process.stdin))
        replies: list[str] = []
        try:
            while True:
                line = (await self.process.stdout.readline()).decode("ascii", "replace")
                if not line.endswith("\n"):
                    status = await self.process.wait()
                    await asyncio.wait([self._errors], timeout=GRACE)
                    raise Broken(f"the agent ended with status {status} before it listened{reason_of(self._told)}")
                if LISTENING.fullmatch(line[:-1]):
                    self.setup.answered(replies)
                    return
                replies.append(line[:-1])
        finally:
            sending.cancel()
            await asyncio.gather(sending, return_exceptions=True)

    async def _send_setup(self, stream: asyncio.StreamWriter) -> None:
        for at in range(0, len(self.setup.lines), AT_ONCE):
            stream.write(b"".join([line + b"\n" for line in self.setup.lines[at : at + AT_ONCE]]))
            await stream.drain()
        stream.close()

    def _lost(self) -> None:
        """A connection has ended. The agent is told of once."""
        self.has_ended = True
        ended, self._ended = self._ended, lambda: None
        ended()

    async def _read_errors(self) -> None:
        assert self.process.stderr
        while line := await self.process.stderr.readline():
            self._told.append(line.decode("utf-8", "backslashreplace").rstrip("\n"))
            self._heard(self._told[-1])

    @property
    def of_objects(self) -> Lane:
        """The connection of all clients that only give commands on objects."""
        return self.lanes[0]

    def of_machines(self) -> Lane:
        """A connection for a client with machines: that with the fewest clients."""
        return min(self.lanes[1:-1], key=lambda lane: lane.clients)

    @property
    def silence(self) -> float:
        """For how long a reply has been awaited, in seconds."""
        return max(lane.silence for lane in self.lanes)

    async def close(self) -> tuple[int, bytes]:
        """Ends all connections, and gives the agent's status and the state that it tells at its end."""
        self._ended = lambda: None
        for lane in self.lanes:
            lane.close()
        assert self.process.stdout
        try:
            told = await asyncio.wait_for(self.process.stdout.read(), END_SECONDS)
            return await asyncio.wait_for(self.process.wait(), END_SECONDS), told
        except asyncio.TimeoutError:
            raise Broken(f"the agent didn't end within {END_SECONDS:g} seconds, and was killed") from None
        finally:
            await self.kill()

    async def kill(self) -> None:
        """Ends the agent by force, if it hasn't ended."""
        self._ended = lambda: None
        with contextlib.suppress(ProcessLookupError):
            self.process.kill()
        for lane in self.lanes:
            lane.abort()
        # Whoever waits for a reply is told first.
        await asyncio.sleep(0)
        await self.process.wait()
        await self._errors
        shutil.rmtree(self._folder, ignore_errors=True)

    # ---- what it has

    async def states(self) -> dict[int, str]:
        """The state of each machine, by its number."""
        replies = [reply.split() for reply in await self.lanes[-1].tell([b"regs %d" % number for number in range(1, MACHINES + 1)])]
        return {int(words[1]): words[4].decode("ascii", "replace") for words in replies if words[0] == b"regs"}

    async def read(self) -> Bytes:
        """The bytes of all objects. Others may write in between."""
        objects = {number: bytearray(length) for number, length in self.setup.lengths.items()}

        async def take(_: int, pieces: Sequence[Piece], digits: Sequence[bytes]) -> None:
            note(objects, pieces, digits)

        await self._read(take)
        return {number: bytes(content) for number, content in objects.items()}

    async def move_to(self, other: Upstream) -> Bytes:
        """Writes the bytes of all objects to another agent, as they are read, and gives them."""
        objects = {number: bytearray(length) for number, length in self.setup.lengths.items()}

        async def take(which: int, pieces: Sequence[Piece], digits: Sequence[bytes]) -> None:
            note(objects, pieces, digits)
            await other._put(which, pieces, digits)

        await self._read(take)
        return {number: bytes(content) for number, content in objects.items()}

    async def write(self, objects: Mapping[int, bytes]) -> None:
        """Writes the bytes of objects, each of which has the length that the setup gave it."""
        pieces = pieces_of({number: len(content) for number, content in objects.items()})

        async def put(which: int) -> None:
            for some in chunks(pieces[which :: len(self.lanes)]):
                await self._put(which, some, [objects[number][at : at + length].hex().encode() for number, at, length in some])

        await asyncio.gather(*(put(which) for which in range(len(self.lanes))))

    async def _read(self, take: Callable[[int, Sequence[Piece], Sequence[bytes]], Awaitable[None]]) -> None:
        """Reads all objects, by all connections at once. `take` gets the connection's place, pieces, and their bytes in hex."""
        pieces = pieces_of(self.setup.lengths)

        async def get(which: int, lane: Lane) -> None:
            for some in chunks(pieces[which :: len(self.lanes)]):
                replies = await patiently(lane, [b"get %d %d %d" % piece for piece in some])
                for piece, reply in zip(some, replies):
                    if not reply.startswith(BYTES):
                        raise Broken(f"a get of object {piece[0]} was answered {reply[:60]!r}")
                await take(which, some, [reply[len(BYTES) :] for reply in replies])

        await asyncio.gather(*(get(which, lane) for which, lane in enumerate(self.lanes)))

    async def _put(self, which: int, pieces: Sequence[Piece], digits: Sequence[bytes]) -> None:
        """Writes pieces of objects by one of the connections."""
        lines = [b"put %d %d %b" % (number, at, content) for (number, at, _), content in zip(pieces, digits)]
        for piece, reply in zip(pieces, await patiently(self.lanes[which], lines)):
            if reply != b"ok":
                raise Broken(f"a put to object {piece[0]} was answered {reply[:60]!r}")


def note(objects: Mapping[int, bytearray], pieces: Sequence[Piece], digits: Sequence[bytes]) -> None:
    """Keeps pieces of objects that were read in hex."""
    for (number, at, length), content in zip(pieces, digits):
        objects[number][at : at + length] = bytes.fromhex(content.decode("ascii"))


def pieces_of(lengths: Mapping[int, int]) -> list[Piece]:
    """The pieces of objects of these lengths that one command reads or writes."""
    return [(number, at, min(PIECE, length - at)) for number, length in lengths.items() for at in range(0, length, PIECE)]


def chunks(pieces: Sequence[Piece]) -> Iterator[Sequence[Piece]]:
    """Pieces that are asked for at once."""
    for at in range(0, len(pieces), AT_ONCE):
        yield pieces[at : at + AT_ONCE]


async def patiently(lane: Lane, lines: Sequence[bytes]) -> list[bytes]:
    """The replies to lines, each of which is asked again while its object is away or in use."""
    replies = await lane.tell(lines)
    left = [index for index, reply in enumerate(replies) if reply.startswith(AWAY)]
    pause, until = FIRST_PAUSE, time.monotonic() + PATIENCE
    while left:
        if time.monotonic() > until:
            raise Broken(f"object {int(lines[left[0]].split()[1])} doesn't come back")
        await asyncio.sleep(pause)
        pause = min(2 * pause, LAST_PAUSE)
        for index, reply in zip(left, await lane.tell([lines[index] for index in left])):
            replies[index] = reply
        left = [index for index in left if replies[index].startswith(AWAY)]
    return replies

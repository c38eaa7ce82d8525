"""Connections to the agent, each shared by many askers."""
from __future__ import annotations

import asyncio
import socket
import time
from collections import deque
from typing import Callable, Optional, Protocol, Sequence

from ..replies import Broken
from .wires import Wire, Wires


class Asker(Protocol):
    """Who awaits replies."""

    def answered(self, replies: bytes) -> None:
        """All replies to what was asked."""

    def lost(self, replies: bytes) -> None:
        """The connection has ended, and only these have come."""


class Future:
    """Replies that a coroutine awaits."""

    def __init__(self) -> None:
        self.replies: asyncio.Future[bytes] = asyncio.get_running_loop().create_future()

    def answered(self, replies: bytes) -> None:
        """They have come."""
        if not self.replies.done():
            self.replies.set_result(replies)

    def lost(self, replies: bytes) -> None:
        """They don't come."""
        if not self.replies.done():
            self.replies.set_exception(Broken("the agent ended the conversation"))


def end_of_lines(content: bytes, start: int, most: int) -> tuple[int, int]:
    """How many lines, at most so many, are whole from this place on, and where the last of them ends."""
    count, end = 0, start
    while count < most:
        found = content.find(b"\n", end)
        if found < 0:
            break
        count, end = count + 1, found + 1
    return count, end


class Lane:
    """A connection to the agent. Its replies come in order, so the next one belongs to who has waited longest."""

    def __init__(self, wires: Wires, made: socket.socket, ended: Callable[[], None]) -> None:
        self.clients = 0
        self._ended = ended
        # Who waits, each for how many replies. The first one may have got some of them.
        self._waiting: deque[tuple[int, Asker]] = deque()
        self._got, self._count = b"", 0
        self._unsent: list[bytes] = []
        self._rest = b""
        self._is_over = False
        self._since = time.monotonic()
        self._wires, self._wire = wires, Wire(wires, made, self)

    def ask(self, lines: bytes, count: int, asker: Asker) -> None:
        """Sends so many lines. `asker` gets their replies together, or those that came before the connection ended."""
        if self._is_over:
            asyncio.get_running_loop().call_soon(asker.lost, b"")
            return
        if not self._waiting:
            self._since = time.monotonic()
        self._wires.awaited += 1
        self._waiting.append((count, asker))
        self._unsent.append(lines)
        if len(self._unsent) == 1:
            self._wires.at_end(self._send)

    def _send(self) -> None:
        """Sends what all have asked in this turn."""
        lines, self._unsent = self._unsent, []
        self._wire.write(lines[0] if len(lines) == 1 else b"".join(lines))

    async def tell(self, lines: Sequence[bytes]) -> list[bytes]:
        """The replies to these lines."""
        future = Future()
        self.ask(b"".join([line + b"\n" for line in lines]), len(lines), future)
        return (await future.replies).splitlines()

    @property
    def silence(self) -> float:
        """For how long a reply has been awaited, in seconds."""
        return time.monotonic() - self._since if self._waiting else 0.0

    # ---- from the agent

    def data_received(self, data: bytes) -> None:
        """Gives each asker its replies."""
        content, at, waiting = self._rest + data if self._rest else data, 0, self._waiting
        while waiting:
            count, asker = waiting[0]
            if count == 1:
                done, end = 1, content.find(b"\n", at) + 1
                if not end:
                    break
            elif len(waiting) == 1 and not self._count and content.count(b"\n", at) == count and content.endswith(b"\n"):
                done, end = count, len(content)
            else:
                done, end = end_of_lines(content, at, count - self._count)
            if self._count + done < count:
                self._got, self._count = self._got + content[at:end], self._count + done
                at = end
                break
            replies, self._got, self._count = self._got + content[at:end], b"", 0
            waiting.popleft()
            self._wires.awaited -= 1
            asker.answered(replies)
            at = end
        self._rest = content[at:]
        self._since = time.monotonic()

    def eof_received(self) -> Optional[bool]:
        """The agent ends the connection."""
        return False

    def pause_writing(self) -> None:
        """The agent is behind. Each client has a bounded number of lines on their way."""

    def resume_writing(self) -> None:
        """The agent has read all."""

    def connection_lost(self, exc: Optional[Exception]) -> None:
        """The agent has gone: nobody who waits is answered."""
        self._is_over = True
        waiting, self._waiting = self._waiting, deque()
        self._wires.awaited -= len(waiting)
        for _, asker in waiting:
            asker.lost(self._got)
            self._got = b""
        self._ended()

    def close(self) -> None:
        """Ends the connection."""
        self._wire.close()

    def abort(self) -> None:
        """Ends it at once."""
        self._wire.abort()

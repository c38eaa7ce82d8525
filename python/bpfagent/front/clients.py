"""The front's clients: each line has its one reply, in order, and nobody holds another up."""
from __future__ import annotations

import asyncio
import enum
import hmac
import time
from typing import Optional, Protocol, cast

from .lanes import Lane, end_of_lines
from .numbers import Numbers
from .wires import Transport

# As many lines and bytes of a client are on their way at once. More are read when these have been answered.
LINES, PIECE = 64, 1 << 16
# As many bytes of a client wait before it isn't read any more.
MOST = 1 << 18
# The longest line that the agent reads. It answers `bad` to a longer one, and so does it to this.
LINE_LIMIT, TOO_LONG = 70_000, b"?\n"
# Commands on objects. Who gives another one knows machines of this agent.
OF_OBJECTS = (b"get ", b"put ", b"leave ", b"return ")
TOKEN = b"token "
LET_IN, DENIED, CUT = b"ok\n", b"denied\n", b"cut\n"


class Gone(enum.Enum):
    """Why a client went."""

    ENDED = "ended"
    FAILED = "failed"
    DENIED = "denied"
    UNREAD = "unread"
    REPLACED = "replaced"
    CLOSING = "closing"


class Host(Protocol):
    """What a client asks of the front."""

    numbers: Numbers
    token: Optional[bytes]
    client_seconds: float
    # Whether nothing is sent to the agent now.
    is_held: bool

    def came(self, client: Client) -> bool:
        """A client came; whether it is served."""

    def went(self, client: Client, why: Gone) -> None:
        """A client went."""

    def lane_of(self, client: Client, lines: bytes, count: int) -> Lane:
        """The agent's connection to which so many lines of a client go."""

    def takes(self, client: Client, lines: bytes, replies: bytes) -> bool:
        """Notes what was answered. False if the lines have to wait for the next agent."""

    def can_go_on(self, client: Client) -> bool:
        """Whether the next agent has all that a client knows, now that this one has gone."""


def is_of_objects(lines: bytes, count: int) -> bool:
    """Whether so many lines all are commands on objects."""
    return lines.startswith(OF_OBJECTS) and (count == 1 or all(line.startswith(OF_OBJECTS) for line in lines.splitlines()))


def whole_lines(content: bytes) -> int:
    """How many lines these bytes are, if they are whole ones that may go at once; otherwise 0."""
    count = content.count(b"\n")
    return count if count <= LINES and len(content) <= PIECE and content.endswith(b"\n") else 0


class Client(asyncio.Protocol):
    """A client's connection."""

    def __init__(self, host: Host, door: str) -> None:
        self._host, self.door = host, door
        self._transport: Optional[Transport] = None
        self._timer: Optional[asyncio.TimerHandle] = None
        self._numbers = host.numbers
        self._waiting = self._sent = b""
        self._since, self._count = 0.0, 0
        self._is_skipping = self._has_ended = self._is_unread = self._is_closing = self._is_paused = False
        self._is_let_in = host.token is None
        self._why = Gone.ENDED
        self.lane: Optional[Lane] = None
        # Whether it has given a command that isn't one on an object, and whether it has seen an object whose bytes the front can't keep.
        self.knows_machines = self.knows_unkept = False
        # Whether the lines that are on their way are the first such ones.
        self.is_first = False
        # Whether lines are on their way, and whether those that come wait for the next agent.
        self.is_busy = self.is_stalled = False

    def connection_made(self, transport: asyncio.BaseTransport) -> None:
        """The client came, by TLS. A write has to be known as unread at once."""
        # That of uvloop is one by its methods alone.
        self.begin(cast(Transport, transport))
        cast(asyncio.WriteTransport, transport).set_write_buffer_limits(high=1, low=0)

    def begin(self, transport: Transport) -> None:
        """The client came."""
        self._transport = transport
        if not self._host.came(self):
            transport.abort()
        elif not self._is_let_in:
            self._bound(Gone.DENIED)

    def _bound(self, why: Gone) -> None:
        """Drops the client after a while, unless it is let go on before."""
        self._timer = asyncio.get_running_loop().call_later(self._host.client_seconds, self.drop, why)

    def _unbound(self) -> None:
        if self._timer:
            self._timer.cancel()
            self._timer = None

    def drop(self, why: Gone) -> None:
        """Ends the connection at once."""
        self._why = why
        if self._transport:
            self._transport.abort()

    def close(self, why: Gone) -> None:
        """Ends the connection once what was sent to the agent has been answered."""
        if not self._is_closing:
            self._why, self._is_closing = why, True
            self._unbound()
            self._bound(why)
        if not self.is_busy and self._transport:
            self._transport.close()

    # ---- from the client

    def data_received(self, data: bytes) -> None:
        """Bytes came."""
        self._numbers.bytes_in += len(data)
        # Mostly a client that awaits nothing sends a whole line or some. They go on at once.
        if not (self._waiting or self.is_busy or self._is_skipping) and self._is_free() and (count := whole_lines(data)):
            self._send(data, count)
            return
        if self._is_closing:
            return
        if self._is_skipping:
            data = self._skipped(data)
        self._waiting = self._waiting + data if self._waiting else data
        if not self._is_let_in:
            self._read_token()
        if not self.is_busy:
            self.go_on()
        elif len(self._waiting) > MOST:
            self._pace()

    def _skipped(self, data: bytes) -> bytes:
        """What follows a line that was too long."""
        _, end, rest = data.partition(b"\n")
        self._is_skipping = not end
        return rest

    def _read_token(self) -> None:
        """Looks whether the first line is the token."""
        line, end, rest = self._waiting.partition(b"\n")
        if not (end or self._has_ended) and len(line) <= LINE_LIMIT:
            return
        token = self._host.token
        assert token is not None and self._transport
        if end and hmac.compare_digest(line, TOKEN + token):
            self._unbound()
            self._is_let_in, self._waiting = True, rest
            self._transport.write(LET_IN)
        else:
            self._waiting = b""
            self._transport.write(DENIED)
            self.close(Gone.DENIED)

    def eof_received(self) -> bool:
        """The client sends nothing more. It still gets its replies, but by TLS, which ends in both directions."""
        self._has_ended = True
        if not (self._is_let_in or self._is_closing):
            self._read_token()
        self.go_on()
        return self.door != "tls"

    def pause_writing(self) -> None:
        """The client doesn't read: it is held back, and dropped after a while."""
        self._is_unread = True
        if not self._timer:
            self._bound_unread()

    def _bound_unread(self) -> None:
        unread = self._transport.get_write_buffer_size() if self._transport else 0
        self._timer = asyncio.get_running_loop().call_later(self._host.client_seconds, self._drop_unread, unread)

    def _drop_unread(self, before: int) -> None:
        """Drops the client, unless it has read some of what was unread before."""
        if self._transport and self._transport.get_write_buffer_size() < before:
            self._bound_unread()
        else:
            self.drop(Gone.UNREAD)

    def resume_writing(self) -> None:
        """The client reads again."""
        self._is_unread = False
        if not self._is_closing:
            self._unbound()
        self.go_on()

    def connection_lost(self, exc: Optional[Exception]) -> None:
        """The client has gone."""
        self._unbound()
        self.leave_lane()
        self._transport, self._waiting = None, b""
        self._host.went(self, Gone.FAILED if (exc or self.is_busy) and self._why is Gone.ENDED else self._why)

    # ---- to the agent

    def _is_free(self) -> bool:
        """Whether lines of this client may go to the agent."""
        return self._transport is not None and self._is_let_in and not (self.is_stalled or self._is_unread or self._is_closing or self._host.is_held)

    def go_on(self) -> None:
        """Sends what has come to the agent, if nothing of this client is on its way."""
        if not self.is_busy and self._is_free():
            self._send_next()
        if self._is_paused or len(self._waiting) > MOST:
            self._pace()

    def _send_next(self) -> None:
        assert self._transport
        lines, count = self._next_lines()
        if count:
            self._send(lines, count)
        elif self._has_ended:
            if self._waiting or self._is_skipping:
                self._transport.write(CUT)
            self._transport.close()

    def _next_lines(self) -> tuple[bytes, int]:
        """The next whole lines that may go, and how many."""
        waiting = self._waiting
        if count := whole_lines(waiting):
            self._waiting = b""
            return waiting, count
        count, end = end_of_lines(waiting[:PIECE], 0, LINES)
        if not count:
            count, end = end_of_lines(waiting, 0, 1)
        if not count and len(waiting) > LINE_LIMIT:
            self._waiting, self._is_skipping = b"", True
            return TOO_LONG, 1
        self._waiting = waiting[end:]
        return waiting[:end], count

    def _send(self, lines: bytes, count: int) -> None:
        self.is_busy, self._sent, self._count, self._since = True, lines, count, time.perf_counter()
        self._host.lane_of(self, lines, count).ask(lines, count, self)

    def answered(self, replies: bytes) -> None:
        """The agent's replies to the lines that were on their way."""
        self.is_busy = False
        self._numbers.timed(time.perf_counter() - self._since, self._count)
        if not self._host.takes(self, self._sent, replies):
            self._waiting = self._sent + self._waiting
            return
        if self._transport is None:
            return
        self._transport.write(replies)
        if self._is_closing:
            self._transport.close()
        elif self._waiting or self._has_ended:
            self.go_on()

    def lost(self, replies: bytes) -> None:
        """The agent has gone, and has answered these of the lines that were on their way. The next agent gets the others."""
        self.is_busy = False
        if self._transport is None:
            return
        if self._is_closing or not self._host.can_go_on(self):
            self.drop(Gone.CLOSING if self._is_closing else Gone.REPLACED)
            return
        done, end = end_of_lines(self._sent, 0, replies.count(b"\n"))
        if done:
            self._host.takes(self, self._sent[:end], replies)
            self._transport.write(replies)
        self._waiting = self._sent[end:] + self._waiting

    def leave_lane(self) -> None:
        """Has the next lines go to another connection. Nothing of this client is on its way."""
        if self.lane:
            self.lane.clients -= 1
            self.lane = None

    def leave_agent(self) -> None:
        """Has the next lines go to another agent."""
        self.leave_lane()
        self.is_stalled = self.knows_machines = self.knows_unkept = False

    def _pace(self) -> None:
        """Reads no more of the client while enough waits."""
        if self._transport is None or self._transport.is_closing() or self._has_ended:
            return
        is_much = len(self._waiting) > MOST
        if is_much != self._is_paused:
            self._is_paused = is_much
            if is_much:
                self._transport.pause_reading()
            else:
                self._transport.resume_reading()

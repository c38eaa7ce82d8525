"""Plain sockets, all in one epoll that the loop watches.

A loop's own transport takes several calls for each event. Here all sockets that are ready are read in one turn, and what goes to the agent is
sent at the turn's end, together.
"""
from __future__ import annotations

import asyncio
import contextlib
import select
import socket
import time
from typing import Callable, Optional, Protocol

# As much is read at once, of so many sockets in a turn. After so many seconds of turns the loop does something else.
PIECE, SOCKETS, TURNS = 1 << 16, 256, 0.002
# While replies are awaited a turn waits so long for events, in seconds, before the loop waits for them.
SHORT = 0.001
READABLE, WRITABLE, BROKEN = select.EPOLLIN, select.EPOLLOUT, select.EPOLLHUP | select.EPOLLERR
# How long a connection that is closed is still read, in seconds. A TCP connection with bytes that nobody read would lose the last replies.
LINGER = 1.0


class Far(Protocol):
    """Who has a connection. An `asyncio.Protocol` is one."""

    def data_received(self, data: bytes, /) -> None:
        """Bytes came."""

    def eof_received(self) -> Optional[bool]:
        """No more bytes come. The connection stays, for replies, if this is true."""

    def connection_lost(self, exc: Optional[Exception], /) -> None:
        """The connection is over."""

    def pause_writing(self) -> None:
        """The other side doesn't read."""

    def resume_writing(self) -> None:
        """It has read everything."""


class Transport(Protocol):
    """What a client and a lane use of their connection. An `asyncio.Transport` is one."""

    def write(self, data: bytes, /) -> None:
        """Sends bytes, or keeps them until the other side reads."""

    def close(self) -> None:
        """Ends the connection when all bytes are sent."""

    def abort(self) -> None:
        """Ends it at once."""

    def is_closing(self) -> bool:
        """Whether it is being closed."""

    def get_write_buffer_size(self) -> int:
        """How many bytes the other side hasn't taken yet."""

    def pause_reading(self) -> None:
        """Reads no more."""

    def resume_reading(self) -> None:
        """Reads again."""


class Wires:
    """The sockets of a loop."""

    def __init__(self) -> None:
        self._loop = asyncio.get_running_loop()
        self._epoll = select.epoll()
        self._ready: dict[int, Callable[[int], None]] = {}
        self._last: list[Callable[[], None]] = []
        self._is_turning = False
        # How many replies are awaited, and how many connections the loop itself serves.
        self.awaited = self.others = 0
        self._loop.add_reader(self._epoll.fileno(), self._turn)

    def watch(self, number: int, ready: Callable[[int], None]) -> None:
        """Calls this with the events of a descriptor, once it can be read."""
        self._ready[number] = ready
        self._epoll.register(number, READABLE)

    def change(self, number: int, events: int) -> None:
        """Which events of a descriptor count. One that is broken always tells."""
        self._epoll.modify(number, events)

    def forget(self, number: int) -> None:
        """Looks at a descriptor no more."""
        del self._ready[number]
        self._epoll.unregister(number)

    def at_end(self, call: Callable[[], None]) -> None:
        """Calls this once all sockets of this turn have been read."""
        self._last.append(call)
        if not self._is_turning and len(self._last) == 1:
            self._loop.call_soon(self._finish)

    def _turn(self) -> None:
        self._is_turning = True
        until, ready_of, wait = time.monotonic() + TURNS, self._ready.get, 0.0
        try:
            while found := self._epoll.poll(wait, SOCKETS):
                for number, events in found:
                    if ready := ready_of(number):
                        ready(events)
                if self._last:
                    self._finish()
                if time.monotonic() > until:
                    break
                wait = SHORT if self.awaited and not self.others else 0.0
        finally:
            self._is_turning = False
            if self._last:
                self._loop.call_soon(self._finish)

    def _finish(self) -> None:
        calls, self._last = self._last, []
        for call in calls:
            call()

    def close(self) -> None:
        """Looks at no socket any more."""
        self._loop.remove_reader(self._epoll.fileno())
        self._epoll.close()


class Wire:
    """A connected socket, as a `Transport`."""

    def __init__(self, wires: Wires, made: socket.socket, far: Far) -> None:
        made.setblocking(False)
        if made.family != socket.AF_UNIX:
            made.setsockopt(socket.IPPROTO_TCP, socket.TCP_NODELAY, 1)
        self._wires, self._socket, self._far = wires, made, far
        self._number, self._receive, self._send = made.fileno(), made.recv, made.send
        self._unsent = bytearray()
        self._events = READABLE
        self._is_paused = self._has_ended = self._is_closing = self._is_over = self._is_read_out = False
        wires.watch(self._number, self._ready)

    # ---- from the other side

    def _ready(self, events: int) -> None:
        if events & WRITABLE:
            self._write_on()
        if not events & READABLE or self._has_ended:
            if events & BROKEN:
                # Nobody gets what is still to be sent.
                self._end(None if self._has_ended and not self._unsent else ConnectionResetError("the connection was reset"))
            return
        try:
            data = self._receive(PIECE)
        except BlockingIOError:
            return
        except OSError as why:
            self._end(why)
            return
        if not data:
            self._read_all()
        elif not self._is_closing:
            self._far.data_received(data)

    def _read_all(self) -> None:
        """The other side sends nothing more."""
        self._has_ended = True
        self._listen()
        if self._is_closing:
            self._end_if_sent()
        elif not self._far.eof_received():
            self.close()

    def _listen(self) -> None:
        """Has the events that are needed now."""
        is_read = not self._has_ended and (not self._is_paused or self._is_closing)
        events = (READABLE if is_read else 0) | (WRITABLE if self._unsent else 0)
        if events != self._events and not self._is_over:
            self._events = events
            self._wires.change(self._number, events)

    def pause_reading(self) -> None:
        """Reads no more."""
        self._is_paused = True
        self._listen()

    def resume_reading(self) -> None:
        """Reads again."""
        self._is_paused = False
        self._listen()

    # ---- to the other side

    def write(self, data: bytes) -> None:
        """Sends bytes. Those that the other side doesn't take yet are kept, and it counts as one that doesn't read."""
        if self._is_over:
            return
        if self._unsent:
            self._unsent += data
            return
        try:
            sent = self._send(data)
        except BlockingIOError:
            sent = 0
        except OSError as why:
            asyncio.get_running_loop().call_soon(self._end, why)
            return
        if sent < len(data):
            self._unsent = bytearray(data[sent:])
            self._listen()
            self._far.pause_writing()

    def get_write_buffer_size(self) -> int:
        """How many bytes are kept."""
        return len(self._unsent)

    def _write_on(self) -> None:
        """Sends more of what was kept."""
        try:
            sent = self._send(self._unsent)
        except BlockingIOError:
            return
        except OSError as why:
            self._end(why)
            return
        del self._unsent[:sent]
        if not self._unsent:
            self._listen()
            if self._is_closing:
                self._end_if_sent()
            else:
                self._far.resume_writing()

    # ---- the end

    def is_closing(self) -> bool:
        """Whether it is being closed."""
        return self._is_closing or self._is_over

    def close(self) -> None:
        """Ends the connection when all bytes are sent, and the other side has ended it too or was given a while to do so."""
        if not self.is_closing():
            self._is_closing = True
            self._listen()
            self._end_if_sent()

    def _end_if_sent(self) -> None:
        if self._unsent:
            return
        if self._has_ended:
            asyncio.get_running_loop().call_soon(self._end, None)
        elif not self._is_read_out:
            self._is_read_out = True
            with contextlib.suppress(OSError):
                self._socket.shutdown(socket.SHUT_WR)
            asyncio.get_running_loop().call_later(LINGER, self._end, None)

    def abort(self) -> None:
        """Ends the connection at once."""
        self._is_closing = True
        asyncio.get_running_loop().call_soon(self._end, None)

    def _end(self, why: Optional[Exception]) -> None:
        if self._is_over:
            return
        self._is_over = True
        self._wires.forget(self._number)
        self._socket.close()
        self._far.connection_lost(why)

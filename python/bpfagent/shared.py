"""An agent for several threads at once, over one connection."""
from __future__ import annotations

import threading
import time
from collections import deque
from typing import Callable, Optional, Sequence

from .agent import Agent
from .replies import Broken
from .streams import Stream


class Ticket:
    """The replies that a thread awaits. Its gate opens when they are there, or when the thread is the one that has to read."""

    __slots__ = ("answers", "count", "gate", "since")

    def __init__(self, count: int, since: float) -> None:
        self.count, self.since = count, since
        self.answers: list[str] = []
        self.gate = threading.Lock()
        self.gate.acquire()

    @property
    def is_done(self) -> bool:
        """Whether all replies are there."""
        return len(self.answers) == self.count


class SharedAgent(Agent):
    """An agent for several threads at once. Lines that a thread sends together stay together.

    Nobody reads but the threads that await replies. One of them reads for all, until it has its own; then the next one does.
    """

    def __init__(self, stream: Stream, end: Callable[[], None], timeout: Optional[float] = None) -> None:
        """As of an `Agent`."""
        super().__init__(stream, end, timeout)
        # Guards what follows; and a second one, that lines are sent in the order of their tickets.
        self._guard, self._sending = threading.Lock(), threading.Lock()
        self._tickets: deque[Ticket] = deque()
        self._is_read = False

    def exchange(self, lines: Sequence[str]) -> list[str]:
        """Sends lines in one packet, and gives their replies. They are ASCII, without line ends, and as short as their replies: many are
        on the way before one is read."""
        return self._exchange(("\n".join(lines) + "\n").encode("ascii"), len(lines))

    def _exchange(self, content: bytes, count: int) -> list[str]:
        ticket = Ticket(count, time.monotonic())
        if not self._sent(content, ticket):
            self._wait(ticket)
        if len(ticket.answers) < count:
            self._read_for_all(ticket)
        return ticket.answers

    def _sent(self, content: bytes, ticket: Ticket) -> bool:
        """Sends lines, whose replies a ticket awaits; whether nobody else reads, so that this thread has to."""
        with self._sending:
            with self._guard:
                if self._fault:
                    raise Broken(self._fault)
                self._tickets.append(ticket)
                reads, self._is_read = not self._is_read, True
            try:
                with self._faults:
                    self._stream.send(content, self._until(ticket.since))
            except BaseException:
                if reads:
                    self._hand_on()
                raise
        return reads

    def _wait(self, ticket: Ticket) -> None:
        """Waits until the replies are there, or this thread is the one that has to read them."""
        try:
            ticket.gate.acquire()
        except BaseException:
            with self._guard:
                self._fault = self._fault or "it was interrupted while a reply was awaited"
                is_to_read = ticket.gate.acquire(blocking=False) and not ticket.is_done
            if is_to_read:
                self._hand_on()
            raise
        if self._fault and not ticket.is_done:
            # This thread may have been the one to read, and the others wait for it.
            self._hand_on()
            raise Broken(self._fault)

    def _read_for_all(self, own: Ticket) -> None:
        """Reads until the own replies are there, and hands the reading on."""
        try:
            with self._faults:
                while len(own.answers) < own.count:
                    first = self._tickets[0]
                    while len(first.answers) < first.count:
                        first.answers.append(self._reply(own.since))
                    self._tickets.popleft()
                    first.gate.release()
        finally:
            self._hand_on()

    def _hand_on(self) -> None:
        """The thread that waits longest reads next. If nothing can be read any more, all of them go on."""
        with self._guard:
            if self._fault:
                for ticket in self._tickets:
                    ticket.gate.release()
                self._tickets.clear()
            elif self._tickets:
                self._tickets[0].gate.release()
            else:
                self._is_read = False

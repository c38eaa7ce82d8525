"""Replies of something else than Redis to the gateway."""
from __future__ import annotations

import contextlib
import random
import re
import socket
import sys
import threading
from typing import Any, Callable, Sequence

from bpfagent.far import LIMIT
from bpfagent.health import Unkept, say

from hostile.changes import changed
from hostile.frame import OTHERS, Answer, Forked

# What stands between two replies of a case.
NEXT = b"\n====\n"
# The port of a case's nodes, which is that of the stand-in, and how long a reply is awaited that isn't whole, in seconds.
NODE, PATIENCE = b":7000\r", 0.1
# To how many connections a case is told at most.
CONNECTIONS = 20


class StandIn(threading.Thread):
    """Answers each command with the next reply. A connection whose reply isn't a whole line ends, as one of a Redis that has died."""

    def __init__(self, replies: Sequence[bytes]) -> None:
        super().__init__(daemon=True)
        self.replies = list(replies)
        self.listener = socket.create_server(("127.0.0.1", 0))
        self.port: int = self.listener.getsockname()[1]
        self.start()

    def run(self) -> None:
        for _ in range(CONNECTIONS):
            threading.Thread(target=self._answer, args=(self.listener.accept()[0],), daemon=True).start()
        self.listener.close()

    def _answer(self, stream: socket.socket) -> None:
        with stream, stream.makefile("rb") as reader, contextlib.suppress(OSError, ValueError):
            while self._is_asked(reader) and self.replies:
                reply = self.replies.pop(0)
                stream.sendall(reply)
                if not reply.endswith(b"\r\n"):
                    break

    @staticmethod
    def _is_asked(reader: Any) -> bool:
        """Reads a command; whether there was one."""
        head = reader.readline()
        for _ in range(int(head[1:]) if head else 0):
            reader.read(int(reader.readline()[1:]) + 2)
        return bool(head)


class Gateway(Forked):
    """What the gateway makes of the replies of Redis."""

    name = "gateway"
    wait = OTHERS

    def mutated(self, chance: random.Random, corpus: Sequence[bytes]) -> bytes:
        """Replies that are changed, left out or come twice."""
        replies = chance.choice(corpus).split(NEXT)
        for _ in range(chance.choice((1, 1, 2, 4))):
            at = chance.randrange(len(replies))
            roll = chance.random()
            if roll < 0.1:
                replies.insert(at, replies[at])
            elif roll < 0.2 and len(replies) > 1:
                replies.pop(at)
            else:
                ends = b"\r\n" if chance.random() < 0.7 else b""
                replies[at] = changed(chance, replies[at], corpus).removesuffix(ends) + ends
        return NEXT.join(replies)

    def show(self, case: bytes) -> None:
        """Each of the calls that the gateway makes, again and again as long as there are replies."""
        from bpfagent import redisclient

        server = StandIn(())
        server.replies += case.replace(NODE, b":%d\r" % server.port).split(NEXT)
        redisclient.REPLY = PATIENCE
        connect = socket.socket.connect

        def only_there(made: socket.socket, address: Any) -> None:
            """No other server is asked, whatever the replies name."""
            if address[:2] != ("127.0.0.1", server.port):
                raise ConnectionRefusedError("refused")
            connect(made, address)

        socket.socket.connect = only_there  # type: ignore[assignment]
        parcels = redisclient.Parcels(f"redis://127.0.0.1:{server.port}", 60)
        calls: list[Callable[[], object]] = [
            lambda: parcels.get("key"),
            lambda: parcels.put("key", b"abc"),
            lambda: parcels.forget("key"),
            lambda: parcels.renew(["key", "other"]),
            lambda: parcels.keys("bpfagent:"),
            parcels.settings,
            lambda: parcels.get("key"),
        ]
        for call in calls:
            try:
                found = call()
            except Unkept as why:
                say(str(why))
                continue
            if isinstance(found, bytes) and not 1 <= len(found) <= LIMIT:
                sys.exit(f"a parcel of {len(found)} bytes")
            print(ascii(found)[:200])
        parcels.close()

    def refused(self, case: bytes, answer: Answer) -> str:
        """What is said of Redis are lines."""
        errors = answer.errors.decode(errors="backslashreplace")
        wrong = [line for line in errors.splitlines() if not re.fullmatch(r"redis: .+", line)]
        return f"status {answer.status}, {wrong[:3] or errors[:300]}" if wrong or answer.status else ""

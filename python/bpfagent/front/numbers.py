"""What the front counts, and the port on which it tells: `/metrics` in the text of Prometheus, and `/health`."""
from __future__ import annotations

import asyncio
import contextlib
import re
from bisect import bisect_left
from collections import Counter
from typing import AsyncIterator, Callable, Iterator

from ..limits import MACHINES, OBJECTS
from ..protocol import commands
from .doors import untaken

# The upper ends of the histogram's buckets, in seconds.
BUCKETS = [0.00005, 0.0001, 0.00025, 0.0005, 0.001, 0.0025, 0.005, 0.01, 0.025, 0.05, 0.1, 0.25, 0.5, 1.0, 2.5]
COMMANDS = frozenset(name.encode("ascii") for name in commands())
REFUSALS = frozenset(b"bad full noroom nomem outside none noslot notpaused nowatch worn unserved away busy place kept refused".split())
OTHER = b"other"
# How the replies begin that tell of nothing to be counted.
DONE = (b"bytes ", b"ok")
# No word of these is longer.
WORD = 12
# Lines are counted when so many bytes of them and of their replies have come, or when somebody asks for the numbers: together it takes less time.
UNCOUNTED = 1 << 14
# What the agent tells of its objects, and under which name it is counted.
MOVES = [
    (re.compile(r"object \d+ left$"), "left"),
    (re.compile(r"object \d+ returned$"), "returned"),
    (re.compile(r"object \d+ couldn't leave"), "leave_failed"),
    (re.compile(r"object \d+ couldn't return"), "return_failed"),
]
# What it tells of that went wrong, and under which name that is counted: why a store didn't do what it was asked, and connections that broke.
FAULTS = [
    (re.compile(r"object \d+ couldn't (leave|return): the store's device failed$"), "device"),
    (re.compile(r"object \d+ couldn't (leave|return): the store gave damaged bytes$"), "damaged"),
    (re.compile(r"object \d+ couldn't (leave|return): the store gave no proper answer$"), "protocol"),
    (re.compile(r"object \d+ couldn't (leave|return): no memory$"), "memory"),
    (re.compile(r"object \d+ couldn't (leave|return): the store refused$"), "refused"),
    (re.compile(r"the stream of the far server broke: "), "far_stream"),
    (re.compile(r"client \d+ is given up: "), "connection"),
]
CONTENT = "text/plain; version=0.0.4; charset=utf-8"
# How long who asks for the numbers may take, in seconds, and how many bytes its request may have.
PATIENCE, REQUEST_LIMIT = 10.0, 1 << 13
REASONS = {200: "OK", 404: "Not Found", 405: "Method Not Allowed", 503: "Service Unavailable"}


class Numbers:
    """Counts since the front began."""

    def __init__(self) -> None:
        self.clients = 0
        self.bytes_in = self.bytes_out = 0
        self.restarts = 0
        self._shipped = 0
        self.objects = self.objects_left = 0
        self._uncounted: list[tuple[bytes, bytes]] = []
        self._size = 0
        self.came: Counter[str] = Counter()
        self.went: Counter[str] = Counter()
        self.commands: Counter[bytes] = Counter()
        self.refusals: Counter[bytes] = Counter()
        self.moves: Counter[str] = Counter()
        self.faults: Counter[str] = Counter()
        self.buckets = [0] * (len(BUCKETS) + 1)
        self.seconds = 0.0

    def timed(self, seconds: float, count: int) -> None:
        """Counts so many lines that were answered together after this time."""
        self.buckets[bisect_left(BUCKETS, seconds)] += count
        self.seconds += seconds * count

    def answered(self, lines: bytes, replies: bytes) -> None:
        """Counts lines with their replies."""
        self.bytes_out += len(replies)
        self._uncounted.append((lines, replies))
        self._size += len(lines) + len(replies)
        if self._size > UNCOUNTED:
            self._count()

    def _count(self) -> None:
        """Counts what came since the last time."""
        uncounted, self._uncounted, self._size = self._uncounted, [], 0
        lines = b"".join([lines for lines, _ in uncounted]).split(b"\n")
        del lines[-1]
        for command, count in Counter([line[:WORD].partition(b" ")[0] for line in lines]).items():
            self.commands[command if command in COMMANDS else OTHER] += count
        replies = b"".join([replies for _, replies in uncounted]).split(b"\n")
        for answer, count in Counter([reply.partition(b" ")[0] for reply in replies if not reply.startswith(DONE)]).items():
            if answer in REFUSALS:
                self.refusals[answer] += count
            elif answer == b"shipped":
                self._shipped += count

    def begin(self, machines: int, objects: int) -> None:
        """Another agent begins, with so many machines and objects."""
        self._count()
        self._shipped, self.objects, self.objects_left = machines, objects, OBJECTS - objects

    def machines(self) -> int:
        """How many machines the agent has made."""
        self._count()
        return self._shipped

    def heard(self, line: str) -> None:
        """Counts a move or a fault of which the agent tells."""
        for forms, counts in ((MOVES, self.moves), (FAULTS, self.faults)):
            for form, name in forms:
                if form.search(line):
                    counts[name] += 1

    def text(self) -> str:
        """The numbers in the text of Prometheus."""
        self._count()
        return "".join(f"{line}\n" for line in self._lines())

    def _lines(self) -> Iterator[str]:
        yield from single("clients", "gauge", "Clients that are connected.", self.clients)
        yield from labelled("clients_came_total", "Clients that came, by the kind of socket.", "door", self.came)
        yield from labelled("clients_went_total", "Clients that went, by the reason.", "why", self.went)
        yield from labelled("requests_total", "Lines that were answered, by command.", "command", texts(self.commands))
        yield from labelled("refusals_total", "Lines that were refused, by the reply's first word.", "reply", texts(self.refusals))
        yield from labelled("moves_total", "Moves of objects, and moves that failed.", "move", self.moves)
        yield from labelled("faults_total", "Faults of the far store, and connections of the agent that broke, by the reason.", "fault", self.faults)
        yield from single("received_bytes_total", "counter", "Bytes from clients.", self.bytes_in)
        yield from single("sent_bytes_total", "counter", "Bytes of replies.", self.bytes_out)
        yield from single("restarts_total", "counter", "Agents that took the place of another.", self.restarts)
        yield from single("machines_left", "gauge", "Machines that the agent can still be shipped.", max(MACHINES - self._shipped, 0))
        yield from single("objects", "gauge", "Objects of the agent.", self.objects)
        yield from single("objects_left", "gauge", "Objects that a setup could make beside them.", self.objects_left)
        yield "# HELP bpfagent_front_seconds Time from sending a line to the agent to its reply."
        yield "# TYPE bpfagent_front_seconds histogram"
        total = 0
        for end, count in zip([*map(str, BUCKETS), "+Inf"], self.buckets):
            total += count
            yield f'bpfagent_front_seconds_bucket{{le="{end}"}} {total}'
        yield f"bpfagent_front_seconds_sum {self.seconds:.6f}"
        yield f"bpfagent_front_seconds_count {total}"


def texts(counts: Counter[bytes]) -> Counter[str]:
    """The same counts by words as text."""
    return Counter({word.decode("ascii"): count for word, count in counts.items()})


def single(name: str, kind: str, about: str, value: int) -> Iterator[str]:
    """A number without labels."""
    yield f"# HELP bpfagent_front_{name} {about}"
    yield f"# TYPE bpfagent_front_{name} {kind}"
    yield f"bpfagent_front_{name} {value}"


def labelled(name: str, about: str, label: str, counts: Counter[str]) -> Iterator[str]:
    """A counter for each value of a label."""
    yield f"# HELP bpfagent_front_{name} {about}"
    yield f"# TYPE bpfagent_front_{name} counter"
    for value, count in sorted(counts.items()):
        yield f'bpfagent_front_{name}{{{label}="{value}"}} {count}'


@contextlib.asynccontextmanager
async def told_on(host: str, port: int, numbers: Numbers, is_healthy: Callable[[], bool]) -> AsyncIterator[int]:
    """Answers `/metrics` and `/health` there. Gives the port."""

    def answer(method: bytes, path: bytes) -> tuple[int, str]:
        if method not in (b"GET", b"HEAD"):
            return 405, "only GET\n"
        if path == b"/metrics":
            return 200, numbers.text()
        if path == b"/health":
            return (200, "ok\n") if is_healthy() else (503, "not serving\n")
        return 404, "there are /metrics and /health\n"

    async def asked(reader: asyncio.StreamReader, writer: asyncio.StreamWriter) -> None:
        wrong = (OSError, asyncio.TimeoutError, asyncio.IncompleteReadError, asyncio.LimitOverrunError)
        with contextlib.suppress(*wrong):
            head = await asyncio.wait_for(reader.readuntil(b"\r\n\r\n"), PATIENCE)
            method, path, *_ = [*head.partition(b"\r\n")[0].split(b" "), b"", b""]
            writer.write(response(*answer(method, path), method == b"HEAD"))
            await asyncio.wait_for(writer.drain(), PATIENCE)
        writer.close()

    try:
        server = await asyncio.start_server(asked, host, port, limit=REQUEST_LIMIT)
    except OSError as why:
        raise untaken(host, port, why) from None
    try:
        yield server.sockets[0].getsockname()[1]
    finally:
        server.close()


def response(status: int, text: str, is_head: bool) -> bytes:
    """An answer of HTTP. To HEAD it has no content."""
    content = text.encode()
    head = f"HTTP/1.1 {status} {REASONS[status]}\r\nContent-Type: {CONTENT}\r\nContent-Length: {len(content)}\r\nConnection: close\r\n\r\n"
    return head.encode("ascii") + (b"" if is_head else content)

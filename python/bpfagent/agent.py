"""A conversation with an agent.

`Agent.run` starts `bpfagent run` and talks to it over pipes. `Agent.reach` talks to a service at a socket file or over TCP. An `Agent` has one
method for each command of docs/PROTOCOL.md.
"""
from __future__ import annotations

import contextlib
import os
import socket
import subprocess
import time
from collections import deque
from types import TracebackType
from typing import Callable, Iterator, Mapping, Optional, Sequence, TypeVar, Union

from . import replies
from .arguments import (
    Bytes,
    of_bytes,
    of_grants,
    of_length,
    of_machine,
    of_object,
    of_offset,
    of_piece,
    of_range,
    of_slot,
    of_stack,
    of_start,
    ship_line,
    within,
)
from .limits import ARGUMENTS as ARGUMENTS
from .limits import LONGEST
from .limits import PIECE as PIECE
from .objects import Objects
from .printable import printable
from .replies import RUNNING, Broken, Form, Hit, Move, Ran, Refused, Registers, Run, Step, Waiting
from .starting import environment, found_program
from .streams import Idle, Pipes, Stream, awaited, connected, connection_over, reached

# The longest reply with its line end.
REPLY = 70_000
# The object number that stands for a machine's own stack in an address.
STACK = 0xFFFF_FFFF
# As many bytes of lines fit into a pipe whose other end doesn't read.
AHEAD = 1 << 15
# As many steps are sent before their replies are read, where nobody else steps.
AT_ONCE = 256
# As many `put` are sent before their replies are read, which together fit into any pipe. No object needs more.
PUTS = 16
# How long the end of a started program may take, and that of one that was killed, in seconds.
PATIENCE, GRACE = 10.0, 0.5
# What is asked for again is asked after the first pause, and then after a quarter of the time so far, up to the last pause, in seconds. So it is
# known soon after it has come. A machine of a service may end within microseconds.
FIRST_PAUSE, SHORT_PAUSE, LAST_PAUSE = 0.001, 0.00002, 0.05

PathLike = Union[str, "os.PathLike[str]"]
T = TypeVar("T")
A = TypeVar("A", bound="Agent")


def address(number: int, offset: int = 0) -> int:
    """The address of a byte of an object, as programs and `watch` take it."""
    return (number << 32) + offset


def pauses(seconds: float = float("inf"), first: float = FIRST_PAUSE) -> Iterator[None]:
    """Gives a turn at once, and others after pauses that grow, until so many seconds have passed."""
    start = time.monotonic()
    yield
    while (spent := time.monotonic() - start) < seconds:
        time.sleep(min(max(first, spent / 4), LAST_PAUSE))
        yield


def patiently(call: Callable[..., T], *arguments: object, seconds: float = 10.0) -> T:
    """Repeats a `put` or a `get` of a service while its object is away or busy, for so many seconds at most.

    A command that is answered `away n` has the mover bring the object back, so it only has to be repeated. After the last
    try this raises its `Refused`.
    """
    last: Optional[Refused] = None
    for _ in pauses(seconds):
        try:
            return call(*arguments)
        except Refused as refusal:
            if refusal.word not in ("away", "busy"):
                raise
            last = refusal
    assert last
    raise last


class Faults:
    """Has what goes wrong in a block end a conversation. A class, since a generator takes microseconds."""

    __slots__ = ("_end",)

    def __init__(self, end: Callable[[BaseException], None]) -> None:
        self._end = end

    def __enter__(self) -> None:
        pass

    def __exit__(self, kind: Optional[type[BaseException]], error: Optional[BaseException], trace: Optional[TracebackType]) -> None:
        if error is not None:
            self._end(error)


class Agent(Objects):
    """A conversation with an agent, which is a context manager.

    Each method is a command. It raises `Refused` if the agent refuses the command, and `Broken` if the conversation is over.
    After that it stays over. A value that no command takes raises `ValueError` or `TypeError` before anything is sent. Numbers of
    objects and machines begin at 1, lengths and offsets are in bytes. An agent isn't for several threads at once: give each its own
    connection.
    """

    def __init__(self, stream: Stream, end: Callable[[], None], timeout: Optional[float] = None) -> None:
        """Over a stream. `end` ends it. A reply that takes longer than `timeout` seconds breaks the conversation; None is no limit."""
        self._stream = stream
        self._lines: deque[bytes] = deque()
        self._rest = b""
        self._end: Optional[Callable[[], None]] = end
        self._fault: Optional[str] = None
        self._faults = Faults(self._end_by)
        self._is_alone = False
        self.timeout: Optional[float] = timeout
        # How long the end of a started program may take, in seconds; and whether the other side has ended the conversation.
        self.patience: float = PATIENCE
        self.has_ended: bool = False
        # Called again and again while a reply is awaited. It may call `hurry`, or raise what ends the conversation.
        self.idle: Optional[Idle] = None
        self._deadline: Optional[float] = None
        self._heard = 0.0

    @classmethod
    def run(cls: type[A], program: Optional[PathLike] = None, *arguments: str, timeout: Optional[float] = None) -> A:
        """Starts `bpfagent run` with arguments such as "--budget", "4096", or raises an `OSError` if there is no such program.

        Without a program it is the one that the environment's BPFAGENT names, or else the one on PATH. Its standard error is that
        of this process. `timeout`, in seconds, bounds each reply.
        """
        process = started(program, "run", *arguments)
        pipes = Pipes(process)

        def end() -> None:
            with killing(process):
                pipes.drain(time.monotonic() + GRACE)
                pipes.close()
                status = wait_or_end(process, agent.patience)
            if status is None:
                raise Broken("the program didn't end, and was killed")
            if status:
                raise Broken(f"the program ended with status {status}")

        agent = cls(pipes, end, timeout)
        agent._is_alone = True
        return agent

    @classmethod
    def connect(cls: type[A], host: str, port: int, timeout: Optional[float] = None, idle: Optional[Idle] = None) -> A:
        """Connects to a service, or raises an `OSError`. `timeout`, in seconds, bounds the connecting and each reply. `idle` is called
        again and again meanwhile."""
        return cls._over(connected(host, port, timeout, idle), timeout, idle)

    @classmethod
    def reach(cls: type[A], place: str, timeout: Optional[float] = None, idle: Optional[Idle] = None) -> A:
        """The same for the place of a service, HOST:PORT, unix:PATH or tls:HOST:PORT. Another text is a `ValueError`."""
        return cls._over(reached(place, timeout, idle), timeout, idle)

    @classmethod
    def _over(cls: type[A], made: socket.socket, timeout: Optional[float], idle: Optional[Idle]) -> A:
        """Over a connected socket."""
        connection = connection_over(made)
        agent = cls(connection, connection.close, timeout)
        agent.idle = idle
        return agent

    def close(self) -> None:
        """Ends the conversation. A program that was started ends with it; `Broken` says that it failed, or was killed after 10 s."""
        end, self._end = self._end, None
        self._fault = self._fault or "the conversation was closed"
        if end:
            try:
                end()
            except OSError as error:
                raise Broken(f"the stream failed: {error.strerror or error}") from None

    def __enter__(self) -> Agent:
        return self

    def __exit__(self, kind: Optional[type[BaseException]], error: Optional[BaseException], trace: Optional[TracebackType]) -> None:
        try:
            self.close()
        except Broken:
            if error is None:
                raise

    # ---- lines

    def tell(self, line: str) -> str:
        """Sends a line as it is, and gives its reply without the line end. This also works for a line that is no command."""
        return self.tell_all([line])[0]

    def tell_all(self, lines: Sequence[str]) -> list[str]:
        """Sends lines without waiting for each reply, and gives their replies in order."""
        if not all(line.isascii() and "\n" not in line for line in lines):
            raise ValueError("a line is ASCII, without a line end within")
        answers: list[str] = []
        rest = [line.encode("ascii") + b"\n" for line in lines]
        self._need_open()
        while rest:
            count = fitting(rest)
            answers += self._exchange(b"".join(rest[:count]), count)
            rest = rest[count:]
        return answers

    def _tell_short(self, lines: Sequence[str]) -> list[str]:
        """The same of a few lines with short replies, which are sent together however long they are."""
        self._need_open()
        return self._exchange("".join(f"{line}\n" for line in lines).encode("ascii"), len(lines))

    def _need_open(self) -> None:
        """Raises `Broken` if the conversation is over."""
        if self._fault:
            raise Broken(self._fault)

    def hurry(self, seconds: float) -> None:
        """All replies together may take so many seconds from now on, that of which is awaited included."""
        last = time.monotonic() + seconds
        self._deadline = last if self._deadline is None else min(last, self._deadline)

    @property
    def silence(self) -> float:
        """How long nothing has come since a line was sent, in seconds."""
        return time.monotonic() - self._heard

    def _until(self, since: float) -> Optional[float]:
        """The deadline of replies that are awaited since this time."""
        ends = [end for end in (self._deadline, None if self.timeout is None else since + self.timeout) if end is not None]
        return min(ends, default=None)

    def _exchange(self, content: bytes, count: int) -> list[str]:
        """Sends these bytes, and reads so many replies."""
        since = self._heard = time.monotonic()
        with self._faults:
            self._stream.send(content, self._until(since))
            return [self._reply(since) for _ in range(count)]

    def _end_by(self, error: BaseException) -> None:
        """Whatever went wrong while bytes were on their way ends the conversation."""
        if isinstance(error, TimeoutError):
            raise self._broken("no reply came in time" if self._deadline is not None else f"no reply came within {self.timeout:g} seconds") from None
        if isinstance(error, OSError):
            self.has_ended = True
            raise self._broken(f"the stream failed: {error.strerror or error}") from None
        # What is still to come would be taken for the reply to a later line.
        self._fault = self._fault or "it was interrupted while a reply was awaited"

    def _reply(self, since: float) -> str:
        """The next line of those that are awaited since this time."""
        while not self._lines:
            if len(self._rest) >= REPLY:
                raise self._broken("a reply is too long")
            piece = awaited(self._stream.receive, lambda: self._until(since), self.idle)
            self._heard = time.monotonic()
            if not piece:
                self.has_ended = True
                raise self._broken("the agent ended the conversation")
            *lines, self._rest = (self._rest + piece).split(b"\n")
            self._lines.extend(lines)
        line = self._lines.popleft()
        if len(line) >= REPLY:
            raise self._broken("a reply is too long")
        return printable(line.decode("ascii", "replace"))

    def _broken(self, why: str) -> Broken:
        """Nothing more can be asked."""
        self._fault = why
        return Broken(why)

    def _ask(self, form: Form[T], line: str, *numbers: int) -> T:
        """The value of the reply to a line. It has to be of this form, with these numbers behind its first word."""
        return self._read(form, line, self.tell(line), *numbers)

    def _read(self, form: Form[T], line: str, reply: str, *numbers: int) -> T:
        """The same of the reply to a line that was sent."""
        if replies.REFUSAL.fullmatch(reply):
            raise Refused(reply)
        value = form.read(reply, *numbers)
        if value is None:
            raise self._broken(f"{line[:60]!r} was answered {reply[:60]!r}")
        return value

    # ---- objects

    def make(self, length: int) -> int:
        """Makes an object of 1 to 65,536 zero bytes, and gives its number."""
        return self._ask(replies.MADE, f"make {of_length(length)}")

    def put(self, number: int, offset: int, content: Bytes) -> None:
        """Writes 1 to 4096 bytes to an object."""
        self._ask(replies.DONE, put_line(number, offset, content))

    def get(self, number: int, offset: int, length: int) -> bytes:
        """Reads 1 to 4096 bytes of an object."""
        return self._bytes(get_line(number, offset, length), length)

    def free(self, number: int) -> None:
        """Frees an object; its number isn't used again."""
        self._ask(replies.FREED, f"free {of_object(number)}", number)

    def write(self, number: int, content: Bytes, offset: int = 0) -> None:
        """Writes as many bytes as there are, by one `put` for each 4096, which are sent without waiting for each reply. Others may see some of
        them written, and if one `put` is refused, any of the others may have been done."""
        given = bytes(of_bytes(content))
        lines = [put_line(number, offset + at, given[at : at + PIECE]) for at in range(0, len(given), PIECE)]
        for first in range(0, len(lines), PUTS):
            sent = lines[first : first + PUTS]
            for line, reply in zip(sent, self._tell_short(sent)):
                self._read(replies.DONE, line, reply)

    def read(self, number: int, length: int, offset: int = 0) -> bytes:
        """Reads so many bytes, by one `get` for each 4096, which are sent without waiting for each reply: others may write in between."""
        whole = within(length, LONGEST, 0, "a length")
        sizes = [min(whole - at, PIECE) for at in range(0, whole, PIECE)]
        lines = [get_line(number, offset + place * PIECE, size) for place, size in enumerate(sizes)]
        return b"".join(self._content(line, reply, size) for line, reply, size in zip(lines, self.tell_all(lines), sizes))

    def _bytes(self, line: str, length: int) -> bytes:
        """The bytes that a command shows, which have this length."""
        return self._content(line, self.tell(line), length)

    def _content(self, line: str, reply: str, length: int) -> bytes:
        """The same of the reply to a line that was sent."""
        content = self._read(replies.BYTES, line, reply)
        if len(content) != length:
            raise self._broken(f"{line!r} was answered {len(content)} bytes")
        return content

    # ---- moves

    def leave(self, number: int) -> Move:
        """Begins to take an object away; a service asks its mover."""
        return self._move(f"leave {of_object(number)}", number, Move.LEAVING, Move.ASKED)

    def left(self, number: int) -> Move:
        """Puts an object that is leaving into the far store."""
        return self._move(f"left {of_object(number)}", number, Move.LEFT)

    def return_(self, number: int) -> Move:
        """Begins to bring an object back; a service asks its mover."""
        return self._move(f"return {of_object(number)}", number, Move.RETURNING, Move.ASKED)

    def returned(self, number: int) -> Move:
        """Gets an object that is returning from the far store."""
        return self._move(f"returned {of_object(number)}", number, Move.HOME)

    def _move(self, line: str, number: int, *moves: Move) -> Move:
        reply = self.tell(line)
        move = self._read(replies.MOVED, line, reply, number)
        if move not in moves:
            raise self._broken(f"{line!r} was answered {reply!r}")
        return move

    # ---- machines

    def ship(self, code: Bytes, fuel: int, *arguments: int) -> int:
        """Makes a machine of raw code that reaches all objects, and gives its number.

        It may do `fuel` instructions. R1 to R5 are the arguments, and 0 where there are fewer.
        """
        return self._ask(replies.SHIPPED, ship_line("ship", code, of_start(fuel, arguments)))

    def ship2(self, code: Bytes, fuel: int, grants: Mapping[int, str], *arguments: int) -> int:
        """Makes a machine that reaches these objects alone: of each number `r` or `w`, for reading or for writing too."""
        return self._ask(replies.SHIPPED, ship_line("ship2", code, of_start(fuel, arguments), of_grants(grants)))

    def step(self, machine: int) -> Step:
        """Does one instruction of a machine."""
        return self._ask(replies.STEPPED, f"step {of_machine(machine)}", machine)

    def one(self, machine: int) -> Step:
        """Does one instruction, also where the machine is paused, and pauses it after."""
        return self._ask(replies.STEPPED, f"one {of_machine(machine)}", machine)

    def _advance(self, machine: int, count: int) -> tuple[int, Step]:
        """Steps a machine so many times: how many steps were answered `ran`, and the first other one, or the last."""
        line, ran = f"step {of_machine(machine)}", f"ran {machine} "
        answers = self.tell_all([line] * count)
        for done, reply in enumerate(answers):
            if not reply.startswith(ran):
                return done, self._read(replies.STEPPED, line, reply, machine)
        return count, self._read(replies.STEPPED, line, answers[-1], machine)

    def run_until(self, machine: int, slot: Optional[int] = None, limit: Optional[int] = None, wait: Optional[Callable[[int], None]] = None) -> Run:
        """Steps a machine until it stops, is paused or writes to a watched range.

        With `slot` it also ends when the machine is about to do the instruction there, with `limit` after so many instructions.
        When the machine waits for an object, `wait` is called with the object's number, and the step is tried again. `wait`
        brings the object home, or gives time to a service's mover, or to whoever uses the object. Without `wait` the run ends
        there. If others step the machine too, only the instructions done here are counted.
        """
        if limit is not None and limit < 1:
            raise ValueError("a run does at least one instruction")
        # Nobody else moves objects or steps machines of a program that was started here, so steps may be sent ahead.
        most = AT_ONCE if self._is_alone and slot is None and limit is None else 1
        instructions, count = 0, 1
        while True:
            done, last = self._advance(machine, count)
            instructions += done + isinstance(last, Hit)
            if isinstance(last, Waiting) and wait:
                wait(last.object)
            elif not isinstance(last, Ran) or last.slot == slot or instructions == limit:
                return Run(last, instructions)
            count = min(2 * count, most)

    def wait(self, machine: int, seconds: float = 60.0) -> Registers:
        """Waits until the workers of a service have run a machine to its end, or it is paused. Raises `TimeoutError` after so many seconds."""
        for _ in pauses(seconds, SHORT_PAUSE):
            registers = self.regs(machine)
            if registers.state != RUNNING:
                return registers
        raise TimeoutError(f"machine {machine} still runs after {seconds:g} seconds")

    def out(self, machine: int) -> tuple[int, ...]:
        """The values that a machine has emitted."""
        return self._ask(replies.EMITTED, f"out {of_machine(machine)}", machine)

    def stack(self, machine: int, offset: int, length: int) -> bytes:
        """Reads 1 to 4096 bytes of a machine's stack."""
        offset, length = of_stack(offset, length)
        return self._bytes(f"stack {of_machine(machine)} {offset} {length}", length)

    def line(self, machine: int, slot: int) -> str:
        """The instruction that begins at a slot, as assembly."""
        return self._ask(replies.SHOWN, f"line {of_machine(machine)} {of_slot(slot)}", machine, slot)

    def regs(self, machine: int) -> Registers:
        """The machine's slot, fuel, state and registers."""
        return self._ask(replies.REGISTERS, f"regs {of_machine(machine)}", machine)

    # ---- debugging

    def resume(self, machine: int) -> None:
        """Ends the pause of a machine."""
        self._ask(replies.DONE, f"resume {of_machine(machine)}")

    def break_(self, machine: int, slot: int) -> None:
        """Sets a breakpoint: the machine is paused before it does the instruction at this slot."""
        self._ask(replies.DONE, f"break {of_machine(machine)} {of_slot(slot)}")

    def unbreak(self, machine: int, slot: int) -> None:
        """Clears a breakpoint."""
        self._ask(replies.DONE, f"unbreak {of_machine(machine)} {of_slot(slot)}")

    def watch(self, machine: int, begin: int, length: int) -> None:
        """Watches a range of bytes from an address on, for writes by a machine."""
        begin, length = of_range(begin, length)
        self._ask(replies.DONE, f"watch {of_machine(machine)} {begin} {length}")

    def unwatch(self, machine: int, begin: int, length: int) -> None:
        """No longer watches a range."""
        begin, length = of_range(begin, length)
        self._ask(replies.DONE, f"unwatch {of_machine(machine)} {begin} {length}")


def put_line(number: int, offset: int, content: Bytes) -> str:
    """The `put` line of these bytes."""
    of_piece(content)
    return f"put {of_object(number)} {of_offset(offset)} {content.hex()}"


def get_line(number: int, offset: int, length: int) -> str:
    """The `get` line of these bytes."""
    return f"get {of_object(number)} {of_offset(offset)} {of_length(length, PIECE)}"


def fitting(lines: Sequence[bytes]) -> int:
    """How many of these lines can be sent before a reply is read; at least one."""
    count, size = 0, 0
    for line in lines:
        size += len(line)
        if count and size > AHEAD:
            break
        count += 1
    return count


def started(program: Optional[PathLike], *arguments: str, errors: Optional[int] = None) -> subprocess.Popen[bytes]:
    """A program with pipes to it, bpfagent if none is named. An interrupt from the terminal reaches this process alone. `errors` is what
    becomes of its standard error; that of this process if nothing is said."""
    command = [found_program() if program is None else os.fspath(program), *arguments]
    return subprocess.Popen(
        command, stdin=subprocess.PIPE, stdout=subprocess.PIPE, stderr=errors, bufsize=0, start_new_session=True, env=environment()
    )


@contextlib.contextmanager
def killing(process: subprocess.Popen[bytes]) -> Iterator[None]:
    """Kills a program if its block is interrupted, or fails."""
    try:
        yield
    except BaseException:
        process.kill()
        wait_or_end(process, GRACE)
        raise


def wait_or_end(process: subprocess.Popen[bytes], seconds: float) -> Optional[int]:
    """The status with which a program ends; None if it didn't end in time and was killed."""
    try:
        return process.wait(seconds)
    except subprocess.TimeoutExpired:
        process.kill()
        with contextlib.suppress(subprocess.TimeoutExpired):
            process.wait(GRACE)
        return None

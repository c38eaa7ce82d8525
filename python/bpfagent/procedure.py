"""A program that is shipped once and answers requests: `Procedure`. docs/REQUESTS.md leads through it."""
from __future__ import annotations

import asyncio
import itertools
import struct
import threading
import time
from collections import deque
from concurrent.futures import ThreadPoolExecutor
from dataclasses import dataclass
from typing import TYPE_CHECKING, Callable, Iterable, Iterator, Mapping, Optional, Sequence, Union

from .agent import ARGUMENTS, SHORT_PAUSE, Agent, address, patiently, pauses
from .closing import Closing
from .image import Image, Unloadable
from .limits import MACHINES, WORD
from .replies import PAUSED, REGISTERS, RUNNING, Broken, Refused, Waiting
from .replies import Paused as AtBreakpoint
from .shared import SharedAgent

if TYPE_CHECKING:
    from .service import Service

# What bpfagent_request.h has: a number and five arguments, then the number that is answered, the result and the status.
REQUEST, ANSWER = struct.Struct("<6Q"), struct.Struct("<3Q")
LENGTH = REQUEST.size + ANSWER.size
DONE = 0
# In place of grants: the machines reach all objects.
ALL = "all"
Grants = Union[None, str, Mapping[int, str]]
# One request: its arguments, or its only one.
Row = Union[int, Sequence[int]]

# How many instructions a machine may do to get to where it awaits requests.
START = 10_000
# A service with a trip up to this one is asked for the answer once in the packet of the request, and another one so many times.
NEAR, FAR_READS = 0.000_15, 4
# How often the trip is measured.
TRIPS = 5
CLOSED = "the procedure was closed"
# How long the service may take for a reply, and a machine of another client to come to its pause, in seconds.
REPLY_SECONDS, PATIENCE = 60.0, 10.0


class Unanswered(Exception):
    """Why a request has no result. `machine` is the machine, and `request` are the arguments."""

    def __init__(self, machine: int, request: tuple[int, ...], why: str) -> None:
        super().__init__(f"machine {machine} {why}, for the request {request_text(request)}")
        self.machine, self.request = machine, request


class Failed(Unanswered):
    """The program answered with a status other than 0. `result` is what it gave beside it."""

    def __init__(self, machine: int, request: tuple[int, ...], status: int, result: int) -> None:
        super().__init__(machine, request, f"answered status {status}")
        self.status, self.result = status, result


class Stopped(Unanswered):
    """The machine stopped, for good. `stop` is the stop's name; `line` is the source line, or the instruction if that isn't known."""

    def __init__(self, machine: int, request: tuple[int, ...], stop: str, slot: int, line: str) -> None:
        super().__init__(machine, request, f"stopped ({stop}) at slot {slot}, {line}")
        self.stop, self.slot, self.line = stop, slot, line


class Exhausted(Exception):
    """No machine is left, and none can be shipped: an agent has 48 in its life."""


def request_text(request: Sequence[int]) -> str:
    """The arguments of a request as a call."""
    return f"({', '.join(map(str, request))})"


def arguments_of(row: Row) -> tuple[int, ...]:
    """The arguments of a request, which are at most five numbers."""
    arguments = (row,) if isinstance(row, int) else tuple(row)
    if len(arguments) > ARGUMENTS:
        raise ValueError(f"a request has at most {ARGUMENTS} arguments, and not {len(arguments)}")
    if arguments and not 0 <= min(arguments) <= max(arguments) <= WORD:
        raise ValueError(f"an argument is a number from 0 to 2^64 - 1: {request_text(arguments)}")
    return arguments


@dataclass
class Machine:
    """A machine that answers requests, the object in which they lie, and the number of the last one."""

    number: int
    object: int
    asked: int = 0


class Turn:
    """A request on its way: what has still to be sent, and what came back.

    The machine knows a new request by its number. So whatever was refused is sent again, and a `resume` too many does no harm.
    """

    def __init__(self, machine: Machine, request: tuple[int, ...]) -> None:
        machine.asked += 1
        self.machine, self.request, self.since = machine, request, time.monotonic()
        # Result and status, or the name of the stop, its slot and the line of that.
        self.answer: Optional[tuple[int, int]] = None
        self.stop, self.slot, self.line = "", 0, ""
        self._is_put = self._is_resumed = self._was_sent = False
        self._orders: list[str] = []

    @property
    def is_over(self) -> bool:
        """Whether the request is answered, or never will be."""
        return self.answer is not None or bool(self.stop)

    def orders(self) -> list[str]:
        """What is to be sent before the answer is read. The machine's state is looked at if the first reads have shown no answer."""
        machine, orders = self.machine, []
        if not self._is_put:
            content = REQUEST.pack(machine.asked, *self.request, *[0] * (ARGUMENTS - len(self.request)))
            orders.append(f"put {machine.object} 0 {content.hex()}")
        if not self._is_resumed:
            orders.append(f"resume {machine.number}")
        if self._was_sent:
            orders.append(f"regs {machine.number}")
        self._was_sent, self._orders = True, orders
        return orders

    def read(self) -> str:
        """What reads the answer."""
        return f"get {self.machine.object} {REQUEST.size} {ANSWER.size}"

    def take(self, told: Sequence[str], read: Sequence[str]) -> None:
        """The replies to orders and to reads. A stop counts only if no answer is there either: a program may answer, and then end."""
        stop = ""
        for line, reply in zip(self._orders, told):
            if line.startswith("put"):
                self._is_put = reply == "ok" or try_again(reply, "away", "busy")
            elif line.startswith("resume"):
                self._is_resumed = self._is_put and reply == "ok" or try_again(reply, "ok", "notpaused")
            else:
                stop = self._stop_of(reply)
        for reply in read:
            if self._has_answer(reply):
                return
        self.stop = stop

    def _has_answer(self, reply: str) -> bool:
        """Takes the answer, if it is that of this request."""
        if not reply.startswith("bytes "):
            return try_again(reply, "away", "busy")
        answered, result, status = ANSWER.unpack(bytes.fromhex(reply[len("bytes ") :]))
        if answered == self.machine.asked:
            self.answer = result, status
        return self.answer is not None

    def _stop_of(self, reply: str) -> str:
        """The stop that the registers show; empty if the machine goes on."""
        # A request asks again and again, so the registers' values aren't read.
        found = REGISTERS.pattern.fullmatch(reply)
        if not found:
            raise Refused(reply)
        self.slot = int(found[2])
        return "" if found[4] in (RUNNING, PAUSED) else found[4]


def try_again(reply: str, *words: str) -> bool:
    """False for a reply after which a command is tried again; others are raised."""
    if reply.split(" ")[0] in words:
        return False
    raise Refused(reply)


@dataclass(frozen=True)
class Program:
    """What machines are made of: code, fuel, grants, and the objects whose addresses come after the request's."""

    image: Image
    fuel: int
    grants: Grants
    objects: tuple[int, ...]

    def ship(self, agent: Agent, request: int) -> int:
        """Makes a machine whose requests lie in this object. It pauses where it awaits them."""
        awaits = self.image.awaits
        arguments = [address(number) for number in (request, *self.objects)]
        if self.grants == ALL:
            machine = agent.ship(self.image.code, self.fuel, *arguments)
        else:
            machine = agent.ship2(self.image.code, self.fuel, {**self.granted(), request: "w"}, *arguments)
        for slot in awaits:
            agent.break_(machine, slot)
        return machine

    def granted(self) -> Mapping[int, str]:
        """The grants that are given; without any the machines may write to their objects."""
        if isinstance(self.grants, str):
            raise ValueError(f"grants are 'r' or 'w' for each object's number, or {ALL!r}, and not {self.grants!r}")
        return dict.fromkeys(self.objects, "w") if self.grants is None else self.grants

    def line_at(self, slot: int) -> str:
        """The source line of a slot; empty if it isn't known."""
        from .ship import line_of

        return line_of(self.image, slot)


def reached(place: str, timeout: Optional[float]) -> SharedAgent:
    """A conversation with the service at a place, HOST:PORT, unix:PATH or tls:HOST:PORT."""
    return SharedAgent.reach(place, timeout)


def taken_over(agent: Agent, number: int, request: int) -> Machine:
    """A machine that another client may have left, when it awaits a request. A request that wasn't done is forgotten."""
    registers = agent.wait(number, PATIENCE)
    if registers.state != PAUSED:
        raise Stopped(number, (), registers.state, registers.slot, agent.line(number, registers.slot))
    asked, = struct.unpack("<Q", patiently(agent.get, request, 0, 8))
    answered, _, _ = ANSWER.unpack(patiently(agent.get, request, REQUEST.size, ANSWER.size))
    return Machine(number, request, max(asked, answered) % WORD)


class Procedure(Closing):
    """A program of a service that answers requests for as long as the service lives. It is a context manager.

    It is called as a function with up to five numbers, from several threads too: each call takes a free machine. The value is the
    answer's result. `call_async` is the same for asyncio, and `map` sends many requests.

    A call raises `Failed` for a status other than 0, `Stopped` if the machine stopped, and `Exhausted` if none is left. It raises
    `TimeoutError` if no answer comes in time, `Broken` if the service has gone, and `Refused` if it refuses a command.
    """

    Failed, Stopped, Exhausted = Failed, Stopped, Exhausted

    def __init__(
        self, connect: Callable[[], SharedAgent], machines: Sequence[Machine], timeout: Optional[float], program: Optional[Program] = None
    ) -> None:
        """Over machines that await requests. `Service.procedure` and `Procedure.connect` have them."""
        self.timeout = timeout
        self._connect, self._program = connect, program
        self._agent: Optional[SharedAgent] = None
        self._connecting = threading.Lock()
        self._reads = 1
        # How many machines there are, those that are free, and those whose request wasn't answered in time.
        self._count, self._free, self._late = len(machines), deque(machines), deque[Turn]()
        self._last = max((machine.number for machine in machines), default=0)
        self._changed = threading.Condition()
        self._threads: Optional[ThreadPoolExecutor] = None
        self._is_closed = False

    @classmethod
    def shipped(cls, service: Service, program: Program, machines: int, timeout: Optional[float]) -> Procedure:
        """Ships a program to a service that doesn't listen yet, so that the breakpoints are set before workers run."""
        setup, made = service.setup, []
        for _ in range(machines):
            request = setup.make(LENGTH)
            machine = program.ship(setup, request)
            last = setup.run_until(machine, limit=START).last
            if not isinstance(last, AtBreakpoint):
                raise Unloadable(f"{program.image.path}: doesn't come to where it awaits a request, but to {last}")
            made.append(Machine(machine, request))
        return cls(lambda: service.connect_shared(REPLY_SECONDS), made, timeout, program)

    @classmethod
    def connect(cls, place: str, machines: Iterable[tuple[int, int]], timeout: Optional[float] = 60.0) -> Procedure:
        """Over machines of a running service at HOST:PORT, unix:PATH or tls:HOST:PORT, each with its request's object, which no other client
        may use meanwhile. A machine that stops isn't shipped again, since its program isn't known here."""
        agent = reached(place, REPLY_SECONDS)
        try:
            procedure = cls(lambda: agent, [taken_over(agent, *machine) for machine in machines], timeout)
            procedure._conversation()
        except BaseException:
            agent.close()
            raise
        return procedure

    def close(self) -> None:
        """Ends the conversation with the service. The machines stay there."""
        with self._changed:
            self._is_closed = True
            self._changed.notify_all()
        with self._connecting:
            if self._agent:
                self._agent.close()
        if self._threads:
            self._threads.shutdown()

    # ---- requests

    def __call__(self, *arguments: int) -> int:
        """The result of one request."""
        request = arguments_of(arguments)
        turn = Turn(self._machine(), request)
        try:
            self._finish(turn)
        finally:
            self._give_back(turn)
        return self._result(turn)

    async def call_async(self, *arguments: int) -> int:
        """The same for asyncio, by a thread. The request of a call that is cancelled goes on."""
        with self._changed:
            if self._threads is None:
                self._threads = ThreadPoolExecutor(max(self._count, 1), "procedure")
        return await asyncio.get_running_loop().run_in_executor(self._threads, self, *arguments)

    def map(self, rows: Iterable[Row]) -> Iterator[int]:
        """The result of each request, in order. All machines that are free work at once, and each packet has a request for each."""
        rest, turns = (arguments_of(row) for row in rows), deque[Turn]()
        asked: list[Turn] = []
        row, moments = next(rest, None), short_pauses()
        try:
            while row is not None or turns:
                while row is not None and (machine := self._free_machine() if asked else self._machine()):
                    asked.append(Turn(machine, row))
                    turns.append(asked[-1])
                    row = next(rest, None)
                next(moments)
                if self._advance(asked):
                    moments = short_pauses()
                for turn in [turn for turn in asked if turn.is_over]:
                    asked.remove(turn)
                    self._give_back(turn)
                self._in_time(asked)
                while turns and turns[0].is_over:
                    yield self._result(turns.popleft())
        finally:
            for turn in asked:
                self._give_back(turn)

    @property
    def left(self) -> int:
        """How many machines the service can still make."""
        agent = self._conversation()
        while self._last < MACHINES:
            try:
                agent.regs(self._last + 1)
            except Refused:
                break
            self._last += 1
        return MACHINES - self._last

    # ---- machines

    def _conversation(self) -> SharedAgent:
        """The conversation, which begins with the first request. The trip to the service tells how often an answer is read in a packet."""
        if self._agent and not self._is_closed:
            return self._agent
        with self._connecting:
            if self._is_closed:
                raise Broken(CLOSED)
            if self._agent is None:
                agent, trips = self._connect(), []
                for _ in range(TRIPS):
                    since = time.monotonic()
                    agent.tell(f"regs {MACHINES}")
                    trips.append(time.monotonic() - since)
                self._reads = 1 if min(trips) <= NEAR else FAR_READS
                self._agent = agent
            return self._agent

    def _free_machine(self) -> Optional[Machine]:
        """A machine that is free now."""
        with self._changed:
            return self._free.popleft() if self._free else None

    def _machine(self) -> Machine:
        """A free machine, when there is one."""
        with self._changed:
            if self._free and not self._is_closed:
                return self._free.popleft()
        end = None if self.timeout is None else time.monotonic() + self.timeout
        for _ in short_pauses():
            left = None if end is None else end - time.monotonic()
            if left is not None and left <= 0:
                break
            with self._changed:
                self._changed.wait_for(lambda: self._is_closed or self._free or self._late or not self._count, left)
                if self._is_closed:
                    raise Broken(CLOSED)
                if self._free:
                    return self._free.popleft()
                if not self._count:
                    raise Exhausted("no machine is left, and none can be shipped")
                late = self._late.popleft() if self._late else None
            if late:
                self._look_after(late)
        raise TimeoutError(f"no machine was free within {self.timeout:g} seconds")

    def _look_after(self, late: Turn) -> None:
        """Looks once whether a request is over by now that wasn't answered in time."""
        try:
            self._advance([late])
        finally:
            self._give_back(late)

    def _give_back(self, turn: Turn) -> None:
        """What becomes of the machine of a request that is over, or was given up."""
        machine = None if turn.stop else turn.machine
        try:
            if turn.stop:
                machine = self._another(turn)
        finally:
            with self._changed:
                if not turn.is_over:
                    self._late.append(turn)
                elif machine:
                    self._free.append(machine)
                else:
                    self._count -= 1
                self._changed.notify_all()

    def _another(self, turn: Turn) -> Optional[Machine]:
        """A machine in place of one that stopped, if one can be shipped. It may go round its loop until its breakpoint is set; so its
        request must be none first."""
        agent, machine = self._conversation(), turn.machine
        turn.line = (self._program and self._program.line_at(turn.slot)) or agent.line(machine.number, turn.slot)
        if not self._program:
            return None
        patiently(agent.put, machine.object, 0, bytes(LENGTH))
        try:
            number = self._program.ship(agent, machine.object)
        except Refused as why:
            if why.word != "full":
                raise
            return None
        self._last = max(self._last, number)
        return Machine(number, machine.object)

    # ---- what comes of a request

    def _advance(self, turns: Sequence[Turn]) -> bool:
        """Sends what these requests have to send, in one packet, and takes what comes back. Whether one of them is over now."""
        agent, reads = self._conversation(), max(1, self._reads // len(turns))
        orders = [turn.orders() for turn in turns]
        lines = list(itertools.chain(*orders))
        first = len(lines)
        for turn in turns:
            lines += [turn.read()] * reads
        replies, at = agent.exchange(lines), 0
        for turn, part in zip(turns, orders):
            turn.take(replies[at : at + len(part)], replies[first : first + reads])
            at, first = at + len(part), first + reads
        return any([turn.is_over for turn in turns])

    def _in_time(self, turns: Sequence[Turn]) -> None:
        """Raises `TimeoutError` if one of these requests has waited too long."""
        for turn in turns:
            if self.timeout is not None and time.monotonic() > turn.since + self.timeout:
                raise TimeoutError(f"no answer came within {self.timeout:g} seconds for the request {request_text(turn.request)}: {self._why(turn)}")

    def _why(self, turn: Turn) -> str:
        """What a machine does in place of answering. A step tells: it does an instruction, as a worker would, or says for what it waits."""
        machine = turn.machine.number
        step = self._conversation().step(machine)
        return f"machine {machine} waits for object {step.object}" if isinstance(step, Waiting) else f"machine {machine} still runs"

    def _finish(self, turn: Turn) -> None:
        """Goes on with a request until it is over. The first time the answer is asked for again at once."""
        if not self._advance([turn]):
            for _ in short_pauses():
                if self._advance([turn]):
                    return
                self._in_time([turn])

    def _result(self, turn: Turn) -> int:
        """The result of a request that is over, or what it raises."""
        number = turn.machine.number
        if turn.answer is None:
            raise Stopped(number, turn.request, turn.stop, turn.slot, turn.line)
        result, status = turn.answer
        if status != DONE:
            raise Failed(number, turn.request, status, result)
        return result


def short_pauses() -> Iterator[None]:
    """The pauses between two reads of an answer."""
    return pauses(first=SHORT_PAUSE)

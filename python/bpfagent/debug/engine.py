"""The debugger itself: machines of an agent, their breakpoints, what they do and what they show.

One `Engine` has one conversation. With an agent of its own it steps the machines itself; in a service workers run them. Each machine
is on its own: while one runs, others stand still, run, or are looked at. `poll` does a little of what was begun and tells what
has stopped.
"""
from __future__ import annotations

import contextlib
import re
import time
from dataclasses import dataclass, field, replace
from typing import Callable, Generator, Optional, Sequence, Union

from ..agent import PIECE, STACK, Agent, patiently, pauses
from ..limits import LONGEST, MACHINES, OBJECTS, SLOTS, STACK_SIZE
from ..line_engine import LineEngine
from ..replies import PAUSED, RUNNING, Broken, Refused, Registers
from .expressions import Invalid, Value, evaluate, integer, parse
from .frames import CallSite, Frame, FrameContext, Unreadable, Unwinder, depth_of
from .lines import SourceLine
from .points import BRACED, Breakpoint, Terms, Watch, checked_hits, written
from .program import NoPlace, Place, Program
from .symbols import Nowhere
from .types import BYTE, INTEGERS, Type

# How often a service is asked for machines that others shipped, in seconds.
LOOK = 0.5
# How long a byte is asked for while the object comes back, or another has its turn on it, in seconds.
BUSY = 3.0
# The stops after which a machine doesn't go on.
ENDS = ("exit", "stopped")


# An agent that takes lines: over a stream, or in this process.
Conversation = Union[Agent, LineEngine]


class Impossible(Exception):
    """Why the debugger can't do something."""


class Unanswered(Broken):
    """An interrupt came while the agent didn't answer."""


@dataclass(frozen=True)
class Stop:
    """A machine stands still: why, at which slot, and what else there is to say of it. `hidden` is how many functions that are inlined there
    it hasn't entered; without it, all that begin there."""

    machine: int
    reason: str
    slot: int
    text: str = ""
    value: Optional[Value] = None
    breakpoints: tuple[int, ...] = ()
    hidden: Optional[int] = None
    gone: tuple[str, ...] = ()


Goal = Generator[Optional[Stop], None, None]


@dataclass
class Machine:
    """A machine: its program, if it is known, what it was told to do, and which of its calls were stepped into.

    `early` is a stop that came when it was told, and isn't polled for yet. `was_paused` says that it was found paused.
    """

    number: int
    program: Optional[Program]
    goal: Optional[Goal] = None
    early: Optional[Stop] = None
    was_paused: bool = False
    calls: list[CallSite] = field(default_factory=list)
    waits_for: Optional[int] = None
    last: Optional[Stop] = None
    # The breakpoints that stop it where it has come to: slot, fuel, and their numbers.
    reached: Optional[tuple[int, int, tuple[int, ...]]] = None


class Engine:
    """A debugger of one agent's machines."""

    def __init__(self, agent: Conversation, is_service: bool, programs: Sequence[Program] = ()) -> None:
        self.agent: Conversation = agent
        self.is_service = is_service
        self.programs: list[Program] = list(programs)
        self.machines: dict[int, Machine] = {}
        self.objects: dict[int, int] = {}
        self.breakpoints: dict[int, Breakpoint] = {}
        self.watches: dict[int, Watch] = {}
        self._numbers = 0
        self._looked = 0.0
        # Whether a worker runs the machines that go on, in a service that the debugger has started; and whether it did so unasked.
        self.has_worker = self.is_own = False
        # Begins the programs anew, where the debugger has started them; and has workers run them from now on, where there may be some.
        self.restart: Optional[Callable[[], None]] = None
        self.hasten: Optional[Callable[[], None]] = None
        # Hears what a log point says of a machine.
        self.log: Callable[[int, str], None] = lambda machine, text: print(text)

    # ---- machines

    def add(self, number: int, program: Optional[Program]) -> Machine:
        """A machine whose program is known."""
        machine = self.machines[number] = Machine(number, program)
        for held in self.breakpoints.values():
            if held.program is program:
                self._set(number, held.place.slots)
        return machine

    def begin_anew(self, agent: Conversation, is_service: bool) -> None:
        """Forgets the machines and objects of an agent that has ended, for another. Breakpoints stay, without their hits, and watched objects, which
        `watch_anew` sets."""
        self.agent, self.is_service, self.has_worker, self.is_own = agent, is_service, False, False
        self.machines, self.objects = {}, {}
        for point in self.breakpoints.values():
            point.hits = 0
        for number in [watch.number for watch in self.watches.values() if watch.depth >= 0]:
            del self.watches[number]

    def watch_anew(self) -> None:
        """Watches the objects of a program that was begun anew."""
        for watch in self.watches.values():
            self.agent.watch(watch.machine, watch.address, watch.length)
            watch.last = self.memory(watch.machine, watch.address, watch.length)

    def look(self) -> list[Machine]:
        """Finds machines that are new, and gives them. Their programs are recognized by their instructions."""
        self._looked, found = time.monotonic(), []
        for number in range(1, MACHINES + 1):
            if number in self.machines:
                continue
            try:
                state = self.agent.regs(number).state
            except Refused:
                break
            machine = self.add(number, next((p for p in self.programs if self._runs(number, p)), None))
            machine.was_paused = state == PAUSED
            if self.is_service and state == RUNNING:
                self.run(number)
            found.append(machine)
        return found

    def _runs(self, number: int, program: Program) -> bool:
        """Whether a machine has the instructions of a program."""
        slots = range(min(program.image.slots + 1, SLOTS))
        return program.runs_as(self.agent.tell_all([f"line {number} {slot}" for slot in slots]))

    def machine(self, number: int) -> Machine:
        """The machine of this number."""
        if number not in self.machines:
            raise Impossible(f"there is no machine {number}")
        return self.machines[number]

    def registers(self, number: int) -> Registers:
        """The registers of a machine."""
        return self.agent.regs(number)

    def is_running(self, number: int) -> bool:
        """Whether a machine was told to go on and hasn't stopped."""
        return self.machine(number).goal is not None

    def frames(self, number: int, hidden: Optional[int] = None) -> list[Frame]:
        """The frames of a machine, the innermost first, without so many functions that begin where it is."""
        machine, registers = self.machine(number), self.registers(number)
        if not machine.program or not machine.program.symbols:
            return [Frame(number, f"slot {registers.slot}", registers.slot, None, registers.values)]
        hidden = self.hidden(machine, registers.slot) if hidden is None else hidden
        return Unwinder(machine.program.symbols, registers, machine.calls[: depth_of(registers)], hidden).frames()

    @staticmethod
    def hidden(machine: Machine, slot: int) -> int:
        """How many functions that are inlined at a slot a machine that stands there hasn't entered yet."""
        if not machine.program or not machine.program.symbols:
            return 0
        last = machine.last
        if last and last.slot == slot and last.hidden is not None:
            return last.hidden
        return machine.program.symbols.beginning(slot)

    def context(self, frame: Frame) -> FrameContext:
        """What names mean in a frame."""
        program = self.machine(frame.machine).program
        return FrameContext(frame, program.symbols if program else None, self.registers(frame.machine), self)

    def evaluate(self, text: str, frame: Frame) -> Value:
        """The value of an expression in a frame."""
        return evaluate(text, self.context(frame))

    # ---- memory

    def memory(self, machine: int, address: int, length: int) -> bytes:
        """Bytes that a machine sees. `Unreadable` says why they can't be had."""
        number, offset = address >> 32, address & 0xFFFF_FFFF
        if number == STACK:
            if offset + length > STACK_SIZE:
                raise Unreadable(f"0x{address:x} is outside the stack")
            return self._pieces(lambda at, size: self.agent.stack(machine, at, size), offset, length)
        if not 1 <= number <= OBJECTS:
            raise Unreadable(f"0x{address:x} is in no object")
        if offset + length > LONGEST:
            raise Unreadable(f"0x{address:x} is outside object {number}")
        try:
            return self._pieces(lambda at, size: self._get(number, at, size), offset, length)
        except Refused as why:
            raise Unreadable(unreadable(why, number, offset, length)) from None

    def _get(self, number: int, offset: int, length: int) -> bytes:
        """Bytes of an object; a service is asked again while it brings the object back."""
        if self.is_service:
            return patiently(self.agent.get, number, offset, length, seconds=BUSY)
        return self.agent.get(number, offset, length)

    @staticmethod
    def _pieces(read: Callable[[int, int], bytes], offset: int, length: int) -> bytes:
        return b"".join(read(at, min(PIECE, offset + length - at)) for at in range(offset, offset + length, PIECE))

    def write(self, address: int, content: bytes) -> None:
        """Writes bytes of an object. The protocol has no command for registers and stacks."""
        number = address >> 32
        if not 1 <= number <= OBJECTS:
            raise Impossible("the protocol can write objects only, and no stacks or registers")
        if (address & 0xFFFF_FFFF) + len(content) > LONGEST:
            raise Impossible(f"0x{address:x} is outside object {number}")
        try:
            self.agent.write(number, content, address & 0xFFFF_FFFF)
        except Refused as why:
            raise Impossible(unreadable(why, number, address & 0xFFFF_FFFF, len(content))) from None

    def length_of(self, number: int) -> Optional[int]:
        """The length of an object, found by asking for its bytes; None if there is none, or it is away in a service."""
        if not self._has(number, 0):
            return None
        low, high = 1, LONGEST
        while low < high:
            middle = (low + high + 1) // 2
            low, high = (middle, high) if self._has(number, middle - 1) else (low, middle - 1)
        return low

    def _has(self, number: int, offset: int) -> bool:
        """Whether an object has a byte there."""
        return self._probe(number, offset) != "outside"

    def _probe(self, number: int, offset: int) -> str:
        """The first word of the reply to a `get` of a byte, asked again while somebody else uses the object."""
        reply = "busy"
        for _ in pauses(BUSY):
            reply = self.agent.tell(f"get {number} {offset} 1").split(" ")[0]
            if reply != "busy":
                break
        return reply

    def all_objects(self) -> list[tuple[int, int, str]]:
        """Number, length and place of all objects."""
        replies = self.agent.tell_all([f"get {number} 0 1" for number in range(1, OBJECTS + 1)])
        found = [(number, self._probe(number, 0) if reply.startswith("busy") else reply) for number, reply in enumerate(replies, 1)]
        return [(number, self.length_of(number) or 0, "away" if reply.startswith("away") else "here") for number, reply in found if reply != "outside"]

    def scoped(self, number: int) -> str:
        """Whether a machine holds an object in a scope. The protocol says so only when the object is to leave."""
        if self.is_service:
            raise Impossible("a service doesn't show scopes: it answers `leave` by `asked`, and its mover moves later")
        reply = self.agent.tell(f"leave {number}")
        if reply == f"leaving {number}":
            for line in ("left", "return", "returned"):
                self.agent.tell(f"{line} {number}")
            return "in no scope"
        return "in a scope" if reply == f"kept {number} scoped" else reply

    # ---- breakpoints

    def _number(self) -> int:
        self._numbers += 1
        return self._numbers

    def set_breakpoint(self, program: Program, text: str, place: Place, terms: Terms = Terms()) -> Breakpoint:
        """Sets a breakpoint on all machines that run a program, as far as the agent has room for its slots. Raises `Invalid` if the condition
        can't be parsed, or names what isn't there."""
        self._check(program, place, terms)
        made = Breakpoint(self._number(), text, program, place, terms)
        machines = [machine.number for machine in self.machines.values() if machine.program is program]
        room = min((self._room(number, place.slots) for number in machines), default=len(place.slots))
        for number in machines:
            self._clear_slots([number], place.slots[room:])
        if not room:
            raise Impossible(f"machine {machines[0]} has 16 breakpoints, and can have no more")
        made.place, made.left = replace(place, slots=place.slots[:room]), place.slots[room:]
        self.breakpoints[made.number] = made
        return made

    @staticmethod
    def _check(program: Program, place: Place, terms: Terms) -> None:
        """Raises `Invalid` if a breakpoint's terms mean nothing."""
        checked_hits(terms.hits)
        types, names = (program.symbols.named_types if program.symbols else {}), program.names_at(place.slots)
        said = [("condition", terms.condition)] * bool(terms.condition) + [("message's", text) for text in BRACED.findall(terms.log)]
        for kind, text in said:
            try:
                parse(text, types, names)
            except Invalid as why:
                raise Invalid(f"the {kind} `{text}` can't be read: {why}") from None

    def _room(self, number: int, slots: Sequence[int]) -> int:
        """Sets breakpoints, and gives for how many of these slots there was room."""
        for count, slot in enumerate(slots):
            try:
                self._set(number, [slot])
            except Impossible:
                return count
        return len(slots)

    def _set(self, number: int, slots: Sequence[int]) -> None:
        for slot in slots:
            try:
                self.agent.break_(number, slot)
            except Refused as why:
                if why.word == "full":
                    raise Impossible(f"machine {number} has 16 breakpoints, and can have no more") from None
                raise NoPlace(f"machine {number}: {why}") from None

    def place_temporaries(self, number: int, slots: Sequence[int]) -> None:
        """Sets breakpoints of the debugger's own."""
        self._set(number, slots)

    def delete_breakpoint(self, number: int) -> None:
        """Deletes a breakpoint."""
        gone = self.breakpoints.pop(number, None)
        if gone is None:
            raise Impossible(f"there is no breakpoint {number}")
        machines = [machine.number for machine in self.machines.values() if machine.program is gone.program]
        self._clear_slots(machines, gone.place.slots)

    def _clear_slots(self, machines: Sequence[int], slots: Sequence[int]) -> None:
        """Clears breakpoints at slots where no other breakpoint is."""
        for number in machines:
            self.clear(number, [slot for slot in slots if not self.keeps(number, slot)])

    def clear(self, number: int, slots: Sequence[int]) -> None:
        """Clears the machine's own breakpoints at slots."""
        self.agent.tell_all([f"unbreak {number} {slot}" for slot in slots])

    def clear_own(self, number: int, slots: Sequence[int]) -> None:
        """Clears breakpoints of the debugger's own."""
        self._clear_slots([number], slots)

    def keeps(self, number: int, slot: int) -> bool:
        """Whether a breakpoint has to stay at a slot of a machine, or the end of a watched frame."""
        return bool(self.breakpoints_at(number, slot)) or self.ends_at(number, slot)

    def breakpoints_at(self, number: int, slot: int) -> list[Breakpoint]:
        """The breakpoints at a slot of a machine."""
        program = self.machine(number).program
        return [found for found in self.breakpoints.values() if found.program is program and slot in found.place.slots]

    def reach(self, number: int, slot: int) -> tuple[int, ...]:
        """The breakpoints that stop a machine which has come to a slot: those whose condition holds, or can't be told, and that have so many
        hits. One that logs says its message instead."""
        points = self.breakpoints_at(number, slot)
        if not points:
            return ()
        machine, fuel = self.machine(number), self.registers(number).fuel
        if machine.reached is None or machine.reached[:2] != (slot, fuel):
            machine.reached = (slot, fuel, tuple(found.number for found in points if self._stops(machine, slot, found)))
        return tuple(number for number in machine.reached[2] if number in self.breakpoints)

    def _stops(self, machine: Machine, slot: int, point: Breakpoint) -> bool:
        """Counts a hit of a breakpoint, and says whether it stops the machine."""
        frame: Optional[Frame] = None
        if point.terms.condition or point.terms.log:
            frame = self.frames(machine.number, self._entered(machine.program, slot, [point.place]))[0]
        if frame and point.terms.condition:
            with contextlib.suppress(Invalid, Nowhere):
                if not any(self.evaluate(point.terms.condition, frame).bytes):
                    return False
        point.hits += 1
        if not point.counts():
            return False
        if frame and point.terms.log:
            self.log(machine.number, self._message(point.terms.log, frame))
            return False
        return True

    def _message(self, text: str, frame: Frame) -> str:
        """A message with the values of the expressions in braces, or why one has none."""

        def value(found: re.Match[str]) -> str:
            try:
                return str(self.evaluate(found[1], frame))
            except (Invalid, Nowhere) as why:
                return f"<{why}>"

        return BRACED.sub(value, text)

    # ---- watched values

    def watch(self, text: str, frame: Frame) -> Watch:
        """Watches a value in memory for writes by its machine."""
        value = self.evaluate(text, frame)
        if value.address is None or value.is_part:
            raise Impossible("only a value in memory can be watched, and this one is in a register or is computed")
        return self._watch(Watch(self._number(), frame.machine, text, value.address, value.type, value.bytes))

    def watch_at(self, machine: int, address: int, length: int, text: str) -> Watch:
        """Watches bytes from an address on, shown by a name, as a number if they are one's."""
        type_ = INTEGERS.get(length) or Type("array", target=BYTE, count=length, size=length)
        return self._watch(Watch(self._number(), machine, text, address, type_, self.memory(machine, address, length)))

    def _watch(self, made: Watch) -> Watch:
        try:
            self.agent.watch(made.machine, made.address, made.length)
        except (Refused, ValueError) as why:
            is_full = isinstance(why, Refused) and why.word == "full"
            raise Impossible("a machine has 8 watched ranges, and can have no more" if is_full else str(why)) from None
        self.watches[made.number] = made
        ends = self._ends(made)
        # Without room for its end the range goes at the next stop behind it.
        if self._room(made.machine, ends) == len(ends):
            made.ends = ends
        else:
            self._clear_slots([made.machine], ends)
        return made

    def _ends(self, watch: Watch) -> tuple[int, ...]:
        """The slots to which the function may return whose frame has a watched value."""
        program, depth = self.machine(watch.machine).program, depth_of(self.registers(watch.machine))
        if not program or not program.symbols or not 0 < watch.depth <= depth:
            return ()
        frames = self.frames(watch.machine)
        own = [k for k, frame in enumerate(frames) if not frame.is_inlined][depth - watch.depth :][:1]
        caller = next((frames[k + 1].slot for k in own if k + 1 < len(frames)), None)
        if caller is not None:
            return (program.after(caller),)
        slots = [frames[k].slot for k in own]
        function = program.symbols.function_at(slots[0]) if slots and slots[0] is not None else None
        return tuple(program.after(site) for site, target in program.calls.items() if function and target == function.slot)

    def ends_at(self, number: int, slot: int) -> bool:
        """Whether the frame of a watched value may end at a slot of a machine."""
        return any(watch.machine == number and slot in watch.ends for watch in self.watches.values())

    def outlived(self, number: int, depth: int) -> list[Watch]:
        """The watched values of a machine whose frames are gone, now that so many calls are open."""
        return [watch for watch in self.watches.values() if watch.machine == number and watch.depth > depth]

    def delete_watch(self, number: int) -> None:
        """No longer watches a value."""
        gone = self.watches.pop(number)
        self._clear_slots([gone.machine], gone.ends)
        if not any((w.machine, w.address, w.length) == (gone.machine, gone.address, gone.length) for w in self.watches.values()):
            self.agent.tell(f"unwatch {gone.machine} {gone.address} {gone.length}")

    def writes(self, number: int, is_hit: bool) -> tuple[tuple[int, ...], str]:
        """The watched values that a machine has just written, and what each was and is, or that it is the same."""
        registers = self.registers(number)
        mine = [watch for watch in self.watches.values() if watch.machine == number and watch.depth <= depth_of(registers)]
        touched = self._touched(registers, is_hit) if mine else None
        numbers, told = [], []
        for watch in mine:
            now = self.memory(number, watch.address, watch.length)
            is_met = touched is not None and watch.meets(*touched)
            if now != watch.last or is_met:
                numbers.append(watch.number)
                told.append(f"{watch.text}: {Value(watch.type, watch.last)} -> {Value(watch.type, now)}")
                if now == watch.last:
                    told[-1] = f"{watch.text}: {Value(watch.type, now)}, written again"
            watch.last = now
        if is_hit and not told:
            told.append("a watched value was written and is the same as before")
        return tuple(numbers), "; ".join(told)

    def _touched(self, registers: Registers, is_hit: bool) -> Optional[tuple[int, int]]:
        """Where the instruction before a machine's slot has written. Where a breakpoint is too, a jump may have led there past it."""
        program, slot = self.machine(registers.machine).program, registers.slot
        if not is_hit and (not slot or self.breakpoints_at(registers.machine, slot) and (not program or slot in program.flow.targets)):
            return None
        try:
            return written(self.agent.line(registers.machine, slot - 1), registers)
        except (Refused, ValueError):
            return None

    # ---- running

    def begin(self, number: int, goal: Goal) -> None:
        """Gives a machine something to do, which `poll` goes on with."""
        machine = self.machine(number)
        if machine.goal is not None:
            raise Impossible(f"machine {number} is running: pause it first")
        machine.goal = goal
        machine.early = next(goal, None)

    def run(self, number: int) -> None:
        """Lets a machine go on until something stops it."""
        from .running import Runner

        self.begin(number, Runner(self, self.machine(number)).to_the_end())

    def poll(self) -> list[Stop]:
        """Goes on with all machines that run, each a little, and gives those that have stopped."""
        found = []
        if self.is_service and time.monotonic() - self._looked > LOOK:
            self.look()
        for machine in list(self.machines.values()):
            if machine.goal is None:
                continue
            stop = machine.early or next(machine.goal, None)
            if stop is not None:
                machine.goal = machine.early = None
                found.append(self._stopped(machine, stop))
        return found

    def _stopped(self, machine: Machine, stop: Stop) -> Stop:
        machine.last = stop = self._seen(machine, stop)
        if stop.reason != "waiting":
            machine.waits_for = None
        for number in stop.breakpoints:
            if number in self.breakpoints and self.breakpoints[number].terms.is_temporary:
                self.delete_breakpoint(number)
        return stop

    def _seen(self, machine: Machine, stop: Stop) -> Stop:
        """A stop with the frame that it shows, and without the watched values whose frame has gone."""
        depth = -1 if stop.reason == "exit" else depth_of(self.registers(stop.machine))
        gone = self.outlived(stop.machine, depth)
        for watch in gone:
            self.delete_watch(watch.number)
        stop = replace(stop, gone=tuple(f"watchpoint {watch.number}: {watch.text} is gone with its frame" for watch in gone))
        if stop.reason == "breakpoint":
            places = [self.breakpoints[number].place for number in stop.breakpoints if number in self.breakpoints]
            return replace(stop, hidden=self._entered(machine.program, stop.slot, places))
        return stop

    @staticmethod
    def _entered(program: Optional[Program], slot: int, places: Sequence[Place]) -> int:
        """How many functions that begin at a slot aren't entered by a stop at one of these breakpoints. That of a function is in the function,
        and that of a line in the innermost frame that is at the line."""
        if not program or not program.symbols:
            return 0
        copies = program.symbols.copies_at(slot)
        for hidden in range(program.symbols.beginning(slot) + 1):
            outer = copies[: len(copies) - hidden]
            at = copies[len(copies) - hidden].called_at if hidden else program.line_at(slot)
            name = outer[-1].name if outer else program.function_name(slot)
            if any(place.function == name if place.function else place.at == at for place in places):
                return hidden
        return 0

    def pause(self, number: int) -> Stop:
        """Stops a machine that runs, after its next instruction."""
        from .running import Runner

        machine = self.machine(number)
        self._give_up(machine)
        machine.calls.clear()
        machine.last = self._seen(machine, Runner(self, machine).paused())
        return machine.last

    def give_up(self) -> None:
        """Ends what the machines were told to do."""
        for machine in self.machines.values():
            self._give_up(machine)

    @staticmethod
    def _give_up(machine: Machine) -> None:
        """Ends what a machine was told to do. What was set for that is cleared."""
        if machine.goal is not None:
            machine.goal.close()
        machine.goal = machine.early = None

    def leave(self, seconds: float) -> str:
        """Clears all that was set. In a service, machines that the debugger has paused go on. Says what may stay if the agent doesn't
        answer within so many seconds; empty if nothing does."""
        left = [self._named(number) for number in (*self.watches, *self.breakpoints)]
        left += [f"the pause of machine {machine.number}" for machine in self.machines.values() if self._stands(machine)]
        self.agent.hurry(seconds)
        try:
            for number in (*self.watches, *self.breakpoints):
                name = self._named(number)
                if number in self.watches:
                    self.delete_watch(number)
                else:
                    self.delete_breakpoint(number)
                left.remove(name)
            for machine in self.machines.values():
                self._let_go(machine)
                with contextlib.suppress(ValueError):
                    left.remove(f"the pause of machine {machine.number}")
        except Broken:
            # With the agent all that was set has ended.
            return f"the service doesn't answer, and may keep {', '.join(left)}" if left and not self.agent.has_ended else ""
        return ""

    def _named(self, number: int) -> str:
        """A breakpoint or a watched value, by its number."""
        return f"{'watchpoint' if number in self.watches else 'breakpoint'} {number}"

    def _stands(self, machine: Machine) -> bool:
        """Whether a machine of a service was last seen paused by the debugger."""
        return self.is_service and not machine.was_paused and machine.goal is None and machine.last is not None and machine.last.reason not in ENDS

    def _let_go(self, machine: Machine) -> None:
        """Ends what a machine was told to do, and its pause, if the debugger paused it."""
        self._give_up(machine)
        if self.is_service and not machine.was_paused and self.registers(machine.number).state == PAUSED:
            self.agent.resume(machine.number)

    def result(self, number: int) -> Value:
        """R0, as a number."""
        return integer(self.registers(number).values[0])

    def here(self, number: int) -> Optional[SourceLine]:
        """The source line at which a machine is."""
        program = self.machine(number).program
        return program.line_at(self.registers(number).slot) if program else None


def unreadable(why: Refused, number: int, offset: int, length: int) -> str:
    """Why bytes of an object can't be had, in words."""
    if why.word == "outside":
        return f"there is no object {number}, or it ends before offset {offset + length}"
    if why.word == "away":
        return f"object {number} is away: a machine that reaches it brings it back"
    return f"object {number}: {why}"

"""An agent in this process, by the library for C.

An `Engine` has the methods of `Agent`, with the same values and exceptions, so code runs on either. It runs a million instructions in
milliseconds, since no line is written for them:

    >>> code = bytes.fromhex("7910000000000000" "0f20000000000000" "9500000000000000")
    >>> with Engine(4096) as engine:
    ...     number = engine.make_of((40).to_bytes(8, "little"))
    ...     engine.run_until(engine.ship(code, 100, address(number), 2)).value
    42

The rules of `include/bpfagent.h` are kept here. Numbers are tested, since ctypes would cut 2^32 + 1 to 1. A lock is held around each call.
A handle is never copied, and not used after its end or in a forked child. Several threads may use one `Engine`.
"""
from __future__ import annotations

import ctypes
import os
import threading
import time
import weakref
from ctypes import byref, c_char, c_size_t, c_uint32, c_uint64
from typing import Callable, Mapping, NoReturn, Optional, Protocol, Sequence, Union

from .arguments import (
    Bytes,
    kind_of,
    of_bytes,
    of_code,
    of_grants,
    of_length,
    of_machine,
    of_object,
    of_offset,
    of_piece,
    of_range,
    of_slot,
    of_stack,
    of_start,
    size_of,
    within,
)
from .closing import Closing
from .library import HIT, NOAGENT, OK, PAUSED, RAN, REFUSED, STOPPED, WAITING, WORDS, Call, End, Grant, Handle, Library, Parcel, Refusal, Shown, WrongLine, library
from .limits import LONGEST, OBJECTS, SLOTS, STACK_SIZE, WORD
from .objects import Objects
from .replies import Closed, Hit, Move, Paused, Ran, Refused, Registers, Run, Step, Stopped, Waiting

# After so many instructions signals are heard, and other threads may use the engine: less than 50 ms, however dear they are.
CHUNK = 1 << 17
# Most jobs end within so many, for which Python's lock isn't let go.
FIRST = 2_000
# Between two chunks a lock is free for so short a time that a waiting thread may miss it. So a run pauses now and then, in seconds.
TURN, PAUSE = 0.005, 0.00005
# The most bytes of code.
CODE = 8 * SLOTS
# A budget with room for all objects that there can be.
BUDGET = OBJECTS * LONGEST
# The most values that a machine emits, and bytes of its lines of assembly.
EMITTED, LINE = 64, 256
EXIT, IS_STOPPED = 1, 2


class FarStore(Protocol):
    """Keeps the bytes of far objects of one engine, by their numbers. Either call may raise any exception if it fails.

    A store that also has a `forget(number)` is told which bytes are needed no more.
    """

    def put(self, number: int, content: bytes) -> None:
        """Keeps the bytes of an object, in place of those that it kept before."""

    def get(self, number: int) -> bytes:
        """The bytes that were put last. Others are refused by their digest."""


def told(reply: int, number: int = 0) -> None:
    """Raises a reply that isn't the one to a command that was done."""
    if reply != OK:
        raise Refused(WORDS[reply].format(number))


def read_from(content: Bytes) -> Union[bytes, ctypes.Array[c_char]]:
    """Bytes as a call reads them, without a copy if they are `bytes` or may be written."""
    if isinstance(content, bytes):
        return content
    view = memoryview(content)
    if view.readonly or not view.contiguous:
        return view.tobytes()
    return (c_char * view.nbytes).from_buffer(view)


def delete(library: Library, handle: Handle) -> None:
    """Deletes the agent of a handle."""
    library.calls["delete"](byref(handle))


class Engine(Objects, Closing):
    """An agent in this process, which is a context manager.

    Several threads may use it: a lock is held around each call, and a run gives it up after each 131,072 instructions. After `close`, and in
    a process that was forked from this one, each method raises `Closed`.
    """

    def __init__(self, budget: int = BUDGET, store: Optional[FarStore] = None) -> None:
        """`budget` is the most bytes of objects that are not far. Far objects are in the library's own memory, or in a store.

        Raises `NoLibrary` if the library isn't there, and `MemoryError` if it has no memory.
        """
        self._handle, self._lock, self._why = Handle(), threading.Lock(), "the engine was closed"
        self._library = loaded = library()
        self._calls, self._store = loaded.calls, store
        # Room for what calls write, made once. It is used under the lock alone.
        self._a, self._end, self._shown = byref(self._handle), End(), Shown()
        self._number, self._count, self._refusal = c_uint32(), c_size_t(), Refusal()
        self._room = ctypes.create_string_buffer(STACK_SIZE)
        # Bytes that the store has failed to take, or is still to take, by their object's number. The agent has their digest alone.
        self._held: dict[int, bytes] = {}
        if loaded.calls["new" if store is None else "new_handing"](self._a, within(budget, BUDGET, 0, "a budget")) != OK:
            raise MemoryError("the engine has no memory")
        # It deletes the agent if nobody closes it. It holds the handle, and not this.
        self._finalizer = weakref.finalize(self, delete, loaded, self._handle)
        # At the process' end a thread may still be in a call.
        self._finalizer.atexit = False
        ENGINES.add(self)

    def close(self) -> None:
        """Ends the agent, with all of its objects and machines."""
        with self._lock:
            self._finalizer()

    def __reduce__(self) -> NoReturn:
        raise TypeError("an engine can't be copied, nor sent to another process")

    def _abandon(self) -> None:
        """In a forked child: the agent belongs to the parent, and locks may be held by threads that aren't here."""
        self._lock, self._why = threading.Lock(), "the engine belongs to the process that this one was forked from"
        self._finalizer.detach()
        ctypes.memset(ctypes.addressof(self._handle), 0, ctypes.sizeof(Handle))

    # ---- calls

    def _told(self, reply: int, number: int = 0) -> None:
        """Raises a reply that isn't the one to a command that was done."""
        if reply == NOAGENT:
            raise Closed(self._why)
        told(reply, number)

    def _do(self, name: str, *given: int) -> None:
        """A call of numbers, of which the first is the object's or the machine's."""
        with self._lock:
            reply = self._calls[name](self._a, *given)
        if reply:
            self._told(reply, given[0])

    def _room_of(self, length: int) -> int:
        """The address of room for so many bytes."""
        if len(self._room) < length:
            self._room = ctypes.create_string_buffer(LONGEST)
        return ctypes.addressof(self._room)

    # ---- objects

    def make(self, length: int) -> int:
        """Makes an object of 1 to 65,536 zero bytes, and gives its number."""
        length = of_length(length)
        with self._lock:
            self._told(self._calls["make"](self._a, length, byref(self._number)))
            return self._number.value

    def put(self, number: int, offset: int, content: Bytes) -> None:
        """Writes 1 to 65,536 bytes to an object. They aren't copied on the way."""
        number, offset, length = of_object(number), of_offset(offset), of_piece(content, LONGEST)
        given = read_from(content)
        with self._lock:
            reply = self._calls["put"](self._a, number, offset, given, length)
        if reply:
            self._told(reply, number)

    def get(self, number: int, offset: int, length: int) -> bytes:
        """Reads 1 to 65,536 bytes of an object."""
        number, offset, length = of_object(number), of_offset(offset), of_length(length)
        with self._lock:
            at = self._room_of(length)
            reply = self._calls["get"](self._a, number, offset, at, length)
            if reply == OK:
                return ctypes.string_at(at, length)
        raise self._refused(reply, number)

    def get_into(self, number: int, offset: int, into: Union[bytearray, memoryview]) -> None:
        """Reads as many bytes of an object as there is room for, 1 to 65,536, into bytes of the caller's. They aren't copied on the way."""
        number, offset, length = of_object(number), of_offset(offset), of_length(size_of(of_bytes(into)))
        room = (c_char * length).from_buffer(into)
        with self._lock:
            reply = self._calls["get"](self._a, number, offset, ctypes.addressof(room), length)
        self._told(reply, number)

    def _refused(self, reply: int, number: int = 0) -> AssertionError:
        """Raises the reply to a command that was refused."""
        self._told(reply, number)
        return AssertionError(reply)

    def free(self, number: int) -> None:
        """Frees an object; its number isn't used again."""
        self._do("free", of_object(number))

    def write(self, number: int, content: Bytes, offset: int = 0) -> None:
        """Writes as many bytes as there are, in one call."""
        if size_of(of_bytes(content)):
            self.put(number, offset, content)

    def read(self, number: int, length: int, offset: int = 0) -> bytes:
        """Reads so many bytes, in one call."""
        return self.get(number, offset, length) if within(length, LONGEST, 0, "a length") else b""

    def place_of(self, number: int) -> tuple[str, int]:
        """Where an object is, `here`, `leaving`, `far` or `returning`, and how many bytes it has."""
        number = of_object(number)
        with self._lock:
            self._told(self._calls["place_of"](self._a, number, byref(self._number), byref(self._count)), number)
            return self._library.places[self._number.value], self._count.value

    def objects(self, place: str = "here") -> list[int]:
        """The numbers of all objects in a place, rising."""
        numbers_of = {name: number for number, name in self._library.places.items()}
        if place not in numbers_of:
            raise ValueError(f"a place is {', '.join(numbers_of)}, and not {place!r}")
        numbers = (c_uint32 * OBJECTS)()
        with self._lock:
            self._told(self._calls["objects"](self._a, numbers_of[place], ctypes.addressof(numbers), OBJECTS, byref(self._count)))
            return numbers[: self._count.value]

    # ---- moves

    def leave(self, number: int) -> Move:
        """Begins to take an object away."""
        self._do("leave", of_object(number))
        return Move.LEAVING

    def left(self, number: int) -> Move:
        """Puts an object that is leaving into the far store. If a store of the caller's fails, the object is here again."""
        number = of_object(number)
        if self._store is None:
            self._do("left", number)
            return Move.LEFT
        with self._lock:
            content = self._take(number)
        try:
            self._store.put(number, content)
        except Exception as why:
            raise Refused(f"kept {number} fault {self._again_here(number)}") from why
        self._held.pop(number, None)
        return Move.LEFT

    def _take(self, number: int) -> bytes:
        """Takes the bytes of an object that is leaving. From then on the agent has their digest alone, so they are held, also if an interrupt
        comes right behind the call."""
        at, self._count.value = self._room_of(LONGEST), 0
        try:
            reply = self._library.long_calls["left_into"](self._a, number, at, LONGEST, byref(self._count), byref(Parcel()))
        finally:
            if self._count.value:
                self._held[number] = ctypes.string_at(at, self._count.value)
        self._told(reply, number)
        return self._held[number]

    def _again_here(self, number: int) -> str:
        """Brings an object back whose bytes the store hasn't taken, and gives its place. Meanwhile another may have taken its room; then it
        stays far, and its bytes are held until it returns."""
        try:
            self.return_(number)
            self.returned(number)
            return "here"
        except Refused:
            return "far"

    def return_(self, number: int) -> Move:
        """Begins to bring an object back."""
        self._do("return", of_object(number))
        return Move.RETURNING

    def returned(self, number: int) -> Move:
        """Gets an object that is returning from the far store. If the store fails, or has other bytes, the object is far again."""
        number = of_object(number)
        if self._store is None:
            self._do("returned", number)
            return Move.HOME
        place, _ = self.place_of(number)
        if place != "returning":
            raise Refused(f"place {number} {place}")
        fault: Optional[Exception] = None
        content = self._held.get(number)
        if content is None:
            try:
                content = bytes(self._store.get(number))
            except Exception as why:
                # No bytes are those of an object, so the agent takes it as far.
                content, fault = b"", why
        self._back(number, content, fault)
        self._held.pop(number, None)
        return Move.HOME

    def _back(self, number: int, content: bytes, fault: Optional[Exception] = None) -> None:
        """Gives the agent the bytes of an object that is returning."""
        with self._lock:
            reply = self._library.long_calls["returned_from"](self._a, number, content, len(content))
        try:
            self._told(reply, number)
        except Refused as why:
            raise why from fault

    def forget(self, number: int) -> None:
        """Frees an object that is far."""
        self._do("forget", of_object(number))
        self._held.pop(number, None)
        forgets = getattr(self._store, "forget", None)
        if forgets:
            forgets(number)

    # ---- machines

    def ship(self, code: Bytes, fuel: int, *arguments: int) -> int:
        """Makes a machine of raw code that reaches all objects, and gives its number.

        It may do `fuel` instructions. R1 to R5 are the arguments, and 0 where there are fewer.
        """
        return self._ship("ship", code, fuel, arguments)

    def ship2(self, code: Bytes, fuel: int, grants: Mapping[int, str], *arguments: int) -> int:
        """Makes a machine that reaches these objects alone: of each number `r` or `w`, for reading or for writing too."""
        words = of_grants(grants)
        granted = (Grant * max(len(words), 1))(*[Grant(int(word[1:]), word[0] == "w") for word in words])
        return self._ship("ship_granted", code, fuel, arguments, granted, len(words), words=words)

    def _ship(self, name: str, code: Bytes, fuel: int, arguments: Sequence[int], *granted: object, words: Sequence[str] = ()) -> int:
        numbers = of_start(fuel, arguments)
        # Code that no line can ship is refused here as well.
        of_code(code, "ship2" if granted else "ship", numbers, words)
        with self._lock:
            reply = self._calls[name](self._a, bytes(code), size_of(code), *numbers, *granted, byref(self._count), byref(self._refusal))
            if reply == REFUSED:
                raise Refused(f"refused {self._refusal.slot} {self._library.reasons[self._refusal.reason]}")
            self._told(reply)
            return self._count.value

    def _ended(self, machine: int, reply: int) -> Step:
        """The value of a reply to a step."""
        end = self._end
        if reply == STOPPED:
            return Stopped(machine, self._library.stops[end.stop], end.value if end.stop == EXIT else None)
        if reply == RAN:
            return Ran(machine, end.value)
        if reply == WAITING:
            return Waiting(machine, end.value)
        if reply == PAUSED:
            return Paused(machine, end.value)
        if reply == HIT:
            return Hit(machine, end.value)
        raise self._refused(reply)

    def step(self, machine: int) -> Step:
        """Does one instruction of a machine."""
        return self._step("step", machine)

    def one(self, machine: int) -> Step:
        """Does one instruction, also where the machine is paused, and pauses it after."""
        return self._step("one", machine)

    def _step(self, name: str, machine: int) -> Step:
        machine = of_machine(machine)
        with self._lock:
            return self._ended(machine, self._calls[name](self._a, machine, byref(self._end)))

    def _advance(self, call: Call, machine: int, count: int) -> tuple[int, Optional[Step]]:
        """At most so many steps in one call: how many instructions were done, and the first step that wasn't `ran`, if there was one."""
        with self._lock:
            reply = call(self._a, machine, count, byref(self._end))
            if reply == RAN:
                return self._end.ran, None
            last = self._ended(machine, reply)
            return self._end.ran + (reply == HIT), last

    def run(self, machine: int, most: int = WORD) -> Run:
        """Steps a machine up to so many times, or until a step isn't answered `ran`.

        Between chunks of instructions a signal is heard, and other threads have their turn on the engine.
        """
        machine = of_machine(machine)
        most = within(most, WORD, 0, "a number of steps")
        left, call, count = most, self._calls["run"], FIRST
        since = time.monotonic()
        while True:
            done, last = self._advance(call, machine, min(left, count))
            left -= done
            if last is None and not left:
                last = Ran(machine, self.regs(machine).slot)
            if last is not None:
                return Run(last, most - left)
            call, count = self._library.long_calls["run"], CHUNK
            if threading.active_count() > 1 and time.monotonic() - since > TURN:
                time.sleep(PAUSE)
                since = time.monotonic()

    def run_until(self, machine: int, slot: Optional[int] = None, limit: Optional[int] = None, wait: Optional[Callable[[int], None]] = None) -> Run:
        """Steps a machine until it stops, is paused or writes to a watched range.

        With `slot` it also ends when the machine is about to do the instruction there, with `limit` after so many instructions. When the
        machine waits for an object, `wait` is called with the object's number, to bring it home, and the step is tried again. Without
        `wait` the run ends there. With `slot` each instruction is a call, since a breakpoint there may be somebody else's.
        """
        if limit is not None and limit < 1:
            raise ValueError("a run does at least one instruction")
        instructions, most = 0, WORD if slot is None else 1
        while True:
            found = self.run(machine, most if limit is None else min(most, limit - instructions))
            instructions += found.instructions
            if isinstance(found.last, Waiting) and wait:
                wait(found.last.object)
            elif not isinstance(found.last, Ran) or found.last.slot == slot or instructions == limit:
                return Run(found.last, instructions)

    def wait(self, machine: int, seconds: float = 60.0) -> Registers:
        """Runs a machine to its end, or until it is paused or waits: nobody else runs it. Raises `TimeoutError` after so many seconds."""
        end = time.monotonic() + seconds
        while isinstance(self.run(machine, CHUNK).last, Ran):
            if time.monotonic() > end:
                raise TimeoutError(f"machine {machine} still runs after {seconds:g} seconds")
        return self.regs(machine)

    def out(self, machine: int) -> tuple[int, ...]:
        """The values that a machine has emitted."""
        machine = of_machine(machine)
        values = (c_uint64 * EMITTED)()
        with self._lock:
            self._told(self._calls["out"](self._a, machine, ctypes.addressof(values), EMITTED, byref(self._count)))
            return tuple(values[: self._count.value])

    def stack(self, machine: int, offset: int, length: int) -> bytes:
        """Reads 1 to 4096 bytes of a machine's stack."""
        machine = of_machine(machine)
        offset, length = of_stack(offset, length)
        with self._lock:
            at = self._room_of(length)
            self._told(self._calls["stack"](self._a, machine, offset, at, length))
            return ctypes.string_at(at, length)

    def line(self, machine: int, slot: int) -> str:
        """The instruction that begins at a slot, as assembly."""
        machine = of_machine(machine)
        slot = of_slot(slot)
        with self._lock:
            at = self._room_of(LINE)
            self._told(self._calls["line"](self._a, machine, slot, at, LINE, byref(self._count)))
            return ctypes.string_at(at, self._count.value).decode("ascii")

    def regs(self, machine: int) -> Registers:
        """The machine's slot, fuel, state and registers."""
        machine = of_machine(machine)
        shown = self._shown
        with self._lock:
            self._told(self._calls["regs"](self._a, machine, byref(shown)))
            state = self._library.stops[shown.stop] if shown.state == IS_STOPPED else self._library.states[shown.state]
            return Registers(machine, shown.slot, shown.fuel, state, tuple(shown.registers))

    # ---- code and assembly, without an agent

    @staticmethod
    def check(code: Bytes) -> None:
        """Raises `Refused` with the slot and the reason unless this is valid code."""
        refusal, loaded = Refusal(), library()
        reply = loaded.calls["check"](bytes(of_bytes(code)), size_of(code), byref(refusal))
        if reply == REFUSED:
            raise Refused(f"refused {refusal.slot} {loaded.reasons[refusal.reason]}")
        told(reply)

    @staticmethod
    def assemble(text: str) -> bytes:
        """The raw code of a text of assembly. Raises `Refused`, as `line 3 Operand`, if it isn't one."""
        if not isinstance(text, str):
            raise TypeError(f"assembly is a text, and not {kind_of(text)}")
        given, room, count, wrong, loaded = text.encode(), ctypes.create_string_buffer(CODE), c_size_t(), WrongLine(), library()
        reply = loaded.calls["assemble"](given, len(given), ctypes.addressof(room), CODE, byref(count), byref(wrong))
        if reply == REFUSED:
            raise Refused(f"line {wrong.line} {loaded.wrongs[wrong.reason]}")
        told(reply)
        return room.raw[: count.value]

    @staticmethod
    def text(code: Bytes, slot: int) -> str:
        """The instruction that begins at a slot of valid code, as assembly."""
        room, count = ctypes.create_string_buffer(LINE), c_size_t()
        slot = of_slot(slot)
        reply = library().calls["text"](bytes(of_bytes(code)), size_of(code), slot, ctypes.addressof(room), LINE, byref(count))
        if reply == REFUSED:
            Engine.check(code)
        told(reply)
        return room.raw[: count.value].decode("ascii")

    # ---- debugging

    def resume(self, machine: int) -> None:
        """Ends the pause of a machine."""
        self._do("resume", of_machine(machine))

    def break_(self, machine: int, slot: int) -> None:
        """Sets a breakpoint: the machine is paused before it does the instruction at this slot."""
        self._do("break", of_machine(machine), of_slot(slot))

    def unbreak(self, machine: int, slot: int) -> None:
        """Clears a breakpoint."""
        self._do("unbreak", of_machine(machine), of_slot(slot))

    def watch(self, machine: int, begin: int, length: int) -> None:
        """Watches a range of bytes from an address on, for writes by a machine."""
        self._do("watch", of_machine(machine), *of_range(begin, length))

    def unwatch(self, machine: int, begin: int, length: int) -> None:
        """No longer watches a range."""
        self._do("unwatch", of_machine(machine), *of_range(begin, length))


# All engines of this process, which a forked child abandons.
ENGINES: weakref.WeakSet[Engine] = weakref.WeakSet()


def _forked() -> None:
    for engine in list(ENGINES):
        engine._abandon()


os.register_at_fork(after_in_child=_forked)

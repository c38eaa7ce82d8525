"""An agent in this process: what it answers beside `bpfagent run`, its ranges, its far store, threads, forks, and where its library is found.

The conversations of the pages and of examples/ are done by its methods and by its lines, each reply as it stands there. Programs and
lines by chance are done beside a started `bpfagent run`. Names and numbers are those of the header and of docs/PROTOCOL.md. Skipped where the
library isn't there.
"""
from __future__ import annotations

import contextlib
import copy
import ctypes
import doctest
import gc
import os
import pathlib
import pickle
import random
import re
import shutil
import signal
import subprocess
import sys
import tempfile
import threading
import time
import unittest
from typing import Callable, Sequence, cast
from unittest import mock

import bpfagent
from bpfagent import Agent, Closed, Engine, NoLibrary, Refused, Run, Stopped, Waiting, address, engine, library
from bpfagent.line_engine import LineEngine
from bpfagent.protocol import commands
from bpfagent.stops import STOPS
from support import PROGRAM, ROOT, SECONDS, methods_taking
from test_agent import EXIT, SCRIPTS, called, refusal_of

from lib.programs import in_time
from lib.scripts import conversations

HEADER = (ROOT / "include/bpfagent.h").read_text()
PAGE = (ROOT / "docs/PROTOCOL.md").read_text()
# r0 = 0, and so often r0 += 1 and a jump: `mov r0, 0`, `add r0, 1`, `jne r0, COUNT, -2`, `exit`.
SPIN = "b700000000000000" "0700000001000000" "5500feff{:08x}" "9500000000000000"
ENDLESS = bytes.fromhex("0500ffff00000000")
# A word of the protocol, or none; and numbers at the ends of ranges.
WORDS = (*commands(), "x")
NUMBERS = (0, 1, 2, 3, 7, 8, 9, 48, 49, 1023, 1024, 1025, 4095, 4096, 4097, 65_535, 65_536, 65_537, 2**32 - 1, 2**32, 2**32 + 1, 2**64 - 1, 2**64)

needs_library = unittest.skipUnless(library.library_if_there(), "needs the library of `make lib`: BPFAGENT_LIBRARY names it")
needs_program = unittest.skipUnless(PROGRAM, "needs BPFAGENT")


def spin(turns: int) -> bytes:
    """A program of 2 + 2 * turns instructions."""
    return bytes.fromhex(SPIN.format(int.from_bytes(turns.to_bytes(4, "little"), "big")))


def chance_line(chance: random.Random) -> str:
    """A line that may be a command."""
    word = chance.choice(WORDS)
    count = chance.choice((1, 2, 3, 3, 4))
    words = [word, *(str(chance.choice(NUMBERS)) for _ in range(count if word != "put" else 2))]
    if word == "put":
        words.append(chance.choice(("00", "0", "aAbB", "", "zz", "ff" * 4096, "ff" * 4097)))
    return " ".join(words)


class Keeping:
    """A far store that keeps what it gets, unless it is told to fail."""

    def __init__(self) -> None:
        self.kept: dict[int, bytes] = {}
        self.fails = ""
        self.forgotten: list[int] = []

    def put(self, number: int, content: bytes) -> None:
        if self.fails == "put":
            raise OSError("the store is full")
        self.kept[number] = content

    def get(self, number: int) -> bytes:
        if self.fails == "get":
            raise OSError("the store doesn't answer")
        return self.kept[number]

    def forget(self, number: int) -> None:
        self.forgotten.append(number)


def wholly(agent: Agent | Engine, code: bytes) -> object:
    """All that is seen of a program that runs on three objects of 4096 bytes."""
    objects = [agent.make_of(bytes(range(256)) * 16) for _ in range(3)]
    try:
        machine = agent.ship(code, 3000, objects[0] << 32, objects[1] << 32, 64, objects[2] << 32, 8)
    except Refused as refusal:
        return str(refusal)
    run, shown = agent.run_until(machine), agent.regs(machine)
    return run, shown, agent.out(machine), [agent.read(number, 4096) for number in objects], agent.line(machine, shown.slot), agent.stack(machine, 0, 4096)


@needs_library
class Answers(unittest.TestCase):
    """The same as a started agent."""

    def test_conversations(self) -> None:
        """The stored conversations, each command by a method, and each line."""
        for path in SCRIPTS:
            for arguments, talk in conversations(path.read_text()):
                budget = int(arguments[1]) if arguments else engine.BUDGET
                with LineEngine(budget) as by_methods, LineEngine(budget) as by_lines:
                    for command, reply in talk:
                        self.assertEqual(by_methods.tell(command) if reply == "bad" else called(by_methods, command), reply, command[:80])
                        self.assertEqual(by_lines.tell(command), reply, command[:80])

    @needs_program
    def test_programs(self) -> None:
        """Each stored program does what it does in a started agent."""
        paths = sorted((ROOT / "examples").glob("**/*.code"))
        self.assertGreater(len(paths), 20)
        for path in paths:
            with Agent.run(PROGRAM) as agent, Engine() as own:
                self.assertEqual(wholly(own, path.read_bytes()), wholly(agent, path.read_bytes()), path)

    @needs_program
    def test_chance(self) -> None:
        """Lines by chance get the replies of a started agent; so do code and grants."""
        chance = random.Random(1)
        lines = ["make 8", "make 16", "make 65536", f"ship 9 0x100000000 0 0 0 0 {spin(3).hex()}", f"ship 9 0 0 0 0 0 {spin(9).hex()}"]
        lines += [f"ship 9 0 0 0 0 {argument} {code}" for argument in ("0", "0x", str(2**64)) for code in ("", "95", EXIT.hex(), EXIT.hex() * 4097, EXIT.hex() * 4400)]
        lines += [f"ship2 9 0 0 0 0 0 {EXIT.hex()} {grants}" for grants in ("", "r1", "r1 w2", "w2 r1", "r1 r1", "x1", "r0", "r1025", " ".join(f"r{n}" for n in range(1, 18)))]
        lines += [chance_line(chance) for _ in range(3000)]
        with Agent.run(PROGRAM, timeout=SECONDS) as agent, LineEngine() as own:
            for line, reply, found in zip(lines, agent.tell_all(lines), own.tell_all(lines)):
                self.assertEqual(found, reply, line[:80])

    def test_runs(self) -> None:
        """How runs end, and how many instructions they count."""
        with Engine() as own:
            machine = own.ship(spin(100_000), 2**40)
            self.assertEqual(own.run(machine, 0), Run(bpfagent.Ran(machine, 0), 0))
            for limit in (1, 1_999, 2_000, 2_001, 131_072):
                before = own.regs(machine).fuel
                run = own.run_until(machine, limit=limit)
                self.assertEqual((run.instructions, before - own.regs(machine).fuel), (limit, limit))
            self.assertEqual(own.run_until(machine).value, 100_000)
            machine = own.ship(spin(1000), 2**40)
            self.assertEqual(own.run_until(machine, slot=3), Run(bpfagent.Ran(machine, 3), 2001))
            machine = own.ship(spin(1000), 10)
            self.assertEqual(own.run_until(machine), Run(Stopped(machine, "spent"), 10))
            number = own.make(8)
            own.watch(machine := own.ship(bytes.fromhex("7a01000007000000") + EXIT, 10, address(number)), address(number), 8)
            self.assertEqual(own.run_until(machine), Run(bpfagent.Hit(machine, 1), 1))
            self.assertEqual((own.wait(machine).state, own.run_until(machine).last), ("paused", bpfagent.Paused(machine, 1)))
            machine = own.ship(ENDLESS, 2**63)
            with self.assertRaisesRegex(TimeoutError, "still runs after 0.05 seconds"):
                own.wait(machine, 0.05)
            with self.assertRaises(ValueError):
                own.run_until(machine, limit=0)

    def test_code(self) -> None:
        """Code is checked, assembled and shown without an agent, with the reasons by name."""
        code = Engine.assemble("mov r0, 7\nexit\n")
        self.assertEqual(code, bytes.fromhex("b700000007000000") + EXIT)
        Engine.check(code)
        self.assertEqual((Engine.text(code, 0), Engine.text(code, 1)), ("mov r0, 7", "exit"))
        self.assertEqual(refusal_of(lambda: Engine.text(code, 2)), ["noslot"])
        for call in (lambda: Engine.check(code[:8]), lambda: Engine.text(code[:8], 0)):
            self.assertEqual(refusal_of(call), ["refused", "0", "FallsOff"])
        self.assertEqual(refusal_of(lambda: Engine.check(b"")), ["refused", "0", "Empty"])
        self.assertEqual(refusal_of(lambda: Engine.assemble("exit\nexit r0\n")), ["line", "2", "Operand"])

    def test_page(self) -> None:
        """The example of the module."""
        self.assertEqual(doctest.testmod(engine, extraglobs={"address": address}), doctest.TestResults(0, 2))


@needs_program
class Lines(unittest.TestCase):
    """What a `LineEngine` makes of lines and values, with the methods of a started agent. It needs no library."""

    def test_conversations(self) -> None:
        """The stored conversations."""
        for path in SCRIPTS:
            for arguments, talk in conversations(path.read_text()):
                with Agent.run(PROGRAM, *arguments, timeout=SECONDS) as agent:
                    for line, reply in talk:
                        self.assertEqual(LineEngine.tell(cast(LineEngine, agent), line), reply, line[:80])


@needs_library
class Ranges(unittest.TestCase):
    """What ctypes would cut, or take for something else, is refused before a call."""

    def test_numbers(self) -> None:
        """Each parameter of each call just outside of its range, and 2^32 and 2^64 above a number within."""
        with Engine(1 << 20) as own:
            number, machine = own.make_of(b"12345678"), own.ship(EXIT, 1)
            of_object, of_machine, of_slot = [0, 1025, number + 2**32, number + 2**64, -1], [0, 49, machine + 2**32, machine + 2**64, -1], [4096, 2**32, -1]
            calls: list[tuple[Callable[[int], object], Sequence[int]]] = [
                (own.make, [0, 65_537, 2**32 + 8, 2**64 + 8, -1]),
                *[(getattr(own, name), of_object) for name in (*methods_taking("n"), "forget", "place_of")],
                (lambda it: own.put(it, 0, b"1"), of_object),
                (lambda it: own.put(number, it, b"1"), [65_536, 2**32, -1]),
                (lambda it: own.get(it, 0, 1), of_object),
                (lambda it: own.get(number, it, 1), [65_536, 2**32, -1]),
                (lambda it: own.get(number, 0, it), [0, 65_537, 2**64 + 1, -1]),
                (lambda it: own.get_into(it, 0, bytearray(1)), of_object),
                (lambda it: own.get_into(number, it, bytearray(1)), [65_536, 2**32, -1]),
                (lambda it: own.write(it, b"1"), of_object),
                (lambda it: own.read(number, it), [65_537, 2**32 + 1, 2**64 + 1, -1]),
                *[(getattr(own, name), of_machine) for name in (*methods_taking("m"), "run")],
                *[(lambda it, name=name: getattr(own, name)(machine, it), of_slot) for name in methods_taking("m", "SLOT")],
                (lambda it: own.watch(machine, it, 8), [2**64, -1]),
                (lambda it: own.watch(machine, 0, it), [0, 4097, 2**32 + 1, -1]),
                (lambda it: own.stack(machine, it, 1), [4096, 2**32, -1]),
                (lambda it: own.stack(machine, 0, it), [0, 4097, 2**32 + 1, -1]),
                (lambda it: own.run(machine, it), [2**64, -1]),
                (lambda it: own.ship(EXIT, it), [2**64, -1]),
                (lambda it: own.ship(EXIT, 1, it), [2**64, -1]),
                (lambda it: own.ship2(EXIT, 1, {it: "r"}), of_object),
                (lambda it: own.ship2(EXIT, it, {}), [2**64, -1]),
                (lambda it: own.ship2(EXIT, 1, {}, 0, it), [2**64, -1]),
                (lambda it: Engine.text(EXIT, it), of_slot),
                (Engine, [2**26 + 1, 2**32, 2**32 + 8, -1]),
            ]
            for call, wrong in calls:
                for number_of in wrong:
                    with self.assertRaises(ValueError, msg=f"{call} of {number_of}"):
                        call(number_of)
                for text in ("1", 1.0, None):
                    with self.assertRaises(TypeError, msg=f"{call} of {text!r}"):
                        call(text)  # type: ignore[arg-type]
            for refused in (lambda: own.put(number, 0, b""), lambda: own.get_into(number, 0, bytearray(65_537)), lambda: own.ship(EXIT * 4400, 1)):
                self.assertRaises(ValueError, refused)
            self.assertEqual((own.get(number, 0, 8), own.objects(), own.place_of(number)), (b"12345678", [number], ("here", 8)))

    def test_buffers(self) -> None:
        """Bytes of each kind are written, and read into the caller's own."""
        with Engine() as own:
            number = own.make(65_536)
            content = bytes(range(256)) * 256
            read_only, every_other = memoryview(content), memoryview(content * 2)[::2]
            for given in (content, bytearray(content), memoryview(bytearray(content)), read_only, memoryview(bytearray(content)).cast("Q")):
                own.put(number, 0, bytes(65_536))
                own.put(number, 0, given)
                self.assertEqual(own.get(number, 0, 65_536), content, type(given))
            own.put(number, 0, every_other)
            self.assertEqual(own.read(number, 65_536), every_other.tobytes())
            into = bytearray(b"*" * 16)
            own.get_into(number, 8, memoryview(into)[4:12])
            self.assertEqual(bytes(into), b"****" + every_other.tobytes()[8:16] + b"****")
            with self.assertRaises(TypeError):
                own.get_into(number, 0, memoryview(b"12345678"))
            with self.assertRaises(TypeError):
                own.put(number, 0, "text")  # type: ignore[arg-type]

    def test_no_copies(self) -> None:
        """A call reads `bytes`, and what may be written, where they lie."""
        content, given = b"12345678", bytearray(b"12345678")
        self.assertIs(engine.read_from(content), content)
        read = engine.read_from(given)
        given[0] = 0x2A
        self.assertEqual(bytes(read), b"*2345678")


@needs_library
class Moves(unittest.TestCase):
    """Objects that leave and come back, in the library's memory and in a far store of the caller's."""

    def test_budget(self) -> None:
        """A program over objects that don't fit together; `wait` brings them home."""
        for store in (None, Keeping()):
            with Engine(32, store) as own:
                nodes: list[int] = []
                for value, successor in ((5, 2), (7, 3), (11, 0)):
                    if len(nodes) == 2:
                        own.send_away(nodes[0])
                    nodes.append(own.make_of(value.to_bytes(8, "little") + address(successor).to_bytes(8, "little")))
                self.assertEqual(refusal_of(lambda: own.make(1)), ["noroom"])
                machine = own.ship((ROOT / "examples/list.code").read_bytes(), 100, address(nodes[0]))
                self.assertEqual(own.run_until(machine).last, Waiting(machine, nodes[0]))
                run = own.run_until(machine, wait=lambda node: own.bring_home(node, [other for other in nodes if other != node]))
                self.assertEqual(run.value, 23)

    def test_store(self) -> None:
        """Whatever the store does, the engine has the bytes that left, or says that it hasn't."""
        store, content = Keeping(), random.Random(1).randbytes(65_536)
        with Engine(1 << 20, store) as own:
            number = own.make_of(content)
            store.fails = "put"
            own.leave(number)
            with self.assertRaises(Refused) as raised:
                own.left(number)
            self.assertEqual((str(raised.exception), str(raised.exception.__cause__)), (f"kept {number} fault here", "the store is full"))
            self.assertEqual((own.place_of(number), own.read(number, 65_536)), (("here", 65_536), content))
            store.fails = ""
            own.send_away(number)
            self.assertEqual(store.kept, {number: content})
            for wrong in (content[:-1], content[:-1] + bytes([content[-1] ^ 1]), b"", content + b"*"):
                store.kept[number] = wrong
                self.assertEqual(refusal_of(lambda: own.bring_home(number)), ["kept", str(number), "fault", "far"])
            store.fails = "get"
            own.return_(number)
            with self.assertRaises(Refused) as raised:
                own.returned(number)
            self.assertEqual((str(raised.exception), str(raised.exception.__cause__)), (f"kept {number} fault far", "the store doesn't answer"))
            self.assertEqual(refusal_of(lambda: own.returned(number)), ["place", str(number), "far"])
            store.fails, store.kept[number] = "", content
            own.bring_home(number)
            self.assertEqual(own.read(number, 65_536), content)
            own.send_away(number)
            own.forget(number)
            self.assertEqual((store.forgotten, own.objects("far")), ([number], []))

    def test_room_taken(self) -> None:
        """If another takes the room of an object whose bytes the store doesn't take, it stays far, and its bytes aren't lost."""
        store = Keeping()
        with Engine(8, store) as own:
            number = own.make_of(b"12345678")
            others: list[int] = []

            def take(number: int, content: bytes) -> None:
                others.append(own.make(8))
                raise OSError("the store is full")

            own.leave(number)
            with mock.patch.object(store, "put", take):
                self.assertEqual(refusal_of(lambda: own.left(number)), ["kept", str(number), "fault", "far"])
            own.free(others[0])
            own.bring_home(number)
            self.assertEqual((own.read(number, 8), store.kept), (b"12345678", {}))


@needs_library
class Ends(unittest.TestCase):
    """No handle is used after its end, by whichever thread or process."""

    def closed(self, own: Engine, text: str) -> None:
        calls: list[Callable[[], object]] = [lambda: own.make(1), lambda: own.get(1, 0, 1), lambda: own.regs(1), lambda: own.run_until(1)]
        calls.append(lambda: own.send_away(1))
        for call in calls:
            with self.assertRaisesRegex(Closed, text):
                call()

    def test_closed(self) -> None:
        """After `close`, which may be called again; and while another thread runs it."""
        own = Engine()
        own.close()
        own.close()
        self.closed(own, "the engine was closed")
        with Engine() as own:
            pass
        self.closed(own, "the engine was closed")
        own = Engine()
        machine, found = own.ship(ENDLESS, 2**63), list[BaseException]()

        def run() -> None:
            try:
                own.run_until(machine)
            except Closed as why:
                found.append(why)

        thread = threading.Thread(target=run)
        thread.start()
        while own.regs(machine).fuel == 2**63:
            time.sleep(0.001)
        own.close()
        thread.join(SECONDS)
        self.assertEqual([str(it) for it in found], ["the engine was closed"])

    def test_copies(self) -> None:
        """A handle isn't copied."""
        with Engine() as own:
            calls: tuple[Callable[[object], object], ...] = (copy.copy, copy.deepcopy, pickle.dumps)
            for call in calls:
                with self.assertRaisesRegex(TypeError, "can't be copied"):
                    call(own)

    def test_fork(self) -> None:
        """In a forked child each call raises `Closed`, also if the parent's thread held the lock; the parent goes on."""
        with Engine() as own:
            number = own.make_of(b"12345678")
            own._lock.acquire()
            child = os.fork()
            if not child:
                # One that waits for the lock ends, and so does the test.
                signal.alarm(int(SECONDS))
                with contextlib.suppress(BaseException):
                    try:
                        own.get(number, 0, 8)
                    except Closed as why:
                        own.close()
                        os._exit(0 if "forked" in str(why) else 3)
                os._exit(4)
            own._lock.release()
            self.assertEqual(os.waitpid(child, 0)[1], 0)
            self.assertEqual(own.get(number, 0, 8), b"12345678")

    def test_threads(self) -> None:
        """Other threads use an engine while one runs a machine on it, within a chunk each; Python goes on meanwhile."""
        counts: list[int] = []
        with Engine() as own:
            number = own.make(8)
            # A busy machine may keep one of the threads away: then more is run.
            for turns in (50_000_000, 200_000_000, 800_000_000):
                machine, count, slowest = own.ship(spin(turns), 2**40), 0, 0.0
                found: list[int] = []
                thread = threading.Thread(target=lambda: found.append(own.run_until(machine).value))
                thread.start()
                while thread.is_alive():
                    begin = time.monotonic()
                    own.put(number, 0, count.to_bytes(8, "little"))
                    self.assertEqual(own.get(number, 0, 8), count.to_bytes(8, "little"))
                    slowest, count = max(slowest, time.monotonic() - begin), count + 1
                thread.join()
                self.assertEqual(found, [turns])
                counts.append(count)
                if count > 10:
                    break
            self.assertGreater(counts[-1], 10, f"{counts}, and the slowest took {slowest:.3f} s")

    def test_turns(self) -> None:
        """A call that keeps Python's lock does 2,000 instructions, one that lets it go a chunk, and a long run pauses if there are other threads."""
        with Engine() as own:
            counts: dict[str, list[int]] = {"calls": [], "long_calls": []}

            def noted(name: str) -> Callable[..., int]:
                call = getattr(own._library, name)["run"]

                def run(agent: object, machine: int, count: int, end: object) -> int:
                    counts[name].append(count)
                    return int(call(agent, machine, count, end))

                return run

            with mock.patch.dict(own._library.calls, run=noted("calls")), mock.patch.dict(own._library.long_calls, run=noted("long_calls")):
                own.run(own.ship(spin(300_000), 2**40))
            self.assertEqual(counts, {"calls": [2_000], "long_calls": [1 << 17] * 5})
            for threads, pauses in ((1, set[float]()), (2, {0.00005})):
                now = iter(range(1000))
                with mock.patch("bpfagent.engine.threading.active_count", lambda: threads), mock.patch("bpfagent.engine.time") as clock:
                    clock.monotonic = lambda: next(now) * 0.001
                    own.run(own.ship(spin(3_000_000), 2**40))
                self.assertEqual({call.args[0] for call in clock.sleep.call_args_list}, pauses)

    def test_leaks(self) -> None:
        """Engines that nobody closes are freed."""

        def resident() -> int:
            return int(pathlib.Path("/proc/self/statm").read_text().split()[1]) * os.sysconf("SC_PAGE_SIZE")

        sizes = []
        for _ in range(4):
            for _ in range(1000):
                own = Engine()
                own.make(64)
                own.ship(spin(8), 100)
            gc.collect()
            sizes.append(resident())
        self.assertLess(sizes[-1] - sizes[1], 2 << 20, sizes)

    def test_interrupts(self) -> None:
        """Ctrl-C is heard within a chunk."""
        text = f"from bpfagent import Engine\nown = Engine()\nmachine = own.ship(bytes.fromhex('{ENDLESS.hex()}'), 2**63)\nprint('runs', flush=True)\nown.run_until(machine)"

        def took() -> float:
            with subprocess.Popen([sys.executable, "-c", text], stdout=subprocess.PIPE, stderr=subprocess.PIPE, preexec_fn=heard) as child:
                assert child.stdout
                self.assertEqual(child.stdout.readline(), b"runs\n")
                time.sleep(0.05)
                begin = time.monotonic()
                child.send_signal(signal.SIGINT)
                said = child.communicate(timeout=SECONDS)[1]
                self.assertIn(b"KeyboardInterrupt", said)
                return time.monotonic() - begin

        # Python's own end is in it, too.
        self.assertEqual(in_time(took, 0.5), [])


def heard() -> None:
    """Interrupts are heard, also where the test itself ignores them."""
    signal.signal(signal.SIGINT, signal.default_int_handler)


@needs_library
class Names(unittest.TestCase):
    """Numbers and names that aren't copies, and those that are."""

    def test_names(self) -> None:
        """The library's names are those of the page."""
        loaded = library.library()
        rows = dict(re.findall(r"(?m)^\| `(\w+)` \| (\d+) \| ", PAGE[PAGE.index("**Reasons of refusal.**") :]))
        self.assertEqual({name: int(number) for name, number in rows.items()} | {"Empty": 8, "Memory": 15}, {name: number for number, name in loaded.reasons.items()})
        synopsis = re.search(r"STOP is (.*); PLACE is (.*); WHY", PAGE)
        assert synopsis
        stops, places = (re.findall(r"`(\w+)", text) for text in synopsis.groups())
        self.assertEqual({name for name in loaded.stops.values() if name}, {*stops, "worn"})
        self.assertEqual({*STOPS, "exit"}, {*stops, "worn"}, "the package's table")
        self.assertEqual(list(loaded.places.values()), places)
        self.assertEqual(loaded.states, {0: "run", 1: "paused"})
        wrongs = {number: name.title().replace("_", "") for name, number in re.findall(r"BPFAGENT_WRONG_(\w+) = (\d+)", HEADER)}
        self.assertEqual({str(number): name for number, name in loaded.wrongs.items()}, wrongs | {"7": "Memory"})

    def test_numbers(self) -> None:
        """The replies' numbers and words are those that stand in the header; so are its structs and calls."""
        found = {name: (int(number), words) for name, number, words in re.findall(r"BPFAGENT_(\w+) = (\d+),? +/\* ([a-z ]+)", HEADER)}
        for name in ("OK", "RAN", "HIT", "WAITING", "PAUSED", "STOPPED", "REFUSED", "NOAGENT"):
            self.assertEqual(getattr(library, name), found[name][0], name)
        named = {"FAULT_HERE", "DAMAGED"}
        for name, (number, words) in found.items():
            if number in library.WORDS and name not in named:
                spelt = library.WORDS[number]
                self.assertIn(words.strip(), (spelt.format("n"), spelt.replace(" {0}", "")), name)
        self.assertEqual(set(library.WORDS), {number for number, _ in found.values() if number >= 10} - {library.REFUSED, library.NOAGENT, found["SHORT"][0]})
        version = re.search(r"#define BPFAGENT_VERSION (\d+)", HEADER)
        assert version
        self.assertEqual(library.VERSION, int(version[1]))
        text = re.sub(r"(?s)/\*.*?\*/", "", HEADER)
        declared = {name: kinds.split(",") for name, kinds in re.findall(r"(?m)^\w+ bpfagent_(\w+)\(([^)]*)\);", text)}
        self.assertEqual(set(declared), set(library.CALLS))
        for name, types in library.CALLS.items():
            kinds = [kind for kind in declared[name] if kind.strip() != "void"]
            self.assertEqual([width(kind) for kind in kinds], [ctypes.sizeof(it) for it in types], name)


def width(kind: str) -> int:
    """How many bytes a parameter of this type has on a machine of 64 bits."""
    return 8 if "*" in kind or "size_t" in kind or "uint64_t" in kind else 4


class Finding(unittest.TestCase):
    """Where the library is looked for, and what is said if it isn't there."""

    def tried(self, **environment: str) -> str:
        with mock.patch.dict(os.environ, environment):
            with self.assertRaises(NoLibrary) as raised:
                Engine()
            return str(raised.exception)

    def test_named(self) -> None:
        """One that is named is the only one that is tried; if the name is empty, none is."""
        self.assertRegex(self.tried(BPFAGENT_LIBRARY="/none/libbpfagent.so.0"), r"^no library for an agent in this process; tried /none/libbpfagent.so.0 \(cannot open .*\): BPFAG")
        self.assertEqual(self.tried(BPFAGENT_LIBRARY=""), "BPFAGENT_LIBRARY is empty, so that no library is used")
        with mock.patch.dict(os.environ, BPFAGENT_LIBRARY=""):
            self.assertIsNone(library.library_if_there())
        with mock.patch.dict(os.environ, BPFAGENT_LIBRARY="/none"), self.assertRaises(NoLibrary):
            library.library_if_there()

    def test_all(self) -> None:
        """Otherwise that beside the package, then the one that a linker finds."""
        with mock.patch.dict(os.environ), mock.patch.object(library, "BESIDE", pathlib.Path(__file__)), mock.patch.object(library, "SONAME", "libnone.so"):
            os.environ.pop("BPFAGENT_LIBRARY", None)
            with self.assertRaises(NoLibrary) as raised:
                library.library()
            self.assertRegex(str(raised.exception), rf"tried {__file__} \(.*\), libnone.so \(cannot open .*\): BPFAGENT_LIBRARY names another")
            self.assertIsNone(library.library_if_there())

    @unittest.skipUnless(shutil.which("cc"), "needs a C compiler")
    def test_versions(self) -> None:
        """Another library, and one of another version, are refused by name."""
        with tempfile.TemporaryDirectory() as folder:
            source = pathlib.Path(folder, "other.c")
            calls = "".join(f"int bpfagent_{name}(void) {{ return {1000 if name == 'version' else 0}; }}\n" for name in library.CALLS)
            for text, why in (("int other;\n", "it has no bpfagent_new"), (calls, f"it has version 1000, and this package takes {library.VERSION}")):
                source.write_text(text)
                made = source.with_name(f"lib{len(text)}.so")
                subprocess.run(["cc", "-shared", "-fPIC", "-o", str(made), str(source)], check=True, timeout=SECONDS)
                self.assertIn(f"tried {made} ({why}): BPFAGENT_LIBRARY names another", self.tried(BPFAGENT_LIBRARY=str(made)))

    @unittest.skipUnless(shutil.which("cc"), "needs a C compiler")
    def test_fits(self) -> None:
        """One whose version has another third part is taken."""
        later = library.VERSION + 1
        self.assertEqual(later // library.FITS, library.VERSION // library.FITS)
        with tempfile.TemporaryDirectory() as folder:
            source, made = pathlib.Path(folder, "later.c"), str(pathlib.Path(folder, "later.so"))
            source.write_text("".join(f"int bpfagent_{name}(void) {{ return {later if name == 'version' else 0}; }}\n" for name in library.CALLS))
            subprocess.run(["cc", "-shared", "-fPIC", "-o", made, str(source)], check=True, timeout=SECONDS)
            with mock.patch.dict(os.environ, BPFAGENT_LIBRARY=made):
                self.assertEqual(library.library().calls["version"](), later)


if __name__ == "__main__":
    unittest.main()

"""Programs that answer requests: the slot at which they pause, calls from threads and asyncio, what goes wrong, and several threads
over one connection."""
from __future__ import annotations

import asyncio
import contextlib
import pathlib
import random
import shutil
import signal
import socket
import struct
import threading
import time
import unittest
from concurrent.futures import Future, ThreadPoolExecutor
from typing import Callable, Iterator, Optional

from bpfagent import Broken, Exhausted, Failed, Image, Procedure, Refused, Service, Unloadable, address, load
from bpfagent.procedure import ALL, ANSWER, REQUEST, Machine, Stopped, Turn
from bpfagent.shared import SharedAgent
from bpfagent.streams import reached
from support import PROGRAM, ROOT, SECONDS, folder_of, has_elftools

EXAMPLES = ROOT / "examples/requests"
TABLE, TREE, FILTER = (EXAMPLES / f"{name}.c" for name in ("table", "tree", "filter"))
needs_clang = unittest.skipUnless(has_elftools() and shutil.which("clang"), "needs clang and pyelftools (python3-pyelftools)")
needs_service = unittest.skipUnless(PROGRAM and has_elftools() and shutil.which("clang"), "needs BPFAGENT, clang and pyelftools (python3-pyelftools)")
# Operations and statuses of table.c and tree.c.
GET, PUT, ADD = range(3)
MISSING, FULL, WRONG = 1, 2, 3
WRONG_ADDRESS, WRONG_NODE = 2, 3
PLACES = 64
# After so many seconds a request is given up whose machine has long begun, also on a busy machine.
GIVEN_UP = 3.0
# Reads wherever a request says, or goes round for ever, or ends.
CARELESS = """#include "bpfagent.h"
uint64_t program(struct request *request, uint64_t *value)
{
    for (;;) {
        uint64_t number = next_request(request);
        if (request->arguments[1] == 1)
            for (;;)
                compiler_barrier();
        if (request->arguments[1] == 2)
            return 0;
        answer_request(request, number, *(uint64_t *)request->arguments[0], REQUEST_DONE);
        if (request->arguments[1] == 3)
            return *value;
    }
}
"""
# Awaits requests at two places.
TWICE = """#include "bpfagent.h"
uint64_t program(struct request *request, uint64_t *order)
{
    for (uint64_t turn = 0;; turn++) {
        uint64_t number = next_request(request);
        answer_request(request, number, atomic_add(order, 1), 0);
        number = next_request(request);
        answer_request(request, number, 100 + atomic_add(order, 1), 0);
    }
}
"""


@contextlib.contextmanager
def served(*arguments: str, connections: int = 4) -> Iterator[Service]:
    """A service with workers, which is killed where a test fails, and closed where it doesn't."""
    with Service(PROGRAM, "--workers", "2", "--connections", str(connections), *arguments, timeout=SECONDS) as service:
        yield service


def until_true(holds: Callable[[], object], what: str) -> None:
    """Waits until something holds."""
    end = time.monotonic() + SECONDS
    while not holds():
        if time.monotonic() > end:
            raise AssertionError(f"{what} doesn't happen")
        time.sleep(0.01)


class Awaits(unittest.TestCase):
    """The slot at which a program pauses."""

    def setUp(self) -> None:
        self.folder = folder_of(self)

    def compiled(self, text: str, *flags: str) -> Image:
        """A program of this text."""
        path = self.folder / "program.c"
        path.write_text(text)
        return load(path, flags=flags)

    @needs_clang
    def test_each_program_pauses_after_its_scopes_are_closed(self) -> None:
        for path in (TABLE, TREE, FILTER, EXAMPLES / "list.c"):
            for flag in ("-O2", "-O1", "-Os"):
                image = load(path, flags=[flag])
                self.assertEqual(len(image.awaits), 1)
                self.assertEqual(image.code[8 * (image.awaits[0] - 1) :][:8].hex(), "8500000004000000")
                self.assertEqual(Image(path, image.code).awaits, image.awaits)

    @needs_clang
    def test_marks_tell_it_from_other_closings(self) -> None:
        closing = TWICE.replace("        number = next_request(request);\n", "        close_scopes();\n")
        image = self.compiled(closing)
        self.assertEqual(len(image.awaits), 1)
        with self.assertRaisesRegex(Unloadable, r"has a `call 4` before each of the slots \d+, \d+: await_request\(\) marks"):
            Image(image.path, image.code).awaits

    @needs_clang
    def test_two_places_and_functions(self) -> None:
        self.assertEqual(len(self.compiled(TWICE).awaits), 2)
        # Without optimization it is in a function of its own, behind the entry point.
        image = self.compiled(TWICE, "-O0")
        self.assertEqual({image.code[8 * (slot - 1) :][:8].hex() for slot in image.awaits}, {"8500000004000000"})

    @needs_clang
    def test_marks_of_other_functions_do_not_count(self) -> None:
        other = "\nvoid other(struct request *request)\n{\n    next_request(request);\n}\n"
        self.assertEqual(self.compiled(TWICE + other).awaits, self.compiled(TWICE).awaits)

    def test_programs_that_await_nothing(self) -> None:
        with self.assertRaisesRegex(Unloadable, "^p: awaits no request: it calls neither await_request"):
            Image(pathlib.Path("p"), bytes.fromhex("9500000000000000")).awaits
        # A wide instruction whose second slot reads like a call, and a call of a function at distance 4.
        looks = "180000000000000085000000040000008510000004000000" + "9500000000000000"
        with self.assertRaises(Unloadable):
            Image(pathlib.Path("p"), bytes.fromhex(looks)).awaits


class Turns(unittest.TestCase):
    """What is sent after each reply."""

    def setUp(self) -> None:
        self.machine = Machine(3, 7, asked=9)
        self.turn = Turn(self.machine, (1, 2))
        self.put = "put 7 0 " + struct.pack("<6Q", 10, 1, 2, 0, 0, 0).hex()

    def answer(self, number: int, result: int = 0, status: int = 0) -> str:
        """The reply to the read of an answer."""
        return "bytes " + ANSWER.pack(number, result, status).hex()

    @staticmethod
    def regs(state: str) -> str:
        """A reply to `regs`."""
        return f"regs 3 17 5 {state}" + 11 * " 0000000000000000"

    def test_answered_at_once(self) -> None:
        self.assertEqual(self.turn.orders(), [self.put, "resume 3"])
        self.assertEqual(self.turn.read(), f"get 7 {REQUEST.size} {ANSWER.size}")
        self.turn.take(["ok", "ok"], [self.answer(9, 5), self.answer(10, 6, 7), self.answer(10, 8)])
        self.assertEqual((self.turn.answer, self.turn.is_over), ((6, 7), True))

    def test_what_is_refused_is_sent_again(self) -> None:
        self.turn.orders()
        self.turn.take(["away 7", "ok"], ["away 7"])
        # The machine went on without a request, so it is let go on again.
        self.assertEqual(self.turn.orders(), [self.put, "resume 3", "regs 3"])
        self.turn.take(["ok", "notpaused", self.regs("run")], ["busy 7"])
        self.assertEqual(self.turn.orders(), ["resume 3", "regs 3"])
        self.turn.take(["ok", self.regs("paused")], [self.answer(9)])
        self.assertEqual(self.turn.orders(), ["regs 3"])
        self.assertFalse(self.turn.is_over)
        self.turn.take([self.regs("run")], [self.answer(10, 4)])
        self.assertEqual(self.turn.answer, (4, 0))

    def test_a_stop_counts_if_there_is_no_answer(self) -> None:
        self.turn.orders()
        self.turn.take(["ok", "ok"], [self.answer(9)])
        self.turn.orders()
        self.turn.take([self.regs("exit")], [self.answer(10, 4)])
        self.assertEqual((self.turn.answer, self.turn.stop), ((4, 0), ""))
        turn = Turn(self.machine, ())
        turn.orders()
        turn.take(["ok", "notpaused"], [self.answer(10)])
        turn.orders()
        turn.take(["notpaused", self.regs("outside")], [self.answer(10)])
        self.assertEqual((turn.answer, turn.stop, turn.slot, turn.is_over), (None, "outside", 17, True))

    def test_other_refusals_are_raised(self) -> None:
        for replies in (["worn", "ok"], ["outside", "ok"], ["ok", "none"], ["ok", "ok", "outside"], ["ok", "ok", "worn"]):
            turn = Turn(self.machine, ())
            turn.orders()
            with self.assertRaisesRegex(Refused, "worn|outside|none"):
                turn.take(replies[:2], replies[2:])


def filled(*numbers: int) -> list[int]:
    """The fifteen numbers of a node."""
    return [*numbers, *[0] * (15 - len(numbers))]


def is_careful(call: Callable[[], object]) -> bool:
    """Whether a call is refused before anything is sent."""
    with contextlib.suppress(ValueError):
        call()
        return False
    return True


@needs_service
class Calls(unittest.TestCase):
    """Requests, from one thread, several, and asyncio."""

    def test_a_table(self) -> None:
        with served() as service:
            call = service.procedure(TABLE, service.setup.make(16 * PLACES), timeout=SECONDS)
            self.assertEqual([call(PUT, 7, 40), call(ADD, 7, 2), call(GET, 7)], [0, 42, 42])
            for request, status in (((GET, 8), MISSING), ((GET, 0), WRONG), ((3, 1), WRONG), ((2**64 - 1, 1, 2, 3, 4), WRONG)):
                with self.assertRaises(Failed) as failed:
                    call(*request)
                self.assertEqual((failed.exception.status, failed.exception.request, failed.exception.machine), (status, request, 1))
            self.assertTrue(is_careful(lambda: call(1, 2, 3, 4, 5, 6)) and is_careful(lambda: call(-1)) and is_careful(lambda: call(2**64)))
            self.assertEqual(call(GET, 7), 42)

    def test_rows_in_order_as_a_dictionary_has_them(self) -> None:
        chance = random.Random(1)
        rows = [(chance.randrange(3), chance.randrange(1, 9), chance.randrange(100)) for _ in range(60)]
        values: dict[int, int] = {}
        wanted = []
        for operation, key, value in rows:
            before = values.get(key)
            if operation == GET:
                wanted.append(-MISSING if before is None else before)
            else:
                values[key] = value + (before or 0 if operation == ADD else 0)
                wanted.append(values[key] if operation == ADD else before or 0)
        with served() as service:
            call = service.procedure(TABLE, service.setup.make(16 * PLACES), timeout=SECONDS)
            found = []
            for row in rows:
                try:
                    found.append(call(*row))
                except Failed as failed:
                    found.append(-failed.status)
            self.assertEqual(found, wanted)

    def test_threads_and_asyncio(self) -> None:
        with served() as service:
            table = service.setup.make(16 * PLACES)
            call = service.procedure(TABLE, table, machines=3, timeout=SECONDS)
            with ThreadPoolExecutor(8) as pool:
                list(pool.map(lambda key: call(ADD, key % 5 + 1, 1), range(50)))
            self.assertEqual([call(GET, key) for key in range(1, 6)], [10] * 5)

            async def many() -> list[int]:
                return await asyncio.gather(*(call.call_async(ADD, 9, 1) for _ in range(20)))

            self.assertEqual(sorted(asyncio.run(many())), list(range(1, 21)))
            # Each machine had a part.
            client = service.connect(SECONDS)
            self.assertTrue(all(client.regs(machine).fuel < 2**64 - 100 for machine in (1, 2, 3)))

    def test_map_keeps_all_machines_busy(self) -> None:
        with served() as service:
            rows = service.setup.make(16 * 256)
            service.setup.write(rows, b"".join(struct.pack("<IIQ", k % 7, k, k * k) for k in range(256)))
            call = service.procedure(FILTER, grants={rows: "r"}, machines=4, timeout=SECONDS)
            asked = [(address(rows, 16 * first), 16, 100, day, day + 1) for first in range(0, 256, 16) for day in range(6)]
            wanted = [sum(k * k for k in range(first, first + 16) if k >= 100 and day <= k % 7 <= day + 1) for first in range(0, 256, 16) for day in range(6)]
            self.assertEqual(list(call.map(asked)), wanted)
            self.assertEqual(list(call.map([])), [])
            # What isn't taken is given back, and so is what is wrong.
            part = call.map(asked)
            self.assertEqual(next(part), wanted[0])
            del part
            with self.assertRaises(Failed):
                list(call.map([asked[0], (address(rows), 257), asked[1]]))
            with self.assertRaises(ValueError):
                list(call.map([asked[0], (-1,)]))
            self.assertEqual(list(call.map(asked[:9])), wanted[:9])

    def test_a_tree_that_is_wrong(self) -> None:
        with served() as service:
            setup = service.setup
            root, leaf = setup.make(256), setup.make(256)
            node = struct.Struct("<2Q15Q15Q")
            setup.write(leaf, node.pack(0, 2, *filled(5, 9), *filled(50, 90)))
            setup.write(root, node.pack(1, 3, *filled(5, 20, 30), *filled(address(leaf), address(99), address(root))))
            call = service.procedure(TREE, grants={root: "r", leaf: "r"}, timeout=SECONDS)
            self.assertEqual([call(address(root), 5), call(address(root), 9), call(address(leaf), 9)], [50, 90, 90])
            tree = address(root)
            wrong = [(tree, 4), (tree, 6), (0, 5), (address(99), 5), (tree + 8, 5), (2**64 - 8, 5), (tree, 20), (tree, 30)]
            statuses = []
            for request in wrong:
                with self.assertRaises(Failed) as failed:
                    call(*request)
                statuses.append(failed.exception.status)
            self.assertEqual(statuses, [MISSING, MISSING] + 5 * [WRONG_ADDRESS] + [WRONG_NODE])
            self.assertEqual((call(address(root), 5), call.left), (50, 47))


@needs_service
class Faults(unittest.TestCase):
    """Machines that stop or don't answer, objects that are far, a service that goes."""

    def setUp(self) -> None:
        self.careless = folder_of(self) / "careless.c"
        self.careless.write_text(CARELESS)
        self.line = CARELESS.splitlines().index("        answer_request(request, number, *(uint64_t *)request->arguments[0], REQUEST_DONE);") + 1

    def test_a_machine_that_stopped_is_shipped_again(self) -> None:
        with served() as service:
            value = service.setup.make_of((42).to_bytes(8, "little"))
            for _ in range(43):
                service.setup.ship(bytes.fromhex("9500000000000000"), 1)
            call = service.procedure(self.careless, value, machines=2, timeout=SECONDS)
            self.assertEqual((call(address(value)), call.left), (42, 3))
            for left, wrong, stop in ((2, address(value, 1), "outside"), (1, address(value, 2**31), "outside"), (0, address(9), "notgranted")):
                with self.assertRaises(call.Stopped) as stopped:
                    call(wrong)
                why = stopped.exception
                self.assertEqual((why.stop, why.request, call.left), (stop, (wrong,), left))
                self.assertRegex(why.line, rf"careless\.c:{self.line}: answer_request")
                self.assertRegex(str(why), rf"^machine {why.machine} stopped \({stop}\) at slot \d+, .*, for the request \({wrong}\)$")
                self.assertIn(why.machine, range(44, 48))
                self.assertEqual(list(call.map([address(value)] * 5)), [42] * 5)
            with self.assertRaisesRegex(call.Stopped, r"stopped \(exit\)"):
                call(address(value), 2)
            # A program may answer, and then end: that is the next request's stop.
            self.assertEqual(call(address(value), 3), 42)
            with self.assertRaisesRegex(call.Stopped, r"stopped \(exit\)"):
                call(address(value))
            for _ in range(2):
                with self.assertRaisesRegex(Exhausted, "no machine is left"):
                    call(address(value))

    def test_a_request_without_end(self) -> None:
        with served() as service:
            value = service.setup.make_of((42).to_bytes(8, "little"))
            call = service.procedure(self.careless, value, machines=2, timeout=SECONDS)
            call.timeout = GIVEN_UP
            with self.assertRaisesRegex(TimeoutError, r"no answer came within 3 seconds for the request \(\d+, 1\): machine \d still runs"):
                call(address(value), 1)
            call.timeout = SECONDS
            self.assertEqual([call(address(value)) for _ in range(4)], [42] * 4)
            with self.assertRaises(TimeoutError):
                call.timeout = GIVEN_UP
                call(address(value), 1)
            call.timeout = 0.3
            with self.assertRaisesRegex(TimeoutError, "no machine was free within 0.3 seconds"):
                call(address(value))
            service.kill()

    def test_a_procedure_that_is_closed_within_a_call(self) -> None:
        with served() as service, ThreadPoolExecutor(3) as pool:
            value = service.setup.make_of((42).to_bytes(8, "little"))
            call = service.procedure(self.careless, value, machines=2, timeout=SECONDS)
            self.assertEqual(call(address(value)), 42)
            asked = [pool.submit(call, address(value), 1) for _ in range(3)]
            until_true(lambda: not call._free, "all machines are taken")
            since = time.monotonic()
            call.close()
            self.assertEqual([type(future.exception(SECONDS)) for future in asked], [Broken] * 3)
            self.assertLess(time.monotonic() - since, SECONDS / 3)
            with self.assertRaisesRegex(Broken, "closed"):
                call.left
            service.kill()

    def test_objects_that_are_far(self) -> None:
        with served() as service:
            table = service.setup.make(16 * PLACES)
            call = service.procedure(TABLE, table, machines=2, timeout=SECONDS)
            self.assertEqual(call(PUT, 5, 6), 0)
            client = service.connect(SECONDS)
            for number in (table, 2, 3, table):
                client.leave(number)
                with contextlib.suppress(Refused):
                    until_true(lambda: not client.get(number, 0, 1), f"object {number} leaves")
                self.assertEqual(list(call.map([(GET, 5)] * 3)), [6] * 3)

    def test_a_far_store_that_does_not_answer(self) -> None:
        with silent_store() as (port, answer), served("--far", f"127.0.0.1:{port}") as service:
            table = service.setup.make(16 * PLACES)
            call = service.procedure(TABLE, table, timeout=SECONDS)
            self.assertEqual(call(PUT, 5, 6), 0)
            client = service.connect(SECONDS)
            client.leave(table)
            until_true(lambda: client.tell(f"get {table} 0 1") == f"away {table}", "the table leaves")
            call.timeout = GIVEN_UP
            with self.assertRaisesRegex(TimeoutError, rf"machine 1 waits for object {table}$"):
                call(ADD, 5, 1)
            answer.set()
            call.timeout = SECONDS
            # The request that was given up is done when the object is back.
            self.assertEqual(call(GET, 5), 7)

    def test_a_service_that_ends(self) -> None:
        with served() as service:
            call = service.procedure(TABLE, service.setup.make(16 * PLACES), machines=2, timeout=SECONDS)
            self.assertEqual(call(ADD, 1, 1), 1)
            ended: list[str] = []

            def go_on() -> None:
                try:
                    while True:
                        call(ADD, 1, 1)
                except Broken as why:
                    ended.append(str(why))

            threads = [threading.Thread(target=go_on) for _ in range(4)]
            for thread in threads:
                thread.start()
            time.sleep(0.05)
            service.kill()
            for thread in threads:
                thread.join(SECONDS)
            self.assertEqual(len(ended), 4)
            with self.assertRaises(Broken):
                list(call.map([(GET, 1)]))

    def test_wrong_use(self) -> None:
        with served() as service:
            table = service.setup.make(16 * PLACES)
            with self.assertRaisesRegex(ValueError, "grants are 'r' or 'w'"):
                service.procedure(TABLE, table, grants="some")
            with self.assertRaisesRegex(Unloadable, "awaits no request"):
                service.procedure(ROOT / "examples/c/crc32.code", table)
            everything = service.procedure(TABLE, table, grants=ALL, timeout=SECONDS)
            reader = service.procedure(TABLE, table, grants={table: "r"}, timeout=SECONDS)
            with everything, reader:
                self.assertEqual(everything(PUT, 3, 4), 0)
                self.assertEqual(reader(GET, 3), 4)
                with self.assertRaisesRegex(reader.Stopped, r"\(notgranted\)"):
                    reader(PUT, 3, 5)
                with self.assertRaisesRegex(Broken, "has to be made before the service listens"):
                    service.procedure(TABLE, table)
            with self.assertRaisesRegex(Broken, "the procedure was closed"):
                everything(GET, 3)

    def test_a_program_that_stops_before_it_awaits(self) -> None:
        early = self.careless.with_name("early.c")
        early.write_text(CARELESS.replace("for (;;) {", "for (uint64_t turn = *value;; turn++) {\n        if (turn) return turn;", 1))
        with served() as service:
            value = service.setup.make_of(b"\1" + bytes(7))
            with self.assertRaisesRegex(Unloadable, "doesn't come to where it awaits a request, but to Stopped"):
                service.procedure(early, value)

    def test_a_client_that_was_killed(self) -> None:
        """Between `put` and `resume`, and after it: the next client's requests get their own answers, whatever the numbers were."""
        with served(connections=6) as service:
            table = service.setup.make(16 * PLACES)
            service.procedure(TABLE, table, timeout=SECONDS).close()
            place = service.listen()
            lines = [f"put 2 0 {REQUEST.pack(number, ADD, 5, 100, 0, 0).hex()}" for number in (1, 1000, 1)]
            for line, following, wanted in ((lines[0], "", 1), (lines[1], "\nresume 1", 102), (lines[2], "\nresume 1", 203)):
                with reached(place, SECONDS) as killed:
                    killed.sendall(f"{line}{following}\n".encode())
                    # It has been done when it is answered; then the client goes without a word.
                    replies = b""
                    while replies.count(b"\n") <= following.count("\n"):
                        replies += killed.recv(1 << 16)
                    self.assertEqual(set(replies.split()), {b"ok"})
                    killed.setsockopt(socket.SOL_SOCKET, socket.SO_LINGER, struct.pack("ii", 1, 0))
                with Procedure.connect(place, [(1, 2)], SECONDS) as call:
                    self.assertEqual((call(ADD, 5, 1), call.left), (wanted, 47))
            with self.assertRaisesRegex(ValueError, "is not HOST:PORT"):
                Procedure.connect("nowhere", [(1, 2)])
            service.kill()


@contextlib.contextmanager
def silent_store() -> Iterator[tuple[int, threading.Event]]:
    """A far store that keeps what it is sent, and gives nothing back before it is told to."""
    head, answer, kept = struct.Struct(">BQI"), threading.Event(), {}
    listener = socket.create_server(("127.0.0.1", 0))

    def serve() -> None:
        connection, _ = listener.accept()
        with connection, connection.makefile("rwb") as stream:
            while len(found := stream.read(head.size)) == head.size:
                kind, number, length = head.unpack(found)
                content = stream.read(length)
                if kind == 1:
                    kept[number] = content
                elif kind == 2:
                    answer.wait(SECONDS)
                content = kept[number] if kind == 2 else b""
                stream.write(head.pack(0, number, len(content)) + content)
                stream.flush()

    thread = threading.Thread(target=serve, daemon=True)
    thread.start()
    try:
        yield listener.getsockname()[1], answer
    finally:
        answer.set()
        listener.close()


class Together(unittest.TestCase):
    """Several threads over one connection."""

    @unittest.skipUnless(PROGRAM, "needs BPFAGENT")
    def test_each_thread_has_its_own_replies(self) -> None:
        with Service(PROGRAM, "--workers", "0", timeout=SECONDS) as service:
            number = service.setup.make_of(bytes(range(256)))
            agent = service.connect_shared(SECONDS)

            def ask(first: int) -> bool:
                chance = random.Random(first)
                for _ in range(40):
                    places = [chance.randrange(256) for _ in range(chance.randrange(1, 6))]
                    if agent.tell_all([f"get {number} {place} 1" for place in places]) != [f"bytes {place:02x}" for place in places]:
                        return False
                return True

            with ThreadPoolExecutor(8) as pool:
                self.assertEqual(list(pool.map(ask, range(16))), [True] * 16)

    def test_all_end_when_the_other_side_does(self) -> None:
        with socket.create_server(("127.0.0.1", 0)) as listener, ThreadPoolExecutor(6) as pool:
            agent = SharedAgent.connect("127.0.0.1", listener.getsockname()[1], SECONDS)
            other, _ = listener.accept()
            asked = [pool.submit(agent.tell, f"regs {k}") for k in range(6)]
            received = b""
            while received.count(b"\n") < 6:
                received += other.recv(1 << 16)
            # Two replies come, for the two that came first; then none.
            first = received.split(b"\n")[:2]
            other.sendall(b"".join(b"reply to %s\n" % line for line in first))
            other.close()
            ended: list[Optional[str]] = []
            for k, future in enumerate(asked):
                error = future.exception(SECONDS)
                ended.append(str(error) if error else None)
                if error is None:
                    self.assertEqual(future.result(), f"reply to regs {k}")
            self.assertEqual((ended.count(None), ended.count("the agent ended the conversation") + sum("stream failed" in str(why) for why in ended)), (2, 4))
            with self.assertRaises(Broken):
                agent.tell("regs 1")

    def test_an_interrupt_ends_the_conversation(self) -> None:
        """Of the thread that reads, and of one that waits for its turn. The replies of the others are still their own."""

        def interrupt(*_: object) -> None:
            raise KeyboardInterrupt

        self.addCleanup(signal.signal, signal.SIGALRM, signal.signal(signal.SIGALRM, interrupt))
        for reads in (False, True):
            with socket.create_server(("127.0.0.1", 0)) as listener, ThreadPoolExecutor(1) as pool:
                agent = SharedAgent.connect("127.0.0.1", listener.getsockname()[1], SECONDS)
                other, _ = listener.accept()
                main, asked = threading.get_ident(), list[Future[str]]()
                if not reads:
                    asked.append(pool.submit(agent.tell, "regs 1"))
                    self.assertEqual(other.recv(100), b"regs 1\n")

                def interrupt_it() -> None:
                    """When both have asked, and after a while in which both come to wait."""
                    self.assertEqual(other.recv(100), b"regs 2\n")
                    if reads:
                        asked.append(pool.submit(agent.tell, "regs 1"))
                        self.assertEqual(other.recv(100), b"regs 1\n")
                    until_true(lambda: len(agent._tickets) == 2, "two threads wait")
                    time.sleep(0.3)
                    signal.pthread_kill(main, signal.SIGALRM)

                interrupting = threading.Thread(target=interrupt_it)
                with self.assertRaises(KeyboardInterrupt):
                    interrupting.start()
                    agent.tell("regs 2")
                interrupting.join(SECONDS)
                if not reads:
                    other.sendall(b"one\n")
                    self.assertEqual(asked[0].result(SECONDS), "one")
                else:
                    self.assertIsInstance(asked[0].exception(SECONDS), Broken)
                with self.assertRaisesRegex(Broken, "it was interrupted"):
                    agent.tell("regs 3")
                other.close()
                agent.close()

    def test_a_fault_that_comes_while_the_reading_is_handed_on(self) -> None:
        with socket.create_server(("127.0.0.1", 0)) as listener, ThreadPoolExecutor(3) as pool:
            agent = SharedAgent.connect("127.0.0.1", listener.getsockname()[1], SECONDS)
            other, _ = listener.accept()
            hand_on = agent._hand_on

            def fail_then() -> None:
                """Another thread's fault is told when the next one was chosen, and isn't awake yet."""
                setattr(agent, "_hand_on", hand_on)
                agent._fault = "another thread failed"
                agent._tickets[0].gate.release()

            setattr(agent, "_hand_on", fail_then)
            asked = [pool.submit(agent.tell, "regs 1")]
            self.assertEqual(other.recv(100), b"regs 1\n")
            asked += [pool.submit(agent.tell, "regs 2") for _ in range(2)]
            until_true(lambda: len(agent._tickets) == 3, "three threads wait")
            other.sendall(b"one\n")
            self.assertEqual(asked[0].result(SECONDS), "one")
            self.assertEqual([str(future.exception(SECONDS)) for future in asked[1:]], ["another thread failed"] * 2)
            other.close()
            agent.close()

    def test_a_reply_that_does_not_come_ends_all(self) -> None:
        with socket.create_server(("127.0.0.1", 0)) as listener, ThreadPoolExecutor(3) as pool:
            agent = SharedAgent.connect("127.0.0.1", listener.getsockname()[1], 0.3)
            other, _ = listener.accept()
            since = time.monotonic()
            ended = [pool.submit(agent.tell, "regs 1").exception(SECONDS) for _ in range(3)]
            self.assertEqual({type(error) for error in ended}, {Broken})
            self.assertLess(time.monotonic() - since, SECONDS / 3)
            other.close()
            agent.close()


if __name__ == "__main__":
    unittest.main()

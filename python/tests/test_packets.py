"""What a procedure sends, packet by packet, to a stand-in for the service; and what the header for programs does, instruction by
instruction."""
from __future__ import annotations

import asyncio
import contextlib
import pathlib
import shutil
import socket
import subprocess
import tempfile
import threading
import time
import unittest
import unittest.mock
from typing import Iterator, Optional

import bpfagent.procedure
from bpfagent import Agent, Procedure, address, load
from bpfagent.procedure import ANSWER, FAR_READS, LENGTH, REQUEST
from bpfagent.replies import Stopped as HasStopped
from support import PROGRAM, ROOT, SECONDS, has_elftools

needs_program = unittest.skipUnless(PROGRAM and has_elftools() and shutil.which("clang"), "needs BPFAGENT, clang and pyelftools (python3-pyelftools)")
COMPILER = shutil.which("gcc") or shutil.which("clang") or ""
TABLE = ROOT / "examples/requests/table.c"
ADD = 2
# A service that is far away takes so long for a packet, in seconds.
AWAY = 0.005
# While an answer isn't there for so long, in seconds, it is asked for at most so often.
LATE, ASKED = 0.5, 80
INSIDE = """#include "bpfagent.h"
uint64_t program(const void *address, uint64_t size)
{
    return is_inside(address, size);
}
"""


class StandIn:
    """A service over one connection, whose machine m has its request in object 10 + m. A result is the first argument.

    `packets` has the lines of each packet that came, `pause` is how long one takes, and `answers` says whether requests are answered. The first
    commands of a name are answered as `first` has it.
    """

    def __init__(self, **first: list[str]) -> None:
        self.packets: list[list[str]] = []
        self.pause = 0.0
        self.answers = threading.Event()
        self.answers.set()
        self._first = first
        self._requests: dict[int, bytes] = {}
        self._answers: dict[int, bytes] = {}
        self._listener = socket.create_server(("127.0.0.1", 0))
        self.port: int = self._listener.getsockname()[1]
        self._thread = threading.Thread(target=self._serve, daemon=True)
        self._thread.start()

    def _serve(self) -> None:
        with self._listener, self._listener.accept()[0] as stream, contextlib.suppress(OSError):
            stream.setsockopt(socket.IPPROTO_TCP, socket.TCP_NODELAY, 1)
            while packet := stream.recv(1 << 16):
                self.packets.append(packet.decode().splitlines())
                time.sleep(self.pause)
                stream.sendall("".join(f"{self._reply(line)}\n" for line in self.packets[-1]).encode())

    def _reply(self, line: str) -> str:
        command, number, *words = line.split()
        if self._first.get(command):
            return self._first[command].pop(0)
        at = int(number)
        if command == "regs":
            return f"regs {at} 3 9 paused" + " 0000000000000000" * 11 if at < 9 else "none"
        if command == "put":
            self._requests[at] = bytes.fromhex(words[1])
        if command == "resume" and at + 10 in self._requests:
            asked, result, *_ = REQUEST.unpack(self._requests[at + 10])
            self._answers[at + 10] = ANSWER.pack(asked, result, 0)
        if command == "get":
            answer = self._answers.get(at, b"") if self.answers.is_set() else b""
            content = self._requests.get(at, bytes(REQUEST.size)) + (answer or bytes(ANSWER.size))
            return f"bytes {content[int(words[0]) :][: int(words[1])].hex()}"
        return "ok"

    def close(self) -> None:
        """Waits until the client has gone."""
        self._thread.join(SECONDS)


@contextlib.contextmanager
def standing(*machines: int, near: Optional[float] = None, pause: float = 0.0) -> Iterator[tuple[StandIn, Procedure]]:
    """A procedure over these machines of a stand-in. A trip up to `near` seconds is a short one."""
    service = StandIn()
    service.pause = pause
    with unittest.mock.patch.object(bpfagent.procedure, "NEAR", bpfagent.procedure.NEAR if near is None else near):
        with Procedure.connect(f"127.0.0.1:{service.port}", [(machine, machine + 10) for machine in machines], SECONDS) as call:
            service.packets.clear()
            yield service, call
    service.close()


def put(machine: int, number: int, *arguments: int) -> str:
    """The line that writes a request."""
    return f"put {machine + 10} 0 {REQUEST.pack(number, *arguments, *[0] * (5 - len(arguments))).hex()}"


def read(machine: int) -> str:
    """The line that reads an answer."""
    return f"get {machine + 10} {REQUEST.size} {ANSWER.size}"


class Packets(unittest.TestCase):
    """What goes together."""

    def test_near(self) -> None:
        """A request is one packet, in which the answer is read once."""
        with standing(1, near=SECONDS) as (service, call):
            self.assertEqual([call(5), call(6, 7)], [5, 6])
            self.assertEqual(service.packets, [[put(1, 1, 5), "resume 1", read(1)], [put(1, 2, 6, 7), "resume 1", read(1)]])

    def test_far(self) -> None:
        """If the trip is long, the answer is read several times in the packet."""
        with standing(1, pause=AWAY) as (service, call):
            self.assertEqual(call(5), 5)
            self.assertEqual(service.packets, [[put(1, 1, 5), "resume 1", *[read(1)] * FAR_READS]])
        self.assertIn(FAR_READS, range(3, 6))

    def test_map(self) -> None:
        """Each packet has a request for each machine that is free."""
        with standing(1, 2, 3, near=SECONDS) as (service, call):
            self.assertEqual(list(call.map([5, 6, 7, 8])), [5, 6, 7, 8])
            together = [put(1, 1, 5), "resume 1", put(2, 1, 6), "resume 2", put(3, 1, 7), "resume 3", read(1), read(2), read(3)]
            self.assertEqual(service.packets, [together, [put(1, 2, 8), "resume 1", read(1)]])

    def test_late(self) -> None:
        """An answer that isn't there is read again, with the machine's state, after pauses that grow. Nothing else is sent again."""
        with standing(1, near=SECONDS) as (service, call):
            service.answers.clear()
            threading.Timer(LATE, service.answers.set).start()
            self.assertEqual(call(5), 5)
            self.assertEqual(service.packets[0], [put(1, 1, 5), "resume 1", read(1)])
            self.assertEqual(service.packets[1:], [["regs 1", read(1)]] * (len(service.packets) - 1))
            self.assertLess(len(service.packets), ASKED)

    def test_cancelled(self) -> None:
        """The request of a call of asyncio that is cancelled goes on, and the machine is free again then."""

        async def cancelled(service: StandIn, call: Procedure) -> int:
            service.answers.clear()
            task = asyncio.ensure_future(call.call_async(5))
            while not service.packets:
                await asyncio.sleep(0.01)
            task.cancel()
            with self.assertRaises(asyncio.CancelledError):
                await task
            service.answers.set()
            return await call.call_async(6)

        with standing(1, near=SECONDS) as (service, call):
            self.assertEqual(asyncio.run(cancelled(service, call)), 6)
            self.assertIn([put(1, 2, 6), "resume 1", read(1)], service.packets)


@unittest.skipUnless(COMPILER, "needs a C compiler")
class InC(unittest.TestCase):
    """What examples/requests/client.c sends."""

    def asked(self, service: StandIn, given: str) -> str:
        """What the client says to these requests of machine 1. Its first packet asks for the machine, and for what its object has."""
        with tempfile.TemporaryDirectory() as folder:
            made = pathlib.Path(folder, "client")
            words = [COMPILER, "-std=c11", f"-I{ROOT / 'python/bpfagent/include'}", "-o", made, ROOT / "examples/requests/client.c"]
            subprocess.run([str(word) for word in words], check=True, timeout=SECONDS)
            done = subprocess.run([made, str(service.port), "1", "11"], input=given, capture_output=True, text=True, timeout=SECONDS)
        service.close()
        self.assertEqual((done.returncode, done.stderr, service.packets[0]), (0, "", ["regs 1", f"get 11 0 {LENGTH}"]))
        return done.stdout

    def test_packets(self) -> None:
        service = StandIn()
        self.assertEqual(self.asked(service, "5\n6 7\n"), "5\n6\n")
        self.assertEqual(service.packets[1:], [[put(1, 1, 5), "resume 1", read(1)], [put(1, 2, 6, 7), "resume 1", read(1)]])

    def test_sent_again(self) -> None:
        """What is refused is sent again, and nothing else. A machine that went on without its request is let go on once more."""
        again, after = [put(1, 1, 5), "resume 1", "regs 1", read(1)], ["resume 1", "regs 1", read(1)]
        for refusals, packets in ((0, [again]), (1, [again]), (2, [again, after])):
            service = StandIn(put=["away 11"], resume=["notpaused"] * refusals)
            self.assertEqual(self.asked(service, "5\n6\n"), "5\n6\n")
            self.assertEqual(service.packets[1:], [[put(1, 1, 5), "resume 1", read(1)], *packets, [put(1, 2, 6), "resume 1", read(1)]])


@needs_program
class Header(unittest.TestCase):
    """`is_inside` and `answer_request`."""

    def test_inside(self) -> None:
        """Whether bytes are all in one object that may be read, also where a sum would go round."""
        with tempfile.TemporaryDirectory() as folder, Agent.run(PROGRAM, timeout=SECONDS) as agent:
            source = pathlib.Path(folder, "inside.c")
            source.write_text(INSIDE)
            code = load(source).code
            held, other = agent.make(64), agent.make(64)
            inside = [(address(held), 64), (address(held), 0), (address(held, 64), 0), (address(held, 63), 1)]
            outside = [
                (address(held), 65), (address(held, 1), 64), (address(held, 65), 0), (address(held, 64), 1), (address(held), 2**64 - 1),
                (address(held, 8), 2**64 - 8), (address(held, 2**32 - 1), 1), (address(other), 1), (address(other), 0), (0, 0), (address(99), 1),
            ]
            for question in inside + outside:
                machine = agent.ship2(code, 1_000, {held: "r"}, *question)
                self.assertEqual(agent.run_until(machine).last, HasStopped(machine, "exit", int(question in inside)), question)

    def test_answered_last(self) -> None:
        """After each instruction the answer is either the one before, or whole."""
        image = load(TABLE)
        with Agent.run(PROGRAM, timeout=SECONDS) as agent:
            table, request = agent.make(1024), agent.make(LENGTH)
            machine = agent.ship(image.code, 100_000, address(request), address(table))
            agent.break_(machine, *image.awaits)
            agent.run_until(machine)
            for number, arguments, answer in ((1, (ADD, 7, 40), (40, 0)), (2, (ADD, 0, 1), (0, 3)), (3, (ADD, 7, 2), (42, 0))):
                agent.put(request, 0, REQUEST.pack(number, *arguments, 0, 0))
                agent.resume(machine)
                seen = []
                while agent.regs(machine).state == "run":
                    agent.step(machine)
                    seen.append(ANSWER.unpack(agent.get(request, REQUEST.size, ANSWER.size)))
                self.assertEqual({told[0] for told in seen}, {number - 1, number})
                self.assertEqual({told[1:] for told in seen if told[0] == number}, {answer})


if __name__ == "__main__":
    unittest.main()

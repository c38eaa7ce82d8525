"""The client: conversations by its methods, wrong replies, streams that end or fail, runs, and services.

The conversations are those of the documents and of examples/. Each command is given by a method, and each reply is compared with its value. They are
held with a started `run`, and over TCP with a stand-in that answers stored lines. What the documents of the package show is run too.
"""
from __future__ import annotations

import doctest
import os
import pathlib
import re
import shutil
import signal
import socket
import tempfile
import threading
import time
import unittest
import unittest.mock
from typing import Any, Callable, Optional, Sequence

import bpfagent
import stand_in
from bpfagent import Agent, Broken, Engine, Hit, Move, Paused, Ran, Refused, Registers, Run, Step, Stopped, Waiting, address, protocol
from support import PROGRAM, ROOT, SECONDS, folder_of, program_of, until_gone

from lib.programs import until
from lib.scripts import Talk, conversations

PAGE = ROOT / "python/README.md"
SCRIPTS = [ROOT / "crates/script_runner/data/protocol.script", *sorted(ROOT.glob("examples/*.script")), *sorted(ROOT.glob("examples/c/*.script"))]
EXIT = bytes.fromhex("9500000000000000")


# ---- lines to calls, and values to replies


def parts(command: str) -> tuple[str, list[int], bytes, list[str]]:
    """The word of a command, its numbers, its bytes, and the words after these."""
    word, *rest = command.split(" ")
    at = sum(place not in protocol.CONTENT for place in protocol.commands()[word].words)
    return word, [int(number, 0) for number in rest[:at]], bytes.fromhex("".join(rest[at : at + 1])), rest[at + 1 :]


def canonical(command: str) -> str:
    """The one spelling in which the client sends a command: numbers in decimal, and grants in rising order."""
    word, numbers, content, rest = parts(command)
    return " ".join([word, *map(str, numbers), *([content.hex()] if content else []), *rest])


def hexes(values: Sequence[int]) -> str:
    """Values as a reply has them."""
    return "".join(f" {value:016x}" for value in values)


def step_text(step: Step) -> str:
    """The reply that a step was."""
    if isinstance(step, Stopped):
        return f"stopped {step.machine} {step.why}" + (f" {step.value:016x}" if step.why == "exit" else "")
    if isinstance(step, Waiting):
        return f"waiting {step.machine} {step.object}"
    return f"{ {Ran: 'ran', Hit: 'hit', Paused: 'paused'}[type(step)]} {step.machine} {step.slot}"


def regs_text(shown: Registers) -> str:
    """The reply that registers were."""
    return f"regs {shown.machine} {shown.slot} {shown.fuel} {shown.state}{hexes(shown.values)}"


# How a value ends a reply, for the types that a method may give.
SAID: dict[type, Callable[[Any], str]] = {
    type(None): lambda nothing: "",
    int: lambda number: f" {number}",
    str: lambda text: f" {text}",
    bytes: lambda content: f" {content.hex()}",
    tuple: hexes,
}


def value_text(value: object, command: str) -> str:
    """The reply of this value. The synopsis says how it begins where the value doesn't, and which of the command's numbers it repeats."""
    if isinstance(value, Registers):
        return regs_text(value)
    if isinstance(value, (Ran, Hit, Paused, Waiting, Stopped)):
        return step_text(value)
    word, numbers, _, _ = parts(command)
    known = protocol.commands()[word]
    first, *places = known.replies[0].split(" ")
    given = dict(zip(known.words, numbers))
    own = "".join(f" {given[place]}" for place in places if place in given)
    return f"{value.value}{own}" if isinstance(value, Move) else f"{first}{own}{SAID[type(value)](value)}"


def called(agent: Agent | Engine, command: str) -> str:
    """The reply to a command, which is given by the client's method."""
    word, numbers, content, rest = parts(command)
    known = protocol.commands()[word]
    method = getattr(agent, known.method)
    try:
        if "CODE" in known.words:
            grants = [{int(grant[1:]): grant[0] for grant in rest}] * known.takes_grants
            return value_text(method(content, numbers[0], *grants, *numbers[1:]), command)
        return value_text(method(*numbers, *[content] * bool(content)), command)
    except Refused as refusal:
        return str(refusal)


# ---- what is shown


SERVICE = [
    ("make 8", "unserved"),
    ("free 1", "unserved"),
    ("left 1", "unserved"),
    ("returned 1", "unserved"),
    ("leave 1", "asked 1"),
    ("leave 9", "none"),
    ("leave 1", "full"),
    ("return 1", "asked 1"),
    ("return 9", "none"),
    ("return 1", "full"),
    ("put 1 0 2a", "busy 1"),
    ("put 1 0 2a", "worn"),
    ("put 1 0 2a", "away 1"),
    ("get 1 0 1", "busy 1"),
    ("get 1 0 1", "worn"),
    ("get 1 0 1", "nomem"),
    ("get 1 0 1", "away 1"),
    ("step 1", "waiting 1 1"),
    ("one 1", "stopped 1 worn"),
]


def refusal_of(call: Callable[[], object]) -> list[str]:
    """The words of a refusal."""
    try:
        raise AssertionError(f"this was done, and gave {call()}")
    except Refused as refusal:
        assert (refusal.word, str(refusal)) == (refusal.words[0], " ".join(refusal.words)), refusal
        return refusal.words


# What no agent answers to these calls.
WRONG: list[tuple[Callable[[Agent], object], list[str]]] = [
    (
        lambda agent: agent.make(8),
        [
            "made",
            "made x",
            "made 01",
            "made 1 ",
            " made 1",
            "made 1\r",
            "freed 1",
            "",
            "MADE 1",
            "made \u0661",
            "refused",
            "away",
            "place 1 gone",
            "kept 1",
            "kept 1 fault far here",
            "badly",
        ],
    ),
    (lambda agent: agent.get(1, 0, 1), ["bytes", "bytes 0", "bytes 0g", "bytes 0A", "bytes 0000", "ok"]),
    (lambda agent: agent.put(1, 0, b"*"), ["ok 1", "done", "bytes 00"]),
    (lambda agent: agent.free(1), ["freed 2", "freed"]),
    (lambda agent: agent.leave(1), ["left 1", "returning 1", "home 1", "leaving 2", "asked"]),
    (lambda agent: agent.left(1), ["leaving 1", "asked 1"]),
    (lambda agent: agent.return_(1), ["home 1", "leaving 1"]),
    (lambda agent: agent.returned(1), ["returning 1", "asked 1", "left 1"]),
    (lambda agent: agent.ship(EXIT, 1), ["shipped", "shipped x"]),
    (
        lambda agent: agent.step(1),
        [
            "ran 2 1",
            "ran 1",
            "walked 1 1",
            "waiting 1",
            "stopped 1",
            "stopped 1 exit",
            "stopped 1 exit 0",
            "stopped 1 bored",
            "stopped 1 depth 0000000000000000",
            "stopped 2 spent",
        ],
    ),
    (lambda agent: agent.out(1), ["out 2", "out 1 7", "out 1 "]),
    (lambda agent: agent.line(1, 2), ["line 1 3 exit", "line 2 2 exit", "line 1 2", "line 1 2 "]),
    (lambda agent: agent.stack(1, 0, 1), ["bytes 0000"]),
    (
        lambda agent: agent.regs(1),
        ["regs 1 0 0 run" + " 0000000000000000" * 10, "regs 2 0 0 run" + " 0000000000000000" * 11, "regs 1 0 run" + " 0000000000000000" * 11],
    ),
    (lambda agent: agent.resume(1), ["okay"]),
]


def breaks(reply: bytes, call: Callable[[Agent], object]) -> bool:
    """Whether a call that is answered these bytes, after which the stream ends, breaks the conversation, for other calls too."""

    def answer(connection: socket.socket) -> None:
        connection.recv(1 << 16)
        connection.sendall(reply)

    with stand_in.answering(answer) as port, Agent.connect("127.0.0.1", port, timeout=SECONDS) as agent:
        return is_broken(lambda: call(agent)) and is_broken(lambda: agent.step(1)) and is_broken(lambda: agent.tell("step 1"))


def why_broken(call: Callable[[], object]) -> Optional[str]:
    """Why a call breaks the conversation; none where it doesn't."""
    try:
        call()
        return None
    except Broken as why:
        return str(why)


def is_broken(call: Callable[[], object]) -> bool:
    """Whether a call breaks the conversation."""
    return why_broken(call) is not None


def shipped(path: str) -> tuple[list[str], Talk, Talk]:
    """The arguments of `run`, and the commands of a script up to the first machine and its shipping."""
    (arguments, talk), *_ = conversations((ROOT / path).read_text())
    at = next(k for k, (command, _) in enumerate(talk) if command.startswith("ship"))
    return arguments, talk[: at + 1], talk


def counted(talk: Talk, machine: int) -> tuple[int, str]:
    """How many instructions a stored conversation does of a machine up to its stop, and the stop."""
    replies = [reply for command, reply in talk if command == f"step {machine}"]
    stop = next(reply for reply in replies if reply.startswith("stopped "))
    return sum(reply.startswith(("ran ", "hit ")) for reply in replies[: replies.index(stop)]), stop


# What the page's clients say, and are answered by docs/PROTOCOL.md.
SETUP = [("make 8", "made 1")]
ADD = "db21000000000000" + "9500000000000000"
ONE = [(f"ship 100 4294967296 2 0 0 0 {ADD}", "shipped 1"), ("step 1", "ran 1 1"), ("step 1", "stopped 1 exit 0000000000000000")]
TWO = [
    ("put 1 0 2800000000000000", "ok"),
    ("get 1 0 8", "bytes 2a00000000000000"),
    ("leave 1", "asked 1"),
    ("get 1 0 8", "away 1"),
    ("get 1 0 8", "bytes 2a00000000000000"),
    ("free 1", "unserved"),
]


# What one connection of a service without workers is answered: each command once, those that it doesn't do, and refusals.
ADDING = [("make 8", "made 1"), (f"ship 10 4294967296 1 0 0 0 {ADD}", "shipped 1")]
ALONE = [
    ("step 1", "ran 1 1"),
    ("get 1 0 1", "bytes 01"),
    ("make 8", "unserved"),
    ("free 1", "unserved"),
    ("left 1", "unserved"),
    ("returned 1", "unserved"),
    ("leave 2", "none"),
    ("return 2", "none"),
    ("step 1", "stopped 1 exit 0000000000000000"),
    ("ship 10 0 0 0 0 0 9500000000000000", "shipped 2"),
    ("ship 10 0 0 0 0 0 9500", "refused 0 Short"),
    ("line 2 0", "line 2 0 exit"),
    ("line 2 1", "noslot"),
    ("stack 2 0 1", "bytes 00"),
    ("break 2 0", "ok"),
    ("watch 2 4294967296 1", "ok"),
    ("step 2", "paused 2 0"),
    ("one 2", "stopped 2 exit 0000000000000000"),
    ("resume 2", "notpaused"),
    ("unbreak 2 0", "ok"),
    ("unwatch 2 4294967296 1", "ok"),
    ("unwatch 2 4294967296 1", "nowatch"),
    ("out 2", "out 2"),
    ("out 3", "none"),
    ("put 1 8 00", "outside"),
    ("put 1 0 2a2b", "ok"),
    ("get 1 0 2", "bytes 2a2b"),
    ("ship2 5 4294967296 0 0 0 0 71100000000000009500000000000000 w2", "shipped 3"),
    ("step 3", "stopped 3 notgranted"),
    ("return 1", "asked 1"),
    ("leave 1", "asked 1"),
]


# What says that it is a service, and doesn't end, doesn't listen, fails, or says something else.
LISTENS = """import socket, time
listener = socket.create_server(("127.0.0.1", 0))
sys.stdin.read()
print("listening", listener.getsockname()[1], flush=True)
time.sleep(600)"""
# A service that is closed in time is so after less than two seconds; a loaded machine may take longer for that. Otherwise it takes SECONDS, or for ever.
LATE = 60.0
KILLED = "the service hadn't ended after 0.3 seconds, and was killed"
HUNG = {
    LISTENS: KILLED,
    "import time\ntime.sleep(600)": KILLED,
    "import os, time\nos.close(0)\nos.close(1)\ntime.sleep(600)": KILLED,
    "sys.exit(3)": "the service ended with status 3",
    "print('hello')": "the service doesn't listen, but says 'hello'",
}


def not_exited(call: Callable[[], int]) -> str:
    """Why there is no value."""
    try:
        raise AssertionError(f"there is a value, {call()}")
    except bpfagent.NotExited as why:
        return str(why)


class Case(unittest.TestCase):
    """Conversations with an agent, and over TCP with a stand-in."""

    def converse(self, agent: Agent, talk: Talk, used: set[str]) -> None:
        """Commands by methods; lines that are none, as they stand."""
        for command, reply in talk:
            found = agent.tell(command) if reply == "bad" else called(agent, command)
            self.assertEqual(found, reply, command[:80])
            if reply != "bad":
                used.add(command.split(" ")[0])

    def over_tcp(self, talk: Talk, act: Callable[[Agent], object]) -> None:
        """What is done over one connection to a stand-in, which has to hear these lines and no others."""
        heard: list[bool] = []
        with socket.create_server(("127.0.0.1", 0)) as listener:
            server = threading.Thread(target=stand_in.accept, args=([talk], listener, heard))
            server.start()
            try:
                with Agent.connect("127.0.0.1", listener.getsockname()[1], timeout=SECONDS) as agent:
                    act(agent)
            finally:
                server.join()
        self.assertEqual(heard, [True], "what the stand-in heard")


@unittest.skipUnless(PROGRAM, "needs BPFAGENT")
class Conversations(Case):
    """What each method says, hears, and makes of it."""

    def test_scripts(self) -> None:
        """The stored conversations, with the program, and with the stand-in over TCP. Each method is called."""
        used: set[str] = set()
        for path in SCRIPTS:
            for arguments, talk in conversations(path.read_text()):
                with Agent.run(PROGRAM, *arguments) as agent:
                    self.converse(agent, talk, used)
                self.over_tcp(
                    [(command if reply == "bad" else canonical(command), reply) for command, reply in talk], lambda agent: self.converse(agent, talk, used)
                )
        self.assertEqual(used, {*protocol.commands()}, "commands of the conversations")

    def test_together(self) -> None:
        """A long `write` and a long `read` send all of their lines before one is answered. The first refusal of them is raised."""
        content = bytes(range(256)) * 256

        def answer(connection: socket.socket) -> None:
            for replies in (["ok"] * 16, [f"bytes {content[at : at + 4096].hex()}" for at in range(0, 65_536, 4096)], ["ok", "busy 1", "away 1"]):
                with connection.makefile("rb") as lines:
                    heard.append([lines.readline().decode().split(" ")[:3] for _ in replies])
                connection.sendall("".join(f"{reply}\n" for reply in replies).encode())

        heard: list[list[list[str]]] = []
        with stand_in.answering(answer) as port, Agent.connect("127.0.0.1", port, timeout=SECONDS) as agent:
            agent.write(1, content)
            self.assertEqual(agent.read(1, 65_536), content)
            self.assertEqual(refusal_of(lambda: agent.write(1, content[:8193], 1)), ["busy", "1"])
        offsets = [str(at) for at in range(0, 65_536, 4096)]
        self.assertEqual(heard[:2], [[[word, "1", at] for at in offsets] for word in ("put", "get")])

    def test_pauses(self) -> None:
        """`wait` asks again after 20 us, since a machine may end within microseconds, and then ever more seldom."""
        now, slept = [0.0], list[float]()

        def sleep(seconds: float) -> None:
            slept.append(seconds)
            now[0] += seconds

        states = iter(["run"] * 60 + ["exit"])
        agent = unittest.mock.Mock(spec=Agent)
        agent.regs.side_effect = lambda machine: Registers(machine, 0, 0, next(states), (0,) * 11)
        with unittest.mock.patch("bpfagent.agent.time", sleep=sleep, monotonic=lambda: now[0]):
            self.assertEqual(Agent.wait(agent, 1).state, "exit")
        self.assertEqual(slept[:4], [0.00002] * 4)
        self.assertEqual((slept, slept[-1], len(slept)), (sorted(slept), 0.05, 60))

    def test_service_replies(self) -> None:
        """What only a service answers."""
        self.over_tcp(SERVICE, lambda agent: self.converse(agent, SERVICE, set()))
        patient = [("get 1 0 1", "away 1"), ("get 1 0 1", "busy 1"), ("get 1 0 1", "bytes 2a"), ("get 1 0 1", "away 1"), ("get 1 0 1", "outside")]

        def act(agent: Agent) -> None:
            self.assertEqual(bpfagent.patiently(agent.get, 1, 0, 1), b"*", "a patient get")
            self.assertEqual(refusal_of(lambda: bpfagent.patiently(agent.get, 1, 0, 1, seconds=0)), ["away", "1"], "a get whose patience ends")
            self.assertEqual(refusal_of(lambda: bpfagent.patiently(agent.get, 1, 0, 1)), ["outside"], "a get that patience doesn't help")

        self.over_tcp(patient, act)

    def test_wrong_replies(self) -> None:
        """A reply that no agent gives breaks the conversation for good, and so does a stream that ends or fails."""
        for call, replies in WRONG:
            for reply in replies:
                self.assertTrue(breaks(reply.encode() + b"\n", call), f"{reply!r} breaks the conversation")
        for content in (b"", b"made 1", b"made " + b"1" * bpfagent.REPLY, b"made " + b"1" * 5000 + b"\n", b"\xff\n"):
            self.assertTrue(breaks(content, lambda agent: agent.make(8)), f"{content[:20]!r} breaks the conversation")
        self.assertTrue(breaks(b"out 1" + b" 0000000000000007" * 5000 + b"\n", lambda agent: agent.out(1)), "a reply that is too long")
        with socket.create_server(("127.0.0.1", 0)) as listener:
            silent = Agent.connect("127.0.0.1", listener.getsockname()[1], timeout=0.05)
            self.assertTrue(is_broken(lambda: silent.make(8)) and is_broken(lambda: silent.make(8)), "a reply that doesn't come")
            silent.close()
        with tempfile.TemporaryDirectory() as folder:
            asleep = pathlib.Path(folder) / "asleep"
            asleep.write_text("#!/bin/sh\nexec sleep 30\n")
            asleep.chmod(0o755)
            hung = Agent.run(asleep, timeout=0.05)
            self.assertEqual(why_broken(lambda: hung.make(8)), "no reply came within 0.05 seconds", "a program that doesn't answer")
            deaf = Agent.run(asleep, timeout=0.2)
            self.assertEqual(
                why_broken(lambda: deaf.tell_all(["put 1 0 " + "00" * 4096] * 100)), "no reply came within 0.2 seconds", "a program that doesn't read"
            )
            with unittest.mock.patch("bpfagent.agent.PATIENCE", 0.1):
                for sleeping in (hung, deaf):
                    self.assertEqual(why_broken(sleeping.close), "the program didn't end, and was killed")
        agent = Agent.run(shutil.which("false") or "false")
        self.assertTrue(is_broken(lambda: agent.make(8)) and is_broken(agent.close), "a program that ends early")
        agent = Agent.run(PROGRAM, "--budget", "x")
        self.assertTrue(is_broken(lambda: agent.make(8)), "a program that is started wrongly")
        self.assertEqual(why_broken(agent.close), "the program ended with status 2", "what is said of a program that is started wrongly")
        agent = Agent.run(PROGRAM)
        agent.close()
        agent.close()
        self.assertTrue(is_broken(lambda: agent.make(8)), "a conversation that was closed")

    def test_misuse(self) -> None:
        """What is no line isn't sent, and no run of no instruction done. test_wrong_words.py has the values that no command takes."""
        with Agent.run(PROGRAM) as agent:
            wrong: list[Callable[[], object]] = [
                lambda: agent.run_until(1, limit=0),
                lambda: agent.tell("step 1\nstep 1"),
                lambda: agent.tell("é"),
                lambda: agent.ship2(EXIT, 1, {1: "r1\nstep 1 w"}),
                lambda: agent.ship(b"\x95", 1, 1, 2, 3, 4, 5, 6),
                lambda: Agent.connect("127.0.0.1", 65_536 + 80),
            ]
            for call in wrong:
                with self.assertRaises(ValueError):
                    call()
            self.assertEqual(refusal_of(lambda: agent.ship(EXIT + b"\x95", 1)), ["refused", "1", "Short"], "code that isn't valid")
            for length in (1, 4095, 4096, 4097, 65536):
                content = bytes((n * 7 + (n >> 8)) & 0xFF for n in range(length))
                number = agent.make_of(content)
                self.assertEqual(agent.read(number, length), content, f"{length} bytes")
                agent.write(number, b"xyz"[:length], max(length - 3, 0))
                self.assertEqual(
                    agent.read(number, length - length // 2, length // 2),
                    (content[: max(length - 3, 0)] + b"xyz"[:length])[length // 2 :],
                    f"a part of {length} bytes",
                )


@unittest.skipUnless(PROGRAM, "needs BPFAGENT")
class Runs(Case):
    """Methods of several commands."""

    def test_runs(self) -> None:
        """Programs run to their ends, as they do step by step in the scripts; the list with its nodes brought home."""
        for path in ("examples/sum.script", "examples/factorial.script", "examples/gcd.script", "examples/checksum.script"):
            arguments, before, talk = shipped(path)
            with Agent.run(PROGRAM, *arguments) as agent:
                self.converse(agent, before, set())
                run = agent.run_until(1)
                self.assertEqual((run.instructions, step_text(run.last)), counted(talk, 1), path)
                self.assertEqual(agent.run_until(1), Run(run.last, 0), f"{path}, again")
        arguments, before, talk = shipped("examples/list.script")
        with Agent.run(PROGRAM, *arguments) as agent:
            self.converse(agent, before, set())
            self.assertEqual(agent.run_until(1).last, Waiting(1, 1), "a run that may not wait")
            run = agent.run_until(1, wait=lambda number: agent.bring_home(number, [n for n in (1, 2, 3) if n != number]))
            instructions, stop = counted(talk, 1)
            self.assertEqual((run.instructions + 1, step_text(run.last)), (instructions, stop), "examples/list.script")

    def test_ends(self) -> None:
        """Each way in which a run ends: at a slot, after so many instructions, at a breakpoint, by a write, waiting."""
        # mov r0, 7; stdw [r1], 1; mov r2, 3; exit
        code = bytes.fromhex("b700000007000000" "7a01000001000000" "b702000003000000" "9500000000000000")
        with Agent.run(PROGRAM) as agent:
            number = agent.make(8)
            machine = [agent.ship(code, 10, address(number)) for _ in range(4)]
            self.assertEqual(agent.run_until(1, slot=2), Run(Ran(1, 2), 2), "a run to slot 2")
            self.assertEqual(agent.run_until(1, limit=1), Run(Ran(1, 3), 1), "a run of one instruction")
            self.assertEqual(agent.run_until(1), Run(Stopped(1, "exit", 7), 0), "a run to the end")
            agent.break_(2, 2)
            self.assertEqual(agent.run_until(2), Run(Paused(2, 2), 2), "a run to a breakpoint")
            self.assertEqual(agent.run_until(2), Run(Paused(2, 2), 0), "a run of a machine that is paused")
            agent.resume(2)
            self.assertEqual(agent.run_until(2), Run(Stopped(2, "exit", 7), 1), "a run from a breakpoint on")
            agent.watch(3, address(number, 7), 1)
            self.assertEqual(agent.run_until(3), Run(Hit(3, 2), 2), "a run to a write")
            agent.resume(3)
            self.assertEqual(agent.run_until(3, slot=0, limit=9), Run(Stopped(3, "exit", 7), 1), "a run that comes to its end before its slot")
            agent.send_away(number)
            asked: list[int] = []

            def wait(n: int) -> None:
                asked.append(n)
                agent.bring_home(n)

            self.assertEqual(agent.run_until(4, wait=wait), Run(Stopped(4, "exit", 7), 3), "a run that waits")
            self.assertEqual((machine, asked), ([1, 2, 3, 4], [number]), "machines, and what was waited for")
            self.assertEqual(agent.leave(number), Move.LEAVING, "a move")
            self.assertEqual(refusal_of(lambda: agent.bring_home(number)), ["place", "1", "leaving"], "an object that isn't far")

    def test_helpers(self) -> None:
        """Grants rise on their line; what can't leave is passed over, and nothing leaves where there is another refusal."""
        grants = [("ship2 1 7 0 0 0 0 9500000000000000 w1 r2 w10", "shipped 1")]
        self.over_tcp(grants, lambda agent: self.assertEqual(agent.ship2(EXIT, 1, {10: "w", 2: "r", 1: "w"}, 7), 1, "a machine with grants"))
        with Agent.run(PROGRAM, "--budget", "24") as agent:
            numbers = [agent.make(8) for _ in range(3)]
            # ldxb r0, [r1]: the first object is in scope then.
            agent.run_until(agent.ship(bytes.fromhex("7110000000000000") + EXIT, 9, address(1)), limit=1)
            agent.send_away(2)
            self.assertEqual((numbers, agent.make(8)), ([1, 2, 3], 4), "objects")
            self.assertEqual(refusal_of(lambda: agent.bring_home(4, [3])), ["place", "4", "here"], "an object that is here")
            self.assertEqual(refusal_of(lambda: agent.bring_home(2)), ["noroom"], "an object without room")
            self.assertEqual(refusal_of(lambda: agent.bring_home(2, [1, 9])), ["noroom"], "an object for which no other can leave")
            agent.bring_home(2, [1, 9, 4, 3])
            for number in (1, 2, 3):
                self.assertEqual(refusal_of(lambda: agent.return_(number)), ["place", str(number), "here"], "what is here")
            self.assertEqual(refusal_of(lambda: agent.left(4)), ["place", "4", "far"], "what has left")


@unittest.skipUnless(PROGRAM, "needs BPFAGENT")
class Services(Case):
    """Started services, of the program and of a stand-in."""

    def setUp(self) -> None:
        self.folder = folder_of(self)

    def stand_in(self, setup: Talk, *talks: Talk) -> str:
        """A program whose `serve` answers these lines."""
        return stand_in.program_of(self.folder, PROGRAM, setup, *talks)

    def test_page(self) -> None:
        """The examples of the package's docstring and of its page: the program's service shows them, and so does one that hears these
        lines and no others."""
        names = {name: getattr(bpfagent, name) for name in dir(bpfagent) if not name.startswith("_")}
        for service in (PROGRAM, self.stand_in(SETUP, ONE, TWO)):
            found = doctest.DocTestParser().get_doctest(bpfagent.__doc__ or "", {**names, "program": PROGRAM}, "bpfagent.py", None, 0)
            text = re.sub("(?m)^```.*$", "", PAGE.read_text())
            page = doctest.DocTestParser().get_doctest(text, {"program": service}, PAGE.name, None, 0)
            runner = doctest.DocTestRunner(verbose=False, optionflags=doctest.IGNORE_EXCEPTION_DETAIL)
            for test in (found, page):
                self.assertEqual(runner.run(test).failed, 0, f"what {test.name} shows")
                self.assertGreater(len(test.examples), 2, f"how much {test.name} shows")

    def test_faults(self) -> None:
        """A service that ends with another status than 0, and one that doesn't listen."""
        service = bpfagent.Service(self.stand_in(SETUP, [("step 1", "none")]))
        self.assertEqual(service.setup.make(8), 1)
        service.listen()
        with service.connect(SECONDS) as agent:
            self.assertTrue(is_broken(lambda: agent.step(2)), "a line that isn't stored")
        self.assertEqual(why_broken(service.close), "the service ended with status 4")
        service = bpfagent.Service(program_of(self.folder / "silent", "sys.exit(1)"))
        self.assertEqual(why_broken(service.listen), "the service doesn't listen, but ended with status 1")
        self.assertEqual(why_broken(service.close), "the service ended with status 1")

    def test_alone(self) -> None:
        """What one connection is answered: each command of a service."""
        for program in (PROGRAM, self.stand_in(ADDING, ALONE)):
            with bpfagent.Service(program, "--workers", "0") as service:
                self.converse(service.setup, ADDING, set())
                service.listen()
                with service.connect(SECONDS) as agent:
                    self.converse(agent, ALONE, set())

    def test_ends(self) -> None:
        """A service ends with its block, and is ended where something goes wrong in it."""
        for program in (PROGRAM, self.stand_in(SETUP, [("step 1", "none")])):
            with bpfagent.Service(program) as service:
                service.setup.make(8)
                service.listen()
                with service.connect(SECONDS) as agent:
                    self.assertEqual(refusal_of(lambda: agent.step(1)), ["none"], "the service's one line")
            with self.assertRaises(KeyError), bpfagent.Service(program) as service:
                raise KeyError
            self.assertTrue(is_broken(service.close), "a service that was ended")

    def test_service_that_is_left(self) -> None:
        """A service ends though clients that it handed out are open, connections were never used, or it never listened; and if
        somebody else stays connected, it is killed in time."""
        for used in (None, 0, 1, 3):
            service = bpfagent.Service(PROGRAM, "--connections", "3", "--workers", "1")
            self.assertEqual(service.setup.make(8), 1, "the setup of a service that is left")
            if used is not None:
                service.listen()
                clients = [service.connect(SECONDS) for _ in range(used)]
                self.assertEqual([client.get(1, 0, 8) for client in clients], [bytes(8)] * used, "what clients of a service that is left see")
            start = time.monotonic()
            self.assertEqual(service.close(SECONDS)[0], "closed", f"the end of a service of which {used} connections were used")
            self.assertLess(time.monotonic() - start, LATE)
        service = bpfagent.Service(PROGRAM)
        service.listen()
        with Agent.reach(service.place, timeout=SECONDS) as other:
            self.assertEqual(other.tell("make 8"), "unserved", "somebody else at a service")
            self.assertEqual(
                why_broken(lambda: service.close(seconds=0.5)),
                "the service hadn't ended after 0.5 seconds, and was killed",
                "a service to which somebody else is connected",
            )

    def test_order(self) -> None:
        """A service listens once, before any client connects, and neither is done after its end."""
        service = bpfagent.Service(PROGRAM)
        self.assertEqual(why_broken(service.connect), "the service doesn't listen yet")
        self.assertEqual(service.listen(), service.place)
        self.assertEqual(service.listen(), service.place, "a service that listens already")
        service.connect(SECONDS)
        self.assertEqual(service.close(), ["closed"])
        late: list[Callable[[], object]] = [service.listen, service.connect, service.close]
        for call in late:
            self.assertEqual(why_broken(call), "the service was closed")

    def test_hung(self) -> None:
        """`close` returns in time, whatever the service does, and nothing of it goes on."""
        for number, (text, why) in enumerate(HUNG.items()):
            # A program that ends by itself gets the time for it.
            seconds = 0.3 if why == KILLED else SECONDS
            service = bpfagent.Service(program_of(self.folder / f"hung{number}", text), "--connections", "8")
            self.closes(service, seconds, why)
            until_gone(service.process)
        for connections in ("1", "8"):
            service = bpfagent.Service(PROGRAM, "--connections", connections)
            service.listen()
            service._process.send_signal(signal.SIGSTOP)
            self.closes(service, 0.3, KILLED)
            self.assertEqual(service._process.wait(SECONDS), -signal.SIGKILL)

    def closes(self, service: bpfagent.Service, seconds: float, why: str) -> None:
        """`close` raises this, in time."""
        start = time.monotonic()
        self.assertEqual(why_broken(lambda: service.close(seconds)), why)
        self.assertLess(time.monotonic() - start, seconds + LATE)

    def test_interrupts(self) -> None:
        """An interrupt while an end is awaited leaves no program that goes on."""
        self.addCleanup(signal.signal, signal.SIGALRM, signal.signal(signal.SIGALRM, signal.default_int_handler))
        note = self.folder / "number"
        program = program_of(self.folder / "stays", f"import os, time\nopen({str(note)!r}, 'w').write(str(os.getpid()))\nos.close(1)\ntime.sleep(600)")
        starts: list[Callable[[], Callable[[], object]]] = [lambda: Agent.run(program).close, lambda: bpfagent.Service(program).close]
        for start in starts:
            close = start()
            until("the program doesn't begin", lambda: note.exists() and note.read_text())
            number = int(note.read_text())
            note.unlink()
            with self.assertRaises(KeyboardInterrupt):
                # Once the end of the output is seen, only that of the program is awaited.
                signal.setitimer(signal.ITIMER_REAL, 1.0)
                close()
            until_gone(number)

    def test_waits(self) -> None:
        """`wait` gives the end of a machine, its pause, or that it still runs; the value is there only after an exit."""
        code = {"exit": "b700000007000000" + EXIT.hex(), "endless": "0500ffff00000000", "outside": "7911000000000000" + EXIT.hex()}
        with bpfagent.Service(PROGRAM, "--workers", "2", timeout=SECONDS) as service:
            machines = {name: service.setup.ship(bytes.fromhex(text), 2**63) for name, text in code.items()}
            paused = service.setup.ship(EXIT, 1)
            service.setup.break_(paused, 0)
            service.listen()
            with service.connect(SECONDS) as client:
                self.assertEqual(client.wait(machines["exit"]).value, 7, "the value of a machine that exits")
                self.assertEqual(client.wait(machines["outside"]).state, "outside", "a machine that stops")
                self.assertEqual(client.wait(paused).state, "paused", "a machine that is paused")
                self.assertEqual(
                    not_exited(lambda: client.wait(machines["outside"]).value),
                    "machine 3 didn't exit: outside at slot 0",
                    "the value of a machine that stopped",
                )
                start = time.monotonic()
                with self.assertRaisesRegex(TimeoutError, "machine 2 still runs after 0.2 seconds"):
                    client.wait(machines["endless"], seconds=0.2)
                self.assertGreaterEqual(time.monotonic() - start, 0.2)
                client.one(machines["endless"])
        with Agent.run(PROGRAM) as agent:
            self.assertEqual(agent.run_until(agent.ship(bytes.fromhex(code["exit"]), 9)).value, 7, "the value of a run")
            run = agent.run_until(agent.ship(bytes.fromhex(code["exit"]), 1))
            self.assertEqual(
                not_exited(lambda: run.value), "the program didn't exit: Stopped(machine=2, why='spent', value=None)", "the value of a run that stops"
            )


if __name__ == "__main__":
    unittest.main()

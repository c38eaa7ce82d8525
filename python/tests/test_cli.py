"""`bpfagent-cli`: what it shows below a reply, its help and completion, a terminal, bytes that go through as they are, and services."""
from __future__ import annotations

import contextlib
import io
import os
import pathlib
import pty
import re
import select
import socket
import subprocess
import sys
import tempfile
import time
import unittest
from typing import Iterator, Optional, Sequence
from unittest import mock

from bpfagent import Agent, Broken, Service, cli
from bpfagent.protocol import commands
from bpfagent.streams import reached
from support import PROGRAM, SECONDS, take_terminal, usage_of

from lib.programs import states_of, until

CLI = [sys.executable, "-m", "bpfagent.cli"]
# `ldxdw r0, [r1]`, `exit`; and `call 3` of R1, `exit`.
LOADS, EMITS = "79100000000000009500000000000000", "85000000030000009500000000000000"
AT = 1 << 32
# Lines in this order, and what is shown: the reply, and what it means.
SHOWN: list[tuple[str, list[str]]] = [
    ("", []),
    ("mkae 8", ["bad", "  there is no command `mkae`: did you mean make?"]),
    ("make 0", ["bad", "  make LENGTH: LENGTH is `0`, and has to be from 1 to 65536"]),
    ("make 16", ["made 1"]),
    ("put 1 0 2a00000000000000ffffffffffffffff", ["ok"]),
    ("get 1 0 1", ["bytes 2a", '  = 42 "*"']),
    ("get 1 8 8", ["bytes ffffffffffffffff", f"  = {2**64 - 1} = -1"]),
    ("get 1 0 16", [f"bytes 2a{'0' * 14}{'f' * 16}", f'  +0     2a{"0" * 14} = 42 "*"', f"  +8     {'f' * 16} = {2**64 - 1} = -1"]),
    ("get 1 15 2", ["outside"]),
    (f"ship 9 {AT} 0 0 0 0 {LOADS}", ["shipped 1", "  0: ldxdw r0, [r1]", "  1: exit"]),
    ("step 1", ["ran 1 1", "  1: exit"]),
    (
        "regs 1",
        [
            f"regs 1 1 8 run {42:016x} {AT:016x}{' 0000000000000000' * 8} ffffffff00001000",
            "  at slot 1: exit", "  r0   000000000000002a  42", "  r1   0000000100000000  4294967296, object 1",
            *[f"  r{number}   0000000000000000  0" for number in range(2, 10)], "  r10  ffffffff00001000  -4294963200, stack+4096",
        ],
    ),
    ("step 1", ["stopped 1 exit 000000000000002a", "  = 42"]),
    (f"ship 9 {AT + 9} 0 0 0 0 {LOADS}", ["shipped 2", "  0: ldxdw r0, [r1]", "  1: exit"]),
    ("step 2", ["stopped 2 outside", "  at slot 0: ldxdw r0, [r1]", "  [r1] is object 1+9"]),
    (f"ship 0 0 0 0 0 0 {EMITS}", ["shipped 3", "  0: call 3", "  1: exit"]),
    ("step 3", ["stopped 3 spent", "  at slot 0: call 3", "  it has no fuel left"]),
    ("out 3", ["out 3"]),
    (f"ship 9 {2**64 - 2} 0 0 0 0 {EMITS}", ["shipped 4", "  0: call 3", "  1: exit"]),
    ("one 4", ["ran 4 1", "  1: exit"]),
    ("step 4", ["paused 4 1", "  1: exit"]),
    ("out 4", [f"out 4 {'f' * 15}e", f"  {'f' * 15}e = {2**64 - 2} = -2"]),
    ("ship 9 0 0 0 0 0 8d010000000000009500000000000000", ["refused 0 Opcode", "  slot 0: 8d01000000000000", "  no instruction has this opcode"]),
    ("leave 1", ["leaving 1"]),
    ("help quit", ["quit: leaves the shell, and ends what it started"]),
    ("help mkae", ["there is no command `mkae`: did you mean make?"]),
    ("listen", ["bad", "  there is no command `listen`"]),
    ("gét 1", ["isn't sent: there is no command `gét`: did you mean get?"]),
]
# Bytes of which an agent makes something, and nothing is changed.
BYTES = b"make 8\nput 1 0 00ff\nget 1 0 8\r\n\n\xff\x00\nget 1 0 2\n" + b"a" * 70_001 + b"\nget 1 0 2\nmake 1"
# Words that don't go together, or are none, and what is said of them.
MISUSES = {
    "make 8": "argument PLACE: 'make' is not HOST:PORT, with a port from 1 to 65535",
    "unix:": "argument PLACE: 'unix:' is not unix:PATH, with the path of a socket file",
    "127.0.0.1:1 -- --port 0": "-- starts a service, and a place is one that runs",
    "--x": "unrecognized arguments: --x",
}


def exchanged(place: str, given: bytes) -> bytes:
    """What a service answers to these bytes, by a socket."""
    with reached(place, SECONDS) as stream:
        stream.sendall(given)
        stream.shutdown(socket.SHUT_WR)
        return b"".join(iter(lambda: stream.recv(1 << 16), b""))


@unittest.skipUnless(PROGRAM, "needs BPFAGENT")
class Shells(unittest.TestCase):
    """Lines of a person, in this process."""

    def typed(self, lines: Sequence[str]) -> contextlib.AbstractContextManager[object]:
        """Whoever types these lines, and then the end of input."""
        rest = iter(lines)

        def typed(prompt: str) -> str:
            print(prompt, end="")
            try:
                return next(rest)
            except StopIteration:
                raise EOFError from None

        return mock.patch("builtins.input", typed)

    def test_remarks(self) -> None:
        """What stands below each reply."""
        with Agent.run(PROGRAM, timeout=SECONDS) as agent:
            shell = cli.Shell(agent, "> ")
            for line, shown in SHOWN:
                self.assertEqual(list(shell._answer(line)), shown, line)

    def test_help(self) -> None:
        """All commands with what the shell does itself, and one command."""
        with Agent.run(PROGRAM, timeout=SECONDS) as agent:
            shell = cli.Shell(agent, "> ")
            self.assertEqual(list(shell._answer("help"))[:-2], [command.form for command in commands().values()])
            self.assertEqual(list(shell._answer("help get"))[0], "get n OFFSET LENGTH")

    def test_completion(self) -> None:
        """A command at the beginning and behind `help`, and nowhere else."""
        both = ["unbreak ", "unwatch "]
        cases: list[tuple[str, str, list[str]]] = [("", "un", both), ("help un", "un", both), ("make m", "m", []), ("", "x", [])]
        for line, text, wanted in cases:
            complete = cli.completer(sorted(commands()), line.__str__)
            found: list[Optional[str]] = [complete(text, state) for state in range(len(wanted) + 1)]
            self.assertEqual(found, [*wanted, None], line)

    def test_service(self) -> None:
        """The setup of a service that is started, its client, and its last lines."""
        output = io.StringIO()
        with contextlib.redirect_stdout(output), self.typed(["make 1", "listen", "put 1 0 07", "make 1", "listen", "quit"]):
            cli.serve(PROGRAM, ["--workers", "0"], False)
        digest = "ca358758f6d27e6cf45272937977a748fd88391db679ceda7dc7bf1f005ee879"
        self.assertRegex(
            output.getvalue(),
            r"^bpfagent .*\nsetup> made 1\nsetup> listening (\S+)\n\1> ok\n\1> unserved\n"
            rf"\1> bad\n  there is no command `listen`\n\1> closed\nobject 1 1 {digest}\n$",
        )

    def test_reason(self) -> None:
        """A service that can't listen says why."""
        with socket.create_server(("127.0.0.1", 0)) as taken:
            port = taken.getsockname()[1]
            service = Service(PROGRAM, "--port", str(port), timeout=SECONDS, is_heard=True)
            self.addCleanup(service.kill)
            with self.assertRaisesRegex(Broken, f"^the service doesn't listen, but ended with status 3: port {port} is taken$"):
                service.listen()
        with Service(PROGRAM, "--workers", "0", "-v", timeout=SECONDS, is_heard=True) as service:
            service.listen()
            service.connect(SECONDS).close()
        # What it told is read beside.
        until("what it tells isn't read", lambda: "client 1 came" in "\n".join(service.told))


@unittest.skipUnless(PROGRAM, "needs BPFAGENT")
class Commands(unittest.TestCase):
    """The command as it is called."""

    def ended(self, *words: str, given: bytes = b"") -> tuple[int, bytes, str]:
        """Status, output and errors of the command, not on a terminal."""
        done = subprocess.run([*CLI, *words], input=given, capture_output=True, timeout=SECONDS, env={**os.environ, "BPFAGENT": PROGRAM})
        return done.returncode, done.stdout, done.stderr.decode()

    def test_bytes(self) -> None:
        """Bytes come through as they are: of an agent of its own, of a service, and of one that is started."""
        direct = subprocess.run([PROGRAM, "run"], input=BYTES, stdout=subprocess.PIPE, timeout=SECONDS, check=True).stdout
        self.assertTrue(direct.endswith(b"cut\n"))
        self.assertEqual(self.ended(given=BYTES), (0, direct, ""))
        with Service(PROGRAM, "--connections", "2", "--workers", "0", timeout=SECONDS) as service:
            service.setup.make(8)
            place = service.listen()
            self.assertEqual(self.ended(place, given=BYTES), (0, exchanged(place, BYTES), ""))

    def test_command(self) -> None:
        """One line: its reply, and a status."""
        with Service(PROGRAM, "--connections", "3", "--workers", "0", timeout=SECONDS) as service:
            service.setup.make_of(b"*")
            at = service.listen()
            self.assertEqual(self.ended(at, "get", "1", "0", "1"), (0, b"bytes 2a\n", ""))
            self.assertEqual(self.ended(at, "get", "2", "0", "1"), (1, b"outside\n", ""))
            self.assertEqual(self.ended(at, "get", "1"), (1, b"bad\n", "bpfagent-cli: get n OFFSET LENGTH: OFFSET and LENGTH are missing\n"))
        self.assertEqual(self.ended(at, "get"), (1, b"", f"bpfagent-cli: the service at {at} can't be reached: No such file or directory\n"))

    def test_misuse(self) -> None:
        """What is said of words that don't go together."""
        for words, why in MISUSES.items():
            status, output, errors = usage_of(cli.main, words.split())
            self.assertEqual((status, output, errors.splitlines()[-1]), (2, "", f"bpfagent-cli: error: {why}"))

    def test_terminal(self) -> None:
        """A line that is completed, one of the history, one that is given up, and the end."""
        with tempfile.TemporaryDirectory() as home, terminal(home) as keys:
            self.assertIn("`help` lists the commands", keys.until("bpfagent> "))
            self.assertIn("made 1", keys.press("mak\t8\n"))
            self.assertIn("made 2", keys.press("\x1b[A\n"))
            self.assertIn("^C (quit leaves)", keys.interrupt("make 9"))
            self.assertIn("there is no command `nothing`", keys.press("nothing\n"))
            keys.press("quit\n", "")
            self.assertEqual(keys.process.wait(SECONDS), 0)
            self.assertIn("make 8", (pathlib.Path(home) / ".bpfagent_cli_history").read_text())


class Keys:
    """Somebody at a terminal."""

    def __init__(self, process: subprocess.Popen[bytes], number: int) -> None:
        self.process, self._number = process, number

    def press(self, keys: str, shown: str = "bpfagent> ") -> str:
        """Types keys, and gives what is shown up to the next prompt."""
        os.write(self._number, keys.encode())
        return self.until(f"\n{shown}") if shown else ""

    def interrupt(self, keys: str) -> str:
        """Types keys, and an interrupt when the shell sleeps: one that comes just before is heard at the next key."""
        os.write(self._number, keys.encode())
        self.until(keys)
        until("the shell doesn't wait for a key", lambda: set(states_of(self.process.pid)) == {"S"})
        return self.press("\x03")

    def until(self, shown: str) -> str:
        """What is shown until it ends so."""
        end, read = time.monotonic() + SECONDS, ""
        while not read.endswith(shown):
            if not select.select([self._number], [], [], max(end - time.monotonic(), 0))[0]:
                raise AssertionError(f"the terminal shows {read!r}, and no more")
            read = re.sub(r"\x1b\[[0-9;?]*[a-zA-Z]|\r", "", read + os.read(self._number, 1 << 16).decode())
        return read


@contextlib.contextmanager
def terminal(home: str) -> Iterator[Keys]:
    """The command on a terminal."""
    own, other = pty.openpty()
    environment = {**os.environ, "HOME": home, "TERM": "dumb", "INPUTRC": "/dev/null", "BPFAGENT": PROGRAM}
    process = subprocess.Popen(CLI, stdin=other, stdout=other, stderr=other, env=environment, start_new_session=True, preexec_fn=take_terminal)
    os.close(other)
    try:
        yield Keys(process, own)
    finally:
        process.kill()
        process.wait()
        os.close(own)


if __name__ == "__main__":
    unittest.main()

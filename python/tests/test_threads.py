"""No thread of the package is there any more when Python ends: one that wakes then may crash it."""
from __future__ import annotations

import contextlib
import importlib.util
import os
import pathlib
import signal
import subprocess
import sys
import threading
import time
import unittest
from typing import Optional
from unittest import mock

from bpfagent import Service
from bpfagent.debug.ending import NUDGE, Ending
from support import ROOT, SECONDS, SIGNALS, folder_of, heard, is_at_once, program_of, with_signals

from lib.programs import in_time, until

# What comes before a program: Python says at its end which threads there are. It does so after all else, since it is asked first.
LOOKING = "import atexit, sys, threading\natexit.register(lambda: print([it.name for it in threading.enumerate()], file=sys.stderr))\n"
DEBUGGER = f"{LOOKING}from bpfagent.debug.main import main\nmain(['--dap'])"
GATEWAY = f"{LOOKING}sys.argv[1:] = ['--redis', '127.0.0.1:1']\nfrom bpfagent.gateway import main\nmain()"
# A service that nobody closes, and which goes on for a moment.
UNCLOSED = f"{LOOKING}from bpfagent import Service\nservice = Service(sys.argv[1], is_heard=True)\nservice.setup.tell('make 1')\n"
ALONE = "['MainThread']"
INITIALIZE = b'{"seq": 1, "type": "request", "command": "initialize"}'
ASKED = b"Content-Length: %d\r\n\r\n%b" % (len(INITIALIZE), INITIALIZE)
WAYS: tuple[Optional[BaseException], ...] = (None, SystemExit(3), KeyboardInterrupt(), ValueError("wrong"))
# A service that tells a line, answers one, and ends with its input.
FREE = "print('told', file=sys.stderr, flush=True)\nsys.stdin.readline()\nprint('made 1', flush=True)\nsys.stdin.read()"
# One that tells the number of a process which keeps its standard error open for longer.
HELD = """import os, subprocess
other = subprocess.Popen([sys.executable, "-c", "import time; time.sleep(600)"], stdin=subprocess.DEVNULL, stdout=subprocess.DEVNULL)
print(other.pid, file=sys.stderr, flush=True)
sys.stdin.read()"""


class Threads(unittest.TestCase):
    """Looks which threads a test begins."""

    def setUp(self) -> None:
        self.before = set(threading.enumerate())

    @property
    def begun(self) -> int:
        """How many threads there are that weren't there before the test."""
        return len({*threading.enumerate()} - self.before)


class Endings(Threads):
    """The thread that sends a signal again."""

    def setUp(self) -> None:
        super().setUp()
        with_signals(self)

    def test_ways(self) -> None:
        """It ends with its block, whichever way that is left."""
        for way in WAYS:
            with contextlib.suppress(SystemExit, KeyboardInterrupt, ValueError), Ending().listen():
                self.assertEqual(self.begun, 1)
                if way:
                    raise way
            self.assertEqual((self.begun, signal.set_wakeup_fd(-1)), (0, -1), repr(way))

    def test_signals(self) -> None:
        """It ends at once also while it is about to send a signal again."""

        def left(number: int) -> float:
            with_signals(self)
            ending = Ending()
            with ending.listen():
                os.kill(os.getpid(), number)
                start = time.monotonic()
            self.assertEqual((ending.has_come, self.begun), (True, 0))
            return time.monotonic() - start

        for number in SIGNALS:
            self.assertEqual(in_time(lambda: left(number), NUDGE), [], number)

    def test_interrupt(self) -> None:
        """An interrupt that comes while it is being ended comes after its end."""
        close = os.close

        def interrupted(number: int) -> None:
            os.kill(os.getpid(), signal.SIGINT)
            close(number)

        before = signal.signal(signal.SIGINT, signal.default_int_handler)
        self.addCleanup(signal.signal, signal.SIGINT, before)
        with self.assertRaises(KeyboardInterrupt), mock.patch("os.close", interrupted), Ending().listen():
            pass
        self.assertEqual((self.begun, signal.pthread_sigmask(signal.SIG_BLOCK, ())), (0, set()))

    def ended(self, code: str, given: bytes, number: Optional[int] = None) -> tuple[int, list[str]]:
        """Status and last line of a program that is given these bytes, answers, and then gets a signal, or the end of its input."""
        pipe, environment = subprocess.PIPE, {**os.environ, "PYTHONPATH": str(ROOT / "python")}
        command = [sys.executable, "-c", code]
        with subprocess.Popen(command, stdin=pipe, stdout=pipe, stderr=pipe, env=environment, preexec_fn=heard) as process:
            assert process.stdin and process.stdout
            process.stdin.write(given)
            process.stdin.flush()
            if number:
                self.assertTrue(process.stdout.read(1))
                process.send_signal(number)
                process.wait(SECONDS)
            _, errors = process.communicate(timeout=SECONDS)
        return process.returncode, errors.decode().splitlines()[-1:]

    def test_debugger(self) -> None:
        """The debugger ends alone: where its input ends, where that is wrong, by a signal, and by an interrupt."""
        self.assertEqual(self.ended(DEBUGGER, ASKED), (0, [ALONE]))
        self.assertEqual(self.ended(DEBUGGER, b"wrong\r\n\r\n"), (1, [ALONE]))
        for number in (*SIGNALS, signal.SIGINT):
            self.assertEqual(self.ended(DEBUGGER, ASKED, number), (128 + number, [ALONE]), number)

    @unittest.skipUnless(importlib.util.find_spec("redis"), "needs python3-redis")
    def test_gateway(self) -> None:
        """So does the gateway to Redis, also while that can't be reached."""
        self.assertEqual(self.ended(GATEWAY, b""), (0, [ALONE]))
        for number in (*SIGNALS, signal.SIGINT):
            self.assertEqual(self.ended(GATEWAY, b"", number), (0, [ALONE]), number)


class Hearings(Threads):
    """The thread that reads what a service tells."""

    def setUp(self) -> None:
        super().setUp()
        self.folder = folder_of(self)

    def program(self, text: str) -> str:
        """The path of a service of this text."""
        return str(program_of(self.folder / "bpfagent", text))

    def test_closed(self) -> None:
        """It ends with the service, whose last line it has then."""
        with self.assertRaises(ValueError), Service(self.program(FREE), is_heard=True) as service:
            service.setup.tell("make 1")
            self.assertEqual(self.begun, 1)
            raise ValueError
        self.assertEqual((self.begun, list(service.told)), (0, ["told"]))

    def test_held(self) -> None:
        """It does so while another process keeps the service's standard error open, and takes a moment."""

        def left() -> float:
            service = Service(self.program(HELD), is_heard=True)
            until("it tells nothing", lambda: service.told)
            start = time.monotonic()
            service.kill()
            took = time.monotonic() - start
            try:
                self.assertEqual(self.begun, 0)
            finally:
                os.kill(int(service.told[0]), signal.SIGKILL)
            return took

        self.assertTrue(is_at_once(left))

    def test_unclosed(self) -> None:
        """If nobody closes the service it ends before Python does, however that ends."""
        path = pathlib.Path(self.program(FREE))
        environment = {**os.environ, "PYTHONPATH": str(ROOT / "python")}
        for way, status in (("", 0), ("sys.exit(3)", 3), ("raise ValueError", 1), ("raise KeyboardInterrupt", -signal.SIGINT)):
            done = subprocess.run([sys.executable, "-c", UNCLOSED + way, path], env=environment, capture_output=True, text=True, timeout=SECONDS)
            self.assertEqual((done.returncode, done.stderr.splitlines()[-1:]), (status, [ALONE]), way)


if __name__ == "__main__":
    unittest.main()

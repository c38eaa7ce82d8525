"""Where a service is: HOST:PORT, and unix:PATH for a socket file; and where `Service` starts one."""
from __future__ import annotations

import contextlib
import pathlib
import socket
import stat
import sys
import tempfile
import threading
import unittest
import unittest.mock
from typing import Any, Callable, Iterator

sys.path.insert(0, str(pathlib.Path(__file__).resolve().parents[1]))
from bpfagent import Agent, Service
from bpfagent.commands import service_of
from bpfagent.debug.engine import Impossible
from bpfagent.debug.session import attached
from bpfagent.procedure import reached
from bpfagent.shared import SharedAgent
from bpfagent.ship import Unshippable, connected
from support import PROGRAM, folder_of

SECONDS = 60.0


def answers_one(listener: socket.socket) -> None:
    """Answers the first line of one client."""
    client, _ = listener.accept()
    with client, client.makefile("rwb", 0) as stream:
        stream.write(b"bytes 2a\n" if stream.readline() == b"get 1 0 1\n" else b"bad\n")


@contextlib.contextmanager
def answering(family: socket.AddressFamily, address: Any) -> Iterator[socket.socket]:
    """A listener there, which answers one client."""
    with socket.socket(family) as listener:
        listener.bind(address)
        listener.listen()
        thread = threading.Thread(target=answers_one, args=(listener,))
        thread.start()
        yield listener
        thread.join(SECONDS)


class TestPlaces(unittest.TestCase):
    """Each kind of place, and what is no place."""

    def setUp(self) -> None:
        self.folder = folder_of(self, "/tmp")
        self.path = self.folder / "agent.sock"

    def test_reached(self) -> None:
        """A client speaks to a socket file as to a port."""
        clients: list[Callable[[str, float], Agent]] = [Agent.reach, SharedAgent.reach, reached, lambda place, _: connected(place)]
        for client in clients:
            with answering(socket.AF_UNIX, str(self.path)), client(f"unix:{self.path}", SECONDS) as agent:
                self.assertEqual(agent.tell("get 1 0 1"), "bytes 2a")
            self.path.unlink()
            with answering(socket.AF_INET, ("127.0.0.1", 0)) as listener:
                place = service_of(f":{listener.getsockname()[1]}")
                self.assertEqual(place, f"127.0.0.1:{listener.getsockname()[1]}")
                with client(place, SECONDS) as agent:
                    self.assertEqual(agent.tell("get 1 0 1"), "bytes 2a")

    def test_nobody(self) -> None:
        """No file, a file that is no socket, one at which nobody listens, and a path that is too long."""
        place = f"unix:{self.path}"
        with self.assertRaises(FileNotFoundError):
            Agent.reach(place, SECONDS)
        with self.assertRaisesRegex(Unshippable, f"^the service at {place} can't be reached: No such file or directory$"):
            connected(place)
        with self.assertRaisesRegex(Impossible, f"^no service can be reached at {place}: No such file or directory$"):
            attached(place, [], lambda: None)
        self.path.touch()
        with self.assertRaises(ConnectionRefusedError):
            Agent.reach(place, SECONDS)
        self.path.unlink()
        with socket.socket(socket.AF_UNIX) as listener:
            listener.bind(str(self.path))
        with self.assertRaises(ConnectionRefusedError):
            Agent.reach(place, SECONDS)
        with self.assertRaisesRegex(OSError, "too long"):
            Agent.reach(f"unix:/{'x' * 108}", SECONDS)

    def test_no_place(self) -> None:
        """What is no place is a `ValueError`, and of a command a usage error."""
        for text in ("nowhere", "", ":", ":0", ":65536", "unix:", "unix:a\0b", "a/b:1", "tcp:1:x"):
            with self.assertRaises(ValueError, msg=text):
                Agent.reach(text, SECONDS)
            with self.assertRaises(Exception, msg=text) as raised:
                service_of(text)
            self.assertEqual(type(raised.exception).__name__, "ArgumentTypeError")


@unittest.skipUnless(PROGRAM, "needs BPFAGENT")
class TestService(unittest.TestCase):
    """Where `Service` has its service listen."""

    def setUp(self) -> None:
        self.folder = folder_of(self, "/tmp")
        self.with_folder(self.folder)

    def with_folder(self, folder: pathlib.Path) -> None:
        """Files are made there that need no name."""
        patched = unittest.mock.patch("tempfile.tempdir", str(folder))
        patched.start()
        self.addCleanup(patched.stop)

    def modes(self) -> list[int]:
        """The modes of the private folders."""
        return [stat.S_IMODE(found.stat().st_mode) for found in self.folder.iterdir()]

    def served(self, service: Service) -> str:
        """Has a client of a service, and gives the service's place."""
        with service:
            self.assertEqual((service.setup.make(8), service.place), (1, ""))
            place = service.listen()
            self.assertEqual(place, service.place)
            with service.connect(SECONDS) as agent:
                self.assertEqual(agent.get(1, 0, 8), bytes(8))
        return place

    def test_private(self) -> None:
        """At a socket in a folder of this user, which goes with the service, however it ends."""
        service = Service(PROGRAM, "--connections", "2", timeout=SECONDS)
        self.assertEqual(self.modes(), [0o700])
        place = self.served(service)
        self.assertRegex(place, f"^unix:{self.folder}/bpfagent-[^/]+/agent.sock$")
        self.assertEqual((service.port, self.modes()), (0, []))
        service = Service(PROGRAM, timeout=SECONDS)
        service.listen()
        service.kill()
        self.assertEqual(self.modes(), [], "after a service that was killed")
        with self.assertRaises(OSError):
            Service("/nowhere/bpfagent")
        self.assertEqual(self.modes(), [], "after a program that isn't there")

    def test_long_folder(self) -> None:
        """The path is short, however long that of other files is."""
        deep = self.folder / ("x" * 90)
        deep.mkdir()
        self.with_folder(deep)
        self.assertRegex(self.served(Service(PROGRAM, timeout=SECONDS)), "^unix:/tmp/bpfagent-[^/]+/agent.sock$")
        self.assertEqual(list(deep.iterdir()), [])

    def test_asked(self) -> None:
        """At the port or the path that the arguments have, also if its name is a number."""
        service = Service(PROGRAM, "--port=0", timeout=SECONDS)
        place = self.served(service)
        self.assertEqual((place, service.port > 0), (f"127.0.0.1:{service.port}", True))
        for words in (("--unix", str(self.folder / "7070")), (f"--unix={self.folder / 'agent.sock'}",)):
            place = self.served(Service(PROGRAM, *words, timeout=SECONDS))
            self.assertEqual(place, f"unix:{words[-1].partition('=')[2] or words[-1]}")
        self.assertEqual(self.modes(), [])


if __name__ == "__main__":
    unittest.main()

"""The client of a far store: its command as the pages show it, its methods, and what it takes from a store that lies."""
from __future__ import annotations

import hashlib
import os
import re
import socket
import subprocess
import sys
import unittest
from typing import Sequence

import stand_in
from bpfagent import Broken
from bpfagent.far import DONE, HEAD, LIMIT, REFUSED_ID, Store
from support import PROGRAM, ROOT, SECONDS, kept

from lib.programs import Server


def frame(kind: int, number: int, payload: bytes = b"", length: int | None = None) -> bytes:
    return HEAD.pack(kind, number, len(payload) if length is None else length) + payload


def called(words: Sequence[str]) -> tuple[int, str, str]:
    """The client's command: its status, and what it writes."""
    environment = {**os.environ, "PYTHONPATH": str(ROOT / "python")}
    done = subprocess.run([sys.executable, "-m", "bpfagent.far", *words], capture_output=True, text=True, timeout=SECONDS, env=environment)
    return done.returncode, done.stdout, done.stderr


def line_of(number: int, text: str) -> str:
    """What the command says of a text that it put."""
    return f"{number} {len(text.encode())} {hashlib.sha256(text.encode()).hexdigest()}\n"


def lied_to(answer: bytes) -> object:
    """What the client takes a get of `abc` for that has this answer."""

    def lie(stream: socket.socket) -> None:
        stream.recv(HEAD.size + 3)
        stream.sendall(frame(DONE, 1) + answer)

    with stand_in.answering(lie) as port, Store(port, timeout=SECONDS) as store:
        number, digest = kept(store, b"abc")
        try:
            return store.get(number, digest)
        except (Broken, ConnectionResetError):
            return Broken


@unittest.skipUnless(PROGRAM, "needs BPFAGENT")
class FarTest(unittest.TestCase):
    def test_command(self) -> None:
        """It puts texts; without a port, or with a text that can't be put, it says how it is used."""
        with Server(PROGRAM) as server:
            texts = ["hello", "é" * 1000]
            self.assertEqual(called([str(server.port), *texts]), (0, "".join(map(line_of, (1, 2), texts)), ""))
            wrong: list[list[str]] = [[], ["x"], [str(server.port), ""], [str(server.port), "a", "z" * (LIMIT + 1)]]
            for words in wrong:
                status, output, errors = called(words)
                self.assertEqual((status, output, errors[:7]), (2, "", "usage: "), words)
            self.assertEqual(server.end(), (0, b"", b""))

    def test_pages(self) -> None:
        """docs/FAR-MEMORY.md and examples/README.md start server and client so, here on a free port."""
        for page in ("docs/FAR-MEMORY.md", "examples/README.md"):
            text = (ROOT / page).read_text()
            self.assertIn("bpfagent store --port 7070", text, page)
            asked = re.search(r"`python3 -m bpfagent\.far 7070 (\w+)`", text)
            assert asked, page
            with Server(PROGRAM, "--port", "0") as server:
                self.assertEqual(called([str(server.port), asked[1]]), (0, line_of(1, asked[1]), ""), page)
                self.assertEqual(server.end(), (0, b"", b""), page)

    def test_methods(self) -> None:
        with Server(PROGRAM) as server:
            assert server.port
            with Store(server.port, timeout=SECONDS) as store:
                number, digest = kept(store, b"abc")
                self.assertEqual((store.get(number, digest), store.get(number, bytes(32)), store.get(7, digest)), (b"abc", None, None))
                store.forget(number)
                self.assertIsNone(store.get(number, digest))
                for wrong in (b"", bytes(LIMIT + 1)):
                    with self.assertRaises(ValueError):
                        store.put(wrong)
                self.assertEqual(kept(store, bytes(LIMIT))[0], 2, "no id was used up")
            with self.assertRaises(Broken):
                store.get(number, digest)
            self.assertEqual(server.end(), (0, b"", b""))

    def test_lies(self) -> None:
        """Wrong bytes and refusals are no parcel; an answer that breaks the protocol ends the stream."""
        for answer, taken in (
            (frame(DONE, 1, b"abc"), b"abc"), (frame(DONE, 1, b"abd"), None), (frame(REFUSED_ID, 1), None), (frame(DONE, 2, b"abc"), Broken),
            (frame(3, 1), Broken), (frame(DONE, 1, length=LIMIT + 1), Broken), (frame(DONE, 1, b"abc")[:-1], Broken), (frame(DONE, 1)[:5], Broken),
        ):
            self.assertEqual(lied_to(answer), taken, answer)

    def test_faults(self) -> None:
        """After a wrong answer, and after none in time, nothing more is asked, though an answer would come."""

        def late(stream: socket.socket) -> None:
            stream.recv(HEAD.size + 1)
            stream.sendall(frame(DONE, 7) + frame(DONE, 2))
            stream.recv(HEAD.size + 1)

        with stand_in.answering(late) as port, Store(port, timeout=SECONDS) as store:
            for _ in range(2):
                with self.assertRaises(Broken):
                    store.put(b"a")
        with stand_in.answering(lambda stream: stream.recv(100) and stream.recv(100)) as port, Store(port, timeout=0.1) as store:
            for error in (OSError, Broken):
                with self.assertRaises(error):
                    store.put(b"a")


if __name__ == "__main__":
    unittest.main()

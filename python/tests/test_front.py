"""`bpfagent-front` over a real agent.

Many clients in turn and at once, clients that vanish, never read, or send garbage, tokens and certificates, an agent that is killed or used
up, the end under load, and objects that are saved and restored. With a program that has run-time checks, as that of `make try`, there are fewer
clients and bytes.
"""
from __future__ import annotations

import asyncio
import contextlib
import hashlib
import hmac
import json
import os
import random
import shutil
import signal
import socket
import ssl
import subprocess
import sys
import tempfile
import threading
import time
import unittest
import unittest.mock
import urllib.error
from pathlib import Path
from typing import ClassVar, Iterator

from bpfagent.front.clients import Client
from bpfagent.front.kept import Kept, objects_of, written_by
from bpfagent.front.numbers import Numbers
from bpfagent.front.saving import Damaged, restored, save
from bpfagent.shared import SharedAgent
from bpfagent.streams import AUTHORITY, CERTIFICATE, KEY
from fronts import FRONT, IS_SLOW, LOOPS, Front, line_of, lines_of, probing, reply_of, within
from support import PROGRAM, SECONDS

from lib.programs import Server, processor_time

# Clients in turn, at once, and those that vanish; objects that are saved, and those of 64 KiB that are moved.
IN_TURN, AT_ONCE, VANISHING, OBJECTS, LONG_OBJECTS = (20, 12, 6, 20, 1) if IS_SLOW else (1000, 200, 100, 1024, 1024)
# `exit`, as one slot; and r0 += 1, back to it.
EXIT = "9500000000000000"
ENDLESS = "0700000001000000" "0500feff00000000"


@unittest.skipUnless(PROGRAM, "needs BPFAGENT")
class Clients(unittest.TestCase):
    front: ClassVar[Front]

    @classmethod
    def setUpClass(cls) -> None:
        # A client that reads may be away for so long, on a busy machine.
        cls.front = Front("make 8\nmake 4096\n", "--client-timeout", "10", "--grace", "20")

    @classmethod
    def tearDownClass(cls) -> None:
        with cls.front as front:
            status, told = front.end()
        if (status, told.split("\n")[0]) != (0, "closed") or any("Traceback" in line or "something failed" in line for line in front.errors):
            raise AssertionError(f"the front ended with {status}: {told}, {front.errors[-5:]}")

    def gone(self) -> None:
        """Waits until all clients have gone."""
        self.assertTrue(within(SECONDS, lambda: self.front.number("clients") == 0))

    def test_replies(self) -> None:
        """Each line has its reply, an unfinished one `cut`, one that is too long `bad`."""
        front = self.front
        self.assertEqual(front.tell(b"put 1 0 0a\nget 1 0 2\nfoo\nmake 1"), b"ok\nbytes 0a00\nbad\ncut\n")
        self.assertEqual(front.tell(b""), b"")
        self.assertEqual(front.tell(b"a" * 70_001 + b"\nget 1 0 1\n" + b"b" * 200_000 + b"\nget 1 0 1\n"), b"bad\nbytes 0a\nbad\nbytes 0a\n")
        self.assertEqual(front.tell(b"a" * 100_000, is_tcp=True), b"bad\ncut\n")
        self.assertEqual(front.tell(b"get 1 0 1\n" * 200), b"bytes 0a\n" * 200)
        with front.connect() as stream:
            for piece in (b"get", b" 1 0", b" 1\nget 1 ", b"0 1\n"):
                stream.sendall(piece)
                time.sleep(0.02)
            self.assertEqual(reply_of(stream, 2), b"bytes 0a\n" * 2)

    def test_garbage(self) -> None:
        """Bytes that are no ASCII and lines that are no command have one `bad` each, and disturb nobody."""
        front, given = self.front, random.Random(1)
        self.assertEqual(front.tell(b"\xff\0\r\n\n\xc3\xa4 1\nget 1 0 1\r\n"), b"bad\n" * 4)
        with front.connect() as other:
            for size in (10, 1000, 3000):
                garbage = bytes(given.choices(range(11, 256), k=size)).replace(b"\n", b"?")
                garbage = b"".join(garbage[at : at + 50] + b"\n" for at in range(0, size, 50))
                self.assertEqual(front.tell(garbage), b"bad\n" * garbage.count(b"\n"))
                self.assertEqual(line_of(other, b"get 2 0 1\n"), b"bytes 00\n")

    def test_in_turn_and_at_once(self) -> None:
        """Clients one after the other and at the same time, while others only connect."""
        front, before = self.front, self.front.number("seconds_count")
        with probing(front):
            for number in range(IN_TURN):
                with front.connect(is_tcp=number % 2 == 0) as stream:
                    self.assertEqual(line_of(stream, b"put 1 7 %02x\n" % (number % 256)), b"ok\n")
            clients = [front.connect(is_tcp=index % 2 == 0) for index in range(AT_ONCE)]
            for index, stream in enumerate(clients):
                stream.sendall(b"line 48 0\nget 1 6 1\nget 1 %d 1\n" % (8 if index % 2 else 6))
            for index, stream in enumerate(clients):
                self.assertEqual(reply_of(stream, 3), b"none\nbytes 00\n" + (b"outside\n" if index % 2 else b"bytes 00\n"))
            self.assertGreaterEqual(front.number("clients"), AT_ONCE)
            for stream in clients:
                stream.close()
        self.gone()
        self.assertEqual(front.number("seconds_count"), before + IN_TURN + 3 * AT_ONCE)
        self.assertEqual(front.number('refusals_total{reply="none"}'), AT_ONCE)
        self.assertEqual(front.metrics("health"), "ok\n")

    def test_vanish(self) -> None:
        """Clients that go within a line, or before or within their replies, disturb nobody."""
        with self.front.connect() as other:
            for number in range(VANISHING):
                with self.front.connect(is_tcp=number % 2 == 0) as stream:
                    stream.sendall(b"get 2 0 4096\n" * 3 + b"put 1 0 ff")
                    stream.setsockopt(socket.SOL_SOCKET, socket.SO_LINGER, b"\1\0\0\0\0\0\0\0")
                    if number % 3 == 0:
                        self.assertTrue(stream.recv(10))
            self.assertEqual(line_of(other, b"get 2 0 1\n"), b"bytes 00\n")
        self.gone()

    def test_faults(self) -> None:
        """What goes wrong at the far store, and what of it is counted."""
        with Server(PROGRAM) as far, Front("make 8\nmake 8\n", agent=["--far", f"127.0.0.1:{far.port}", "--workers", "0"]) as front:
            with front.connect() as stream:
                self.assertEqual(line_of(stream, b"leave 1\n"), b"asked 1\n")
                self.assertTrue(within(SECONDS, lambda: front.number('moves_total{move="left"}') == 1))
                self.assertEqual(front.number('faults_total{fault="device"}'), 0)
                far.process.kill()
                far.process.wait(SECONDS)
                self.assertEqual(lines_of(stream, b"return 1\nleave 2\n"), b"asked 1\nasked 2\n")
                for name in ('faults_total{fault="far_stream"}', 'moves_total{move="return_failed"}', 'moves_total{move="leave_failed"}'):
                    self.assertTrue(within(SECONDS, lambda: front.number(name) >= 1), name)
                failed = front.number('moves_total{move="return_failed"}') + front.number('moves_total{move="leave_failed"}')
                self.assertGreaterEqual(front.number('faults_total{fault="device"}'), failed)
            front.end()

    def test_unread(self) -> None:
        """A client that never reads is held back and then dropped, and holds nobody up. One that reads slowly stays."""
        with Front("make 8\nmake 4096\n", "--client-timeout", "8") as front, front.connect() as silent, front.connect() as slow, front.connect() as other:
            silent.settimeout(1.0)
            sent = 0
            with contextlib.suppress(socket.timeout):
                while sent < 10_000_000:
                    sent += silent.send(b"get 2 0 4096\n" * 1000)
            self.assertLess(sent, 10_000_000)
            slow.sendall(b"get 2 0 4096\n" * 128)
            expected, read, begun = (b"bytes " + b"00" * 4096 + b"\n") * 128, b"", time.monotonic()

            def reads(most: int) -> None:
                nonlocal read
                while len(read) < min(most, len(expected)):
                    piece = slow.recv(1 << 13)
                    self.assertTrue(piece, "a client that reads slowly was dropped")
                    read += piece

            def is_dropped() -> bool:
                # At this rate the front has something for it all the time, and sees that it reads.
                reads(int(28_000 * (time.monotonic() - begun)))
                self.assertEqual(line_of(other, b"get 2 0 1\n"), b"bytes 00\n")
                return front.number('clients_went_total{why="unread"}') > 0 and time.monotonic() > begun + 10

            self.assertTrue(within(SECONDS, is_dropped))
            reads(len(expected))
            self.assertEqual(read, expected)
            self.assertEqual(front.number('clients_went_total{why="unread"}'), 1)
            self.assertEqual(front.end()[0], 0)

    def test_health(self) -> None:
        """Health and numbers are told, and nothing else."""
        front = self.front
        for path in ("other", ""):
            with self.assertRaises(urllib.error.HTTPError):
                front.metrics(path)
        left = front.number("machines_left")
        self.assertEqual((front.number("objects"), front.number("objects_left")), (2, 1022))
        self.assertRegex(front.tell(f"ship 10 0 0 0 0 0 {EXIT}\n".encode()), rb"shipped \d+\n")
        self.assertEqual(front.number("machines_left"), left - 1)
        for request, status in ((b"HEAD /health HTTP/1.0\r\n\r\n", b"200"), (b"POST /health HTTP/1.1\r\n\r\n", b"405"), (b"\r\n\r\n", b"405")):
            with socket.create_connection(("127.0.0.1", front.port)) as stream, stream.makefile("rb") as answer:
                stream.sendall(request)
                self.assertEqual(answer.readline().split()[1], status)

    def test_counts(self) -> None:
        """Bytes, lines and refusals are counted, by their kind."""
        front, names = self.front, ["received_bytes_total", "sent_bytes_total", "seconds_count"]
        names += ['requests_total{command="get"}', 'requests_total{command="put"}', 'requests_total{command="other"}', 'clients_came_total{door="tcp"}']
        names += ['refusals_total{reply="outside"}', 'refusals_total{reply="bad"}', 'refusals_total{reply="unserved"}']
        before, sent = [front.number(name) for name in names], b"get 1 0 1\nget 1 8 1\nput 1 9 00\nfoo 1\nmake 8\n"
        replies = front.tell(sent, is_tcp=True)
        self.assertRegex(replies, rb"^bytes [0-9a-f]{2}\noutside\noutside\nbad\nunserved\n$")
        counted = [front.number(name) - number for name, number in zip(names, before)]
        self.assertEqual(counted, [len(sent), len(replies), 5, 2, 1, 1, 1, 2, 1, 1])

    def test_json(self) -> None:
        """With --log json each line on standard error is an object with the time and what has happened."""
        with Front("make 8\n", "--log", "json", "-v") as front:
            front.tell(b"get 1 0 1\n")
            front.kill_agent()
            self.assertEqual(front.end()[0], 0)
        told = [json.loads(line) for line in front.errors]
        for line in told:
            self.assertRegex(line["time"], r"^\d{4}-\d\d-\d\dT\d\d:\d\d:\d\dZ$")
        self.assertLessEqual({"numbers are told", "an agent serves", "the agent ended", "agent"}, {line["what"] for line in told})

    def test_descriptors(self) -> None:
        """When no descriptor is left, clients wait to be accepted, and are served when others go."""
        with Front("make 8\n", most=48) as front:
            clients = [front.connect() for _ in range(48)]
            for stream in clients:
                stream.sendall(b"get 1 0 1\n")
            self.assertTrue(within(SECONDS, lambda: any("no client can be accepted now" in line for line in front.errors)))
            for stream in clients:
                self.assertEqual(reply_of(stream), b"bytes 00\n")
                stream.close()
            self.assertEqual(front.end()[0], 0)


@unittest.skipUnless(PROGRAM, "needs BPFAGENT")
class Access(unittest.TestCase):
    def test_token(self) -> None:
        with tempfile.TemporaryDirectory() as folder:
            file = Path(folder) / "token"
            file.write_text("open sesame\n")
            # It is short for a client that says nothing. Whoever has a token gives it at once, also on a busy machine.
            with Front("make 8\n", "--token-file", str(file), "--client-timeout", "4") as front:
                self.assertEqual(front.tell(b"token open sesame\nget 1 0 1\n"), b"ok\nbytes 00\n")
                ended = (b"token open sesame", b"")
                for wrong in (b"token open sesam\nget 1 0 1\n", b"get 1 0 1\n", b"token open sesame \nget 1 0 1\n", b"\xff\n", b"x" * 80_000, *ended):
                    self.assertEqual(front.tell(wrong, is_tcp=len(wrong) % 2 == 0), b"denied\n")
                with front.connect() as silent:
                    self.assertEqual(silent.recv(1), b"")
                self.assertEqual(front.number('requests_total{command="get"}'), 1)
                self.assertTrue(within(SECONDS, lambda: front.number('clients_went_total{why="denied"}') >= 6))

    def test_compared(self) -> None:
        """How long it takes to compare a first line with the token tells nothing of the token."""

        async def came(line: bytes) -> list[unittest.mock._Call]:
            host = unittest.mock.Mock(token=b"secret", client_seconds=SECONDS, numbers=Numbers())
            with unittest.mock.patch("bpfagent.front.clients.hmac.compare_digest", wraps=hmac.compare_digest) as compared:
                client, transport = Client(host, "unix"), unittest.mock.Mock()
                client.begin(transport)
                client.data_received(line)
                compared.assert_called_once_with(line[:-1], b"token secret")
                client.connection_lost(None)
            return list(transport.write.mock_calls)

        for line, answer in ((b"token secret\n", b"ok\n"), (b"token secreT\n", b"denied\n"), (b"token\n", b"denied\n")):
            self.assertEqual(asyncio.run(came(line)), [unittest.mock.call(answer)])

    def test_private(self) -> None:
        """The agent listens at a socket file in a private folder, which goes with it, however it ends."""
        with tempfile.TemporaryDirectory(dir="/tmp") as name, unittest.mock.patch.dict(os.environ, {"TMPDIR": name}):

            def folders() -> list[Path]:
                return list(Path(name).iterdir())

            with Front("make 8\n") as front:
                [agent], [folder] = front.agents(), folders()
                words = Path(f"/proc/{agent}/cmdline").read_bytes().split(b"\0")
                self.assertEqual(words[words.index(b"--unix") + 1], os.fsencode(folder / "agent.sock"))
                self.assertEqual(folder.stat().st_mode & 0o777, 0o700)
                front.kill_agent()
                self.assertTrue(within(SECONDS, lambda: folder not in folders() and len(folders()) == 1))
                self.assertEqual(front.end()[0], 0)
            self.assertEqual(folders(), [])
            for setup, program in (("make 0\n", PROGRAM), ("make 8\n", "/nowhere/bpfagent")):
                file = front.folder.with_suffix(".setup")
                file.write_text(setup)
                words_given = [*FRONT, str(file), "--program", program]
                done = subprocess.run(words_given, stdin=subprocess.DEVNULL, capture_output=True, text=True, timeout=SECONDS, check=False)
                file.unlink()
                self.assertEqual((done.returncode, done.stdout, done.stderr.count("\n")), (1, "", 1))
                self.assertEqual(folders(), [])

    def test_refused(self) -> None:
        """Options, sockets and setups that can't be had are a line and a status, and leave nothing behind."""
        with tempfile.TemporaryDirectory() as name, socket.create_server(("127.0.0.1", 0)) as busy:
            folder = Path(name)
            setup, plain, bad = folder / "setup", folder / "plain", folder / "bad"
            setup.write_text("make 8\n")
            bad.write_text("make 8\nmake 0\n")
            plain.write_text("")
            cases: list[tuple[list[object], str]] = [
                ([setup, "--listen", "0.0.0.0:0"], "anybody could command the agent"),
                ([setup, "--certificate", plain], "--certificate and --key are given together"),
                ([setup, "--certificate", plain, "--key", plain, "--unix", folder / "s"], "the certificates can't be read"),
                ([setup, "--listen", f"127.0.0.1:{busy.getsockname()[1]}"], f"127.0.0.1:{busy.getsockname()[1]}: Address already in use"),
                ([setup, "--metrics", str(busy.getsockname()[1])], f"127.0.0.1:{busy.getsockname()[1]}: Address already in use"),
                ([setup, "--unix", plain], "is no socket"),
                ([setup, "--unix", folder / ("s" * 120)], "path too long"),
                ([setup, "--token-file", plain], "the token is empty"),
                ([folder / "missing"], "No such file"),
                ([bad], "line 2 of the setup was answered 'bad': make LENGTH: LENGTH is `0`, and has to be from 1 to 65536"),
                ([setup, "--restore", plain], "it doesn't begin with"),
                ([setup, "--", "--port", "1"], "are the front's"),
                ([setup, "--", "--workers", "99"], "ended with status 2 before it listened: error: "),
                ([setup, "--", "--far", "127.0.0.1:1"], "before it listened: the far server 127.0.0.1:1 can't be reached"),
            ]
            started = [
                subprocess.Popen(
                    [*FRONT, "--program", PROGRAM, *map(str, words)], stdin=subprocess.DEVNULL, stdout=subprocess.PIPE, stderr=subprocess.PIPE, text=True
                )
                for words, _ in cases
            ]
            for (words, said), process in zip(cases, started):
                output, errors = process.communicate(timeout=SECONDS)
                with self.subTest(words=words):
                    self.assertEqual((process.returncode, output), (1, ""))
                    self.assertIn(said, errors.splitlines()[-1])
                    self.assertNotIn("Traceback", errors)
                    self.assertNotIn("while attempting", errors)
            self.assertEqual(sorted(path.name for path in folder.iterdir()), ["bad", "plain", "setup"])

    def test_unix(self) -> None:
        """The socket's mode is the one given; a socket that was left is replaced, one that answers isn't."""
        # Only root may give a file to a group to which it doesn't belong.
        group = os.getgid() if os.getuid() else os.getgid() + 1
        with Front("make 8\n", "--mode", "0620", "--group", str(group)) as front:
            path = Path(front.path)
            self.assertEqual((path.stat().st_mode & 0o777, path.stat().st_gid), (0o620, group))
            words = [*FRONT, str(front.folder / "setup"), "--program", PROGRAM, "--unix", str(path)]
            done = subprocess.run(words, stdin=subprocess.DEVNULL, capture_output=True, text=True, timeout=SECONDS, check=False)
            self.assertEqual((done.returncode, done.stdout), (1, ""))
            self.assertIn("somebody listens there", done.stderr)
            self.assertEqual(front.tell(b"get 1 0 1\n"), b"bytes 00\n")
            front.process.kill()
            front.process.wait()
            self.assertTrue(path.exists())
            with subprocess.Popen(words, stdin=subprocess.DEVNULL, stdout=subprocess.PIPE, stderr=subprocess.DEVNULL, text=True) as next_one:
                assert next_one.stdout
                self.assertEqual(next_one.stdout.readline(), f"listening {path}\n")
                self.assertEqual(front.tell(b"get 1 0 1\n"), b"bytes 00\n")
                next_one.send_signal(signal.SIGINT)
                self.assertEqual(next_one.wait(SECONDS), 0)
            self.assertFalse(path.exists())

    @unittest.skipUnless(shutil.which("openssl"), "needs openssl")
    def test_certificates(self) -> None:
        """Only a client whose certificate the authority signed is served. With each loop that there is."""
        with tempfile.TemporaryDirectory() as name:
            folder = Path(name)
            for who in ("server", "client", "stranger"):
                subprocess.run(
                    ["openssl", "req", "-x509", "-newkey", "ec", "-pkeyopt", "ec_paramgen_curve:prime256v1", "-nodes", "-days", "2", "-subj", f"/CN={who}",
                     "-addext", "subjectAltName=IP:127.0.0.1", "-keyout", folder / f"{who}.key", "-out", folder / f"{who}.pem"],
                    check=True, stdout=subprocess.DEVNULL, stderr=subprocess.DEVNULL,
                )
            options = ["--certificate", f"{folder}/server.pem", "--key", f"{folder}/server.key", "--client-authority", f"{folder}/client.pem"]
            for command in LOOPS:
                with self.subTest(command=command), Front("make 4096\n", *options, command=command) as front:
                    self._served(front, folder)
                    self.assertEqual(front.end()[0], 0)
                    self.assertFalse([line for line in front.errors if "Traceback" in line or "something failed" in line])

    def _served(self, front: Front, folder: Path) -> None:
        def served(who: str) -> bytes:
            context = ssl.create_default_context(cafile=str(folder / "server.pem"))
            if who:
                context.load_cert_chain(folder / f"{who}.pem", folder / f"{who}.key")
            with front.connect(is_tcp=True) as plain, context.wrap_socket(plain, server_hostname="127.0.0.1") as stream:
                return line_of(stream, b"get 1 0 1\n") + line_of(stream, b"get 1 0 4096\n" * 20)[:9] + reply_of(stream, 19)[:0]

        self.assertEqual(served("client"), b"bytes 00\nbytes 000")
        for who in ("", "stranger"):
            with self.assertRaises((OSError, ConnectionError)):
                served(who)
        with front.connect(is_tcp=True) as plain:
            plain.sendall(b"get 1 0 1\n")
            with contextlib.suppress(ConnectionError):
                self.assertNotIn(b"bytes", plain.recv(99))
        self.assertTrue(within(SECONDS, lambda: front.number('clients_went_total{why="denied"}') == 3))
        self.assertEqual(front.number('requests_total{command="get"}'), 21)
        self._reached(f"tls:127.0.0.1:{front.tcp[1]}", folder)

    def _reached(self, place: str, folder: Path) -> None:
        """The package's client reaches the front with the certificate that the environment names, from two threads at once."""
        named = {AUTHORITY: str(folder / "server.pem"), CERTIFICATE: str(folder / "client.pem"), KEY: str(folder / "client.key")}
        with unittest.mock.patch.dict(os.environ, named), SharedAgent.reach(place, SECONDS) as agent:
            agent.write(1, bytes(range(256)) * 16)
            wrong: list[bytes] = []

            def ask(length: int) -> None:
                for _ in range(5 if IS_SLOW else 200):
                    if (read := agent.read(1, length)) != (bytes(range(256)) * 16)[:length]:
                        wrong.append(read)

            threads = [threading.Thread(target=ask, args=(length,)) for length in (1, 4096)]
            for thread in threads:
                thread.start()
            for thread in threads:
                thread.join(SECONDS)
            self.assertEqual(wrong, [])
        with unittest.mock.patch.dict(os.environ, {AUTHORITY: str(folder / "client.pem")}), self.assertRaises(OSError):
            SharedAgent.reach(place, SECONDS)
        with self.assertRaises(ValueError):
            SharedAgent.reach("tls:nowhere", SECONDS)

    def test_handed(self) -> None:
        """A socket that systemd hands over is served, and systemd is told when. One that everybody reaches is refused."""
        with tempfile.TemporaryDirectory() as name:
            setup = Path(name) / "setup"
            setup.write_text("make 8\n")
            starting = "import os, sys; os.dup2(int(sys.argv[1]), 3); os.environ['LISTEN_PID'] = str(os.getpid()); os.execv(sys.argv[2], sys.argv[2:])"
            environment = {**os.environ, "LISTEN_FDS": "1", "NOTIFY_SOCKET": f"{name}/n"}

            @contextlib.contextmanager
            def start(listens: socket.socket) -> Iterator[subprocess.Popen[bytes]]:
                words = [sys.executable, "-c", starting, str(listens.fileno()), *FRONT, str(setup), "--program", PROGRAM]
                with subprocess.Popen(
                    words, stdin=subprocess.DEVNULL, stdout=subprocess.PIPE, stderr=subprocess.PIPE, env=environment, pass_fds=[listens.fileno(), 3]
                ) as process:
                    try:
                        yield process
                    finally:
                        process.kill()

            with socket.socket(socket.AF_UNIX, socket.SOCK_DGRAM) as notes:
                notes.bind(f"{name}/n")
                notes.settimeout(SECONDS)
                with socket.create_server(("127.0.0.1", 0)) as listens, start(listens) as process:
                    self.assertEqual(notes.recv(99), b"READY=1")
                    with socket.create_connection(listens.getsockname(), SECONDS) as stream:
                        self.assertEqual(line_of(stream, b"get 1 0 1\n"), b"bytes 00\n")
                    process.terminate()
                    self.assertEqual(notes.recv(99), b"STOPPING=1")
                    self.assertEqual(process.communicate(timeout=SECONDS)[0].split(b"\n")[1], b"closed")
                    self.assertEqual(process.returncode, 0)
                with socket.create_server(("0.0.0.0", 0)) as listens, start(listens) as process:
                    output, errors = process.communicate(timeout=SECONDS)
                    self.assertEqual((process.returncode, output), (1, b""))
                    self.assertIn(b"anybody could command the agent", errors)


@unittest.skipUnless(PROGRAM, "needs BPFAGENT")
class Agents(unittest.TestCase):
    def test_killed(self) -> None:
        """An agent that is killed is replaced, by one with all bytes that clients wrote. Who knows more than those is cut off."""
        with Front("make 8\nmake 8\nput 1 4 07\n") as front, front.connect() as plain, front.connect() as ships, front.connect() as sees:
            self.assertEqual(line_of(ships, f"ship2 10 0 0 0 0 0 {EXIT} w2\n".encode()), b"shipped 1\n")
            self.assertEqual(line_of(plain, b"put 1 0 09\n"), b"ok\n")
            self.assertEqual(line_of(sees, b"put 2 0 0b\n"), b"ok\n")
            front.kill_agent()
            self.assertEqual(line_of(plain, b"get 1 0 5\n"), b"bytes 0900000007\n")
            self.assertEqual((ships.recv(99), sees.recv(99)), (b"", b""))
            self.assertEqual(front.tell(b"get 2 0 1\n"), b"bytes 00\n")
            front.said(r"lost_objects=(1) first_lost=\[2\]")
            self.assertEqual(front.end()[0], 0)

    def test_unhealthy(self) -> None:
        """While no agent can be started, health says so. Clients wait, and go on when there is one."""
        with tempfile.TemporaryDirectory() as name:
            program, is_broken = Path(name) / "program", Path(name) / "broken"
            program.write_text(f'#!/bin/sh\n[ -e {is_broken} ] && exit 1\nexec {os.path.abspath(PROGRAM)} "$@"\n')
            program.chmod(0o755)
            with Front("make 8\n", "--program", str(program)) as front, front.connect() as client:
                self.assertEqual(line_of(client, b"put 1 0 2a\n"), b"ok\n")
                self.assertEqual(front.metrics("health"), "ok\n")
                is_broken.touch()
                os.kill(front.agents()[0], signal.SIGKILL)
                front.said(r"(no agent could be started)")
                with self.assertRaises(urllib.error.HTTPError) as raised:
                    front.metrics("health")
                self.assertEqual(raised.exception.code, 503)
                client.sendall(b"get 1 0 1\n")
                is_broken.unlink()
                self.assertEqual(reply_of(client), b"bytes 2a\n")
                self.assertEqual(front.metrics("health"), "ok\n")
                self.assertEqual(front.end()[0], 0)

    def test_grace(self) -> None:
        """At the end replies may take --grace seconds, and no longer. Nobody comes any more."""
        with Front("make 4096\n", "--grace", "5", "--client-timeout", "3600") as front, front.connect() as reads, front.connect() as silent:
            for stream in (reads, silent):
                stream.sendall(b"get 1 0 4096\n" * 64)
            self.assertTrue(within(SECONDS, lambda: front.number('requests_total{command="get"}') == 128))
            begun = time.monotonic()
            front.process.send_signal(signal.SIGTERM)

            def is_closed() -> bool:
                try:
                    front.connect(is_tcp=True).close()
                except ConnectionRefusedError:
                    return True
                return False

            self.assertTrue(within(SECONDS, is_closed))
            self.assertEqual(reply_of(reads, 64), (b"bytes " + b"00" * 4096 + b"\n") * 64)
            self.assertEqual(reads.recv(1), b"")
            self.assertEqual(front.process.wait(SECONDS), 0)
            self.assertGreater(time.monotonic() - begun, 4.5)

    def test_killed_under_load(self) -> None:
        """Whoever writes while agents are killed sees a pause, and each byte as it was acknowledged."""
        with Front("make 64\n") as front:
            done, wrong = threading.Event(), []

            def write(index: int) -> None:
                replies, value = b"", 0
                try:
                    with front.connect(is_tcp=index % 2 == 0) as stream:
                        while not done.is_set() and replies == (b"ok\nbytes %08x\n" % value if value else b""):
                            value += 1
                            replies = line_of(stream, b"put 1 %d %08x\n" % (8 * index, value)) + line_of(stream, b"get 1 %d 4\n" % (8 * index))
                except OSError as why:
                    wrong.append(f"{value}: {why}")
                if replies != b"ok\nbytes %08x\n" % value:
                    wrong.append(f"{value}: {replies!r}")

            writers = [threading.Thread(target=write, args=(index,)) for index in range(8)]
            for writer in writers:
                writer.start()
            try:
                for _ in range(2):
                    time.sleep(0.1)
                    front.kill_agent()
            finally:
                done.set()
                for writer in writers:
                    writer.join(SECONDS)
            self.assertEqual(wrong, [])
            self.assertEqual(front.end()[0], 0)

    def test_renewed(self) -> None:
        """When the numbers of machines are used up another agent comes, with the same bytes. Who knows a machine is cut off."""
        with Front("make 8\nmake 65536\n", "--grace", "1", agent=["--workers", "1"]) as front:
            content = bytes(range(256)) * 16
            self.assertEqual(front.tell(f"put 1 0 0b\nput 2 61440 {content.hex()}\n".encode()), b"ok\nok\n")
            exits = f"ship 10 0 0 0 0 0 {EXIT}\n".encode()
            with front.connect() as plain, front.connect() as ships, front.connect() as waits:
                self.assertEqual(line_of(plain, b"get 1 0 1\n"), b"bytes 0b\n")
                ships.sendall(f"ship {1 << 60} 0 0 0 0 0 {ENDLESS}\n".encode() + exits * 47)
                self.assertEqual(reply_of(ships, 48), b"".join(b"shipped %d\n" % number for number in range(1, 49)))
                looks = b"".join(b"regs %d\n" % number for number in range(2, 49))
                self.assertTrue(within(SECONDS, lambda: lines_of(ships, looks).count(b" exit ") == 47))
                self.assertEqual(line_of(ships, exits), b"full\n")
                self.assertEqual(line_of(waits, exits), b"shipped 1\n")
                self.assertEqual(ships.recv(99), b"")
                self.assertEqual(line_of(plain, b"get 1 0 1\n"), b"bytes 0b\n")
                self.assertEqual(line_of(plain, b"get 2 61440 4096\n"), f"bytes {content.hex()}\n".encode())
                self.assertEqual(line_of(waits, b"step 1\n"), b"stopped 1 exit 0000000000000000\n")
            self.assertEqual(front.number("restarts_total"), 1)
            front.said(r"gone_machines=\['(1):run'\]")
            self.assertEqual(front.number('refusals_total{reply="full"}'), 1)

    def test_not_renewed(self) -> None:
        """With --no-renew, and where the setup uses all numbers, the refusal is told."""
        exits = f"ship 10 0 0 0 0 0 {EXIT}\n"
        for setup, option in [("", "--no-renew"), (exits * 48, "--renew")][IS_SLOW:]:
            with self.subTest(option=option), Front(setup, option, agent=["--workers", "0"]) as front:
                self.assertTrue(front.tell(exits.encode() * (1 if setup else 49)).endswith(b"full\n"))
                self.assertEqual(front.tell(exits.encode()), b"full\n")
                self.assertEqual(front.number("restarts_total"), 0)

    def test_moved(self) -> None:
        """The bytes of long objects come over, and soon."""
        given = random.Random(2)
        objects = {number: given.randbytes(65_536) for number in range(1, LONG_OBJECTS + 1)}
        with Front("make 65536\n" * LONG_OBJECTS, agent=["--workers", "0"]) as front:
            for number, content in objects.items():
                puts = b"".join(b"put %d %d %b\n" % (number, at, content[at : at + 4096].hex().encode()) for at in range(0, 65_536, 4096))
                self.assertEqual(front.tell(puts), b"ok\n" * 16)
            exits = f"ship 10 0 0 0 0 0 {EXIT}\n".encode()
            self.assertEqual(front.tell(exits * 48).count(b"shipped"), 48)
            before = processor_time(front.process.pid)
            self.assertEqual(front.tell(exits), b"shipped 1\n")
            front.said(r"were used up .* seconds=([0-9.]+)")
            spent = processor_time(front.process.pid) - before
            status, told = front.end()
            self.assertEqual(status, 0)
            for number, content in objects.items():
                self.assertIn(f"object {number} 65536 {hashlib.sha256(content).hexdigest()}\n", told)
            # On a quiet machine this takes less than 2 s, as bench/front.py measures it. On a busy one the clock says little of it.
            self.assertLess(spent, 8.0)

    def test_end_under_load(self) -> None:
        """SIGTERM under load: what was acknowledged is in the state that is saved."""
        with tempfile.TemporaryDirectory() as name:
            saved = Path(name) / "saved"
            with Front("make 4096\n", "--save", str(saved)) as front:
                last = [0] * 8

                def write(index: int) -> None:
                    with contextlib.suppress(OSError), front.connect(is_tcp=index % 2 == 0) as stream:
                        for value in range(1, 1_000_000):
                            if line_of(stream, b"put 1 %d %08x\n" % (8 * index, value)) == b"ok\n":
                                last[index] = value

                writers = [threading.Thread(target=write, args=(index,)) for index in range(8)]
                for writer in writers:
                    writer.start()
                self.assertTrue(within(SECONDS, lambda: min(last) > 3))
                begun = time.monotonic()
                status, told = front.end()
                self.assertLess(time.monotonic() - begun, SECONDS / 3)
                for writer in writers:
                    writer.join(SECONDS)
                self.assertEqual(status, 0)
                content = restored(saved, {1: 4096})[1]
                self.assertIn(f"object 1 4096 {hashlib.sha256(content).hexdigest()}", told)
                for index, value in enumerate(last):
                    self.assertIn(int.from_bytes(content[8 * index : 8 * index + 4], "big"), (value, value + 1))

    def test_save_and_restore(self) -> None:
        """All objects that there can be are saved and come back. They are also what an agent gets that takes over."""
        with tempfile.TemporaryDirectory() as name:
            saved, numbers = Path(name) / "saved", range(1, OBJECTS + 1)
            # The bytes of an object that a machine may write aren't kept. The next agent has those of the file.
            setup, words = "make 64\n" * OBJECTS + f"ship2 1 0 0 0 0 0 {EXIT} w1\n", ["--workers", "0"]
            with Front(setup, "--save", str(saved), agent=words) as front:
                puts = b"".join(b"put %d 0 %064x\n" % (number, number * number) for number in numbers)
                self.assertEqual(front.tell(puts), b"ok\n" * OBJECTS)
                self.assertEqual(front.end()[0], 0)
            with Front(setup, "--restore", str(saved), agent=words) as front:
                front.kill_agent()
                gets = b"".join(b"get %d 0 32\n" % number for number in numbers)
                self.assertEqual(front.tell(gets), b"".join(b"bytes %064x\n" % (number * number) for number in numbers))


class Counting(unittest.TestCase):
    def test_told(self) -> None:
        """What the agent tells, and under which names it is counted."""
        numbers = Numbers()
        for line in (
            "object 7 left", "object 7 couldn't leave: it is in use", "object 7 couldn't leave: the store's device failed",
            "object 7 couldn't return: the store gave damaged bytes", "object 7 couldn't return: the store gave no proper answer",
            "object 7 couldn't leave: no memory", "object 7 couldn't leave: the store refused", "the stream of the far server broke: broken pipe",
            "client 3 is given up: read fault", "client 3 came", "object 7 returned",
        ):
            numbers.heard(f"2026-01-02T03:04:05.678Z {line}")
        self.assertEqual(numbers.moves, {"left": 1, "returned": 1, "leave_failed": 4, "return_failed": 2})
        names = ("device", "damaged", "protocol", "memory", "refused", "far_stream", "connection")
        self.assertEqual(numbers.faults, {name: 1 for name in names})
        for name in names:
            self.assertIn(f'bpfagent_front_faults_total{{fault="{name}"}} 1\n', numbers.text())


    def test_histogram(self) -> None:
        """A line counts in each bucket whose end it doesn't pass."""
        numbers = Numbers()
        numbers.timed(0.0002, 3)
        numbers.timed(9.0, 1)
        said = numbers.text()
        for end, count in (("0.0001", 0), ("0.00025", 3), ("2.5", 3), ("+Inf", 4)):
            self.assertIn(f'bpfagent_front_seconds_bucket{{le="{end}"}} {count}\n', said)
        self.assertIn("bpfagent_front_seconds_sum 9.000600\nbpfagent_front_seconds_count 4\n", said)


class Keeping(unittest.TestCase):
    def test_kept(self) -> None:
        """Bytes that were acknowledged are kept, unless a machine may write them."""
        kept = Kept({1: 4, 2: 4, 3: 4})
        kept.wrote(b"put 1 0 0102\nput 0x2 0x2 ff\nput 2 4 00\nget 1 0 1\n", b"ok\nok\noutside\nbytes 01\n")
        self.assertEqual(kept.objects(), {1: b"\1\2\0\0", 2: b"\0\0\xff\0"})
        kept.lose({2, 3})
        kept.wrote(b"put 2 0 01\nput 1 3 05\n", b"ok\nok\n")
        kept.base({1: b"abcd", 2: b"efgh"})
        self.assertEqual((kept.objects(), kept.unkept), ({1: b"abcd"}, {2, 3}))

    def test_lines(self) -> None:
        """Which objects lines name, and which a machine may write."""
        lines = b"get 1 0 1\nput 0x0A 0 " + b"00" * 4096 + b"\nleave 3\nreturn 4\nregs 5\nget 07 0 1\nfoo get 8 0 1\n"
        self.assertEqual(objects_of(lines), {1, 10, 3, 4})
        self.assertEqual(written_by(f"ship 1 0 0 0 0 0 {EXIT}".encode(), [1, 2]), {1, 2})
        self.assertEqual(written_by(f"ship2 1 0 0 0 0 0 {EXIT} r1 w2 w1024".encode(), [1, 2]), {2, 1024})
        self.assertEqual(written_by(b"step 1", [1, 2]), set())


class Files(unittest.TestCase):
    def test_damaged(self) -> None:
        """A file that isn't whole, byte by byte, is refused."""
        with tempfile.TemporaryDirectory() as name:
            file, other = Path(name) / "saved", Path(name) / "other"
            objects = {1: b"abc", 7: bytes(9)}
            save(file, objects)
            lengths = {number: len(content) for number, content in objects.items()}
            self.assertEqual(restored(file, lengths), objects)
            whole = file.read_bytes()
            for at in range(len(whole)):
                for damaged in (whole[:at], whole[:at] + bytes([whole[at] ^ 1]) + whole[at + 1 :]):
                    other.write_bytes(damaged)
                    with self.assertRaises(Damaged):
                        restored(other, lengths)
            # Each object's digest counts, also where the file's end has been made anew.
            forged = whole[: whole.rindex(b"end ")].replace(hashlib.sha256(b"abc").hexdigest().encode(), b"0" * 64)
            other.write_bytes(forged + f"end {hashlib.sha256(forged).hexdigest()}\n".encode())
            with self.assertRaises(Damaged):
                restored(other, lengths)
            other.write_bytes(whole + b"x")
            for wrong in ({1: 3}, {1: 3, 7: 9, 8: 1}, {1: 4, 7: 9}):
                with self.assertRaises(Damaged):
                    restored(file, wrong)
            with self.assertRaises(Damaged):
                restored(other, lengths)
            self.assertEqual(sorted(path.name for path in Path(name).iterdir()), ["other", "saved"])


if __name__ == "__main__":
    unittest.main()

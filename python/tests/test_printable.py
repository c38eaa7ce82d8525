"""What others say, as it is shown: control characters in replies, names and errors are escaped. And hash tags, as Redis Cluster reads them."""
from __future__ import annotations

import importlib.util
import os
import pathlib
import shutil
import socket
import subprocess
import sys
import tempfile
import unittest
import unittest.mock

import stand_in
from bpfagent import Agent, Broken
from bpfagent.debug.lines import SourceLine
from bpfagent.debug.sources import text_at
from bpfagent.health import say
from bpfagent.printable import printable
from support import SECONDS

from lib.programs import free_port, redis_server

# Colours, the window's title, a bell, a backspace, the 8-bit form of a sequence, and a mark that turns the direction of writing.
HOSTILE = "a\x1b[31m\x1b]0;title\x07\x08\x9b3m\u202eb\r\n\t"
ESCAPED = r"a\x1b[31m\x1b]0;title\x07\x08\x9b3m\u202eb\r\n\t"


class Printable(unittest.TestCase):
    def test_texts(self) -> None:
        """Every control character is escaped, and nothing else."""
        self.assertEqual(printable(HOSTILE), ESCAPED)
        self.assertEqual(printable(HOSTILE, "\n\t"), ESCAPED.replace(r"\n\t", "\n\t"))
        self.assertEqual(printable("plain, é and \udcff"), "plain, é and \\udcff")
        for number in (*range(32), *range(127, 160)):
            self.assertTrue(printable(chr(number)).isprintable() and len(printable(chr(number))) > 1, f"character {number} is shown raw")

    def test_replies(self) -> None:
        """A reply of a service, and what is said of one that is impossible."""

        def answer(connection: socket.socket) -> None:
            with connection, connection.makefile("rwb") as stream:
                for line in stream:
                    stream.write(b"bytes \x1b[2J\x07\n" if line.startswith(b"get") else b"line 1 0 exit \x1b[2J\n")
                    stream.flush()

        with stand_in.answering(answer) as port, Agent.connect("127.0.0.1", port, timeout=SECONDS) as agent:
            self.assertEqual(agent.line(1, 0), r"exit \x1b[2J")
            self.assertEqual(agent.tell("any"), r"line 1 0 exit \x1b[2J")
            with self.assertRaises(Broken) as raised:
                agent.get(1, 0, 8)
            self.assertTrue(str(raised.exception).isprintable())

    def test_errors(self) -> None:
        """A command's line on standard error: the name of a file that isn't there, and clang's words."""
        with tempfile.TemporaryDirectory() as room:
            clang = pathlib.Path(room) / "clang"
            clang.write_text("#!/bin/sh\nprintf 'error: \\033[2Jno\\n\\tmore\\n' >&2\nexit 1\n")
            clang.chmod(0o755)
            source = pathlib.Path(room) / "a.c"
            source.write_text("")
            for name, said in (("\x1b[2Jb.o", r"\x1b[2Jb.o: No such file or directory"), (str(source), "error: \\x1b[2Jno\n\tmore")):
                command = [sys.executable, "-m", "bpfagent.ship", "--check", name]
                done = subprocess.run(command, capture_output=True, text=True, timeout=SECONDS, env={**os.environ, "CLANG": str(clang)})
                self.assertEqual((done.returncode, done.stderr), (1, f"bpfagent-ship: {said}\n"))

    def test_redis(self) -> None:
        """An error of Redis."""
        with unittest.mock.patch("os.write") as write:
            say("ERR \x1b[2J")
        self.assertEqual(write.call_args.args[1], b"redis: ERR \\x1b[2J\n")

    def test_sources(self) -> None:
        """A line of a source file, and its place. A path that leads to a device isn't read."""
        with tempfile.TemporaryDirectory() as room:
            path = pathlib.Path(room) / "\x1b[2J.c"
            path.write_text("int a; // \x1b[2J\tb\n")
            at = SourceLine(str(path), 1)
            self.assertEqual((text_at(at), str(at)), ("int a; // \\x1b[2J\tb", f"{room}/\\x1b[2J.c:1"))
        self.assertEqual(text_at(SourceLine("/dev/zero", 1)), "")


@unittest.skipUnless(shutil.which("redis-server") and importlib.util.find_spec("redis") and importlib.util.find_spec("distributed"), "needs Redis and Dask")
class HashTags(unittest.TestCase):
    """A job's record lies in the slot of its first key, whatever braces that has."""

    KEYS = ["a", "a{}b", "a}b", "{}", "{", "}", "{}{x}", "a{b", "{a{b}c", "}{x}", "a{b}{c}", "{{}}", "x{\u00e9}y", "{}}", "a{}}{b}", "account:{7}"]

    def test_slots(self) -> None:
        import redis
        from bpfagent.fleet.jobs import Job

        # The nodes' own port would be this one and 10,000, which somebody may have.
        with redis_server("--cluster-enabled", "yes", "--cluster-port", str(free_port())) as port, redis.Redis("127.0.0.1", port) as client:
            for key in self.KEYS:
                record = Job(b"", {"b": "r", key: "w"}).record
                slots = [client.execute_command("CLUSTER", "KEYSLOT", it) for it in (key, record)]
                self.assertEqual(slots[0], slots[1], f"the slots of {key} and {record}")
                self.assertTrue(record.startswith("bpfagent-job:{"))


if __name__ == "__main__":
    unittest.main()

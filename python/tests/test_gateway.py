"""`bpfagent-redis` over a stand-in for Redis, and over redis-server where it is installed.

Byte for byte what docs/FAR-MEMORY.md shows, clients that break the protocol, two clients at once, keys that are gone when a
client or the gateway has ended, a Redis that is full, goes away, lies or answers nonsense, one that sends its clients on, as a
cluster does, signals, and that an idle gateway sleeps. Keys that expire, are renewed, and are swept when Redis or the gateway is
back; what is said of a Redis without a bound; passwords, TLS and a Cluster. `bpfagent serve`, whose objects leave for the gateway.
"""
from __future__ import annotations

import hashlib
import importlib.util
import os
import re
import resource
import shutil
import signal
import socket
import socketserver
import subprocess
import sys
import tempfile
import threading
import time
import unittest
from typing import Any, Optional

from bpfagent import __version__
from bpfagent.far import DONE, FORGET, GET, LIMIT, NO_ROOM, PUT, REFUSED_ID, Store
from support import PROGRAM, ROOT, SECONDS, kept

from lib.programs import Client, Listener, Server, Service, ended, few_times, free_port, is_heard, object_line, of_threads, processor_time, redis_server, until
from product.store import KEPT, frame, talk, unanswered

HAS_REDIS = importlib.util.find_spec("redis") is not None
needs_redis = unittest.skipUnless(HAS_REDIS and shutil.which("redis-server"), "needs redis-server and python3-redis")
# What the stand-in doesn't answer otherwise, since the gateway asks it by itself.
OF_CLIENTS = (b"SET", b"GET", b"DEL")
GATEWAY = [sys.executable, "-m", "bpfagent.gateway"]
CLIENT = [sys.executable, "-m", "bpfagent.far"]
CRLF = b"\r\n$-1\r\n\0\xff" * 9
# One request of each kind, and its answers.
ASKED = [
    frame(PUT, 1, b"abc"),
    frame(PUT, 1, b"x"),
    frame(GET, 1),
    frame(GET, 2),
    frame(PUT, 2**64 - 1, b"z" * LIMIT),
    frame(GET, 2**64 - 1),
    frame(FORGET, 1),
    frame(FORGET, 1),
    frame(GET, 1),
    frame(PUT, 3, CRLF),
    frame(GET, 3),
]
ANSWERED = [
    frame(DONE, 1),
    frame(REFUSED_ID, 1),
    frame(DONE, 1, b"abc"),
    frame(REFUSED_ID, 2),
    frame(DONE, 2**64 - 1),
    frame(DONE, 2**64 - 1, b"z" * LIMIT),
    frame(DONE, 1),
    frame(REFUSED_ID, 1),
    frame(REFUSED_ID, 1),
    frame(DONE, 3),
    frame(DONE, 3, CRLF),
]
# What is no request.
WRONG = (
    frame(4, 1),
    frame(0, 1),
    frame(PUT, 1),
    frame(PUT, 1, length=LIMIT + 1),
    frame(PUT, 1, b"z" * (LIMIT + 1)),
    frame(GET, 1, b"x"),
    frame(FORGET, 1, b"x"),
    frame(PUT, 1, b"abc")[:-1],
    b"\x01",
    frame(GET, 1)[:-1],
)


class Talk(socketserver.StreamRequestHandler):
    """A client of the stand-in."""

    disable_nagle_algorithm = True
    server: Redis

    def handle(self) -> None:
        self.server.connected.append(self.connection)
        try:
            while words := self.command():
                self.server.heard.append(words)
                reply = self.server.instead.pop(0) if self.server.instead and words[0] in OF_CLIENTS else self.answer(words)
                self.wfile.write(reply)
                if not reply.endswith(b"\r\n"):
                    return
        except OSError:
            pass

    def command(self) -> Optional[list[bytes]]:
        """The words of the next command; none at the end."""
        head = self.rfile.readline()
        if not head:
            return None
        words = []
        for _ in range(int(head[1:])):
            length = int(self.rfile.readline()[1:])
            words.append(self.rfile.read(length + 2)[:-2])
        return words

    def answer(self, words: list[bytes]) -> bytes:
        kept, (name, *rest) = self.server.kept, words
        if name == b"SET" and rest[2::2] == [b"EX", b"NX"]:
            return b"+OK\r\n" if kept.setdefault(rest[0], rest[1]) is rest[1] else b"$-1\r\n"
        if name == b"GET":
            return encoded(kept.get(rest[0]))
        if name == b"DEL":
            return encoded(int(kept.pop(rest[0], None) is not None))
        if name == b"EXPIRE":
            return encoded(int(rest[0] in kept))
        if name == b"SCAN":
            return encoded([b"0", [key for key in kept if key.startswith(rest[2].replace(b"\\", b"").removesuffix(b"*"))]])
        if name == b"CONFIG":
            return encoded([rest[1], self.server.settings[rest[1]]])
        if name == b"INFO":
            return encoded(b"# Cluster\r\ncluster_enabled:%d\r\n" % self.server.is_cluster)
        if name == b"CLUSTER":
            return encoded([[0, 16_383, [b"127.0.0.1", self.server.server_address[1], b"0" * 40]]])
        if name == b"COMMAND":
            return encoded([[word.lower(), -2, [], 1, 1, 1] for word in OF_CLIENTS])
        return b"+PONG\r\n" if name == b"PING" else b"-ERR unknown command\r\n"


def encoded(value: Any) -> bytes:
    """A value as Redis writes it."""
    if isinstance(value, list):
        return b"*%d\r\n" % len(value) + b"".join(map(encoded, value))
    if isinstance(value, int):
        return b":%d\r\n" % value
    return b"$-1\r\n" if value is None else b"$%d\r\n%b\r\n" % (len(value), value)


class Redis(socketserver.ThreadingTCPServer):
    """A stand-in for Redis: what it keeps, what it has heard, and what it answers instead, if anything."""

    allow_reuse_address = True
    daemon_threads = True

    def __init__(self, port: int = 0) -> None:
        # Nobody else gets the port before it comes back.
        super().__init__(("127.0.0.1", port or free_port()), Talk)
        self.kept: dict[bytes, bytes] = {}
        self.heard: list[list[bytes]] = []
        self.instead: list[bytes] = []
        self.connected: list[socket.socket] = []
        self.settings = {b"maxmemory": b"100000000", b"maxmemory-policy": b"noeviction"}
        self.is_cluster = False
        self.address = f"127.0.0.1:{self.server_address[1]}"
        threading.Thread(target=self.serve_forever, args=(0.01,), daemon=True).start()

    def end(self) -> None:
        """Goes away, with its connections."""
        self.shutdown()
        self.server_close()
        for connection in self.connected:
            try:
                connection.shutdown(socket.SHUT_RDWR)
            except OSError:
                pass


class Gateway(Server):
    """The gateway, listening, as another server of far memory."""

    port: int

    def __init__(self, redis: str, *arguments: str) -> None:
        Listener.__init__(self, *GATEWAY, "--redis", redis, *arguments)
        assert self.port, "the gateway doesn't listen"


def setUpModule() -> None:
    """Where the tests run in the background, an interrupt is ignored, and would be by the gateways too."""
    signal.signal(signal.SIGINT, signal.default_int_handler)
    signal.signal(signal.SIGHUP, signal.SIG_DFL)


def wakings(process: subprocess.Popen[bytes]) -> int:
    """How often the threads of a process have gone to sleep by themselves."""
    return sum(int(count) for text in of_threads(process.pid, "status").values() for count in re.findall(r"(?m)^voluntary_ctxt_switches:\s*(\d+)", text))


def wakings_in(seconds: float, process: subprocess.Popen[bytes]) -> int:
    """How often they do within so many seconds."""
    before = wakings(process)
    time.sleep(seconds)
    return wakings(process) - before


@unittest.skipUnless(PROGRAM and HAS_REDIS, "needs BPFAGENT and python3-redis")
class Gateways(unittest.TestCase):
    """The gateway, over a stand-in for Redis and over Redis itself."""

    def test_frames(self) -> None:
        """Byte for byte what docs/FAR-MEMORY.md shows, and the example of the package's page; nothing is left in Redis."""
        redis = Redis()
        self.frames(redis.address)
        self.example(redis.address)
        self.assertEqual(redis.kept, {})
        redis.end()

    def frames(self, address: str) -> None:
        """What the page shows, one answer of each kind, and what is no request."""
        gateway = Gateway(address)
        self.assertTrue(
            talk(gateway, bytes.fromhex("01 0000000000000001 00000003 616263")) == bytes.fromhex("00 0000000000000001 00000000"), "the put of the page"
        )
        self.assertTrue(talk(gateway, *ASKED) == b"".join(ANSWERED), "a conversation")
        for wrong in WRONG:
            self.assertTrue(unanswered(gateway, wrong), f"{wrong[:16]!r} is answered")
        numbers = range(1, KEPT + 2)
        self.assertTrue(
            talk(gateway, *[frame(PUT, n, b"%d" % n) for n in numbers], *[frame(GET, n) for n in numbers])
            == b"".join([frame(DONE, n) for n in numbers] + [frame(DONE, n, b"%d" % n) for n in numbers]),
            "1025 parcels",
        )
        self.assertTrue(gateway.end() == (0, b"", b""), "a gateway whose clients have gone")

    def example(self, address: str) -> None:
        """Gateway and client, as the package's page starts them, but for the ports."""
        page = (ROOT / "python/README.md").read_text()
        self.assertTrue("\nbpfagent-redis --port 7070 --redis 127.0.0.1:6379\n" in page, "the page starts the gateway otherwise")
        port = free_port()
        gateway = Gateway(address, "--port", str(port))
        self.assertTrue(gateway.port == port, "the port that is asked for")
        texts = ["hello", "é" * 1000]
        done = subprocess.run([*CLIENT, str(gateway.port), *texts], capture_output=True, timeout=SECONDS)
        lines = [f"{k} {len(text.encode())} {hashlib.sha256(text.encode()).hexdigest()}" for k, text in enumerate(texts, 1)]
        self.assertTrue(done.returncode == 0 and done.stdout.decode().splitlines() == lines, f"the example ended with {done}")
        self.assertTrue(gateway.end() == (0, b"", b""), "the gateway of the example")

    def test_keys(self) -> None:
        """Two clients at once have keys of their own, which are gone when they are; so they are when the gateway ends."""
        redis = Redis()
        gateway = Gateway(redis.address, "--prefix", "far/")
        one, two = Store(gateway.port, timeout=SECONDS), Store(gateway.port, timeout=SECONDS)
        first, second = kept(one, b"one"), kept(two, b"two")
        self.assertTrue((first[0], second[0]) == (1, 1) and one.get(*first) == b"one" and two.get(*second) == b"two", "two clients with one id")
        self.assertTrue(
            sorted(redis.kept.values()) == [b"one", b"two"] and all(key.startswith(b"far/") and key.endswith(b":1") for key in redis.kept),
            f"the keys {redis.kept}",
        )
        two.put(b"more")
        two.forget(2)
        one.close()
        until(f"the keys of a client that has gone: {redis.kept}", lambda: list(redis.kept.values()) == [b"two"])
        self.assertTrue(gateway.end() == (0, b"", b"") and redis.kept == {}, f"the keys of a gateway that has ended: {redis.kept}")
        gone = [words[1] for words in redis.heard if words[0] == b"DEL"]
        self.assertTrue(len(gone) == len(set(gone)) == 3, f"what was deleted: {gone}")
        two.close()
        redis.end()

    def test_faults(self) -> None:
        """A Redis that is full or answers nonsense: the request is answered 2, the next is served. One that lies is found out."""
        redis = Redis()
        # Some of these answers are never whole; a whole one comes in time, also on a busy machine.
        gateway = Gateway(f"redis://{redis.address}?socket_timeout=5")
        store = Store(gateway.port, timeout=SECONDS)
        number, digest = kept(store, b"abc")
        full = b"-OOM command not allowed when used memory > 'maxmemory'.\r\n"
        for reply in (
            full,
            b"",
            b"+OK",
            b"hello\r\n",
            b"$3\r\nab",
            b":1\r\n",
            b"-MOVED 1\r\n",
            b"-MOVED 7 127.0.0.1:x\r\n",
            b"$65537\r\n" + bytes(LIMIT + 1) + b"\r\n",
            b"$1000000000000\r\n",
            b"$9223372036854775807\r\n",
            b"-" + b"x" * LIMIT + b"\r\n",
        ):
            redis.instead.append(reply)
            self.assertTrue(store.ask(GET, number) == (NO_ROOM, b""), f"a get while Redis answers {reply[:20]!r}")
            self.assertTrue(store.get(number, digest) == b"abc", f"a get after Redis answered {reply[:20]!r}")
        # Of these lengths hiredis makes a parcel that isn't there.
        for reply in (b"$x\r\n", b"$-2\r\n"):
            redis.instead.append(reply)
            self.assertIn(store.ask(GET, number), ((NO_ROOM, b""), (REFUSED_ID, b"")), f"a get while Redis answers {reply!r}")
            self.assertEqual(store.get(number, digest), b"abc", f"a get after Redis answered {reply!r}")
        redis.instead.append(full)
        self.assertTrue(store.put(b"more")[0] is None and store.put(b"more")[0] == 3, "a put while Redis is full, and after")
        redis.instead.append(b"$3\r\nabd\r\n")
        self.assertTrue(store.get(number, digest) is None and store.get(number, digest) == b"abc", "a lie, and what is asked again")
        redis.kept.clear()
        self.assertTrue(store.get(number, digest) is None and store.ask(FORGET, number) == (REFUSED_ID, b""), "a parcel that Redis has lost")
        store.close()
        status, _, errors = gateway.end()
        self.assertIn(f"redis: can't be reached: {redis.address}: Connection closed by server.\n", errors.decode())
        failed, again = errors.count(b"redis: ") - errors.count(b" again\n"), errors.count(b" again\n")
        self.assertTrue(status == 0 and failed == again and 13 <= again <= 15, f"what was said of faults: {errors!r}")
        redis.end()

    def test_absence(self) -> None:
        """Redis goes away and comes back with what it kept, which is said once each, however often it is asked. A client that goes
        meanwhile leaves its keys."""
        redis = Redis()
        gateway = Gateway(redis.address)
        store = Store(gateway.port, timeout=SECONDS)
        number, digest = kept(store, b"abc")
        redis.end()
        self.assertTrue(store.ask(PUT, 2, b"x") == (NO_ROOM, b"") and all(store.ask(GET, number) == (NO_ROOM, b"") for _ in range(100)), "a Redis that is away")
        back = Redis(redis.server_address[1])
        back.kept = redis.kept
        self.assertTrue(store.get(number, digest) == b"abc" and store.ask(PUT, 3, b"y") == (DONE, b""), "a Redis that is back")
        back.end()
        store.close()
        status, _, errors = gateway.end()
        said = [re.sub("reached: .*", "reached: why", line) for line in errors.decode().splitlines()]
        gone, again = "redis: can't be reached: why", "redis: can be reached again"
        self.assertTrue(
            (status, said) == (0, [gone, again, gone]) and sorted(back.kept.values()) == [b"abc", b"y"],
            f"keys that couldn't be deleted, and what was said: {errors!r}",
        )

    def test_start(self) -> None:
        """Before the gateway says that it listens, it has tried to reach Redis, and says if that failed. Wrong arguments get a usage."""
        redis = Redis()
        gateway = Gateway(redis.address)
        asked = [[b"INFO", b"cluster"], [b"CONFIG", b"GET", b"maxmemory"], [b"CONFIG", b"GET", b"maxmemory-policy"]]
        self.assertEqual(redis.heard[:3], asked, "what Redis heard before the gateway listens")
        self.assertTrue(gateway.end() == (0, b"", b""), "a gateway without clients")
        redis.end()
        said = ended("sh", "-c", 'exec "$@" 2>&1', "sh", *GATEWAY, "--redis", redis.address, seconds=SECONDS)
        self.assertTrue(
            said[0] == 0 and re.fullmatch(rb"redis: can't be reached: .*\nlistening .*\n", said[1]), f"a gateway whose Redis is away says {said}"
        )
        status, output, errors = ended("sh", "-c", 'exec "$@" <&-', "sh", *GATEWAY, "--redis", "127.0.0.1:1", seconds=SECONDS)
        refused = b"redis: can't be reached: Error 111 connecting to 127.0.0.1:1. Connection refused.\n"
        self.assertTrue(status == 0 and output.startswith(b"listening ") and errors == refused, f"a gateway without an input says {output!r} and {errors!r}")
        version = ended(*GATEWAY, "--version", seconds=SECONDS)
        self.assertTrue(version == (0, f"bpfagent-redis {__version__}\n".encode(), b""), f"the version: {version}")
        wrong_places = ("x", "127.0.0.1:0", "http://:secret@127.0.0.1:1", "redis://:secret@127.0.0.1:x", "redis://:secret@127.0.0.1:0", "rediss://")
        wrong_words = [["--redis", place] for place in wrong_places] + [["--port", "65536"], ["--port", "x"], ["--expire", "9"], ["--expire", "x"], ["x"]]
        for words in wrong_words:
            wrong = ended(*GATEWAY, *words, seconds=SECONDS)
            self.assertTrue(wrong[:2] == (2, b"") and wrong[2].startswith(b"usage: bpfagent-redis "), f"wrong arguments of the gateway: {wrong}")
            self.assertNotIn(b"secret", wrong[2])
        without = "import sys; sys.modules['redis'] = None; from bpfagent.gateway import main; main()"
        needs = b"bpfagent-redis: this needs redis-py: apt-get install python3-redis, or pip install 'bpfagent[redis]'\n"
        self.assertEqual(ended(sys.executable, "-c", without, seconds=SECONDS), (1, b"", needs))
        with socket.create_server(("127.0.0.1", 0)) as taken:
            wrong = ended(*GATEWAY, "--port", taken.getsockname()[1], seconds=SECONDS)
        self.assertTrue(
            wrong[:2] == (1, b"") and re.fullmatch(rb"bpfagent-redis: port \d+: Address already in use\n", wrong[2]), f"a port that is taken: {wrong}"
        )

    def test_signals(self) -> None:
        """SIGINT, SIGTERM and SIGHUP end the gateway as the end of its input does, and its clients' keys are deleted."""
        for number in (signal.SIGINT, signal.SIGTERM, signal.SIGHUP):
            redis = Redis()
            gateway = Gateway(redis.address)
            store = Store(gateway.port, timeout=SECONDS)
            self.assertTrue(store.put(b"abc")[0] == 1 and len(redis.kept) == 1, "a parcel before the signal")
            gateway.process.send_signal(number)
            self.assertTrue(gateway.process.wait(timeout=SECONDS) == 0, f"a gateway that gets {number.name}")
            until(f"keys of a gateway that got {number.name}", lambda: redis.kept == {})
            self.assertTrue(gateway.end() == (0, b"", b""), f"what a gateway says that gets {number.name}")
            store.close()
            redis.end()

    def test_early_signals(self) -> None:
        """A signal that comes as the gateway begins to listen ends it as a later one does."""
        redis = Redis()
        for number in (signal.SIGINT, signal.SIGTERM) * 5:
            gateway = Gateway(redis.address)
            gateway.process.send_signal(number)
            self.assertEqual(gateway.process.wait(timeout=SECONDS), 0, f"a gateway that gets {number.name} at once")
            self.assertEqual(gateway.end(), (0, b"", b""), f"what a gateway says that gets {number.name} at once")
        redis.end()

    def test_unread_errors(self) -> None:
        """If nobody reads standard error any more, a Redis that goes away costs a client nothing but its answers."""
        redis = Redis()
        gateway = Gateway(redis.address)
        assert gateway.process.stderr
        gateway.process.stderr.close()
        gateway.process.stderr = None
        store = Store(gateway.port, timeout=SECONDS)
        number, digest = kept(store, b"abc")
        redis.end()
        self.assertEqual([store.ask(GET, number) for _ in range(3)], [(NO_ROOM, b"")] * 3)
        back = Redis(redis.server_address[1])
        back.kept = redis.kept
        self.assertEqual(store.get(number, digest), b"abc")
        store.close()
        self.assertEqual(gateway.end(), (0, b"", None))
        back.end()

    def test_descriptors(self) -> None:
        """A gateway without a descriptor for a further client rests between its tries, and serves the client when another has gone."""
        redis, most = Redis(), 10
        with Listener(*GATEWAY, "--redis", redis.address, limits={resource.RLIMIT_NOFILE: most}) as gateway:
            assert gateway.port
            clients = [socket.socket() for _ in range(most)]
            for client in clients:
                client.setblocking(False)
                client.connect_ex(("127.0.0.1", gateway.port))
            until("the gateway has descriptors left", lambda: len(os.listdir(f"/proc/{gateway.process.pid}/fd")) == most)

            def cost() -> float:
                before = processor_time(gateway.process.pid)
                time.sleep(1)
                return processor_time(gateway.process.pid) - before

            self.assertEqual(few_times(cost, 0.1), [], "what a gateway without descriptors costs in a second")
            for client in clients:
                client.close()
            with Store(gateway.port, timeout=SECONDS) as store:
                number, digest = kept(store, b"abc")
                self.assertEqual(store.get(number, digest), b"abc")
            self.assertEqual(gateway.end()[0], 0)
        redis.end()

    def test_idleness(self) -> None:
        """A gateway that nobody asks sleeps, with a client and without."""
        redis = Redis()
        gateway = Gateway(redis.address)
        store: Optional[Store] = None
        for store in (None, Store(gateway.port, timeout=SECONDS)):
            if store:
                store.put(b"abc")
            # On a busy machine it may take a while until what was asked last is over.
            counts = few_times(lambda: wakings_in(0.5, gateway.process), 2, 60)
            self.assertEqual(counts, [], "how often an idle gateway wakes up in half a second, again and again")
        assert store
        store.close()
        self.assertTrue(gateway.end() == (0, b"", b""), "an idle gateway")
        redis.end()

    def test_redirections(self) -> None:
        """A node of a cluster that redirects without end: the request is answered 2."""
        redis = Redis()
        redis.is_cluster = True
        gateway = Gateway(redis.address)
        store = Store(gateway.port, timeout=SECONDS)
        number, digest = kept(store, b"abc")
        redis.instead += [f"-MOVED 3999 {redis.address}\r\n".encode()] * 16
        self.assertEqual(store.ask(GET, number), (NO_ROOM, b""))
        self.assertLess(len(redis.instead), 16)
        redis.instead.clear()
        self.assertEqual(store.get(number, digest), b"abc")
        store.close()
        self.assertEqual(gateway.end()[0], 0)
        redis.end()

    def test_left_behind(self) -> None:
        """What clients left behind while Redis was away is deleted when it is back, and what belongs to others stays."""
        redis = Redis()
        others = {b"bpfagent:other-1:client:1": b"another gateway's", b"mine": b"mine"}
        redis.kept.update(others)
        gateway = Gateway(redis.address)
        gone, there = Store(gateway.port, timeout=SECONDS), Store(gateway.port, timeout=SECONDS)
        for store in (gone, there):
            number, digest = kept(store, b"abc")
        self.assertEqual(len(redis.kept), 4)
        redis.end()
        self.assertEqual(gone.ask(GET, 1), (NO_ROOM, b""))
        gone.close()
        back = Redis(redis.server_address[1])
        back.kept = redis.kept
        time.sleep(0.1)
        self.assertEqual(there.get(number, digest), b"abc")
        until("keys of a client that went while Redis was away stay", lambda: len(back.kept) == 3)
        self.assertEqual(there.get(number, digest), b"abc")
        there.close()
        self.assertEqual(gateway.end()[0], 0)
        self.assertEqual(back.kept, others)
        back.end()

    def test_killed(self) -> None:
        """A gateway that starts again at its port deletes what it left behind when it was killed, and no other gateway's keys."""
        redis, port = Redis(), free_port()
        other, killed = Gateway(redis.address), Gateway(redis.address, "--port", str(port))
        with Store(other.port, timeout=SECONDS) as another, Store(port, timeout=SECONDS) as store:
            kept(another, b"another's"), kept(store, b"abc")
            self.assertEqual(len(redis.kept), 2)
            killed.process.kill()
            killed.process.wait(SECONDS)
        until("the other gateway's keys are deleted", lambda: list(redis.kept.values()) == [b"abc"])
        with Gateway(redis.address, "--port", str(port)) as again:
            until("keys of a gateway that was killed stay", lambda: redis.kept == {})
            self.assertEqual(again.end()[0], 0)
        self.assertEqual((other.end()[0], killed.end()[0]), (0, -signal.SIGKILL))
        redis.end()

    def test_bounds(self) -> None:
        """A Redis without a bound, or one that drops keys, is named at the start; one that can't be asked, too."""
        cases: list[tuple[dict[bytes, bytes], str]] = [
            ({}, ""),
            ({b"maxmemory": b"0"}, "{} has no maxmemory: it grows until the system ends it, and then objects are lost"),
            ({b"maxmemory-policy": b"allkeys-lru"}, "{} has the maxmemory-policy allkeys-lru, which may drop objects: noeviction refuses them instead"),
        ]
        for settings, said in cases:
            redis = Redis()
            redis.settings.update(settings)
            line = f"redis: {said.format(redis.address)}\n" if said else ""
            self.assertEqual(Gateway(redis.address).end(), (0, b"", line.encode()))
            redis.end()

    @needs_redis
    def test_expiry(self) -> None:
        """Keys are renewed while the gateway runs, and expire when it was killed."""
        import redis

        with redis_server() as port:
            client, seconds = redis.Redis(port=port), 10
            gateway = Gateway(f"127.0.0.1:{port}", "--expire", str(seconds))
            with Store(gateway.port, timeout=SECONDS) as store:
                number, digest = kept(store, b"abc")
                end = time.monotonic() + seconds + 1
                while time.monotonic() < end:
                    left = [client.pttl(key) for key in client.keys("bpfagent:*")]
                    self.assertTrue(len(left) == 1 and 0 < left[0] <= 1000 * seconds, f"the time of a key: {left}")
                    time.sleep(0.2)
                self.assertEqual(store.get(number, digest), b"abc")
                gateway.process.kill()
            until("a key of a gateway that was killed doesn't expire", lambda: bool(client.dbsize() == 0))
            self.assertEqual(gateway.end()[0], -signal.SIGKILL)

    @needs_redis
    def test_password(self) -> None:
        """A password in the URL, or in the environment. A wrong one is told, and never shown."""
        with redis_server("--requirepass", "secret") as port:
            place = f"127.0.0.1:{port}"
            self.conversation(Gateway(f"redis://:secret@{place}"))
            os.environ["REDISCLI_AUTH"] = "secret"
            self.addCleanup(lambda: os.environ.pop("REDISCLI_AUTH", None))
            self.conversation(Gateway(place))
            os.environ["REDISCLI_AUTH"] = "wrong"
            for url in (place, f"redis://:other@{place}"):
                status, _, errors = Gateway(url).end()
                self.assertTrue(status == 0 and errors.startswith(b"redis: can't be reached: ") and errors.count(b"\n") == 1, errors)
                self.assertNotRegex(errors, b"secret|other|: wrong")

    def conversation(self, gateway: Gateway) -> None:
        """One request of each kind, and the gateway's end, by which nothing is said."""
        self.assertEqual(talk(gateway, *ASKED), b"".join(ANSWERED))
        self.assertEqual(gateway.end(), (0, b"", b""))

    @needs_redis
    @unittest.skipUnless(shutil.which("openssl"), "needs openssl")
    def test_tls(self) -> None:
        """Over TLS, by the certificate that the URL names. Without it Redis isn't trusted."""
        with tempfile.TemporaryDirectory() as folder:
            key, cert, secure = f"{folder}/key.pem", f"{folder}/cert.pem", free_port()
            command = ["openssl", "req", "-x509", "-newkey", "ec", "-pkeyopt", "ec_paramgen_curve:prime256v1", "-nodes", "-days", "1", "-subj", "/CN=localhost"]
            made = subprocess.run([*command, "-addext", "subjectAltName=DNS:localhost", "-keyout", key, "-out", cert], capture_output=True, timeout=SECONDS)
            self.assertEqual(made.returncode, 0, made.stderr)
            files = ["--tls-cert-file", cert, "--tls-key-file", key, "--tls-ca-cert-file", cert, "--tls-auth-clients", "no"]
            with redis_server("--tls-port", str(secure), *files):
                until("redis-server doesn't listen for TLS", lambda: is_heard("127.0.0.1", secure))
                self.conversation(Gateway(f"rediss://localhost:{secure}?ssl_ca_certs={cert}"))
                status, _, errors = Gateway(f"rediss://localhost:{secure}").end()
                self.assertTrue(status == 0 and errors.startswith(b"redis: can't be reached: ") and b"certificate" in errors, errors)

    @needs_redis
    @unittest.skipUnless(shutil.which("redis-cli"), "needs redis-tools")
    def test_cluster(self) -> None:
        """A Redis Cluster: parcels lie at all its nodes, also while a slot moves and after. Nothing is left, and what was left is swept."""
        sys.path.append(str(ROOT / "examples/scaling"))
        import engines

        # No node is taken for dead, also on a busy machine.
        with engines.cluster(silent=30_000) as servers:
            nodes, port = servers[:3], free_port()
            for node in servers:
                node.ask("CONFIG", "SET", "maxmemory", "100mb")
            gateway = Gateway(f"127.0.0.1:{nodes[0].port}", "--port", str(port))
            self.assertEqual(talk(gateway, *ASKED), b"".join(ANSWERED))
            with Store(gateway.port, timeout=SECONDS) as store:
                held = [(kept(store, b"%d" % number), b"%d" % number) for number in range(100)]
                self.assertTrue(all(int(node.ask("DBSIZE")) > 10 for node in nodes), "parcels don't lie at all nodes")
                key = nodes[0].ask("RANDOMKEY")
                slot, (one, other) = nodes[0].ask("CLUSTER", "KEYSLOT", key), nodes[:2]
                names = [node.ask("CLUSTER", "MYID") for node in nodes]
                other.ask("CLUSTER", "SETSLOT", slot, "IMPORTING", names[0])
                one.ask("CLUSTER", "SETSLOT", slot, "MIGRATING", names[1])
                one.ask("MIGRATE", "127.0.0.1", str(other.port), key, "0", "5000")
                self.assertEqual([store.get(*parcel) for parcel, _ in held], [content for _, content in held], "parcels while a slot moves")
                for node in nodes:
                    node.ask("CLUSTER", "SETSLOT", slot, "NODE", names[1])
                self.assertEqual([store.get(*parcel) for parcel, _ in held], [content for _, content in held], "parcels after a slot has moved")
                gateway.process.kill()
                gateway.process.wait(SECONDS)
            self.assertGreater(sum(int(node.ask("DBSIZE")) for node in nodes), 90)
            gateway.end()
            with Gateway(f"127.0.0.1:{nodes[1].port}", "--port", str(port)) as again:
                until("keys of a gateway that was killed stay in the Cluster", lambda: all(node.ask("DBSIZE") == "0" for node in nodes))
                self.assertEqual(again.end(), (0, b"", b""))

    def test_service(self) -> None:
        """An object of `bpfagent serve` that leaves is in Redis, and comes home; where Redis gives other bytes it stays away until it
        gives the right ones."""
        redis, held = Redis(), bytes(range(8))
        gateway = Gateway(redis.address)
        service = Service(PROGRAM, "--far", f"127.0.0.1:{gateway.port}", "--workers", 0, setup=["make 8", f"put 1 0 {held.hex()}"])
        client = Client(service)
        self.assertTrue(client.ask("leave 1") == "asked 1", "a request to the mover")
        until(f"the object is in Redis: {redis.kept}", lambda: list(redis.kept.values()) == [held])
        redis.instead += [b"$8\r\nabcdefgh\r\n", b"-OOM\r\n"]
        self.assertTrue(client.ask("get 1 0 8") == "away 1", "an object that is away")
        self.assertTrue(
            client.ask_until("get 1 0 8", "bytes", pause=0.001) == f"bytes {held.hex()}" and redis.instead == [], "the object that came home at the third time"
        )
        client.until_away(1, f"bytes {held.hex()}")
        until(f"what is in Redis after the next request of an object that was home: {redis.kept}", lambda: len(redis.kept) <= 1)
        client.ask_until("get 1 0 8", "bytes", pause=0.001)
        self.assertTrue(client.end() == "" and service.ends_with([object_line(1, held)]), "the end of a service over the gateway")
        self.assertTrue(gateway.end()[0] == 0 and redis.kept == {}, "the gateway of a service")
        redis.end()

    @needs_redis
    def test_redis(self) -> None:
        """The frames and the example over Redis itself."""
        with redis_server() as port:
            self.frames(f"127.0.0.1:{port}")
            self.example(f"127.0.0.1:{port}")
            with socket.create_connection(("127.0.0.1", port)) as stream:
                stream.sendall(b"*1\r\n$6\r\nDBSIZE\r\n")
                self.assertEqual(stream.recv(4, socket.MSG_WAITALL), b":0\r\n", "keys that are left in Redis")


if __name__ == "__main__":
    unittest.main()

"""Keeps the parcels of a far store in Redis: the command `bpfagent-redis`.

It speaks the frames of docs/FAR-MEMORY.md on 127.0.0.1. It tries to reach Redis, prints `listening P`, and ends when its input
ends, or by SIGINT, SIGTERM or SIGHUP. Each client has a store of its own, which begins empty. A key is the prefix, a word for this
gateway, one for the client, and the id. The gateway deletes a client's keys when the client goes, and all keys when it ends itself.
What it couldn't delete it deletes when Redis, or the gateway at this port of this host, is back; until then an expiry bounds it.

Redis is one server or a Cluster, asked by redis-py. While Redis can't be reached, or has no room, a request is answered 2 and the
next one tries again. Standard error says once that Redis can't be reached, and once that it can be again.
"""
from __future__ import annotations

# Before the imports: an interrupt during them ends the program quietly.
if __name__ == "__main__":
    import bpfagent.programs

    bpfagent.programs.run("gateway")

import argparse
import contextlib
import hashlib
import os
import pathlib
import secrets
import select
import signal
import socket
import socketserver
import sys
import threading
import time
from typing import TYPE_CHECKING, Any, Callable, Iterator
from urllib.parse import urlsplit

from .commands import add_version, address_text, fault_text, guarded, place_of, port_of
from .far import DONE, FORGET, GET, HEAD, LIMIT, NO_ROOM, PUT, REFUSED_ID
from .health import Health, Unkept, say

if TYPE_CHECKING:
    from .redisclient import Parcels

NEEDS = "this needs redis-py: apt-get install python3-redis, or pip install 'bpfagent[redis]'"
# How long no client is accepted after one couldn't be, as when no descriptor is left, in seconds.
PAUSE = 0.1
# For how long Redis keeps a key that isn't renewed, in seconds, and how often keys are renewed in that time.
EXPIRY, LEAST_EXPIRY, MOST_EXPIRY = 86_400, 10, 31_536_000
RENEWALS = 4
# The first pause after a renewal that failed, in seconds; each further one is twice as long, up to that of renewals.
AGAIN = 5.0
# What tells this host from others: its name, its installation, and its network, to which the port belongs.
MACHINE, NETWORK = pathlib.Path("/etc/machine-id"), "/proc/self/ns/net"

# The command of Redis for each kind of request.
COMMANDS = {PUT: "SET", GET: "GET", FORGET: "DEL"}


class Unbound(Exception):
    """The gateway can't listen on its port."""


class Unusable(Exception):
    """Redis can't be asked, since redis-py isn't there."""


def name_of(port: int) -> str:
    """A word for the gateway at this port of this host: the same when it starts again, and no other gateway's."""
    told = [socket.gethostname().encode()]
    with contextlib.suppress(OSError):
        told += [MACHINE.read_bytes(), os.readlink(NETWORK).encode()]
    return f"{hashlib.sha256(b' '.join(told)).hexdigest()[:16]}-{port}"


class Client(socketserver.StreamRequestHandler):
    """A client: its requests, one after the other, until its stream ends or one is no request."""

    disable_nagle_algorithm = True
    server: Gateway

    def handle(self) -> None:
        """Serves the client, and deletes what it leaves behind."""
        self.parcels = self.server.parcels()
        self.name = f"{self.server.own}{secrets.token_hex(8)}:"
        self.ids: set[int] = set()
        self.server.kept[self.name] = self.ids
        try:
            while self.answer_next():
                pass
        except OSError:
            pass
        finally:
            for number in list(self.ids):
                if self.kept(FORGET, number, b"")[0] == NO_ROOM:
                    break
            del self.server.kept[self.name]
            self.parcels.close()

    def answer_next(self) -> bool:
        """Answers a request; whether there was one."""
        head = self.rfile.read(HEAD.size)
        if len(head) < HEAD.size:
            return False
        kind, number, length = HEAD.unpack(head)
        if kind not in (PUT, GET, FORGET) or not (1 <= length <= LIMIT if kind == PUT else length == 0):
            return False
        content = self.rfile.read(length)
        if len(content) < length:
            return False
        status, answer = self.kept(kind, number, content)
        self.wfile.write(HEAD.pack(status, number, len(answer)) + answer)
        return True

    def kept(self, kind: int, number: int, content: bytes) -> tuple[int, bytes]:
        """Status and bytes of the answer, and a word on Redis if that has changed."""
        command = COMMANDS[kind]
        try:
            answer = self.asked(kind, number, content)
            self.server.health.worked(command)
            return answer
        except Unkept as fault:
            self.server.health.failed(command, fault)
            return NO_ROOM, b""

    def asked(self, kind: int, number: int, content: bytes) -> tuple[int, bytes]:
        """Status and bytes of the answer, if Redis gives one."""
        key = f"{self.name}{number}"
        if kind == PUT:
            self.ids.add(number)
            return (DONE if self.parcels.put(key, content) else REFUSED_ID), b""
        if kind == FORGET:
            is_kept = self.parcels.forget(key)
            self.ids.discard(number)
            return (DONE if is_kept else REFUSED_ID), b""
        found = self.parcels.get(key)
        return (REFUSED_ID, b"") if found is None else (DONE, found)


class Gateway(socketserver.ThreadingTCPServer):
    """Each client in a thread of its own; those that are connected at the end are cut off."""

    allow_reuse_address = True

    def __init__(self, port: int, prefix: str, parcels: Callable[[], Parcels]) -> None:
        super().__init__(("127.0.0.1", port), Client)
        self.parcels, self.health = parcels, Health()
        self.own = f"{prefix}{name_of(self.server_address[1])}:"
        # The ids that clients keep, by what their keys begin with.
        self.kept: dict[str, set[int]] = {}
        self.connected: set[socket.socket] = set()

    def get_request(self) -> tuple[socket.socket, tuple[str, int]]:
        """The next client, which is noted."""
        try:
            connection, address = super().get_request()
        except OSError:
            # The client still waits, and would be asked for again at once.
            time.sleep(PAUSE)
            raise
        self.connected.add(connection)
        return connection, address

    def shutdown_request(self, request: Any) -> None:
        """A client that has gone."""
        self.connected.discard(request)
        super().shutdown_request(request)

    def serve_clients(self) -> None:
        """Accepts clients until `end` is called."""
        self.serve_forever(poll_interval=None)  # type: ignore[arg-type]  # it waits for as long as it takes

    def end(self) -> None:
        """Accepts no more clients, and cuts off those that are there."""
        # This wakes the thread that waits for clients.
        with contextlib.suppress(OSError):
            self.socket.shutdown(socket.SHUT_RDWR)
        self.shutdown()
        for connection in list(self.connected):
            with contextlib.suppress(OSError):
                connection.shutdown(socket.SHUT_RDWR)


class Keeper(threading.Thread):
    """Renews the keys of the clients that are there, and deletes those that clients left behind, at the start and when Redis is back.

    It asks at the start, when Redis can be reached again, and as often as keys have to be renewed. In between it sleeps.
    """

    def __init__(self, gateway: Gateway, seconds: int) -> None:
        super().__init__(daemon=True)
        self._gateway, self._pause = gateway, seconds / RENEWALS
        self._parcels = gateway.parcels()
        self._is_swept = self._is_over = False

    def run(self) -> None:
        """Asks again and again until `end` is called."""
        is_back, again = self._gateway.health.is_back, AGAIN
        while not self._is_over:
            is_done = self.ask()
            again = AGAIN if is_done else 2 * again
            # A client that meets Redis first wakes it earlier.
            if is_back.wait(self._pause if is_done else min(again, self._pause)):
                is_back.clear()
                self._is_swept = False

    def ask(self) -> bool:
        """Does what is due. Whether Redis did it."""
        try:
            self._parcels.renew([f"{name}{number}" for name, ids in list(self._gateway.kept.items()) for number in list(ids)])
            self._sweep()
        except Unkept as fault:
            self._gateway.health.failed("EXPIRE", fault)
            return False
        finally:
            # It has no use for connections while it sleeps.
            self._parcels.close()
        self._gateway.health.worked("EXPIRE")
        return True

    def warn(self) -> None:
        """Tries to reach Redis, and says so if it can't, or if Redis is set so that objects may be lost."""
        try:
            for address, most, policy in self._parcels.settings():
                if not most:
                    say(f"{address} has no maxmemory: it grows until the system ends it, and then objects are lost")
                if policy != "noeviction":
                    say(f"{address} has the maxmemory-policy {policy}, which may drop objects: noeviction refuses them instead")
        except Unkept as fault:
            self._gateway.health.failed("CONFIG GET", fault)
        finally:
            self._parcels.close()

    def _sweep(self) -> None:
        """Deletes the keys of this gateway that belong to no client any more. The client went while Redis was away, or was one of the
        gateway that was at this port before."""
        if self._is_swept:
            return
        own = self._gateway.own
        for key in self._parcels.keys(own):
            if self._is_over:
                return
            name, _, _ = key[len(own) :].partition(":")
            if f"{own}{name}:" not in self._gateway.kept:
                self._parcels.forget(key)
        self._is_swept = True

    def end(self) -> None:
        """Asks nothing more."""
        self._is_over = True
        self._gateway.health.is_back.set()
        self.join()


@contextlib.contextmanager
def interrupts() -> Iterator[socket.socket]:
    """What has bytes to read once a signal that ends the gateway has come. None is lost, however early it comes; one that was ignored
    stays ignored."""
    numbers = [number for number in (signal.SIGINT, signal.SIGTERM, signal.SIGHUP) if signal.getsignal(number) != signal.SIG_IGN]
    interrupted, woken = socket.socketpair()
    with interrupted, woken:
        woken.setblocking(False)
        signal.set_wakeup_fd(woken.fileno())
        before = {number: signal.signal(number, lambda *_: None) for number in numbers}
        try:
            yield interrupted
        finally:
            for number, handler in before.items():
                signal.signal(number, handler)
            signal.set_wakeup_fd(-1)


def serve(gateway: Gateway, interrupted: socket.socket) -> None:
    """Serves clients until standard input ends, or there is something to read from the socket."""
    thread = threading.Thread(target=gateway.serve_clients)
    thread.start()
    try:
        while sys.stdin:
            ready, _, _ = select.select([sys.stdin, interrupted], [], [])
            if interrupted in ready or not os.read(sys.stdin.fileno(), 1 << 16):
                break
    finally:
        gateway.end()
        thread.join()


def bound(port: int, prefix: str, parcels: Callable[[], Parcels]) -> Gateway:
    """A gateway on this port. It listens, and answers when it serves."""
    try:
        return Gateway(port, prefix, parcels)
    except OSError as why:
        raise Unbound(f"port {port}: {fault_text(why)}") from None


def run(given: argparse.Namespace) -> None:
    """Does what the options say."""
    try:
        from .redisclient import Parcels
    except ModuleNotFoundError as missing:
        if missing.name != "redis":
            raise
        raise Unusable(NEEDS) from None
    with bound(given.port, given.prefix, lambda: Parcels(given.redis, given.expire)) as gateway:
        keeper = Keeper(gateway, given.expire)
        keeper.warn()
        with interrupts() as interrupted:
            print(f"listening {gateway.server_address[1]}", flush=True)
            keeper.start()
            try:
                serve(gateway, interrupted)
            finally:
                keeper.end()


def redis_of(text: str) -> str:
    """HOST:PORT, or a URL with redis or rediss, as an argument. A text that may have a password isn't shown."""
    if "://" not in text:
        return f"redis://{address_text(*place_of(text))}"
    parts = urlsplit(text)
    with contextlib.suppress(ValueError):
        if parts.scheme in ("redis", "rediss") and parts.hostname and parts.port != 0:
            return text
    raise argparse.ArgumentTypeError("this is neither HOST:PORT nor a URL as redis://HOST:PORT or rediss://HOST:PORT")


def expiry_of(text: str) -> int:
    """Seconds until a key expires that isn't renewed, as an argument."""
    if not text.isdecimal() or not LEAST_EXPIRY <= int(text) <= MOST_EXPIRY:
        raise argparse.ArgumentTypeError(f"{text!r} is not a number of seconds, {LEAST_EXPIRY} to {MOST_EXPIRY}")
    return int(text)


def parser() -> argparse.ArgumentParser:
    """The options of the command line."""
    options = argparse.ArgumentParser(prog="bpfagent-redis", description="Keeps objects that leave an agent in Redis, for `bpfagent serve --far`.")
    add_version(options)
    options.add_argument("--port", type=port_of, default=0, help="port on 127.0.0.1; 0, the default, is any free one")
    options.add_argument(
        "--redis",
        type=redis_of,
        default="redis://127.0.0.1:6379",
        metavar="PLACE",
        help="HOST:PORT (127.0.0.1:6379), or a URL: rediss://USER@HOST:PORT?ssl_ca_certs=FILE; the password is the environment's REDISCLI_AUTH",
    )
    options.add_argument("--prefix", default="bpfagent:", metavar="TEXT", help="begins each key (bpfagent:)")
    options.add_argument("--expire", type=expiry_of, default=EXPIRY, metavar="SECONDS", help=f"Redis drops keys that weren't renewed for so long ({EXPIRY})")
    return options


def main() -> None:
    """The command line."""
    given = parser().parse_args()
    guarded("bpfagent-redis", lambda: run(given), Unbound, Unusable)

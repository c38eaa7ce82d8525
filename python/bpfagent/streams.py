"""Two kinds of stream to an agent, with deadlines: the pipes of a started program, and a connection to a service.

A service is at HOST:PORT, at a socket file, unix:PATH, or behind a front that asks for TLS, tls:HOST:PORT.
A deadline is a time of `time.monotonic`, or None. After it `send` and `receive` raise `TimeoutError`.
"""
from __future__ import annotations

import contextlib
import errno
import os
import select
import socket
import ssl
import subprocess
import threading
import time
from typing import Any, Callable, Optional, Protocol, TypeVar

PIECE = 1 << 16
LAST_PORT = 65_535
# How the place of a socket file begins, and that of a front with TLS.
UNIX, TLS = "unix:", "tls:"
# The environment names the authority that signed the front's certificate, and the client's own certificate with its key. Without an authority it is
# one that the system trusts.
AUTHORITY, CERTIFICATE, KEY = "BPFAGENT_AUTHORITY", "BPFAGENT_CERTIFICATE", "BPFAGENT_KEY"
# How often `idle` is called while something is awaited, in seconds.
TURN = 0.1

# It may raise what ends the waiting.
Idle = Callable[[], None]
T = TypeVar("T")


class Stream(Protocol):
    """Bytes to an agent and back."""

    def send(self, content: bytes, until: Optional[float]) -> None:
        """Writes all of these bytes."""

    def receive(self, until: Optional[float]) -> bytes:
        """Reads the next bytes; none at the end."""

    def close(self) -> None:
        """Ends the stream."""


def left_of(until: Optional[float]) -> Optional[float]:
    """The seconds until a deadline; None if there is none."""
    if until is None:
        return None
    left = until - time.monotonic()
    if left <= 0:
        raise TimeoutError("timed out")
    return left


def awaited(wait: Callable[[Optional[float]], T], until: Callable[[], Optional[float]], idle: Optional[Idle]) -> T:
    """What is awaited, by a call that takes a deadline. As long as it doesn't come `idle` has its turns, and may bring the deadline forward."""
    while idle:
        end, turn = until(), time.monotonic() + TURN
        if end is not None and end <= turn:
            break
        try:
            return wait(turn)
        except (TimeoutError, socket.timeout):
            idle()
    return wait(until())


class Pipes:
    """The standard input and output of a program. They don't end the program, but its input ends."""

    def __init__(self, process: subprocess.Popen[bytes]) -> None:
        assert process.stdin and process.stdout
        self._input, self._output = process.stdin, process.stdout
        os.set_blocking(self._input.fileno(), False)

    def send(self, content: bytes, until: Optional[float]) -> None:
        """Writes all of these bytes to the program's input."""
        rest = memoryview(content)
        while rest:
            try:
                rest = rest[os.write(self._input.fileno(), rest) :]
            except BlockingIOError:
                self._wait([], [self._input.fileno()], until)

    def receive(self, until: Optional[float]) -> bytes:
        """Reads the next bytes of the program's output."""
        if until is not None:
            self._wait([self._output.fileno()], [], until)
        return os.read(self._output.fileno(), PIECE)

    @staticmethod
    def _wait(readers: list[int], writers: list[int], until: Optional[float]) -> None:
        if select.select(readers, writers, [], left_of(until)) == ([], [], []):
            raise TimeoutError("timed out")

    def end_input(self) -> None:
        """Ends the program's input, and leaves its output open."""
        self._input.close()

    def drain(self, until: float) -> None:
        """Ends the program's input, and reads its output up to its end or the deadline. A program whose output is closed while it
        writes would say so on standard error."""
        self.end_input()
        with contextlib.suppress(OSError):
            while self.receive(until):
                pass

    def close(self) -> None:
        """Closes both pipes."""
        self._input.close()
        self._output.close()


def parted(place: str) -> tuple[str, int]:
    """HOST and PORT of a place. Without a host it is this one."""
    host, _, port = place.rpartition(":")
    if not port.isdecimal() or not 1 <= int(port) <= LAST_PORT or "/" in host:
        raise ValueError(f"{place!r} is not HOST:PORT, with a port from 1 to {LAST_PORT}")
    return host.strip("[]") or "127.0.0.1", int(port)


def checked_place(text: str) -> str:
    """The place of a service, HOST:PORT, unix:PATH or tls:HOST:PORT, or a `ValueError`."""
    if not text.startswith(UNIX):
        parted(text.removeprefix(TLS))
    elif text == UNIX or "\0" in text:
        raise ValueError(f"{text!r} is not unix:PATH, with the path of a socket file")
    return text


def reached(place: str, timeout: Optional[float], idle: Optional[Idle] = None) -> socket.socket:
    """A socket that is connected to the service at a place."""
    if checked_place(place).startswith(UNIX):
        return connected_at((socket.AF_UNIX, socket.SOCK_STREAM, 0, "", place[len(UNIX) :]), timeout, idle)
    host, port = parted(place.removeprefix(TLS))
    made = connected(host, port, timeout, idle)
    return secured(made, host) if place.startswith(TLS) else made


def secured(made: socket.socket, host: str) -> ssl.SSLSocket:
    """TLS over a connected socket, with the files that the environment names. It closes the socket if the other side isn't trusted."""
    try:
        context = ssl.create_default_context(cafile=os.environ.get(AUTHORITY))
        if certificate := os.environ.get(CERTIFICATE):
            context.load_cert_chain(certificate, os.environ.get(KEY))
        return context.wrap_socket(made, server_hostname=host)
    except BaseException:
        made.close()
        raise


def connected(host: str, port: int, timeout: Optional[float], idle: Optional[Idle] = None) -> socket.socket:
    """A connected socket. The system would take a number above the last port for another port."""
    if not 0 <= port <= LAST_PORT:
        raise ValueError(f"a port is a number from 0 to {LAST_PORT}, and not {port}")
    *others, last = socket.getaddrinfo(host, port, type=socket.SOCK_STREAM)
    for other in others:
        with contextlib.suppress(OSError):
            return connected_at(other, timeout, idle)
    return connected_at(last, timeout, idle)


def connected_at(found: tuple[Any, ...], timeout: Optional[float], idle: Optional[Idle]) -> socket.socket:
    """A socket that is connected to an address, as `getaddrinfo` finds one."""
    family, kind, protocol, _, address = found
    until = None if timeout is None else time.monotonic() + timeout
    made = socket.socket(family, kind, protocol)
    try:
        made.setblocking(False)
        fault = made.connect_ex(address)
        if fault == errno.EINPROGRESS:
            awaited(lambda end: wait_writable(made, end), lambda: until, idle)
            fault = made.getsockopt(socket.SOL_SOCKET, socket.SO_ERROR)
        if fault:
            raise OSError(fault, os.strerror(fault))
        if family != socket.AF_UNIX:
            made.setsockopt(socket.IPPROTO_TCP, socket.TCP_NODELAY, 1)
        made.settimeout(timeout)
    except BaseException:
        made.close()
        raise
    return made


def wait_writable(stream: socket.socket, until: Optional[float]) -> None:
    """Waits until a socket can be written to, or its connecting has failed."""
    wait_for(stream, select.POLLOUT, until)


def wait_for(stream: socket.socket, events: int, until: Optional[float]) -> None:
    """Waits until one of these events of a socket comes."""
    polled = select.poll()
    polled.register(stream, events)
    left = left_of(until)
    if not polled.poll(None if left is None else 1000 * left):
        raise TimeoutError("timed out")


class Connection:
    """A connection to a service."""

    def __init__(self, made: socket.socket) -> None:
        self._socket = made

    def send(self, content: bytes, until: Optional[float]) -> None:
        """Writes all of these bytes."""
        self._socket.settimeout(left_of(until))
        self._socket.sendall(content)

    def receive(self, until: Optional[float]) -> bytes:
        """Reads the next bytes."""
        self._socket.settimeout(left_of(until))
        return self._socket.recv(PIECE)

    def close(self) -> None:
        """Ends the connection, also for a thread that reads from it."""
        with contextlib.suppress(OSError):
            self._socket.shutdown(socket.SHUT_RDWR)
        self._socket.close()


class SecureConnection(Connection):
    """The same by TLS. One thread may receive while another one sends, which OpenSSL takes only one after the other."""

    def __init__(self, made: ssl.SSLSocket) -> None:
        super().__init__(made)
        made.setblocking(False)
        self._turn = threading.Lock()

    def send(self, content: bytes, until: Optional[float]) -> None:
        """Writes all of these bytes."""
        rest = memoryview(content)
        while rest:
            rest = rest[self._done(lambda: self._socket.send(rest), until) :]

    def receive(self, until: Optional[float]) -> bytes:
        """Reads the next bytes."""
        return self._done(lambda: self._socket.recv(PIECE), until)

    def _done(self, call: Callable[[], T], until: Optional[float]) -> T:
        """What a call gives, as soon as the socket is ready for it."""
        while True:
            try:
                with self._turn:
                    return call()
            except ssl.SSLWantReadError:
                events = select.POLLIN
            except ssl.SSLWantWriteError:
                events = select.POLLOUT
            wait_for(self._socket, events, until)


def connection_over(made: socket.socket) -> Connection:
    """The connection over a connected socket."""
    return SecureConnection(made) if isinstance(made, ssl.SSLSocket) else Connection(made)

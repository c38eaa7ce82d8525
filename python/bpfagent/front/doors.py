"""Where the front listens: a Unix socket, TCP, or sockets that systemd hands over."""
from __future__ import annotations

import asyncio
import contextlib
import errno
import ipaddress
import os
import resource
import socket
import ssl
import stat
from dataclasses import dataclass
from pathlib import Path
from typing import Callable, Optional

from ..commands import address_text
from .wires import READABLE, Wires

# The first descriptor that systemd hands over.
FIRST_HANDED = 3
# As many clients are accepted in one turn, and so many may wait for that.
ACCEPTED, BACKLOG = 64, 1024
# What a process lacks that can't accept a client now. It tries again after this pause, in seconds.
LACKING, PAUSE = (errno.EMFILE, errno.ENFILE, errno.ENOBUFS, errno.ENOMEM), 0.1


class Unbound(Exception):
    """A socket can't be listened on. The text says why."""


@dataclass(frozen=True)
class Door:
    """A socket that listens, its kind, and its name for people."""

    socket: socket.socket
    kind: str
    name: str
    context: Optional[ssl.SSLContext] = None


def door_of(made: socket.socket, context: Optional[ssl.SSLContext]) -> Door:
    """A socket that listens, with TLS if it is one of TCP."""
    name = made.getsockname()
    if made.family == socket.AF_UNIX:
        return Door(made, "unix", os.fsdecode(name))
    return Door(made, "tls" if context else "tcp", address_text(name[0], name[1]), context)


class Doorkeeper:
    """Accepts the clients of a door."""

    def __init__(self, wires: Wires, door: Door, came: Callable[[socket.socket, Door], None], lacks: Callable[[str], None]) -> None:
        """`came` gets each client, and `lacks` is told when there is no descriptor or memory for another one."""
        self._wires, self._door, self._came, self._lacks = wires, door, came, lacks
        self._number = door.socket.fileno()
        self._is_lacking = self._is_closed = False
        door.socket.setblocking(False)
        wires.watch(self._number, self._accept)

    def _accept(self, _: int) -> None:
        for _ in range(ACCEPTED):
            try:
                made, _address = self._door.socket.accept()
            except BlockingIOError:
                break
            except OSError as why:
                if why.errno in LACKING:
                    self._rest(why)
                    return
                continue
            self._came(made, self._door)
        self._is_lacking = False

    def _rest(self, why: OSError) -> None:
        """Accepts nobody for a moment. Who waits to be accepted goes on waiting."""
        if not self._is_lacking:
            self._lacks(why.strerror)
        self._is_lacking = True
        self._wires.change(self._number, 0)
        asyncio.get_running_loop().call_later(PAUSE, self._go_on)

    def _go_on(self) -> None:
        if not self._is_closed:
            self._wires.change(self._number, READABLE)

    def close(self) -> None:
        """Accepts nobody any more."""
        self._is_closed = True
        self._wires.forget(self._number)
        self._door.socket.close()


def raise_limit() -> None:
    """Lets this process have as many descriptors as it may."""
    soft, hard = resource.getrlimit(resource.RLIMIT_NOFILE)
    if soft != hard:
        with contextlib.suppress(ValueError, OSError):
            resource.setrlimit(resource.RLIMIT_NOFILE, (hard, hard))


def is_loopback(host: str) -> bool:
    """Whether only this machine reaches an address."""
    try:
        return ipaddress.ip_address(host).is_loopback
    except ValueError:
        return host == "localhost"


def untaken(host: str, port: int, why: OSError) -> Unbound:
    """Why a TCP port can't be listened on, in the system's words: Python adds to them, in several ways."""
    reason = os.strerror(why.errno) if why.errno and why.errno > 0 else (why.strerror or str(why)).partition(" (while")[0]
    return Unbound(f"{host}:{port}: {reason}")


def tcp(host: str, port: int) -> socket.socket:
    """A socket that listens on a TCP port."""
    try:
        return socket.create_server((host, port), family=socket.AF_INET6 if ":" in host else socket.AF_INET, backlog=BACKLOG)
    except OSError as why:
        raise untaken(host, port, why) from None


def unix(path: Path, mode: int, group: Optional[int]) -> socket.socket:
    """A socket that listens at a path. It is made in a private folder and linked when its mode is right, so nobody connects before. A
    socket that was left by a server that is gone is removed; anything else that is there is refused."""
    remove_left(path)
    folder = path.with_name(f".{path.name}.{os.getpid()}")
    made = socket.socket(socket.AF_UNIX, socket.SOCK_STREAM)
    try:
        folder.mkdir(mode=0o700)
        try:
            inside = folder / "s"
            made.bind(os.fspath(inside))
            if group is not None:
                os.chown(inside, -1, group)
            inside.chmod(mode)
            made.listen(BACKLOG)
            os.link(inside, path)
        finally:
            with contextlib.suppress(FileNotFoundError):
                (folder / "s").unlink()
            folder.rmdir()
    except OSError as why:
        made.close()
        raise Unbound(f"{path}: {why.strerror or why}") from None
    return made


def remove_left(path: Path) -> None:
    """Removes a socket to which nobody listens."""
    try:
        found = path.lstat()
    except FileNotFoundError:
        return
    if not stat.S_ISSOCK(found.st_mode):
        raise Unbound(f"{path}: it is there, and is no socket")
    with socket.socket(socket.AF_UNIX, socket.SOCK_STREAM) as probe:
        try:
            probe.connect(os.fspath(path))
        except ConnectionRefusedError:
            path.unlink(missing_ok=True)
            return
        except OSError as why:
            raise Unbound(f"{path}: {why.strerror or why}") from None
    raise Unbound(f"{path}: somebody listens there")


def handed() -> list[socket.socket]:
    """The sockets that systemd hands over."""
    if os.environ.get("LISTEN_PID") != str(os.getpid()):
        return []
    count = os.environ.get("LISTEN_FDS", "")
    return [socket.socket(fileno=number) for number in range(FIRST_HANDED, FIRST_HANDED + (int(count) if count.isdecimal() else 0))]


def tls(certificate: Path, key: Path, authority: Optional[Path]) -> ssl.SSLContext:
    """TLS with this certificate. With an authority a client has to show a certificate that it signed."""
    context = ssl.SSLContext(ssl.PROTOCOL_TLS_SERVER)
    context.minimum_version = ssl.TLSVersion.TLSv1_2
    try:
        context.load_cert_chain(certificate, key)
        if authority:
            context.verify_mode = ssl.CERT_REQUIRED
            context.load_verify_locations(authority)
    except (OSError, ssl.SSLError) as why:
        raise Unbound(f"the certificates can't be read: {why}") from None
    return context


def fault_of(why: BaseException) -> str:
    """What is wrong with a client's TLS."""
    return (why.reason or str(why)) if isinstance(why, ssl.SSLError) else str(why) or "it took too long"


def notify(state: str) -> None:
    """Tells systemd of a state, if it asked to be told."""
    address = os.environ.get("NOTIFY_SOCKET", "")
    if not address:
        return
    with contextlib.suppress(OSError), socket.socket(socket.AF_UNIX, socket.SOCK_DGRAM) as stream:
        stream.connect("\0" + address[1:] if address.startswith("@") else address)
        stream.sendall(state.encode())

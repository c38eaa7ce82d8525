#!/usr/bin/env python3
"""Runs `bpfagent serve --unix`: door.py PROGRAM

It says the right name, and the file has the right mode under each umask. Another user and a web page can't use it. Files may be there already, paths
can't be had, and several services want one path. The end and a signal leave no more than they should.
"""
from __future__ import annotations

import contextlib
import http.client
import os
import pathlib
import shutil
import signal
import socket
import stat
import subprocess
import sys
import tempfile
from typing import Callable, Iterator

sys.path.insert(0, str(pathlib.Path(__file__).resolve().parents[1]))
from lib.checks import run_parts, want, want_equal
from lib.programs import SECONDS, Client, FileService, Process, Service, ended, noted, object_line, opened

# The longest path, and what a service is asked to make in the parts below.
LONGEST = 103
SETUP = "make 8\n"
FAULT = "net fault\n"
NAME = "agent.sock"
# A user that owns nothing here, and how often it tries: more than a unit is started in a minute.
OTHER, TRIES = 65534, 40
# Connects to a path so often, and says what came of it.
CONNECTS = """import socket, sys
for _ in range(int(sys.argv[2])):
    try:
        socket.socket(socket.AF_UNIX).connect(sys.argv[1])
        print("connected")
    except OSError as why:
        print(why.strerror)"""
# Changes an object by a port, and says what is answered.
CHANGES = """import socket, sys
stream = socket.create_connection(("127.0.0.1", int(sys.argv[1])))
stream.sendall(b"put 1 0 2a\\n")
print(stream.recv(9).decode())"""
# What a web page may send to any address without asking it first.
HEADERS = {"Origin": "http://elsewhere.example", "Content-Type": "text/plain"}
SHIPS = "ship 10 0 0 0 0 0 9500000000000000\n"


@contextlib.contextmanager
def folder() -> Iterator[pathlib.Path]:
    """A new folder with a short path, which every user may enter."""
    with tempfile.TemporaryDirectory(dir="/tmp") as name:
        pathlib.Path(name).chmod(0o755)
        yield pathlib.Path(name)


def names(where: pathlib.Path) -> list[str]:
    """What is in a folder."""
    return sorted(found.name for found in where.iterdir())


def mode(path: pathlib.Path) -> int:
    """The permissions of a file."""
    return stat.S_IMODE(path.lstat().st_mode)


def served(program: str, *words: object, setup: str = SETUP) -> tuple[int, str, str]:
    """The status, standard output and standard error of a service that takes no connection."""
    status, output, errors = ended(program, "serve", *words, given=setup.encode())
    return status, output.decode(), errors.decode()


def asks(service: FileService) -> None:
    """A client that is served, and goes."""
    with Client(service) as client:
        want_equal(client.ask("get 1 0 8"), f"bytes {'00' * 8}", "a client at a socket file")


def ends(service: FileService, what: str) -> None:
    """It ends with its last connection, and its files are gone."""
    status, output, errors = service.end()
    want_equal((status, output.decode(), errors), (0, f"closed\n{object_line(1, bytes(8))}\n", b""), what)
    want_equal(names(service.path.parent), [], f"what is left: {what}")


def show_name(program: str) -> None:
    """It says the path as it was given, and its clients are served beside each other."""
    with folder() as where:
        longest = where / ("x" * (LONGEST - len(str(where)) - 1))
        for path in (where / NAME, NAME, f"./{NAME}", longest, "é ü"):
            service = FileService(program, path, "--connections", 2, cwd=where)
            want_equal((service.told, service.name), (["made 1"], str(path)), "the name that is said")
            want(stat.S_ISSOCK(service.path.lstat().st_mode), "no socket is there")
            with Client(service) as first, Client(service) as second:
                want_equal(first.ask("put 1 0 2a"), "ok", "a client")
                want_equal(second.ask("get 1 0 1"), "bytes 2a", "another client")
                want_equal(first.ask("put 1 0 00"), "ok", "a client again")
            ends(service, "a service at a socket file")


def show_mode(program: str) -> None:
    """Whatever the umask, only the owner may connect, and nothing but the socket and its lock is there."""
    for mask in (0o000, 0o022, 0o077, 0o777):
        with folder() as where:
            service = FileService(program, where / NAME, umask=mask)
            want_equal(names(where), [NAME, f"{NAME}.lock"], f"the files under umask {mask:03o}")
            want_equal(mode(where / NAME), 0o600, f"the socket's mode under umask {mask:03o}")
            want_equal(mode(where / f"{NAME}.lock"), 0o600, f"the lock's mode under umask {mask:03o}")
            want_equal((where / NAME).stat().st_uid, os.getuid(), "its owner")
            asks(service)
            ends(service, f"under umask {mask:03o}")


def as_other(*words: object) -> str:
    """What a program says that another user runs."""
    command = ["setpriv", f"--reuid={OTHER}", f"--regid={OTHER}", "--clear-groups", *map(str, words)]
    return subprocess.run(command, stdout=subprocess.PIPE, check=True, timeout=SECONDS, text=True, cwd="/").stdout.strip()


def show_other_user(program: str) -> str | None:
    """Another user can't connect to the socket, and can to a port."""
    if os.getuid():
        return "another user is left out: that needs root"
    with folder() as where:
        service = FileService(program, where / NAME)
        found = as_other("/usr/bin/python3", "-c", CONNECTS, where / NAME, TRIES).splitlines()
        want_equal(found, ["Permission denied"] * TRIES, "another user at the socket")
        asks(service)
        ends(service, "after another user came")
    service, client = opened(program, "--connections", 2, "--workers", 0, setup=["make 8"])
    with client:
        want_equal(as_other("/usr/bin/python3", "-c", CHANGES, service.port), "ok", "another user at a port")
        want_equal(client.ask("get 1 0 1"), "bytes 2a", "what another user changed")
    want_equal(service.end()[0], 0, "the end of a service that another user changed")
    return None


def listening_ports(pid: int) -> list[str]:
    """The sockets of a process that are in the system's lists of TCP and UDP."""
    own = {os.readlink(file) for file in pathlib.Path(f"/proc/{pid}/fd").iterdir() if file.is_symlink()}
    lists = [pathlib.Path(f"/proc/{pid}/net/{kind}") for kind in ("tcp", "tcp6", "udp", "udp6")]
    rows = [row.split() for found in lists if found.exists() for row in found.read_text().splitlines()[1:]]
    return [row[1] for row in rows if f"socket:[{row[9]}]" in own]


def show_web_page(program: str) -> None:
    """What a web page can post is done by a service at a port. A service at a socket file has no port."""
    service = Service(program, "--workers", 0)
    page = http.client.HTTPConnection("127.0.0.1", service.port, timeout=SECONDS)
    with contextlib.suppress(http.client.HTTPException):
        page.request("POST", "/", SHIPS, HEADERS)
        # it is the reply to no request
        page.getresponse()
    # Whoever goes with replies unread may be cut off before all is read that it sent.
    page.sock.shutdown(socket.SHUT_WR)
    while page.sock.recv(1 << 16):
        pass
    page.close()
    status, output, _ = service.texts()
    want((status, output.startswith("closed\nregs 1 ")) == (0, True), f"what a web page posts to a port: {output}")
    with folder() as where:
        quiet = FileService(program, where / NAME)
        want_equal(listening_ports(quiet.process.pid), [], "the ports of a service at a socket file")
        asks(quiet)
        ends(quiet, "a service without a port")


def leave_socket(path: pathlib.Path) -> None:
    """Leaves a socket file at which nobody listens."""
    with socket.socket(socket.AF_UNIX) as made:
        made.bind(str(path))


def show_left(program: str) -> None:
    """After a signal the socket and its lock stay. The next service at that path removes them, and what one left that was killed as it began."""
    with folder() as where:
        path = where / NAME
        for number in (signal.SIGTERM, signal.SIGKILL, signal.SIGINT):
            service = FileService(program, path)
            want_equal((service.name, service.stopped(number)), (str(path), -number), f"a service and {number.name}")
            want_equal(names(where), [NAME, f"{NAME}.lock"], f"what is left after {number.name}")
            with contextlib.suppress(ConnectionRefusedError):
                service.connect().close()
                want(False, "somebody listens at a socket that was left")
        (where / f"{NAME}.d").mkdir()
        leave_socket(where / f"{NAME}.d/s")
        service = FileService(program, path)
        asks(service)
        ends(service, "at a socket that was left")
        leave_socket(path)
        service = FileService(program, path)
        asks(service)
        ends(service, "at a socket that another program left")


def show_answering(program: str) -> None:
    """A path at which somebody listens is refused, and who listens there loses no client, also when it has all its connections."""
    with folder() as where:
        path = where / NAME
        first = FileService(program, path)
        want_equal(served(program, "--unix", path), (3, "made 1\n", FAULT), "a service where another listens")
        with Client(first) as client:
            want_equal(client.ask("get 1 0 8"), f"bytes {'00' * 8}", "the only client")
            want_equal(served(program, "--unix", path), (3, "made 1\n", FAULT), "a service where another has its clients")
            want_equal(names(where), [NAME, f"{NAME}.lock"], "the files of the first")
        ends(first, "the first service")
        with socket.socket(socket.AF_UNIX) as other:
            other.bind(str(path))
            other.listen()
            want_equal(served(program, "--unix", path), (3, "made 1\n", FAULT), "a service where another program listens")
            want_equal(names(where), [NAME], "the file of another program")


def show_files(program: str) -> None:
    """A file that is no socket stays, and the path is refused."""
    with folder() as where:
        path, elsewhere = where / NAME, where / "elsewhere"
        leave_socket(elsewhere)
        made: list[tuple[Callable[[], object], Callable[[], None]]] = [
            (path.touch, path.unlink), (path.mkdir, path.rmdir), (lambda: path.symlink_to(elsewhere), path.unlink),
            (lambda: path.symlink_to(where / "nothing"), path.unlink), (lambda: os.mkfifo(path), path.unlink),
        ]
        for make, remove in made:
            make()
            before = path.lstat()
            want_equal(served(program, "--unix", path), (3, "made 1\n", FAULT), f"a path where something else is: {before}")
            want_equal((path.lstat().st_ino, names(where)), (before.st_ino, sorted([NAME, "elsewhere"])), "what is there afterwards")
            remove()


def show_paths(program: str) -> None:
    """A path that is empty, too long or more than a line, whose folder isn't there, or is another's, is `net fault` after the setup."""
    with folder() as where:
        too_long = where / ("x" * (LONGEST - len(str(where))))
        for path in ("", too_long, where / ("y" * 300), where / "none" / NAME, where / "a\nb", "/proc/agent.sock"):
            want_equal(served(program, "--unix", path), (3, "made 1\n", FAULT), f"the path {str(path)!r}")
        want_equal(names(where), [], "what refused paths leave")
        leaving = "make 8\nleave 1\n"
        want_equal(served(program, "--unix", where / "none" / NAME, setup=leaving), (3, "made 1\nleaving 1\n", FAULT), "a path, and an object that isn't here")
        want_equal(served(program, "--unix", where / NAME, setup=leaving), (1, "made 1\nleaving 1\n", "object 1 isn't here\n"), "an object that isn't here")
        want_equal(names(where), [], "what a service leaves that didn't listen")
        if os.getuid():
            where.chmod(0o555)
            want_equal(served(program, "--unix", where / NAME), (3, "made 1\n", FAULT), "a folder that isn't writable")
            where.chmod(0o755)
            return
        with folder() as own:
            copy = shutil.copy(program, own / "bpfagent")
            said = as_other("sh", "-c", f"echo make 8 | {copy} serve --unix {where / NAME} 2>&1; echo $?")
        want_equal(said, "made 1\nnet fault\n3", "a folder that isn't writable")
        want_equal(names(where), [], "what is made in another's folder")


def show_words(program: str) -> None:
    """`--unix` beside a port is wrong, whatever the port, and nothing is read or made."""
    with folder() as where:
        for port in (["--port", "0"], ["--port=7070"]):
            with open("/dev/full", "wb") as full:
                done = ended(program, "serve", *port, "--unix", where / NAME, "--far", "x", given=SETUP.encode(), stdout=full)
            want_equal((done[0], done[2]), (2, b"error: --unix takes the place of --port\n"), f"{port} beside --unix")
        for words in (["--unix"], ["--unix=a", "--unix=b"]):
            status, output, errors = served(program, *words)
            want((status, output) == (2, "") and errors.startswith("error: "), f"{words} ended with {status}, {output}, {errors}")
        want_equal(names(where), [], "what wrong words make")


def show_notes(program: str) -> None:
    """With `-v` it says where it listens, and why it can't."""
    with folder() as where:
        path = where / NAME
        service = FileService(program, path, "-v")
        status, _, errors = ended(program, "serve", "-v", "--unix", path, given=b"")
        want_equal((status, noted(errors)), (3, ([f"somebody listens at {path}"], ["net fault"])), "a path that is taken")
        status, _, errors = ended(program, "serve", "-v", "--unix", where / "none" / NAME, given=b"")
        want_equal((status, noted(errors)), (3, ([f"no socket can be made at {where / 'none' / NAME}"], ["net fault"])), "a path that can't be had")
        asks(service)
        notes, others = noted(service.end()[2])
        want_equal((notes[:3], others), ([f"listening at {path}", "client 1 came", "client 1 went"], []), "what a service says")


def listens(process: Process) -> bool:
    """Whether a service comes to listen, and doesn't end before."""
    return any(line.startswith(b"listening ") for line in iter(process.process.stdout.readline, b""))


def show_race(program: str) -> None:
    """Of services that begin at the same time at one path one listens, and the others are refused; also where a socket was left."""
    for is_left in (False, True):
        with folder() as where, contextlib.ExitStack() as held:
            path = where / NAME
            if is_left:
                leave_socket(path)
            begun = [held.enter_context(Process(program, "serve", "--unix", path, "--workers", 0)) for _ in range(6)]
            for process in begun:
                process.give(SETUP)
            found = [listens(process) for process in begun]
            want_equal(found.count(True), 1, "how many of six services listen")
            with socket.socket(socket.AF_UNIX) as stream:
                stream.connect(str(path))
            wanted = {True: (0, b""), False: (3, FAULT.encode())}
            want_equal([process.end()[0::2] for process in begun], [wanted[is_first] for is_first in found], "how six services end")
            want_equal(names(where), [], "what six services leave")


SHOWN = [
    show_name, show_mode, show_other_user, show_web_page, show_left, show_answering, show_files, show_paths, show_words, show_notes, show_race,
]


if __name__ == "__main__":
    # A shell that starts this in the background has it ignored, and so would the services.
    signal.signal(signal.SIGINT, signal.default_int_handler)
    run_parts("door", SHOWN)

"""Starts and stops the program, for the tests of the product."""
from __future__ import annotations

import atexit
import contextlib
import ctypes
import datetime
import fcntl
import functools
import hashlib
import os
import pathlib
import random
import re
import resource
import signal
import socket
import struct
import subprocess
import sys
import tempfile
import termios
import time
from types import TracebackType
from typing import Any, Callable, Iterable, Iterator, Mapping, Protocol, Sequence, TypeVar

from lib.checks import Failed, want

# How long a program, or one answer of it, may take, in seconds.
SECONDS = 60
# How long something that comes by itself may take, also on a busy machine, in seconds.
LONG = 180
# How much slower a program of `make try` is taken to be: it has run-time checks and isn't optimized.
SLOWER = 20
# How often what has a bound by the clock is measured at most. A machine that does much else may delay it once, or a few times.
TRIES = 8
# How long Python takes to begin and to end on a quiet machine, in seconds.
BEGINS = 0.05
# Ports that Linux gives to nobody who asks for any.
PORTS = range(10_000, 32_768)
# What the stack of a thread takes where there are to be few of them: more than all else that a thread takes.
STACK = 1 << 30
# Linux' number of the call that takes a file of another process.
PIDFD_GETFD = 438
LISTENING = re.compile(r"listening (\d+)\n")
# A line that a server writes with `-v`.
# What a service says at its end of objects that are far.
LEFT_OUT = re.compile(r"(\d+) objects? of \d+ bytes? (?:is|are) far at the end, and (?:dropped by the far store|lost with this process)\n")
NOTED = re.compile(r"(\d{4}-\d{2}-\d{2}T\d{2}:\d{2}:\d{2}\.\d{3})Z (.*)")


@functools.lru_cache(maxsize=None)
def has_checks(program: str | pathlib.Path) -> bool:
    """Whether it is a program of `make try`, which has run-time checks, is slow and takes much memory."""
    return b"AddressSanitizer" in pathlib.Path(program).read_bytes()


def patience(program: str | pathlib.Path) -> int:
    """By how much the time limits of this program are multiplied."""
    return SLOWER if has_checks(program) else 1


def run(*words: object, seconds: float = 900, **how: Any) -> str:
    """What a command writes that has to end well."""
    said = [str(word) for word in words]
    done = subprocess.run(said, stdin=subprocess.DEVNULL, stdout=subprocess.PIPE, stderr=subprocess.STDOUT, text=True, errors="replace", timeout=seconds, **how)
    want(done.returncode == 0, f"{' '.join(said)} ended with {done.returncode}: {done.stdout.strip()[-2000:]}")
    return done.stdout.strip()


def ended(*command: object, given: bytes = b"", seconds: float = SECONDS, limits: Mapping[int, int] | None = None, **how: Any) -> tuple[int, bytes, bytes]:
    """The status, standard output and standard error of a program that has this input, or the streams that are named."""
    if "stdin" not in how:
        how["input"] = given
    how.setdefault("stdout", subprocess.PIPE)
    words = [word if isinstance(word, bytes) else str(word) for word in command]
    done = subprocess.run(words, stderr=subprocess.PIPE, timeout=seconds, preexec_fn=limited_to(limits), **how)
    return done.returncode, done.stdout or b"", done.stderr


@contextlib.contextmanager
def unreadable() -> Iterator[int]:
    """A descriptor from which reading fails: that of a folder."""
    made = os.open("/", os.O_RDONLY)
    try:
        yield made
    finally:
        os.close(made)


def limited_to(limits: Mapping[int, int] | None) -> Callable[[], None] | None:
    """Limits a child process, each resource by its number, where there are limits."""

    def limit() -> None:
        for kind, most in (limits or {}).items():
            resource.setrlimit(kind, (most, resource.getrlimit(kind)[1]))

    return limit if limits else None


def of_data(program: str, data: int) -> dict[int, int]:
    """The limit of so many bytes of data; a program with run-time checks is left alone."""
    return {} if has_checks(program) else {resource.RLIMIT_DATA: data}


def size_of(pid: int | str, field: str) -> int:
    """How many bytes of this kind a process has, by its status."""
    return int(re.search(rf"{field}:\s*(\d+) kB", pathlib.Path(f"/proc/{pid}/status").read_text())[1]) << 10


def of_threads(pid: int, name: str) -> dict[str, str]:
    """What a file of proc(5) has about each thread of a process that is still there when it is read."""
    found: dict[str, str] = {}
    for thread in os.listdir(f"/proc/{pid}/task"):
        with contextlib.suppress(FileNotFoundError, ProcessLookupError):
            found[thread] = pathlib.Path(f"/proc/{pid}/task/{thread}/{name}").read_text()
    return found


def threads_of(pid: int) -> dict[str, tuple[float, float]]:
    """For how many seconds each thread of a process has run, and for how many it waited for a processor."""
    words = {thread: text.split() for thread, text in of_threads(pid, "schedstat").items()}
    return {thread: (int(ran) / 1e9, int(waited) / 1e9) for thread, (ran, waited, _) in words.items()}


def processor_time(pid: int) -> float:
    """The seconds that all threads of a process have run."""
    return sum(ran for ran, _ in threads_of(pid).values())


def files_of(pid: int, kind: str) -> list[int]:
    """The numbers of a process' open files of a kind, `socket` or `pipe`."""
    return sorted(int(file.name) for file in pathlib.Path(f"/proc/{pid}/fd").iterdir() if os.readlink(file).startswith(f"{kind}:"))


def taken_from(pid: int, number: int) -> int:
    """A file that another process has open, as one of this process."""
    process = os.pidfd_open(pid)
    taken = ctypes.CDLL(None, use_errno=True).syscall(PIDFD_GETFD, process, number, 0)
    os.close(process)
    want(taken >= 0, f"file {number} of a process can't be had: {os.strerror(ctypes.get_errno())}")
    return int(taken)


def break_listener(pid: int) -> None:
    """Shuts down the first socket of a process, its listener: it can't accept a client any more."""
    with socket.socket(fileno=taken_from(pid, files_of(pid, "socket")[0])) as listener:
        listener.shutdown(socket.SHUT_RDWR)


def unread(pid: int) -> int:
    """How many bytes that others sent lie in a process' sockets, and in the pipe of its standard input."""
    count = 0
    # Whoever has stopped opens and closes none of them.
    for number in [*files_of(pid, "socket"), *(number for number in files_of(pid, "pipe") if number == 0)]:
        taken, size = taken_from(pid, number), bytearray(4)
        # A listener has no bytes.
        with contextlib.suppress(OSError):
            fcntl.ioctl(taken, termios.FIONREAD, size)
        os.close(taken)
        count += struct.unpack("i", size)[0]
    return count


def states_of(pid: int) -> list[str]:
    """The states of a process' threads, each a letter of proc(5)."""
    return [text.rpartition(")")[2].split()[0] for text in of_threads(pid, "stat").values()]


def has_gone(pid: int) -> bool:
    """Whether a process has ended. If nobody has asked for its status yet, it is still listed."""
    try:
        return pathlib.Path(f"/proc/{pid}/stat").read_text().rpartition(")")[2].split()[0] in "ZX"
    except (FileNotFoundError, ProcessLookupError):
        return True


def room_for(program: str, threads: int) -> dict[int, int]:
    """Limits under which so many threads have room for their stacks, and no more, beside what the program takes that starts none."""
    with Process(program, "run") as process:
        process.answer(b"step 1\n")
        size = size_of(process.process.pid, "VmSize")
    return {resource.RLIMIT_STACK: STACK, resource.RLIMIT_AS: size + threads * STACK + STACK // 2}


Found = TypeVar("Found")


def until(what: str, look: Callable[[], Found], seconds: float = LONG, pause: float = 0.001) -> Found:
    """What a look gives as soon as it gives something, with a pause after each that gives nothing."""
    end = time.monotonic() + seconds
    while time.monotonic() < end:
        if found := look():
            return found
        time.sleep(pause)
    raise Failed(what)


def slowness() -> float:
    """By how much this machine is slower now than a quiet one: by how long Python takes to begin and to end."""
    start = time.monotonic()
    subprocess.run([sys.executable, "-S", "-c", ""], check=True)
    return max(1.0, (time.monotonic() - start) / BEGINS)


def few_times(measure: Callable[[], float], most: float, tries: int = TRIES) -> list[float]:
    """Nothing if what is measured is at most so much once in a few tries; otherwise what was measured. Whatever else is wrong has to fail at once."""
    found: list[float] = []
    for _ in range(tries):
        found.append(measure())
        if found[-1] <= most:
            return []
    return found


def in_time(measure: Callable[[], float], most: float, tries: int = TRIES) -> list[float]:
    """The same of seconds by the clock. A machine that is slow now may take longer."""

    def slowly() -> float:
        took = measure()
        return took if took <= most else took / slowness()

    return few_times(slowly, most, tries)


def is_heard(host: str, port: int) -> bool:
    """Whether somebody listens on this port of an address."""
    try:
        socket.create_connection((host, port), timeout=SECONDS).close()
    except ConnectionRefusedError:
        return False
    return True


def free_port() -> int:
    """A port of this host on which nobody listens, and which nobody gets who asks for any."""
    while True:
        port = random.SystemRandom().choice(PORTS)
        with contextlib.suppress(OSError), socket.create_server(("127.0.0.1", port)):
            return port


@contextlib.contextmanager
def redis_server(*options: str) -> Iterator[int]:
    """The port of a redis-server that keeps nothing on disk, and has a bound."""
    port = free_port()
    with tempfile.TemporaryDirectory() as folder:
        alone = ["--bind", "127.0.0.1", "--save", "", "--appendonly", "no", "--dir", folder, "--maxmemory", "1gb"]
        process = subprocess.Popen(["redis-server", "--port", str(port), *alone, *options], stdout=subprocess.DEVNULL)
        try:
            until("redis-server doesn't listen", lambda: is_heard("127.0.0.1", port))
            yield port
        finally:
            process.terminate()
            process.wait(SECONDS)


P = TypeVar("P", bound="Process")


class Process:
    """A program that was started with pipes. Leaving its block kills it where it hasn't ended, and so does the end of the script."""

    def __init__(self, *command: object, limits: Mapping[int, int] | None = None, **how: Any) -> None:
        pipe = subprocess.PIPE
        self.process = subprocess.Popen([str(word) for word in command], stdin=pipe, stdout=pipe, stderr=pipe, preexec_fn=limited_to(limits), **how)
        atexit.register(self.process.kill)

    def __enter__(self: P) -> P:
        return self

    def __exit__(self, kind: type[BaseException] | None, error: BaseException | None, trace: TracebackType | None) -> None:
        self.process.kill()
        self.process.communicate()

    def give(self, text: str) -> None:
        """Its whole input."""
        self.process.stdin.write(text.encode())
        self.process.stdin.close()
        # `communicate` flushes an input that isn't there any more.
        self.process.stdin = None

    def hear_port(self) -> tuple[list[str], int | None]:
        """The lines before `listening P`, and P; no port where it ends before."""
        told: list[str] = []
        while line := self.process.stdout.readline().decode():
            if found := LISTENING.fullmatch(line):
                return told, int(found[1])
            told.append(line.rstrip("\n"))
        return told, None

    def answer(self, line: bytes) -> bytes:
        """The line that comes when it has this one."""
        self.process.stdin.write(line)
        self.process.stdin.flush()
        return self.process.stdout.readline()

    def end(self) -> tuple[int, bytes, bytes]:
        """Its input ends: the status, the rest of its output, and standard error."""
        output, errors = self.process.communicate(timeout=SECONDS)
        return self.process.returncode, output, errors


class Listener(Process):
    """A program that listens on a port of this host, after this input, if it gets one before."""

    def __init__(self, *command: object, given: str | None = None, limits: Mapping[int, int] | None = None, **how: Any) -> None:
        super().__init__(*command, limits=limits, **how)
        if given is not None:
            self.give(given)
        self.told, self.port = self.hear_port()

    def connect(self) -> socket.socket:
        return socket.create_connection(("127.0.0.1", self.port), timeout=SECONDS)


class Server(Listener):
    """A server of far memory, `bpfagent store` or another, listening."""

    def __init__(self, program: object, *arguments: object, limits: Mapping[int, int] | None = None) -> None:
        super().__init__(program, "store", *arguments, limits=limits)


class Service(Listener):
    """`bpfagent serve`, listening after these commands of its input."""

    def __init__(self, program: object, *arguments: object, setup: Iterable[str] = (), limits: Mapping[int, int] | None = None, **how: Any) -> None:
        super().__init__(program, "serve", *arguments, given="".join(f"{command}\n" for command in setup), limits=limits, **how)

    def texts(self) -> tuple[int, str, str]:
        """When it has ended: the status, the rest of its output, and standard error."""
        status, output, errors = self.end()
        return status, output.decode(), errors.decode()

    def ends_with(self, lines: Iterable[str]) -> bool:
        """Whether it ended by itself, and said that it closed, and then these lines."""
        status, output, errors = self.texts()
        return status == 0 and output == "".join(f"{line}\n" for line in ["closed", *lines]) and tells_what_is_out(output, errors)

    def ends_well(self, objects: Mapping[int, bytes] | None = None, machines: Sequence[str] = (), may_be_out: bool = False) -> bool:
        """Whether it ended by itself, and left these objects, by number, and machines, by their `regs` lines. The mover may still have an object."""
        objects = objects or {}
        status, output, errors = self.texts()
        said, lines = output.splitlines(), [object_line(number, held) for number, held in objects.items()]
        if may_be_out and len(said) > len(lines):
            lines = [out if found == out else line for line, found, out in zip(lines, said[1:], [f"object {number} out" for number in objects])]
        return status == 0 and tells_what_is_out(output, errors) and output.endswith("\n") and said == ["closed", *lines, *machines]


class FileService(Process):
    """`bpfagent serve --unix` without workers, listening after these commands of its input."""

    def __init__(self, program: str, path: object, *arguments: object, setup: str = "make 8\n", **how: Any) -> None:
        super().__init__(program, "serve", "--unix", path, "--workers", 0, *arguments, **how)
        self.path = pathlib.Path(how.get("cwd", ".")) / str(path)
        self.give(setup)
        self.told: list[str] = []
        self.name = ""
        while line := os.fsdecode(self.process.stdout.readline()).rstrip("\n"):
            if line.startswith("listening "):
                self.name = line.partition(" ")[2]
                break
            self.told.append(line)

    def connect(self) -> socket.socket:
        stream = socket.socket(socket.AF_UNIX)
        stream.settimeout(SECONDS)
        stream.connect(str(self.path))
        return stream

    def stopped(self, number: signal.Signals) -> int:
        """Its status after a signal."""
        self.process.send_signal(number)
        return self.end()[0]


class Connectable(Protocol):
    """A service that a client can connect to."""

    def connect(self) -> socket.socket: ...


class Client:
    """A connection to a service that is asked line by line. Leaving its block closes it."""

    def __init__(self, service: Connectable) -> None:
        self.stream = service.connect()
        self.replies = self.stream.makefile("r", newline="\n")

    def __enter__(self) -> Client:
        return self

    def __exit__(self, kind: type[BaseException] | None, error: BaseException | None, trace: TracebackType | None) -> None:
        # The stream stays open as long as the file does.
        self.replies.close()
        self.stream.close()

    def ask(self, command: str) -> str:
        self.stream.sendall(f"{command}\n".encode())
        return self.replies.readline().rstrip("\n")

    def ask_at_once(self, commands: Sequence[str]) -> list[str]:
        """The replies to commands that are sent together."""
        self.stream.sendall("".join(f"{command}\n" for command in commands).encode())
        return [self.replies.readline().rstrip("\n") for _ in commands]

    def ask_until(self, command: str, wanted: str, seconds: float = LONG, pause: float = 0.0) -> str:
        """The first reply that begins so, within so many seconds, with a pause before each."""
        reply, end = "", time.monotonic() + seconds
        while time.monotonic() < end:
            time.sleep(pause)
            reply = self.ask(command)
            if reply.startswith(wanted):
                return reply
        raise Failed(f"{command} is answered {reply}, and not {wanted}")

    def until_away(self, number: int, held: str = "bytes ") -> None:
        """An object of eight bytes or more, whose first ones are answered so, is asked to leave until a reading finds it away, which asks for it
        to return. It stays where a reading meets the mover."""

        def look() -> bool:
            want((reply := self.ask(f"leave {number}")) == f"asked {number}", f"leave {number} is answered {reply}")
            time.sleep(0.001)
            reply = self.ask(f"get {number} 0 8")
            want(reply.startswith((held, f"busy {number}", f"away {number}")), f"object {number} is read as {reply}, and not {held}")
            return reply == f"away {number}"

        until(f"object {number} doesn't leave", look)

    def there_and_back(self, held: str, number: int = 1) -> None:
        """An object that begins with eight bytes which are answered so leaves, and has them when it is here again."""
        self.until_away(number, held)
        found = self.ask_until(f"get {number} 0 8", "bytes")
        want(found == held, f"object {number} returned with {found}, and not {held}")

    def end(self) -> str:
        """Says that nothing more comes, and gives what it still hears."""
        self.stream.shutdown(socket.SHUT_WR)
        with self:
            return self.replies.read()


# Sends commands, and gives their replies.
Ask = Callable[[Sequence[str]], Sequence[str]]


def all_leave(ask: Ask, count: int) -> None:
    """The first so many objects leave a service. Requests are served in turn, so they have when the one after them, of 8 bytes, has left and is
    home again."""
    last, rest = count + 1, list(range(1, count + 1))

    def is_asked() -> bool:
        """Asks the mover again for those that found its queue full."""
        replies = ask([f"leave {number}" for number in rest])
        want(all(reply in (f"asked {number}", "full") for number, reply in zip(rest, replies)), f"leave is answered {set(replies)}")
        rest[:] = [number for number, reply in zip(rest, replies) if reply == "full"]
        return not rest

    def is_away() -> bool:
        return ask([f"leave {last}", f"get {last} 0 8"])[1] == f"away {last}"

    until("the mover's queue stays full", is_asked)
    until("the last object doesn't leave", is_away)
    until("the last object doesn't come home", lambda: ask([f"get {last} 0 8"])[0].startswith("bytes"))


def opened(program: str, *arguments: object, setup: Iterable[str] = ()) -> tuple[Service, Client]:
    """A service after these commands of its input, and a client of it."""
    service = Service(program, *arguments, setup=setup)
    return service, Client(service)


def object_line(number: int, held: bytes) -> str:
    """How a service tells of an object with these bytes when it has closed."""
    return f"object {number} {len(held)} {hashlib.sha256(held).hexdigest()}"


def tells_what_is_out(output: str, errors: str) -> bool:
    """Whether a service's standard error says of the objects that were out at its end what becomes of them, and nothing else."""
    out, said = len(re.findall(r"(?m)^object \d+ out$", output)), LEFT_OUT.fullmatch(errors)
    return int(said[1]) == out if said else not (out or errors)


def noted(errors: bytes) -> tuple[list[str], list[str]]:
    """Of what a server writes to standard error with `-v` the lines with the time, which is now, without it; and the other lines."""
    notes: list[str] = []
    others: list[str] = []
    for line in errors.decode().splitlines():
        found = NOTED.fullmatch(line)
        if not found:
            others.append(line)
            continue
        age = datetime.datetime.now(datetime.timezone.utc) - datetime.datetime.fromisoformat(f"{found[1]}+00:00")
        want(0 <= age.total_seconds() < LONG, f"the time of {line}")
        notes.append(found[2])
    return notes, others

"""Redis and Dask on this machine for as long as a script runs: servers in a temporary folder, and workers as processes.

Needs Debian's python3-distributed, redis-server and python3-redis. `require` says what is missing, and skips the script.
"""
from __future__ import annotations

import argparse
import contextlib
import importlib.util
import os
import pathlib
import random
import shutil
import signal
import socket
import subprocess
import sys
import tempfile
import threading
import time
from dataclasses import dataclass, field
from typing import Callable, Iterator, Optional

PACKAGE = pathlib.Path(__file__).resolve().parent.parent.parent / "python"
DEBIAN = "/usr/bin/python3"
# Modules and commands, and the Debian packages that have them.
MODULES = {"distributed": "python3-distributed", "redis": "python3-redis"}
COMMANDS = {"redis-server": "redis-server", "redis-cli": "redis-tools"}
HOST = "127.0.0.1"
# How long a server may take to be ready, and how long all jobs together.
SECONDS, PATIENCE = 180, 3600
# Milliseconds after which nodes of the cluster take one that is silent for dead.
SILENT = 2000
# Ports that Linux gives to nobody who asks for any.
PORTS = range(10_000, 32_768)


def missing() -> list[str]:
    """The Debian packages whose modules or commands aren't there."""
    modules = [package for module, package in MODULES.items() if importlib.util.find_spec(module) is None]
    return modules + [package for command, package in COMMANDS.items() if shutil.which(command) is None]


def require() -> None:
    """Ends with status 0 and a line that says so where a package is missing. Debian's Python is tried if this one has no Dask."""
    lacks = missing()
    has_another = os.path.realpath(sys.executable) != os.path.realpath(DEBIAN) and os.access(DEBIAN, os.X_OK)
    if set(lacks) & set(MODULES.values()) and has_another and "BPFAGENT_FLEET" not in os.environ:
        os.environ["BPFAGENT_FLEET"] = "tried"
        os.execv(DEBIAN, [DEBIAN, *sys.argv])
    if lacks:
        print(f"{pathlib.Path(sys.argv[0]).name}: skipped, for it needs Debian's {', '.join(lacks)}")
        sys.exit(0)
    sys.path.insert(0, str(PACKAGE))
    signal.signal(signal.SIGTERM, lambda *_: sys.exit("terminated"))


def guarded(call: Callable[[], object]) -> None:
    """Calls the script's main function; an error of a program or an engine ends the script with one line."""
    require()
    import distributed
    import redis
    from bpfagent import Broken

    try:
        call()
    except (OSError, Broken, redis.RedisError, distributed.TimeoutError) as error:
        sys.exit(f"{pathlib.Path(sys.argv[0]).name}: {str(error) or type(error).__name__}")


def number_from(least: float, most: float = float("inf"), kind: Callable[[str], float] = int) -> Callable[[str], float]:
    """A number in a range, as an option."""

    def number(text: str) -> float:
        try:
            found = kind(text)
        except ValueError:
            found = float("nan")
        if not least <= found <= most:
            raise argparse.ArgumentTypeError(f"{text} is no number from {least:g}{'' if most == float('inf') else f' to {most:g}'}")
        return found

    return number


def program(text: str) -> str:
    """The path of bpfagent, as an argument."""
    path = shutil.which(text)
    if not path:
        raise argparse.ArgumentTypeError(f"{text} can't be run")
    return os.path.abspath(path)


def results(client, futures: list, seconds: float = PATIENCE) -> list:
    """What all these futures give within so many seconds."""
    import distributed

    distributed.wait(futures, timeout=seconds)
    return client.gather(futures)


def free_ports(count: int) -> list[int]:
    """Ports that nobody listens on."""
    found: list[int] = []
    for port in random.SystemRandom().sample(PORTS, len(PORTS)):
        with contextlib.suppress(OSError), socket.create_server((HOST, port)):
            found.append(port)
        if len(found) == count:
            return found
    raise OSError(f"there aren't {count} free ports")


def wait_until(what: str, holds, seconds: float = SECONDS) -> None:
    """Waits until something holds, or fails."""
    end = time.monotonic() + seconds
    while not holds():
        if time.monotonic() > end:
            raise TimeoutError(f"{what}: not within {seconds:g} seconds")
        time.sleep(0.05)


@dataclass
class Server:
    """A redis-server of this script."""

    folder: pathlib.Path
    port: int
    options: tuple[str, ...] = ()
    process: Optional[subprocess.Popen[bytes]] = field(default=None)

    @property
    def url(self) -> str:
        return f"redis://{HOST}:{self.port}"

    def start(self) -> None:
        """Starts it, without anything on a disk, and waits until it answers."""
        self.folder.mkdir(exist_ok=True)
        log = (self.folder / "log").open("ab")
        always = ["--bind", HOST, "--port", str(self.port), "--dir", str(self.folder), "--save", "", "--appendonly", "no"]
        with log:
            self.process = subprocess.Popen(["redis-server", *always, *self.options], stdout=log, stderr=log, start_new_session=True)
        wait_until(f"redis-server at port {self.port}", self.answers)

    def answers(self) -> bool:
        if self.process is None or self.process.poll() is not None:
            raise OSError(f"redis-server at port {self.port} has ended: {(self.folder / 'log').read_text()[-500:]}")
        return self.ask("PING") == "PONG"

    def ask(self, *words: str) -> str:
        """What redis-cli answers."""
        asked = subprocess.run(["redis-cli", "-h", HOST, "-p", str(self.port), *words], capture_output=True, text=True, timeout=SECONDS)
        return asked.stdout.strip()

    def kill(self) -> None:
        """Ends it at once, as a crash does."""
        if self.process is not None:
            self.process.kill()
            self.process.wait()
            self.process = None


@contextlib.contextmanager
def single() -> Iterator[Server]:
    """One Redis."""
    with tempfile.TemporaryDirectory() as folder:
        server = Server(pathlib.Path(folder) / "redis", free_ports(1)[0])
        try:
            server.start()
            yield server
        finally:
            server.kill()


@contextlib.contextmanager
def cluster(primaries: int = 3, silent: int = SILENT) -> Iterator[list[Server]]:
    """A Redis Cluster of so many nodes with a replica each; first the primaries. A node that is silent for so many milliseconds is taken for dead."""
    with tempfile.TemporaryDirectory() as folder:
        ports = free_ports(4 * primaries)
        servers = []
        for number, (port, bus) in enumerate(zip(ports[::2], ports[1::2])):
            options = ("--cluster-enabled", "yes", "--cluster-port", str(bus), "--cluster-node-timeout", str(silent), "--repl-diskless-sync-delay", "0")
            servers.append(Server(pathlib.Path(folder) / f"node-{number}", port, options))
        try:
            for server in servers:
                server.start()
            join(servers, ports[1::2], primaries)
            yield servers
        finally:
            for server in servers:
                server.kill()


def join(servers: list[Server], buses: list[int], primaries: int) -> None:
    """Makes a cluster of servers: all meet the first, slots go to the primaries, and each of the others copies one."""
    slots = 16_384
    for number, server in enumerate(servers[:primaries]):
        server.ask("CLUSTER", "ADDSLOTSRANGE", str(slots * number // primaries), str(slots * (number + 1) // primaries - 1))
        server.ask("CLUSTER", "SET-CONFIG-EPOCH", str(number + 1))
    for server, bus in zip(servers[1:], buses[1:]):
        servers[0].ask("CLUSTER", "MEET", HOST, str(server.port), str(bus))
    wait_until("all nodes know each other", lambda: all(f"cluster_known_nodes:{len(servers)}" in it.ask("CLUSTER", "INFO") for it in servers))
    for copied, server in zip(servers, servers[primaries:]):
        wait_until("a replica", lambda: server.ask("CLUSTER", "REPLICATE", copied.ask("CLUSTER", "MYID")) == "OK")
    wait_until("the cluster is whole", lambda: all(is_whole(it, primaries) for it in servers))


def is_whole(server: Server, primaries: int) -> bool:
    """Whether a node sees all slots served, and each replica in step with its primary."""
    replication = server.ask("INFO", "replication")
    in_step = "master_link_status:up" in replication or "connected_slaves:1" in replication
    return "cluster_state:ok" in server.ask("CLUSTER", "INFO") and in_step


class Crash(threading.Thread):
    """Kills a primary after some seconds, and starts it again when another node serves its slots; its block ends after that."""

    def __init__(self, servers: list[Server], seconds: float) -> None:
        super().__init__(daemon=True)
        self.servers, self.seconds = servers, seconds
        # How long the slots had no primary; None until a replica has taken over.
        self.took: Optional[float] = None

    def run(self) -> None:
        time.sleep(self.seconds)
        lost, *others = self.servers
        lost.kill()
        begin = time.monotonic()
        wait_until("a replica takes over", lambda: sum("role:master" in it.ask("INFO", "replication") for it in others) == len(self.servers) // 2)
        self.took = time.monotonic() - begin
        lost.start()

    def __enter__(self) -> Crash:
        self.start()
        return self

    def __exit__(self, *_: object) -> None:
        self.join()


@contextlib.contextmanager
def quiet(log: pathlib.Path) -> Iterator[None]:
    """What workers and agents that are killed say to standard error goes to a file."""
    kept = os.dup(2)
    with log.open("ab") as file:
        os.dup2(file.fileno(), 2)
    try:
        yield
    finally:
        os.dup2(kept, 2)
        os.close(kept)


@contextlib.contextmanager
def workers(count: int) -> Iterator[tuple]:
    """A Dask client, and a cluster of so many workers with one thread each. Dask runs a job again however often workers die."""
    import dask
    import distributed

    dask.config.set({"distributed.scheduler.allowed-failures": 1000, "distributed.comm.timeouts.connect": f"{SECONDS}s"})
    with tempfile.TemporaryDirectory(ignore_cleanup_errors=True) as folder, quiet(pathlib.Path(folder) / "log"):
        options = {"host": HOST, "dashboard_address": None, "silence_logs": 50, "memory_limit": 0, "local_directory": folder}
        with distributed.LocalCluster(n_workers=count, threads_per_worker=1, **options) as made, distributed.Client(made) as client:
            client.wait_for_workers(count, timeout=SECONDS)
            if len(made.scheduler.workers) != count:
                raise OSError(f"there are {len(made.scheduler.workers)} workers in place of {count}")
            yield client, made


def all_back(made, count: int) -> None:
    """Waits until there are so many workers again. Dask gives up one that dies while it starts, so it is asked for them anew."""
    for _ in range(SECONDS):
        if len(made.scheduler.workers) == count:
            return
        made.scale(count)
        time.sleep(1)
    raise TimeoutError(f"{len(made.scheduler.workers)} of {count} workers are back after {SECONDS} seconds")


class Killer(threading.Thread):
    """Kills a worker every so many seconds, within its block. It waits while half of the workers are dead, since on a busy machine they might all be
    starting forever. It asks for them anew, since Dask gives up one that dies while it starts."""

    def __init__(self, made, seconds: float) -> None:
        super().__init__(daemon=True)
        self.made, self.seconds, self.ended, self.killed = made, seconds, threading.Event(), 0
        self.count = len(made.scheduler.workers)

    def run(self) -> None:
        chance = random.Random(1)
        while not self.ended.wait(self.seconds):
            alive = [it.pid for it in list(self.made.scheduler.workers.values())]
            if len(alive) > self.count // 2:
                with contextlib.suppress(ProcessLookupError):
                    os.kill(chance.choice(alive), signal.SIGKILL)
                    self.killed += 1
            elif not self.ended.wait(1):
                self.made.scale(self.count)

    def __enter__(self) -> Killer:
        self.start()
        return self

    def __exit__(self, *_: object) -> None:
        self.ended.set()
        self.join()

#!/usr/bin/env python3
"""What a request costs, each way in the same run: measure.py [--short] [--output FILE] PROGRAM

A list of so many dependent accesses, a tree, a table of keys and values with a tenth additions, and a scan of 8 MiB. By Python, by
C, in this process by the library for C (out/lib/libbpfagent.a), by `get`s, by a server in C of one's own, by Redis and by memcached.
The client is 0, 200 and 1,000 us away, by a proxy. What isn't installed or built is skipped, and named. Each result is compared with
the one that is computed here.

It needs the Python package and a C compiler. Times are in microseconds. --short takes some seconds, and its times say nothing.
"""
from __future__ import annotations

import argparse
import contextlib
import json
import os
import pathlib
import random
import shutil
import socket
import statistics
import struct
import subprocess
import sys
import tempfile
import threading
import time
from dataclasses import dataclass, field
from typing import Callable, Iterator, Optional, Sequence

from bpfagent import Image, Procedure, Service, address
from bpfagent.image import load, program_path

HERE = pathlib.Path(__file__).resolve().parent
ROOT = HERE.parents[1]
LIBRARY = ROOT / "out/lib/libbpfagent.a"
STRICT = ["-std=c11", "-O2", "-Wall", "-Wextra", "-Wpedantic", "-Werror"]
SECONDS = 600.0
OBJECT, PAIR, ROW = 65_536, struct.Struct("<2Q"), struct.Struct("<IIQ")
NODE, FANOUT = struct.Struct("<2Q15Q15Q"), 15
# Numbers of objects: the request of the ways without a service, then the data.
REQUEST, TABLE, LIST, TREE, ROWS = 1, 2, 3, 4, 8
NEEDED = {"list": range(LIST, TREE), "tree": range(TREE, ROWS), "table": range(TABLE, LIST), "filter": range(ROWS, 1024)}
NODES, PLACES, KEYS, TREE_KEYS = 4_096, 4_096, 2_048, 10_000
GOLDEN, MASK = 0x9E3779B97F4A7C15, (1 << 64) - 1

SCRIPTS = {
    "list": "local s, i = 0, ARGV[1] for k = 1, tonumber(ARGV[2]) do i = redis.call('GET', 'n' .. i) s = s + i end return s",
    "tree": """local at, key = ARGV[1], tonumber(ARGV[2])
        while true do
            local node = redis.call('GET', 't' .. at)
            local height, high = struct.unpack('<I8I8', node)
            local low = 0
            while low < high do
                local middle = math.floor((low + high) / 2)
                if struct.unpack('<I8', node, 17 + 8 * middle) <= key then low = middle + 1 else high = middle end
            end
            local value = struct.unpack('<I8', node, 129 + 8 * low)
            if height == 0 then return value end
            at = string.format('%.0f', value)
        end""",
    "table": "if ARGV[1] == '0' then return tonumber(redis.call('GET', 'k' .. ARGV[2])) end return redis.call('INCRBY', 'k' .. ARGV[2], ARGV[3])",
    "filter": """local rows, sum = redis.call('GET', 'o' .. math.floor(ARGV[1] / 4294967296)), 0
        local price, first, last = tonumber(ARGV[3]), tonumber(ARGV[4]), tonumber(ARGV[5])
        for at = 1, #rows, 16 do
            local day, cost, amount = struct.unpack('<I4I4I8', rows, at)
            if cost >= price and day >= first and day <= last then sum = sum + amount end
        end
        return sum""",
}


class Unmeasured(Exception):
    """Why nothing can be measured, or a result is wrong."""


@dataclass(frozen=True)
class Task:
    """What is asked: the program, the name of a row, and where the data begins and how much there is (measure.h)."""

    name: str
    row: str
    first: int
    size: int

    @property
    def parts(self) -> int:
        """How many requests a time is taken of."""
        return self.size if self.name == "filter" else 1

    def arguments(self, k: int) -> tuple[int, ...]:
        """The arguments of the k-th request, as measure.h has them."""
        drawn = ((k + 1) * GOLDEN & MASK) >> 32
        if self.name == "list":
            return self.first, self.size
        if self.name == "tree":
            return self.first, (drawn % self.size + 1) * 3
        if self.name == "table":
            return (2 if k % 10 == 9 else 0), drawn % self.size + 1, 1
        return self.first + (k % self.size << 32), OBJECT // ROW.size, 500, 100, 265


@dataclass
class Data:
    """The objects by number, and what the results have to be."""

    objects: dict[int, bytes]
    successors: list[int]
    root: int
    sums: list[int]

    def result(self, task: Task, k: int) -> int:
        """The result of the k-th request; 0 of a table's, which depends on what was added before."""
        if task.name == "list":
            at = total = 0
            for _ in range(task.size):
                at = self.successors[at]
                total += at
            return total
        if task.name == "tree":
            return 7 * task.arguments(k)[1]
        return self.sums[k % task.size] if task.name == "filter" else 0


def first_place(key: int) -> int:
    """Where table.c looks for a key first."""
    return ((key * GOLDEN & MASK) >> 32) % PLACES


def table_bytes() -> bytes:
    """The pairs of the table."""
    pairs = [(0, 0)] * PLACES
    for key in range(1, KEYS + 1):
        place = first_place(key)
        while pairs[place][0]:
            place = (place + 1) % PLACES
        pairs[place] = key, 2 * key
    return b"".join(PAIR.pack(*pair) for pair in pairs)


def tree_bytes() -> tuple[bytes, int]:
    """The nodes of a tree of keys, whose values are seven times as much, and the address of its root."""
    nodes: list[bytes] = []
    level = [(3 * k, 7 * 3 * k) for k in range(1, TREE_KEYS + 1)]
    height = 0
    while True:
        above = []
        for at in range(0, len(level), FANOUT):
            part = level[at : at + FANOUT]
            rest = [0] * (FANOUT - len(part))
            above.append((part[0][0], address(TREE, 0) + address(len(nodes) // 256, len(nodes) % 256 * NODE.size)))
            nodes.append(NODE.pack(height, len(part), *(key for key, _ in part), *rest, *(value for _, value in part), *rest))
        if len(above) == 1:
            return b"".join(nodes), above[0][1]
        level, height = above, height + 1


def data_of(objects: int) -> Data:
    """All data, the same each time; so many objects of rows."""
    chance = random.Random(1)
    order = list(range(1, NODES))
    chance.shuffle(order)
    successors = [0] * NODES
    for at, following in zip([0, *order], [*order, 0]):
        successors[at] = following
    tree, root = tree_bytes()
    rows = [[(chance.randrange(365), chance.randrange(1000), chance.randrange(1 << 20)) for _ in range(OBJECT // ROW.size)] for _ in range(objects)]
    kept = {REQUEST: bytes(72), TABLE: table_bytes(), LIST: b"".join(PAIR.pack(n, address(LIST, 16 * n)) for n in successors)}
    kept.update({TREE + k: tree[k * OBJECT : (k + 1) * OBJECT] or bytes(8) for k in range(ROWS - TREE)})
    kept.update({ROWS + k: b"".join(ROW.pack(*row) for row in part) for k, part in enumerate(rows)})
    sums = [sum(amount for day, price, amount in part if price >= 500 and 100 <= day <= 265) for part in rows]
    return Data(kept, successors, root, sums)


# ---- programs


@contextlib.contextmanager
def started(*words: object) -> Iterator[int]:
    """A program that tells its port, and is killed in the end."""
    process = subprocess.Popen([str(word) for word in words], stdin=subprocess.DEVNULL, stdout=subprocess.PIPE, text=True)
    assert process.stdout
    try:
        word, _, port = process.stdout.readline().partition(" ")
        if word != "listening":
            raise Unmeasured(f"{words[0]} doesn't listen")
        yield int(port)
    finally:
        process.kill()
        process.wait()
        process.stdout.close()


def is_open(port: int) -> bool:
    """Whether somebody listens."""
    with contextlib.suppress(OSError), socket.create_connection(("127.0.0.1", port), 1):
        return True
    return False


@contextlib.contextmanager
def silent(*words: object, port: int) -> Iterator[None]:
    """A program that listens on this port and doesn't say when."""
    process = subprocess.Popen([str(word) for word in words], stdin=subprocess.DEVNULL, stdout=subprocess.DEVNULL, stderr=subprocess.DEVNULL)
    try:
        end = time.monotonic() + SECONDS
        while not is_open(port):
            if process.poll() is not None or time.monotonic() > end:
                raise Unmeasured(f"{words[0]} doesn't listen")
            time.sleep(0.01)
        yield
    finally:
        process.kill()
        process.wait()


def free_port() -> int:
    """A port on which nobody listens now, and which Linux gives to nobody who asks for any."""
    while True:
        port = random.SystemRandom().randrange(10_000, 32_768)
        with contextlib.suppress(OSError), socket.create_server(("127.0.0.1", port)):
            return port


@dataclass
class Bench:
    """What is there to measure with, and what came of it."""

    program: str
    folder: pathlib.Path
    data: Data
    count: int
    rounds: int
    delays: Sequence[int]
    images: dict[str, Image] = field(default_factory=dict)
    redis: Optional[int] = None
    hashes: dict[str, str] = field(default_factory=dict)
    memcached: Optional[int] = None
    has_library: bool = False
    skipped: list[str] = field(default_factory=list)
    # Row, delay and way to the medians, and what else was measured.
    times: dict[tuple[str, int, str], list[float]] = field(default_factory=dict)
    more: dict[str, float] = field(default_factory=dict)

    def build(self) -> None:
        """Compiles the programs of this folder."""
        compiler = shutil.which(os.environ.get("CC", "cc"))
        if not compiler:
            raise Unmeasured("there is no C compiler")
        includes = [f"-I{ROOT / 'include'}", f"-I{ROOT / 'python/bpfagent/include'}"]

        def made(name: str, *sources: object) -> None:
            words = [compiler, *STRICT, *includes, "-o", self.folder / name, *sources]
            done = subprocess.run([str(word) for word in words], stdin=subprocess.DEVNULL, capture_output=True, text=True, timeout=SECONDS)
            if done.returncode:
                raise Unmeasured(done.stderr)

        made("client", HERE / "measure_client.c")
        made("proxy", HERE / "measure_proxy.c", "-pthread")
        includes.reverse()
        for name in ("list", "tree", "table", "filter"):
            self.images[name] = load(HERE / f"{name}.code")
            made(f"server-{name}", HERE / "measure_server.c", HERE / f"{name}.c")
        includes.reverse()
        if LIBRARY.is_file():
            made("direct", HERE / "measure_direct.c", LIBRARY)
            self.has_library = True
        else:
            self.skipped.append("in process (make lib)")
        for number, content in self.data.objects.items():
            (self.folder / str(number)).write_bytes(content)

    def note(self, task: Task, delay: int, way: str, microseconds: float) -> None:
        """A median."""
        self.times.setdefault((task.row, delay, way), []).append(microseconds)

    # ---- ways

    def by_c(self, task: Task, way: str, port: int, count: int, *more: object, first: Optional[int] = None) -> list[float]:
        """Median, 99th percentile, begin, end, and trips of the client in C."""
        words = [self.folder / "client", way, port, task.name, task.first if first is None else first, task.size, count, *more]
        done = subprocess.run([str(word) for word in words], stdin=subprocess.DEVNULL, capture_output=True, text=True, timeout=SECONDS)
        if done.returncode:
            raise Unmeasured(f"{task.row} by {way}: {done.stderr.strip()}")
        *told, result, trips = done.stdout.split()
        self.compare(task, way, int(result), count)
        return [*map(float, told), float(trips)]

    def compare(self, task: Task, way: str, result: int, count: int) -> None:
        """Raises `Unmeasured` if the results, which were added, aren't those that are computed here."""
        wanted = sum(self.data.result(task, k) for k in range((count + 1) * task.parts)) & MASK
        if task.name != "table" and result != wanted:
            raise Unmeasured(f"{task.row} by {way}: the results' sum is {result}, and not {wanted}")

    def by_python(self, task: Task, call: Procedure, count: int) -> float:
        """The median of the client in Python."""
        times, result = [], 0
        for k in range(0, (count + 1) * task.parts, task.parts):
            rows = [task.arguments(k + part) for part in range(task.parts)]
            since = time.perf_counter()
            result += sum(call.map(rows)) if len(rows) > 1 else call(*rows[0])
            times.append((time.perf_counter() - since) * 1e6)
        self.compare(task, "Python", result & MASK, count)
        return statistics.median(times[1:])

    def by_library(self, task: Task, count: int) -> None:
        """In a process of its own, by the library."""
        slot = self.images[task.name].awaits[0]
        words = [self.folder / "direct", self.folder, HERE / f"{task.name}.code", slot, task.name, task.first, task.size, count, TABLE]
        done = subprocess.run([str(word) for word in words], stdin=subprocess.DEVNULL, capture_output=True, text=True, timeout=SECONDS)
        if done.returncode:
            raise Unmeasured(f"{task.row} in process: {done.stderr.strip()}")
        median, *_, result = done.stdout.split()
        self.compare(task, "library", int(result), count)
        self.note(task, 0, "in process", float(median))

    @contextlib.contextmanager
    def served(self, task: Task, machines: int) -> Iterator[tuple[int, list[tuple[int, int]], Procedure]]:
        """A service with a task's data: its port, the machines with their requests, and the procedure."""
        with Service(self.program, "--port", "0", "--workers", "2", "--connections", "8", timeout=SECONDS) as service:
            # Objects of other tasks only keep their numbers.
            for number, content in self.data.objects.items():
                if number < ROWS or task.name == "filter":
                    service.setup.make_of(content if number in NEEDED[task.name] else bytes(8))
            behind = [TABLE] if task.name == "table" else []
            call = service.procedure(self.images[task.name], *behind, machines=machines, grants="all", timeout=SECONDS)
            first = len(self.data.objects) if task.name == "filter" else ROWS - 1
            service.listen()
            yield service.port, [(k, first + k) for k in range(1, machines + 1)], call
            service.kill()

    @contextlib.contextmanager
    def away(self, port: int, delay: int) -> Iterator[int]:
        """The port by which another one is so many microseconds away."""
        if not delay:
            yield port
            return
        with started(self.folder / "proxy", port, delay) as through:
            yield through

    def counted(self, delay: int, cost: float = 1) -> int:
        """How many requests are measured of which each takes about so many trips."""
        return max(int(self.count / (1 + delay / 200) / cost), 3)

    def measure(self, task: Task, delay: int) -> None:
        """One round of a task, each way in turn."""
        count, gets = self.counted(delay), self.counted(delay, task.size if task.name == "list" else 1)
        if task.parts > 1:
            count = gets = max(self.count // 50, 1)
        with self.served(task, 4 if task.parts > 1 else 1) as (port, machines, _), self.away(port, delay) as through:
            with Procedure.connect(f"127.0.0.1:{through}", machines, SECONDS) as call:
                self.note(task, delay, "Python", self.by_python(task, call, count))
            told = self.by_c(task, "requests", through, count, *machines[0])
            self.note(task, delay, "C", told[0])
            self.note(task, delay, "C, trips", told[-1])
            if task.name != "table":
                self.note(task, delay, "gets", self.by_c(task, "gets", through, gets)[0])
        with started(self.folder / f"server-{task.name}", self.folder, TABLE) as port, self.away(port, delay) as through:
            self.note(task, delay, "C server", self.by_c(task, "server", through, count)[0])
        if self.redis:
            with self.away(self.redis, delay) as through:
                first = 0 if task.name == "list" else None
                self.note(task, delay, "Redis", self.by_c(task, "redis", through, count, self.hashes[task.name], first=first)[0])
                if task.name == "filter":
                    self.note(task, delay, "Redis GET", self.by_c(task, "pages", through, count)[0])
        if self.memcached and task.name == "table":
            with self.away(self.memcached, delay) as through:
                self.note(task, delay, "memcached", self.by_c(task, "memcached", through, count)[0])
        if self.has_library and not delay:
            self.by_library(task, count)

    def together(self, clients: int) -> None:
        """How many requests to the table are answered in a second, by so many clients in C at once, each with a machine of its own."""
        task = Task("table", "table", 0, KEYS)
        count = self.count * 10

        def rate(way: str, port: int, *each: Sequence[object]) -> None:
            told: list[list[float]] = []
            threads = [threading.Thread(target=lambda more: told.append(self.by_c(task, way, port, count, *more)), args=(more,)) for more in each]
            for thread in threads:
                thread.start()
            for thread in threads:
                thread.join()
            if len(told) == len(each):
                took = max(end for _, _, _, end, _ in told) - min(begin for _, _, begin, _, _ in told)
                self.more[f"{way}, {clients} clients, requests a second"] = len(each) * count / took

        with self.served(task, clients) as (port, machines, _):
            rate("requests", port, *machines)
        if self.redis:
            rate("redis", self.redis, *[[self.hashes["table"]]] * clients)
        if self.memcached:
            rate("memcached", self.memcached, *[[]] * clients)
        with started(self.folder / "server-table", self.folder, TABLE) as port:
            rate("server", port, *[[]] * clients)

    def python_together(self) -> None:
        """The same in Python: `map` over eight machines, and eight threads."""
        task = Task("table", "table", 0, KEYS)
        rows = [task.arguments(k) for k in range(self.count * 10)]
        with self.served(task, 8) as (_, _, call):
            since = time.perf_counter()
            for _ in call.map(rows):
                pass
            self.more["Python map, 8 machines, requests a second"] = len(rows) / (time.perf_counter() - since)
            threads = [threading.Thread(target=lambda part: [call(*row) for row in part], args=(rows[k::8],)) for k in range(8)]
            since = time.perf_counter()
            for thread in threads:
                thread.start()
            for thread in threads:
                thread.join()
            self.more["Python, 8 threads, requests a second"] = len(rows) / (time.perf_counter() - since)

    def idle(self, seconds: float) -> None:
        """The processor time of a service whose 48 machines wait, as a share of the time."""
        with Service(self.program, "--workers", "2", "--connections", "2", timeout=SECONDS) as service:
            table = service.setup.make_of(self.data.objects[TABLE])
            call = service.procedure(self.images["table"], table, machines=48, timeout=SECONDS)
            for _ in call.map([(0, 1)] * 96):
                pass
            client = service.connect(SECONDS)
            while any(client.regs(machine).state != "paused" for machine in range(1, 49)):
                time.sleep(0.01)
            time.sleep(0.2)
            before = processor_time(service.process)
            time.sleep(seconds)
            self.more["48 machines wait, percent of a processor"] = 100 * (processor_time(service.process) - before) / seconds
            service.kill()


def processor_time(process: int) -> float:
    """What the threads of a process have taken of the processors, in seconds."""
    tasks = pathlib.Path(f"/proc/{process}/task").glob("*/schedstat")
    return sum(int(path.read_text().split()[0]) for path in tasks) / 1e9


# ---- other servers


class Redis:
    """Just enough of a client of Redis to fill it."""

    def __init__(self, port: int) -> None:
        self._socket = socket.create_connection(("127.0.0.1", port), SECONDS)
        self._stream = self._socket.makefile("rwb")

    def ask(self, *words: object) -> bytes:
        """A command, and its reply if that is one line or one text."""
        parts = [word if isinstance(word, bytes) else str(word).encode() for word in words]
        self._stream.write(b"*%d\r\n" % len(parts) + b"".join(b"$%d\r\n%s\r\n" % (len(part), part) for part in parts))
        self._stream.flush()
        line = self._stream.readline().rstrip()
        if line.startswith(b"$"):
            return self._stream.read(int(line[1:]) + 2)[:-2]
        if line.startswith(b"-"):
            raise Unmeasured(line.decode())
        return line

    def close(self) -> None:
        """Ends the conversation."""
        self._stream.close()
        self._socket.close()


def fill_redis(bench: Bench, port: int) -> None:
    """The same data in Redis, and the scripts."""
    with contextlib.closing(Redis(port)) as redis:
        for at, following in enumerate(bench.data.successors):
            redis.ask("SET", f"n{at}", following)
        for number in range(TREE, ROWS):
            content = bench.data.objects[number]
            for at in range(0, len(content) - NODE.size + 1, NODE.size):
                redis.ask("SET", f"t{address(number, at)}", content[at : at + NODE.size])
        for key in range(1, KEYS + 1):
            redis.ask("SET", f"k{key}", 2 * key)
        for number in bench.data.objects:
            if number >= ROWS:
                redis.ask("SET", f"o{number}", bench.data.objects[number])
        bench.hashes = {name: redis.ask("SCRIPT", "LOAD", script).decode() for name, script in SCRIPTS.items()}
    bench.redis = port


def fill_memcached(bench: Bench, port: int) -> None:
    """The table in memcached."""
    with socket.create_connection(("127.0.0.1", port), SECONDS) as memcached, memcached.makefile("rwb") as stream:
        for key in range(1, KEYS + 1):
            value = str(2 * key).encode()
            stream.write(b"set k%d 0 0 %d\r\n%s\r\n" % (key, len(value), value))
            stream.flush()
            if stream.readline() != b"STORED\r\n":
                raise Unmeasured("memcached doesn't keep a value")
    bench.memcached = port


@contextlib.contextmanager
def others(bench: Bench) -> Iterator[None]:
    """Redis and memcached, where they are installed."""
    servers: list[tuple[str, list[str], Callable[[Bench, int], None]]] = [
        ("redis-server", ["--save", "", "--appendonly", "no", "--bind", "127.0.0.1", "--port"], fill_redis),
        ("memcached", ["-l", "127.0.0.1", "-U", "0", "-u", "root", "-p"], fill_memcached),
    ]
    with contextlib.ExitStack() as stack:
        for name, words, fill in servers:
            path = shutil.which(name) or shutil.which(name, path="/usr/bin:/usr/sbin:/usr/local/bin")
            if path:
                port = free_port()
                stack.enter_context(silent(path, *words, port, port=port))
                fill(bench, port)
            else:
                bench.skipped.append(name)
        yield


# ---- the table


WAYS = ("Python", "C", "in process", "gets", "C server", "Redis", "Redis GET", "memcached")


def shown(microseconds: Optional[float]) -> str:
    """A time in a table."""
    if microseconds is None:
        return ""
    return f"{microseconds:,.1f}" if microseconds < 10 else f"{microseconds:,.0f}"


def show(bench: Bench) -> dict[str, object]:
    """Writes the tables, and gives what they say."""
    medians = {key: statistics.median(values) for key, values in bench.times.items()}
    rows = sorted({key[:2] for key in medians}, key=lambda row: (row[1], list(medians).index(next(key for key in medians if key[:2] == row))))
    print(f"| Away, us | Task | {' | '.join(WAYS)} | trips |\n|---|---|{'---|' * (len(WAYS) + 1)}")
    for row, delay in rows:
        trips = medians[row, delay, "C, trips"]
        print(f"| {delay:,} | {row} | {' | '.join(shown(medians.get((row, delay, way))) for way in WAYS)} | {trips:.2f} |")
    print()
    for name, value in bench.more.items():
        print(f"{name}: {value:,.0f}" if value >= 10 else f"{name}: {value:.3f}")
    if bench.skipped:
        print(f"skipped: {', '.join(bench.skipped)}")
    return {"times": [[*key, round(value, 2)] for key, value in medians.items()], "more": bench.more, "skipped": bench.skipped}


def measured(program: str, is_short: bool) -> Bench:
    """Everything, in one run."""
    objects = 1 if is_short else 128
    with tempfile.TemporaryDirectory(prefix="requests-") as folder:
        delays = (0, 200) if is_short else (0, 200, 1_000)
        bench = Bench(program, pathlib.Path(folder), data_of(objects), 3 if is_short else 1_000, 1 if is_short else 5, delays)
        bench.build()
        lists = [Task("list", f"list of {hops}", address(LIST), hops) for hops in ((1, 100) if is_short else (1, 3, 10, 100))]
        tasks = [*lists, Task("tree", "tree", bench.data.root, TREE_KEYS), Task("table", "table", 0, KEYS)]
        with others(bench):
            for _ in range(bench.rounds):
                for delay in delays:
                    for task in tasks:
                        bench.measure(task, delay)
                bench.measure(Task("filter", f"scan of {objects / 16:.4g} MiB", address(ROWS), objects), 0)
            for clients in (1, 2 if is_short else 8):
                bench.together(clients)
            bench.python_together()
        bench.idle(1 if is_short else 10)
        return bench


def main() -> None:
    """The command line."""
    options = argparse.ArgumentParser(prog="measure.py", description=(__doc__ or "").splitlines()[0])
    options.add_argument("--short", action="store_true", help="a few requests of each kind")
    options.add_argument("--output", type=pathlib.Path, metavar="FILE", help="keeps the figures as JSON")
    options.add_argument("program", nargs="?", help="the program bpfagent; else the environment's BPFAGENT, or the one on PATH")
    given = options.parse_args()
    if not given.short:
        with contextlib.suppress(OSError):
            os.nice(-15)
    try:
        figures = show(measured(program_path(given.program), given.short))
    except (Unmeasured, OSError, subprocess.TimeoutExpired) as why:
        sys.exit(f"measure.py: {why}")
    if given.output:
        given.output.write_text(json.dumps(figures, indent=1) + "\n")


if __name__ == "__main__":
    main()

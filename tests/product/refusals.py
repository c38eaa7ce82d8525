#!/usr/bin/env python3
"""Runs the programs with each of their allocations failing in turn, and counts what they ask of the system: refusals.py RT [PROGRAM]

Where an allocation fails before the first line, the program ends with `no memory` and status 3. Where a later one fails, one command is answered
`nomem`, or `kept n fault far` if it is `returned`, and the conversation goes on as if the command hadn't come. Of the allocations before the first
line, the same in each stored conversation, all are tried once and then two; of the others each. `check`, `asm`, `dis` and a far server end with
`no memory`; a service does too, or answers `nomem` once. What comes of the five parts of `failing_allocations` stands in OUTCOMES.

For each command it counts allocations and their bytes; for a conversation reads and writes: one read for what has come, one write for a reply.
"""
from __future__ import annotations

import collections
import concurrent.futures
import contextlib
import hashlib
import os
import pathlib
import socket
import subprocess
import sys
import tempfile
import threading
from typing import Sequence, Tuple

sys.path.insert(0, str(pathlib.Path(__file__).resolve().parents[1]))
from lib.checks import Failed, want, want_equal
from lib.commands import Form, commands
from lib.programs import has_checks
from lib.scripts import Talk, conversations
from lib.sources import ROOT

PROGRAM = pathlib.Path(sys.argv[2]).resolve() if len(sys.argv) > 2 else ROOT / "crates/bpfagent/out/bpfagent"
PARTS = ROOT / "crates/failing_allocations/out/failing_allocations"
SCRIPTS = [f"crates/script_runner/data/{name}.script" for name in ("worked", "moves", "debugging", "grants", "protocol")]
MAY_LACK_MEMORY = ("make ", "put ", "ship ", "ship2 ", "stack ", "line ")
WIDE = bytes.fromhex("18000000ffffffff00000000ffffffff9500000000000000")
TEXT = b"mov r0, 0 # n\nagain: add r0, 1\njlt r0, 3, again\nexit\n"
# An object file is refused as code, and a jump that leads outside.
JUMP = bytes.fromhex("05000500000000009500000000000000")
# A swap of 24 bits.
SWAP = bytes.fromhex("d401000018000000")
LOOP = bytes.fromhex("b7000000000000000700000001000000a500feff030000009500000000000000")
OTHERS = [(["check"], WIDE), (["check", "--explain"], JUMP), (["check", "--explain"], b"\x7fELF" + bytes(60)), (["check", "--explain"], bytes(9)),
          (["check", "--explain"], SWAP), (["asm"], TEXT), (["asm", "--explain"], TEXT + b"\nexot"), (["dis"], WIDE), (["dis"], LOOP),
          (["dis", "--slots"], WIDE), (["dis", "--llvm"], WIDE), (["--help"], b""), (["--version"], b""), (["commands"], b""), (["run", "--wrong"], b""),
          (["asm"], b"jump +1\n"), (["asm"], b"mov r0\n"), (["asm"], b"mov r0, 2147483648\n"), (["asm"], b"ja x\n"), (["asm"], b"a:\na:\n"),
          (["run"], b"\n" + b"a" * 70_001 + b"\nregs 1")]
# How many allocations of one conversation are tried before its first line.
BEFORE = 2


def shim(rt: str, folder: str) -> str:
    """The library that makes an allocation fail."""
    clang = os.path.join(os.path.dirname(os.path.dirname(os.path.realpath(rt))), "toolchain/bin/clang")
    made = os.path.join(folder, "fail_allocation.so")
    source = str(ROOT / "tests/product/fail_allocation.c")
    subprocess.run([clang, "-O1", "-shared", "-fPIC", "-nostdlib", "-fuse-ld=lld", "-o", made, source], check=True, timeout=300)
    return made


# How a program ended: its status, its output and standard error.
Ended = Tuple[int, bytes, bytes]
Counts = collections.namedtuple("Counts", "allocations largest bytes reads fewest writes flushes")


class Failing:
    """Programs of which the allocation of a number fails."""

    def __init__(self, library: str) -> None:
        self.library = library

    def environment(self, at: int = 0, thread: int = 0, count: str = "") -> dict[str, str]:
        """In which the allocation and the thread of these numbers fail, and the counts are written to a file."""
        return {**os.environ, "LD_PRELOAD": self.library, "FAIL_AT": str(at), "FAIL_THREAD_AT": str(thread), **({"COUNT_IN": count} if count else {})}

    def call(self, program: pathlib.Path, arguments: Sequence[str], given: bytes, at: int = 0, count: str = "") -> Ended:
        done = subprocess.run([program, *arguments], input=given, capture_output=True, env=self.environment(at, count=count), timeout=60)
        return done.returncode, done.stdout, done.stderr

    def counted(self, program: pathlib.Path, arguments: Sequence[str], given: bytes) -> tuple[Ended, Counts]:
        """What the program does without a failure, and what it asks of the system."""
        with tempfile.NamedTemporaryFile() as file:
            done = self.call(program, arguments, given, count=file.name)
            return done, Counts(*map(int, file.read().split()))

    def talk(self, arguments: Sequence[str], lines: Sequence[str], at: int = 0) -> tuple[int, list[str], bytes]:
        status, output, errors = self.call(PROGRAM, ["run", *arguments], said(lines), at)
        return status, output.decode().splitlines(), errors


def said(lines: Sequence[str]) -> bytes:
    return "".join(f"{line}\n" for line in lines).encode()


def in_place_of(line: str, reply: str) -> list[str]:
    """What leaves the same state as a refused command does: nothing, or a return that is taken back."""
    number = line.split()[1]
    return [] if reply == "nomem" else [f"returned {number}", f"leave {number}", f"left {number}"]


def is_refusal(line: str, reply: str) -> bool:
    """A reply that says that memory ran out, to a command that asks for it."""
    asks = line.startswith(MAY_LACK_MEMORY)
    return (reply == "nomem" and asks) or (line.startswith("returned ") and reply == f"kept {line.split()[1]} fault far")


def one_failure(failing: Failing, arguments: Sequence[str], lines: list[str], whole: list[str], at: int) -> str:
    """Where allocation `at` fails: which command was refused, or whether the program ended before the first."""
    status, replies, errors = failing.talk(arguments, lines, at)
    if (status, replies, errors) == (3, [], b"no memory\n"):
        return "before the first line"
    want((status, errors) == (0, b"") and len(replies) == len(lines), f"allocation {at}: status {status}, {len(replies)} replies, {errors}")
    refused = [k for k, reply in enumerate(replies) if reply != whole[k] and is_refusal(lines[k], reply)]
    if not refused:
        want(replies == whole, f"allocation {at}: other replies without a refusal")
        return "without an effect"
    k = refused[0]
    instead = in_place_of(lines[k], replies[k])
    others = failing.talk(arguments, lines[:k] + instead + lines[k + 1 :])[1]
    goes_on = replies[:k] + replies[k + 1 :] == others[:k] + others[k + len(instead) :]
    want(goes_on, f"allocation {at}: after {lines[k][:40]} the run didn't go on as if it hadn't come")
    return lines[k].split()[0]


def spread(numbers: list[int], most: int) -> list[int]:
    """At most so many of the numbers, from the first to the last."""
    return sorted({numbers[k * (len(numbers) - 1) // max(1, most - 1)] for k in range(most)}) if len(numbers) > most else numbers


def refused_conversation(failing: Failing, start: int, arguments: Sequence[str], talk: Talk) -> list[str]:
    """A conversation with its allocations failing in turn: what was refused."""
    lines, whole = [line for line, _ in talk], [reply for _, reply in talk]
    (status, output, _), counts = failing.counted(PROGRAM, ["run", *arguments], said(lines))
    want(status == 0 and output.decode().splitlines() == whole, "the conversation without a failure isn't right")
    tried = [*spread(list(range(1, start + 1)), BEFORE), *range(start + 1, counts.allocations + 1)]
    return [one_failure(failing, arguments, lines, whole, at) for at in tried]


def before_a_line(failing: Failing) -> int:
    """How many allocations come before the first line. Where one of them fails the program ends, or it was none of its own."""
    (status, output, _), counts = failing.counted(PROGRAM, ["run"], b"")
    found = [failing.call(PROGRAM, ["run"], b"step 1\n", at) for at in range(1, counts.allocations + 1)]
    gave_up = found.count((3, b"", b"no memory\n"))
    want((status, output) == (0, b"") and gave_up and gave_up + found.count((0, b"none\n", b"")) == len(found), f"allocations before the first line: {found}")
    return len(found)


# A line, how many allocations it makes, and of how many bytes.
Counted = Tuple[str, int, int]
# `ship` asks for the bytes of its code and for its entries, of which none is longer than ENTRY; `line` asks for a text of at most LINE.
CODE = "7b0a000000000000" + "95" + "00" * 7
ENTRY, LINE = 32, 64
# The commands that allocate, or of which other lines are counted than the one with the least numbers.
COUNTED: dict[str, list[Counted]] = {
    "make": [("make 64", 1, 64)],
    "free": [("make 64", 1, 64), ("free 2", 0, 0)],
    "put": [("put 1 0 0102", 1, 2)],
    "get": [("get 1 0 2", 0, 0), ("get 1 63 2", 0, 0)],
    "ship": [(f"ship 9 0 0 0 0 0 {CODE}", 2, 16 + 2 * ENTRY)],
    "ship2": [(f"ship2 9 0 0 0 0 0 {LOOP.hex()}{grants}", 2, 32 + 4 * ENTRY) for grants in ("", " r1 w2")],
    "returned": [("returned 1", 1, 64)],
    "stack": [("stack 1 0 8", 1, 8)],
    "line": [("line 1 0", 1, LINE)],
    "break": [("break 1 1", 0, 0)],
    "unbreak": [("unbreak 1 1", 0, 0)],
    "watch": [("watch 1 0x100000000 8", 0, 0)],
    "unwatch": [("unwatch 1 0x100000000 8", 0, 0)],
    "resume": [("one 2", 0, 0), ("resume 2", 0, 0)],
}
# Where the bytes are a bound, and not the very number.
BOUNDED = ("ship ", "ship2 ", "line ")
# What comes after all commands: the object that has been far, and lines that are answered `bad`.
LATER, WRONG = "free 1", ["nothing", "put 1 0 zz", "x" * 69_000]


def least_line(name: str, form: Form) -> str:
    return " ".join([name, *(str(among[0]) for among in form.numbers), *["00"] * bool(form.most_bytes)])


def counted_lines() -> list[Counted]:
    """A conversation with each command, in the order of the table. A command that COUNTED doesn't name has one line and allocates nothing."""
    known = commands()
    want(COUNTED.keys() <= known.keys(), f"COUNTED has commands that aren't in the table: {COUNTED.keys() - known.keys()}")
    lines = [line for name, form in known.items() for line in COUNTED.get(name, [(least_line(name, form), 0, 0)])]
    return [*lines, *((line, 0, 0) for line in (LATER, *WRONG))]


def counted_commands(failing: Failing) -> None:
    """How many allocations each of the commands makes, and of how many bytes: a step, a reply and the reading of a line none."""
    counted = counted_lines()
    lines = [line for line, _, _ in counted]
    made = [failing.counted(PROGRAM, ["run"], said(lines[:k])) for k in range(len(lines) + 1)]
    for (line, wanted, size), (_, before), (_, after) in zip(counted, made, made[1:]):
        count, found = after.allocations - before.allocations, after.bytes - before.bytes
        is_so = found <= size if line.startswith(BOUNDED) else found == size
        want(count == wanted and is_so, f"{line[:40]} makes {count} allocations of {found} bytes, and not {wanted} of {size}")
    replies = made[-1][0][1].decode().splitlines()
    want_equal([line for line, reply in zip(lines, replies) if reply == "bad"], WRONG, "the counted lines that are answered `bad`")
    want_equal(len(replies), len(lines), "replies to the counted lines")


def counted_streams(failing: Failing) -> None:
    """One read for each 4096 bytes that have come and one at the end, one write for each reply, and no flush."""
    given = b"step 1\n" * 5_000
    with tempfile.TemporaryFile() as file, tempfile.NamedTemporaryFile() as counts:
        file.write(given)
        file.seek(0)
        subprocess.run([PROGRAM, "run"], stdin=file, stdout=subprocess.DEVNULL, env=failing.environment(count=counts.name), timeout=60, check=True)
        found = Counts(*map(int, counts.read().split()))
    wanted = (-(-len(given) // 4096) + 1, 4096, 5_000, 0)
    want((found.reads, found.fewest, found.writes, found.flushes) == wanted, f"a conversation of 5,000 commands takes {found}")


def refused_input(failing: Failing, arguments: Sequence[str], given: bytes) -> int:
    """One of OTHERS with each allocation failing: how often the program gave up."""
    whole, counts = failing.counted(PROGRAM, arguments, given)
    found = [failing.call(PROGRAM, arguments, given, at) for at in range(1, counts.allocations + 1)]
    gave_up = found.count((3, b"", b"no memory\n"))
    want(gave_up and gave_up + found.count(whole) == len(found), f"{arguments} on {given[:60]}, its allocations refused: {set(found)}")
    return gave_up


# As many objects as can be made, of which each is refused in turn.
ALL_OBJECTS = [
    ("ship 0 0 0 0 0 0 9500000000000000", "shipped 1"), ("step 1", "stopped 1 spent"),
    *(("make 1", f"made {number}") for number in range(1, 1025)), ("make 1", "full"), ("free 5", "freed 5"), ("make 1", "full"),
]


# What comes of each part of `failing_allocations` where one allocation fails; the last is what it does where all are granted.
OUTCOMES = {
    "list": ["no world", "no commands", "refused, 0 replies, slot 0, fuel 10", "done, 7 replies, slot 1, fuel 8"],
    "table": ["no bodies", "no table", "opened, read again, closed", "opened, read, not closed", "opened, read, closed"],
    "stream": [
        f"{came}, {memory} without memory, {refused} refused, 0 otherwise, {memory + refused} faults, {'not ' * (came == 'no server')}served"
        for came, memory, refused in [("no server", 0, 0), ("not all left", 0, 0), ("all came home", 1, 0), ("all came home", 0, 1), ("all came home", 0, 0)]
    ],
    "pool": ["no bodies", "no machines", "no table", "no pool", "no mover", "came home, asked again", "came home"],
    "service": [
        "no world", "not opened", "no agent", "opened, read again, closed", "opened, read once, closed", "opened, read, not closed",
        "opened, read, closed",
    ],
}


def served(env: dict[str, str]) -> tuple[int, bytes, bytes, bytes, bytes]:
    """A service with one client: its status, its output before it listens, what the client is answered, its output then, and standard error."""
    pipe, before, answers = subprocess.PIPE, [], b""
    process = subprocess.Popen([PROGRAM, "serve", "--workers", "1"], stdin=pipe, stdout=pipe, stderr=pipe, env=env)
    limit = threading.Timer(60, process.kill)
    limit.start()
    # it may have ended already
    with contextlib.suppress(BrokenPipeError), process.stdin as given:
        given.write(b"make 8\n")
    for line in iter(process.stdout.readline, b""):
        if line.startswith(b"listening "):
            with contextlib.suppress(OSError), socket.create_connection(("127.0.0.1", int(line.split()[1])), timeout=60) as client:
                client.sendall(b"make 8\nput 1 0 2a\nget 1 0 1\nget 1 0 1\n")
                client.shutdown(socket.SHUT_WR)
                while came := client.recv(4096):
                    answers += came
            break
        before.append(line)
    after, errors = process.stdout.read(), process.stderr.read()
    limit.cancel()
    return process.wait(60), b"".join(before), answers, after, errors


def refused_service(failing: Failing) -> int:
    """How often memory of a running service was refused: it ends with `no memory`, or its client is answered `nomem` once."""
    with tempfile.NamedTemporaryFile() as file:
        whole = served(failing.environment(count=file.name))
        total = int(file.read().split()[0])
    _, before, answers, after, _ = whole
    closing = [f"closed\nobject 1 8 {hashlib.sha256(bytes([first, *bytes(7)])).hexdigest()}\n".encode() for first in (0, 0x2A)]
    want(whole == (0, b"made 1\n", b"unserved\nok\nbytes 2a\nbytes 2a\n", closing[1], b""), f"a service says {whole}")
    others = [
        (0, before, b"unserved\nnomem\nbytes 00\nbytes 00\n", closing[0], b""),
        (0, before, b"unserved\nok\nnomem\nbytes 2a\n", after, b""),
        (0, before, b"unserved\nok\nbytes 2a\nnomem\n", after, b""),
        (0, b"nomem\n", b"unserved\noutside\noutside\noutside\n", b"closed\n", b""),
    ]
    found = [served(failing.environment(at)) for at in range(1, total + 1)]
    # one is none of the program's own, as before the first line of `run`; another would be that of a client that is served though its stream isn't kept
    want(found.count(whole) <= 1, f"allocations of a service that fail without an effect: {[at for at, done in enumerate(found, 1) if done == whole]}")
    for at, done in enumerate(found, 1):
        ended = (done[0], done[4]) == (3, b"no memory\n") and before.startswith(done[1]) and answers.startswith(done[2]) and after.startswith(done[3])
        want(ended or done == whole or done in others, f"a service whose allocation {at} fails says {done}")
    ends = [done for done in found if done[0] == 3]
    has_answered, has_begun = any(done[2] for done in ends), any(done[1] and not done[2] for done in ends)
    want(has_answered and has_begun and set(others) <= set(found), f"a service ended so: {sorted(set(found))}")
    for thread in (1, 2, 3):
        done = served(failing.environment(thread=thread))
        want(done == (3, b"made 1\n", b"", b"", b"no memory\n"), f"a service whose thread {thread} isn't started says {done}")
    want(served(failing.environment(thread=4)) == whole, "a service with one worker and one client starts more than three threads")
    return total - found.count(whole)


def refused_store(failing: Failing) -> None:
    """A server one of whose two threads isn't started ends with `no memory` before it listens."""
    for thread in (1, 2):
        done = subprocess.run([PROGRAM, "store"], stdin=subprocess.DEVNULL, capture_output=True, env=failing.environment(thread=thread), timeout=60)
        want((done.returncode, done.stdout, done.stderr) == (3, b"", b"no memory\n"), f"a server without its thread {thread} says {done}")


def refused_part(failing: Failing, part: str) -> int:
    """How often something of a part was refused: each of its outcomes comes, and no other."""
    outcomes = [(0, outcome) for outcome in OUTCOMES[part]]
    whole, counts = failing.counted(PARTS, [], part.encode())
    failed = [failing.call(PARTS, [], part.encode(), at) for at in range(1, counts.allocations + 1)]
    first, *found = [(status, told.decode().strip()) for status, told, _ in (whole, *failed)]
    want(first == outcomes[-1] and set(outcomes[:-1]) <= set(found) <= set(outcomes), f"{PARTS.name}, {part}: {first}, and with refusals {sorted(set(found))}")
    return counts.allocations - found.count(outcomes[-1])


def refused_growth(failing: Failing) -> None:
    """Each request for memory of the worked examples is refused in turn: in conversations, other inputs, parts of the agent and servers."""
    start = before_a_line(failing)
    counted_commands(failing)
    counted_streams(failing)
    talks = [talk for name in SCRIPTS for talk in conversations((ROOT / name).read_text())]
    with concurrent.futures.ThreadPoolExecutor(os.cpu_count()) as pool:
        objects = pool.submit(refused_conversation, failing, start, [], ALL_OBJECTS)
        found = [what for part in pool.map(lambda talk: refused_conversation(failing, start, *talk), talks) for what in part]
        gave_up = sum(pool.map(lambda given: refused_input(failing, *given), OTHERS))
        made = objects.result().count("make")
    counts = ", ".join(f"{found.count(what)} {what}" for what in sorted(set(found)))
    parts = {part: refused_part(failing, part) for part in OUTCOMES}
    parts["service"] += refused_service(failing)
    refused_store(failing)
    told = ", ".join(f"{count} of a {part}" for part, count in parts.items())
    want(made == 1024 and {word.strip() for word in MAY_LACK_MEMORY} | {"returned"} <= set(found), f"not every command was refused: {counts}; {made} objects")
    print(
        f"refusals: {len(found)} allocations of {len(talks)} conversations failed in turn: {counts}; "
        f"{gave_up} of other inputs, {made} of 1,024 objects, {told}"
    )


def main() -> None:
    if len(sys.argv) not in (2, 3):
        sys.exit(__doc__)
    if not os.path.isfile(PROGRAM):
        sys.exit(f"refusals: there is no {PROGRAM}: make program comes first")
    if has_checks(PROGRAM):
        sys.exit(f"{PROGRAM} is a program of `make try`, which brings an allocator of its own: only a proved program's allocations can be made to fail")
    with tempfile.TemporaryDirectory() as folder:
        try:
            refused_growth(Failing(shim(sys.argv[1], folder)))
        except (Failed, OSError, subprocess.SubprocessError) as wrong:
            sys.exit(f"refusals: {wrong}")


main()

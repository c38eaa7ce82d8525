#!/usr/bin/env python3
"""Goes through sizes, places and numbers one by one on the built program: sweep.py PROGRAM [--thin] [PART..]

No clause refuses an answer that memory ran out, or that a stream failed, at some odd place. So each length of code, text, bytes and reads, each slot and
many lines and budgets are tried. It also looks at time and memory: two inputs that a program with quadratic work would not finish, and what 10,000
commands leave. --thin is for a program of `make try`: one in a hundred of the sizes, and neither time nor memory.
"""
from __future__ import annotations

import concurrent.futures
import itertools
import os
import pathlib
import resource
import subprocess
import sys
import time
from typing import Any, Callable, Iterable, Iterator, Sequence, Tuple

sys.path.insert(0, str(pathlib.Path(__file__).resolve().parents[1]))
from lib.checks import Failed, report
from lib.checks import want_equal as want
from lib.programs import Process, ended, of_data, patience, size_of
from lib.scripts import Talk

SLOTS = 4096
EXIT = bytes.fromhex("9500000000000000")
# No instruction has the opcode ff, and no code has 32,768 slots: the first is found as the code is read, the second later.
WRONG = b"\xff" + bytes(7)
JUMPS_OUT = bytes.fromhex("0500ff7f00000000")
TEXT_LIMIT = 1_048_576
BUDGET_LIMIT = 67_108_864
# How long a call may take, in seconds, also on a busy machine.
SECONDS = 600
# How much processor time, in seconds: for two inputs that only a program with quadratic work is slow on.
QUICK = 10
# What the program may have of data, in bytes: for its world and a line, and what a text of a megabyte takes.
RUN_DATA = 8 << 20
ASM_DATA = 96 << 20
# A function and its arguments.
Task = Tuple[Any, ...]
# With --thin one in so many sizes is tried, in about so many calls of each part.
THIN, FEW = 100, 16
PROGRAM = ""
FACTOR = 1


def call(arguments: Sequence[str], given: bytes, data: int | None = None, seconds: int | None = None) -> tuple[int, bytes, bytes]:
    """Status, standard output and standard error, with so many bytes of data, and in so much processor time."""
    limits = {resource.RLIMIT_CPU: seconds * FACTOR} if seconds else {}
    return ended(PROGRAM, *arguments, given=given, seconds=SECONDS * FACTOR, limits={**limits, **(of_data(PROGRAM, data) if data else {})})


def want_replies(talk: Talk, what: str, arguments: Sequence[str] = ()) -> None:
    """Each command has its reply."""
    status, output, errors = call(["run", *arguments], "".join(f"{command}\n" for command, _ in talk).encode())
    replies = output.decode().splitlines()
    want((status, errors, len(replies)), (0, b"", len(talk)), f"{what}: status, errors and number of replies")
    for (command, right), reply in zip(talk, replies):
        want(reply, right, f"{what}: {command[:60]}")


def near(power: int) -> tuple[int, int, int]:
    """A power of two, and the numbers beside it."""
    return (2**power - 1, 2**power, 2**power + 1)


def check_counts(counts: list[int]) -> None:
    """Valid code of so many slots."""
    for n in counts:
        want(call(["check"], EXIT * n), (0, b"ok %d\n" % n, b""), f"check of {n} slots")
        want(call(["dis"], EXIT * n), (0, b"exit\n" * n, b""), f"dis of {n} slots")


def check_refusals(slots: list[int]) -> None:
    """The longest code, wrong at one slot, and code that ends with the wrong one."""
    for n in slots:
        line = b"slot %d: Opcode\n" % n
        want(call(["check"], EXIT * n + WRONG + EXIT * (SLOTS - 1 - n)), (1, b"", line), f"check of code wrong at {n}")
        want(call(["dis"], EXIT * n + WRONG), (1, b"", line), f"dis of code wrong at {n}")
        jumps = EXIT * n + JUMPS_OUT + EXIT * (SLOTS - 1 - n)
        want(call(["check"], jumps), (1, b"", b"slot %d: JumpOut\n" % n), f"check of code that jumps out at {n}")


def ship_counts(counts: list[int]) -> None:
    """Code of so many slots is shipped and its last instruction is shown."""
    talk = []
    for machine, n in enumerate(counts, 1):
        shown = (f"line {machine} {n - 1}", f"line {machine} {n - 1} exit")
        talk += [(f"ship 1 0 0 0 0 0 {(EXIT * n).hex()}", f"shipped {machine}"), shown, (f"line {machine} {n}", "noslot" if n < SLOTS else "bad")]
    want_replies(talk, f"ship of {counts[0]} to {counts[-1]} slots")


def ship_bytes(lengths: list[int]) -> None:
    """Code whose last slot isn't whole, and code that is too long."""
    longest = (EXIT * (SLOTS + 2)).hex()
    talk = [(f"ship 1 0 0 0 0 0 {longest[: 2 * n]}", f"refused {n // 8} Short" if n <= 8 * SLOTS else "refused 0 TooLong") for n in lengths]
    want_replies(talk, f"ship of {lengths[0]} to {lengths[-1]} bytes")


def asm_lines(lines: list[int]) -> None:
    """An error in line k, and one in the line after the last that is right."""
    for k in lines:
        want(call(["asm"], b"\n" * (k - 1) + b"x"), (1, b"", b"line %d: Word\n" % k), f"asm of an error in line {k}")


def asm_counts(counts: list[int]) -> None:
    """So many instructions."""
    for n in counts:
        want(call(["asm"], b"exit\n" * n), (0, EXIT * n, b""), f"asm of {n} instructions")


def asm_texts(lengths: list[int]) -> None:
    """Texts of so many bytes, most of them a comment or blank lines."""
    for n in lengths:
        for fill in (b"#" + b"c" * (n - 7) + b"\n", b"\n" * (n - 5)):
            want(call(["asm"], fill[: n - 5] + b"\nexit" if fill[0] == 35 else fill + b"exit\n"), (0, EXIT, b""), f"asm of a text of {n} bytes")


def asm_labels(lengths: list[int]) -> None:
    """A label of so many bytes."""
    for n in lengths:
        name = b"l" * n
        want(call(["asm"], name + b": ja " + name + b"\nexit\n"), (0, bytes.fromhex("0500ffff00000000") + EXIT, b""), f"asm of a label of {n} bytes")


def asm_offsets(powers: list[int]) -> None:
    """Offsets of jumps and numbers at powers of two and beside them."""
    for z in sorted({sign * n for power in powers for n in near(power) for sign in (1, -1)}):
        if -(2**31) <= z < 2**31:
            code = b"\x06\0\0\0" + (z & 0xFFFFFFFF).to_bytes(4, "little")
            want(call(["asm"], b"ja32 %+d\n" % z), (0, code, b""), f"ja32 {z:+}")
            code = b"\xb7\1\0\0" + (z & 0xFFFFFFFF).to_bytes(4, "little")
            want(call(["asm"], b"mov r1, %d\n" % z), (0, code, b""), f"mov r1, {z}")
        if -(2**15) <= z < 2**15:
            code = b"\x05\0" + (z & 0xFFFF).to_bytes(2, "little") + bytes(4)
            want(call(["asm"], b"ja %+d\n" % z), (0, code, b""), f"ja {z:+}")


def bytes_of(n: int) -> bytes:
    """So many bytes, which tell where they begin."""
    return bytes((n * 7 + k * 31 + (k >> 8)) & 0xFF for k in range(n))


def put_and_get(lengths: list[int]) -> None:
    """So many bytes are written and read."""
    talk = [("make 65536", "made 1")]
    for n in lengths:
        at, shown = 65536 - n if n % 2 else n % 4093, bytes_of(n).hex()
        beyond = f"put 1 {65536 - n + 1} {shown}" if n > 1 else "get 1 65535 2"
        talk += [(f"put 1 {at} {shown}", "ok"), (f"get 1 {at} {n}", f"bytes {shown}"), (beyond, "outside")]
    want_replies(talk, f"put and get of {lengths[0]} to {lengths[-1]} bytes")


def stack_reads(lengths: list[int]) -> None:
    """So many bytes of a stack, at its end and before."""
    talk = [(f"ship 1 0 0 0 0 0 {EXIT.hex()}", "shipped 1")]
    for n in lengths:
        talk += [(f"stack 1 {SLOTS - n} {n}", f"bytes {'00' * n}"), (f"stack 1 {SLOTS - n + 1} {n}", "outside" if n > 1 else "bad")]
    want_replies(talk, f"stack of {lengths[0]} to {lengths[-1]} bytes")


def makes(first: int, step: int) -> None:
    """Objects of every step-th length, and their last bytes."""
    talk = []
    for number, length in enumerate(range(first, 65537, step), 1):
        talk += [(f"make {length}", f"made {number}"), (f"get {number} {length - 1} 1", "bytes 00"), (f"get {number} {length - 1} 2", "outside")]
    want_replies(talk, f"make from {first} on")


def high_numbers(numbers: list[int]) -> None:
    """1,024 objects of the greatest length: their last bytes are written and read, in the largest pieces."""
    talk = [*(("make 65536", f"made {number}") for number in range(1, 1025)), ("make 1", "full")]
    for number, n in itertools.product(numbers, (4095, 4096)):
        shown = bytes_of(n + number).hex()[: 2 * n]
        talk += [(f"put {number} {65536 - n} {shown}", "ok"), (f"get {number} {65536 - n} {n}", f"bytes {shown}")]
        talk += [(f"get {number} {65537 - n} {n}", "outside"), (f"get {number} 0 {n}", f"bytes {'00' * n}")]
    want_replies(talk, f"the last bytes of objects {numbers[0]} to {numbers[-1]}")


def all_stacks() -> None:
    """The whole stack of each machine, its last byte, and its last line, with code of 4,096 slots."""
    talk = []
    for m in range(1, 49):
        talk += [(f"ship 1 0 0 0 0 0 {(EXIT * SLOTS).hex()}", f"shipped {m}"), (f"stack {m} 0 4096", f"bytes {'00' * 4096}"), (f"stack {m} 4095 1", "bytes 00")]
        talk += [(f"stack {m} 4095 2", "outside"), (f"line {m} 4095", f"line {m} 4095 exit"), (f"line {m} 4096", "bad")]
    want_replies(talk, "the stacks and last lines of 48 machines")


def every_line() -> None:
    """The text of each slot of the longest program."""
    lines = [(f"line 1 {slot}", f"line 1 {slot} exit") for slot in range(SLOTS)]
    want_replies([(f"ship 1 0 0 0 0 0 {(EXIT * SLOTS).hex()}", "shipped 1"), *lines], "line of each slot")


def budgets(powers: list[int]) -> None:
    """A budget is used up to its last byte."""
    for n in sorted({n for power in powers for n in near(power) if n <= BUDGET_LIMIT}):
        sizes = [65536] * (n // 65536) + [n % 65536] * (n % 65536 > 0)
        talk = [(f"make {size}", f"made {number}") for number, size in enumerate(sizes[:1024], 1)]
        want_replies(talk + [("make 1", "noroom")] * (len(sizes) < 1024), f"budget {n}", ["--budget", str(n)])


def reads(sizes: list[int]) -> None:
    """Reads of so many bytes, each a line that isn't a command, whose reply has to come before the next is written."""
    with Process(PROGRAM, "run") as it:
        for n in sizes:
            want(it.answer(b"x" * (n - 1) + b"\n"), b"bad\n", f"a read of {n} bytes")
        want(it.end(), (0, b"", b""), "the end after reads of every size")


def long_line() -> None:
    """One line of 64 MB: a program that looks at all of it for each piece would take a minute, and this one half a second."""
    want(call(["run"], b"x" * (64 << 20) + b"\nstep 1\n", seconds=QUICK), (0, b"bad\nnone\n", b""), "a line of 64 MB")


def many_labels() -> None:
    """200,000 labels: a program that looks at all of them for each would take a minute, and this one a fifth of a second."""
    letters = "abcdefghijklmnopqrstuvwxyzABCDEFGHIJKLMNOPQRSTUVWXYZ_"
    names = ("".join(name) for name in itertools.product(letters, letters + "0123456789", letters + "0123456789"))
    text = "".join(name + ":\n" for name in itertools.islice(names, 200_000)) + "ja aaa\nexit\n"
    want(call(["asm"], text.encode(), ASM_DATA, QUICK), (0, bytes.fromhex("0500ffff00000000") + EXIT, b""), "200,000 labels")


def ten_thousand_commands() -> None:
    """After 10,000 commands the program has no more memory than after 100."""
    code = (EXIT * 64).hex()
    talk = [b"make 4096\n", f"ship 1000000 0 0 0 0 0 {code}\n".encode()]
    turns = [b"put 1 0 " + b"ab" * 4096 + b"\n", b"get 1 0 4096\n", b"stack 1 0 4096\n", b"line 1 3\n", b"regs 1\n", b"leave 1\n", b"left 1\n",
             b"return 1\n", b"returned 1\n", b"ship 1 0 0 0 0 0 ff\n", b"put 1 4095 abcd\n", b"free 2\n", b"bad " + b"x" * 4000 + b"\n"]
    with Process(PROGRAM, "run", limits=of_data(PROGRAM, RUN_DATA)) as it:
        had = 0
        for n, line in enumerate(itertools.chain(talk, itertools.islice(itertools.cycle(turns), 10_000))):
            want(it.answer(line).startswith((b"nomem", b"kept")), False, f"command {n} under {RUN_DATA} bytes")
            had = size_of(it.process.pid, "VmData") if n == 100 else had
        has = size_of(it.process.pid, "VmData")
        # A program of `make try` keeps what was freed for a while.
        want(has <= had or FACTOR > 1, True, f"{has} bytes of data after 10,000 commands, {had} after 100")
        want(it.end()[0], 0, "the end after 10,000 commands")


def thousands_of_moves() -> None:
    """1,000 objects of the greatest length are written, leave, return, leave again and are freed: what is freed is given back."""
    moves = ["leave {n}", "left {n}", "return {n}", "returned {n}"]
    commands = ("make 65536", "put {n} 65535 ab", *moves, "get {n} 65535 1", "put {n} 0 cd", *moves, "free {n}")
    lines = [line.format(n=n) for n in range(1, 1001) for line in commands]
    moved = ["leaving {n}", "left {n}", "returning {n}", "home {n}"]
    wanted = [reply.format(n=n) for n in range(1, 1001) for reply in ("made {n}", "ok", *moved, "bytes ab", "ok", *moved, "freed {n}")]
    status, output, errors = call(["run"], "".join(f"{line}\n" for line in lines).encode(), RUN_DATA)
    want((status, errors, output.decode().splitlines()), (0, b"", wanted), f"1,000 objects that move, under {RUN_DATA} bytes")


def small_memory() -> None:
    """The longest code and text under a stated limit of memory."""
    want(call(["check"], EXIT * SLOTS, RUN_DATA), (0, b"ok 4096\n", b""), "check under a limit of memory")
    want(call(["dis"], EXIT * SLOTS, RUN_DATA), (0, b"exit\n" * SLOTS, b""), "dis under a limit of memory")
    want(call(["asm"], b"\n" * (TEXT_LIMIT - 5) + b"exit\n", ASM_DATA), (0, EXIT, b""), "asm under a limit of memory")
    lines = [f"ship 1 0 0 0 0 0 {(EXIT * SLOTS).hex()}\n"] * 48
    shipped = b"".join(b"shipped %d\n" % m for m in range(1, 49))
    want(call(["run"], "".join(lines).encode(), 8 * RUN_DATA), (0, shipped, b""), "48 machines under a limit of memory")


def split(numbers: list[int], parts: int) -> list[list[int]]:
    """The numbers, dealt out."""
    return [numbers[k::parts] for k in range(parts) if numbers[k::parts]]


def dealt(sweep: Callable[[list[int]], None], numbers: list[int], parts: int) -> list[Task]:
    """Calls of a sweep, each with its part of the numbers."""
    return [(sweep, part) for part in split(numbers, parts)]


def thinned(tasks: Iterable[tuple[str, list[Task]]]) -> Iterator[tuple[str, list[Task]]]:
    """A few of the calls, with one in a hundred of their numbers, and without those that take long by themselves."""
    for name, calls in tasks:
        quick = [task for task in calls if len(task) > 1 and task[0] not in (makes, high_numbers, budgets)]
        thin = [(task[0], task[1][::THIN] or task[1], *task[2:]) if isinstance(task[1], list) else task for task in quick]
        yield name, thin[:: max(1, len(thin) // FEW)]


def tasks() -> Iterator[tuple[str, list[Task]]]:
    """Each part, as calls that can be made side by side."""
    counts = list(range(1, SLOTS + 1))
    powers = sorted({n for power in range(3, 20) for n in near(power)} | set(range(1000, TEXT_LIMIT, 9973)))
    lines = sorted(set(range(1, 1200)) | {n for power in range(10, 21) for n in near(power) if n <= TEXT_LIMIT})
    refused = [n for n in range(1, 8 * SLOTS + 16) if n % 8 or n > 8 * SLOTS]
    texts = [n for n in powers if 16 <= n <= TEXT_LIMIT]
    labels = list(range(1, 700)) + [n for power in range(10, 19) for n in near(power)]
    objects = list(range(1, 1000, 37)) + list(range(1000, 1025))
    made = [(makes, first, 64) for first in range(1, 65)]
    yield "check", dealt(check_counts, counts, 16) + dealt(check_refusals, list(range(SLOTS)), 16)
    yield "ship", [(ship_counts, counts[k : k + 48]) for k in range(0, SLOTS, 48)] + dealt(ship_bytes, refused, 256)
    yield "asm", dealt(asm_lines, lines, 8) + dealt(asm_counts, counts[::3] + counts[-8:], 8) + dealt(asm_texts, texts, 8)
    yield "labels", dealt(asm_labels, labels, 8) + [(asm_offsets, [power]) for power in range(32)]
    yield "commands", dealt(put_and_get, counts, 8) + dealt(stack_reads, counts, 4) + made + dealt(high_numbers, objects, 2) + [(every_line,), (all_stacks,)]
    yield "budgets", [(budgets, [power]) for power in range(27)]
    yield "reads", [(reads, counts), (reads, counts[::-1])]
    yield "time", [(long_line,), (many_labels,), (ten_thousand_commands,), (thousands_of_moves,), (small_memory,)]


def set_program(program: str) -> None:
    global PROGRAM, FACTOR
    PROGRAM = program
    FACTOR = patience(program)


def work(task: Task) -> str | None:
    """What went wrong, if something did."""
    try:
        task[0](*task[1:])
    except (Failed, OSError, subprocess.TimeoutExpired) as wrong:
        return f"{task[0].__name__}: {wrong}"
    return None


def main() -> None:
    program, *parts = [word for word in sys.argv[1:] if word != "--thin"] or [""]
    if not program:
        sys.exit(__doc__)
    if not os.path.isfile(program) or not os.access(program, os.X_OK):
        sys.exit(f"{program} can't be run")
    todo = dict(thinned(tasks()) if "--thin" in sys.argv else tasks())
    if unknown := set(parts) - set(todo):
        sys.exit(f"no part is called {', '.join(sorted(unknown))}")
    start, wrong = time.monotonic(), []
    with concurrent.futures.ProcessPoolExecutor(len(os.sched_getaffinity(0)), initializer=set_program, initargs=(os.path.abspath(program),)) as pool:
        for name in parts or todo:
            wrong += filter(None, pool.map(work, todo[name]))
    calls = sum(len(todo[name]) for name in parts or todo)
    report(wrong[:20], f"{program}: {calls} sweeps over sizes, slots, lines and budgets found nothing wrong, in {time.monotonic() - start:.0f} seconds")


if __name__ == "__main__":
    main()

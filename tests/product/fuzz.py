#!/usr/bin/env python3
"""Looks for what nobody thought of, by inputs made at random: fuzz.py PROGRAM [SECONDS [SEED]] [--part PART]..

Each part takes so many seconds, and the parts run side by side. With 0 seconds only what is stored is run. The seed is the day unless one is given.

`agent` compares the program with the reference, in conversations with `run`, and with `serve --workers 0` over TCP. It also compares `check` and
`dis` of code, and `asm` has to make the same code of the text of `dis`. What is expected comes from tests/reference. An input whose answer differs is
made smaller as long as it still differs, and kept in tests/fuzzed. What is there is compared from then on, also with 0 seconds, and by
tests/product/program.py.

`elf`, `dwarf`, `dap`, `gateway` and `front` change what is stored in tests/hostile/corpus. These are object files, their debugging information, an
editor's messages, replies of Redis, and lines of clients with files of saved objects. What comes of it is an answer or a clear error within a second,
in little memory, without a traceback and control characters. A case that fails is kept in tests/hostile/kept.

`library` calls the library for C, built by `make lib`, as libFuzzer says: tests/hostile/library.c has what is looked at.
"""
from __future__ import annotations

import argparse
import json
import os
import pathlib
import random
import shutil
import subprocess
import sys
import tempfile
import time
from concurrent.futures import ThreadPoolExecutor
from dataclasses import dataclass, field
from typing import Callable, Iterator, Sequence, TypeVar

sys.path.insert(0, str(pathlib.Path(__file__).resolve().parents[1]))
sys.path.insert(0, str(pathlib.Path(__file__).resolve().parents[1] / "reference"))
from instructions import HELPERS, ROWS, Fault, Row, load
from lib import package
from lib.checks import Failed, want
from lib.programs import Client, Service, ended, patience
from lib.sources import ROOT
from reference_agent import COMMANDS, Agent

KEPT = ROOT / "tests/fuzzed"
# The parts of tests/hostile, with the package of Python that each needs; the library, and what it is called by.
PARTS = {"elf": "elftools", "dwarf": "elftools", "dap": "elftools", "gateway": "redis", "front": ""}
LIBRARY, CALLS = ROOT / "out/lib/libbpfagent.a", ROOT / "tests/hostile/library.c"
SECONDS = 30
# How much longer a part may take than it was given, in seconds, and how long an input of the library's is.
LATER, LONGEST = 900, 4096
# How many lines a conversation has at most, how many slots a program, and how many conversations there are for each code that is checked.
LINES, SLOTS, EACH = 120, 24, 4
# Numbers at which something changes, and lengths of objects.
EDGES = (0, 1, 2, 7, 8, 63, 64, 255, 256, 4095, 4096, 65535, 65536, (1 << 31) - 1, 1 << 31, (1 << 32) - 1, 1 << 32, (1 << 63) - 1, 1 << 63, (1 << 64) - 1)
LENGTHS = (1, 2, 3, 8, 9, 64, 4096, 65536)
BUDGETS = (0, 8, 64, 5000, 67108864)
EXIT = bytes.fromhex("9500000000000000")
# The commands that take an object, a machine, a slot or a range, as one of each does. Half of those on a machine are steps.
OBJECT_WORDS, MACHINE_WORDS, SLOT_WORDS, RANGE_WORDS = (
    [name for name, form in COMMANDS.items() if form == COMMANDS[like]] for like in ("free", "step", "break", "watch")
)
MACHINE_WORDS += ["step"] * 3
# What `serve` doesn't do as `run` does, or when somebody else has had time.
NOT_SERVED = ("make", "free", "leave", "left", "return", "returned")
T = TypeVar("T")


@dataclass
class Talk:
    """A conversation: what `run` is started with, and its lines."""

    budget: int
    lines: list[str] = field(default_factory=list)

    def replies(self) -> list[str]:
        """What the reference answers."""
        agent = Agent(self.budget)
        return [agent.reply(line) for line in self.lines]


# ---- making inputs


def among(chance: random.Random, taken: object, otherwise: Sequence[int]) -> int:
    """A number that a field may hold, most of the time."""
    if chance.random() < 0.03:
        return chance.choice(otherwise)
    if isinstance(taken, range) and len(taken) > 64:
        return chance.choice([0, 1, -1, 4, 8, -8, 16, taken[0], taken[-1], chance.choice(taken)])
    return chance.choice(list(taken))  # type: ignore[call-overload,no-any-return]


def slot(opcode: int, dst: int, src: int, offset: int, imm: int) -> bytes:
    return bytes([opcode, (src & 15) << 4 | dst & 15]) + (offset % (1 << 16)).to_bytes(2, "little") + (imm % (1 << 32)).to_bytes(4, "little")


def instruction(chance: random.Random, at: int, length: int) -> bytes:
    """An instruction that is valid most of the time, and whose jump stays in the code most of the time."""
    opcode = chance.choice(list(ROWS)) if chance.random() < 0.97 else chance.randrange(256)
    row = ROWS.get(opcode, Row("", range(16), range(16), range(-4, 5), range(-4, 5), ""))
    dst, src = among(chance, row.dst, range(16)), among(chance, row.src, range(16))
    offset, imm = among(chance, row.offset, range(-9, 9)), among(chance, row.imm, range(-9, 9))
    nearby = chance.randrange(-at, length - at) - 1
    if row.kind in ("condition", "ja") and chance.random() < 0.9:
        offset, imm = (offset, nearby) if row.offset == (0,) else (nearby, imm)
    if row.kind in ("load", "store", "atomic"):
        # The stack, and the object whose address R1 is.
        base = chance.choice([1, 1, 10, chance.randrange(11)])
        dst, src = (dst, base) if row.kind == "load" else (base, src)
        if chance.random() < 0.9:
            offset = chance.choice([0, 0, 8, 56, 64, 4]) if base != 10 else chance.choice([-8, -16, -64, -512])
    if row.kind == "call" and chance.random() < 0.9:
        src, imm = (1, nearby) if chance.random() < 0.4 else (0, chance.choice(HELPERS))
    made = slot(opcode, dst, src, offset, imm)
    return made + bytes(4) + chance.randbytes(4) if row.kind == "wide" else made


def code_of(chance: random.Random) -> bytes:
    """A program. Most end with an exit."""
    length = chance.randint(1, SLOTS)
    pieces = [instruction(chance, at, length + 1) for at in range(length)]
    code = b"".join(pieces) + EXIT * (chance.random() < 0.95)
    return code[: chance.randrange(len(code) + 1)] if chance.random() < 0.02 else code


def valid_code(chance: random.Random) -> bytes:
    """A program that loads, most of the time: instructions that don't are left out one after the other."""
    code = code_of(chance)
    for _ in range(2 * SLOTS):
        try:
            load(code)
            return code
        except Fault as fault:
            if fault.name == "FallsOff":
                code += EXIT
            else:
                code = code[: 8 * fault.slot] + EXIT + code[8 * fault.slot + 8 :]
    return code


def number(chance: random.Random, near: int) -> str:
    """A number as a line spells it, most of the time one that is near."""
    value = near if chance.random() < 0.9 else chance.choice([chance.choice(EDGES), chance.randrange(1 << 16)])
    return f"0x{value:x}" if chance.random() < 0.2 else str(value)


def line(chance: random.Random, agent: Agent, has_moves: bool) -> str:
    """A line that fits what is there, most of the time."""
    some_object = chance.randint(1, max(agent.made, 1))
    some_machine = chance.randint(1, max(len(agent.debuggers), 1))
    length = len(agent.objects[some_object].body) if some_object in agent.objects else 8
    roll = chance.random()
    if has_moves and (roll < 0.08 or not agent.made):
        return f"make {number(chance, chance.choice(LENGTHS))}"
    if roll < 0.2:
        size = chance.choice([1, 2, 8, min(length, 64)])
        at = number(chance, chance.choice([0, 0, max(length - size, 0), length]))
        word = chance.choice(["put", "get"])
        return f"{word} {number(chance, some_object)} {at} {chance.randbytes(size).hex() if word == 'put' else number(chance, size)}"
    if has_moves and roll < 0.35:
        return f"{chance.choice(OBJECT_WORDS)} {number(chance, some_object)}"
    if roll < 0.45 or not agent.debuggers:
        fuel = number(chance, chance.choice([0, 1, 5, 1000]))
        arguments = [number(chance, chance.choice([some_object << 32, 1 << 32, 2 << 32, 5, chance.choice(EDGES)])) for _ in range(5)]
        grants = "".join(f" {chance.choice('rw')}{n}" for n in range(1, agent.made + 2) if chance.random() < 0.4) if chance.random() < 0.4 else None
        code = valid_code(chance) if chance.random() < 0.9 else code_of(chance)
        return " ".join(["ship" if grants is None else "ship2", fuel, *arguments, code.hex() or "00"]) + (grants or "")
    if roll < 0.88:
        return f"{chance.choice(MACHINE_WORDS)} {number(chance, some_machine)}"
    if roll < 0.93:
        return f"{chance.choice(SLOT_WORDS)} {number(chance, some_machine)} {number(chance, chance.randrange(SLOTS))}"
    if roll < 0.97:
        place = number(chance, (some_object << 32) + chance.choice([0, 8, 56]))
        return f"{chance.choice(RANGE_WORDS)} {number(chance, some_machine)} {place} {number(chance, chance.choice([1, 8, 64]))}"
    if roll < 0.98:
        return f"stack {number(chance, some_machine)} {number(chance, chance.choice([0, 4088, 4032]))} {number(chance, 8)}"
    return chance.choice(["", " ", "make", "step", "steps 1", "step  1", "step 1 ", "ship 1 2", "get 1 0", "put 1 0 0", "\x7f", "step 1\r", "MAKE 1"])


def conversation(chance: random.Random, has_moves: bool = True) -> Talk:
    """A conversation that goes on from what it was answered."""
    talk = Talk(chance.choice(BUDGETS) if has_moves else BUDGETS[-1])
    agent = Agent(talk.budget)
    if not has_moves:
        talk.lines += [f"make {chance.choice(LENGTHS)}" for _ in range(chance.randint(1, 4))]
    for made in talk.lines:
        agent.reply(made)
    for _ in range(chance.randint(1, LINES)):
        talk.lines.append(line(chance, agent, has_moves))
        agent.reply(talk.lines[-1])
    return talk


# ---- comparing


def difference_of_run(program: str, talk: Talk) -> str:
    """How `run` answers otherwise than the reference; empty if it doesn't."""
    given = "".join(f"{it}\n" for it in talk.lines).encode()
    status, output, errors = ended(program, "run", "--budget", str(talk.budget), given=given, seconds=60 * patience(program))
    return difference(talk, output.decode("ascii", "replace").split("\n")[:-1], (status, errors))


def difference_of_service(program: str, talk: Talk) -> str:
    """How a client of `serve --workers 0` is answered otherwise than by `run`; the objects are made before."""
    made = [it for it in talk.lines if it.split(" ")[0] == "make"]
    asked = [it for it in talk.lines if it.split(" ")[0] not in NOT_SERVED]
    service = Service(program, "--workers", "0", setup=made)
    with service:
        with Client(service) as client:
            replies = client.ask_at_once(asked)
    return difference(Talk(talk.budget, made + asked), Talk(talk.budget, made).replies() + replies, (0, b""))


def difference(talk: Talk, found: Sequence[str], ended_with: tuple[int, bytes]) -> str:
    wanted = talk.replies()
    for said, told, expected in zip(talk.lines, found, wanted):
        if told != expected:
            return f"{said[:200]!r} is answered {told[:200]!r}, and the reference answers {expected[:200]!r}"
    if len(found) != len(wanted) or ended_with != (0, b""):
        return f"{len(found)} replies to {len(wanted)} lines, status {ended_with[0]}, {ended_with[1][:200]!r}"
    return ""


def difference_of_code(program: str, code: bytes) -> str:
    """How `check`, `dis` and `asm` answer otherwise than the reference."""
    seconds = 60 * patience(program)
    try:
        lines = [it.line() for it in load(code).values()]
    except Fault as fault:
        refused = (1, b"", f"slot {fault.slot}: {fault.name}\n".encode())
        for task in ("check", "dis"):
            if (said := ended(program, task, given=code, seconds=seconds)) != refused:
                return f"{task} answers {said}, and the reference {refused}"
        return ""
    text = "".join(f"{it}\n" for it in lines).encode()
    for task, given, output in (("check", code, f"ok {len(code) // 8}\n".encode()), ("dis", code, text), ("asm", text, code)):
        if (said := ended(program, task, given=given, seconds=seconds)) != (0, output, b""):
            return f"{task} answers {said}, and the reference {output!r}"
    return ""


COMPARE = {"run": difference_of_run, "serve": difference_of_service}


# ---- making what differs smaller


def smaller(parts: list[T], differs: Callable[[list[T]], bool]) -> list[T]:
    """Fewer parts that still differ: runs of them are left out, shorter and shorter."""
    size = len(parts) // 2
    while size:
        at = 0
        while at < len(parts):
            rest = parts[:at] + parts[at + size :]
            if rest and differs(rest):
                parts = rest
            else:
                at += size
        size //= 2
    return parts


def kept(program: str, name: str, kind: str, talk: Talk) -> str:
    """Keeps the smallest conversation that differs; why it does, and where it lies."""
    compare = COMPARE[kind]
    talk.lines = smaller(talk.lines, lambda lines: bool(compare(program, Talk(talk.budget, lines))))
    return f"{compare(program, talk)}; {written(name, {'kind': kind, 'budget': talk.budget, 'lines': talk.lines})}"


def kept_code(program: str, name: str, code: bytes) -> str:
    """Keeps the least code that differs; why it does, and where it lies."""
    slots = smaller([code[at : at + 8] for at in range(0, len(code), 8)], lambda some: bool(difference_of_code(program, b"".join(some))))
    return f"{difference_of_code(program, b''.join(slots))}; {written(name, {'kind': 'code', 'code': b''.join(slots).hex()})}"


def written(name: str, case: dict[str, object]) -> str:
    """Writes a case that differs; where it lies. It is JSON, since a line may be empty, or have any character."""
    KEPT.mkdir(exist_ok=True)
    (KEPT / f"{name}.json").write_text(json.dumps(case, indent=1) + "\n")
    return f"kept as {KEPT.name}/{name}.json"


def stored(program: str) -> str:
    """Compares what was kept; how much that is."""
    cases = sorted(KEPT.glob("*.json"))
    for path in cases:
        case = json.loads(path.read_text())
        if case["kind"] == "code":
            why = difference_of_code(program, bytes.fromhex(case["code"]))
        else:
            why = COMPARE[case["kind"]](program, Talk(case["budget"], case["lines"]))
        want(not why, f"{path.name}: {why}")
    return f"agent: {len(cases)} stored cases; no difference"


def rounds(seed: str) -> Iterator[random.Random]:
    """A source of chance for each round, so that a round can be repeated by its name."""
    count = 0
    while True:
        yield random.Random(f"{seed}.{count}")
        count += 1


def fuzz(program: str, seconds: float, seed: str) -> str:
    """Compares until the time is over; what was done."""
    stored(program)
    until = time.monotonic() + seconds
    talks = lines = services = codes = 0
    for number_of, chance in enumerate(rounds(seed)):
        if time.monotonic() > until:
            break
        talk = conversation(chance)
        if COMPARE["run"](program, talk):
            raise Failed(f"run: {kept(program, f'{seed}.{number_of}', 'run', talk)}")
        talks, lines = talks + 1, lines + len(talk.lines)
        if number_of % EACH == 0:
            talk = conversation(chance, has_moves=False)
            if COMPARE["serve"](program, talk):
                raise Failed(f"serve: {kept(program, f'{seed}.{number_of}', 'serve', talk)}")
            services += 1
            for code in (code_of(chance), valid_code(chance)):
                if difference_of_code(program, code):
                    raise Failed(f"code: {kept_code(program, f'{seed}.{number_of}', code)}")
                codes += 1
    want(talks and services and codes, "nothing was compared in this time")
    return f"seed {seed}: {talks} conversations of {lines} lines, {services} with a service, {codes} programs; no difference"


# ---- the other parts


def hostile(program: str, seconds: float, seed: str, part: str) -> str:
    """Runs a part of tests/hostile; what was done."""
    needed = PARTS[part]
    if needed and not package.has(package.python(), needed):
        return f"{part} is left out: {package.python()} has no {needed}"
    env = package.environment(program)
    env["PYTHONPATH"] = os.pathsep.join([str(ROOT / "tests"), env["PYTHONPATH"]])
    command = [package.python(), "-m", "hostile", os.path.abspath(program), str(seconds), seed, part]
    done = subprocess.run(command, stdin=subprocess.DEVNULL, capture_output=True, text=True, errors="backslashreplace", env=env, timeout=seconds + LATER)
    want(done.returncode == 0, done.stderr.strip())
    return done.stdout.strip()


def library(seconds: float, seed: str) -> str:
    """Calls the library for C; what was done."""
    clang = shutil.which(os.environ.get("CLANG", "clang"))
    if not clang or not LIBRARY.is_file():
        return f"library is left out: there is no {LIBRARY.relative_to(ROOT) if clang else 'clang'}"
    folder = KEPT.parent / "hostile/kept/library"
    if not seconds and not any(folder.glob("*")):
        return "library: nothing is stored"
    with tempfile.TemporaryDirectory() as room:
        words = [clang, "-g", "-O1", "-fsanitize=fuzzer,address,undefined", "-fno-sanitize-recover=all", f"-I{ROOT / 'include'}", "-o", f"{room}/calls"]
        built = subprocess.run([*words, str(CALLS), str(LIBRARY)], capture_output=True, text=True)
        if built.returncode and "libclang_rt.fuzzer" in built.stderr:
            return "library is left out: this clang has no libFuzzer (libclang-rt-14-dev)"
        want(built.returncode == 0, f"tests/hostile/library.c: {built.stderr}")
        number = random.Random(seed).randrange(1, 1 << 31)
        stored = sorted(folder.glob("*"))
        limits = [f"-max_total_time={max(int(seconds), 1)}", f"-seed={number}", f"-max_len={LONGEST}", "-timeout=10", "-rss_limit_mb=1024"]
        inputs = [str(path) for path in stored] if not seconds else [*limits, f"-artifact_prefix={room}/", room]
        done = subprocess.run([f"{room}/calls", *inputs], stdin=subprocess.DEVNULL, capture_output=True, text=True, errors="replace", timeout=seconds + LATER)
        if done.returncode:
            for found in pathlib.Path(room).glob("[a-z]*-*"):
                folder.mkdir(parents=True, exist_ok=True)
                shutil.copy(found, folder)
            raise Failed(f"library, seed {seed}, kept in {folder.relative_to(ROOT)}: {done.stderr[-2000:]}")
    told = [line for line in done.stderr.splitlines() if line.startswith(("Done ", "stat::number_of_executed_units", "#"))]
    return f"library: {told[-1] if told else f'{len(stored)} stored cases'}"


def run_part(program: str, seconds: float, seed: str, part: str) -> str:
    """Why a part failed; empty if it didn't. What was done is printed."""
    try:
        if part == "agent":
            said = fuzz(program, seconds, seed) if seconds else stored(program)
        else:
            said = library(seconds, seed) if part == "library" else hostile(program, seconds, seed, part)
    except (Failed, OSError, ValueError, subprocess.TimeoutExpired) as why:
        return f"fuzz: {why}"
    print(f"fuzz: {said}", flush=True)
    return ""


def main() -> str | None:
    """Reads the arguments; why it failed."""
    options = argparse.ArgumentParser(description=(__doc__ or "").split("\n")[0])
    options.add_argument("program", metavar="PROGRAM")
    options.add_argument("seconds", metavar="SECONDS", type=float, nargs="?", default=SECONDS)
    options.add_argument("seed", metavar="SEED", nargs="?", default=time.strftime("%Y-%m-%d"))
    options.add_argument("--part", action="append", choices=["agent", *PARTS, "library"])
    given = options.parse_args()
    if not pathlib.Path(given.program).is_file():
        return f"fuzz: there is no program {given.program}: `make try` builds one without proofs"
    program, parts = str(pathlib.Path(given.program).resolve()), given.part or ["agent", *PARTS, "library"]
    with ThreadPoolExecutor(len(os.sched_getaffinity(0))) as pool:
        wrong = list(filter(None, pool.map(lambda part: run_part(program, given.seconds, given.seed, part), parts)))
    return "\n".join(wrong) or None


if __name__ == "__main__":
    sys.exit(main())

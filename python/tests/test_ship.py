"""`bpfagent-ship` as a user calls it.

What it says of an argument that is none, of fuel, of code that is refused, of objects of more than one piece, and of a stop. C
files and object files where clang and pyelftools are there: one command from a file to its result, the source line of a stop
and of a refusal, calls between functions of several sections, and what only a platform could fill in.
"""
from __future__ import annotations

import os
import pathlib
import pty
import re
import select
import shutil
import signal
import socket
import struct
import subprocess
import sys
import time
import unittest
from typing import Optional, Sequence
from unittest import mock

import bpfagent
import stand_in
from bpfagent import Service, Unloadable, address, image, load, own
from bpfagent.library import library_if_there
from bpfagent.ship import SLOW, main
from support import PROGRAM, ROOT, SECONDS, folder_of, has_elftools, heard, program_of, usage_of

from lib.far import Far
from lib.programs import has_checks, until
from product.program import has_clang

# What is shown of C files is what clang 14 makes of them.
needs_clang = unittest.skipUnless(PROGRAM and has_elftools() and has_clang(), "needs BPFAGENT, clang 14 and pyelftools (python3-pyelftools)")
SHIP = [sys.executable, "-m", "bpfagent.ship"]
EXIT = bytes.fromhex("9500000000000000")
# r0 = 0, and again and again r0 += 1, for ever
ENDLESS = bytes.fromhex("b700000000000000" "0700000001000000" "0500feff00000000")
# r0 = the byte to which R1 points, plus R2
LOADS = bytes.fromhex("7110000000000000" "0f20000000000000") + EXIT
# emits R1 by a call of helper 3
EMITS = bytes.fromhex("8500000003000000" "b700000000000000") + EXIT
SPENT = "it has no fuel left: --fuel N gives more"
TAKES = "is neither a number nor +N, =TEXT or @FILE"


def ship(*arguments: str, folder: Optional[pathlib.Path] = None) -> tuple[int, str, str]:
    """Status, standard output and standard error."""
    done = subprocess.run([*SHIP, *arguments], capture_output=True, text=True, timeout=SECONDS, cwd=folder)
    return done.returncode, done.stdout, done.stderr


def has_begun(number: int) -> bool:
    """Whether a command has started its agent, or has loaded the library."""
    children = pathlib.Path(f"/proc/{number}/task/{number}/children").read_text()
    return bool(children) or "libbpfagent" in pathlib.Path(f"/proc/{number}/maps").read_text()


def setUpModule() -> None:
    """Where the tests run in the background, an interrupt is ignored, and would be by the commands too."""
    signal.signal(signal.SIGINT, signal.default_int_handler)


def elf(machine: int) -> bytes:
    """The head of an object file for a machine, with one section that has no name and no bytes."""
    return b"\x7fELF\x02\x01" + bytes(10) + struct.pack("<HHIQQQIHHHHHH", 1, machine, 1, 0, 0, 64, 0, 64, 0, 0, 64, 1, 0) + bytes(64)


ADDS = """#include <stdint.h>
struct pair { uint64_t first, second; };
static uint64_t sum(struct pair *pair) { return pair->first + pair->second; }
uint64_t program(struct pair *pair) { return sum(pair); }
"""
# Functions in three sections; the entry point isn't first in any, and one function isn't reached.
SECTIONS = """#include "bpfagent.h"
__attribute__((noinline)) uint64_t twice(uint64_t n) { return 2 * n; }
__attribute__((noinline, section("far"))) uint64_t square(uint64_t n) { return n * n + twice(n); }
CALLED uint64_t near(uint64_t n) { return square(n + 1); }
__attribute__((section("entry"))) uint64_t unused(uint64_t n) { return square(n); }
__attribute__((section("entry"))) uint64_t program(uint64_t n) { return near(n) + square(n) + twice(n); }
"""
# Each program that is refused, and why.
REFUSED = [
    (
        "static const uint64_t table[5] = {1, 2, 3, 5, 8};\nuint64_t program(uint64_t n) { return table[n]; }",
        "c.c:3: slot 1 of program needs the address of table in .rodata: a program has no data of its own; put it into an object",
    ),
    (
        "uint64_t other(uint64_t n);\nuint64_t program(uint64_t n) { return other(n); }",
        "c.c:3: slot 0 of program calls other, which this file doesn't define",
    ),
    (
        "extern uint64_t outside;\nuint64_t program(void) { return outside; }",
        "c.c:3: slot 0 of program needs outside, which this file doesn't define: a platform would have to provide it",
    ),
    (
        '__attribute__((section(".maps"))) struct { uint64_t kind; } map;\nuint64_t program(void) { return (uint64_t)&map; }',
        "c.c:3: slot 0 of program needs the map map: there are no maps here; take an object's address as an argument",
    ),
    (
        "CALLED uint64_t one(void) { return 1; }\nuint64_t program(void) { return (uint64_t)one; }",
        "c.c:3: slot 0 of program needs the address of a function: only direct calls can be shipped",
    ),
    (
        'uint64_t program(void) { uint64_t x; __asm__(".byte 0x18, 0x10, 0, 0, 7, 0, 0, 0, 0, 0, 0, 0, 0, 0, 0, 0" : "=r"(x)); return x; }',
        "c.c:2: slot 0 of program loads a constant of kind 1, which needs a platform's maps or variables",
    ),
    (
        "const uint64_t version = 7;\nuint64_t program(void) { return 0; }",
        "c.c: .rodata has 8 bytes, and a program has no data of its own; put it into an object",
    ),
    (
        "uint64_t other(uint64_t n) { return n; }\nuint64_t another(uint64_t n) { return n; }",
        "c.c: there is no function program; --entry NAME chooses another: other, another",
    ),
    (
        "uint64_t program(void) { return ((uint64_t (*)(void))5)(); }",
        "c.c: refused 0 Helper (c.c:2: uint64_t program(void) { return ((uint64_t (*)(void))5)(); })",
    ),
]


@unittest.skipUnless(PROGRAM, "needs BPFAGENT")
class Ships(unittest.TestCase):
    """Each test has a folder with raw code of four programs."""

    def setUp(self) -> None:
        self.folder = folder_of(self)
        self.codes: dict[str, str] = {}
        for name, code in (("exit", EXIT), ("endless", ENDLESS), ("loads", LOADS), ("emits", EMITS)):
            path = self.folder / f"{name}.code"
            path.write_bytes(code)
            self.codes[name] = str(path)

    def want_said(self, arguments: Sequence[str], status: int, output: str, errors: str) -> None:
        """A call ends with this status, and says this."""
        self.assertEqual(ship(*arguments), (status, output, errors), f"{arguments} ends")

    def want_first(self, arguments: Sequence[str], line: str, folder: Optional[pathlib.Path] = None) -> None:
        """A call ends with status 1, and this is the first line that it says; `check --explain` has further ones."""
        status, output, errors = ship(*arguments, folder=folder)
        self.assertEqual((status, output, errors.splitlines()[:1]), (1, "", [line]))

    def want_usage(self, arguments: Sequence[str], why: str = "") -> None:
        """Wrong arguments get the usage, what is wrong, and status 2."""
        status, output, errors = usage_of(main, arguments)
        self.assertEqual((status, output, errors[:22]), (2, "", "usage: bpfagent-ship ["), arguments)
        self.assertTrue(errors.endswith(f"{why}\n"), errors)

    def test_arguments(self) -> None:
        """The argument that is none is named, with its place, before anything is started; an object that can't be made, too."""
        code, folder = self.codes["exit"], self.folder
        range_of = "isn't from 0 to 2^64 - 1"
        lengths = "isn't from +1 to +65536, the lengths of an object"
        for given, why in (
            ("nine", TAKES),
            ("", TAKES),
            ("0x", TAKES),
            ("1.5", TAKES),
            ("1_0", TAKES),
            ("\u0663", TAKES),
            ("-1", range_of),
            (str(2**64), range_of),
            ("9" * 5000, range_of),
            ("+-1", range_of),
            ("+x", TAKES),
            ("+0", lengths),
            ("+65537", lengths),
            (f"+{2**64 - 1}", lengths),
        ):
            for place in (1, 5):
                self.want_usage(["none.c", *["0"] * (place - 1), given], f"bpfagent-ship: error: argument {place}, `{given}`: {why}")
        self.want_usage([code, *"123456"], "bpfagent-ship: error: 6 arguments are given, and a program takes at most five")
        self.want_usage(["--line", code, "+8"], "argument 1, `+8`: isn't a number, and --line takes numbers alone")
        self.want_usage([code, "7", "="], "argument 2, `=`: has no bytes, and an object has 1 to 65536")
        self.want_usage([], "bpfagent-ship: error: the following arguments are required: FILE")
        for words in (["--check", code, "1"], ["--output", f"{folder}/x", code, "1"]):
            self.want_usage(words, f"{words[0]} takes no ARGUMENT: nothing is run")
        self.want_said([code, "1", f"@{folder}/none"], 1, "", f"bpfagent-ship: argument 2, `@{folder}/none`: No such file or directory\n")
        long = folder / "long"
        for content, size in ((b"", "no"), (bytes(65_537), "more than 65536")):
            long.write_bytes(content)
            self.want_said([code, f"@{long}"], 1, "", f"bpfagent-ship: argument 1, `@{long}`: has {size} bytes, and an object has 1 to 65536\n")
        self.want_said([code, "@/dev/zero"], 1, "", "bpfagent-ship: argument 1, `@/dev/zero`: has more than 65536 bytes, and an object has 1 to 65536\n")
        self.want_said([f"{folder}/none"], 1, "", f"bpfagent-ship: {folder}/none: No such file or directory\n")
        (folder / "any.asm").write_text("exit")
        silent = shutil.which("false")
        self.want_said(["--bpfagent", str(silent), f"{folder}/any.asm"], 1, "", f"bpfagent-ship: {folder}/any.asm: {silent} asm ended with status 1\n")
        self.want_said(["--output", f"{folder}/none/x", code], 1, "", f"bpfagent-ship: {folder}/none/x: No such file or directory\n")
        self.want_said([code, str(2**64 - 1), "0", "0", "0", "0x10"], 0, "stopped 1 exit 0000000000000000 = 0\n1 instructions\n", "")

    def test_fuel(self) -> None:
        """Fuel is an option, wherever it stands. A program that doesn't exit has status 1."""
        code = self.codes["endless"]
        at = {1: "slot 1: add r0, 1", 2: "slot 2: ja -2", 1000: "slot 2: ja -2"}
        for fuel, slot in at.items():
            for words in (["--fuel", str(fuel), "7"], ["7", "--fuel", hex(fuel)]):
                self.want_said([code, *words], 1, f"stopped 1 spent\n{fuel} instructions\nat {slot}\n{SPENT}\n", "")
        self.want_said([code, "--fuel", "0"], 1, f"stopped 1 spent\n0 instructions\nat slot 0: mov r0, 0\n{SPENT}\n", "")
        for words in (["--fuel"], ["--fuel", "much"], ["1", "--fuel", "-1"], ["--fuel", str(2**64)]):
            self.want_usage([code, *words])

    def test_objects(self) -> None:
        """Objects are shown whole, also those of many pieces; of text, as text."""
        code, folder = self.codes["loads"], self.folder
        path = folder / "object"
        for length in (1, 4095, 4096, 4097, 8192, 65536):
            content = bytes((n * 7 + (n >> 8)) & 0xFF for n in range(length - 1)) + b"\xff"
            path.write_bytes(content)
            first = f"stopped 1 exit {content[0] + 16:016x} = {content[0] + 16}\n3 instructions\n"
            self.want_said(["--show", "65536", code, f"@{path}", "0x10"], 0, f"{first}object 1: {content.hex()}\n", "")
        first = f"stopped 1 exit {ord('o'):016x} = {ord('o')}\n3 instructions\n"
        shown = f"{first}object 1: {b'one'.hex()} \"one\"\nobject 2: 000000\nobject 3: {b'two'.hex()} \"two\"\n"
        self.want_said([code, "=one", "0", "+3", "=two"], 0, shown, "")
        self.want_said([code, os.fsdecode(b"=\xff")], 0, f"stopped 1 exit {255:016x} = {255}\n3 instructions\nobject 1: ff\n", "")

    def test_stops(self) -> None:
        """The slot and the instruction of a stop that isn't an exit; what was emitted; why code isn't shipped."""
        codes, folder = self.codes, self.folder
        self.want_said(
            [codes["loads"], "0x100000000"], 1, "stopped 1 outside\n0 instructions\nat slot 0: ldxb r0, [r1]\n[r1] is object 1, and there is no object 1\n", ""
        )
        self.want_said([codes["emits"], "0xabc"], 0, "stopped 1 exit 0000000000000000 = 0\n3 instructions\nemitted 0000000000000abc = 2748\n", "")
        short = folder / "short.code"
        for content, why in (
            (EXIT + EXIT[:7], "refused 1 Short"),
            (EXIT * 4097, "refused 0 TooLong"),
            (b"", "has 0 slots, and a program has 1 to 4096"),
            (EXIT * 5000, "has 5000 slots, and a program has 1 to 4096"),
        ):
            short.write_bytes(content)
            self.want_first([str(short)], f"bpfagent-ship: {short}: {why}")
        self.want_said(["--line", "--fuel", "7", codes["exit"], "1", "0x2"], 0, f"ship 7 1 0x2 0 0 0 {EXIT.hex()}\n", "")

    def on_terminal(self, *arguments: str, until: str, keys: Sequence[int] = ()) -> tuple[int, str, str]:
        """Status, standard output, and what a terminal shows as standard error. Once this was shown, these signals come."""
        shown, other = pty.openpty()
        with subprocess.Popen([*SHIP, *arguments], stdout=subprocess.PIPE, stderr=other, text=True, preexec_fn=heard) as child:
            os.close(other)
            said, end = b"", time.monotonic() + SECONDS
            while select.select([shown], [], [], max(end - time.monotonic(), 0))[0]:
                try:
                    piece = os.read(shown, 1 << 16)
                except OSError:
                    break
                said += piece
                if re.search(until.encode(), said):
                    for number in keys:
                        child.send_signal(number)
                    keys = ()
            if keys:
                # It would run for ever.
                child.kill()
            output = child.communicate(timeout=SECONDS)[0]
        os.close(shown)
        return child.returncode, output, said.decode().replace("\r\n", "\n")

    def test_progress(self) -> None:
        """A long run shows on a terminal how far it is, and at an interrupt where it was; a short one shows nothing, and neither does a pipe."""
        endless = [self.codes["endless"], "--fuel", str(2**63)]
        line = r"[0-9,]+ instructions, (?:<0\.1|[0-9.]+) % of the fuel, [0-9.,e+]+ million/s, at slot [12]"
        status, output, said = self.on_terminal(*endless, until=line, keys=[signal.SIGINT])
        self.assertEqual((status, output), (130, ""))
        self.assertRegex(
            said.removeprefix(f"{SLOW}\n"),
            rf"^(\r{line}\x1b\[K)+\r\x1b\[Kinterrupted after [0-9,]+ instructions, (?:<0\.1|[0-9.]+) % of the fuel, at slot [12]\n"
            rf"bpfagent-debug {self.codes['endless']}: there an interrupt of `continue` pauses it, and shows where it is; --fuel N ends a run by itself\n$",
        )
        status, output, said = self.on_terminal(self.codes["exit"], until="$")
        self.assertEqual((status, output, said.removeprefix(f"{SLOW}\n")), (0, f"stopped 1 exit {0:016x} = {0}\n1 instructions\n", ""))
        with subprocess.Popen([*SHIP, *endless], stdout=subprocess.PIPE, stderr=subprocess.PIPE, preexec_fn=heard) as child:
            until("the program doesn't begin", lambda: has_begun(child.pid))
            # From then on a terminal would show how far it is.
            time.sleep(1.5)
            child.send_signal(signal.SIGINT)
            self.assertEqual((child.communicate(timeout=SECONDS), child.returncode), ((b"", b""), 130))

    def test_unproved(self) -> None:
        """On a terminal a program with a sanitizer says so, once; elsewhere, and in process, nothing does."""
        is_told = has_checks(PROGRAM) and not os.environ.get("BPFAGENT_LIBRARY")
        status, output, said = self.on_terminal(self.codes["exit"], until="$")
        self.assertEqual((status, output, said), (0, f"stopped 1 exit {0:016x} = {0}\n1 instructions\n", f"{SLOW}\n" if is_told else ""))
        self.want_said([self.codes["exit"]], 0, f"stopped 1 exit {0:016x} = {0}\n1 instructions\n", "")

    def test_ways(self) -> None:
        """A program runs in this process if the library is there and no program is named, otherwise by a worker; after a setup by lines."""
        near = own.InProcess if library_if_there() else None
        ways: list[tuple[Optional[str], bool, type[object]]] = [
            (None, False, near or own.Served), (None, True, near or own.Stepped), (PROGRAM, False, own.Served), (PROGRAM, True, own.Stepped)
        ]
        for program, has_setup, kind in ways:
            with own.opened(program, SECONDS, has_setup) as made:
                self.assertIs(type(made), kind, (program, has_setup))

    def test_service(self) -> None:
        """A program of a service, run by this client or by workers: its objects by their numbers, one that is away, a stop, no service."""
        loads, emits, endless = (self.codes[name] for name in ("loads", "emits", "endless"))
        for workers in ("0", "2"):
            with Service(PROGRAM, "--connections", "8", "--workers", workers, timeout=SECONDS) as service:
                service.setup.make_of(b"*")
                at = service.listen()
                with service.connect() as other:
                    other.leave(1)
                    self.want_said([loads, "--connect", at, ":1", "2"], 0, f"stopped 1 exit {ord('*') + 2:016x} = {ord('*') + 2}\n3 instructions\n", "")
                emitted = f"stopped 2 exit {0:016x} = 0\n3 instructions\nemitted {address(1):016x} = {address(1)}\n"
                self.want_said([emits, "--connect", at, ":1"], 0, emitted, "")
                spent = f"stopped 3 spent\n7 instructions\nat slot 1: add r0, 1\n{SPENT}\n"
                self.want_said([endless, "--connect", at, "--fuel", "7"], 1, spent, "")
                stopped = "stopped 4 outside\n0 instructions\nat slot 0: ldxb r0, [r1]\n[r1] is object 2\n"
                self.want_said([loads, "--connect", at, ":2"], 1, stopped, "")
                self.want_usage([loads, "--connect", at, "+8"], "argument 1, `+8`: is neither a number nor :N, an object of the service")
                self.want_usage([loads, "--connect", at, ":1025"], "argument 1, `:1025`: isn't from :1 to :1024, the numbers of objects")
        self.want_said([loads, "--connect", at], 1, "", f"bpfagent-ship: the service at {at} can't be reached: No such file or directory\n")

    def test_refused(self) -> None:
        """A later command that an agent refuses, as where memory runs out, is a line and no traceback."""

        def refuse(stream: socket.socket) -> None:
            for reply in (b"shipped 1\n", b"nomem\n"):
                stream.recv(1 << 16)
                stream.sendall(reply)

        with stand_in.answering(refuse) as port:
            self.want_said([self.codes["exit"], "--connect", f"127.0.0.1:{port}"], 1, "", "bpfagent-ship: nomem\n")

    def test_waiting(self) -> None:
        """A program that waits for an object which its service doesn't get back says so, and ends by an interrupt."""
        with Far() as far, Service(PROGRAM, "--connections", "3", "--far", f"127.0.0.1:{far.port}", timeout=SECONDS) as service:
            service.setup.make(8)
            at = service.listen()
            with service.connect(SECONDS) as other:
                far.manner = "keeping"
                until("the object doesn't leave", lambda: other.leave(1) and far.kept)
                with subprocess.Popen([*SHIP, self.codes["loads"], "--connect", at, ":1"], stdout=subprocess.PIPE, stderr=subprocess.PIPE) as process:
                    assert process.stderr
                    self.assertEqual(process.stderr.readline(), b"the program waits for object 1, which isn't here; an interrupt ends the waiting\n")
                    process.send_signal(signal.SIGINT)
                    self.assertEqual((process.communicate(timeout=SECONDS), process.returncode), ((b"", b""), 130))

    def test_explained(self) -> None:
        """What `check --explain` says of refused code comes below the refusal; with a program that has no such option, nothing does."""
        for status, said, shown in ((1, "slot 0: Opcode\nit is why\n", "\nit is why"), (2, "usage\nmore\n", ""), (0, "", "")):
            text = (
                f"import os\nif sys.argv[1] != 'check':\n    os.execv({PROGRAM!r}, [{PROGRAM!r}, *sys.argv[1:]])\n"
                f"sys.stderr.write({said!r})\nsys.exit({status})"
            )
            program = program_of(self.folder / f"explains{status}", text)
            code = self.folder / "none.code"
            code.write_bytes(bytes(8))
            self.want_said(["--bpfagent", str(program), str(code)], 1, "", f"bpfagent-ship: {code}: refused 0 Opcode{shown}\n")

    def test_wrong_files(self) -> None:
        """A file that isn't an object file for BPF, or is cut, and what isn't there."""
        folder = self.folder
        path = folder / "object.o"
        for content in (elf(62), elf(247)[:64], elf(247)[:20], b"\x7fELF"):
            path.write_bytes(content)
            status, output, errors = ship(str(path))
            self.assertTrue(
                (status, output) == (1, "") and errors.startswith(f"bpfagent-ship: {path}: ") and errors.count("\n") == 1,
                f"{content[:20]!r} ends with {status}, {output}, {errors}",
            )
        self.want_said(["none.c"], 1, "", "bpfagent-ship: none.c: No such file or directory\n")
        for name in ("c.cpp", "text.s"):
            (folder / name).write_text("é exit\n")
            why = "is a text, and no code: the name of a C file ends in .c, and that of assembly in .asm"
            self.want_said([str(folder / name)], 1, "", f"bpfagent-ship: {folder / name}: {why}\n")
        self.want_said(
            ["--bpfagent", f"{folder}/none", str(path.with_name("exit.code"))],
            1,
            "",
            f"bpfagent-ship: {folder}/none can't be run: give the path of bpfagent by --bpfagent, or set BPFAGENT\n",
        )
        for words in ("", "--check", "--none x", "--check --line x"):
            self.want_usage(words.split())
        self.assertEqual(ship("--none", "x")[0], 2)
        self.want_said(["--version"], 0, f"bpfagent-ship {bpfagent.__version__}\n", "")

    def test_endless_file(self) -> None:
        """A file that never ends is refused, before it takes all memory."""
        self.want_said(["/dev/zero"], 1, "", f"bpfagent-ship: /dev/zero: has more than {1 << 26} bytes\n")

    def test_interrupt(self) -> None:
        """An interrupt ends a program that runs, and nothing else is said."""
        begun = self.folder / "begun"
        text = f"import os\nopen({str(begun)!r}, 'w').close()\nos.execv({PROGRAM!r}, [{PROGRAM!r}, *sys.argv[1:]])"
        program = program_of(self.folder / "interrupted", text)
        for _ in range(3):
            begun.unlink(missing_ok=True)
            command = [*SHIP, "--bpfagent", str(program), "--fuel", str(2**63), self.codes["endless"]]
            with subprocess.Popen(command, stdout=subprocess.PIPE, stderr=subprocess.PIPE) as process:
                until("the program doesn't begin", begun.exists)
                time.sleep(0.3)
                process.send_signal(signal.SIGINT)
                self.assertEqual((process.communicate(timeout=SECONDS), process.returncode), ((b"", b""), 130))

    def test_assembly(self) -> None:
        """A text of assembly is assembled; an error is that of the program."""
        folder = self.folder
        path = folder / "text.asm"
        path.write_text("mov r0, r1\nadd r0, r2\nexit\n")
        self.want_said([str(path), "40", "2"], 0, "stopped 1 exit 000000000000002a = 42\n3 instructions\n", "")
        path.write_text("exit\nexot\n")
        status, output, errors = ship(str(path))
        self.assertTrue(
            (status, output) == (1, "") and errors.startswith(f"bpfagent-ship: {path}: line 2: Word"), f"wrong assembly ends with {status}, {output}, {errors}"
        )
        (folder / "none").write_text("no program")
        (folder / "none").chmod(0o755)
        with self.assertRaisesRegex(Unloadable, "none can't be run: Exec format error$"):
            load(path, bpfagent=str(folder / "none"))
        slow = program_of(folder / "slow", "import time\ntime.sleep(60)")
        with mock.patch.object(image, "SECONDS", 0.5), self.assertRaisesRegex(Unloadable, "slow asm didn't end within 0.5 seconds$"):
            load(path, bpfagent=str(slow))

    @needs_clang
    def test_closed_streams(self) -> None:
        """A standard stream that is closed changes nothing of what the others get."""
        source = self.folder / "c.c"
        source.write_text("unsigned long program(void) { return 7; }\n")
        output = b"stopped 1 exit 0000000000000007 = 7\n2 instructions\n"
        for closed, shown in (("<&-", output), ("2>&-", output), ("<&- 2>&-", output), (">&-", b"")):
            done = subprocess.run(["sh", "-c", f'exec "$@" {closed}', "sh", *SHIP, str(source)], capture_output=True, timeout=SECONDS)
            self.assertEqual((done.returncode, done.stdout, done.stderr), (0, shown, b""), closed)

    @needs_clang
    def test_clang(self) -> None:
        """A clang that can't be run is named, and flags that ask for another file are."""
        source = self.folder / "c.c"
        source.write_text("unsigned long program(void) { return 7; }\n")
        for flag in ("-S", "-E", "-fsyntax-only", "-emit-llvm"):
            self.want_said([f"--flag={flag}", str(source)], 1, "", f"bpfagent-ship: clang made no object file of {source}: its flags ask for something else\n")
        for clang, why in (("/none", "isn't installed: apt-get install clang, or set CLANG to its path"), ("/", "can't be run: Permission denied")):
            with mock.patch.dict(os.environ, CLANG=clang):
                self.want_said([str(source)], 1, "", f"bpfagent-ship: {clang} {why}\n")
        with mock.patch.dict(os.environ, CLANG=""):
            self.want_said(["--check", str(source)], 0, "", "")

    @needs_clang
    def test_c(self) -> None:
        """One command from a C file to its result, an object file, and a chosen entry point."""
        folder = self.folder
        source = folder / "c.c"
        pair = folder / "pair"
        pair.write_bytes((40).to_bytes(8, "little") + (2).to_bytes(8, "little"))
        source.write_text(ADDS)
        shown = f"stopped 1 exit 000000000000002a = 42\n4 instructions\nobject 1: {pair.read_bytes().hex()}\n"
        self.assertEqual(ship("c.c", "@pair", folder=folder), (0, shown, ""), "a newcomer's C file")
        self.assertEqual(
            ship("c.c", "+8", folder=folder),
            (
                1,
                "stopped 1 outside\n1 instructions\nat slot 1: ldxdw r0, [r1+8]\n"
                "c.c:3: static uint64_t sum(struct pair *pair) { return pair->first + pair->second; }\n"
                "[r1+8] is object 1+8, and object 1 has 8 bytes\nobject 1: 0000000000000000\n",
                "",
            ),
            "a stop in a C file",
        )
        (folder / "-c.c").write_text(ADDS)
        for words in (["./-c.c", "@pair"], ["--fuel", "7", "--", "-c.c", "@pair"]):
            self.assertEqual(ship(*words, folder=folder), (0, shown, ""), "a name that begins as an option does")
        source.write_text(SECTIONS)
        self.assertEqual(ship("c.c", "3", folder=folder), (0, "stopped 1 exit 000000000000002d = 45\n34 instructions\n", ""), "functions of several sections")
        subprocess.run(
            ["clang", "-target", "bpf", "-O2", "-ffreestanding", f"-I{ROOT}/python/bpfagent/include", "-c", "c.c"], cwd=folder, check=True, timeout=SECONDS
        )
        self.assertEqual(ship("c.o", "3", folder=folder), (0, "stopped 1 exit 000000000000002d = 45\n34 instructions\n", ""), "an object file")
        self.assertEqual(ship("--entry", "square", "c.o", "3", folder=folder)[1].splitlines()[0], "stopped 1 exit 000000000000000f = 15", "another entry point")
        self.assertEqual(ship("--check", "c.o", folder=folder), (0, "", ""), "a check of an object file")
        self.assertEqual(ship("--output", "c.code", "c.o", folder=folder), (0, "", ""), "raw code of an object file")
        self.assertEqual(ship("c.code", "3", folder=folder), (0, "stopped 1 exit 000000000000002d = 45\n34 instructions\n", ""), "raw code that was written")
        self.assertEqual(
            ship("--entry", "program", "c.code", folder=folder),
            (1, "", "bpfagent-ship: c.code: raw code has no names, so --entry can't choose one\n"),
            "an entry point of raw code",
        )

    @needs_clang
    def test_refusals(self) -> None:
        """What only a platform's loader could fill in is refused with its source line; clang's errors have advice."""
        folder = self.folder
        source = folder / "c.c"
        for text, why in REFUSED:
            source.write_text(f'#include "bpfagent.h"\n{text}\n')
            self.want_first(["c.c"], f"bpfagent-ship: {why}", folder)
        source.write_text('#include "bpfagent.h"\nuint64_t program(uint64_t *p) { return __atomic_load_n(p, 5); }\n')
        status, output, errors = ship("c.c", folder=folder)
        self.assertTrue(
            (status, output) == (1, "")
            and errors.endswith("\nadvice: use atomic_read and atomic_write of bpfagent_program.h\n")
            and "Stack dump" not in errors,
            f"what clang can't compile: {errors}",
        )
        source.write_text("#include <string.h>\nunsigned long program(void) { return 0; }\n")
        self.assertTrue(ship("c.c", folder=folder)[2].endswith("\nadvice: include bpfagent_program.h instead: there is no C library for BPF\n"))
        source.write_text("unsigned long program(unsigned long n) { unsigned long sum = 0; for (unsigned long i = 1; i <= n; i++) sum += i; return sum; }\n")
        status, output, errors = ship("c.c", folder=folder)
        self.assertTrue((status, output) == (1, "") and errors.endswith("needs compiler_barrier() inside\n"), f"a loop that clang makes a product of: {errors}")
        source.write_text("uint64_t program\n")
        status, output, errors = ship("c.c", folder=folder)
        self.assertTrue((status, output) == (1, "") and "c.c:1:1: error: unknown type name 'uint64_t'" in errors, f"what is no C: {errors}")


if __name__ == "__main__":
    unittest.main()

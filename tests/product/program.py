#!/usr/bin/env python3
"""Runs the program as a user would: program.py PROGRAM

The parts look at each status and stream, at what a closed or failing stream leaves, and at how far the input was read then. They run what the
documents show. The conversations of examples/ go over pipes, line by line, so that a program that waits for more is found out.
"""
from __future__ import annotations

import concurrent.futures
import contextlib
import os
import pathlib
import re
import resource
import shlex
import shutil
import socket
import subprocess
import sys
import tempfile
from typing import Any, Sequence

sys.path.insert(0, str(pathlib.Path(__file__).resolve().parents[1]))
from lib import package
from lib.checks import run_parts, want, want_equal
from lib.commands import commands
from lib.far import greeted
from lib.programs import Process, ended, has_checks, of_data, patience, unreadable
from lib.scripts import Talk, conversations
from lib.sources import ROOT, pages
from product import fuzz

EXIT = bytes.fromhex("9500000000000000")
ALL_ONES = bytes.fromhex("18000000ffffffff00000000ffffffff") + EXIT
SECONDS = 20
# How many runs of it go on side by side.
PROCESSES = 4
# What the program may have of data, in bytes, while it runs the conversations of examples/.
SCRIPT_DATA = 8 << 20
PROGRAM = "crates/bpfagent/out/bpfagent"
# Commands that need a compiler, and an object file's reader.
COMPILES = re.compile(r"make .*examples/c|clang |llvm-|bpfagent-\w+ .*\.c\b|editor\.py|examples/tasks/")


# Up to five arguments, so that a program that looks at fewer is found out.
INVALID = [[], ["help"], ["steps"], ["run", "check"], ["run", "--budget", "67108865"], ["check", "x"], [b"\xff"], ["run", "--budget"],
           ["run", "--budget", "8", "x"], ["run", "--budget", "8", "--budget", "8"], ["run", "--budget", "8", "asm", "dis"],
           ["dis", "--slots", "--slots"], ["dis", "--llvm", "--llvm"], ["asm", "--slots"], ["asm", "--llvm"], ["dis", "--explain"], ["check", "--explain", "--explain"],
           ["asm", "--explain", "--explain"], ["asm", "--explain", "x"], ["store", "--port", "65536"], ["store", "x"], ["store", "--workers", "1"],
           ["serve", "x"], ["serve", "--connections", "0"], ["serve", "--connections", "9"], ["serve", "--workers", "17"],
           ["serve", "--sweep", "--sweep"], ["serve", "--keep", "65535"], ["run", "--workers", "1"], ["commands", "make"], ["commands", "--explain"]]
# What the help of each subcommand has to name: what it reads, what it writes, and what it returns.
HELP = {"run": [b"make LENGTH", b"ship2", b"unwatch", b"67108864", b"Status 0", b"Status 3"],
        "check": [b"bytes, not hex", b"ok N", b"slot S: WHY", b"FallsOff", b"--explain", b"Status 1"],
        "asm": [b"1048576", b"acmpxchg", b"--explain", b"line L: WHY", b"Status 1"], "dis": [b"bytes, not hex", b"--slots", b"--llvm", b"slot S: WHY", b"Status 1"],
        "store": [b"127.0.0.1", b"listening P", b"client N: WHY", b"--port", b"Status 0", b"Status 3"],
        "serve": [b"127.0.0.1", b"listening P", b"unserved", b"--port", b"--connections", b"--workers", b"--budget", b"--sweep", b"--keep", b"closed",
                  b"Status 0", b"Status 1", b"Status 3"],
        "commands": [b"LEAST-MOST", b"bytes-N", b"grants", b"Status 0", b"Status 3"]}
# What an installed program doesn't have: the pages of the repository.
PAGES = re.compile(rb"docs/|\.md\b|https?:|README")
# What the examples of help write, those that end by themselves.
SHOWN_BY_HELP = {"run": b"made 1\nok\nbytes 616263\n", "asm": b" b7 00 00 00 07 00 00 00 95 00 00 00 00 00 00 00\n", "dis": b"0: mov r0, 7\n1: exit\n",
                 "commands": b"get 1-1024 0-65535 1-4096\n"}
# What is refused, at last with the longest lines: code that jumps into a wide instruction from its last slot, texts wrong at their end.
WIDE = bytes.fromhex("18000000000000000000000000000000")
JUMPS_INSIDE = WIDE + EXIT * 4093 + bytes.fromhex("050001f000000000")
REFUSED = [("check", b"", b"slot 0: Empty\n"), ("check", EXIT + b"\x95", b"slot 1: Short\n"), ("check", EXIT * 4097, b"slot 0: TooLong\n"),
           ("asm", b"exit\nexot\n", b"line 2: Word\n"), ("asm", b"\n" * 1048577, b"input too long\n"), ("dis", b"\x95\0", b"slot 0: Short\n"),
           ("check", JUMPS_INSIDE, b"slot 4095: JumpInside\n"), ("dis", JUMPS_INSIDE, b"slot 4095: JumpInside\n"),
           ("asm", b"\n" * 1048575 + b"x", b"line 1048576: Word\n"), ("asm", b"a:" + b"\n" * 1048572 + b"a:", b"line 1048573: TwiceLabel\n")]

# What `asm --explain` adds to the line of an error: at most 200 bytes are quoted of a token and of its line.
EXPLAINED = [(b"exit\nexot ; leave\n", b"line 2: Word\n", b"column 1: 'exot' in 'exot ; leave', where a mnemonic fits\n"),
             (b"mov r0,", b"line 1: Operand\n", b"at the end of 'mov r0,', where a register or a number fits\n"),
             (b"mov r0, " + b"9" * 300, b"line 1: Range\n",
              b"column 9: '" + b"9" * 200 + b"' in 'mov r0, " + b"9" * 192 + b"', where a number from -2147483648 to 2147483647 fits\n"),
             (b"\n" * 1048570 + b" ja +", b"line 1048571: Operand\n", b"column 5: '+' in ' ja +', where a label, or a number with a sign, fits\n"),
             (b" " * 1048570 + b"x\x1b[7m", b"line 1: Word\n",
              b"column 1048572: '?' in '" + b" " * 200 + b"', where a name, a number or one of :,[]+- in ASCII fits\n"),
             (b"exit\n" * 4096 + b"x: exit", b"line 4097: TooLong\n", b"column 4: 'exit' in 'x: exit', where no instruction after 4096 slots fits\n"),
             (b"\n" * 1048577, b"input too long\n", b"")]
OUTSIDE = b", outside the code; slots are counted from the next one (RFC 9669, section 4.3)\n"
# What `check --explain` adds to the line of a refusal: long lines, code as a whole, and object files, also one that is too long.
EXPLAINED_CODE = [(b"\x85\x10\0\0\xff\xff\xff\x7f" + EXIT, b"slot 0: JumpOut\n", b"call local +2147483647: it leads to slot 2147483648" + OUTSIDE),
                  (b"\x06\0\0\0\0\0\0\x80", b"slot 0: JumpOut\n", b"ja32 -2147483648: it leads to slot -2147483647" + OUTSIDE),
                  (EXIT * 4095 + b"\x95", b"slot 4095: Short\n", b"95: the slot has 1 of 8 bytes (RFC 9669, section 3.1)\n"),
                  (b"", b"slot 0: Empty\n", b"there are no bytes, and code has at least one instruction\n"),
                  (EXIT * 4097, b"slot 0: TooLong\n", b"there are more than 32768 bytes, which are 4096 slots\n"),
                  (b"\x7fELF" + bytes(60), b"slot 0: Field\n", b"this is an ELF object file, and not raw code; 'bpfagent-ship FILE' takes object files\n"),
                  (b"\x7fELF" + bytes(40000), b"slot 0: TooLong\n", b"this is an ELF object file, and not raw code; 'bpfagent-ship FILE' takes object files\n")]


def seconds(program: str) -> int:
    """How long one run of the program, or a command with it, may take."""
    return SECONDS * patience(program)


def call(program: str, arguments: Sequence[str | bytes], given: bytes = b"", **streams: Any) -> tuple[int, bytes, bytes]:
    """Status, standard output and standard error."""
    return ended(program, *arguments, given=given, seconds=seconds(program), **streams)


def want_ended(program: str, arguments: Sequence[str], given: bytes, status: int, output: bytes, errors: bytes, **streams: Any) -> None:
    want_equal(call(program, arguments, given, **streams), (status, output, errors), f"{arguments} on {given[-60:]}")


def is_done(program: str, arguments: Sequence[str], given: bytes, output: bytes) -> None:
    want_ended(program, arguments, given, 0, output, b"")


def show_statuses(program: str) -> None:
    """0 for what was done, 1 for refused input, 2 for invalid arguments."""
    stored = ROOT / "crates/bpfagent"
    done = [(["run"], (stored / "stdin").read_bytes(), (stored / "stdout").read_bytes()), (["run"], b"", b""),
            (["run"], b"step 1\nstep 1", b"none\ncut\n"), (["run"], b"steps\n", b"bad\n"),
            (["run", "--budget", "8"], b"make 9\nmake 8\n", b"noroom\nmade 1\n"), (["check"], EXIT * 2, b"ok 2\n"), (["check", "--explain"], EXIT, b"ok 1\n"),
            (["asm"], b"lddw r0, -1\nexit\n", ALL_ONES), (["asm", "--explain"], b"lddw r0, -1\nexit\n", ALL_ONES),
            (["dis"], ALL_ONES, b"lddw r0, 0xffffffffffffffff\nexit\n"), (["dis", "--slots"], ALL_ONES, b"0: lddw r0, 0xffffffffffffffff\n2: exit\n"),
            (["dis", "--llvm"], ALL_ONES, b"r0 = -1 ll\nexit\n"), (["dis", "--llvm", "--slots"], ALL_ONES, b"0: r0 = -1 ll\n2: exit\n")]
    for arguments, given, output in done:
        is_done(program, arguments, given, output)
    refused = [([task], given, line) for task, given, line in REFUSED]
    for task, cases in (("asm", EXPLAINED), ("check", EXPLAINED_CODE)):
        for given, line, explanation in cases:
            refused += [([task], given, line), ([task, "--explain"], given, line + explanation)]
    # The longest texts take a program of `make try` a quarter of a minute each.
    with concurrent.futures.ThreadPoolExecutor(PROCESSES) as pool:
        for found in [pool.submit(want_ended, program, arguments, given, 1, b"", line) for arguments, given, line in refused]:
            found.result()
    for arguments in (["--help"], ["-h"], *([task, "--help"] for task in HELP)):
        status, output, errors = call(program, arguments)
        want((status, errors) == (0, b"") and b"Usage: bpfagent" in output, f"{arguments} ended with {status}, {output}, {errors}")
        for word in HELP.get(arguments[0], []):
            want(word in output, f"{arguments} doesn't say {word}: {output}")
        if arguments[0] == "run":
            unsaid = [name for name in commands() if not re.search(rf"(?m)^  (?:.*, )?{name}\b", output.decode())]
            want_equal(unsaid, [], "the commands that the help of run doesn't show")
        want(not PAGES.search(output), f"{arguments} names a page that isn't installed: {output}")
        long = [line for line in output.decode().split("\n") if len(line) > 80 and not re.match(" +-", line)]
        want(not long, f"{arguments} has lines of more than 80 columns beside its options: {long}")
    for arguments in INVALID:
        status, output, errors = call(program, arguments, b"step 1\n")
        want((status, output) == (2, b"") and errors.startswith(b"error: ") and errors.endswith(b"\n"), f"{arguments} ended with {status}, {output}, {errors}")


# Where the version stands beside the program's own, and what stands around it.
VERSIONS = {
    "CHANGELOG.md": r"^## ([0-9][0-9.]*)(?: \(.*\))?$",
    "python/bpfagent/__init__.py": r'^__version__ = "(.*)"$',
    "examples/debug/vscode/package.json": r'^  "version": "(.*)",$',
}


def show_version(program: str) -> None:
    """The version is that of the newest released part of the changelog, of the Python package and of the editor's extension."""
    found = {path: re.findall(pattern, (ROOT / path).read_text(), re.M)[:1] for path, pattern in VERSIONS.items()}
    newest = found["CHANGELOG.md"]
    want(newest and all(version == newest for version in found.values()), f"the versions are {found}")
    for argument in ("--version", "-V"):
        is_done(program, [argument], b"", f"bpfagent {newest[0]}\n".encode())


def show_help_examples(program: str) -> None:
    """The examples of help do what they say, with no more than the program."""
    with tempfile.TemporaryDirectory() as folder:
        (pathlib.Path(folder) / "bpfagent").symlink_to(pathlib.Path(program).resolve())
        path = f"{folder}{os.pathsep}{os.environ['PATH']}"
        for task in HELP:
            text = call(program, [task, "--help"])[1].decode()
            lines = re.findall(r"(?m)^Example:\n  (.*)$", text)
            want(len(lines) == (task not in ("check", "store")), f"the help of {task} has {len(lines)} examples")
            if task in SHOWN_BY_HELP:
                want_equal(ended("sh", "-c", lines[0], env={**os.environ, "PATH": path}, seconds=seconds(program)), (0, SHOWN_BY_HELP[task], b""), lines[0])


def show_faults(program: str) -> None:
    """3 for a stream that fails."""
    for task in ("run", "check", "asm", "dis"):
        with unreadable() as fails:
            want_ended(program, [task], b"", 3, b"", b"read fault\n", stdin=fails)
    written = [(["run"], b"step 1\n"), (["check"], EXIT), (["asm"], b"exit\n"), (["dis"], EXIT), *(([word], b"") for word in ("commands", "--help", "--version"))]
    for arguments, given in written:
        with open("/dev/full", "wb") as full:
            want_ended(program, arguments, given, 3, b"", b"write fault\n", stdout=full)


# What a shell does with the standard streams of a server, and how that ends.
CLOSED = {"<&-": (3, b"", b"read fault\n"), ">&-": (3, b"", b"write fault\n"), "-v >&- 2>&-": (3, b"", b""), "-v 2>&- </": (3, b"", b"")}


def show_closed(program: str) -> None:
    """No socket takes the place of a standard stream that is closed: the far server is neither heard nor told anything after its first answer."""
    for closing, wanted in CLOSED.items():
        with socket.create_server(("127.0.0.1", 0)) as listener, concurrent.futures.ThreadPoolExecutor(1) as pool:
            listener.settimeout(seconds(program))
            line = f'exec "$0" serve --far 127.0.0.1:{listener.getsockname()[1]} {closing}'
            ends = pool.submit(ended, "sh", "-c", line, program, given=b"make 8\n", seconds=seconds(program))
            told = b""
            # a stream whose bytes weren't read is reset at its end
            with contextlib.suppress(ConnectionResetError), greeted(listener) as stream:
                stream.settimeout(seconds(program))
                stream.sendall(b"make 8\n")
                while more := stream.recv(4096):
                    told += more
            want_equal((told, ends.result()), (b"", wanted), line)


def show_offsets(program: str) -> None:
    """Where the input stands after a write fault at the first reply: fewer than 4096 bytes after its line are read, and lost."""
    with tempfile.TemporaryFile() as given, open("/dev/full", "wb") as full:
        given.write(b"step 1\n" * 10_000)
        given.flush()
        given.seek(0)
        want_ended(program, ["run"], b"", 3, b"", b"write fault\n", stdin=given, stdout=full)
        at = os.lseek(given.fileno(), 0, os.SEEK_CUR)
        want(7 <= at < 7 + 4096, f"after the fault at the first reply the input was read up to {at}")


def show_no_memory(program: str) -> None:
    """3 for no memory: with more and more of it, first the C library can't start, then the program gives up, then it runs."""
    gave_up = 0
    if has_checks(program):
        return
    for limit in range(32 * 1024, 8192 * 1024, 32 * 1024):
        found = call(program, ["run"], b"step 1\n", limits={resource.RLIMIT_DATA: limit})
        if found == (0, b"none\n", b""):
            break
        gives_up = found == (3, b"", b"no memory\n")
        want(gives_up or (not gave_up and found[0] != 0), f"run with {limit} bytes of data ended with {found}")
        gave_up += gives_up
    want(gave_up > 0, "no limit of memory made the program give up")


def examples(pattern: str) -> list[pathlib.Path]:
    """Files of examples/ and of examples/c/."""
    return sorted([*ROOT.glob(f"examples/{pattern}"), *ROOT.glob(f"examples/c/{pattern}")])


def talk_to(program: str, arguments: Sequence[str], talk: Talk) -> None:
    """A conversation, of which each reply comes before the next command is sent."""
    with Process(program, "run", *arguments, limits=of_data(program, SCRIPT_DATA)) as process:
        for command, reply in talk:
            want_equal(process.answer(command.encode() + b"\n").decode(), f"{reply}\n", command[:80])
        want_equal(process.end(), (0, b"", b""), "the end of a conversation")


def show_examples(program: str) -> str:
    """The scripts of examples/, what `make fuzz` kept, and that the examples' code is valid and is what they ship."""
    count = 0
    fuzz.stored(program)
    for path in examples("*.script"):
        text = path.read_text()
        for arguments, talk in conversations(text):
            talk_to(program, arguments, talk)
            count += len(talk)
    for path in examples("*.code"):
        code = path.read_bytes()
        is_done(program, ["check"], code, b"ok %d\n" % (len(code) // 8))
        script = path.with_name(path.stem.split(".")[0] + ".script")
        want(script.exists(), f"{path.name} stands in no conversation: {script.name} is missing, which docs/WRITING-PROGRAMS.md says how to make")
        want(code.hex() in script.read_text(), f"{script.name} doesn't ship {path.name}")
    return f"{count} replies to examples/ came line by line"


def has_clang() -> bool:
    """Whether there is the compiler that the documents name, which is needed for what they show of it."""
    if not (shutil.which("clang") and shutil.which("llvm-objdump")):
        return False
    return b" version 14." in subprocess.run(["clang", "--version"], stdout=subprocess.PIPE, timeout=SECONDS).stdout


def is_shown(printed: str, shown: str) -> bool:
    """Whether this is what a document shows, in which a line `...` stands for any lines."""
    parts = re.split(r"(?m)^\.\.\.\n", shown)
    pattern = "(?:.*\\n)*".join(map(re.escape, parts))
    return re.fullmatch(pattern, printed) is not None


def show_documents(program: str) -> str:
    """The commands that the documents show, after `$ `, print what stands there; those that need a compiler or pyelftools are left out without."""
    count, compiles = 0, has_clang() and package.reads_object_files()
    (ROOT / "out").mkdir(exist_ok=True)
    for path in pages():
        shown = re.findall(r"^\$ ((?:.*\\\n)*.*)\n((?:(?!\$ |```).*\n)*)", path.read_text(), re.M)
        for command, output in shown:
            if COMPILES.search(command) and not compiles:
                continue
            command = command.replace(PROGRAM, shlex.quote(program))
            done = subprocess.run(
                ["sh", "-c", command], cwd=ROOT, stdin=subprocess.DEVNULL, stdout=subprocess.PIPE, stderr=subprocess.STDOUT, text=True,
                timeout=seconds(program), env=package.environment(program),
            )
            want(is_shown(done.stdout, output), f"{path.name}: {command} printed {done.stdout.strip()}")
            count += 1
    return f"{count} commands of documents print what stands there"


SHOWN = [
    show_statuses, show_version, show_help_examples, show_faults, show_closed, show_offsets, show_no_memory, show_examples,
    show_documents,
]


if __name__ == "__main__":
    run_parts("program", SHOWN)

"""What `bpfagent-ship` is told and shows: a setup, as much of objects as is asked for, numbers, and JSON."""
from __future__ import annotations

import contextlib
import io
import json
import os
import subprocess
import unittest
from typing import Any

from bpfagent import outcome, ship
from support import DEBUGGER, PROGRAM, SECONDS, folder_of, usage_of

# `ldxdw r0, [r1]`, `exit`; `mov r0, -1`, `exit`; `call 3` of R1, `exit`; `callx r1`.
LOADS, NEGATIVE, EMITS = "79100000000000009500000000000000", "b7000000ffffffff9500000000000000", "85000000030000009500000000000000"
CALLS = "8d010000000000009500000000000000"
FORTY_TWO = "2a00000000000000"
AWAY = {
    "far": ["leave 1", "left 1"],
    "leaving": ["leave 1"],
    "returning": ["leave 1", "left 1", "return 1"],
}
# What is wrong with a setup, behind the file's name.
WRONG = {
    "make 8\nlef 1\n": ":2: `lef 1` is answered bad: there is no command `lef`: did you mean left?",
    "make 0": ":1: `make 0` is answered bad: make LENGTH: LENGTH is `0`, and has to be from 1 to 65536",
    "make 8\n\n": ":2: `` is answered bad: the line is empty",
    "free 9\n": ":1: `free 9` is answered none",
    f"make 8\nput 1 9 {'00' * 30}\n": f":2: `put 1 9 {'0' * 32}`.. is answered outside",
    "make 8\r\n": ":1: `make 8\\r` is answered bad: the line ends with CR and LF, and a line ends with LF alone",
    "# é\n": ": isn't ASCII, from byte 2 on",
}
# Words that don't go together, or are none, and what is said of them.
MISUSES = {
    "--setup s --line c": "--setup is for an agent of its own: --line runs nothing",
    "--setup s --check c": "--setup is for an agent of its own: --check runs nothing",
    "--setup s --connect :1 c": "--setup is for an agent of its own: the service has its objects",
    "--json --line c": "--json goes with a run or with --check, and not with --line",
    "--json --output x c": "--json goes with a run or with --check, and not with --output",
    "--json --quiet c": "argument --quiet/-q: not allowed with argument --json",
    "--show 65537 c": "argument --show: '65537' is not a number from 0 to 65536",
    "--show x c": "argument --show: 'x' is not a number from 0 to 65536",
    "c :1": "argument 1, `:1`: is neither a number nor +N, =TEXT or @FILE",
    "--setup s c :1025": "argument 1, `:1025`: isn't from :1 to :1024, the numbers of objects",
    "--setup s c :x": "argument 1, `:x`: is neither a number nor :N, +N, =TEXT or @FILE",
}


@unittest.skipUnless(PROGRAM, "needs BPFAGENT")
class Shipping(unittest.TestCase):
    """Each in this process, with a program or the library behind it."""

    def setUp(self) -> None:
        self.folder = folder_of(self)

    def code(self, text: str) -> str:
        """The file of this code, in hex."""
        path = self.folder / "code"
        path.write_bytes(bytes.fromhex(text))
        return str(path)

    def setup(self, *lines: str) -> str:
        """The file of these lines."""
        path = self.folder / "setup"
        path.write_text("".join(f"{line}\n" for line in lines))
        return str(path)

    def said(self, *words: str) -> tuple[object, str]:
        """Status, and output; with a fault its line."""
        output = io.StringIO()
        with contextlib.redirect_stdout(output):
            try:
                ship.main(words)
            except SystemExit as ended:
                return ended.code, output.getvalue()
        return 0, output.getvalue()

    def json(self, *words: str) -> tuple[object, dict[str, Any]]:
        """Status, and what stands in one line of JSON."""
        status, output = self.said("--json", *words)
        self.assertEqual(output.count("\n"), 1)
        found: dict[str, Any] = json.loads(output)
        return status, found

    def test_setup(self) -> None:
        """Objects of a setup are the program's, wherever they are, and are shown behind it."""
        for name, moves in AWAY.items():
            setup = self.setup("make 8", f"put 1 0 {FORTY_TWO}", *moves, "make 1")
            self.assertEqual(
                self.said("--setup", setup, self.code(LOADS), ":1", "+1"),
                (0, f'stopped 1 exit 000000000000002a = 42\n2 instructions\nobject 1: {FORTY_TWO} "*"\nobject 2: 00\nobject 3: 00\n'), name,
            )
        setup = self.setup("make 8", "make 8", f"ship 1 0 0 0 0 0 {LOADS}", "leave 2", "left 2", "free 1")
        away = "stopped 2 outside\n0 instructions\nat slot 0: ldxdw r0, [r1]\n[r1] is object 1, and there is no object 1\nobject 2: 8 bytes, which are away\n"
        self.assertEqual(self.said("--setup", setup, self.code(LOADS), ":1"), (1, away))

    def test_wrong_setup(self) -> None:
        """The file, the line, the reply, and why it is bad."""
        path = self.folder / "setup"
        for text, why in WRONG.items():
            path.write_text(text)
            self.assertEqual(self.said("--setup", str(path), self.code(LOADS)), (f"bpfagent-ship: {path}{why}", ""))
        self.assertEqual(self.said("--setup", "/none", self.code(LOADS)), ("bpfagent-ship: /none: No such file or directory", ""))

    def test_shown(self) -> None:
        """As much of each object as is asked for; and numbers with and without a sign."""
        code, first = self.code(LOADS), "stopped 1 exit 0000000000000000 = 0\n"
        self.assertEqual(self.said("--quiet", code, "+8"), (0, first))
        self.assertEqual(self.said("--show", "0", code, "+8"), (0, f"{first}2 instructions\n"))
        self.assertEqual(self.said("--show", "2", code, "+8", "=abc")[1], f'{first}2 instructions\nobject 1: 0000 .. of 8 bytes; --show N shows N\n'
                         'object 2: 6162 "ab" .. of 3 bytes; --show N shows N\n')
        status, output = self.said(code, "+65536")
        self.assertEqual((status, len(output.splitlines()[2])), (0, len("object 1: ") + 2 * outcome.SHOWN + len(" .. of 65536 bytes; --show N shows N")))
        self.assertEqual(len(self.said("--show", "65536", code, "+65536")[1].splitlines()[2]), len("object 1: ") + 2 * 65536)
        self.assertEqual(self.said(self.code(NEGATIVE)), (0, f"stopped 1 exit {'f' * 16} = {2**64 - 1} = -1\n2 instructions\n"))
        emitted = f"stopped 1 exit {0:016x} = 0\n2 instructions\nemitted 8{'0' * 15} = {2**63} = -{2**63}\n"
        self.assertEqual(self.said(self.code(EMITS), str(2**63)), (0, emitted))

    def test_json(self) -> None:
        """A result, a stop, a fault, and whether code is valid."""
        code = self.code(LOADS)
        number: dict[str, Any] = {"hex": "000000000000002a", "unsigned": 42, "signed": 42}
        told: dict[str, Any] = {"file": code, "machine": 1, "instructions": 2, "emitted": [], "objects": [{"number": 1, "length": 8, "hex": FORTY_TWO}]}
        self.assertEqual(self.json("--setup", self.setup("make 8", f"put 1 0 {FORTY_TWO}"), code, ":1"), (0, {**told, "stop": "exit", **number}))
        place: dict[str, Any] = {"slot": 0, "instruction": "ldxdw r0, [r1]", "source": "", "access": ""}
        ended = {"hint": "it has no fuel left: --fuel N gives more", "emitted": [], "objects": []}
        spent = {"file": code, "machine": 1, "stop": "spent", "instructions": 0, **place, **ended}
        self.assertEqual(self.json("--fuel", "0", code, "0"), (1, spent))
        why = "/none: No such file or directory"
        self.assertEqual(self.json("/none"), (f"bpfagent-ship: {why}", {"file": "/none", "error": why}))
        self.assertEqual(self.json("--check", code), (0, {"file": code, "valid": True, "slots": 2}))
        status, found = self.json("--check", self.code(CALLS))
        self.assertEqual((status, found.pop("explained")[0][:16]), (1, CALLS[:16]))
        self.assertEqual(found, {"file": code, "valid": False, "slot": 0, "reason": "Opcode", "source": ""})

    def test_misuse(self) -> None:
        """What is said of words that don't go together."""
        for words, why in MISUSES.items():
            status, output, errors = usage_of(ship.main, words.split())
            self.assertEqual((status, output, errors.splitlines()[-1]), (2, "", f"bpfagent-ship: error: {why}"))

    def test_debugger(self) -> None:
        """The debugger does a setup too."""
        setup, code = self.setup("make 8", f"put 1 0 {FORTY_TWO}"), self.code(LOADS)
        told = {**os.environ, "BPFAGENT": PROGRAM}
        command = [*DEBUGGER, "--setup", setup, code, ":1", "-x", "continue", "-x", "info objects", "-x", "quit"]
        done = subprocess.run(command, stdin=subprocess.DEVNULL, capture_output=True, text=True, timeout=SECONDS, env=told)
        self.assertEqual((done.returncode, done.stderr), (0, ""))
        self.assertRegex(done.stdout, "(?s)42.*object 1|000000000000002a")


if __name__ == "__main__":
    unittest.main()

"""The wheel, built without a network and installed in a fresh environment.

From there the commands do what the pages show: a C file to its result, a debugger's session, a client, the examples by task.
"""
from __future__ import annotations

import os
import pathlib
import re
import shutil
import subprocess
import sys
import tempfile
import unittest
import zipfile
from typing import Mapping, Optional

import bpfagent
from support import PROGRAM, ROOT, needs_debugger

SECONDS = 600
TASKS = ("fifo", "tally", "hash_join", "top_k", "filter")
COMMANDS = ("bpfagent-ship", "bpfagent-redis", "bpfagent-debug", "bpfagent-front", "bpfagent-cli")
NEWCOMER = """#include <stdint.h>

uint64_t program(const uint64_t *numbers, uint64_t count)
{
    uint64_t sum = 0;
    for (uint64_t i = 0; i < count; i++)
        sum += numbers[i];
    return sum;
}
"""
NUMBER = int.from_bytes(b"abcdefgh", "little")
DEBUGS = ["bpfagent-debug", "-x", "break mine.c:7", "-x", "continue", "-x", "print sum + numbers[i]", "-x", "quit", "mine.c", "=abcdefgh", "1"]
LIBRARY = os.environ.get("BPFAGENT_LIBRARY", "")
ENGINE = """
import bpfagent, bpfagent.library
with bpfagent.Engine() as engine:
    print(engine.read(engine.make_of(b"hello"), 5), bpfagent.library.library().path)
"""
CLIENT = """
import bpfagent, sys
with bpfagent.Agent.run(sys.argv[1], timeout=60) as agent:
    number = agent.make_of(b"hello")
    print(agent.read(number, 5), bpfagent.__file__, bpfagent.why_bad("make"))
"""


def run(command: list[str], folder: Optional[pathlib.Path] = None, environment: Optional[Mapping[str, str]] = None) -> tuple[int, str]:
    """Status and both outputs of a command."""
    done = subprocess.run(
        command, stdin=subprocess.DEVNULL, stdout=subprocess.PIPE, stderr=subprocess.STDOUT, text=True, timeout=SECONDS, cwd=folder, env=environment
    )
    return done.returncode, done.stdout


def builds() -> bool:
    """Whether this Python can build a wheel without a network."""
    return run([sys.executable, "-c", "import build, setuptools, wheel, venv, ensurepip"])[0] == 0


@unittest.skipUnless(PROGRAM and builds(), "needs BPFAGENT, build, setuptools, wheel and venv (python3-build, python3-venv)")
class Wheels(unittest.TestCase):
    """One environment for all tests."""

    folder: pathlib.Path
    wheel: pathlib.Path
    environment: dict[str, str]

    @classmethod
    def setUpClass(cls) -> None:
        folder = tempfile.TemporaryDirectory()
        cls.addClassCleanup(folder.cleanup)
        cls.folder = pathlib.Path(folder.name)
        # The build writes beside its sources, so it gets a copy of them.
        shutil.copytree(ROOT / "python", cls.folder / "python", ignore=shutil.ignore_patterns(".*", "__pycache__", "build", "*.egg-info"))
        (cls.folder / "docs").mkdir()
        shutil.copy(ROOT / "docs/PROTOCOL.md", cls.folder / "docs")
        cls.done([sys.executable, "-m", "build", "--no-isolation", "--wheel", "--outdir", str(cls.folder / "dist"), str(cls.folder / "python")])
        cls.done([sys.executable, "-m", "venv", "--system-site-packages", str(cls.folder / "fresh")])
        (cls.wheel,) = (cls.folder / "dist").iterdir()
        cls.done([str(cls.folder / "fresh/bin/python"), "-m", "pip", "install", "--no-index", "--no-deps", str(cls.wheel)])
        (cls.folder / "fresh/bin/bpfagent").symlink_to(PROGRAM)
        # A wheel that carries the library finds it beside its modules.
        taken = {"PYTHONPATH", "BPFAGENT_LIBRARY"} if LIBRARY else {"PYTHONPATH"}
        others = {name: value for name, value in os.environ.items() if name not in taken}
        cls.environment = {**others, "PATH": f"{cls.folder / 'fresh/bin'}{os.pathsep}{os.environ['PATH']}", "BPFAGENT": PROGRAM}

    @classmethod
    def done(cls, command: list[str]) -> None:
        """Does a command, which has to succeed."""
        status, output = run(command, cls.folder)
        if status:
            raise AssertionError(f"{command} ended with {output[-2000:]}")

    def call(self, *command: str, folder: Optional[pathlib.Path] = None) -> tuple[int, str]:
        """Status and outputs of a command of the environment, called where the sources aren't."""
        return run(list(command), folder or self.folder, self.environment)

    def test_commands(self) -> None:
        """The client, each command, and assembly to its result."""
        status, output = self.call("python", "-c", CLIENT, PROGRAM)
        self.assertTrue(status == 0 and output.startswith(f"b'hello' {self.folder}/fresh/") and output.endswith(" make LENGTH: LENGTH is missing\n"), output)
        self.assertEqual(len(list((self.folder / "fresh/lib").glob("*/site-packages/bpfagent/py.typed"))), 1)
        for command in COMMANDS:
            status, output = self.call(command, "--help")
            self.assertTrue(status == 0 and output.startswith(f"usage: {command} "), output)
        self.assertEqual(self.call("bpfagent-ship", str(ROOT / "examples/sum.asm"), "4"), (0, "stopped 1 exit 000000000000000a = 10\n15 instructions\n"))

    def test_library(self) -> None:
        """The wheel is for this platform if it carries the library, and its engine is that one; otherwise it is for each platform."""
        place = "bpfagent/lib/libbpfagent.so.0"
        with zipfile.ZipFile(self.wheel) as content:
            self.assertEqual(place in content.namelist(), bool(LIBRARY))
        if not LIBRARY:
            self.assertEqual(self.wheel.name, f"bpfagent-{bpfagent.__version__}-py3-none-any.whl")
            return
        self.assertRegex(self.wheel.name, f"^bpfagent-{re.escape(bpfagent.__version__)}-py3-none-linux_[a-z0-9_]+.whl$")
        status, output = self.call("python", "-c", ENGINE)
        self.assertTrue(status == 0 and output.startswith(f"b'hello' {self.folder}/fresh/") and output.endswith(f"/{place}\n"), output)

    def test_folder(self) -> None:
        """The folder itself is installed without a network, in another fresh environment."""
        self.done([sys.executable, "-m", "venv", "--system-site-packages", str(self.folder / "second")])
        place = str(self.folder / "second/bin")
        self.done([f"{place}/python", "-m", "pip", "install", "--no-index", "--no-build-isolation", str(self.folder / "python")])
        for command in COMMANDS:
            self.assertEqual(self.call(f"{place}/{command}", "--version"), (0, f"{command} {bpfagent.__version__}\n"))

    @needs_debugger
    def test_newcomer(self) -> None:
        """A C file to its result in one command, and its debugger; what a page shows in Python."""
        (self.folder / "mine.c").write_text(NEWCOMER)
        status, output = self.call("bpfagent-ship", "mine.c", "=abcdefgh", "1")
        self.assertEqual((status, output.splitlines()[0]), (0, f"stopped 1 exit {NUMBER:016x} = {NUMBER}"))
        status, output = self.call(*DEBUGS)
        self.assertTrue(status == 0 and f"= {NUMBER}\n" in output, output)
        for block in re.findall(r"(?ms)^```python\n(.*?)^```", (ROOT / "docs/WRITING-PROGRAMS.md").read_text()):
            self.assertEqual(self.call("python", "-c", block, folder=ROOT), (0, "cbf43926\n"))

    @needs_debugger
    def test_tasks(self) -> None:
        """The examples by task show what their page does."""
        page = (ROOT / "examples/tasks/README.md").read_text()
        for name in TASKS:
            status, output = self.call("python", str(ROOT / f"examples/tasks/{name}.py"))
            self.assertTrue(status == 0 and output and output.splitlines()[-1] in page, f"{name}: {output}")


if __name__ == "__main__":
    unittest.main()

"""Interrupts that come while Python imports what a program needs, and while it runs; and what an import of the package changes: nothing."""
from __future__ import annotations

import ast
import importlib
import os
import re
import signal
import socket
import subprocess
import sys
import unittest
from typing import Callable

import bpfagent
from support import ROOT, SECONDS, folder_of, heard

PACKAGE = ROOT / "python/bpfagent"
MODULES = ("ship", "far", "gateway", "debug.main", "front.main", "cli")
# The commands of the wheel, each with the function that it calls.
SCRIPTS = dict(re.findall(r'(?m)^(bpfagent-\w+) = "(bpfagent\.\w+:\w+)"$', (ROOT / "python/pyproject.toml").read_text()))
# Modules of Python that each program imports: one of its own, and one of those below it.
IMPORTED = ("argparse", "struct")
INTERRUPTING = "import os, signal\nos.kill(os.getpid(), signal.SIGINT)\nfor _ in range(1000): pass\nraise SystemExit(3)\n"
# Imports each module, as far as there is what it needs, and looks whether an interrupt is heard as before.
UNCHANGED = """import importlib, signal, sys
before = signal.getsignal(signal.SIGINT)
for name in sys.argv[1:]:
    try:
        importlib.import_module(name)
    except ImportError as missing:
        if missing.name not in ("distributed", "elftools", "redis"):
            raise
    if signal.getsignal(signal.SIGINT) is not before:
        sys.exit(f"{name} changes what an interrupt does")
"""


def script(place: str) -> str:
    """The script of a command of the wheel, whose entry is this place."""
    module, _, function = place.partition(":")
    return f"import sys\nfrom {module} import {function}\nsys.exit({function}())\n"


class Interrupts(unittest.TestCase):
    """Each import interrupts itself, so that no time decides."""

    def setUp(self) -> None:
        self.folder = folder_of(self)

    def ended(self, imported: str, *command: str, before: Callable[[], object] = heard) -> tuple[int, str]:
        """Status and errors of a command of Python in which the import of a module is interrupted."""
        path = self.folder / imported
        path.mkdir(exist_ok=True)
        (path / f"{imported}.py").write_text(INTERRUPTING)
        environment = {**os.environ, "PYTHONPATH": f"{path}:{ROOT / 'python'}"}
        # without what a machine's site imports, which would be interrupted before the command is
        done = subprocess.run(
            [sys.executable, "-S", *command], env=environment, stdin=subprocess.DEVNULL, capture_output=True, text=True, timeout=SECONDS, preexec_fn=before
        )
        return done.returncode, done.stderr

    def test_modules(self) -> None:
        """`python3 -m` ends quietly."""
        for name in MODULES:
            for imported in IMPORTED:
                self.assertEqual(self.ended(imported, "-m", f"bpfagent.{name}"), (130, ""), f"{name}, {imported}")

    def test_scripts(self) -> None:
        """So do the commands of the wheel."""
        self.assertEqual(len(SCRIPTS), 5)
        for name, place in SCRIPTS.items():
            path = self.folder / name
            path.write_text(script(place))
            for imported in IMPORTED:
                self.assertEqual(self.ended(imported, str(path)), (130, ""), f"{name}, {imported}")

    def test_running(self) -> None:
        """A program that awaits an answer ends as quietly."""
        with socket.create_server(("127.0.0.1", 0)) as silent:
            silent.settimeout(SECONDS)
            place = f"127.0.0.1:{silent.getsockname()[1]}"
            for words in (("far", place.rpartition(":")[2], "text"), ("cli", place), ("debug.main", "--connect", place)):
                command = [sys.executable, "-m", f"bpfagent.{words[0]}", *words[1:]]
                pipe = subprocess.PIPE
                with subprocess.Popen(command, stdin=pipe, stdout=pipe, stderr=pipe, preexec_fn=heard) as process, silent.accept()[0]:
                    process.send_signal(signal.SIGINT)
                    self.assertEqual((process.communicate(timeout=SECONDS), process.returncode), ((b"", b""), 130), words)

    def test_ignored(self) -> None:
        """An interrupt that was ignored stays ignored."""
        self.assertEqual(self.ended("struct", "-m", "bpfagent.ship", before=lambda: signal.signal(signal.SIGINT, signal.SIG_IGN)), (3, ""))

    def test_others(self) -> None:
        """A program that imports the package gets its interrupts."""
        code = "try:\n    from bpfagent import Agent\nexcept KeyboardInterrupt:\n    print('interrupted')\n    raise SystemExit(5)\n"
        self.assertEqual(self.ended("struct", "-c", code), (5, ""))
        (self.folder / "bpfagent-ship").write_text(code)
        self.assertEqual(self.ended("struct", str(self.folder / "bpfagent-ship")), (5, ""))

    def test_imports(self) -> None:
        """No module changes what an interrupt does when it is imported, also where the script has a command's name."""
        paths = [path.relative_to(PACKAGE.parent).with_suffix("") for path in sorted(PACKAGE.rglob("*.py"))]
        names = [".".join(path.parts).removesuffix(".__init__") for path in paths]
        self.assertIn("bpfagent.interrupt", names)
        for name in ("other.py", *SCRIPTS):
            path = self.folder / name
            path.write_text(UNCHANGED)
            done = subprocess.run([sys.executable, path, *names], capture_output=True, text=True, timeout=SECONDS, preexec_fn=heard)
            self.assertEqual((done.returncode, done.stderr), (0, ""), name)

    def test_names(self) -> None:
        """The package has the names that type checkers see there, from the modules that these name."""
        found = [node for node in ast.walk(ast.parse((PACKAGE / "__init__.py").read_text())) if isinstance(node, ast.ImportFrom) and node.level]
        places = {alias.name: node.module for node in found for alias in node.names}
        self.assertEqual(sorted(places), sorted(bpfagent.__all__))
        for name, module in places.items():
            self.assertIs(getattr(bpfagent, name), getattr(importlib.import_module(f"bpfagent.{module}"), name), name)
            self.assertIn(name, dir(bpfagent))
        with self.assertRaises(AttributeError):
            getattr(bpfagent, "Agnet")


if __name__ == "__main__":
    unittest.main()

"""What the tests of the debugger share: the program, a terminal, and an editor."""
from __future__ import annotations

import contextlib
import fcntl
import importlib.util
import io
import os
import pathlib
import pty
import re
import select
import shutil
import signal
import subprocess
import sys
import tempfile
import termios
import time
import unittest
from types import ModuleType, TracebackType
from typing import Callable, Iterator, Optional, Sequence

from bpfagent import Agent, Service, patiently
from bpfagent.far import Store
from bpfagent.protocol import commands

ROOT = pathlib.Path(__file__).resolve().parents[2]
# What these tests share with those of the product.
sys.path.append(str(ROOT / "tests"))
from lib.programs import has_gone, in_time, states_of, unread, until

DEBUG = ROOT / "examples/debug"
PROGRAM = os.environ.get("BPFAGENT", "")
DEBUGGER = [sys.executable, "-m", "bpfagent.debug.main"]
# How long an answer may take, also on a busy machine.
SECONDS = 180.0
# Within this time the debugger leaves, on a busy machine too. Otherwise a reply may take 30 s, and the end of a started program 10 s.
SOON = 8.0
# Within this time it leaves where it has nothing to wait for, if nothing delays it. Both are tried again where it takes longer.
AT_ONCE = 1.5
PROMPT = "(bpfagent) "
# What the debugger shows when an interrupt gives up the line that was typed.
GIVEN_UP = "^C (quit leaves the debugger)"
# Within this time the debugger asks a service for machines once more.
ASKS = 3.0
# What ends the debugger.
SIGNALS = (signal.SIGTERM, signal.SIGHUP)
# Find 7, which is there with 40, and then 8, when only the first pair counts.
TABLE = [str(DEBUG / "table.c"), f"@{DEBUG / 'table.object'}", "7"]

# Counts for ever, in a function of its own; and stores once, far from where it was asked to.
ENDLESS = """#include "bpfagent.h"
CALLED uint64_t more(volatile uint64_t *count)
{
    *count += 1;
    return *count;
}
uint64_t program(volatile uint64_t *count)
{
    uint64_t last = 0;
    for (;;)
        last = more(count);
    return last;
}
"""


def methods_taking(*words: str) -> list[str]:
    """The methods of an agent for the commands that take these words of the synopsis."""
    return [command.method for command in commands().values() if command.words == words]


def with_signals(case: unittest.TestCase) -> None:
    """What the test starts hears these signals, also where the test itself ignores them, as under nohup."""
    for number in SIGNALS:
        case.addCleanup(signal.signal, number, signal.signal(number, signal.SIG_DFL))


def folder_of(case: unittest.TestCase, parent: Optional[str] = None) -> pathlib.Path:
    """A folder for a test, which is removed after it. It is in `parent`, or where the system keeps such folders."""
    made = tempfile.TemporaryDirectory(dir=parent)
    case.addCleanup(made.cleanup)
    return pathlib.Path(made.name)


def has_elftools() -> bool:
    """Whether pyelftools is installed."""
    return importlib.util.find_spec("elftools") is not None


needs_debugger = unittest.skipUnless(PROGRAM and has_elftools() and shutil.which("clang"), "needs BPFAGENT, clang and pyelftools (python3-pyelftools)")


def editor_module() -> ModuleType:
    """The client of examples/debug/editor.py."""
    spec = importlib.util.spec_from_file_location("editor", DEBUG / "editor.py")
    assert spec and spec.loader
    made = importlib.util.module_from_spec(spec)
    spec.loader.exec_module(made)
    return made


def program_of(path: pathlib.Path, text: str) -> pathlib.Path:
    """A program in Python of this text."""
    path.write_text(f"#!{sys.executable}\nimport sys\n{text}\n")
    path.chmod(0o755)
    return path


def noting_program(path: pathlib.Path, note: pathlib.Path) -> pathlib.Path:
    """PROGRAM behind a script that first writes the process ID to a file."""
    noting = f"import os\nopen({str(note)!r}, 'w').write(str(os.getpid()))"
    return program_of(path, f"{noting}\nos.execv({PROGRAM!r}, [{PROGRAM!r}, *sys.argv[1:]])")


def usage_of(main: Callable[[Sequence[str]], None], words: Sequence[str]) -> tuple[object, str, str]:
    """Status, output and errors of a command that ends while it reads its words. It runs in this process."""
    output, errors = io.StringIO(), io.StringIO()
    with contextlib.redirect_stdout(output), contextlib.redirect_stderr(errors):
        try:
            main(words)
        except SystemExit as ended:
            return ended.code, output.getvalue(), errors.getvalue()
    raise AssertionError(f"{words} are taken")


def kept(store: Store, content: bytes) -> tuple[int, bytes]:
    """Id and digest of bytes that a store takes."""
    number, digest = store.put(content)
    assert number is not None
    return number, digest


def changes(client: Agent, number: int) -> bool:
    """Whether somebody writes to the first 8 bytes of an object of a service."""
    before, end = patiently(client.get, number, 0, 8), time.monotonic() + SECONDS
    while patiently(client.get, number, 0, 8) == before:
        if time.monotonic() > end:
            return False
        time.sleep(0.01)
    return True


@contextlib.contextmanager
def endless_service(source: pathlib.Path) -> Iterator[Service]:
    """A service of two connections whose workers run this program without end, on object 1."""
    code = source.with_suffix(".code")
    subprocess.run([sys.executable, "-m", "bpfagent.ship", "--flag=-O0", "--output", str(code), str(source)], check=True, timeout=SECONDS)
    with Service(PROGRAM, "--workers", "4", "--connections", "2", timeout=SECONDS) as service:
        service.setup.ship(code.read_bytes(), 2**63, service.setup.make(8) << 32)
        service.listen()
        yield service


def stop(number: int) -> None:
    """Stops a process: none of its threads runs when this returns."""
    os.kill(number, signal.SIGSTOP)
    until(f"process {number} doesn't stop", lambda: all(state in "Tt" for state in states_of(number)), pause=0.001)


def hang(service: Service) -> None:
    """Stops a service: none of its threads answers when this returns."""
    stop(service.process)


def until_asked(number: int) -> None:
    """Waits until a process that was stopped has been sent something, so that somebody awaits a reply of it. If it was stopped when it had read a command,
    nothing more comes before it has answered: then it goes on for a moment."""

    def is_asked() -> bool:
        end = time.monotonic() + ASKS
        while time.monotonic() < end:
            if unread(number) > 0:
                return True
            time.sleep(0.01)
        os.kill(number, signal.SIGCONT)
        # Were it stopped again at once, it would have no time to answer.
        time.sleep(0.1)
        stop(number)
        return False

    until(f"process {number} isn't asked", is_asked)


def until_running(client: Agent, machine: int) -> None:
    """Waits until a machine of a service is one that workers run."""
    until(f"machine {machine} doesn't run", lambda: client.regs(machine).state == "run", pause=0.01)


def until_gone(number: int) -> None:
    """Waits until a process that was killed has ended."""
    until(f"process {number} goes on", lambda: has_gone(number), pause=0.01)


def silent_program(folder: pathlib.Path, *answers: str) -> tuple[str, Callable[[], int]]:
    """The path of a program that answers so many lines, then nothing, and doesn't end; and what waits for that and gives its number."""
    note = folder / f"silent{len(answers)}.number"
    text = f"import os, time\nfor answer in {answers}:\n    sys.stdin.readline()\n    print(answer, flush=True)\n"
    text += f"with open({str(note)!r}, 'w') as note:\n    print(os.getpid(), file=note)\ntime.sleep({SECONDS})"
    path = program_of(note.with_suffix(""), text)

    def begun() -> int:
        end = time.monotonic() + SECONDS
        while not (note.exists() and note.read_text().endswith("\n")):
            if time.monotonic() > end:
                raise AssertionError(f"{path} doesn't begin")
            time.sleep(0.01)
        number = int(note.read_text())
        note.unlink()
        return number

    return str(path), begun


def is_at_once(leave: Callable[..., float], *arguments: object, **options: object) -> bool:
    """Whether a call that gives how long it took takes no time, once in a few tries."""
    return not in_time(lambda: leave(*arguments, **options), AT_ONCE)


def is_soon(leave: Callable[..., float], *arguments: object, **options: object) -> bool:
    """Whether it takes little time, once in a few tries."""
    return not in_time(lambda: leave(*arguments, **options), SOON)


def heard() -> None:
    """Interrupts are heard, also where the test itself ignores them."""
    signal.signal(signal.SIGINT, signal.SIG_DFL)


def take_terminal() -> None:
    """Makes standard input the terminal from which a new session is interrupted."""
    heard()
    fcntl.ioctl(0, termios.TIOCSCTTY, 0)


class Pseudoterminal:
    """The debugger in a pseudo-terminal, which is typed to as by a person."""

    def __init__(self, *arguments: str, home: str) -> None:
        self._main, other = pty.openpty()
        environment = {**os.environ, "HOME": home, "TERM": "dumb", "INPUTRC": "/dev/null"}
        self.process = subprocess.Popen(
            [*DEBUGGER, *arguments], stdin=other, stdout=other, stderr=other, env=environment, cwd=ROOT, start_new_session=True, preexec_fn=take_terminal
        )
        os.close(other)
        self.greeting = self._until_prompt()

    def _until(self, holds: Callable[[str], bool]) -> str:
        """What is shown until this holds of it, or the debugger has ended."""
        end, read, got = time.monotonic() + SECONDS, b"", ""
        while not holds(got):
            if not select.select([self._main], [], [], max(end - time.monotonic(), 0))[0]:
                raise AssertionError(f"the terminal shows {got!r}, and no more")
            try:
                piece = os.read(self._main, 1 << 16)
            except OSError:
                break
            if not piece:
                break
            # a piece may end within a character or an escape sequence
            read += piece
            got = re.sub(r"\x1b\[[0-9;?]*[a-zA-Z]|\r", "", read.decode(errors="replace"))
        return got

    def _until_prompt(self, shown: str = "") -> list[str]:
        """What is shown until the next prompt, as lines; and that comes after this text. While a line is typed readline may show the prompt
        again, but within the line."""
        return self._until(lambda got: got.endswith(f"\n{PROMPT}") and shown in got).removesuffix(PROMPT).splitlines()

    def interrupt(self, command: str) -> list[str]:
        """Types a command that doesn't end by itself, and interrupts it: what is shown until the next prompt. An interrupt that comes
        after the line was read, but before the command has begun, gives the line up. Then it is typed again, and interrupted later."""
        end, pause = time.monotonic() + SECONDS, 0.05
        while time.monotonic() < end:
            self.press(command + "\n")
            self._until(lambda got: f"{command}\n" in got)
            time.sleep(pause)
            self.press("\x03")
            shown = self.wait()
            if not any(GIVEN_UP in line for line in shown):
                return shown
            pause *= 2
        raise AssertionError(f"{command} doesn't begin")

    def press(self, keys: str) -> None:
        """Types keys, and doesn't wait."""
        os.write(self._main, keys.encode())

    def ask(self, command: str) -> list[str]:
        """What a command shows, without its echo."""
        self.press(command + "\n")
        return self._until_prompt()[1:]

    def wait(self, shown: str = "") -> list[str]:
        """What is shown until the next prompt after this text."""
        return self._until_prompt(shown)

    def close(self) -> int:
        """Leaves the debugger: its status."""
        self.press("quit\n")
        return self.process.wait(SECONDS)

    def __enter__(self) -> Pseudoterminal:
        return self

    def __exit__(self, kind: Optional[type[BaseException]], error: Optional[BaseException], trace: Optional[TracebackType]) -> None:
        if self.process.poll() is None:
            self.process.kill()
            self.process.wait()
        if self._main >= 0:
            os.close(self._main)
            self._main = -1

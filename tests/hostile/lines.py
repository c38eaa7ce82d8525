"""Lines of clients for the front, and files from which it restores objects."""
from __future__ import annotations

import random
import re
import signal
import socket
import subprocess
import sys
import tempfile
import time
from pathlib import Path
from typing import Sequence

from bpfagent.front.saving import Damaged, restored

from lib.programs import patience, processor_time, size_of

from hostile.changes import changed
from hostile.frame import HANGS, MEMORY, MOMENT, OTHERS, TRIES

SETUP = "make 8\nmake 65536\nship 1000 0x100000000 0 0 0 0 9500000000000000\n"
LENGTHS = {1: 8, 2: 16}
TOKEN = b"secret"
LONGEST = 70_000
SAVED = b"bpfagent-objects"
REPLY = re.compile(rb"[ -~]+")


class Started:
    """A front with its agent."""

    def __init__(self, program: str, folder: Path, *options: str) -> None:
        setup, self._path = folder / "setup", str(folder / f"socket{len(options)}")
        setup.write_text(SETUP)
        self._errors = (folder / f"errors{len(options)}").open("w+b")
        words = [sys.executable, "-m", "bpfagent.front.main", setup, "--program", program, "--unix", self._path, *options, "--", "--workers", "0"]
        self._process = subprocess.Popen(list(map(str, words)), stdin=subprocess.DEVNULL, stdout=subprocess.PIPE, stderr=self._errors)
        assert self._process.stdout
        self._process.stdout.readline()
        self.pid = self._process.pid

    def told(self, content: bytes) -> bytes:
        """What a client hears that sends this, and then nothing more."""
        with socket.socket(socket.AF_UNIX) as stream:
            stream.settimeout(HANGS)
            stream.connect(self._path)
            try:
                stream.sendall(content)
                stream.shutdown(socket.SHUT_WR)
                return b"".join(iter(lambda: stream.recv(1 << 16), b""))
            except ConnectionError:
                return b"(cut off)\n"

    def wrong(self) -> str:
        """What is wrong with the front itself; empty if nothing is."""
        if self._process.poll() is not None:
            return f"the front ended with {self._process.returncode}: {self.errors()[-1000:]!r}"
        if b"Traceback" in (said := self.errors()):
            return f"a traceback: {said[-1500:].decode(errors='backslashreplace')}"
        return ""

    def errors(self) -> bytes:
        """What it has said on standard error."""
        self._errors.seek(0)
        return self._errors.read()

    def close(self) -> None:
        """Ends it."""
        self._process.send_signal(signal.SIGTERM)
        try:
            self._process.communicate(timeout=HANGS)
        finally:
            self._process.kill()
            self._errors.close()


def replies_to(content: bytes) -> int:
    """How many replies these bytes have, and the end behind them."""
    *lines, rest = content.split(b"\n")
    return len(lines) + (len(rest) > LONGEST) + bool(rest)


class Front:
    """`bpfagent-front`, one without and one with a token."""

    name = "front"

    def __init__(self, program: str) -> None:
        self._room = tempfile.TemporaryDirectory()
        folder = Path(self._room.name)
        (folder / "token").write_bytes(TOKEN + b"\n")
        self._saved = folder / "saved"
        self._patience = patience(program)
        self._open, self._guarded = Started(program, folder), Started(program, folder, "--token-file", str(folder / "token"))
        self._first = size_of(self._open.pid, "VmRSS")

    def close(self) -> None:
        """Ends both."""
        self._open.close()
        self._guarded.close()
        self._room.cleanup()

    def begin(self, corpus: Sequence[bytes]) -> str:
        """Why what comes of the corpus is wrong."""
        return next(filter(None, map(self.wrong, corpus)), "")

    def mutated(self, chance: random.Random, corpus: Sequence[bytes]) -> bytes:
        """Lines that are changed."""
        content = chance.choice(corpus)
        if not content.startswith(SAVED) and chance.random() < 0.3:
            lines = content.splitlines(keepends=True)
            content = b"".join(chance.choice(lines) for _ in range(chance.choice((1, 10, 300))))
        made = changed(chance, content, corpus)
        return b"token " + TOKEN + b"\n" + made if chance.random() < 0.2 else made

    def wrong(self, case: bytes) -> str:
        """Why what comes of a case is wrong."""
        if case.startswith(SAVED):
            return self._wrong_of_saved(case)
        spent = []
        for _ in range(TRIES):
            start, before = time.monotonic(), processor_time(self._open.pid)
            for front, is_let_in in ((self._open, True), (self._guarded, False)):
                if why := self._wrong_of(front, case, is_let_in):
                    return why
            spent.append(processor_time(self._open.pid) - before)
            if spent[-1] < MOMENT and time.monotonic() - start < OTHERS * self._patience:
                break
        else:
            return f"it took {min(spent):.1f} s of a processor, {time.monotonic() - start:.1f} s in all"
        size = size_of(self._open.pid, "VmRSS")
        return f"the front has {size} bytes, and began with {self._first}" if size > self._first + MEMORY // 4 else ""

    @staticmethod
    def _wrong_of(front: Started, case: bytes, is_let_in: bool) -> str:
        told = front.told(case)
        if why := front.wrong():
            return why
        line, end, rest = case.partition(b"\n")
        if not is_let_in and line == b"token " + TOKEN and end:
            wanted = 1 + replies_to(rest)
        else:
            wanted = replies_to(case) if is_let_in else 1
        replies = told.split(b"\n")
        if replies.pop() != b"" or not all(REPLY.fullmatch(reply) for reply in replies):
            return f"answered {told[:300]!r}"
        if not is_let_in and replies == [b"(cut off)"]:
            return ""
        return f"{len(replies)} replies, and not {wanted}: {told[:300]!r}" if len(replies) != wanted else ""

    def _wrong_of_saved(self, case: bytes) -> str:
        self._saved.write_bytes(case)
        try:
            found = restored(self._saved, LENGTHS)
        except Damaged as why:
            return "" if str(why).isprintable() else f"control characters: {why!r}"
        except Exception as why:  # whatever it is, it is what is looked for
            return f"a traceback: {why!r}"
        return "" if {number: len(content) for number, content in found.items()} == LENGTHS else "objects of other lengths"

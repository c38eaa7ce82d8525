"""Runs cases, each in a forked process that has little time and memory, and keeps one that fails."""
from __future__ import annotations

import hashlib
import os
import pathlib
import random
import resource
import signal
import sys
import tempfile
import time
import traceback
from dataclasses import dataclass
from typing import Callable, Iterator, Protocol, Sequence

from bpfagent.printable import printable

HERE = pathlib.Path(__file__).resolve().parent
CORPUS, KEPT = HERE / "corpus", HERE / "kept"
# How much processor time an answer may take beyond that of what isn't changed, and how long it may take beside the time for which it waited
# for a processor, in seconds; how long where it waits for others. How much memory it may take beyond what is there, and how much it may write, in bytes.
MOMENT, OTHERS, MEMORY, WRITTEN = 1.0, 10.0, 1 << 29, 1 << 26
# After so many seconds beside waiting for a processor it hangs, and after so many in all. What takes too long is tried so often: the least time counts.
HANGS, ENDLESS, TRIES = 60.0, 600.0, 8
# For how long a case that fails is made shorter, in seconds.
SHORTENED = 60.0
# What a process ends with that has raised what nobody caught.
RAISED = 77


@dataclass(frozen=True)
class Answer:
    """What came of a case: the status, minus the signal if that ended it; both outputs; processor time, and time beside waiting for a processor."""

    status: int
    output: bytes
    errors: bytes
    spent: float
    took: float


class Part(Protocol):
    """What is given hostile input."""

    name: str

    def mutated(self, chance: random.Random, corpus: Sequence[bytes]) -> bytes:
        """A case made of the corpus."""

    def begin(self, corpus: Sequence[bytes]) -> str:
        """Runs the corpus. Why what comes of it is wrong; empty if it isn't."""

    def wrong(self, case: bytes) -> str:
        """Why what comes of a case is wrong; empty if it isn't."""

    def close(self) -> None:
        """Ends what was started."""


def lifted(program: str, folder: pathlib.Path) -> str:
    """A script that runs the program without the limit of memory, since one with an address sanitizer takes up terabytes of addresses."""
    path = folder / "bpfagent"
    path.write_text(f'#!/bin/sh\nulimit -S -v unlimited\nexec {program} "$@"\n')
    path.chmod(0o755)
    return str(path)


def limit() -> None:
    """Limits this process."""
    pages = int(pathlib.Path("/proc/self/statm").read_text().split()[0])
    most = pages * os.sysconf("SC_PAGE_SIZE") + MEMORY
    resource.setrlimit(resource.RLIMIT_AS, (most, resource.RLIM_INFINITY))
    resource.setrlimit(resource.RLIMIT_FSIZE, (WRITTEN, WRITTEN))
    resource.setrlimit(resource.RLIMIT_CORE, (0, 0))


def act(show: Callable[[bytes], object], case: bytes, outputs: Sequence[int]) -> None:
    """The forked process, from its beginning to its end."""
    status = RAISED
    try:
        os.setpgid(0, 0)
        for number, file in ((0, os.open(os.devnull, os.O_RDONLY)), (1, outputs[0]), (2, outputs[1])):
            os.dup2(file, number)
        limit()
        try:
            show(case)
            status = 0
        except SystemExit as ended:
            if isinstance(ended.code, str):
                print(ended.code, file=sys.stderr)
            status = ended.code if isinstance(ended.code, int) else int(ended.code is not None)
    except BaseException:  # whatever it is, it is what is looked for
        traceback.print_exc()
    finally:
        sys.stdout.flush()
        sys.stderr.flush()
        os._exit(status)


def waited(process: int) -> float:
    """For how many seconds the first thread of a process has waited for a processor."""
    try:
        return int(pathlib.Path(f"/proc/{process}/schedstat").read_text().split()[1]) / 1e9
    except (OSError, IndexError):
        return 0.0


def forked(show: Callable[[bytes], object], case: bytes) -> Answer:
    """What comes of a case in a process of its own. Whatever that has started ends with it."""
    outputs = [os.memfd_create(name) for name in ("output", "errors")]
    sys.stdout.flush()
    sys.stderr.flush()
    start = time.monotonic()
    process = os.fork()
    if not process:
        act(show, case, outputs)
    try:
        while not os.waitid(os.P_PID, process, os.WEXITED | os.WNOWAIT | os.WNOHANG):
            past = time.monotonic() - start
            if past > HANGS and past > min(HANGS + waited(process), ENDLESS):
                os.kill(process, signal.SIGKILL)
            time.sleep(0.001)
        took = time.monotonic() - start - waited(process)
        try:
            os.killpg(process, signal.SIGKILL)
        except (ProcessLookupError, PermissionError):
            pass
        _, status, used = os.wait4(process, 0)
        said = [os.pread(file, WRITTEN, 0) for file in outputs]
        return Answer(os.waitstatus_to_exitcode(status), said[0], said[1], used.ru_utime + used.ru_stime, took)
    finally:
        for file in outputs:
            os.close(file)


def unprintable(said: bytes) -> str:
    """The first line that a terminal would not only show; empty if there is none."""
    lines = said.decode(errors="surrogateescape").split("\n")
    return next((ascii(line[:200]) for line in lines if printable(line, "\t") != line), "")


class Forked:
    """A part whose cases are each shown in a process of their own."""

    name = ""
    # Whether a terminal shows what is written to standard output, and for how long an answer may wait, in seconds: longer for what waits for another
    # process or thread, which may wait for a processor.
    is_shown, wait = True, MOMENT

    def __init__(self, program: str) -> None:
        self._room = tempfile.TemporaryDirectory()
        self.folder = pathlib.Path(self._room.name)
        self.program = lifted(program, self.folder)
        self._usual = (0.0, 0.0)

    def close(self) -> None:
        """Removes the folder."""
        self._room.cleanup()

    def show(self, case: bytes) -> None:
        """What is done with a case, in the forked process."""
        raise NotImplementedError

    def refused(self, case: bytes, answer: Answer) -> str:
        """Why an answer that came in time is wrong all the same; empty if it isn't."""
        return ""

    def begin(self, corpus: Sequence[bytes]) -> str:
        """Notes how much time is usual. Why what comes of the corpus is wrong."""
        answers = [forked(self.show, case) for case in corpus]
        self._usual = max(it.spent for it in answers), max(it.took for it in answers)
        return next(filter(None, map(self._wrong_of, corpus, answers)), "")

    def wrong(self, case: bytes) -> str:
        """Why what comes of a case is wrong."""
        found = []
        for _ in range(TRIES):
            answer = forked(self.show, case)
            if why := self._wrong_of(case, answer):
                return why
            found.append(answer)
            if answer.spent < self._usual[0] + MOMENT and answer.took < self._usual[1] + self.wait:
                return ""
        return f"it took {min(it.spent for it in found):.1f} s of a processor, and {min(it.took for it in found):.1f} s"

    def _wrong_of(self, case: bytes, answer: Answer) -> str:
        errors = answer.errors.decode(errors="backslashreplace")
        if answer.status < 0:
            return f"ended by signal {-answer.status}: {ascii(errors[-300:])}"
        if answer.status == RAISED or "Traceback (most recent call last)" in errors:
            return f"a traceback: {errors[-1500:]}"
        if line := (unprintable(answer.output) if self.is_shown else "") or unprintable(answer.errors):
            return f"control characters: {line}"
        return self.refused(case, answer)


# ---- cases


def stored(part: str) -> list[bytes]:
    """The corpus of a part."""
    return [path.read_bytes() for path in sorted((CORPUS / part).iterdir())]


def kept(part: str) -> list[pathlib.Path]:
    """The cases of a part that failed once."""
    return sorted((KEPT / part).glob("*"))


def keep(part: str, case: bytes) -> pathlib.Path:
    """Writes a case that failed."""
    path = KEPT / part / hashlib.sha256(case).hexdigest()[:12]
    path.parent.mkdir(parents=True, exist_ok=True)
    path.write_bytes(case)
    return path


def shorter(case: bytes, fails: Callable[[bytes], object], seconds: float = SHORTENED) -> bytes:
    """A case that still fails, with pieces left out, as far as one comes in this time."""
    size, end = len(case) // 2, time.monotonic() + seconds
    while size and time.monotonic() < end:
        at = 0
        while at < len(case) and time.monotonic() < end:
            less = case[:at] + case[at + size :]
            if fails(less):
                case = less
            else:
                at += size
        size //= 2
    return case


def cases_of(part: Part, seed: str, corpus: Sequence[bytes]) -> Iterator[bytes]:
    """Cases without end, each of which can be made again by its number."""
    number = 0
    while True:
        yield part.mutated(random.Random(f"{part.name}.{seed}.{number}"), corpus)
        number += 1

"""Jobs by agents in this process, a fresh one for each: it takes less time than one line of the protocol."""
from __future__ import annotations

from ..engine import Engine
from ..limits import OBJECTS
from ..replies import Stopped
from .jobs import Job, Result, shipped, stopped
from .store import Read


class InProcess:
    """Keeps the objects that were read last, with their versions. A job changes only copies of them, which it gives back."""

    def __init__(self) -> None:
        self._held: dict[str, tuple[bytes, bytes]] = {}
        self._written: dict[str, bytes] = {}

    def execute(self, job: Job, read: Read) -> tuple[Result, dict[str, bytes]]:
        """Runs a program on the objects as they are now, and gives its result and what it may have written."""
        contents = {key: self._content(key, read) for key in job.keys}
        with Engine() as engine:
            numbers = {key: engine.make_of(content) for key, content in contents.items()}
            machine = shipped(engine, job, numbers)
            stop = engine.run(machine).last
            assert isinstance(stop, Stopped), stop  # No object is away, and nothing pauses it.
            if stop.value is None:
                raise stopped(engine, machine, job, stop)
            self._written = {key: engine.read(numbers[key], len(contents[key])) for key in job.written}
            return Result(stop.value, engine.out(machine)), self._written

    def wrote(self, job: Job, version: bytes) -> None:
        """What the last job may have written has this version now."""
        for key, content in self._written.items():
            self._hold(key, version, content)

    def close(self) -> None:
        """Keeps no object any more."""
        self._held, self._written = {}, {}

    def _content(self, key: str, read: Read) -> bytes:
        """An object as it is in Redis."""
        known = self._held.get(key)
        version, content = read(key, known[0] if known else None)
        if content is not None:
            self._hold(key, version, content)
            return content
        assert known is not None
        return known[1]

    def _hold(self, key: str, version: bytes, content: bytes) -> None:
        """Keeps an object; at most as many as an agent has, so that they don't take more than its 64 MiB."""
        if len(self._held) == OBJECTS and key not in self._held:
            self._held.clear()
        self._held[key] = version, content

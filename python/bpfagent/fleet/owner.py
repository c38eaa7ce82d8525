"""A worker's jobs, one after the other."""
from __future__ import annotations

import threading
from typing import Union

from ..closing import Closing
from ..library import library_if_there
from .inprocess import InProcess
from .jobs import Job, Result
from .lines import ByLines
from .store import Setting, Store


class Owner(Closing):
    """What runs a worker's jobs: agents in this process, or one that is asked by lines. It is a context manager that ends it."""

    def __init__(self, setting: Setting) -> None:
        self._store = Store(setting)
        self._lock = threading.Lock()
        self._execution: Union[InProcess, ByLines] = InProcess() if library_if_there() else ByLines(setting.program)

    def run(self, job: Job) -> Result:
        """A job, after the others of this worker. One that makes its agent fail costs no other: the next gets a fresh agent."""
        with self._lock:
            result, version = self._store.once(job, lambda read: self._execution.execute(job, read))
            if version:
                self._execution.wrote(job, version)
            return result

    def close(self) -> None:
        """Ends the agent, after the job that runs. A further job starts another."""
        with self._lock:
            self._execution.close()

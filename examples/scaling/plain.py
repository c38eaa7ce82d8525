"""The jobs of the examples in plain Python: on the same workers, over the same transactions, without an agent."""
from __future__ import annotations

import functools

from bpfagent.fleet import Job, Result, Setting, Store


@functools.lru_cache(maxsize=None)
def store_of(setting: Setting) -> Store:
    """The one store of a worker."""
    return Store(setting)


def start(client, task, jobs: list[Job], setting: Setting) -> list:
    """Futures of tasks that take a job."""
    return client.map(task, jobs, key=[f"plain-{job.id}" for job in jobs], pure=False, setting=setting)


def words(job: Job, setting: Setting) -> Result:
    """Counts the words of the second key, and adds the count to the first."""
    return added(job, setting, lambda text: len(text.split()))


def spin(job: Job, setting: Setting) -> Result:
    """Adds the last byte of the second key to the first, after as many turns as the third argument says."""

    def last(content: bytes) -> int:
        turns = job.arguments[2]
        while turns:
            turns -= 1
        return content[-1]

    return added(job, setting, last)


def added(job: Job, setting: Setting, of_content) -> Result:
    """Adds what is found of the second key to the first."""
    total, name = job.keys

    def body(read):
        found = of_content(read(name, None)[1])
        return Result(found, ()), {total: (int.from_bytes(read(total, None)[1], "little") + found).to_bytes(8, "little")}

    return store_of(setting).once(job, body)[0]

"""Many agents as one: Redis keeps the objects, Dask runs the programs, and agents execute them.

An object is a key of Redis, single or Cluster. A `Job` is a program, keys with rights, and arguments. `Fleet.run` gives it to
Dask and returns a future. The worker that runs it owns one agent: it brings in the keys, ships the program with exactly these
grants, runs it to its stop, and writes the objects back that the job may write:

    client = distributed.Client("tcp://scheduler:8786")
    fleet = Fleet(client, "redis://store:6379", "/usr/bin/bpfagent")
    fleet.put("total", bytes(8))
    job = Job(code, {"text": "r", "total": "w"}, ("total", "text"))
    fleet.run(job).result()                     # Result(value=15, emitted=())

A job takes effect once, also if Dask runs it again because its worker died. All its writes are one transaction of Redis, which
also keeps the job's result under its id. A second run finds that record and answers it. The transaction fails if a watched key
has changed since it was read, and the job runs again on the new objects. So two jobs that write the same key are serial.

In a Cluster all keys that one job writes are in one hash slot, which hash tags give: `account:{7}`, `log:{7}`. Keys in that
slot that the job only reads are watched too. Keys that it reads in other slots are not.

Needs Debian's python3-distributed and python3-redis, or the package's extra `fleet`.
"""
from __future__ import annotations

import functools
from typing import Any, Callable, Iterable, Union

from .jobs import Job, JobRefused, JobStopped, Result, lines_of

try:
    import distributed

    from .owner import Owner
    from .store import Setting, Store, Unconfirmed
except ModuleNotFoundError as missing:
    if missing.name not in ("distributed", "redis"):
        raise
    why = f"bpfagent.fleet needs {missing.name}: apt-get install python3-{missing.name}, or pip install 'bpfagent[fleet]'"
    raise ImportError(why, name=missing.name) from None

__all__ = ["Fleet", "Job", "JobRefused", "JobStopped", "Owner", "Result", "Setting", "Store", "Unconfirmed", "lines_of"]
# How long the record of a job is kept, in seconds.
KEEP = 86_400


@functools.lru_cache(maxsize=None)
def owner(setting: Setting, worker: str) -> Owner:
    """The one owner of a worker."""
    return Owner(setting)


def work(job: Job, setting: Setting) -> Result:
    """The task that a Dask worker runs."""
    return owner(setting, distributed.get_worker().id).run(job)


class Fleet:
    """Jobs on the workers of a Dask client, over the objects of a Redis: one URL, or a list of them for nodes of a Cluster.

    `program` is the path of bpfagent at the workers. `replicas` is how many replicas hold a write before it counts as done.
    `keep` is how many seconds the record of a job stays: within this time a further run of it answers the record.
    """

    def __init__(self, client: distributed.Client, urls: Union[str, Iterable[str]], program: str, replicas: int = 0, keep: int = KEEP) -> None:
        is_single = isinstance(urls, str)
        self._client = client
        self.setting = Setting((urls,) if isinstance(urls, str) else tuple(urls), not is_single, program, replicas, keep)
        self._store = Store(self.setting)

    def put(self, key: str, content: bytes) -> None:
        """Writes an object of 1 to 65,536 bytes."""
        self._store.put(key, content)

    def get(self, key: str) -> bytes:
        """Reads an object; raises `KeyError` if there is none."""
        return self._store.get(key)

    def run(self, job: Job, **options: Any) -> distributed.Future:
        """Dask's future of a job's `Result`. The options are those of `Client.submit`, as `priority` and `retries`."""
        return self.map([job], **options)[0]

    def map(self, jobs: Iterable[Job], **options: Any) -> list[distributed.Future]:
        """Dask's futures of many jobs, in their order. The options are those of `Client.map`."""
        listed = list(jobs)
        names = [f"{job.name}-{job.id}" for job in listed]
        submit: Callable[..., list[distributed.Future]] = self._client.map
        futures = submit(work, listed, key=names, pure=False, setting=self.setting, **options)
        return futures

"""The objects in Redis, and transactions that take effect once."""
from __future__ import annotations

import uuid
from dataclasses import dataclass
from typing import Callable, Optional, TypeVar, Union

import redis
from redis import exceptions
from redis.backoff import ExponentialBackoff
from redis.client import Pipeline
from redis.cluster import RedisCluster
from redis.crc import key_slot
from redis.retry import Retry

from ..limits import LONGEST
from ..redisclient import connect
from .jobs import Job, JobStopped, Result

# Seconds: how long Redis may be unreachable, and the longest pause between two tries.
PATIENCE, PAUSE = 30.0, 0.5
# How long `WAIT` waits for replicas, in milliseconds.
REPLICATED = 1000
# Errors that pass: of the connection, and of a cluster in which slots move or a replica takes over.
PASSING = (
    exceptions.ConnectionError,
    exceptions.TimeoutError,
    exceptions.RedisClusterException,
    exceptions.ClusterDownError,
    exceptions.AskError,
    exceptions.TryAgainError,
    exceptions.MasterDownError,
    exceptions.ReadOnlyError,
)
T = TypeVar("T")


class Unconfirmed(exceptions.RedisError):  # type: ignore[misc]
    """Too few replicas hold the write. It stands at the primary, and a further run of the job answers its record."""


@dataclass(frozen=True)
class Setting:
    """Where a fleet's objects and programs are. Workers get it with each job."""

    urls: tuple[str, ...]
    is_cluster: bool
    program: str
    replicas: int
    keep: int


# What a body of a job gets, and what it gives: a reader of (version, content), and the result with the new contents.
Read = Callable[[str, Optional[bytes]], "tuple[bytes, Optional[bytes]]"]
Body = Callable[[Read], "tuple[Result, dict[str, bytes]]"]


class Store:
    """The objects in Redis: each key is a hash with the fields `version` and `bytes`. Every write makes a new random version."""

    def __init__(self, setting: Setting) -> None:
        self._setting = setting
        self._client: Optional[Union[redis.Redis[bytes], RedisCluster]] = None
        self._retry = Retry(ExponentialBackoff(PAUSE, PAUSE / 64), int(PATIENCE / PAUSE), (*PASSING, Unconfirmed))

    def put(self, key: str, content: bytes) -> None:
        """Writes an object of 1 to 65,536 bytes."""
        # redis-py would encode a text.
        if not isinstance(content, (bytes, bytearray, memoryview)):
            raise TypeError(f"an object has bytes, and not a {type(content).__name__}: encode it")
        content = bytes(content)
        if not 0 < len(content) <= LONGEST:
            raise ValueError(f"an object has 1 to {LONGEST} bytes, and not {len(content)}")
        self.once(Job(b"", {key: "w"}), lambda read: (Result(0, ()), {key: content}))

    def get(self, key: str) -> bytes:
        """Reads an object."""
        return self._persistently(lambda: present(key, self._node(key).hget(key, "bytes")))

    def once(self, job: Job, body: Body) -> tuple[Result, Optional[bytes]]:
        """Runs a job's body on keys that don't change meanwhile, and writes what it gives, once for each id. Answers the version
        that was written; None if nothing was, or the job took effect before."""
        return self._persistently(lambda: self._attempt(job, body) if job.keys else (body(self._read)[0], None))

    def _read(self, key: str, known: Optional[bytes]) -> tuple[bytes, Optional[bytes]]:
        """An object as `Read` says, outside the transaction."""
        return fresh(self._node(key), key, known)

    def _attempt(self, job: Job, body: Body) -> tuple[Result, Optional[bytes]]:
        """The transaction on the node that holds the job's slot. redis-py runs it again while others change the watched keys."""
        watched, node = self._watched(job), self._node(job.record)

        def transaction(pipe: Pipeline[bytes]) -> Union[JobStopped, tuple[Result, Optional[bytes]]]:
            recorded = pipe.get(job.record)
            if recorded is not None:
                return Result.of_record(recorded), None
            try:
                result, contents = body(lambda key, known: fresh(pipe, key, known) if key in watched else self._read(key, known))
            except JobStopped as stopped:
                return stopped  # after an EXEC of nothing, which fails if the program saw its objects at different times
            if not job.written:
                return result, None
            version = uuid.uuid4().bytes
            pipe.multi()
            for key, content in contents.items():
                pipe.hset(key, mapping={"version": version, "bytes": content})
            pipe.set(job.record, result.recorded(), ex=self._setting.keep)
            return result, version

        answer: Union[JobStopped, tuple[Result, Optional[bytes]]] = node.transaction(transaction, job.record, *watched, value_from_callable=True)
        if isinstance(answer, JobStopped):
            raise answer
        if job.written and self._setting.replicas:
            self._confirm(node, job.record)
        return answer

    def _watched(self, job: Job) -> set[str]:
        """The job's keys that its transaction guards; in a Cluster those in the slot of the written ones."""
        if not self._setting.is_cluster:
            return set(job.keys)
        slot = key_slot(job.record.encode())
        watched = {key for key in job.keys if key_slot(key.encode()) == slot}
        if not watched.issuperset(job.written):
            raise ValueError("in a Cluster the keys that a job writes are in one hash slot: give them one hash tag, as in 'account:{7}'")
        return watched

    def _confirm(self, node: redis.Redis[bytes], record: str) -> None:
        """Waits until enough replicas hold a record, and with it all that the node wrote before."""
        with node.pipeline(transaction=False) as pipe:
            pipe.expire(record, self._setting.keep)
            pipe.execute_command("WAIT", self._setting.replicas, REPLICATED)
            is_there, holders = pipe.execute()
        if not is_there or holders < self._setting.replicas:
            raise Unconfirmed(f"{holders} replicas hold {record}, and {self._setting.replicas} are wanted")

    def _persistently(self, call: Callable[[], T]) -> T:
        """What a call gives. redis-py's `Retry` calls again while Redis can't be reached, as while a replica takes over."""
        answer: T = self._retry.call_with_retry(call, self._forget)
        return answer

    def _node(self, key: str) -> redis.Redis[bytes]:
        """The client of the node that holds a key, connected when it is first wanted."""
        if self._client is None:
            self._client = connect(self._setting.urls, self._setting.is_cluster)
        if isinstance(self._client, RedisCluster):
            return self._client.get_redis_connection(self._client.get_node_from_key(key))
        return self._client

    def _forget(self, error: Exception) -> None:
        """After an error the nodes are asked anew which of them holds which slots."""
        self._client = None


def present(key: str, content: Optional[bytes]) -> bytes:
    """The content of a key that there is."""
    if content is None:
        raise KeyError(f"there is no object {key!r}")
    return content


def fresh(node: redis.Redis[bytes], key: str, known: Optional[bytes]) -> tuple[bytes, Optional[bytes]]:
    """An object's version and, unless it is the known one, its content."""
    if known is not None and node.hget(key, "version") == known:
        return known, None
    version, content = node.hmget(key, "version", "bytes")
    return present(key, version), present(key, content)

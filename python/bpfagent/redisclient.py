"""A client of Redis, one server or a Cluster, by redis-py. The fleet and the gateway connect by it."""
from __future__ import annotations

import contextlib
import logging
import os
from typing import Any, Iterator, Optional, Sequence, Union
from urllib.parse import urlsplit

import redis
from redis import exceptions
from redis.cluster import ClusterNode, RedisCluster
from redis.connection import parse_url

from .far import LIMIT
from .health import Unkept

# How long Redis may take to accept a connection, and for a reply, in seconds.
REPLY = 10.0
# The password, if the URL has none; redis-cli reads it too.
PASSWORD = "REDISCLI_AUTH"
# How many keys one look through Redis takes.
LOOKED = 1000

Connected = Union["redis.Redis[bytes]", RedisCluster]

# It would log each node that can't be reached, with a traceback.
logging.getLogger("redis.cluster").addHandler(logging.NullHandler())


class Nodes(RedisCluster):  # type: ignore[misc]
    """redis-py 4.3 copies its client when it asks for the slots anew, which would fail."""

    def __deepcopy__(self, memo: dict[int, Any]) -> Nodes:
        return self


def connect(urls: Sequence[str], is_cluster: bool, **options: Any) -> Connected:
    """A client of a single Redis, or of a Cluster of which some nodes are known."""
    options = {"socket_timeout": REPLY, "socket_connect_timeout": REPLY, **options}
    if not is_cluster:
        return redis.Redis.from_url(urls[0], **options)
    parts = [parse_url(url) for url in urls]
    return Nodes(url=urls[0], startup_nodes=[ClusterNode(it["host"], it["port"]) for it in parts], **options)


def address_of(url: str) -> str:
    """HOST:PORT of a URL, to be shown: a password isn't."""
    parts = urlsplit(url)
    return f"{parts.hostname}:{parts.port or 6379}"


def escaped(prefix: str) -> str:
    """A pattern of Redis for keys that begin so."""
    return "".join(f"\\{letter}" if letter in "*?[]\\" else letter for letter in prefix) + "*"


class Parcels:
    """Bytes by their keys, each for so many seconds unless that is renewed. Connections are made when they are needed.

    A method raises `Unkept` if Redis can't be reached, or refuses. It isn't for several threads at once.
    """

    def __init__(self, url: str, seconds: int) -> None:
        self._url, self._seconds = url, seconds
        self._client: Optional[Connected] = None

    def put(self, key: str, content: bytes) -> bool:
        """Keeps bytes under a key; whether there was none yet."""
        with self._connected() as client:
            return bool(client.set(key, content, ex=self._seconds, nx=True))

    def get(self, key: str) -> Optional[bytes]:
        """The bytes of a key, if there are any."""
        with self._connected() as client:
            found = client.get(key)
        if found is not None and not (isinstance(found, bytes) and 1 <= len(found) <= LIMIT):
            raise Unkept(f"{key} holds no parcel")
        return found

    def forget(self, key: str) -> bool:
        """Deletes a key; whether there was one."""
        with self._connected() as client:
            return bool(client.delete(key) == 1)

    def renew(self, keys: Sequence[str]) -> None:
        """Keeps keys for as long again. Without keys it asks only whether Redis is there."""
        with self._connected() as client:
            client.ping()
            for at in range(0, len(keys), LOOKED):
                pipe = client.pipeline(transaction=False)
                for key in keys[at : at + LOOKED]:
                    pipe.expire(key, self._seconds)
                pipe.execute()

    def keys(self, prefix: str) -> list[str]:
        """The keys that begin so."""
        with self._connected() as client:
            found = client.scan_iter(match=escaped(prefix), count=LOOKED)
            return [key.decode(errors="surrogateescape") for key in found]

    def settings(self) -> list[tuple[str, int, str]]:
        """Of each server its address, how much memory it may take, 0 for any, and what it does when it has no more."""
        with self._connected() as client:
            if not isinstance(client, RedisCluster):
                return [(address_of(self._url), *settings_of(client))]
            return [(node.name, *settings_of(client.get_redis_connection(node))) for node in client.get_primaries()]

    def close(self) -> None:
        """Ends the connections. Others are made when they are needed."""
        client, self._client = self._client, None
        with contextlib.suppress(exceptions.RedisError, OSError):
            if isinstance(client, RedisCluster):
                client.close()
            elif client:
                client.connection_pool.disconnect()

    @contextlib.contextmanager
    def _connected(self) -> Iterator[Connected]:
        """The client. One whose stream failed is dropped, for what is still to come on it answers nothing later."""
        try:
            client = self._client
            if client is None:
                client = self._connect()
                self._client = client
            yield client
        except Exception as fault:  # redis-py also has an IndexError of a Cluster that redirects without end
            # Redis has answered an error, unless that was to the first words of a connection.
            if isinstance(fault, exceptions.ResponseError) and self._client:
                raise Unkept(str(fault)) from None
            self.close()
            address, why = address_of(self._url), str(fault) or type(fault).__name__
            raise Unkept(why if address in why else f"{address}: {why}", is_reached=False) from None

    def _connect(self) -> Connected:
        """A client of the server, or of the Cluster to which it says that it belongs."""
        options = {} if urlsplit(self._url).password or not os.environ.get(PASSWORD) else {"password": os.environ[PASSWORD]}
        client = connect([self._url], False, **options)
        try:
            is_cluster = client.info("cluster").get("cluster_enabled")
        except exceptions.NoPermissionError:
            is_cluster = False
        if not is_cluster:
            return client
        client.connection_pool.disconnect()
        # Who asks the gateway waits meanwhile, and asks again anyhow.
        return connect([self._url], True, cluster_error_retry_attempts=1, **options)


def settings_of(server: redis.Redis[bytes]) -> tuple[int, str]:
    """How much memory a server may take, and its policy."""
    found = {**server.config_get("maxmemory"), **server.config_get("maxmemory-policy")}
    return int(found["maxmemory"]), str(found["maxmemory-policy"])

#!/usr/bin/env python3
"""A far store's servers, by a client in Python: stores.py PROGRAM

Microseconds of a put with its forget, and of a get, of 64 bytes and of 65,536, the median of many, with their digests taken by
the client: through `bpfagent store`, and through `bpfagent-redis` where redis-server is installed.
"""
from __future__ import annotations

import os
import pathlib
import shutil
import statistics
import sys
import time

ROOT = pathlib.Path(__file__).resolve().parent.parent
sys.path += [str(ROOT / "python"), str(ROOT / "tests")]
from bpfagent.far import Store
from lib.programs import Listener, redis_server

from rows import words

COUNTS = {64: 2000, 65_536: 300}


def times(port: int, length: int) -> tuple[float, float]:
    """The median of a put with its forget, and of a get."""
    store, content, puts, gets = Store(port), bytes(range(256)) * (length // 256 + 1), [], []
    for _ in range(COUNTS[length]):
        begin = time.perf_counter()
        number, digest = store.put(content[:length])
        middle = time.perf_counter()
        if store.get(number, digest) != content[:length]:
            sys.exit("the store gave other bytes")
        end = time.perf_counter()
        store.forget(number)
        puts.append(middle - begin + time.perf_counter() - end)
        gets.append(end - middle)
    store.stream.close()
    return statistics.median(puts) * 1e6, statistics.median(gets) * 1e6


def show(name: str, *command: str) -> None:
    with Listener(*command, env={**os.environ, "PYTHONPATH": str(ROOT / "python")}) as server:
        if not server.port:
            sys.exit(f"{command} doesn't listen")
        for length in COUNTS:
            put, get = times(server.port, length)
            print(f"{name}, {length:6} bytes: put and forget {put:7.0f} us, get {get:7.0f} us", flush=True)
        server.end()


def main() -> None:
    (program,) = words("stores.py PROGRAM", 1, 1)
    show("bpfagent store  ", program, "store")
    if not shutil.which("redis-server"):
        print("gateway to Redis: skipped, since redis-server isn't installed")
        return
    with redis_server() as port:
        show("gateway to Redis", sys.executable, "-m", "bpfagent.gateway", "--redis", f"127.0.0.1:{port}")


if __name__ == "__main__":
    main()

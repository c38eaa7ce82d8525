#!/usr/bin/env python3
"""A hash join of two objects: customers with their orders. Only the joined rows come back to the client."""
import struct

from bpfagent import Agent, address
from tasks import FUEL, SECONDS, code, run

ROW, JOINED = struct.Struct("<II"), struct.Struct("<III")
CUSTOMERS = [(number, 7 * number) for number in range(1, 501)]
ORDERS = [(150 * number, number) for number in range(1, 6)]


def table(rows: list[tuple[int, int]]) -> bytes:
    """The bytes of a table."""
    return b"".join(ROW.pack(*row) for row in rows)


def example(program: str) -> None:
    """The index has twice as many places as there are customers."""
    with Agent.run(program, timeout=SECONDS) as agent:
        left, right = agent.make_of(table(CUSTOMERS)), agent.make_of(table(ORDERS))
        index, joined = agent.make(2 * ROW.size * len(CUSTOMERS)), agent.make(JOINED.size * len(ORDERS))
        result = agent.run_until(agent.ship(code("hash_join"), FUEL, *map(address, (left, right, index, joined))))
        rows = agent.read(joined, JOINED.size * result.value)
        print(len(CUSTOMERS), "customers,", len(ORDERS), "orders,", result.value, "joined:")
        for row in JOINED.iter_unpack(rows):
            print("customer {}: {}, order {}".format(*row))


run(example)

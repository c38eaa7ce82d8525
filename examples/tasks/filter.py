#!/usr/bin/env python3
"""A filter over records: of 2,048 sales those above a price and before a day."""
import struct

from bpfagent import Agent, address
from tasks import FUEL, SECONDS, code, run

RECORD = struct.Struct("<IIQ")
COUNT, PRICE, DAY = 2048, 990, 40


def example(program: str) -> None:
    """A record has a number, a price and a day."""
    sales = [(n, n * 37 % 1000, n % 365) for n in range(COUNT)]
    with Agent.run(program, timeout=SECONDS) as agent:
        records, wanted = agent.make_of(b"".join(RECORD.pack(*sale) for sale in sales)), agent.make(RECORD.size * 64)
        result = agent.run_until(agent.ship(code("filter"), FUEL, address(records), address(wanted), PRICE, DAY))
        print(result.value, "of", COUNT, "records")
        for number, price, day in RECORD.iter_unpack(agent.read(wanted, RECORD.size * result.value)):
            print(f"sale {number}: {price}, day {day}")


run(example)

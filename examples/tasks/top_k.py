#!/usr/bin/env python3
"""The ten greatest of 1,024 numbers: 80 bytes come back instead of 8,192."""
import struct

from bpfagent import Agent, address
from tasks import FUEL, SECONDS, code, run

COUNT, K = 1024, 10


def example(program: str) -> None:
    """The numbers are the powers of 5 modulo a prime, in a mixed order."""
    numbers = [pow(5, n, 1_000_003) for n in range(1, COUNT + 1)]
    with Agent.run(program, timeout=SECONDS) as agent:
        held, best = agent.make_of(struct.pack(f"<{COUNT}Q", *numbers)), agent.make(8 * K)
        agent.run_until(agent.ship(code("top_k"), FUEL, address(held), address(best)))
        found = struct.unpack(f"<{K}Q", agent.read(best, 8 * K))
        print(*found)
        print("as sorted here:", list(found) == sorted(numbers, reverse=True)[:K])


run(example)

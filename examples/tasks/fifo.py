#!/usr/bin/env python3
"""A queue between two machines of a service: one puts 1,000 numbers into four places, while another takes them."""
from bpfagent import Service, address
from tasks import FUEL, SECONDS, code, run

COUNT, PLACES = 1000, 4


def example(program: str) -> None:
    """Both machines run at the same time, by two workers."""
    with Service(program, "--workers", "2", timeout=SECONDS) as service:
        queue = address(service.setup.make(16 + 8 * PLACES))
        puts = service.setup.ship(code("queue.put"), FUEL, queue, 1, COUNT)
        takes = service.setup.ship(code("queue.take"), FUEL, queue, COUNT)
        service.listen()
        with service.connect(SECONDS) as client:
            print("put", client.wait(puts).value)
            print("taken, with the sum", client.wait(takes).value)


run(example)

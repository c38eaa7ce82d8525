#!/usr/bin/env python3
"""A counter without a lock: eight machines of a service count a letter in 8 KiB, and the last one tells the whole count."""
from bpfagent import Service, address
from tasks import FUEL, SECONDS, code, run

MACHINES = 8
TEXT = (b"far memory, near code: where are the e's? everywhere here. " * 139)[:8192]


def example(program: str) -> None:
    """Each machine looks at every eighth byte, by four workers."""
    with Service(program, "--workers", "4", timeout=SECONDS) as service:
        tally, text = address(service.setup.make(16)), address(service.setup.make_of(TEXT))
        shipped = [service.setup.ship(code("tally"), FUEL, tally, text, ord("e"), share, MACHINES) for share in range(MACHINES)]
        service.listen()
        with service.connect(SECONDS) as client:
            found = [client.wait(machine).value for machine in shipped]
            emitted = [value for machine in shipped for value in client.out(machine)]
            print("each machine", *found)
            print("together", sum(found), "emitted", *emitted, "and there are", TEXT.count(b"e"))


run(example)

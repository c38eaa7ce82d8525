#!/usr/bin/env python3
"""Runs the client of docs/PROTOCOL.md, and looks at what its list says of replies and connections: client.py PROGRAM"""
from __future__ import annotations

import pathlib
import re
import socket
import sys
import tempfile

sys.path.insert(0, str(pathlib.Path(__file__).resolve().parents[1]))
from lib.checks import run_parts, want, want_equal
from lib.programs import Client, FileService, Service, patience, run, until
from lib.sources import ROOT

PAGE = ROOT / "docs/PROTOCOL.md"
SECONDS = 60
LONGEST = 8_199
LINES = {"put 1 0 0500000000000000": "ok", "leave 1": "asked 1", "get 1 0 8": "bytes 0500000000000000", "get 2 0 1": "outside"}


def show_client(program: str) -> None:
    """It has the replies of its lines, also of an object that has left."""
    (text,) = re.findall(r"(?ms)^```python\n(.*?)^```", PAGE.read_text())
    with tempfile.TemporaryDirectory(prefix="client-") as room, FileService(program, pathlib.Path(room, "agent.sock")) as service:
        path = pathlib.Path(room, "client.py")
        path.write_text(text)
        said = run(sys.executable, path, service.path, *LINES, seconds=SECONDS * patience(program))
        want_equal(said.splitlines(), [*LINES.values()], "the replies to the client of the page")


def is_refused(port: object) -> bool:
    try:
        socket.create_connection(("127.0.0.1", int(str(port))), timeout=SECONDS).close()
    except ConnectionRefusedError:
        return True
    return False


def show_limits(program: str) -> None:
    """The longest reply; and a ninth client is refused, also where the others have left."""
    with Service(program, "--connections", "8", setup=["make 4096"]) as service:
        clients = [Client(service) for _ in range(8)]
        want_equal(len(clients[0].ask("get 1 0 4096")) + 1, LONGEST, "bytes of the longest reply")
        for client in clients:
            want_equal(client.ask("bad line"), "bad", "each of eight clients")
        until("a ninth client is refused", lambda: is_refused(service.port))
        for client in clients[1:]:
            client.stream.shutdown(socket.SHUT_RDWR)
        want(is_refused(service.port), "a ninth client isn't refused after seven have left")
        for client in clients:
            client.stream.close()


if __name__ == "__main__":
    run_parts("client", [show_client, show_limits])

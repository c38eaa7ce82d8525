#!/usr/bin/env python3
"""Connects to what the units of deploy/ start, eight times a second, for a minute: connects.py PROGRAM

With a program of `make try` for some seconds. Half of those that connect say nothing and stay, and the others go at once. The front answers another
client all the time, and stays the process that it was. A service ends when its connections have ended; as often as that happens, its unit may start it
again.
"""
from __future__ import annotations

import contextlib
import os
import pathlib
import re
import shlex
import socket
import subprocess
import sys
import tempfile
import time
from typing import Iterator

sys.path.insert(0, str(pathlib.Path(__file__).resolve().parents[1]))
from lib import package
from lib.checks import run_parts, want, want_equal
from lib.programs import FileService, has_checks, patience, size_of, until
from lib.sources import ROOT

DEPLOY = ROOT / "deploy"
SETUP = "make 8\nput 1 0 2a\n"
# Where the service's unit listens.
AT = "/run/bpfagent/%i/agent.sock"
# How often somebody connects in a second; of how many one stays.
RATE, STAYS = 8, 2
# How long the front may take to answer, in seconds, also on a busy machine, and how much more memory it may have, in bytes.
ANSWER, MORE = 10.0, 64 << 20
# Hands a socket over as systemd does.
HANDS = """import os, sys
os.dup2(int(sys.argv[1]), 3)
os.environ.update(LISTEN_PID=str(os.getpid()), LISTEN_FDS="1")
os.execvp(sys.argv[2], sys.argv[2:])
"""


def seconds(program: str) -> int:
    """For how long somebody connects."""
    return 5 if has_checks(program) else 60


def field(unit: str, name: str) -> str:
    """What a unit says of this."""
    found = re.search(rf"(?m)^{name}=(.*)$", (DEPLOY / unit).read_text())
    want(found, f"{unit} has no {name}")
    return found[1]


def connects(path: str, count: int) -> Iterator[None]:
    """Connects so often, at the rate. Those that stay do so until the end."""
    with contextlib.ExitStack() as staying:
        start = time.monotonic()
        for number in range(count):
            made = socket.socket(socket.AF_UNIX)
            try:
                made.connect(path)
            except OSError:
                made.close()
            else:
                if number % STAYS:
                    staying.enter_context(made)
                else:
                    made.close()
            yield
            time.sleep(max(0.0, start + (number + 1) / RATE - time.monotonic()))


def show_front(program: str) -> str:
    """The command of the front's unit, with a socket that is handed to it."""
    with tempfile.TemporaryDirectory() as folder, socket.socket(socket.AF_UNIX) as listener:
        path, setup = f"{folder}/socket", pathlib.Path(folder) / "setup"
        setup.write_text(SETUP)
        listener.bind(path)
        listener.listen()
        command = field("bpfagent-front@.service", "ExecStart").replace("/etc/bpfagent/%i.setup", str(setup)).replace("$OPTIONS", "").replace("$AGENT", "")
        words = [{"/usr/local/bin/bpfagent": program, "/usr/local/bin/bpfagent-front": "bpfagent-front"}.get(word, word) for word in shlex.split(command)]
        hands = [sys.executable, "-c", HANDS, str(listener.fileno()), *words]
        with open(f"{folder}/errors", "wb") as errors:
            front = subprocess.Popen(hands, pass_fds=[listener.fileno()], env=package.environment(program), stdout=subprocess.PIPE, stderr=errors)
        try:
            assert front.stdout
            want_equal(front.stdout.readline(), f"listening {path}\n".encode(), "what the front says")
            before, slowest = size_of(front.pid, "VmRSS"), 0.0
            with socket.socket(socket.AF_UNIX) as client, client.makefile("r") as replies:
                client.connect(path)
                for _ in connects(path, RATE * seconds(program)):
                    start = time.monotonic()
                    client.sendall(b"get 1 0 1\n")
                    want_equal(replies.readline(), "bytes 2a\n", "a client beside those that connect")
                    slowest = max(slowest, time.monotonic() - start)
            want(slowest < ANSWER * patience(program), f"an answer took {slowest:.1f} s")
            want(front.poll() is None and size_of(front.pid, "VmRSS") - before < MORE, "the front ended, or has grown")
            want_equal(pathlib.Path(folder, "errors").read_text().count('"what": "an agent serves"'), 1, "agents of the front")
        finally:
            front.terminate()
            front.communicate(timeout=60)
    return f"{RATE * seconds(program)} connects, the slowest answer {1000 * slowest:.0f} ms"


def show_service(program: str) -> str:
    """The command of the service's unit, started again as systemd does."""
    pause, interval = (float(field("bpfagent@.service", name)) for name in ("RestartSec", "StartLimitIntervalSec"))
    burst = float(field("bpfagent@.service", "StartLimitBurst")) if interval else 0.0
    options = field("bpfagent@.service", "Environment").removeprefix("OPTIONS=").split()
    want_equal(field("bpfagent@.service", "ExecStart"), f"/usr/local/bin/bpfagent serve -v --unix {AT} $OPTIONS", "the service's command")
    starts: list[float] = []
    folder = tempfile.TemporaryDirectory()

    def started() -> FileService:
        starts.append(time.monotonic())
        return FileService(program, f"{folder.name}/agent.sock", *options, setup=SETUP)

    service = started()
    try:
        end = time.monotonic() + seconds(program)
        while time.monotonic() < end:
            for _ in connects(f"{folder.name}/agent.sock", RATE):
                pass
            until("a service whose connections have ended goes on", lambda: service.process.poll() is not None)
            service.process.communicate()
            time.sleep(pause)
            service = started()
        with service.connect() as client, client.makefile("r") as replies:
            client.sendall(b"get 1 0 1\n")
            want_equal(replies.readline(), "bytes 2a\n", "a service that was started again")
    finally:
        with service, folder:
            pass
    # A time of 0 means that there is no limit.
    want(not interval or interval / pause < burst, f"a pause of {pause} s lets clients have it started {burst:.0f} times in {interval:.0f} s")
    return f"{len(starts)} starts"


if __name__ == "__main__":
    run_parts("connects", [show_front, show_service])

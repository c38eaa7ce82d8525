"""Messages of an editor for the debugger."""
from __future__ import annotations

import json
import os
import pathlib
import random
import re
import threading
import time
from typing import Any, Sequence

from bpfagent.debug import dap
from bpfagent.debug.channel import NoMessage
from bpfagent.debug.ending import Ending
from bpfagent.commands import guarded
from bpfagent.replies import Broken

from hostile import frame
from hostile.changes import EDGES, HOSTILE, changed
from hostile.frame import CORPUS, HANGS, Answer, Forked
from hostile.objects import HELD, LINE, TABLE

FILE = "table.o"
# How long the editor waits before each of its messages, in seconds: machines run meanwhile.
REST = 0.01
# What an argument of another kind is.
TEXTS = ("", "0x", "*0", "table.c:99999", "1:2:3:4", "(" * 300, "-" * 3000, "a" * 5000, "0x" + "f" * 40)
OTHERS: Sequence[Any] = (None, True, [], {}, [1, [2, [3]]], {"a": {"b": []}}, 1.5, -1, 1e308, *TEXTS)


def messages_of(case: bytes) -> list[Any]:
    """The messages of a stored session."""
    return [json.loads(line) for line in case.splitlines()]


def framed(message: object, number: int) -> bytes:
    """A message as it is sent."""
    if isinstance(message, dict):
        message = {"seq": number, "type": "request", **message}
    content = json.dumps(message).encode()
    return b"Content-Length: %d\r\n\r\n" % len(content) + content


def places(message: Any) -> list[tuple[Any, Any]]:
    """All that a message holds: the list or object that has it, and its index or name."""
    found: list[tuple[Any, Any]] = []
    keys = list(message) if isinstance(message, dict) else list(range(len(message))) if isinstance(message, list) else []
    for key in keys:
        found += [(message, key), *places(message[key])]
    return found


def held_in(message: bytes) -> Any:
    """What a message has that is framed as it should be; None if it isn't."""
    found = re.fullmatch(rb"(?s)Content-Length: ([0-9]{1,6})\r\n\r\n(.*)", message)
    try:
        return json.loads(found[2]) if found and int(found[1]) == len(found[2]) else None
    except (ValueError, RecursionError):
        return None


def responses(said: int) -> int:
    """How many responses a file has."""
    return os.pread(said, os.fstat(said).st_size, 0).count(b'"type": "response"')


def say(case: bytes, writes: int, said: int) -> None:
    """Sends the messages. Each comes when the one before has its response, since the debugger looks ahead for the end of the session."""
    wanted, is_framed = 0, True
    for message in filter(None, re.split(rb"(?=Content-Length)", case)):
        os.write(writes, message)
        held = held_in(message)
        # Behind one that isn't framed nobody knows where the next begins.
        is_framed = is_framed and isinstance(held, dict)
        wanted += is_framed and held.get("type") == "request"
        end = time.monotonic() + HANGS
        while is_framed and responses(said) < wanted and time.monotonic() < end:
            time.sleep(REST / 10)
        time.sleep(REST)
    os.close(writes)


class Dap(Forked):
    """`bpfagent-debug --dap`."""

    name = "dap"
    is_shown, wait = False, frame.OTHERS

    def mutated(self, chance: random.Random, corpus: Sequence[bytes]) -> bytes:
        """A session whose messages have other values, are in another order, or aren't whole."""
        messages = messages_of(chance.choice(corpus))
        for _ in range(chance.choice((1, 2, 4))):
            at = chance.randrange(1, len(messages))
            roll = chance.random()
            if roll < 0.1:
                messages.pop(at)
            elif roll < 0.2:
                messages.insert(chance.randrange(len(messages)), messages[at])
            elif roll < 0.25:
                messages[at] = chance.choice(OTHERS)
            elif found := places(messages[at]):
                self._change(chance, *chance.choice(found))
        case = b"".join(framed(message, number) for number, message in enumerate(messages, 1))
        return changed(chance, case, corpus) if chance.random() < 0.1 else case

    @staticmethod
    def _change(chance: random.Random, held: Any, key: Any) -> None:
        before, roll = held[key], chance.random()
        if roll < 0.15:
            del held[key]
        elif isinstance(before, str) and roll < 0.5:
            at = chance.randrange(len(before) + 1)
            held[key] = before[:at] + chance.choice(HOSTILE).decode("latin-1") + before[at:]
        elif isinstance(before, int) and roll < 0.7:
            held[key] = chance.choice((*EDGES, -1, -(1 << 63), 10**40, before + 1, before - 1))
        else:
            held[key] = chance.choice(OTHERS)

    def show(self, case: bytes) -> None:
        """A session in which one message after another comes."""
        os.chdir(self.folder)
        pathlib.Path(FILE).write_bytes((CORPUS / "dwarf" / FILE).read_bytes())
        pathlib.Path(TABLE).write_bytes(HELD)
        os.environ["BPFAGENT"] = self.program
        reads, writes = os.pipe()
        os.dup2(reads, 0)
        if b"Content-Length" not in case:
            case = b"".join(framed(message, number) for number, message in enumerate(messages_of(case), 1))
        threading.Thread(target=say, args=(case, writes, os.dup(1)), daemon=True).start()
        guarded("bpfagent-debug", lambda: dap.serve(Ending()), NoMessage, Broken)

    def refused(self, case: bytes, answer: Answer) -> str:
        """Messages come, and at most a line of errors."""
        errors = answer.errors.decode(errors="backslashreplace")
        if answer.status not in (0, 1) or errors and not LINE.fullmatch(errors):
            return f"status {answer.status}, {errors[:1000]!r}"
        said = answer.output
        while said:
            head, _, rest = said.partition(b"\r\n\r\n")
            length = int(head.removeprefix(b"Content-Length: "))
            try:
                json.loads(rest[:length])
            except ValueError:
                return f"no message: {said[:200]!r}"
            said = rest[length:]
        return ""

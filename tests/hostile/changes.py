"""Random changes of bytes."""
from __future__ import annotations

import random
import re
from typing import Callable, Sequence

# Numbers at which something changes, and what a terminal would take for a command.
EDGES = (0, 1, 2, 7, 8, 127, 128, 255, 256, 4095, 4096, 65535, 65536, (1 << 31) - 1, 1 << 31, (1 << 32) - 1, 1 << 32, (1 << 63) - 1, 1 << 63, (1 << 64) - 1)
HOSTILE = (b"\x1b[2J", b"\x1b]0;title\x07", b"\x9b3m", b"\xc2\x9b3m", b"\x00", b"\r\n", b"\n", b"\xff\xfe", b"\xe2\x80\xae", b"%s%n", b"../..", b"\x08\x7f")
NUMBER = re.compile(rb"-?[0-9]+")
# How long an insertion is that repeats a byte, and how many bytes an input has at most.
RUNS, MOST = (1, 8, 64, 5000, 100_000), 1 << 20

Change = Callable[[random.Random, bytearray, int, int], None]


def edge(chance: random.Random, content: bytearray, low: int, high: int) -> None:
    """A number of some bytes becomes one at which something changes, or one beside what it was."""
    size = chance.choice((1, 2, 4, 8))
    at = chance.randrange(low, max(high - size, low) + 1)
    before = int.from_bytes(content[at : at + size], "little")
    after = chance.choice(EDGES) if chance.random() < 0.6 else before + chance.choice((-8, -1, 1, 8))
    content[at : at + size] = (after % (1 << (8 * size))).to_bytes(size, "little")[: len(content) - at]


def bits(chance: random.Random, content: bytearray, low: int, high: int) -> None:
    """A bit is turned, or a byte becomes another."""
    at = chance.randrange(low, high)
    content[at] = content[at] ^ 1 << chance.randrange(8) if chance.random() < 0.5 else chance.randrange(256)


def text(chance: random.Random, content: bytearray, low: int, high: int) -> None:
    """Bytes are overwritten by what a terminal would take for a command."""
    at, hostile = chance.randrange(low, high), chance.choice(HOSTILE)
    content[at : min(at + len(hostile), high)] = hostile[: max(min(len(hostile), high - at), 0)]


def copied(chance: random.Random, content: bytearray, low: int, high: int) -> None:
    """Bytes are overwritten by others of the same input."""
    size = min(chance.choice((1, 4, 16, 24, 64)), high - low)
    source, at = chance.randrange(low, high - size + 1), chance.randrange(low, high - size + 1)
    content[at : at + size] = content[source : source + size]


IN_PLACE: Sequence[Change] = (edge, edge, bits, bits, text, copied)


def changed_in_place(chance: random.Random, content: bytes, spans: Sequence[tuple[int, int]]) -> bytes:
    """An input of the same length, with changes within these spans of it."""
    made = bytearray(content)
    there = [span for span in spans if span[0] < span[1] <= len(made)]
    for _ in range(chance.choice((1, 1, 2, 3, 8)) if there else 0):
        chance.choice(IN_PLACE)(chance, made, *chance.choice(there))
    return bytes(made)


def changed(chance: random.Random, content: bytes, others: Sequence[bytes] = ()) -> bytes:
    """An input with pieces taken out, repeated, put in, or taken from another."""
    made = bytes(content)
    for _ in range(chance.choice((1, 1, 2, 3))):
        at = chance.randrange(len(made) + 1)
        end = min(len(made), at + chance.choice((1, 2, 8, 64, 1024)))
        roll = chance.random()
        if roll < 0.2:
            made = made[:at] + made[end:]
        elif roll < 0.35:
            made = made[:at] + made[at:end] * chance.choice((2, 3, 50)) + made[end:]
        elif roll < 0.5:
            made = made[:at] + chance.choice(HOSTILE) + made[chance.choice((at, end)) :]
        elif roll < 0.6:
            made = made[:at] + bytes([chance.randrange(256)]) * chance.choice(RUNS) + made[at:]
        elif roll < 0.65:
            made = made[:at]
        elif roll < 0.75 and others:
            other = chance.choice(list(others))
            start = chance.randrange(len(other) + 1)
            made = made[:at] + other[start : start + chance.choice((16, 256, 4096))] + made[at:]
        elif roll < 0.9 and (numbers := list(NUMBER.finditer(made))):
            number = chance.choice(numbers)
            made = made[: number.start()] + str(chance.choice((*EDGES, -1, 10**30))).encode() + made[number.end() :]
        elif made:
            made = changed_in_place(chance, made, [(0, len(made))])
    return made[:MOST]

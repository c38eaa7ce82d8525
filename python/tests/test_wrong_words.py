"""Wrong values of calls, which are told in words before anything is sent; and why a line is `bad`, beside what the program answers."""
from __future__ import annotations

import itertools
import subprocess
import unittest
from typing import Any, Callable, Iterator
from unittest import mock

from bpfagent import Agent, Engine
from bpfagent.library import library_if_there
from bpfagent.protocol import commands, help_of, why_bad
from support import PROGRAM, SECONDS, methods_taking

from product import protocol as listed

EXIT = bytes.fromhex("9500000000000000")
LENGTH, NUMBER, MACHINE = "a length is from 1 to 65536, and not", "an object's number is from 1 to 1024, and not", "a machine's number is from 1 to 48, and not"
# Calls of an agent in another process or in this one: what they raise, and its words.
MISUSES: list[tuple[Callable[[Any], object], type[Exception], str]] = [
    (lambda agent: agent.make(0), ValueError, f"{LENGTH} 0"),
    (lambda agent: agent.make(65537), ValueError, f"{LENGTH} 65537"),
    (lambda agent: agent.make("8"), TypeError, "a length is a whole number, and not a value of type str"),
    (lambda agent: agent.make(8.0), TypeError, "a length is a whole number, and not a value of type float"),
    (lambda agent: agent.make(None), TypeError, "a length is a whole number, and not None"),
    (lambda agent: agent.put(1, 0, "text"), TypeError, "the content is bytes, and not a value of type str: encode it first"),
    (lambda agent: agent.put(1, 0, [1, 2]), TypeError, "the content is bytes, and not a value of type list"),
    (lambda agent: agent.put(0, 0, b"1"), ValueError, f"{NUMBER} 0"),
    (lambda agent: agent.put(1, -1, b"1"), ValueError, "an offset is from 0 to 65535, and not -1"),
    (lambda agent: agent.get(1025, 0, 1), ValueError, f"{NUMBER} 1025"),
    (lambda agent: agent.get(1, "0", 1), TypeError, "an offset is a whole number, and not a value of type str"),
    (lambda agent: agent.write(1, "text"), TypeError, "the content is bytes, and not a value of type str: encode it first"),
    (lambda agent: agent.read(1, -1), ValueError, "a length is from 0 to 65536, and not -1"),
    (lambda agent: agent.read(1, "8"), TypeError, "a length is a whole number, and not a value of type str"),
    (lambda agent: agent.make_of("text"), TypeError, "the content is bytes, and not a value of type str: encode it first"),
    (lambda agent: agent.make_of(b""), ValueError, f"{LENGTH} 0"),
    (lambda agent: agent.free("1"), TypeError, "an object's number is a whole number, and not a value of type str"),
    *[(lambda agent, name=name: getattr(agent, name)(0), ValueError, f"{NUMBER} 0") for name in methods_taking("n")],
    *[(lambda agent, name=name: getattr(agent, name)(49), ValueError, f"{MACHINE} 49") for name in (*methods_taking("m"), "run_until")],
    (lambda agent: agent.step(-1), ValueError, f"{MACHINE} -1"),
    (lambda agent: agent.line(1, 4096), ValueError, "a slot is from 0 to 4095, and not 4096"),
    (lambda agent: agent.break_(1, -1), ValueError, "a slot is from 0 to 4095, and not -1"),
    (lambda agent: agent.unbreak(1, None), TypeError, "a slot is a whole number, and not None"),
    (lambda agent: agent.watch(1, 1 << 64, 1), ValueError, f"an address is from 0 to {2**64 - 1}, and not {2**64}"),
    (lambda agent: agent.unwatch(1, 0, 4097), ValueError, "a length is from 1 to 4096, and not 4097"),
    (lambda agent: agent.stack(1, 4096, 1), ValueError, "an offset in the stack is from 0 to 4095, and not 4096"),
    (lambda agent: agent.ship("95", 1), TypeError, "the content is bytes, and not a value of type str: encode it first"),
    (lambda agent: agent.ship(b"", 1), ValueError, "a program has at least one instruction, and this code is empty"),
    (
        lambda agent: agent.ship(bytes(40_000), 1),
        ValueError,
        "code of 40000 bytes makes a line of 80017, and a line has up to 70000: a program has up to 4096 slots",
    ),
    (lambda agent: agent.ship(EXIT, 1 << 64), ValueError, f"the fuel is from 0 to {2**64 - 1}, and not {2**64}"),
    (lambda agent: agent.ship(EXIT, 1, 2, -3), ValueError, f"argument 2 is from 0 to {2**64 - 1}, and not -3"),
    (lambda agent: agent.ship(EXIT, 1, "2"), TypeError, "argument 1 is a whole number, and not a value of type str"),
    (lambda agent: agent.ship(EXIT, 1, 1, 2, 3, 4, 5, 6), ValueError, "a program takes 5 arguments, and not 6"),
    (lambda agent: agent.ship2(EXIT, 1, {1: "x"}), ValueError, "a grant is 'r' or 'w', and not 'x'"),
    (lambda agent: agent.ship2(EXIT, 1, {0: "r"}), ValueError, f"{NUMBER} 0"),
    (lambda agent: agent.ship2(EXIT, 1, dict.fromkeys(range(1, 18), "r")), ValueError, "a machine has up to 16 grants, and not 17"),
    (lambda agent: agent.ship2(EXIT, 1, "r1"), TypeError, "grants are a mapping of objects' numbers to 'r' or 'w', and not a value of type str"),
]
# The limits of one `put` and one `get` are those of a line, and an agent in this process has no lines.
OF_LINES: list[tuple[Callable[[Any], object], str]] = [
    (lambda agent: agent.put(1, 0, b""), "one put takes 1 to 4096 bytes, and not 0"),
    (lambda agent: agent.put(1, 0, bytes(4097)), "one put takes 1 to 4096 bytes, and not 4097"),
    (lambda agent: agent.get(1, 0, 4097), "a length is from 1 to 4096, and not 4097"),
]
# What fits for each word of the synopsis, and words that don't fit somewhere.
FITTING = {
    **dict.fromkeys(("n", "m", "LENGTH"), ["1"]), **dict.fromkeys(("OFFSET", "SLOT", *listed.START), ["0"]),
    "ADDRESS": ["0x100000000"], "BYTES": ["00"], "CODE": ["95"], "G ..": ["r1", "w2"],
}  # fmt: skip
ODD = [
    "", "0", "1", "48", "49", "1024", "1025", "4095", "4096", "4097", "65535", "65536", "65537", str(2**64 - 1), str(2**64), "9" * 30, "00",
    "01", "+1", "-1", "x", "ff", "0x", "0X1", "0x0A", "0x" + "f" * 16, "0x" + "0" * 17, "1\r", "1\t", "é", "1.0", "abc", "zz", "AAff", "0x00",
    "00" * 4096, "00" * 4097, "r1", "w1", "w1024", "r1025", "r0", "r01", "r0x3", "r", "x1", "R1",
]
# What is said of a line, by its beginning or its end.
WHY = {
    "": "the line is empty",
    "mkae 8": "there is no command `mkae`: did you mean make?",
    "MAKE 8": "there is no command `MAKE`: did you mean make?",
    "?": "there is no command `?`",
    "make": "make LENGTH: LENGTH is missing",
    "put 1": "put n OFFSET BYTES: OFFSET and BYTES are missing",
    "make 8 9": "make LENGTH: `9` is one word too many",
    "make 0": "make LENGTH: LENGTH is `0`, and has to be from 1 to 65536",
    "put 1 70000 00": "put n OFFSET BYTES: OFFSET is `70000`, and has to be from 0 to 65535",
    "put 1 0 abc": "put n OFFSET BYTES: BYTES has 3 hex digits, and a byte has two",
    "put 1 0 0x00": "put n OFFSET BYTES: BYTES begins with 0x, and bytes are hex digits alone",
    "put 1 0 0g": "put n OFFSET BYTES: BYTES has `g`, which is no hex digit",
    f"put 1 0 {'00' * 4097}": "put n OFFSET BYTES: BYTES has 4097 bytes, and up to 4096 fit",
    "regs 01": "regs m: m is `01`, and a number has no leading zeros",
    "step +1": "step m: m is `+1`, and a number has no sign; m is from 1 to 48",
    "step x": "step m: m is `x`, and no number: m is from 1 to 48, in decimal or in hex behind 0x",
    "step 0X1": "step m: m is `0X1`, and the x of a number in hex is small",
    "step\t1": "the line has a tab, and one space separates two words",
    "step  1": "two spaces stand together, and one space separates two words",
    " step 1": "the line begins with a space",
    "step 1 ": "the line ends with a space",
    "step 1\r": "the line ends with CR and LF, and a line ends with LF alone",
    "ship2 0 0 0 0 0 0 95 r2 r1": "ship2 FUEL A1 A2 A3 A4 A5 CODE G ..: the numbers of grants rise, and 1 doesn't come after 2",
    "ship2 0 0 0 0 0 0 95 1": "ship2 FUEL A1 A2 A3 A4 A5 CODE G ..: G is `1`, and a grant is r or w and an object's number, as in r1",
    "\x1b[2J": "there is no command `\\x1b[2J`",
    "x" * 70_001: "the line has 70001 bytes, and a line has up to 70000",
}


def fitting() -> dict[str, list[str]]:
    """Words of a line of each command that the program lists, since `why_bad` reads the commands from the page itself."""
    return {command.name: [fits for word in command.words for fits in FITTING[word]] for command in listed.commands(PROGRAM)}


def wrong_lines() -> Iterator[str]:
    """Lines of each command with each of its words replaced, left out or doubled, and with other spaces."""
    for name, words in fitting().items():
        for at, odd in itertools.product(range(len(words)), ODD):
            yield " ".join([name, *words[:at], odd, *words[at + 1 :]])
        for count in range(len(words) + 1):
            yield " ".join([name, *words[:count]])
        yield from (" ".join([name, *words, odd]) for odd in ODD)
        yield from (f" {name} {words[0]}", f"{name.upper()} 1", f"{name}x 1")
    yield " ".join(["ship2", *["0"] * 6, "95", *[f"r{number}" for number in range(1, 18)]])
    yield from (line for line in WHY if "\n" not in line)


class Calls(unittest.TestCase):
    """A wrong value of a call."""

    def want_refused(self, agent: object, call: Callable[[Any], object], kind: type[Exception], why: str) -> None:
        """The call raises this, with these words."""
        with self.assertRaises(kind, msg=why) as raised:
            call(agent)
        self.assertEqual(str(raised.exception), why)

    @unittest.skipUnless(PROGRAM, "needs BPFAGENT")
    def test_agent(self) -> None:
        """Nothing is sent, and the conversation goes on."""
        with Agent.run(PROGRAM, timeout=SECONDS) as agent:
            with mock.patch.object(agent, "_stream", None):
                for call, kind, why in MISUSES:
                    self.want_refused(agent, call, kind, why)
                for call, why in OF_LINES:
                    self.want_refused(agent, call, ValueError, why)
            self.assertEqual(agent.make_of(bytearray(b"12")), 1)
            agent.put(1, 0, memoryview(b"34"))
            self.assertEqual(agent.read(1, 2), b"34")

    @unittest.skipUnless(library_if_there(), "needs the library of `make lib`: BPFAGENT_LIBRARY names it")
    def test_engine(self) -> None:
        """The same in this process."""
        with Engine() as engine:
            for call, kind, why in MISUSES:
                self.want_refused(engine, call, kind, why)
            self.want_refused(engine, lambda it: it.objects("nowhere"), ValueError, "a place is here, leaving, far, returning, and not 'nowhere'")
            self.want_refused(engine, lambda it: it.assemble(b"exit"), TypeError, "assembly is a text, and not a value of type bytes")


class Lines(unittest.TestCase):
    """A line that is `bad`."""

    @unittest.skipUnless(PROGRAM, "needs BPFAGENT")
    def test_lines(self) -> None:
        """There is a line of each command."""
        self.assertEqual({*fitting()}, {*commands()})

    def test_why(self) -> None:
        """Which word is wrong, and what would fit."""
        for line, why in WHY.items():
            self.assertEqual(why_bad(line), why)

    @unittest.skipUnless(PROGRAM, "needs BPFAGENT")
    def test_program(self) -> None:
        """Something is said of exactly those lines that the program answers `bad`."""
        lines = list(dict.fromkeys(wrong_lines()))
        given = "".join(f"{line}\n" for line in lines).encode()
        done = subprocess.run([PROGRAM, "run"], input=given, stdout=subprocess.PIPE, timeout=SECONDS, check=True)
        replies = done.stdout.decode().splitlines()
        self.assertEqual(len(replies), len(lines))
        for line, reply in zip(lines, replies):
            self.assertEqual(bool(why_bad(line)), reply == "bad", f"{line[:80]!r} is answered {reply!r}, and {why_bad(line)!r} is said")

    def test_help(self) -> None:
        """Each command has its form, its replies, and what the page says, in lines of this width."""
        for name, command in commands().items():
            lines = help_of(name, 80)
            self.assertEqual(lines[0], command.form)
            self.assertTrue(lines[1].startswith(f"> {command.replies[0]}") and len(lines) > 4, lines)
            self.assertEqual([line for line in lines if len(line) > 80 and not line.startswith("    ") or "`" in line or "](" in line], [])


if __name__ == "__main__":
    unittest.main()

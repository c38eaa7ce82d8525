#!/usr/bin/env python3
"""Makes `crates/script_runner/data/grants_vectors.script`: conversations in which machines are granted some of the objects.

As in `make_vectors.py`, the replies come from the agent in Python. `make vectors` compares the output with the file that
the repository holds.
"""
import itertools

from make_vectors import EXIT_SLOT, slot, wide  # this has to come first: it says where the interpreter is
from make_moves_vectors import Chat, Talk, add_chats
from instructions import ATOMIC, CLASS_LDX, CLASS_ST, CLASS_STX, CMPXCHG, FETCH, MEM, MEMSX, XCHG, access
from interpreter import STACK

LENGTH = slot(0x85, 0, 0, 0, 1)
MOST = 16
# A row of each kind of access by R1, with its least alignment.
ROWS = [
    *[(slot(access(CLASS_LDX, MEM, size), 6, 1), 1) for size in (1, 2, 4, 8)],
    *[(slot(access(CLASS_LDX, MEMSX, size), 6, 1), 1) for size in (1, 2, 4)],
    *[(slot(access(CLASS_ST, MEM, size), 1, 0, 0, 5), 1) for size in (1, 8)],
    *[(slot(access(CLASS_STX, MEM, size), 1, 2), 1) for size in (2, 4)],
    *[(slot(access(CLASS_STX, ATOMIC, 8), 1, 2, 0, imm), 8) for imm in (0x00, 0x40 | FETCH, XCHG)],
    *[(slot(access(CLASS_STX, ATOMIC, size), 1, 2, 0, CMPXCHG), size) for size in (4, 8)],
]
# What brings an object of 8 bytes to each place, and to none.
PLACES = {
    "here": [],
    "leaving": ["leave 1"],
    "far": ["leave 1", "left 1"],
    "returning": ["leave 1", "left 1", "return 1"],
    "freed": ["free 1"],
}


def words(grants):
    """A word for each object, by its number."""
    return [("w" if writes else "r") + str(n) for n, writes in sorted(grants.items())]


def add_kinds(script):
    script.note("each kind of access, to objects in each place and to none, without a grant, to read, to write")
    for row, least in ROWS:
        for moves, grants in itertools.product(PLACES.values(), (["r2"], ["r1"], ["w1"])):
            script.begin()
            script.tell_all("make 8", "make 8", "put 1 0 0102030405060708", *moves)
            for offset in (0, 1, 8, 8 - least):
                machine = script.ship(row + EXIT_SLOT, [(1 << 32) + offset, 9], 10, grants)
                script.tell_all(f"step {machine}", f"step {machine}", f"step {machine}")
            script.tell_all("get 1 0 8", "regs 1")


def add_exchanges(script):
    script.note("a compare-exchange that would write nothing has to be granted for writing, as one that would")
    for size, grants, r0 in itertools.product((4, 8), ([], ["r1"], ["w1"]), (0, 7)):
        script.begin()
        script.tell_all("make 8", "put 1 0 0700000000000000")
        code = wide(0, r0) + slot(access(CLASS_STX, ATOMIC, size), 1, 2, 0, CMPXCHG) + EXIT_SLOT
        machine = script.ship(code, [1 << 32, 9], 10, grants)
        script.tell_all(*[f"step {machine}"] * 3, "get 1 0 8", f"regs {machine}", "leave 1")


def add_lengths(script):
    script.note("helper 1 tells the length of what is granted, wherever it is, and 0 of everything else")
    for moves, grants in itertools.product(PLACES.values(), ([], ["r2"], ["r1"], ["w1"], ["r1", "w2", "r1024"])):
        script.begin()
        script.tell_all("make 9", "make 65536", *moves)
        for number in (0, 1, 2, 3, 1024, 1025, STACK, (1 << 32) + 1):
            machine = script.ship(LENGTH + EXIT_SLOT, [number], 10, grants)
            script.tell_all(f"step {machine}", f"step {machine}")


def add_numbers(script):
    script.note("numbers that no object has need no grant, and the stack none; all others do")
    for grants in ([], ["r1", "r1024"], ["w1", "w1024"]):
        script.begin()
        script.tell_all(*["make 8"] * 2)
        rows = [slot(access(CLASS_LDX, MEM, 1), 0, 1), slot(access(CLASS_ST, MEM, 1), 1, 0, 0, 3), slot(access(CLASS_STX, ATOMIC, 8), 1, 2)]
        for row, number in itertools.product(rows, (0, 1, 2, 3, 1023, 1024, 1025, 1 << 31, STACK - 1, STACK)):
            machine = script.ship(row + EXIT_SLOT, [number << 32], 10, grants)
            if machine is not None:
                script.tell_all(f"step {machine}", f"step {machine}")
        script.tell_all("get 1 0 8", "get 2 0 8", "regs 1", "regs 30")


def add_words(script):
    script.note("which words may come after the code, and which lines they make bad")
    script.begin()
    rising = [f"r{n}" for n in range(1, MOST + 2)]
    good = [[], ["r1"], ["w1"], ["r1", "w2"], ["r1024"], ["w1024"], ["r0x1", "w0x02", "r0x400"], rising[:MOST], [*rising[: MOST - 1], "w1024"]]
    bad = [
        rising, ["r1", "w1"], ["w1", "r1"], ["r1", "r1"], ["r2", "r1"], ["r1", "r3", "r2"], ["r0"], ["r1025"], ["w0"], ["w1025"], ["r"],
        ["w"], ["1"], ["x1"], ["R1"], ["W1"], ["r01"], ["r+1"], ["r-1"], ["r0x"], ["r0X1"], ["r0x00000000000000001"], ["rw1"], ["wr1"],
        ["r1,r2"], [""], ["r1", ""], ["", "r1"], ["r 1"], ["r1\t"], ["r18446744073709551616"], ["r4294967297"], ["r0x100000001"],
    ]
    for grants in good + bad:
        script.ship(EXIT_SLOT, [], 1, grants)
    for line in ("ship2", "ship2 1 0 0 0 0 0", "ship2 1 0 0 0 0 0 ", f"ship2 1 0 0 0 0 {EXIT_SLOT.hex()}", f"ship2 1 0 0 0 0 0 0 {EXIT_SLOT.hex()}"):
        script.tell(line)
    for code in ("9", "950000000000000g", "95 r1", "95", "9500000000000000 r1 r1", "0500000000000000 r1", "0500000000000000 r1 r1"):
        script.tell(f"ship2 1 0 0 0 0 0 {code}")
    script.tell(f"ship 1 0 0 0 0 0 {EXIT_SLOT.hex()} r1")
    script.note("refusals come in their order, and a line that is bad is bad before them")
    for _ in range(48):
        script.ship(EXIT_SLOT, [], 1, ["w3"])
    script.tell_all("ship2 1 0 0 0 0 0 95 r1", "ship2 1 0 0 0 0 0 95 r2 r1", "step 48", "step 48")


def add_rows_of_others(script):
    script.note("machines with the same code and other grants, and one that is granted everything")
    script.begin()
    script.tell_all("make 8", "make 8")
    code = slot(access(CLASS_LDX, MEM, 1), 0, 1) + slot(access(CLASS_STX, MEM, 1), 2, 1) + EXIT_SLOT
    shipped = [script.ship(code, [1 << 32, 2 << 32], 10, grants) for grants in (["r1", "w2"], ["r1", "r2"], ["w1"], ["w2"], None)]
    for machine in [m for _ in range(4) for m in shipped]:
        script.tell(f"step {machine}")
    script.tell_all("get 1 0 8", "get 2 0 8")


class GrantedChat(Chat):
    """A random conversation, in which most machines are granted some of the objects."""

    def arguments(self, numbers):
        """A program that measures what R1 is has to have a number there."""
        found = super().arguments(numbers)
        return [numbers[0] + 1, *found[1:]] if self.chooser.random() < 0.15 else found

    def grants(self):
        """Most of the objects, most of them for writing; sometimes all of them, or some that aren't there."""
        if self.chooser.random() < 0.08:
            return None
        share, writes = self.chooser.choice([0.5, 0.8, 0.9, 1]), self.chooser.choice([0.3, 0.8, 0.95])
        granted = {n: self.chooser.random() < writes for n in range(1, len(self.lengths) + 1) if self.chooser.random() < share}
        others = self.chooser.choice([0, 0, 0, 1, 5])
        granted.update({n: self.chooser.random() < 0.5 for n in self.chooser.sample(range(len(self.lengths) + 1, 1025), others)})
        return words(dict(sorted(granted.items())[:MOST]))


def add_random(script):
    script.note("grants at random, while objects move and machines are debugged")
    add_chats(script, GrantedChat, 14, 120, 45)


if __name__ == "__main__":
    Talk().write_as(__file__, [add_kinds, add_exchanges, add_lengths, add_numbers, add_words, add_rows_of_others, add_random])

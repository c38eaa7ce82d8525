#!/usr/bin/env python3
"""Makes `crates/script_runner/data/moves_vectors.script`: conversations in which objects move and machines are debugged.

As in `make_vectors.py`, the replies come from the agent in Python. `make vectors` compares the output with the file that
the repository holds.
"""
import random

from make_vectors import EXIT_SLOT, Script, agent_of, slot, wide  # this has to come first: it says where the interpreter is
from instructions import ARITHMETIC, ATOMIC, ATOMICS, CLASS_ALU64, CLASS_LDX, CLASS_ST, CLASS_STX, CMPXCHG, MEM, REGISTER, access
from interpreter import STACK

LOAD_BYTE = slot(access(CLASS_LDX, MEM, 1), 0, 1)
CLOSE = slot(0x85, 0, 0, 0, 4)
LONG, ALL = 65536, 67108864


class Talk(Script):
    """A script whose conversations may have a budget."""

    def begin(self, budget=None):
        self.lines.append("---" if budget is None else f"--- --budget {budget}")
        self.agent = agent_of(self.lines[-1])

    def tell_all(self, *commands):
        for command in commands:
            self.tell(command)


def add_holders(script):
    script.note("48 machines hold one object; it leaves when the last of them has closed its scope")
    script.begin()
    script.tell("make 8")
    for _ in range(48):
        script.ship(LOAD_BYTE + CLOSE + EXIT_SLOT, [1 << 32])
    for machine in range(1, 49):
        script.tell_all(f"step {machine}", "leave 1")
    for machine in range(1, 49):
        # Every third by its end, the others by the helper.
        script.tell(f"step {machine}")
        if machine % 3 == 0:
            script.tell(f"step {machine}")
        script.tell("leave 1")
    for machine in (1, 2, 4, 47):
        script.tell(f"step {machine}")
    script.tell_all("left 1", "return 1", "returned 1", "get 1 0 8")


def add_budgets(script):
    script.note("budgets of four long objects, of a byte less, and of as many bytes as there can be")
    for budget in (4 * LONG, 4 * LONG - 1, ALL - 1, ALL):
        script.begin(budget)
        script.tell_all(*[f"make {LONG}"] * 5)
        script.tell_all(f"make {LONG - 1}", "make 1", "free 3", f"make {LONG}", "leave 1", f"make {LONG}", "left 1", f"make {LONG}")
        script.tell_all("return 1", "free 2", "return 1", "make 1", "returned 1", f"get 1 {LONG - 1} 1", "put 1 0 01")
    script.note("the last object that can be made, and no more of them, however much room there is")
    script.begin(1023)
    script.tell_all(*["make 1"] * 1024)
    script.tell_all("free 7", "make 2", "make 1", "make 1", "free 8", "make 1", "leave 9", "left 9", "return 9", "returned 9")


def window_rows(chooser, count):
    """Loads and compare-exchanges by R1 to R7, which are the addresses of objects, loads from the stack, and helper 4."""
    rows, load = [], access(CLASS_LDX, MEM, 1)
    for _ in range(count):
        base = chooser.randrange(1, 8)
        exchange = slot(access(CLASS_STX, ATOMIC, 8), base, 8, 0, CMPXCHG)
        rows.append(chooser.choice([slot(load, 9, base)] * 4 + [exchange, exchange, slot(load, 9, 10, -1), CLOSE]))
    return b"".join(rows)


def add_windows(script):
    script.note("one machine and seven objects: which of them may leave after each instruction")
    chooser = random.Random(4)
    for _ in range(12):
        script.begin()
        script.tell_all(*["make 8"] * 7)
        code = wide(6, 6 << 32) + wide(7, 7 << 32) + slot(0xB7, 0, 0, 0, 1) + window_rows(chooser, 20) + EXIT_SLOT
        machine = script.ship(code, [n << 32 for n in range(1, 6)])
        for _ in range(24):
            script.tell(f"step {machine}")
            for n in chooser.sample(range(1, 8), 2):
                if script.tell(f"leave {n}").startswith("leaving"):
                    script.tell_all(f"left {n}", f"return {n}", f"returned {n}")


def object_row(chooser, lengths):
    """An access by R1 to R5, which are the addresses of objects, or by R10; most of the time inside."""
    base = chooser.choice([1, 1, 2, 2, 3, 3, 4, 4, 5, 5, 10])
    length = 24 if base == 10 else lengths[base - 1]
    size = chooser.choice([1, 2, 4, 8])
    kind, other = chooser.random(), chooser.choice([0, 0, 6, 7, 8, 9])
    if kind > 0.55:
        size = max(size, 4)
    offset = chooser.randrange(max(1, length // size)) * size
    if chooser.random() < 0.006:
        offset += chooser.choice([1, length])
    if base == 10:
        offset -= 24
    if kind < 0.22:
        return slot(access(CLASS_LDX, MEM, size), other, base, offset)
    if kind < 0.42:
        return slot(access(CLASS_ST, MEM, size), base, 0, offset, chooser.choice([0, 1, -1, 7]))
    if kind < 0.55:
        return slot(access(CLASS_STX, MEM, size), base, other, offset)
    return slot(access(CLASS_STX, ATOMIC, size), base, other, offset, chooser.choice([*ATOMICS, *[CMPXCHG] * 4]))


def moving_program(chooser, lengths):
    """Accesses, most of the time in a loop."""
    body, closes = b"", chooser.choice([0.01, 0.04, 0.1])
    for _ in range(chooser.randrange(3, 14)):
        kind = chooser.random()
        if kind < 0.75:
            body += object_row(chooser, lengths)
        elif kind < 0.75 + closes:
            body += CLOSE
        elif kind < 0.9:
            body += slot(0x85, 0, 0, 0, chooser.choice([1, 2, 3]))
        else:
            dst, src = chooser.choices([0, 6, 7, 8, 9], k=2)
            body += slot(chooser.choice(list(ARITHMETIC)) << 4 | REGISTER | CLASS_ALU64, dst, src)
    return body + (EXIT_SLOT if chooser.random() < 0.4 else slot(0x05, offset=-1 - len(body) // 8))


class Chat:
    """A random conversation about some objects and machines."""

    def __init__(self, script, chooser):
        self.script, self.chooser = script, chooser
        self.lengths = [chooser.choice([8, 8, 16, 24]) for _ in range(chooser.randrange(1, 8))]
        budget = sum(self.lengths) + chooser.choice([-1, 0, 0, 7, 8, 16])
        script.begin(chooser.choice([budget, budget, None]))
        for length in self.lengths:
            script.tell(f"make {length}")
        self.ranges = [self.random_range() for _ in range(chooser.choice([2, 5, 12]))]
        self.slots, self.stopped = [], set()
        for _ in range(chooser.randrange(1, 4)):
            self.ship()

    def ship(self):
        numbers = list(range(len(self.lengths)))
        self.chooser.shuffle(numbers)
        numbers = (numbers * 5)[:5]
        code = moving_program(self.chooser, [self.lengths[n] for n in numbers])
        self.script.ship(code, self.arguments(numbers), self.chooser.choice([2, 30, 100, 100, 100]), self.grants())
        self.slots.append(len(code) // 8)

    def arguments(self, numbers):
        return [(n + 1) << 32 for n in numbers]

    def grants(self):
        """What a machine is granted; none is everything."""
        return None

    def random_range(self):
        n = self.chooser.randrange(len(self.lengths) + 1)
        if n == len(self.lengths):
            return (STACK << 32) + 4096 - 24 + self.chooser.randrange(24), self.chooser.choice([1, 8, 30])
        return ((n + 1) << 32) + self.chooser.randrange(self.lengths[n]), self.chooser.choice([1, 2, 8, 16, 4096])

    def machine(self):
        """A machine, most of the time one that goes on."""
        goes_on = [m for m in range(1, len(self.slots) + 1) if m not in self.stopped]
        if goes_on and self.chooser.random() < 0.95:
            return self.chooser.choice(goes_on)
        return self.chooser.randrange(len(self.slots)) + 1

    def object(self):
        return self.chooser.randrange(len(self.lengths)) + 1

    def step(self):
        machine = self.machine()
        for _ in range(self.chooser.randrange(1, 6)):
            words = self.script.tell(f"step {machine}").split()
            if words[0] != "ran":
                break
        if words[0] == "waiting" and self.chooser.random() < 0.6:
            self.move_on(f"leave {words[2]}", 0.9)
        if words[0] in ("paused", "hit") and self.chooser.random() < 0.7:
            self.script.tell(f"{self.chooser.choice(['resume', 'resume', 'one'])} {machine}")
        if words[0] == "stopped":
            self.stopped.add(machine)
            if len(self.slots) < 8:
                self.ship()

    def one(self):
        self.script.tell(f"one {self.machine()}")

    def move(self):
        moves = ["leave", "leave", "left", "return", "returned"]
        self.move_on(f"{self.chooser.choice(moves)} {self.object()}", 0.7)

    def move_on(self, command, chance):
        """A move, and where it doesn't fit, most of the time those that bring the object back."""
        following = {"leaving": "left", "left": "return", "far": "return", "returning": "returned"}
        words = self.script.tell(command).split()
        at = words[2] if words[0] == "place" else None
        while at in following and self.chooser.random() < chance:
            at = self.script.tell(f"{following[at]} {words[1]}").split()[0]

    def resume(self):
        self.script.tell(f"resume {self.machine()}")

    def breakpoint(self):
        machine = self.machine()
        name = self.chooser.choice(["break", "break", "unbreak"])
        self.script.tell(f"{name} {machine} {self.chooser.randrange(self.slots[machine - 1] + 1)}")

    def watch(self):
        address, length = self.chooser.choice(self.ranges)
        self.script.tell(f"{self.chooser.choice(['watch', 'watch', 'watch', 'unwatch'])} {self.machine()} 0x{address:x} {length}")

    def bytes(self):
        n = self.object()
        if self.chooser.random() < 0.5:
            self.script.tell(f"get {n} 0 {self.chooser.choice([8, 8, 8, 16])}")
        else:
            self.script.tell(f"put {n} {self.chooser.choice([0, 3, 7])} {self.chooser.choice(['00', '01', '0000', 'ff'])}")

    def objects(self):
        if self.chooser.random() < 0.5:
            return self.script.tell(f"free {self.object()}")
        length = self.chooser.choice([1, 8, 16, 24])
        if self.script.tell(f"make {length}").startswith("made"):
            self.lengths.append(length)

    def show(self):
        self.script.tell(f"regs {self.machine()}")

    def go(self, commands):
        kinds = [self.step, self.one, self.move, self.resume, self.breakpoint, self.watch, self.bytes, self.objects, self.show]
        for _ in range(commands):
            self.chooser.choices(kinds, [34, 6, 22, 4, 5, 13, 5, 2, 1])[0]()
        for n in range(1, len(self.lengths) + 1):
            self.script.tell(f"get {n} 0 {self.lengths[n - 1]}")
        for machine in range(1, len(self.slots) + 1):
            self.script.tell(f"regs {machine}")


def add_chats(script, kind, seed, count, commands):
    """So many conversations of a kind at random, each of so many commands."""
    chooser = random.Random(seed)
    for _ in range(count):
        kind(script, chooser).go(commands)


def add_random(script):
    script.note("objects move while machines run, wait, and are paused")
    add_chats(script, Chat, 2026, 60, 70)


if __name__ == "__main__":
    Talk().write_as(__file__, [add_holders, add_budgets, add_windows, add_random])

#!/usr/bin/env python3
"""Makes NAME.script from cases/NAME.case: make_scripts.py [--check]

A case has commands of the protocol, and `run NAME A .. | NAME A ..`, which ships programs and steps them in turns until all
have ended. `mover n` among them takes object n to the far store and back, whenever its turn comes. What programs leave
(their values, what they emit, the objects' bytes) comes from out/native, which runs the same sources as native code; the
other replies come from the agent in Python of tests/reference. Where both answer, they have to agree. Natively the
programs of one `run` run one after the other and nothing moves, so a case asks only for what this doesn't change. With
--check the scripts are compared and not written.
"""
import itertools
import pathlib
import subprocess
import sys

HERE = pathlib.Path(__file__).resolve().parent
sys.path[:0] = [str(HERE.parent.parent / "tests/reference"), str(HERE.parent.parent / "python")]

from bpfagent.ship import ship_line  # noqa: E402
from reference_agent import Agent  # noqa: E402

FUEL = "10000"
TURNS = (1, 3, 2, 5, 4, 1, 7)
# How long a compiler or the native programs of a case may take.
SECONDS = 120

MOVES = ("leave", "left", "return", "returned")


def parts_of(line):
    """The programs of a `run` with their arguments, and the movers."""
    return [part.split() for part in line.removeprefix("run ").split("|")]


def programs_of(line):
    return [part for part in parts_of(line) if part[0] != "mover"]


def native_commands(line):
    return [" ".join(["run", *part]) for part in programs_of(line)] if line.startswith("run ") else [line]


def native_replies(commands):
    done = subprocess.run([HERE / "out/native"], input="\n".join(commands) + "\n", stdout=subprocess.PIPE, text=True, cwd=HERE, check=True, timeout=SECONDS)
    return done.stdout.splitlines()


class Script:
    """What is said, with the replies of the agent in Python."""

    def __init__(self):
        self.agent, self.lines = Agent(), []

    def begin(self, comment):
        """A fresh agent."""
        self.agent = Agent()
        self.lines += ["---", comment]

    def tell(self, command):
        reply = self.agent.reply(command)
        self.lines += [command, f"> {reply}"]
        return reply


class Machine:
    """A program that was shipped. `end` is the reply that it ended with."""

    def __init__(self, script, name, *arguments):
        code = (HERE / f"{name}.code").read_bytes()
        self.script, self.end = script, None
        self.number = script.tell(ship_line(code, FUEL, arguments)).removeprefix("shipped ")

    def take_turn(self, steps):
        for _ in range(steps):
            if self.end is None:
                reply = self.script.tell(f"step {self.number}")
                self.end = None if reply.startswith(("ran ", "waiting ")) else reply


class Mover:
    """It takes an object to the far store and back, again and again, one move in a turn."""

    def __init__(self, script, number):
        self.script, self.number, self.at = script, number, 0

    def take_turn(self, _):
        reply = self.script.tell(f"{MOVES[self.at]} {self.number}")
        if not reply.startswith("kept "):
            self.at = (self.at + 1) % len(MOVES)

    def bring_back(self):
        while self.at:
            self.take_turn(1)


def take_turns(actors, machines):
    """Until all machines have ended."""
    turns = itertools.cycle(TURNS)
    for actor in itertools.cycle(actors):
        if all(machine.end for machine in machines):
            break
        actor.take_turn(next(turns))


def run(script, line, wanted):
    actors = [Mover(script, *rest) if name == "mover" else Machine(script, name, *rest) for name, *rest in parts_of(line)]
    machines = [actor for actor in actors if isinstance(actor, Machine)]
    take_turns(actors, machines)
    for mover in actors:
        if isinstance(mover, Mover):
            mover.bring_back()
    for machine, value in zip(machines, wanted):
        if machine.end != f"stopped {machine.number} {value}":
            raise SystemExit(f"{line}: {machine.end} here, and {value} natively")


def script_of(case):
    lines = case.read_text().splitlines()
    told = [line for line in lines if not line.startswith("#")]
    replies = iter(native_replies([command for line in told for command in native_commands(line)]))
    script = Script()
    for line in lines:
        if line.startswith("#"):
            script.lines.append(line)
            continue
        wanted = [next(replies) for _ in native_commands(line)]
        if line.startswith("run "):
            run(script, line, wanted)
        elif script.tell(line) != wanted[0]:
            raise SystemExit(f"{case.name}: {line}: {script.lines[-1]} here, and {wanted[0]} natively")
    return "\n".join(script.lines) + "\n"


def main():
    steps = 0
    for case in sorted((HERE / "cases").glob("*.case")):
        script, made = HERE / f"{case.stem}.script", script_of(case)
        if sys.argv[1:] == ["--check"]:
            if not script.exists() or script.read_text() != made:
                sys.exit(f"{script.name} isn't what {case.name} gives")
        else:
            script.write_text(made)
        steps += made.count("\nstep ")
    print(f"conversations: {steps} steps, and interpreter and native code agree")


if __name__ == "__main__":
    main()

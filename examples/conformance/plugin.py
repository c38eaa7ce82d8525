#!/usr/bin/env python3
"""A plugin of bpfagent for the runner of bpf_conformance: plugin.py [--program HEX] [MEMORY]

The program comes in hex on standard input, or behind --program; the memory in hex as an argument. Blanks between bytes do no harm. R1 is the address of
the memory and R2 its length; both are 0 without memory. R0 goes out in hex with status 0. Otherwise a line on standard error says why not, with status 1.
It needs the Python package, and bpfagent: the environment's BPFAGENT, or the one on PATH. The library for C does as well.
"""
from __future__ import annotations

import argparse
import sys

from bpfagent import Refused, address
from bpfagent.own import opened
from bpfagent.replies import Broken, NotExited

FUEL = 10_000_000
SECONDS = 60.0


def result_of(program: bytes, memory: bytes) -> int:
    """R0 at the program's exit."""
    with opened(None, SECONDS) as own:
        arguments = [address(own.agent.make_of(memory)), len(memory)] if memory else []
        machine = own.agent.ship(program, FUEL, *arguments)
        return own.go(machine, lambda _: None).value


def main() -> None:
    parser = argparse.ArgumentParser(description="Runs a program for bpf_conformance, and prints R0 in hex.")
    parser.add_argument("--program", metavar="HEX", help="the program; otherwise it comes on standard input")
    parser.add_argument("memory", metavar="MEMORY", nargs="?", default="", help="the memory, in hex")
    given = parser.parse_args()
    try:
        program = bytes.fromhex(given.program if given.program is not None else sys.stdin.read())
        print(f"{result_of(program, bytes.fromhex(given.memory)):x}")
    except (ValueError, OSError, Refused, Broken, NotExited) as why:
        sys.exit(f"plugin: {why}")


if __name__ == "__main__":
    main()

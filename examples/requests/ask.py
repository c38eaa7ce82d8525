#!/usr/bin/env python3
"""Three programs of a service, each shipped once, answer requests: ask.py [PROGRAM]

A table of keys and values, a tree, and a filter over rows. It needs the Python package; with clang it takes the programs from their
sources, so that a stop tells its source line, and otherwise from their raw code.
"""
from __future__ import annotations

import pathlib
import shutil
import struct
import sys
from concurrent.futures import ThreadPoolExecutor

from bpfagent import Agent, Broken, Failed, Procedure, Refused, Service, Unloadable, address
from bpfagent.image import program_path

HERE = pathlib.Path(__file__).resolve().parent
SUFFIX = ".c" if shutil.which("clang") else ".code"
GET, PUT, ADD = range(3)
NODE, ROW = struct.Struct("<2Q15Q15Q"), struct.Struct("<IIQ")


def node(height: int, *pairs: tuple[int, int]) -> bytes:
    """A node of tree.c."""
    rest = [0] * (15 - len(pairs))
    return NODE.pack(height, len(pairs), *(key for key, _ in pairs), *rest, *(value for _, value in pairs), *rest)


def make_tree(agent: Agent) -> int:
    """Makes two leaves and a root, each in an object of its own, and gives the root's number."""
    leaves = [agent.make_of(node(0, *((key, key * key) for key in keys))) for keys in ((2, 3, 5), (7, 11, 13))]
    return agent.make_of(node(1, (2, address(leaves[0])), (7, address(leaves[1]))))


def show_table(table: Procedure) -> None:
    """Calls, from one thread and from eight."""
    table(PUT, 7, 40)
    print("after one addition:", table(ADD, 7, 2))
    with ThreadPoolExecutor(8) as threads:
        list(threads.map(lambda _: table(ADD, 7, 1), range(100)))
    print("after a hundred more, by eight threads:", table(GET, 7))
    try:
        table(GET, 8)
    except Failed as why:
        print("a key that isn't there:", why)


def show_tree(tree: Procedure, root: int) -> None:
    """A lookup, and an address where no node is."""
    print("in the tree:", tree(address(root), 11))
    try:
        tree(address(999), 11)
    except Failed as why:
        print("a wrong address:", why)


def show_filter(rows: Procedure, number: int, count: int) -> None:
    """Sums of the days of a week, by all machines at once."""
    days = rows.map((address(number), count, 50, day, day) for day in range(7))
    print("amounts by day:", *days)


def show(program: str) -> None:
    """Makes the objects, ships the programs, and asks them."""
    with Service(program, "--connections", "3", timeout=60) as service:
        setup = service.setup
        table = service.procedure(HERE / f"table{SUFFIX}", setup.make(65_536), machines=4)
        root = make_tree(setup)
        tree = service.procedure(HERE / f"tree{SUFFIX}", grants={root: "r", root - 1: "r", root - 2: "r"})
        count = 700
        rows = setup.make_of(b"".join(ROW.pack(k % 7, k % 100, k) for k in range(count)))
        sums = service.procedure(HERE / f"filter{SUFFIX}", grants={rows: "r"}, machines=4)
        show_table(table)
        show_tree(tree, root)
        show_filter(sums, rows, count)


if __name__ == "__main__":
    try:
        show(program_path(sys.argv[1] if sys.argv[1:] else None))
    except (Broken, Refused, Unloadable, OSError) as why:
        sys.exit(f"ask.py: {why}")

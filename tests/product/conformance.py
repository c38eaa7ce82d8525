#!/usr/bin/env python3
"""Calls the plugin for bpf_conformance as that project's runner does: conformance.py PROGRAM

The program goes in as bytes in hex with blanks between them, on standard input, the memory in the same form as the first argument. The first line that
comes out is R0 in hex. Each conformance group of RFC 9669 has its cases; `packet`, which it deprecates, has to be refused. Results are those of its text.
"""
from __future__ import annotations

import concurrent.futures
import subprocess
import sys
import pathlib
from typing import NamedTuple

sys.path.insert(0, str(pathlib.Path(__file__).resolve().parents[1]))
from lib import package
from lib.checks import run_parts, want, want_equal
from lib.programs import SECONDS, patience
from lib.sources import ROOT

PLUGIN = ROOT / "examples/conformance/plugin.py"
PROCESSES = 4
EXIT = "95 00 00 00 00 00 00 00"


class Case(NamedTuple):
    """A program in hex without its EXIT, its memory in hex, and R0; None where the plugin has to fail."""

    group: str
    code: str
    memory: str
    result: int | None


CASES = [
    # w0 = -1: the upper half is zero (section 4.1)
    Case("base32", "b4 00 00 00 ff ff ff ff", "", 0xFFFFFFFF),
    # r0 = *(u32 *)(r1 + 4), little-endian (section 5)
    Case("base32", "61 10 04 00 00 00 00 00", "00 11 22 33 44 55 66 77", 0x77665544),
    # r0 = -1; r0 >>= 4 (section 4.1)
    Case("base64", "b7 00 00 00 ff ff ff ff 77 00 00 00 04 00 00 00", "", 0x0FFFFFFFFFFFFFFF),
    # r0 = 0x1122334455667788 ll (section 5.4)
    Case("base64", "18 00 00 00 88 77 66 55 00 00 00 00 44 33 22 11", "", 0x1122334455667788),
    # r0 = r2, the memory's length
    Case("base64", "bf 20 00 00 00 00 00 00", "01 02 03 04 05", 5),
    # w0 = -13; w0 s/= 3, truncated toward zero (section 4.1)
    Case("divmul32", "b4 00 00 00 f3 ff ff ff 34 00 01 00 03 00 00 00", "", 0xFFFFFFFC),
    # w0 = 7; w1 = 0; w0 /= w1 (section 4.1)
    Case("divmul32", "b4 00 00 00 07 00 00 00 b4 01 00 00 00 00 00 00 3c 10 00 00 00 00 00 00", "", 0),
    # r0 = -13; r0 s%= 3: the sign of the dividend (section 4.1)
    Case("divmul64", "b7 00 00 00 f3 ff ff ff 97 00 01 00 03 00 00 00", "", 0xFFFFFFFFFFFFFFFF),
    # w2 = 2; w2 = atomic_fetch_add((u32 *)(r1 + 0), w2); w0 = w2; w1 = *(u32 *)(r1 + 0); w0 += w1 (section 5.3)
    Case("atomic32", "b4 02 00 00 02 00 00 00 c3 21 00 00 01 00 00 00 bc 20 00 00 00 00 00 00 61 11 00 00 00 00 00 00 0c 10 00 00 00 00 00 00", "05 00 00 00", 12),
    # r0 = 5; r2 = 9; r0 = cmpxchg_64(r1 + 0, r0, r2); r0 = *(u64 *)(r1 + 0) (section 5.3)
    Case("atomic64", "b7 00 00 00 05 00 00 00 b7 02 00 00 09 00 00 00 db 21 00 00 f1 00 00 00 79 10 00 00 00 00 00 00", "05 00 00 00 00 00 00 00", 9),
    # r0 = *(u32 *)skb[0] (section 5.5)
    Case("packet", "20 00 00 00 00 00 00 00", "00 00 00 00", None),
    # r0 = *(u64 *)(r1 + 1), which passes the memory's end
    Case("base64", "79 10 01 00 00 00 00 00", "00 00 00 00 00 00 00 00", None),
]


def result_of(program: str, case: Case) -> int | None:
    """What the plugin prints, read as the runner does; None if it fails."""
    done = subprocess.run(
        [package.python(), PLUGIN, case.memory], input=f"{case.code} {EXIT}\n", capture_output=True, text=True, timeout=SECONDS * patience(program),
        env=package.environment(program),
    )
    if done.returncode:
        want(done.stderr.startswith("plugin: ") and done.stderr.count("\n") == 1, f"the plugin says {done.stderr}")
        return None
    return int(done.stdout.splitlines()[0], 16)


def show_groups(program: str) -> None:
    """Each case has its result."""
    with concurrent.futures.ThreadPoolExecutor(PROCESSES) as pool:
        for case, found in zip(CASES, pool.map(lambda case: result_of(program, case), CASES)):
            want_equal(found, case.result, f"{case.group}: {case.code}")


def show_option(program: str) -> None:
    """--program does as standard input does. What isn't hex is refused in a line."""
    command = [package.python(), PLUGIN, "--program", f"b700000007000000{EXIT.replace(' ', '')}"]
    without: list[str] = []
    for memory, wanted in ((without, (0, "7\n")), (["no"], (1, ""))):
        done = subprocess.run([*command, *memory], capture_output=True, text=True, timeout=SECONDS * patience(program), env=package.environment(program))
        want_equal((done.returncode, done.stdout), wanted, f"the plugin with --program and {memory}")


if __name__ == "__main__":
    run_parts("conformance", [show_groups, show_option])

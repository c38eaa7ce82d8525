"""Whether raw code is valid: `bpfagent check` says it, or the library where that is there."""
from __future__ import annotations

import contextlib
import re
import subprocess
from typing import Any, Optional

from .engine import Engine
from .image import Unloadable, program_path
from .library import library_if_there
from .replies import Refused
from .starting import ended

# How long bpfagent may take for it, in seconds.
SECONDS = 60.0
# What it says of code that it refuses.
REFUSED = re.compile(r"slot ([0-9]+): ([A-Za-z0-9]+)")


def explained(code: bytes, bpfagent: Optional[str]) -> str:
    """What `check --explain` says of code that is refused, as further lines; empty if this bpfagent has no such option."""
    with contextlib.suppress(Unloadable, OSError, subprocess.TimeoutExpired):
        done = ended(program_path(bpfagent), "check", "--explain", given=code, seconds=SECONDS)
        if done.returncode == 1:
            return "".join(f"\n{line}" for line in done.stderr.decode("ascii", "replace").splitlines()[1:])
    return ""


def refusal_of(code: bytes, bpfagent: Optional[str]) -> Optional[tuple[int, str]]:
    """The slot and the reason for which code is refused; None if it is valid."""
    if bpfagent is None and library_if_there():
        try:
            Engine.check(code)
        except Refused as why:
            return int(why.words[1]), why.words[2]
        return None
    program = program_path(bpfagent)
    try:
        done = ended(program, "check", given=code, seconds=SECONDS)
    except (OSError, subprocess.TimeoutExpired) as fault:
        raise Unloadable(f"{program} can't be run: {getattr(fault, 'strerror', None) or fault}") from None
    if done.returncode == 0:
        return None
    said = done.stderr.decode("ascii", "replace").strip()
    found = REFUSED.match(said)
    if not found:
        raise Unloadable(f"{program} check ended with status {done.returncode}: {said}")
    return int(found[1]), found[2]


def verdict_of(code: bytes, bpfagent: Optional[str]) -> dict[str, Any]:
    """Whether code is valid, for a program."""
    refusal = refusal_of(code, bpfagent)
    if refusal is None:
        return {"valid": True, "slots": len(code) // 8}
    return {"valid": False, "slot": refusal[0], "reason": refusal[1], "explained": explained(code, bpfagent).split("\n")[1:]}

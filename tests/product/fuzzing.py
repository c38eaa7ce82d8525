#!/usr/bin/env python3
"""What `make fuzz` does with an input that is answered otherwise than by the reference: fuzzing.py

In place of a program there are comparisons that find a difference where one is planted. The case is made smaller and kept, and what is kept fails until
it doesn't differ any more.
"""
from __future__ import annotations

import contextlib
import json
import pathlib
import sys
import tempfile
import unittest.mock
from typing import Callable, Iterator

sys.path.insert(0, str(pathlib.Path(__file__).resolve().parents[1]))
import fuzz
from lib.checks import Failed, run_parts, want, want_equal

# How long a difference may be looked for, in seconds: there is one in most rounds.
SECONDS = 600
Compare = Callable[[str, fuzz.Talk], str]


@contextlib.contextmanager
def planted(run: Compare, serve: Compare, code: Callable[[str, bytes], str]) -> Iterator[pathlib.Path]:
    """Comparisons that find these differences; the folder in which cases are kept."""
    with tempfile.TemporaryDirectory() as room, contextlib.ExitStack() as stack:
        folder = pathlib.Path(room) / "fuzzed"
        stack.enter_context(unittest.mock.patch.object(fuzz, "KEPT", folder))
        stack.enter_context(unittest.mock.patch.dict(fuzz.COMPARE, {"run": run, "serve": serve}))
        stack.enter_context(unittest.mock.patch.object(fuzz, "difference_of_code", code))
        yield folder


def without(program: str, given: object) -> str:
    """No difference."""
    return ""


def failure(call: Callable[[], object]) -> str:
    """Why a call fails; empty if it doesn't."""
    try:
        call()
    except Failed as why:
        return str(why)
    return ""


def show(kind: str, **how: Callable[..., str]) -> dict[str, object]:
    """A difference is found, named and kept, and what is kept differs until it doesn't. The case."""
    comparisons = {"run": without, "serve": without, "code": without, **how}
    with planted(**comparisons) as folder:
        said = failure(lambda: fuzz.fuzz("", SECONDS, "seed"))
        want(said.startswith(f"{kind}: planted; kept as fuzzed/seed."), f"a planted difference of {kind}: {said}")
        [path] = folder.iterdir()
        for call in (lambda: fuzz.stored(""), lambda: fuzz.fuzz("", SECONDS, "other")):
            want_equal(failure(call), f"{path.name}: planted", "what is kept and still differs")
        with unittest.mock.patch.dict(fuzz.COMPARE, {"run": without, "serve": without}), unittest.mock.patch.object(fuzz, "difference_of_code", without):
            want_equal(fuzz.stored(""), "agent: 1 stored cases; no difference", "what is kept and doesn't differ any more")
        return dict(json.loads(path.read_text()))


def show_talks() -> None:
    """Conversations with `run` and with a service, of which two lines count, whatever is in them."""
    for kind in ("run", "serve"):
        for some in (("", "step 1\r"), ("\x7f", " ")):

            def differs(program: str, talk: fuzz.Talk) -> str:
                return "planted" if any(line in some for line in talk.lines) and any(line.startswith("get ") for line in talk.lines) else ""

            case = show(kind, **{kind: differs})
            lines = case["lines"]
            assert isinstance(lines, list)
            want(case["kind"] == kind and len(lines) == 2 and any(line in some for line in lines), f"the case that is kept: {case}")


def show_code() -> None:
    """Code of which one slot counts."""

    def differs(program: str, code: bytes) -> str:
        return "planted" if fuzz.EXIT in [code[at : at + 8] for at in range(0, len(code), 8)] else ""

    want_equal(show("code", code=differs), {"kind": "code", "code": fuzz.EXIT.hex()}, "the code that is kept")


if __name__ == "__main__":
    run_parts("fuzzing", [show_talks, show_code], 2 * SECONDS)

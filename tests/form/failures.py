#!/usr/bin/env python3
"""Checks that out of memory, and a fault of a reader or a writer, are answered only where tests/form/failures.txt says.

No proof shows that a function answers them only after a call that failed. So each place that writes one of these words, or asks for room, is listed
with its file, its function and the reason. Nothing may lose a value without dropping it, and nothing flushes a stream. With --write the script writes
the list: a place that is new there has `?` for a reason, which the test refuses.
"""
from __future__ import annotations

import collections
import pathlib
import re
import sys
from typing import Iterator, Tuple

sys.path.insert(0, str(pathlib.Path(__file__).resolve().parents[1]))
from lib.checks import report
from lib.sources import ROOT, block, blanked, crates_below, function_places, uncommented

LIST = ROOT / "tests/form/failures.txt"
WORDS = re.compile(
    r"\b(?:AllocError|AllocFailed|NoMemory|OutOfMemory|ReadFault|WriteFault|"
    r"(?:Why|Self|Failure|OpenAgent|\w+Error|\w+Fault)::(?:Memory|Read|Write|Io))\b"
)
ROOM = re.compile(r"\b(?:with_capacity\w*|(?:try_)?reserve\w*|resize\w*|repeat|vec!)\s*[(\[]")
# What follows a pattern, which answers nothing. A brace before `if` ends a block, whose value it may be: `{ return Err(NoMemory) } if ..`.
PATTERN = re.compile(r"[\s)}]*(?:\||=>)|[\s)]*if\b|[\s)]*=[^=]")
# What stands nowhere, with what is wrong about it. No clause refuses a flush, and no count of the system's calls shows it.
NOWHERE = {
    re.compile(
        r"\bmem::forget\b|\bmem::\{[^;]*\bforget\b|\bmem(?: as\b|::\*)|"
        r"\b(?:ManuallyDrop|into_raw\w*|from_raw\w*)\b|[.:]leak\b"
    ): "may lose a value without dropping it",
    re.compile(r"[.:]flush\b"): "flushes, and a line is written by its writes alone",
}
HEAD = """# Where the program answers out of memory or a fault of a stream, or asks for room: of each place in a function which failed call comes before,
# or how much is asked for. `python3 tests/form/failures.py --write` writes the places; the reasons are written by hand.
"""
BETWEEN = " | "

# A file of a crate, and a function or an item outside of functions.
Place = Tuple[str, str]


def sources_of(crate: str) -> list[pathlib.Path]:
    """The files of a crate that the program is made of, without those of a `mod` under `#[cfg(test)]`."""
    code = {path: blanked(path.read_text()) for path in sorted((ROOT / f"crates/{crate}/src").rglob("*.rt"))}
    tests = {path.parent / f"{name}.rt" for path, text in code.items() for name in re.findall(r"#\[cfg\(test\)\]\s*mod (\w+);", text)}
    return [path for path in code if path not in tests]


def in_functions(code: str) -> Iterator[str]:
    """The function of each place in a body."""
    for function, _, begin, end in function_places(code):
        for word in [*WORDS.finditer(code, begin, end), *ROOM.finditer(code, begin, end)]:
            if ROOM.match(word[0]) or not PATTERN.match(code, word.end()):
                yield function


# A `use` that gives a word another name, takes all names of a module or a type, or takes variants of a type.
RENAMING = re.compile(r"\bas\b|\*|\b[A-Z]\w*::")
# A type of these words that gets another name, by which they would be answered unseen.
RENAMED_TYPE = re.compile(
    r"^use\b.*\b(?:Why|Failure|OpenAgent|\w+Error|\w+Fault) as\b|"
    r"^type \w+(?:<[^=]*>)? = (?:\w+::)*(?:Why|Failure|OpenAgent|\w+Error|\w+Fault);?$"
)
OUTSIDE = re.compile(r"(?m)^\s*(?:pub(?:\([^)]*\))? )?(use|const|static|type|macro_rules!)\s[^;{]*")


def outside(code: str, text: str) -> Iterator[str]:
    """The places outside of functions: constants, types, macros, and `use` that gives another name."""
    bodies = [(begin, end) for _, _, begin, end in function_places(code)]
    for item in OUTSIDE.finditer(code):
        if any(begin <= item.start(1) < end for begin, end in bodies):
            continue
        end = block(code, item.end()) if item.end() < len(code) and code[item.end()] == "{" else item.end()
        end = code.index(";", end) if item[1] == "use" else end
        said = " ".join(text[item.start(1) : end].split())
        named = WORDS.search(code, item.start(1), end) or item[1] == "use" and re.search(r"\b(?:Memory|Read|Write|Io)\b|\*", said)
        if RENAMED_TYPE.search(said) or named and (item[1] != "use" or RENAMING.search(said)):
            yield item[1]


def places() -> list[Place]:
    """Each place, in order."""
    found = []
    for crate in crates_below("bpfagent"):
        for path in sources_of(crate):
            text = path.read_text()
            code, name = blanked(text), path.relative_to(ROOT / "crates").as_posix()
            found += [(name, function) for function in [*in_functions(code), *outside(code, uncommented(text))]]
    return found


def found_in_code(pattern: re.Pattern[str]) -> Iterator[str]:
    """Where the program's code has this."""
    for crate in crates_below("bpfagent"):
        for path in sources_of(crate):
            yield from (f"{path.relative_to(ROOT)}: {found[0]}" for found in pattern.finditer(blanked(path.read_text())))


def listed() -> list[tuple[Place, str]]:
    """What was looked at: each place with its reason."""
    lines = [line.split(": ", 1) for line in LIST.read_text().splitlines() if not line.startswith("#")]
    return [(tuple(place.split()), reason) for place, reasons in lines for reason in reasons.split(BETWEEN)]


def write(found: list[Place]) -> None:
    known, now = collections.defaultdict(list), collections.defaultdict(list)
    for place, reason in listed():
        known[place].append(reason)
    for place in found:
        now[place].append(known[place].pop(0) if known[place] else "?")
    LIST.write_text(HEAD + "".join(f"{' '.join(place)}: {BETWEEN.join(reasons)}\n" for place, reasons in now.items()))


if __name__ == "__main__":
    found = places()
    if sys.argv[1:] == ["--write"]:
        write(found)
    known = listed()
    has, wanted = collections.Counter(found), collections.Counter(place for place, _ in known)
    differing = [place for place in sorted({*has, *wanted}) if has[place] != wanted[place]]
    wrong = [f"crates/{place[0]}: {place[1]} has {has[place]} places, and tests/form/failures.txt {wanted[place]}" for place in differing]
    wrong += [f"tests/form/failures.txt: no reason is given for {place[1]} of {place[0]}" for place, reason in known if len(reason.strip("? .")) < 5]
    wrong += [f"{said} {what}" for pattern, what in NOWHERE.items() for said in found_in_code(pattern)]
    if wrong:
        wrong.append(
            "look at these places: does each answer follow a call that failed, and is the room bounded? "
            "tests/form/failures.py --write lists them; the reasons are yours to write"
        )
    report(wrong, f"out of memory, faults of streams and room for values are at the {len(found)} places of tests/form/failures.txt, and at no other")

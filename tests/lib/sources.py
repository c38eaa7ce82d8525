"""Reads Rattle's sources, as far as the scripts here need it."""
from __future__ import annotations

import os
import pathlib
import re
import shutil
from typing import Iterator

ROOT = pathlib.Path(__file__).resolve().parents[2]


def copied(folder: str | pathlib.Path, *without: str) -> pathlib.Path:
    """A copy of the repository in this folder, without what is built."""
    copy = pathlib.Path(folder) / "copy"
    shutil.copytree(ROOT, copy, ignore=shutil.ignore_patterns("out", ".git", "__pycache__", *without), symlinks=True)
    return copy


def crates() -> dict[str, list[str]]:
    """The crates of crates.txt, each with what it stands on."""
    lines = [line.split(":") for line in (ROOT / "crates.txt").read_text().splitlines() if ":" in line and not line.startswith("#")]
    return {head.split()[0]: below.split() for head, below in lines}


def crates_below(name: str) -> list[str]:
    """The crates of this repository that a crate is made of, the lowest first, and itself."""
    known, found = crates(), []

    def visit(crate: str) -> None:
        if crate in known and crate not in found:
            for other in known[crate]:
                visit(other)
            found.append(crate)

    visit(name)
    return found


def changes_of(edit: pathlib.Path) -> Iterator[tuple[str, str, str]]:
    """The changes that an edit makes, in turn: the file in its crate, the text that stands there once, and the one in its place."""
    file = old = ""
    for line in edit.read_text().split("\n"):
        if line.startswith("file: "):
            file = line[6:].strip()
        elif line.startswith("old: "):
            old = line[5:]
        elif line.startswith("new:"):
            yield file, old, line[4:].removeprefix(" ")


def tests_in(crate: str) -> int:
    """How many tests a crate has."""
    return sum(len(re.findall(r"(?m)^\s*#\[test\]$", path.read_text())) for path in (ROOT / "crates" / crate / "src").rglob("*.rt"))


def pages() -> list[pathlib.Path]:
    """The documents, wherever they lie. What proofs leave in a folder out comes and goes meanwhile, so it isn't entered."""
    below = []
    for top in ("crates", "deploy", "docs", "examples", "python", "tests"):
        for folder, folders, files in os.walk(ROOT / top):
            folders[:] = [name for name in folders if name != "out"]
            below += [pathlib.Path(folder, name) for name in files if name.endswith(".md")]
    return [*ROOT.glob("*.md"), *sorted(below)]


# A comment, a text or a character, in the order in which they are tried.
LITERAL = re.compile(r"""//[^\n]*|/\*.*?\*/|b?r(#*)".*?"\1|b?"(?:[^"\\]|\\.)*"|b?'(?:[^'\\\n]|\\u\{[0-9a-fA-F]+\}|\\.)'""", re.S)


def spaces(text: str) -> str:
    """As many blanks, in as many lines."""
    return re.sub(r"[^\n]", " ", text)


def uncommented(text: str) -> str:
    """The code with blanks in place of its comments."""
    return LITERAL.sub(lambda found: spaces(found[0]) if found[0].startswith("/") else found[0], text)


def blanked(text: str) -> str:
    """The code with blanks in place of its comments and of what stands in its texts: each place is where it was."""

    def hidden(found: re.Match[str]) -> str:
        if found[0].startswith("/"):
            return spaces(found[0])
        begin = found[0].index("'" if found[0].lstrip("b").startswith("'") else '"') + 1
        return found[0][:begin] + spaces(found[0][begin:-1]) + found[0][-1]

    return LITERAL.sub(hidden, text)


def block(text: str, at: int) -> int:
    """Where the braces that open at `at` end."""
    depth = 0
    for end in range(at, len(text)):
        depth += {"{": 1, "}": -1}.get(text[end], 0)
        if depth == 0:
            return end + 1
    return len(text)


def next_part(text: str, at: int) -> int:
    """Where the next brace opens or the item ends, outside brackets."""
    depth = 0
    while at < len(text):
        depth += {"(": 1, "[": 1, ")": -1, "]": -1}.get(text[at], 0)
        if depth == 0 and text[at] in "{;":
            return at
        at += 1
    return at


def function_places(text: str, begin: str = r"\bfn (\w+)") -> Iterator[tuple[str, list[str], int, int]]:
    """Each function of a blanked text: its name, its clauses, and where its body begins and ends, which is one place if there is none."""
    for item in re.finditer(begin, text):
        clauses, at = [], item.end()
        while True:
            here = next_part(text, at)
            if here >= len(text) or text[here] == ";":
                yield item[1], clauses, here, here
                break
            end = block(text, here)
            if not re.search(r"\b(?:requires|ensures)\b", text[at:here]):
                yield item[1], clauses, here, end
                break
            clauses.append(text[here:end])
            at = end

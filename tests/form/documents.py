#!/usr/bin/env python3
"""Checks that documents are true as far as a script can see it. Links lead to a file and a heading. Files, targets of make and options of scripts are
there. Quoted Rattle stands in the file that is named before it. A table of sentences names clauses and fields of its files. The picture of the crates
is that of crates.txt. With --write the script draws it.
"""
from __future__ import annotations

import pathlib
import re
import sys
from typing import Iterator, Sequence

sys.path.insert(0, str(pathlib.Path(__file__).resolve().parents[1]))
from lib.checks import report
from lib.sources import ROOT, crates_below, crates, pages

PICTURE = "docs/ARCHITECTURE.md"
DRAWN = re.compile(r"(?ms)(^```mermaid\n).*?(?=^```)")
FOR_TESTS = re.compile(r"_tests$|^test_(?:devices|gates)$|^script_runner$|^bench_\w+$|^failing_allocations$")
# A command of a page: of make, with its folder and its target, or of a script in Python, with its options.
MAKE = re.compile(r"(?:`|^|&& )make (?:-C ([\w/]+) ?)?([a-z-]*)(?=`| +#|$)", re.M)
SCRIPT = re.compile(r"python3 (?:-B )?([\w/]+\.py)((?: --[a-z]+(?=[ `\n]))*)")
TARGET = re.compile(r"(?m)^([a-z-]+)(?: [a-z-]+)*:(?!=)")
PATH = re.compile(r"`((?:crates|tests|docs|examples|bench|python|include)/[\w./-]+)`")
# A table of sentences, what says each of them, and the file: a clause of a call, a call whose clause has no name, or a field of a record.
SAID_BY = re.compile(r"(?m)^\| Sentence \| Said by \| In \|\n\|[-|]+\|\n((?:\|.*\|\n)+)")
SAYS = re.compile(r"`(?:(\w+)\.)?(\w+)(?:::(\w+))?`")


def anchors(text: str) -> set[str]:
    """The names by which the headings of a page can be linked."""
    heads = re.findall(r"(?m)^#+ (.*)$", re.sub(r"(?ms)^```.*?^```", "", text))
    return {re.sub(r"[^\w\- ]", "", head.lower()).replace(" ", "-") for head in heads}


def wrong_links(page: pathlib.Path, text: str) -> Iterator[str]:
    for target in re.findall(r"\]\(([^)\s]+)\)", text):
        if "://" in target:
            continue
        file, _, anchor = target.partition("#")
        path = (page.parent / file).resolve() if file else page
        if not path.exists():
            yield f"links to {target}, which isn't there"
        elif anchor and anchor not in anchors(path.read_text()):
            yield f"links to {target}, which has no such heading"


def wrong_paths(text: str) -> Iterator[str]:
    for named in PATH.findall(re.sub(r"(?ms)^```.*?^```", "", text)):
        if "NAME" in named or "/out" in named or re.search(r"/(?:FILE|F)\b", named):
            continue
        if not (ROOT / named.rstrip("/")).exists():
            yield f"names {named}, which isn't there"


def wrong_commands(text: str) -> Iterator[str]:
    """The targets of make, the scripts and their options that aren't there."""
    for folder, target in MAKE.findall(text):
        path = ROOT / folder / "Makefile"
        if not path.is_file() or target and target not in TARGET.findall(path.read_text()):
            yield f"names make {target}{f' in {folder}' if folder else ''}, which isn't there"
    for script, options in SCRIPT.findall(text):
        path = ROOT / script
        said = path.read_text() if path.is_file() else ""
        for word in [script, *options.split()]:
            if not said or word.startswith("--") and word not in said:
                yield f"has a command of {script} with {word}, which isn't there"


def wrong_quotes(text: str) -> Iterator[str]:
    """The lines of Rust that don't stand in the file that is named last before them."""
    for found in re.finditer(r"(?ms)^```rust\n(.*?)^```", text):
        named = [path for path in PATH.findall(text[: found.start()]) if path.endswith(".rt")]
        source = " ".join((ROOT / named[-1]).read_text().split()) if named and (ROOT / named[-1]).is_file() else ""
        for line in found[1].splitlines():
            if line.strip() and " ".join(line.split()) not in source:
                yield f"quotes {line.strip()!r}, which isn't in {named[-1] if named else 'any file'}"


def says(source: str, record: str, name: str, clause: str) -> bool:
    """Whether the file has this field of the record, this clause of the call, or a clause of the call that has no name."""
    if record:
        found = re.search(rf"(?ms)^pub record {record} .*?(?=^\S|\Z)", source)
        return bool(found and re.search(rf"(?m)^  pub {name} :", found[0]))
    heads = re.findall(rf"(?ms)^ *pub fn {name}\b.*?^ *\{{", source)
    return any(re.search(rf"\bensures {clause} \{{" if clause else r"\bensures \{", head) for head in heads)


def wrong_clauses(text: str) -> Iterator[str]:
    for row in (row for table in SAID_BY.findall(text) for row in table.splitlines()):
        _, _, said, file, _ = (cell.strip() for cell in row.split("|"))
        source = "\n".join((ROOT / path).read_text() for path in PATH.findall(file) if (ROOT / path).is_file())
        for record, name, clause in SAYS.findall(said):
            if not says(source, record, name, clause):
                yield f"names {'.'.join(filter(None, (record, name)))}{clause and '::' + clause}, which {file} doesn't say"


def edges(names: Sequence[str]) -> Iterator[tuple[str, str]]:
    """What each crate stands on, by crates.txt, without what it stands on through another."""
    known = crates()
    direct = {name: [other for other in known[name] if other in names] for name in names}
    for name in names:
        through = {below for other in direct[name] for below in crates_below(other) if below != other}
        yield from ((name, other) for other in direct[name] if other not in through)


def picture() -> str:
    """The crates that are no tests, each with what it stands on."""
    names = [name for name in crates() if not FOR_TESTS.search(name)]
    return "graph TD\n" + "".join(f"  {name} --> {other}\n" for name, other in sorted(edges(names)))


def wrong_picture(is_written: bool) -> Iterator[str]:
    path = ROOT / PICTURE
    text = path.read_text()
    wanted = DRAWN.sub(lambda found: found[1] + picture(), text)
    if is_written:
        path.write_text(wanted)
    elif wanted != text or not DRAWN.search(text):
        yield f"{PICTURE}: the picture isn't what crates.txt says: tests/form/documents.py --write makes it so"


if __name__ == "__main__":
    wrong = list(wrong_picture(sys.argv[1:] == ["--write"]))
    for page in pages():
        text = page.read_text()
        said = [*wrong_links(page, text), *wrong_paths(text), *wrong_commands(text), *wrong_quotes(text), *wrong_clauses(text)]
        wrong += [f"{page.relative_to(ROOT)} {what}" for what in said]
    report(wrong, f"links, files, commands, quotes, clauses, and the picture of the crates in {len(pages())} documents are right")

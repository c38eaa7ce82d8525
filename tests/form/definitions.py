#!/usr/bin/env python3
"""Checks that every definition that a public clause depends on has a comment, and that docs/DEFINITIONS.md names each crate that has one.
The other files of the product's specs/ say in their first line that they are private. docs/CLAIMS.md tells about how many definitions of the product there
are to believe, in about how many lines, and its `unsafe` blocks by crate.

A public clause is one of a `pub fn`, of an export to C, of a method of a trait's impl, or of a `pub trait`, and what a public type says of itself (its
Model, its ghost items). From the names in these clauses the script follows the `ghost use` lines of src/, then the `use` lines of specs/. With --write
it writes out/DEFINITIONS-INDEX.md: the list of them, crates in the order of the guide's table, and at its end the files of specs/ that have none.
"""
from __future__ import annotations

import pathlib
import re
import sys
from typing import Collection, Iterator, Sequence, Tuple

sys.path.insert(0, str(pathlib.Path(__file__).resolve().parents[1]))
from form.documents import FOR_TESTS
from lib.checks import report
from lib.sources import ROOT, blanked, block, crates, function_places

# A definition: its crate, its file of specs/ and its name.
Place = Tuple[str, str, str]
GUIDE = "docs/DEFINITIONS.md"
INDEX = "out/DEFINITIONS-INDEX.md"
CLAIMS = "docs/CLAIMS.md"
UNSAFE = re.compile(r"\bunsafe\s*\{")
PRIVATE = "-- For private functions and proofs alone: "
NAME = re.compile(r"[^\s(){}\[\],;.`\"]+")
USE = re.compile(r"(?:pub )?use\s+(Rattle\.(\w+)\.specs\.([\w.]+))\.\{([^}]*)\}", re.S)
DEFINITION = re.compile(r"^(?:(?:abbrev|unfoldable|opaque|pub|data|record)\s+)*([^\s:(){}]+)\s*(?:[({][^\n]*)?:(?=\s)")


def libraries() -> list[str]:
    """The crates with definitions."""
    return [name for name in crates() if (ROOT / f"crates/{name}/specs").is_dir()]


def imports(text: str, pattern: str | re.Pattern[str], own: Sequence[str]) -> dict[str, Place]:
    """What each name that is brought in stands for: the crate, the file of specs/ and the name there."""
    found = {}
    for use in re.finditer(pattern, text):
        crate, module = use[2], use[3]
        for item in use[4].split(","):
            words = item.split()
            if words and crate in own and "declared" not in module.split("."):
                found[words[-1]] = home(crate, module, words[0])
    return found


def home(crate: str, module: str, name: str) -> Place:
    """The file of a definition. A constructor or a field stands with its type."""
    parts = module.split(".")
    while not (ROOT / f"crates/{crate}/specs/{'/'.join(parts)}.antt").is_file():
        name = parts.pop()
    return crate, "/".join(parts), name


class Specs:
    """A file of specs/: its definitions, each with its text and the comment above it, and what it brings in."""

    def __init__(self, crate: str, module: str, own: Sequence[str]) -> None:
        text = (ROOT / f"crates/{crate}/specs/{module}.antt").read_text()
        self.imports = imports(text, USE, own)
        self.definitions, self.comments = {}, {}
        comment, name = [], None
        for line in text.split("\n"):
            if line.startswith("--"):
                comment = [] if line.startswith("-- ----") else comment + [line.lstrip("- ")]
                continue
            started = DEFINITION.match(line)
            if started and started[1] not in self.definitions and not line.startswith(("use ", "pub use ")):
                name = started[1]
                self.comments[name] = " ".join(comment)
                self.definitions[name] = ""
            if name and line.strip() and not line.startswith(("use ", "pub use ", "pub mod ")):
                self.definitions[name] += line.split(" -- ")[0] + "\n"
            comment = []


def exported(crate: str) -> set[str]:
    """What the root file of a crate hands out."""
    text = blanked((ROOT / f"crates/{crate}/src/lib.rt").read_text())
    names = set(re.findall(r"(?m)^pub (?:const )?(?:fn|struct|enum|trait) (\w+)", text))
    for use in re.findall(r"(?m)^pub use ([^;]*);", text):
        names |= {item.split()[-1] for item in re.split(r"[{},]|::", use) if item.strip()}
    return names


# An export to C, and a public function, in a blanked text.
EXPORT = r'(?m)^pub extern "." fn (\w+)'
PUBLIC = r"(?m)^pub (?:const )?fn (\w+)"


def clauses_in(text: str, begin: str, names: Collection[str] | None = None) -> list[str]:
    """The clauses of the functions that begin so, of all or of these names."""
    return [clause for name, clauses, _, _ in function_places(text, begin) if names is None or name in names for clause in clauses]


IMPL = re.compile(r"(?m)^(?:pub trait (\w+)|impl\b(?:<[^{]*?>)? (?:([\w:]+)(?:<[^{]*?>)? for )?(\w+))[^{;]*")


def public_clauses(text: str, names: set[str]) -> list[str]:
    """The text of all public clauses of a file of src/, where these names are handed out."""
    text = blanked(text)
    found = clauses_in(text, PUBLIC, names) + clauses_in(text, EXPORT)
    for item in IMPL.finditer(text):
        inside = text[item.end() : block(text, item.end())]
        if (item[1] or item[3]) in names:
            found += clauses_in(inside, r"\bfn (\w+)" if item[1] or item[2] else r"\bpub (?:const )?fn (\w+)")
            found += [inside[ghost.end() : block(inside, ghost.end())] for ghost in re.finditer(r"\bghost \w+[^{;]*(?=\{)", inside)]
            found += [inside] if item[2] == "Model" else []
    return found


def named_in_clauses(own: Sequence[str]) -> Iterator[Place]:
    """The definitions that public clauses name."""
    for crate in own:
        names = exported(crate)
        for path in sorted((ROOT / f"crates/{crate}/src").rglob("*.rt")):
            text = path.read_text()
            brought = imports(text, re.compile(r"(ghost) use Rattle\.(\w+)\.specs\.([\w.]+)\.\{([^}]*)\}", re.S), own)
            for clause in public_clauses(text, names):
                yield from (brought[word] for word in sorted(set(NAME.findall(clause))) if word in brought)


def reached(own: Sequence[str]) -> tuple[list[Place], dict[tuple[str, str], Specs]]:
    """Each definition that a public clause depends on: the crate, the file and the name."""
    specs: dict[tuple[str, str], Specs] = {}
    found: dict[Place, None] = {}
    left = list(named_in_clauses(own))[::-1]
    while left:
        crate, module, name = left.pop()
        if (crate, module) not in specs:
            specs[crate, module] = Specs(crate, module, own)
        file = specs[crate, module]
        if name not in file.definitions:
            left += [file.imports[name]] if name in file.imports else []
        elif (crate, module, name) not in found:
            found[crate, module, name] = None
            words = sorted(set(NAME.findall(file.definitions[name])) - {name}, reverse=True)
            known = [word for word in words if word in file.definitions or word in file.imports]
            left += [(crate, module, word) if word in file.definitions else file.imports[word] for word in known]
    return list(found), specs


def guide_rows() -> list[list[list[str]]]:
    """The rows of the guide's table: the crates, and the files to read."""
    rows = re.findall(r"(?m)^\| ((?:`\w+`(?:, )?)+) \| ([^|]*) \|", (ROOT / GUIDE).read_text())
    return [[re.findall(r"`(\w+)`", cell) for cell in row] for row in rows]


def missing_files(rows: list[list[list[str]]]) -> Iterator[str]:
    """The files that the guide sends its reader to, and that aren't there."""
    for names, files in rows:
        for file in files:
            if not any((ROOT / f"crates/{crate}/specs/{file}.antt").is_file() for crate in names):
                yield f"{GUIDE}: no crate of {', '.join(names)} has a file specs/{file}.antt"


HEAD = """# Definitions

Written by `python3 tests/form/definitions.py --write` from the comments in the sources. Every definition that a clause of a
public call depends on, each with the comment above it. [DEFINITIONS.md](../docs/DEFINITIONS.md) is the guide to them.
"""


def table(crate: str, found: Sequence[Place], specs: dict[tuple[str, str], Specs]) -> Iterator[str]:
    """The lines of one crate, if it has any: its files by name, and their definitions in order."""
    modules = sorted({module for owner, module, _ in found if owner == crate})
    if modules:
        yield f"\n## `{crate}`\n\n| File | Definition | It says |\n|---|---|---|\n"
    for module in modules:
        says = {name: comment.replace("|", r"\|") for name, comment in specs[crate, module].comments.items() if (crate, module, name) in found}
        yield from (f"| [{module}](../crates/{crate}/specs/{module}.antt) | `{name}` | {comment} |\n" for name, comment in says.items())


def modules_of(crate: str) -> list[str]:
    """The files of a crate's specs/."""
    folder = ROOT / f"crates/{crate}/specs"
    return [str(path.relative_to(folder).with_suffix("")) for path in sorted(folder.rglob("*.antt")) if path.name != "Lib.antt"]


def wrong_first_lines(own: Sequence[str], needed: Collection[tuple[str, str]]) -> Iterator[str]:
    """The files of the product's specs/ whose first line says wrongly that they are private, or doesn't say it."""
    for crate, module in [(crate, module) for crate in own if not FOR_TESTS.search(crate) for module in modules_of(crate)]:
        file = f"crates/{crate}/specs/{module}.antt"
        marked = (ROOT / file).read_text().startswith(PRIVATE)
        if marked and (crate, module) in needed:
            yield f"{file}: a public clause depends on it, but it begins with '{PRIVATE}'"
        if not marked and (crate, module) not in needed:
            yield f"{file}: no public clause depends on it, but it doesn't begin with '{PRIVATE}'"


def unneeded(own: Sequence[str], needed: Collection[tuple[str, str]]) -> Iterator[str]:
    """A line for each crate with files on which no public clause depends."""
    yield "\n## Files that need not be believed\n\nNo clause of a public call depends on them.\n\n"
    for crate in own:
        if private := [f"[{module}](../crates/{crate}/specs/{module}.antt)" for module in modules_of(crate) if (crate, module) not in needed]:
            yield f"- `{crate}`: {', '.join(private)}\n"


def believed(found: Sequence[Place], specs: dict[tuple[str, str], Specs]) -> Iterator[str]:
    """The rows that docs/CLAIMS.md has of how much is to be believed, in hundreds, so that few changes make another row."""
    of_product = [place for place in found if not FOR_TESTS.search(place[0])]
    lines = sum(specs[crate, module].definitions[name].count("\n") for crate, module, name in of_product)
    owners = len({crate for crate, _, _ in of_product})
    yield f"| definitions that clauses of public calls reach | about {round(len(of_product), -2):,}, in about {round(lines, -2):,} lines of the `specs/` of {owners} crates |"
    blocks = {crate: sum(len(UNSAFE.findall(blanked(path.read_text()))) for path in (ROOT / f"crates/{crate}/src").rglob("*.rt")) for crate in crates()}
    told = ", ".join(f"{count} in `{crate}`" for crate, count in blocks.items() if count and not FOR_TESTS.search(crate))
    yield f"| `unsafe` blocks, whose premises are proved | {told or 'none'} |"


if __name__ == "__main__":
    own, rows = libraries(), guide_rows()
    order = [crate for names, _ in rows for crate in names]
    found, specs = reached(own)
    needed = {(crate, module) for crate, module, _ in found}
    unnamed = sorted({crate for crate, _, _ in found} - set(order))
    wrong = [f"{GUIDE}: its table doesn't name `{crate}`, which has definitions" for crate in unnamed]
    wrong += [f"crates/{c}/specs/{m}.antt: `{n}` has no comment of its own" for c, m, n in found if not specs[c, m].comments[n]]
    wrong += [*missing_files(rows), *wrong_first_lines(own, needed)]
    claims = (ROOT / CLAIMS).read_text()
    wrong += [f"{CLAIMS} doesn't have the row: {row}" for row in believed(found, specs) if row not in claims]
    if sys.argv[1:] == ["--write"]:
        (ROOT / INDEX).parent.mkdir(exist_ok=True)
        lines = [line for crate in order + unnamed for line in table(crate, found, specs)]
        (ROOT / INDEX).write_text(HEAD + "".join([*lines, *unneeded(own, needed)]))
    report(wrong, f"each of the {len(found)} definitions that public clauses depend on has a comment, and the private files say so")

#!/usr/bin/env python3
"""Tries the edits of crates/*/edits, wrong bodies that the prover has to refuse: edits.py RT [CRATE..], edits.py --check

Each edit is made in a copy of its crate, and checked there by `rt check` over what the repository's own checks have kept. Edits of different functions
are made at once. The prover refuses an edit if a goal stays open, or if it refuses an answer, a lemma or a statement of specs/. These show nothing: a name
that is missing in a proof that speaks of what the edit took away, a loop's invariants that fail, an edit that doesn't compile. An edit with nothing else
counts as not tried, and fails. If all edits of a crate are refused, edits/TRIED gets a checksum of its sources and edits, and the goal that refused each.
`--check`, and so the gate, fails if a crate differs from that, has no TRIED, or has one without the goal of an edit. It names the command.
"""
from __future__ import annotations

import contextlib
import hashlib
import pathlib
import re
import shutil
import subprocess
import sys
import tempfile
from typing import Any, Iterable, Iterator, Mapping, NamedTuple

from lib.calls import need_toolchain
from lib.sources import ROOT, blanked, block, changes_of, crates, crates_below, function_places

TRIED = "TRIED"
# A line of TRIED on an edit: its name and the goal that refused it.
NOTED = re.compile(r"^(\S+\.edit): \S", re.MULTILINE)
# How long one check may take, in seconds. The first one may have to prove all that is below.
SECONDS = 3 * 3600
COMMENT = re.compile(r"^\s*(?:--|//).*\n", re.MULTILINE)
IMPORT = re.compile(r"^(.*\buse [^{\n]*)\{([^{}]*)\};?$", re.MULTILINE)
TEXT = re.compile(r'("(?:[^"\\\n]|\\.)*")')
LAST = re.compile(r"[,;]([)}\]])")
# What `rt check` says of a goal that stays open, of one that is false for some values, and of an error in a proof or in a statement. An error may go
# on in further lines.
OPEN = re.compile(r"^\w+ (\S+): no proof: expected answers in (?:\./)?(\S+); `search` did not prove (.*)$", re.MULTILINE)
FALSE = re.compile(r"^note: `([^`]*)` of (\S+) may be false", re.MULTILINE)
WRONG = re.compile(r"^(?:\./)?((?:proofs|specs)/\S+?):\d+:\d+: error: (?:`([^`]*)`: )?(.*(?:\n[ \t]+.*)*)", re.MULTILINE)
# A function's loop invariants. They are written for the body as it was, so an error in them says nothing of its clauses.
INVARIANTS = "Invariants.antt"
MISSING = re.compile(r"has no field|has no `|is not in scope|was not admitted")
REACHED = re.compile(r"^(?:logic=not-proved|only=\d+ proved=\d+)", re.MULTILINE)
# The head of an impl: its trait if it has one, with its first argument, and its type.
IMPL = re.compile(r"^impl(?:<[^{]*?>)? (?:(?:\w+::)*(\w+)(?:<(\(\)|\w*)[^{]*?)? for )?(?:\w+::)*(\w+)", re.MULTILINE)
UNKNOWN = re.compile(r"has no function `([^`]*)`")
UNCOMPILED = re.compile(r"^\S+:\d+:\d+: error.*$", re.MULTILINE)


class Verdict(NamedTuple):
    """What came of an edit: `refused`, `NOT REFUSED` or `NOT TRIED`; and the goal that refused it, or why it shows nothing."""

    came: str
    why: str


def edits_of(crate: str) -> list[pathlib.Path]:
    return sorted((ROOT / "crates" / crate / "edits").glob("*.edit"))


def with_edits() -> list[str]:
    return [crate for crate in crates() if edits_of(crate)]


def meaning(source: str) -> str:
    """A source without what says nothing: comments, layout, the comma behind the last of a list, and whether imports stand in one line or in several."""
    said = COMMENT.sub("", source)
    apart = IMPORT.sub(lambda line: "".join(f"{line[1]}{name.strip()}\n" for name in line[2].split(",")), said)
    joined = "".join(part if part.startswith('"') else re.sub(r"\s+", "", part) for part in TEXT.split(apart))
    return LAST.sub(r"\1", joined)


def checksum(folder: pathlib.Path) -> str:
    """A sum of a crate's sources and edits."""
    known = hashlib.sha256()
    for part in ("src", "specs", "proofs", "edits"):
        for path in sorted((folder / part).rglob("*")):
            if path.suffix in (".rt", ".antt", ".edit"):
                named = path.relative_to(folder).as_posix()
                known.update(f"{named}\n".encode() + hashlib.sha256(meaning(path.read_text()).encode()).digest())
    return known.hexdigest()


def note_of(crate: str) -> pathlib.Path:
    return ROOT / "crates" / crate / "edits" / TRIED


def why_untried(crate: str) -> str:
    """Why a crate's edits have to be tried; empty if they needn't be."""
    if not note_of(crate).is_file():
        return "have edits that weren't tried yet"
    note = note_of(crate).read_text()
    if note.split()[:1] != [checksum(ROOT / "crates" / crate)]:
        return "have changed since their edits were tried"
    if NOTED.findall(note) != [edit.name for edit in edits_of(crate)]:
        return "have a TRIED without the goal that refused each edit"
    return ""


def untried() -> dict[str, list[str]]:
    """The crates whose edits have to be tried, by the reason."""
    found: dict[str, list[str]] = {}
    for crate in with_edits():
        if why := why_untried(crate):
            found.setdefault(why, []).append(crate)
    return found


def judged(status: int, said: str) -> Verdict:
    """What an edit has come to, by how the check of its crate ended and what it said."""
    if status == 0:
        return Verdict("NOT REFUSED", "the crate is still proved")
    if not REACHED.search(said):
        found = UNCOMPILED.search(said)
        return Verdict("NOT TRIED", f"it doesn't reach the prover: {found[0] if found else said[-200:]}")
    wrong = [(pathlib.PurePath(file), name, text) for file, name, text in WRONG.findall(said)]
    empty = [(file, text) for file, _, text in wrong if MISSING.search(text) or file.name == INVARIANTS]
    lost = {file.parent for file, _ in empty}
    false = set(FALSE.findall(said))
    opened = [(goal, function, file) for function, file, goals in OPEN.findall(said) for goal in re.findall(r"`([^`]+)`", goals)]
    # a goal of a function whose proof lacks a name or an invariant may be open for that alone, unless values are known at which it is false
    goals = [f"`{goal}` of {function}" for goal, function, file in opened if pathlib.PurePath(file).parent not in lost or (goal, file) in false]
    goals += [f"`{name}` of {file}" for file, name, text in wrong if name and (file, text) not in empty]
    if goals:
        return Verdict("refused", goals[0])
    names = [f"{file}: {' '.join(text.split())[:200]}" for file, text in empty]
    return Verdict("NOT TRIED", f"only a name or an invariant is missing: {names[0]}" if names else f"no goal refuses it: {said[-200:]}")


def copy_crate(crate: str, to: pathlib.Path) -> pathlib.Path:
    """A crate in a copy of all, with what checks of it and of those below have kept."""
    shutil.copytree(ROOT / "crates", to / "crates", ignore=shutil.ignore_patterns("out", "must-fail", "__pycache__"))
    for entry in ("crates.txt", "HANDLES"):
        shutil.copy(ROOT / entry, to)
    for below in crates_below(crate):
        part = "out" if below == crate else "out/rlib"
        if (kept := ROOT / "crates" / below / part).is_dir():
            shutil.copytree(kept, to / "crates" / below / part)
    return to / "crates" / crate


def checked(rt: str, copied: pathlib.Path, *words: str) -> tuple[int, str]:
    """How a check of the copy with these options ends, and what it says."""
    how: dict[str, Any] = {"stdin": subprocess.DEVNULL, "stdout": subprocess.PIPE, "stderr": subprocess.STDOUT, "text": True, "errors": "replace"}
    try:
        done = subprocess.run([rt, "check", *words], cwd=copied, timeout=SECONDS, **how)
    except subprocess.TimeoutExpired:
        return 1, f"its check hadn't ended after {SECONDS} seconds"
    return done.returncode, done.stdout


class Place(NamedTuple):
    """The function that an edit changes: its module or that of its type, its impl, or an empty text, and its name."""

    module: str
    impl: str
    function: str

    def path(self) -> str:
        return "::".join(part for part in self if part)


def module_of(copied: pathlib.Path, file: pathlib.Path) -> str:
    return "::".join((copied.name, *file.relative_to(copied / "src").with_suffix("").parts))


def impl_around(code: str, at: int) -> tuple[str, str]:
    """The type of the impl around a place of a blanked text, and its trait with an argument; empty texts if there is none."""
    for found in IMPL.finditer(code, 0, at):
        if at < block(code, code.index("{", found.end())):
            trait, argument, kind = found.groups("")
            return kind, trait + argument.replace("()", "Unit")
    return "", ""


def function_around(copied: pathlib.Path, file: pathlib.Path, old: str) -> Place | None:
    """The function in whose body a text of a file stands, by the name that `rt check` has for it: its type's module counts, and not its own."""
    code, at = blanked(file.read_text()), file.read_text().find(old)
    inside = [name for name, _, begin, end in function_places(code) if begin <= at and at + len(old) <= end]
    if not inside:
        return None
    kind, trait = impl_around(code, at)
    declared = re.compile(rf"\b(?:struct|enum) {kind}\b")
    homes = [home for home in (file, *sorted((copied / "src").rglob("*.rt"))) if kind and declared.search(blanked(home.read_text()))]
    return Place(module_of(copied, homes[0] if homes else file), kind + trait, inside[-1])


def place_of(copied: pathlib.Path, edit: pathlib.Path) -> Place | None:
    """The function in whose body all changes of an edit lie. None if they lie elsewhere, or in the crate's root."""
    found: set[Place] = set()
    for name, old, _ in changes_of(edit):
        if pathlib.PurePath(name).parts[0] != "src" or name in ("src/lib.rt", "src/main.rt"):
            return None
        place = function_around(copied, copied / name, old)
        if place is None:
            return None
        found.add(place)
    return found.pop() if len(found) == 1 else None


def checked_alone(rt: str, copied: pathlib.Path, places: Iterable[Place]) -> tuple[int, str]:
    """How a check of these functions alone ends, and what it says. Those that it doesn't know by that name are left out."""
    paths = {place.path() for place in places}
    while True:
        status, said = checked(rt, copied, *(word for path in sorted(paths) for word in ("--only", path)))
        unknown = UNKNOWN.search(said)
        if not unknown or unknown[1] not in paths or len(paths) == 1:
            return status, said
        paths.remove(unknown[1])


def about(place: Place, said: str) -> str:
    """Of what a check says that reached the prover the part on this function."""
    function = re.compile(rf"{place.module}::(?:\S+::)?{place.function}(?:::|$)")
    proof = re.compile(rf"proofs/{'/'.join(place.module.split('::')[1:])}/(?:\S+/)?{place.function}/")
    parts = [found[0] for found in OPEN.finditer(said) if function.match(found[1])]
    parts += [found[0] for found in FALSE.finditer(said) if proof.match(found[2])]
    parts += [found[0] for found in WRONG.finditer(said) if proof.match(found[1])]
    return "\n".join([*parts, REACHED.findall(said)[-1], ""])


@contextlib.contextmanager
def made(copied: pathlib.Path, edits: Iterable[pathlib.Path]) -> Iterator[None]:
    """The copy with these edits, and afterwards as it was."""
    before: dict[pathlib.Path, str] = {}
    try:
        for name, old, new in (change for edit in edits for change in changes_of(edit)):
            path = copied / name
            text = path.read_text()
            before.setdefault(path, text)
            path.write_text(text.replace(old, new))
        yield
    finally:
        for path, text in before.items():
            path.write_text(text)


def groups_of(places: Mapping[pathlib.Path, Place]) -> list[dict[pathlib.Path, Place]]:
    """The edits in groups, in which no two are of one function."""
    groups: list[dict[pathlib.Path, Place]] = []
    for edit, place in places.items():
        for group in groups:
            if place not in group.values():
                group[edit] = place
                break
        else:
            groups.append({edit: place})
    return groups


def tried_together(rt: str, copied: pathlib.Path, group: Mapping[pathlib.Path, Place]) -> Iterator[tuple[pathlib.Path, Verdict]]:
    """Those edits of a group that are refused, each by a goal of its own function: its body is all that an edit changes, and no other function sees it."""
    with made(copied, group):
        status, said = checked_alone(rt, copied, group.values())
    if status == 1 and REACHED.search(said):
        verdicts = {edit: judged(1, about(place, said)) for edit, place in group.items()}
        yield from ((edit, verdict) for edit, verdict in verdicts.items() if verdict.came == "refused")


def try_edits(rt: str, copied: pathlib.Path) -> Iterator[tuple[pathlib.Path, Verdict]]:
    """What comes of each edit of a copied crate. Those of different functions are made at once, and alone only if nothing refused them then."""
    left = []
    for edit in sorted((copied / "edits").glob("*.edit")):
        if all(old in (copied / file).read_text() for file, old, _ in changes_of(edit)):
            left.append(edit)
        else:
            yield edit, Verdict("NOT TRIED", "a text that it changes isn't in its file")
    places = {edit: place for edit in left if (place := place_of(copied, edit))}
    for group in groups_of(places):
        for edit, verdict in tried_together(rt, copied, group):
            left.remove(edit)
            yield edit, verdict
    for edit in left:
        with made(copied, [edit]):
            found = judged(*checked_alone(rt, copied, [places[edit]])) if edit in places else None
            yield edit, found if found and found.came == "refused" else judged(*checked(rt, copied))


def try_crate(rt: str, crate: str) -> tuple[int, int]:
    """How many edits of a crate are refused, and how many aren't."""
    with tempfile.TemporaryDirectory(prefix="bpfagent-edits-") as folder:
        copied = copy_crate(crate, pathlib.Path(folder))
        whole = judged(*checked(rt, copied))
        if whole.came != "NOT REFUSED":
            print(f"edits: {crate} isn't proved without an edit: {whole.why}", flush=True)
            return 0, len(edits_of(crate))
        refused: dict[str, str] = {}
        for edit, found in try_edits(rt, copied):
            print(f"edits: {crate}/{edit.name}: {found.came}: {found.why}", flush=True)
            if found.came == "refused":
                refused[edit.name] = found.why
        wrong = len(edits_of(crate)) - len(refused)
        if not wrong:
            lines = "".join(f"{name}: {goal}\n" for name, goal in sorted(refused.items()))
            note_of(crate).write_text(f"{checksum(copied)}  {len(refused)} refused\n{lines}")
        return len(refused), wrong


def say_changed() -> int:
    """How many crates there are whose edits have to be tried. They are named with the command."""
    found = untried()
    for why, names in found.items():
        print(f"edits: {len(names)} crates {why}: make edits NAME='{' '.join(names)}'", flush=True)
    return sum(len(names) for names in found.values())


if __name__ == "__main__":
    words = sys.argv[1:]
    if not words:
        sys.exit(__doc__)
    if words == ["--check"]:
        sys.exit(1 if say_changed() else 0)
    rt, *names = words
    known = with_edits()
    unknown = [name for name in names if name not in known]
    if unknown:
        sys.exit(f"edits: {', '.join(unknown)}: no crate with a folder edits/")
    chosen = names or [name for found in untried().values() for name in found]
    if not chosen:
        print("edits: no crate has changed since its edits were tried")
        sys.exit()
    need_toolchain(rt)
    try:
        passed, failed = (sum(counts) for counts in zip(*(try_crate(rt, name) for name in chosen)))
    except KeyboardInterrupt:
        sys.exit(130)
    print(f"{passed} passed, {failed} failed")
    sys.exit(1 if failed else 0)

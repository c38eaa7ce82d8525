#!/usr/bin/env python3
"""The header of the library for C is what the sources say: header.py

It has the exports of crates/bpfagent_c: names, parameters, results, fields of structs, numbers of enums, the version. Numbers of stops are those of
`machine`. Its table of answers is that of the calls in examples/embed/, and of the random ones in tests/hostile/library.c.

Where there is a compiler, the header is compiled as C and as C++, and these programs as C, with all warnings as errors.
"""
from __future__ import annotations

import pathlib
import re
import shutil
import sys
import tempfile
from typing import Iterator

sys.path.insert(0, str(pathlib.Path(__file__).resolve().parents[1]))
from lib.checks import run_parts, want, want_equal
from lib.programs import run
from lib.sources import ROOT, uncommented

CRATE = ROOT / "crates/bpfagent_c"
STOPS = ROOT / "crates/machine/specs/Stops.antt"
HEADER = ROOT / "include/bpfagent.h"
TEXT = re.sub(r"(?s)/\*.*?\*/", "", HEADER.read_text())
WARNINGS = ["-Wall", "-Wextra", "-Wpedantic", "-Werror"]

# What is passed in C for a parameter of these types.
STRUCTS = {
    "Agent": "bpfagent", "End": "bpfagent_end", "Registers": "bpfagent_registers", "Refusal": "bpfagent_refusal", "Granted": "bpfagent_grant",
    "Parcel": "bpfagent_parcel", "WrongLine": "bpfagent_wrong_line",
}
# Stops whose name a reply has taken in the header.
STOPS_IN_C = {"Outside": "STOP_OUTSIDE"}
WORDS = {"u8": "uint8_t", "u32": "uint32_t", "u64": "uint64_t", "usize": "size_t", "bool": "bool", **STRUCTS}

Signature = tuple[str, list[str]]


def passed(kind: str) -> list[str]:
    """The types of C in which a parameter of this type is passed."""
    slice_of = re.fullmatch(r"&(mut )?\[(\w+)\]", kind)
    if slice_of:
        return [("" if slice_of[1] else "const ") + WORDS[slice_of[2]] + " *", "size_t"]
    lent = re.fullmatch(r"&mut (\w+)", kind)
    if lent:
        return [WORDS[lent[1]] + " *"]
    return [] if kind == "Global" else [WORDS[kind]]


def sources() -> str:
    return "\n".join(uncommented(path.read_text()) for path in sorted((CRATE / "src").glob("*.rt")))


def exports() -> dict[str, Signature]:
    """Each export, with its result and its parameters as they are in C."""
    found = {}
    for name, taken, given in re.findall(r'pub extern "C" fn (\w+)\(([^)]*)\)(?: -> (\w+))?', sources()):
        kinds = [one.split(":", 1)[1].strip() for one in taken.split(",") if one.strip()]
        found[name] = (WORDS[given] if given else "void", [word for kind in kinds for word in passed(kind)] or ["void"])
    return found


def declared() -> dict[str, Signature]:
    """Each function that the header declares, in the same form."""
    found = re.findall(r"(?m)^(\w+) (bpfagent_\w+)\(([^)]*)\);", TEXT)
    return {name: (given, [re.sub(r"(?<=[* ])\w+$", "", " ".join(one.split())).strip() for one in taken.split(",")]) for given, name, taken in found}


def structs_of_crate() -> Iterator[tuple[str, list[tuple[str, str, str]]]]:
    """Each struct that crosses, as in C. The handle's own fields are no matter of C."""
    for name, body in re.findall(r"(?s)pub struct (\w+) \{(.*?)\n\}", sources()):
        if name in STRUCTS and name != "Agent":
            yield STRUCTS[name], [(field, WORDS[kind], count) for field, kind, count in re.findall(r"pub (\w+): \[?(\w+)(?:; (\d+)\])?,", body)]


def structs_of_header() -> Iterator[tuple[str, list[tuple[str, str, str]]]]:
    for body, name in re.findall(r"(?s)typedef struct \w+ \{(.*?)\n\} (\w+);", TEXT):
        if name != STRUCTS["Agent"]:
            yield name, [(field, kind, count) for kind, field, count in re.findall(r"(?m)^\s*(\w+) (\w+)(?:\[(\d+)\])?;", body)]


def show_functions() -> str:
    ours, theirs = exports(), declared()
    for name in sorted({*ours, *theirs}):
        want(ours.get(name) == theirs.get(name), f"{name}: the crate has {ours.get(name)}, the header {theirs.get(name)}")
    want_equal(dict(structs_of_header()), dict(structs_of_crate()), "the structs of the header")
    return f"{len(ours)} exports"


def stop_numbers() -> dict[str, str]:
    """The numbers of stops, which `machine` defines, by the names that the header has for them."""
    found = re.findall(r"(?m)^stop_number \(?stop\.(\w+).*= (\d+)$", STOPS.read_text())
    names = {name: re.sub(r"(?<=[a-z])(?=[A-Z])", "_", name).upper() for name, _ in found}
    return {STOPS_IN_C.get(name, names[name]): number for name, number in found}


def enums_of_crate() -> dict[str, dict[str, str]]:
    """The numbers of src/numbers.rt by their names, under the headings that name the enums of the header; with those of stops."""
    parts = re.split(r"(?m)^// -+ enum (\w+)$", (CRATE / "src/numbers.rt").read_text())
    numbers = [dict(re.findall(r"const (\w+): \w+ = (.*);", uncommented(part))) for part in parts[::2]]
    want(not numbers[0], f"no heading names the enum of {', '.join(numbers[0])}")
    enums = dict(zip(parts[1::2], numbers[1:]))
    enums["bpfagent_stop"].update(stop_numbers())
    return enums


def enums_of_header() -> dict[str, dict[str, str]]:
    """The numbers that the header declares, in the same form."""
    bodies = re.findall(r"(?s)enum (bpfagent_\w+) \{(.*?)\}", TEXT)
    return {name: dict(re.findall(r"BPFAGENT_(\w+)(?: = (\w+))?", body)) for name, body in bodies}


def show_enums() -> str:
    """The enums are those of the crate, and no definition in specs/Codes.antt has a number of its own."""
    enums, ours = enums_of_header(), enums_of_crate()
    want_equal(sorted(enums), sorted(ours), "the enums of the header")
    for name, numbers in ours.items():
        want_equal(enums[name], numbers, name)
    own = re.findall(r"(?m)^.* = \d+$", (CRATE / "specs/Codes.antt").read_text())
    want(not own, f"specs/Codes.antt cites no constant in {', '.join(own)}")
    told = re.findall(r'case (BPFAGENT_\w+): return "(\w+)";', TEXT)
    want_equal(told, [(f"BPFAGENT_{one}", f"BPFAGENT_{one}") for one in enums["bpfagent_reply"]], "bpfagent_name")
    return f"{sum(map(len, enums.values()))} numbers"


def show_version() -> None:
    """The version of the header, of the library, and of the Python package, which has it as a text."""
    number = int(re.search(r"#define BPFAGENT_VERSION (\d+)", TEXT)[1])
    text = re.search(r'#define BPFAGENT_VERSION_TEXT "([\d.]+)"', TEXT)[1]
    want_equal(text, f"{number // 10000}.{number // 100 % 100}.{number % 100}", "BPFAGENT_VERSION_TEXT")
    want_equal(re.search(r"const VERSION: u32 = (\d+);", sources())[1], str(number), "the version of the library")
    want_equal(re.search(r'(?m)^__version__ = "([\d.]+)"', (ROOT / "python/bpfagent/__init__.py").read_text())[1], text, "the version of the Python package")


EMBED = ROOT / "examples/embed"
MISUSE, FAILING, MACHINE_CALLS, HOSTILE = EMBED / "misuse.c", EMBED / "failing.c", EMBED / "machine_calls.h", ROOT / "tests/hostile/library.c"
# The arguments of a call in C, which may have calls of one level. A call with what it is to answer, and one with all that it may answer.
ARGUMENTS = r"\((?:[^();]|\([^()]*\))*\)"
ANSWERED = re.compile(rf"bpfagent_(\w+){ARGUMENTS}, BPFAGENT_(\w+)")
ALLOWED = re.compile(rf'want\("\w+", bpfagent_(\w+){ARGUMENTS}, ([^;]*)\);')


def answers() -> dict[str, set[str]]:
    """What each call may answer, by the table in the header's first comment."""
    table = re.search(r"(?s)\n   ANSWERS, [^\n]*\n(.*?) \*/", HEADER.read_text())[1]
    return {name: set(told.split()) for names, told in re.findall(r"(?m)^ {6}(\w+(?:, \w+)*) {2,}(.+)$", table) for name in names.split(", ")}


def taking() -> set[str]:
    """The calls that take memory."""
    return {name for name, told in answers().items() if told & {"NOMEM", "FAULT_FAR"}}


def beginning(*kinds: str) -> set[str]:
    """The calls whose first parameters have these types."""
    return {name[9:] for name, (_, taken) in declared().items() if taken[: len(kinds)] == list(kinds)}


def on_agents() -> set[str]:
    return beginning("bpfagent *")


def on_machines() -> set[str]:
    return beginning("bpfagent *", "size_t")


def show_tables() -> str:
    """The header's table of answers has each call, and machine_calls.h each on a machine, with whether it takes memory."""
    table = answers()
    for name, (given, _) in declared().items():
        want((name[9:] in table) == (given == "uint32_t" and name != "bpfagent_version"), f"{name} in the table of answers")
    rows = re.findall(r"(?m)^ {4}CALL\((\w+), (\w+), ", MACHINE_CALLS.read_text())
    wanted = [(name, "TAKES" if name in taking() else "QUIET") for name in on_machines()]
    want_equal(sorted({*rows} ^ {*wanted}), [], f"rows that {MACHINE_CALLS.name} lacks, or has wrongly")
    return f"{sum(map(len, table.values()))} answers"


def expanded(compiler: str, path: pathlib.Path) -> str:
    """A program in C with its macros expanded. In the place of bpfagent.h and the system's headers are empty files."""
    with tempfile.TemporaryDirectory(prefix="header-") as room:
        for source in (path, *EMBED.glob("*.h")):
            for name in (HEADER.name, *re.findall(r"#include <(.+)>", source.read_text())):
                empty = pathlib.Path(room, name)
                empty.parent.mkdir(parents=True, exist_ok=True)
                empty.touch()
        return re.sub(r"\b(bpfagent_\w+) \(", r"\1(", run(compiler, "-E", "-P", "-nostdinc", f"-I{room}", path))


def show_misuse(compiler: str) -> None:
    """misuse.c gets each answer of each call, but for those of a failed allocation."""
    seen: dict[str, set[str]] = {}
    for name, told in ANSWERED.findall(re.sub(r"(?<!_)\bship\(", "bpfagent_ship(", expanded(compiler, MISUSE))):
        seen.setdefault(name, set()).add(told)
    for name, told in answers().items():
        told -= {"NOMEM", "FAULT_FAR"} if name == "returned_from" else {"NOMEM"}
        told |= {"NOAGENT"} if name in on_agents() - {"new", "new_handing"} else set()
        want_equal(sorted(seen.get(name, ())), sorted(told), f"what misuse.c has of bpfagent_{name}")


def show_failing(compiler: str) -> None:
    """failing.c makes each call, and knows which take memory."""
    text = expanded(compiler, FAILING)
    for opening, wanted, what in ((r"took\(\w+, ", taking(), "that take memory"), (r"quiet\(", answers().keys() - taking(), "that take none")):
        found = re.findall(rf'{opening}"[^"]*", bpfagent_(\w+)\(', text)
        want_equal(sorted(set(found)), sorted(wanted), f"the calls of failing.c {what}")


def show_hostile(compiler: str) -> None:
    """library.c makes each call on an agent, and of one on a machine it allows the answers that the header has."""
    text, table = expanded(compiler, HOSTILE), answers()
    want_equal(sorted(on_agents() - set(re.findall(r"bpfagent_(\w+)\(", text))), [], "the calls that library.c doesn't make")
    allowed = {name: set(re.findall(r"BPFAGENT_(\w+)", told)) for name, told in ALLOWED.findall(text)}
    for name in sorted(on_machines()):
        want_equal(sorted(allowed.get(name, ())), sorted(table[name]), f"what library.c allows bpfagent_{name}")


def show_calls() -> str | None:
    """The programs that make each call, as the preprocessor expands them."""
    compilers = [name for name in LANGUAGES["c"] if shutil.which(name)]
    if not compilers:
        return "the calls in C aren't looked at, since there is no compiler"
    for show in (show_misuse, show_failing, show_hostile):
        show(compilers[0])
    return None


ALONE = """#include "bpfagent.h"
int main(void)
{
    bpfagent zeros = { 0 }, agent = BPFAGENT_INIT;
    return bpfagent_address(1, 2) == 0 || zeros.private_words[0] || agent.private_words[1] || bpfagent_name(0)[0] != 'B';
}
"""
LANGUAGES = {"c": ("gcc", "clang", "cc"), "cc": ("g++", "clang++", "c++")}
STANDARDS = {"c": ("c99", "c11", "c17"), "cc": ("c++11", "c++17", "c++20")}


def show_compiled() -> str:
    """That the header alone is C and C++ of each standard, and the programs that make each call are C11, without a warning; how many times one
    was compiled."""
    count = 0
    with tempfile.TemporaryDirectory(prefix="header-") as room:
        made = pathlib.Path(room) / "alone"
        for language, names in LANGUAGES.items():
            made.with_suffix(f".{language}").write_text(ALONE)
            for compiler in filter(None, map(shutil.which, names)):
                for standard in STANDARDS[language]:
                    run(compiler, f"-std={standard}", "-O1", *WARNINGS, f"-I{HEADER.parent}", "-o", made, made.with_suffix(f".{language}"))
                    run(made)
                    count += 1
                for program in (MISUSE, FAILING, HOSTILE) if language == "c" else ():
                    run(compiler, "-std=c11", "-O1", *WARNINGS, f"-I{HEADER.parent}", "-c", "-o", made.with_suffix(".o"), program)
                    count += 1
    return f"compiled {count} times without a warning" if count else "not compiled, since there is no compiler"


if __name__ == "__main__":
    run_parts("header", [show_functions, show_enums, show_version, show_tables, show_calls, show_compiled])

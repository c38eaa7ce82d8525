#!/usr/bin/env python3
"""Compares README.md and docs/PROTOCOL.md with the program and with each other: protocol.py PROGRAM [--write]

The synopsis, the Python client and engine, and the C header have the commands that `bpfagent commands` lists. Of each command of the synopsis the page has a part,
in the same order, and explains each of its replies there or among those of all commands; its tables have no other reply. The examples are those of the
script that the tests run, and README's is what `make run` shows.

With --write it writes that script, and the commands of the synopsis with the replies that the page has for them. A new command comes last there.
"""
from __future__ import annotations

import ast
import difflib
import pathlib
import re
import sys
from typing import Iterator, NamedTuple

sys.path.insert(0, str(pathlib.Path(__file__).resolve().parents[1]))
from lib.checks import Failed, report, want
from lib.commands import ROW
from lib.programs import SECONDS, ended, patience, unreadable
from lib.sources import ROOT

sys.path.append(str(ROOT / "python"))
from bpfagent.limits import WORD
from bpfagent.protocol import CONTENT, HEADED, LIMITS, OTHERS, SYNOPSIS

SELF, NAME = "tests/product/protocol.py", "bpfagent commands"
# What has the synopsis' word for each kind of number.
PACKAGE = "python/bpfagent/protocol.py"
DOCUMENTS = ["README.md", "docs/PROTOCOL.md"]
PROTOCOL = ROOT / "docs/PROTOCOL.md"
SCRIPT = ROOT / "crates/script_runner/data/protocol.script"
SHOWN = ROOT / "crates/bpfagent"
HEAD = f"# The examples of README.md and docs/PROTOCOL.md; {SELF} compares them.\n"
# A line of the synopsis: the command, whose words are single letters or in capitals, and its replies, which begin with a longer word.
LINE = re.compile(r"(?P<command>[a-z]\w*(?: (?:[a-z]|[A-Z]\w*|\.\.))*)(?: +(?P<replies>[a-z]\w.*))?")
# Where the replies begin in the synopsis, unless a command is longer.
COLUMN = 36
CLIENT = ROOT / "python/bpfagent/agent.py"
# The classes with a method for each command. `LineEngine` calls that of `Engine` by its name.
CLASSES = {"Agent": CLIENT, "Engine": CLIENT.with_name("engine.py")}
HEADER = ROOT / "include/bpfagent.h"
# What the synopsis calls a number with these limits, by the package's table. Any number is an address, and six of them begin a machine.
ANY, RANGE_LENGTH = f"0-{WORD}", "{}-{}".format(*LIMITS["LENGTH"])
TABLE = [*((word, limits) for (_, word), limits in OTHERS.items()), *LIMITS.items()]
WORDS = {**{f"{least}-{most}": word for word, (least, most) in TABLE}, ANY: "ADDRESS"}
# A stack has as many bytes as code has slots at most. Before a length it is one of its bytes.
BEFORE_LENGTH = {"0-4095": "OFFSET"}
START = ["FUEL", "A1", "A2", "A3", "A4", "A5"]
BYTES = {str(most): word for word, most in CONTENT.items()}
# The export for a command that grants objects.
GRANTING = {"ship2": "ship_granted"}


class Command(NamedTuple):
    """A line of the table of commands: its name, and the synopsis' words for what comes after it."""

    name: str
    words: list[str]

    @property
    def line(self) -> str:
        return " ".join([self.name, *self.words])


def examples(document: str) -> list[str]:
    """The examples of a document."""
    blocks = re.findall(r"^```(\w*)\n(.*?)^```$", (ROOT / document).read_text(), flags=re.S | re.M)
    return [block for language, block in blocks if not language and "\n> " in block]


def synopsis(text: str) -> dict[str, list[str]]:
    """The replies of each command."""
    found = {}
    for line in SYNOPSIS.search(text)[1].splitlines():
        parsed = LINE.fullmatch(line.rstrip())
        if not parsed:
            raise Failed(f"{PROTOCOL.name}: a line of the synopsis isn't a command with its replies: `{line}`")
        found[parsed["command"]] = parsed["replies"].split(" | ") if parsed["replies"] else []
    return found


def with_commands(text: str, known: list[Command]) -> str:
    """The page as --write leaves it: each command of the table has the replies that the synopsis gives for its name. New commands come last."""
    replies = {command.split()[0]: told for command, told in synopsis(text).items()}
    lines = {command.name: command.line for command in known}
    names = [*(name for name in replies if name in lines), *(name for name in lines if name not in replies)]
    width = max([COLUMN, *(len(line) + 1 for line in lines.values())])
    made = "".join(f"{lines[name]:{width}}{' | '.join(replies.get(name, []))}".rstrip() + "\n" for name in names)
    begin, end = SYNOPSIS.search(text).span(1)
    return text[:begin] + made + text[end:]


def parts(text: str) -> list[tuple[list[str], str]]:
    """The commands of each heading with what stands below it; the stops of a machine stand for all of them."""
    stop = re.compile(r"`stopped m [^`]*`")
    return [(re.findall(r"`([^`]*)`", heading), stop.sub("`stopped m STOP`", part)) for heading, part in HEADED.findall(text)]


def table_of(part: str) -> list[str]:
    """The replies of its table of replies."""
    table = re.search(r"^\| Reply \|.*\n(?:\|.*\n)+", part, re.M)
    return list(dict.fromkeys(re.findall(r"^\| `([^`]*)` \|", table[0], re.M))) if table else []


def unexplained(text: str) -> Iterator[str]:
    """What the page leaves out of the synopsis, or has in another order."""
    replies, pages = synopsis(text), parts(text)
    yield from (f"`{command}` has no replies in the synopsis" for command, told in replies.items() if not told)
    headed = [command for commands, _ in pages for command in commands]
    if headed != list(replies):
        yield from (f"`{command}` of the synopsis has no heading" for command in replies if command not in headed)
        yield from (f"the heading `{command}` isn't in the synopsis" for command in headed if command not in replies)
        if {*headed} == {*replies}:
            yield "the headings aren't in the order of the synopsis"
        return
    of_all = table_of(re.search(r"^## Replies\n(.*?)^## ", text, re.M | re.S)[1])
    below = {command.split()[0]: part for commands, part in pages for command in commands}
    for commands, part in pages:
        known = [reply for command in commands for reply in replies[command]]
        listed = table_of(part)
        if len(commands) == 1 and listed != [reply for reply in known if reply in listed] or not set(listed) <= set(known):
            yield f"the replies of the table of {commands} aren't in the synopsis, in this order"
        whole = part + "".join(below[other] for other in re.findall(r"as `(\w+)` does, with the same replies", part))
        yield from (f"{commands}: `{reply}` isn't explained" for reply in known if f"`{reply}`" not in whole and reply not in of_all)


def missing_stops(text: str) -> list[str]:
    """The stops of the table of `step` that the sentence above the synopsis doesn't name."""
    named = re.search(r"STOP is ([^;]*);", text)[1]
    return [stop for stop in re.findall(r"^\| `stopped m ([^`]*)` \|", text, re.M) if stop != "STOP" and f"`{stop}`" not in named]


def commands(program: str) -> list[Command]:
    """The table that lines are read by, as the program shows it, which reads nothing then. A line that can't be read is refused, since --write would
    take that command from the page."""
    with unreadable() as given:
        status, output, errors = ended(program, "commands", stdin=given, seconds=SECONDS * patience(program))
    want((status, errors) == (0, b"") and output.endswith(b"\n"), f"{NAME} ended with {status}, {output!r}, {errors!r}")
    found = [command_of(line) for line in output.decode().removesuffix("\n").split("\n")]
    want(len({command.name for command in found}) == len(found), f"{NAME} names a command twice")
    return found


def command_of(line: str) -> Command:
    row = ROW.fullmatch(line)
    if not row:
        raise Failed(f"{NAME} has a line that can't be read: {line!r}")
    return Command(row["name"], [*words_of(line, row["limits"].split()), *carried_by(line, row["bytes"]), *["G .."] * bool(row["grants"])])


def words_of(line: str, limits: list[str]) -> list[str]:
    """The words for numbers of these limits."""
    if limits[: len(START)] == [ANY] * len(START):
        return [*START, *words_of(line, limits[len(START) :])]
    if unknown := {*limits} - {*WORDS}:
        raise Failed(f"{NAME}: {line!r} has the limits {', '.join(sorted(unknown))}, for which {PACKAGE} has no word")
    return [BEFORE_LENGTH.get(limit, WORDS[limit]) if after == RANGE_LENGTH else WORDS[limit] for limit, after in zip(limits, [*limits[1:], ""])]


def carried_by(line: str, most: str | None) -> list[str]:
    """The word for so many bytes, where some come."""
    if most and most not in BYTES:
        raise Failed(f"{NAME}: {line!r} has {most} bytes, for which {PACKAGE} has no word")
    return [BYTES[most]] if most else []


def client_methods(tree: ast.Module, name: str) -> dict[str, int]:
    """The methods of a class, without the underscore that sets some apart from a keyword, and how many values each takes."""
    found = next(node for node in tree.body if isinstance(node, ast.ClassDef) and node.name == name)
    methods = [node for node in found.body if isinstance(node, ast.FunctionDef)]
    return {method.name.rstrip("_"): len(method.args.args) - 1 + (len(START) - 1) * bool(method.args.vararg) for method in methods}


def client_lines(tree: ast.Module) -> Iterator[tuple[str, int]]:
    """The lines that the client writes as one text: the name, and how many values come after it."""
    for node in ast.walk(tree):
        if isinstance(node, ast.JoinedStr):
            text = "".join(str(part.value) if isinstance(part, ast.Constant) else "{}" for part in node.values)
            if line := re.fullmatch(r"([a-z]+\d?)((?: \{\})+)", text):
                yield line[1], line[2].count(" ")


def client_drifts(known: list[Command]) -> Iterator[str]:
    """Where the Python client, or the engine, has other commands than the table."""
    trees, counts = {name: ast.parse(path.read_text()) for name, path in CLASSES.items()}, {command.name: len(command.words) for command in known}
    for owner, tree in trees.items():
        methods, file = client_methods(tree, owner), CLASSES[owner].name
        yield from (f"{file}: `{name}` takes {methods.get(name)} values, and not {count}" for name, count in counts.items() if methods.get(name) != count)
    yield from (f"{CLIENT.name} writes `{name}` with {count} values" for name, count in client_lines(trees["Agent"]) if counts.get(name) != count)


def header_drifts(known: list[Command]) -> Iterator[str]:
    """Where the C header has other commands than the table. Bytes and grants are numbers there, how many they are; `room` is the library's own."""
    exports = dict(re.findall(r"^uint32_t bpfagent_(\w+)\(([^)]*)\);", HEADER.read_text(), re.M))
    for command in known:
        name = GRANTING.get(command.name, command.name)
        numbers = [given for given in exports.get(name, "").split(",") if given and "*" not in given and not given.endswith(" room")]
        if len(numbers) != len(command.words):
            yield f"{HEADER.name}: bpfagent_{name} takes {len(numbers)} numbers, and `{command.name}` {len(command.words)}"


def synopsis_drifts(text: str, known: list[Command]) -> Iterator[str]:
    """The lines of the synopsis that --write would change, and what it would make of them."""
    found, made = (SYNOPSIS.search(page)[1].splitlines() for page in (text, with_commands(text, known)))
    if found != made:
        yield f"the synopsis of {PROTOCOL.name} isn't what {NAME} says: {SELF} PROGRAM --write makes it so"
        yield from (line for line in difflib.ndiff(found, made) if line.startswith(("-", "+")))


def wrong(text: str, script: str, known: list[Command]) -> Iterator[str]:
    yield from synopsis_drifts(text, known)
    yield from client_drifts(known)
    yield from header_drifts(known)
    if stops := missing_stops(text):
        yield f"the synopsis of {PROTOCOL.name} doesn't name the stops {stops}"
    yield from (f"{PROTOCOL.name}: {line}" for line in unexplained(text))
    if SCRIPT.read_text() != script:
        yield f"{SCRIPT.name} isn't what {' and '.join(DOCUMENTS)} say: {SELF} PROGRAM --write makes it so"
    pairs = zip(*((SHOWN / name).read_text().splitlines() for name in ("stdin", "stdout")))
    if "".join(f"{command}\n> {reply}\n" for command, reply in pairs) not in examples("README.md"):
        yield "README.md doesn't show the conversation of `make run`, crates/bpfagent/stdin and stdout"


def main() -> None:
    program, *options = sys.argv[1:] or [""]
    if not program or options not in ([], ["--write"]):
        sys.exit((__doc__ or "").split("\n")[0])
    text = PROTOCOL.read_text()
    if not SYNOPSIS.search(text):
        sys.exit(f"{PROTOCOL.name} has no synopsis")
    script = HEAD + "".join("---\n" + "".join(examples(document)) for document in DOCUMENTS)
    try:
        known = commands(program)
        if options:
            text = with_commands(text, known)
            PROTOCOL.write_text(text)
            SCRIPT.write_text(script)
        report(wrong(text, script, known), "README and PROTOCOL show what the tests run, and the synopsis has each command")
    except Failed as failed:
        sys.exit(str(failed))


if __name__ == "__main__":
    main()

"""The commands of docs/PROTOCOL.md, which this package carries: their words, what the page says of each, and why a line is none of them."""
from __future__ import annotations

import difflib
import functools
import keyword
import pathlib
import re
import textwrap
from dataclasses import dataclass
from typing import Iterator, Sequence

from .limits import GRANTS, LINE, LONGEST, MACHINES, OBJECTS, PIECE, SLOTS, STACK_SIZE, WORD
from .printable import printable

NAME = "PROTOCOL.md"
# A wheel has the page beside the modules, and a clone in its docs.
PLACES = (pathlib.Path(__file__).resolve().parent / NAME, pathlib.Path(__file__).resolve().parents[2] / "docs" / NAME)
SYNOPSIS = re.compile(r"^## Synopsis\n.*?^```\n(.*?)^```\n", re.S | re.M)
# A line of the synopsis: a command with its words, and its replies.
ROW = re.compile(r"(?P<name>[a-z]\w*)(?P<words>(?: (?:[a-z]|[A-Z]\w*|\.\.))*) +(?P<replies>[a-z]\w.*)")
HEADED = re.compile(r"^### (`[^\n]*`)\n(.*?)(?=^##|\Z)", re.S | re.M)
LINK = re.compile(r"\[([^\]]*)\]\([^)]*\)")
# A number, bytes and a grant as a line has them.
NUMBER = re.compile("0|[1-9][0-9]{0,19}|0x[0-9a-fA-F]{1,16}")
BYTES = re.compile("(?:[0-9a-fA-F]{2})+")
GRANT = re.compile("[rw][0-9].*")
# What a number may be by the word of the synopsis, and where a command differs. Others are any number of 64 bits.
LIMITS = {"n": (1, OBJECTS), "m": (1, MACHINES), "SLOT": (0, SLOTS - 1), "OFFSET": (0, LONGEST - 1), "LENGTH": (1, PIECE)}
OTHERS = {("make", "LENGTH"): (1, LONGEST), ("stack", "OFFSET"): (0, STACK_SIZE - 1)}
# The words for bytes, and the most of them; code is bounded by the line.
CONTENT = {"BYTES": PIECE, "CODE": LINE}
# Stands for words that grant objects.
GRANTED = "G"
# As much of a word is shown; and so like a command has to be to a word that may mean it.
SHOWN, LIKE = 40, 0.65


@dataclass(frozen=True)
class Command:
    """A command: its name, the words after it, whether grants may follow, and its replies."""

    name: str
    words: tuple[str, ...]
    takes_grants: bool
    replies: tuple[str, ...]

    @property
    def form(self) -> str:
        """How it is written."""
        return " ".join([self.name, *self.words, *[f"{GRANTED} .."] * self.takes_grants])

    @property
    def method(self) -> str:
        """The method of an agent that does it. A keyword of Python can't name one."""
        return f"{self.name}_" if keyword.iskeyword(self.name) else self.name


@functools.lru_cache(maxsize=None)
def page() -> str:
    """The text of the page."""
    place = next((place for place in PLACES if place.is_file()), PLACES[0])
    return place.read_text(encoding="utf-8")


@functools.lru_cache(maxsize=None)
def commands() -> dict[str, Command]:
    """The commands of the synopsis by their names, in its order."""
    synopsis = SYNOPSIS.search(page())
    found = {}
    for row in map(ROW.fullmatch, synopsis[1].splitlines() if synopsis else []):
        if row:
            words = row["words"].split()
            numbers = tuple(word for word in words if word not in (GRANTED, ".."))
            found[row["name"]] = Command(row["name"], numbers, GRANTED in words, tuple(row["replies"].split(" | ")))
    return found


# ---- what the page says


def help_of(name: str, width: int = 100) -> list[str]:
    """What the page says of a command up to its first example, as lines of a terminal."""
    command = commands()[name]
    lines = [command.form, *textwrap.wrap(" | ".join(command.replies), width, initial_indent="> ", subsequent_indent="  ")]
    for heading, text in HEADED.findall(page()):
        if name in {form.split()[0] for form in re.findall(r"`([^`]*)`", heading)}:
            lines += shown(text, width)
    return lines


def shown(text: str, width: int) -> Iterator[str]:
    """A part of the page as a terminal shows it: paragraphs are filled, tables have columns, and the first example stands as it is."""
    for block in text.strip("\n").split("\n\n"):
        lines = block.split("\n")
        yield ""
        if lines[0].startswith("```"):
            yield from (f"    {line}" for line in lines if not line.startswith("```"))
            return
        if lines[0].startswith("|"):
            yield from table(lines, width)
        else:
            for line in lines:
                yield from textwrap.wrap(plain(line), width, subsequent_indent="  " if line.startswith("- ") else "")


def plain(text: str) -> str:
    """A line of Markdown without its marks."""
    return re.sub("[`*]", "", LINK.sub(r"\1", text))


def table(lines: Sequence[str], width: int) -> Iterator[str]:
    """The rows of a table, whose last column is filled."""
    rows = [[plain(cell).strip() for cell in line[1:].rstrip(" |").split(" | ")] for line in lines if not re.fullmatch("[|-]+", line)]
    widths = [max(map(len, column)) for column in zip(*(row[:-1] for row in rows))]
    before = sum(widths) + 2 * len(widths)
    for *cells, last in rows:
        head = "".join(f"{cell:{wide}}  " for cell, wide in zip(cells, widths))
        if before > width // 2:
            yield head.rstrip()
            head = ""
        indent = " " * min(before, width // 4)
        yield from textwrap.wrap(last, width, initial_indent=head or indent, subsequent_indent=" " * len(head) or indent)


# ---- why a line is bad


def why_bad(line: str) -> str:
    """What is wrong with a line that an agent answers `bad`: which word, and what would fit. Empty if the line is a command."""
    size = len(line.encode("utf-8", "surrogateescape"))
    if size > LINE:
        return f"the line has {size} bytes, and a line has up to {LINE}"
    if why := wrong_spaces(line):
        return why
    name, *words = line.split(" ")
    command = commands().get(name)
    if not command:
        return f"there is no command {quoted(name)}{meant(name)}"
    why = wrong_words(command, words)
    return f"{command.form}: {why}" if why else ""


def wrong_spaces(line: str) -> str:
    """What is wrong with what separates words; empty if nothing is."""
    if not line:
        return "the line is empty"
    if line.endswith("\r"):
        return "the line ends with CR and LF, and a line ends with LF alone"
    if "\t" in line:
        return "the line has a tab, and one space separates two words"
    if line.startswith(" ") or line.endswith(" "):
        return f"the line {'begins' if line.startswith(' ') else 'ends'} with a space"
    return "two spaces stand together, and one space separates two words" if "  " in line else ""


def quoted(word: str) -> str:
    """A word as a person reads it."""
    safe = printable(word)
    return f"`{safe}`" if len(safe) <= SHOWN else f"`{safe[:SHOWN]}`.."


def meant(name: str) -> str:
    """Which command a name that is none may mean."""
    found = difflib.get_close_matches(name.lower(), commands(), 1, LIKE)
    return f": did you mean {found[0]}?" if found else ""


def wrong_words(command: Command, words: Sequence[str]) -> str:
    """What is wrong with the words after a command's name; empty if nothing is."""
    for wanted, word in zip(command.words, words):
        why = wrong_content(wanted, word) if wanted in CONTENT else wrong_number(wanted, word, *limits_of(command.name, wanted))
        if why:
            return why
    missing, rest = command.words[len(words) :], words[len(command.words) :]
    if missing:
        *others, last = missing
        return f"{', '.join(others)} and {last} are missing" if others else f"{last} is missing"
    if rest and not command.takes_grants:
        return f"{quoted(rest[0])} is one word too many"
    return wrong_grants(rest)


def limits_of(name: str, word: str) -> tuple[int, int]:
    """What a number of a command may be."""
    return OTHERS.get((name, word), LIMITS.get(word, (0, WORD)))


def wrong_number(wanted: str, word: str, least: int, most: int) -> str:
    """Why a word isn't a number in this range; empty if it is."""
    if NUMBER.fullmatch(word):
        if least <= int(word, 0) <= most:
            return ""
    for form, why in (
        ("0[0-9]+", "a number has no leading zeros"),
        ("[+-][0-9]+", f"a number has no sign; {wanted} is from {least} to {most}"),
        ("0X[0-9a-fA-F]+", "the x of a number in hex is small"),
        ("0x[0-9a-fA-F]{17,}", "a number in hex has up to 16 digits"),
        ("[0-9]+|0x[0-9a-fA-F]+", f"has to be from {least} to {most}"),
        ("[0-9a-fA-F]+", f"a number in hex begins with 0x; {wanted} is from {least} to {most}"),
    ):
        if re.fullmatch(form, word):
            return f"{wanted} is {quoted(word)}, and {why}"
    return f"{wanted} is {quoted(word)}, and no number: {wanted} is from {least} to {most}, in decimal or in hex behind 0x"


def wrong_content(wanted: str, word: str) -> str:
    """Why a word isn't bytes; empty if it is."""
    if word[:2] in ("0x", "0X"):
        return f"{wanted} begins with {word[:2]}, and bytes are hex digits alone"
    strange = re.search("[^0-9a-fA-F]", word)
    if strange:
        return f"{wanted} has {quoted(strange[0])}, which is no hex digit"
    if len(word) % 2:
        return f"{wanted} has {len(word)} hex digits, and a byte has two"
    most = CONTENT[wanted]
    return f"{wanted} has {len(word) // 2} bytes, and up to {most} fit" if len(word) > 2 * most else ""


def wrong_grants(words: Sequence[str]) -> str:
    """What is wrong with words that grant objects; empty if nothing is."""
    last = 0
    for word in words:
        if word[:1] not in ("r", "w"):
            return f"{GRANTED} is {quoted(word)}, and a grant is r or w and an object's number, as in r1"
        if why := wrong_number(f"the object of {quoted(word)}", word[1:], *LIMITS["n"]):
            return why
        number = int(word[1:], 0)
        if number <= last:
            return f"the numbers of grants rise, and {number} doesn't come after {last}"
        last = number
    return f"{len(words)} grants are given, and a machine has up to {GRANTS}" if len(words) > GRANTS else ""

"""The manual page of the library for C, of what include/bpfagent.h says: its comments are text, and its declarations stand as they are."""
from __future__ import annotations

import pathlib
import re
from typing import Callable, Iterator

# The parts of the first comment: a word in capitals, and what is a sentence of its own or goes on with it.
PART = re.compile(r"([A-Z]{4,})(\. |[ ,])(.*)", re.S)
HEADING = re.compile(r"---- (.+)")
# What the preprocessor needs, and nobody reads.
HIDDEN = re.compile(r'#(?:ifndef|ifdef|endif|include)\b.*|#define BPFAGENT_H|extern "C" \{|\}')
Escape = Callable[[str], str]


def blocks_of(text: str) -> Iterator[tuple[str, list[str]]]:
    """Each comment that begins a line, with the code below it up to the next one."""
    comment, code = "", []
    for piece in re.split(r"(?ms)^(/\*.*?\*/)$", text):
        if piece.startswith("/*"):
            yield comment, code
            comment, code = piece[2:-2].strip(), []
        else:
            code = [line for line in piece.strip("\n").split("\n") if line and not HIDDEN.fullmatch(line)]
    yield comment, code


def shown(text: str, escaped: Escape) -> str:
    """A line of a comment, whose quoted words are bold."""
    return "".join(f"\\fB{escaped(part)}\\fR" if at % 2 else escaped(part) for at, part in enumerate(text.split("`")))


def paragraphs(text: str, escaped: Escape) -> Iterator[str]:
    """The paragraphs of a comment. A list has its marks, and what is indented further stands as it is."""
    for block in re.split(r"\n\s*\n", text):
        lines = [re.sub("^   ", "", line) for line in block.split("\n")]
        yield ".PP"
        for line in lines:
            if line.startswith("- "):
                yield from (".IP \\(bu 2", shown(line[2:], escaped))
            elif line.startswith("   "):
                yield from (".br", escaped(line.strip()))
            else:
                yield shown(line.strip(), escaped)


def described(text: str, escaped: Escape) -> Iterator[str]:
    """The first comment, whose parts are sections."""
    yield ".SH DESCRIPTION"
    for block in re.split(r"\n\s*\n", text):
        if found := PART.match(block.strip()):
            yield f".SH {found[1]}"
            block = found[3] if found[2] == ". " else found[1].capitalize() + found[2] + found[3]
        yield from paragraphs(block.strip("\n"), escaped)


def page_of(header: pathlib.Path, date: str, escaped: Escape) -> str:
    """The manual page."""
    text = header.read_text(encoding="utf-8")
    version = re.search(r'BPFAGENT_VERSION_TEXT "([\d.]+)"', text)
    lines = [f'.TH "BPFAGENT" "3" "{date}" "bpfagent {version[1] if version else ""}" "bpfagent"', ".SH NAME"]
    lines += ["bpfagent \\- objects that move between memory and a far store, and small programs beside them, in a process"]
    lines += [".SH SYNOPSIS", ".nf", ".B #include <bpfagent.h>", ".PP", escaped("cc program.c $(pkg-config --cflags --libs bpfagent)"), ".fi"]
    blocks = [(comment, code) for comment, code in blocks_of(text) if comment or code]
    lines += [*described(blocks[0][0], escaped), ".SH DECLARATIONS"]
    for comment, code in blocks[1:]:
        heading = HEADING.fullmatch(comment)
        lines += [f".SS {escaped(heading[1])}"] if heading else paragraphs(comment, escaped)
        if code:
            lines += [".PP", ".RS 4", ".nf", *map(escaped, code), ".fi", ".RE"]
    lines += [".SH SEE ALSO", ".BR bpfagent (1),", ".BR bpfagent\\-protocol (7)"]
    heads = ("", *lines)
    return "\n".join(line for head, line in zip(heads, lines) if line != ".PP" or not head.startswith((".SH", ".SS", ".PP"))) + "\n"

#!/usr/bin/env python3
"""Writes manual pages and completions of commands from their own argument parsers, as JSON: command_pages.py DATE [NAME=MODULE ..]

It needs argparse-manpage and shtab (Debian: python3-argparse-manpage, python3-shtab), and the package's modules on its path. The parser of a
module is what its `parser`, or else its `options`, gives. tools/manual.py calls it.
"""
from __future__ import annotations

import argparse
import importlib
import json
import os
import re
import sys

import shtab

try:
    from argparse_manpage.manpage import Manpage
except ImportError:
    from build_manpages.manpage import Manpage

# Paragraphs are one line each: the pages are filled by whoever shows them.
WIDTH = 100_000
# What an argument of these names is completed with.
FILES = {"FILE", "PATH", "SETUP"}


def parser_of(module: str) -> argparse.ArgumentParser:
    """The parser of a command."""
    found = importlib.import_module(module)
    return (getattr(found, "parser", None) or found.options)()


def escaped(text: str) -> str:
    """A text as roff shows it."""
    return text.replace("\\", "\\e").replace("-", "\\-")


def marked(line: str) -> str:
    """A line of roff whose quoted words are bold."""
    return re.sub("`([^`]*)`", r"\\fB\1\\fR", line)


def page_of(name: str, parser: argparse.ArgumentParser, date: str) -> str:
    """The manual page of a command."""
    about = " ".join((parser.description or name).split())
    parser.man_short_description = escaped(about[0].lower() + about[1:].partition(". ")[0].rstrip(".")).replace("`", "")
    parser._manpage = [{"heading": "notes", "content": " ".join(parser.epilog.split())}] if parser.epilog else []
    made = Manpage(parser)
    # Of a usage of several lines it would show the last.
    made.synopsis = []
    lines = [marked(line) for line in str(made).splitlines() if line.strip()]
    lines[0] = f'.TH "{name.upper()}" "1" "{date}" "{version_of(parser)}" "bpfagent"'
    usage = [line.strip() for line in parser.format_usage().replace("usage: ", "").splitlines()]
    synopsis = [".SH SYNOPSIS", ".nf", *(f"\\fB{name}\\fR{escaped(line.removeprefix(name))}" for line in usage if line), ".fi"]
    at = lines.index(".SH DESCRIPTION") if ".SH DESCRIPTION" in lines else len(lines)
    return "\n".join([*lines[:at], *synopsis, *lines[at:], ".SH SEE ALSO", ".BR bpfagent (1),", ".BR bpfagent\\-protocol (7)"]) + "\n"


def version_of(parser: argparse.ArgumentParser) -> str:
    """What `--version` shows."""
    told = next((action.version for action in parser._actions if hasattr(action, "version")), "")
    return told.replace("%(prog)s", parser.prog)


def completions_of(name: str, parser: argparse.ArgumentParser) -> dict[str, str]:
    """Completion for bash and zsh."""
    for action in parser._actions:
        if action.metavar in FILES:
            action.complete = shtab.FILE
    return {f"completion/{name}.bash": shtab.complete(parser, "bash"), f"completion/_{name}": shtab.complete(parser, "zsh")}


def main() -> None:
    date, *commands = sys.argv[1:]
    os.environ["COLUMNS"] = str(WIDTH)
    written = {}
    for name, module in (command.split("=") for command in commands):
        written[f"man/{name}.1"] = page_of(name, parser_of(module), date)
        written.update(completions_of(name, parser_of(module)))
    json.dump(written, sys.stdout)


if __name__ == "__main__":
    main()

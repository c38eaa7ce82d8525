#!/usr/bin/env python3
"""Writes manual pages, and completion for bash and zsh: manual.py [PROGRAM] [--python] [--documents] [--folder FOLDER]

What they say is what `--help` of the program says, and for `run` and `serve` what docs/PROTOCOL.md says. With --python there are pages
and completion of the Python package's commands too, by their argument parsers. With --documents there is a page of the library for C, of its
header, and pages of the protocol and of the frames of a far store, of docs/. The pages go to FOLDER/man, the completion to
FOLDER/completion; FOLDER is `out` by default. SOURCE_DATE_EPOCH sets the date of the pages.

The parsers are read by argparse-manpage and shtab (Debian: python3-argparse-manpage, python3-shtab). Without these the pages are made of
`--help`, and there is no completion of the package's commands.
"""
from __future__ import annotations

import argparse
import datetime
import json
import os
import pathlib
import re
import subprocess
import sys
from dataclasses import dataclass
from typing import Iterator

ROOT = pathlib.Path(__file__).resolve().parents[1]
sys.path.insert(0, str(ROOT / "tests"))
import header_page
from lib.package import DEBIAN, MODULES, PACKAGE, has

PROTOCOL, FAR_MEMORY, HEADER = ROOT / "docs/PROTOCOL.md", ROOT / "docs/FAR-MEMORY.md", ROOT / "include/bpfagent.h"
FROM_PARSERS = ROOT / "tools/command_pages.py"
NAME = "bpfagent"
SECONDS = 60
# Which part of the protocol is for `serve`; the others are for `run`.
OF_SERVE = "In the service"
# Titles that a manual page has already.
TITLES = {"Synopsis": "Commands and replies"}
# Where a manual has what a page of the repository says.
MANUALS = {"COMMAND-LINE.md": f"{NAME}(1)", "ASSEMBLY.md": f"{NAME}-asm(1)", "PROTOCOL.md": f"{NAME}-run(1)", "FAR-MEMORY.md": f"{NAME}-store(1)"}
OPTION = re.compile(r" +((?:-\w, )?--[\w-]+)(?: <([^>]+)>)? {2,}(\S.*)")
COMMAND = re.compile(r"  ([a-z]\w*) {2,}(\S.*)")


class Unreadable(Exception):
    """Why no manual can be made of what the program says."""


@dataclass(frozen=True)
class Option:
    """An option: its names, the name of its value if it has one, and what it does."""

    names: tuple[str, ...]
    value: str
    about: str


@dataclass(frozen=True)
class Help:
    """What `--help` says."""

    about: str
    usage: str
    commands: dict[str, str]
    options: list[Option]
    rest: list[str]


# ---- what the program says


def told(program: pathlib.Path, *arguments: str) -> str:
    """What the program writes with these arguments."""
    try:
        done = subprocess.run([str(program), *arguments], stdin=subprocess.DEVNULL, stdout=subprocess.PIPE, text=True, timeout=SECONDS)
    except (OSError, subprocess.SubprocessError) as why:
        raise Unreadable(f"{program} can't be run: {why}") from None
    if done.returncode:
        raise Unreadable(f"{program} {' '.join(arguments)} ended with status {done.returncode}")
    return done.stdout


def option_of(line: str) -> Option:
    found = OPTION.fullmatch(line)
    if not found:
        raise Unreadable(f"help has an option that can't be read: {line}")
    return Option(tuple(found[1].split(", ")), found[2] or "", found[3])


def command_of(line: str) -> tuple[str, str]:
    found = COMMAND.fullmatch(line)
    if not found:
        raise Unreadable(f"help has a command that can't be read: {line}")
    return found[1], found[2]


def help_of(text: str) -> Help:
    """The parts of a help text, which blank lines separate."""
    about, *blocks = text.strip("\n").split("\n\n")
    usage, commands, options, rest = "", {}, [], []
    for block in blocks:
        head, *lines = block.split("\n")
        if head.startswith("Usage: "):
            usage = head[len("Usage: "):]
        elif head == "Commands:":
            commands = dict(map(command_of, lines))
        elif head == "Options:":
            options = [option_of(line) for line in lines]
        else:
            rest.append(block)
    if not usage or not options:
        raise Unreadable(f"help has no usage or no options: {about}")
    return Help(about, usage, commands, options, rest)


# ---- manual pages


def escaped(text: str) -> str:
    """A text as roff shows it, also at the beginning of a line."""
    safe = text.replace("\\", "\\e").replace("-", "\\-").replace("`", "\\(ga").replace("^", "\\(ha").replace("~", "\\(ti")
    return "\\&" + safe if safe[:1] in (".", "'") else safe


def preformatted(lines: list[str]) -> list[str]:
    return [".PP", ".RS 4", ".nf", *map(escaped, lines), ".fi", ".RE"]


def paragraph(block: str) -> Iterator[str]:
    """A paragraph of help. Its indented lines are shown as they are."""
    lines = block.split("\n")
    while lines:
        is_text = not lines[0].startswith("  ")
        count = next((at for at, line in enumerate(lines) if line.startswith("  ") == is_text), len(lines))
        yield from [".PP", *map(escaped, lines[:count])] if is_text else preformatted([line[2:] for line in lines[:count]])
        lines = lines[count:]


def described(blocks: list[str]) -> Iterator[str]:
    """What help says beside the options: a description, the statuses, and examples."""
    statuses, examples = [], []
    yield ".SH DESCRIPTION"
    for block in blocks:
        if block.startswith("Example:\n"):
            examples += [line[2:] for line in block.split("\n")[1:]]
            continue
        text, *found = re.split(r"Status (\d):\s", block)
        statuses += [(found[at], found[at + 1].replace("\n", " ").strip()) for at in range(0, len(found), 2)]
        if text.strip():
            yield from paragraph(text.strip("\n "))
    yield ".SH EXIT STATUS"
    for number, meaning in statuses:
        yield from [".TP", f".B {number}", escaped(meaning)]
    if examples:
        yield from [".SH EXAMPLES", *preformatted(examples)]


def listed(options: list[Option]) -> Iterator[str]:
    yield ".SH OPTIONS"
    for option in options:
        names = ", ".join(f"\\fB{escaped(name)}\\fR" for name in option.names)
        yield from [".TP", f"{names} \\fI{escaped(option.value)}\\fR" if option.value else names, escaped(option.about)]


def linked(text: str) -> str:
    """The text of links; a page that has a manual is named by that."""
    text = re.sub(r"\[([^\]]*)\]\([^)]*\)", r"\1", text)
    for page, manual in MANUALS.items():
        text = re.sub(rf"`?(?:docs/)?{re.escape(page)}`?", manual, text)
    return text


def inline(text: str) -> str:
    """A text of Markdown: code and what is strong are bold."""
    parts = re.split(r"(`[^`]*`|\*\*[^*]*\*\*|\*[^*]+\*)", linked(text))
    shown = ""
    for part in parts:
        font = "I" if re.fullmatch(r"\*[^*]+\*", part) else "B"
        marked = part[:1] in ("`", "*") and len(part) > 1
        shown += f"\\f{font}{escaped(part.strip('`*'))}\\fR" if marked else escaped(part)
    return "\\&" + shown if shown[:1] in (".", "'") else shown


def rows_of(lines: list[str]) -> Iterator[list[str]]:
    """The rows of a table, with that of its head. An empty first cell repeats the one above."""
    first = ""
    for line in (lines[0], *lines[2:]):
        cells = [cell.strip() for cell in line.strip("|").split(" | ")]
        first = cells[0] or first
        yield [first, *cells[1:]]


def tagged(lines: list[str]) -> Iterator[str]:
    """A table: each row's first cell, and the others below it. If there are several, the head says what each is."""
    head, *rows = rows_of(lines)
    for tag, *cells in rows:
        text = cells[0] if len(cells) == 1 else "; ".join(f"{name}: {cell}" for name, cell in zip(head[1:], cells) if cell)
        yield from [".TP", f"\\fB{inline(tag)}\\fR", inline(text)]


def blocks_of(text: str) -> Iterator[list[str]]:
    """The blocks of a page of Markdown: code with its fences, or lines up to a blank one."""
    block: list[str] = []
    is_code = False
    for line in [*text.splitlines(), ""]:
        is_fence = line.startswith("```")
        if is_fence and not is_code or not line and not is_code:
            if block:
                yield block
            block = []
        if line or is_code:
            block.append(line)
        if is_fence and is_code:
            yield block
            block = []
        is_code = is_code != is_fence


def from_markdown(text: str) -> Iterator[str]:
    """The lines of a manual page that say what a part of a page of Markdown says."""
    for lines in blocks_of(text):
        head = lines[0]
        if head.startswith("```"):
            yield from preformatted(lines[1:-1])
        elif head.startswith("#"):
            level, _, title = head.partition(" ")
            title = TITLES.get(title, title)
            yield f".SH {inline(title).upper()}" if len(level) == 2 else f".SS {inline(title)}"
        elif head.startswith("|"):
            yield from tagged(lines)
        elif head.startswith("- "):
            for item in "\n".join(lines)[2:].split("\n- "):
                yield from [".IP \\(bu 2", inline(item.replace("\n", " "))]
        else:
            yield from [".PP", *map(inline, lines)]


def protocol_of(name: str) -> Iterator[str]:
    """What the protocol says for this command."""
    parts = re.split(r"(?m)^(?=## )", PROTOCOL.read_text(encoding="utf-8"))[1:]
    for part in parts:
        is_of_serve = part.startswith(f"## {OF_SERVE}\n")
        if name == "serve" and is_of_serve or name == "run" and not is_of_serve:
            yield from from_markdown(part)


def date() -> str:
    """The date of the pages: today, or that of SOURCE_DATE_EPOCH."""
    seconds = os.environ.get("SOURCE_DATE_EPOCH")
    try:
        when = datetime.datetime.fromtimestamp(int(seconds), datetime.timezone.utc) if seconds else datetime.datetime.now(datetime.timezone.utc)
    except (ValueError, OverflowError, OSError):
        raise Unreadable(f"SOURCE_DATE_EPOCH is {seconds}, which is no time in seconds") from None
    return when.strftime("%Y-%m-%d")


def page(name: str, version: str, said: Help, others: list[str]) -> str:
    """A manual page: of the program, or of the command of this name."""
    title = f"{NAME}-{name}" if name else NAME
    about = said.about[0].lower() + said.about[1:]
    lines = [f'.TH "{title.upper()}" "1" "{date()}" "{version}" "{NAME}"', ".SH NAME", f"{escaped(title)} \\- {escaped(about)}"]
    lines += [".SH SYNOPSIS", f".B {escaped(said.usage)}", *described(said.rest)]
    if said.commands:
        lines.append(".SH COMMANDS")
        for command, about in said.commands.items():
            lines += [".TP", f".BR {escaped(f'{NAME}-{command}')} (1)", escaped(about)]
    lines += [*listed(said.options), *protocol_of(name), ".SH SEE ALSO"]
    lines += [f".BR {escaped(other)} (1){',' if other != others[-1] else ''}" for other in others]
    # a heading begins a paragraph by itself
    heads = ("", *lines)
    return "\n".join(line for head, line in zip(heads, lines) if line != ".PP" or not head.startswith((".SH", ".SS"))) + "\n"


def command_page(name: str, version: str, text: str) -> str:
    """A manual page of a command of the Python package, by its help: usage, what it does, and blocks whose first line ends with a colon."""
    usage, about, *blocks = text.strip("\n").split("\n\n")
    sentence = " ".join(about.split()).partition(". ")[0].rstrip(".")
    lines = [f'.TH "{name.upper()}" "1" "{date()}" "{version}" "{NAME}"', ".SH NAME", f"{name} \\- {escaped(sentence[0].lower() + sentence[1:])}"]
    lines += [".SH SYNOPSIS", ".nf", *(escaped(line.replace("usage: ", "").strip()) for line in usage.split("\n")), ".fi"]
    lines += [".SH DESCRIPTION", *map(escaped, about.split("\n"))]
    for block in blocks:
        head, *rest = block.split("\n")
        lines += [f".SH {escaped(head[:-1].upper())}", ".nf", *map(escaped, rest), ".fi"] if head.endswith(":") else [".SH NOTES", *map(escaped, (head, *rest))]
    return "\n".join([*lines, ".SH SEE ALSO", f".BR {NAME} (1)"]) + "\n"


def quoted(page: str) -> str:
    """A page whose words of a terminal stand in quotes, for help marks them as Markdown does."""
    return page.replace("\\(ga", "`").replace("`", "\\(aq")


def of_parsers(python: str) -> dict[str, str]:
    """The same and completion, of the commands' argument parsers, by a Python that has what reads them."""
    words = [python, "-B", str(FROM_PARSERS), date(), *(f"{name}={module}" for name, module in MODULES.items())]
    known = {**os.environ, "PYTHONPATH": str(PACKAGE), "PYTHONDONTWRITEBYTECODE": "1"}
    done = subprocess.run(words, stdout=subprocess.PIPE, text=True, timeout=SECONDS, env=known, check=True)
    found: dict[str, str] = json.loads(done.stdout)
    return found


def commands_pages() -> dict[str, str]:
    """The manual pages of the Python package's commands, by their path in the folder."""
    readers = [python for python in (sys.executable, DEBIAN) if has(python, "shtab, build_manpages") or has(python, "shtab, argparse_manpage")]
    if readers:
        return {path: quoted(text) if path.startswith("man/") else text for path, text in of_parsers(readers[0]).items()}
    known = {**os.environ, "PYTHONPATH": str(PACKAGE), "COLUMNS": "80", "PYTHONDONTWRITEBYTECODE": "1"}
    written = {}
    for name, module in MODULES.items():
        said = []
        for option in ("--version", "--help"):
            done = subprocess.run([sys.executable, "-m", module, option], stdout=subprocess.PIPE, text=True, timeout=SECONDS, env=known, check=True)
            said.append(done.stdout)
        written[f"man/{name}.1"] = quoted(command_page(name, said[0].strip(), said[1]))
    return written


def document_page(name: str, about: str, text: str) -> str:
    """A manual page of section 7, of a text of Markdown."""
    version = re.search(r'BPFAGENT_VERSION_TEXT "([\d.]+)"', HEADER.read_text())
    title = escaped(f"{NAME}-{name}")
    lines = [f'.TH "{title.upper()}" "7" "{date()}" "{NAME} {version[1] if version else ""}" "{NAME}"', ".SH NAME", f"{title} \\- {escaped(about)}"]
    lines += [*from_markdown(text), ".SH SEE ALSO", f".BR {NAME} (1),", f".BR {NAME} (3)"]
    heads = ("", *lines)
    return "\n".join(line for head, line in zip(heads, lines) if line != ".PP" or not head.startswith((".SH", ".SS"))) + "\n"


def documents_pages() -> dict[str, str]:
    """The manual pages of the library, of the protocol and of the frames, by their path in the folder."""
    protocol = PROTOCOL.read_text(encoding="utf-8").partition("\n")[2]
    frames = re.search(r"(?ms)^## Frames\n(.*?)(?=^## |\Z)", FAR_MEMORY.read_text(encoding="utf-8"))
    if not frames:
        raise Unreadable(f"{FAR_MEMORY} has no part on frames")
    return {
        f"man/{NAME}.3": header_page.page_of(HEADER, date(), escaped),
        f"man/{NAME}-protocol.7": document_page("protocol", "commands and replies of bpfagent run and bpfagent serve", f"## Description\n{protocol}"),
        f"man/{NAME}-frames.7": document_page("frames", "requests to a far store, and its answers", f"## Description\n{frames[1]}"),
    }


# ---- completion


def words_of(said: Help) -> list[str]:
    return [*said.commands, *(name for option in said.options for name in option.names if name.startswith("--"))]


BASH = """# Completion of {name} for bash. Load it by: source {name}.bash
_{name}() {{
    local word="${{COMP_WORDS[COMP_CWORD]}}" previous="${{COMP_WORDS[COMP_CWORD - 1]}}" command="" at
    COMPREPLY=()
    for ((at = 1; at < COMP_CWORD; at++)); do
        case "${{COMP_WORDS[at]}}" in
            {commands}) command="${{COMP_WORDS[at]}}"; break ;;
        esac
    done
    case "$command $previous" in
        {values}) return ;;
    esac
    case "$command" in
{cases}
    esac
}}
complete -F _{name} {name}
"""


def bash(top: Help, helps: dict[str, Help]) -> str:
    """Completion for bash: commands, then the options of the one that was given. A value is left to the user."""
    values = [f'"{name} {option}"' for name, said in helps.items() for known in said.options if known.value for option in known.names]
    offers = {'""': top, **helps}
    cases = [f'        {name}) COMPREPLY=($(compgen -W "{" ".join(words_of(said))}" -- "$word")) ;;' for name, said in offers.items()]
    return BASH.format(name=NAME, commands="|".join(top.commands), values="|".join(values), cases="\n".join(cases))


ZSH = """#compdef {name}
# Completion of {name} for zsh. It lies in a folder of fpath, as _{name}.
_{name}() {{
    local -a commands
    commands=(
{commands}
    )
    if (( CURRENT == 2 )); then
        _describe command commands
        _arguments {options}
        return
    fi
    local command="$words[2]"
    shift words
    (( CURRENT-- ))
    case "$command" in
{cases}
    esac
}}
if [[ "$funcstack[1]" == "_{name}" ]]; then
    _{name} "$@"
else
    compdef _{name} {name}
fi
"""


def zsh_quoted(text: str) -> str:
    return "'" + text.replace("'", "'\\''") + "'"


def zsh_option(option: Option) -> str:
    """An option as `_arguments` takes it."""
    about = re.sub(r"([\[\]:\\])", r"\\\1", option.about)
    value = f":{option.value.replace(':', chr(92) + ':')}: " if option.value else ""
    return " ".join(zsh_quoted(f"{name}[{about}]{value}") for name in option.names)


def zsh(top: Help, helps: dict[str, Help]) -> str:
    commands = [f"        {zsh_quoted(f'{name}:{about}')}" for name, about in top.commands.items()]
    cases = [f"        {name}) _arguments {' '.join(map(zsh_option, said.options))} ;;" for name, said in helps.items()]
    return ZSH.format(name=NAME, commands="\n".join(commands), options=" ".join(map(zsh_option, top.options)), cases="\n".join(cases))


# ---- all of it


def files(program: pathlib.Path) -> dict[str, str]:
    """What is written, by its path in the folder."""
    version = told(program, "--version").strip()
    top = help_of(told(program, "--help"))
    helps = {name: help_of(told(program, name, "--help")) for name in top.commands}
    names = [NAME, *(f"{NAME}-{name}" for name in helps)]
    written = {}
    for name, said in {"": top, **helps}.items():
        title = f"{NAME}-{name}" if name else NAME
        written[f"man/{title}.1"] = page(name, version, said, [other for other in names if other != title])
    written[f"completion/{NAME}.bash"] = bash(top, helps)
    written[f"completion/_{NAME}"] = zsh(top, helps)
    return written


def main() -> None:
    parser = argparse.ArgumentParser(description="Writes manual pages, and completion for bash and zsh, from the program's own help.")
    parser.add_argument("program", type=pathlib.Path, nargs="?", help="the program, such as crates/bpfagent/out/bpfagent")
    parser.add_argument("--python", action="store_true", help="write pages of the Python package's commands too")
    parser.add_argument("--documents", action="store_true", help="write pages of the library, of the protocol and of the frames too")
    parser.add_argument("--folder", type=pathlib.Path, default=ROOT / "out", help="where man/ and completion/ are written (default: out)")
    given = parser.parse_args()
    if not (given.program or given.python or given.documents):
        parser.error("name the program, or give --python or --documents")
    try:
        written = files(given.program.resolve()) if given.program else {}
        written |= commands_pages() if given.python else {}
        written |= documents_pages() if given.documents else {}
        for path, text in written.items():
            file = given.folder / path
            file.parent.mkdir(parents=True, exist_ok=True)
            file.write_text(text, encoding="utf-8")
    except (Unreadable, OSError, subprocess.SubprocessError) as why:
        sys.exit(f"manual.py: {why}")
    print(f"wrote {', '.join(written)} to {given.folder}")


if __name__ == "__main__":
    main()

#!/usr/bin/env python3
"""Tests the script that writes manual pages and completion: manual.py PROGRAM

Each page has each option and, for `run`, each command of the protocol, and man takes it without a warning. Bash and zsh offer them. What isn't installed
is left out, and the last line says so.
"""
from __future__ import annotations

import os
import pathlib
import re
import shutil
import subprocess
import sys
import tempfile
from typing import Sequence

sys.path.insert(0, str(pathlib.Path(__file__).resolve().parents[1]))
from lib import package
from lib.checks import run_parts, want
from lib.programs import patience
from lib.sources import ROOT

SCRIPT = ROOT / "tools/manual.py"
SECONDS = 60
COMMANDS = re.findall(r"(?m)^## `bpfagent (\w+)`", (ROOT / "docs/COMMAND-LINE.md").read_text())
# Prints what zsh is offered: it stands for the functions of zsh that show it.
ZSH = """compdef() { : }
_describe() { local -a shown; shown=("${(@P)2}"); print -rl -- "${shown[@]%%:*}" }
_arguments() { print -rl -- "${@%%\\[*}" }
source "$1"
shift
words=("$@")
CURRENT=$#words
_bpfagent
"""
BASH = """source "$1"
shift
COMP_WORDS=("$@")
COMP_CWORD=$(($# - 1))
_bpfagent
printf "%s\\n" "${COMPREPLY[@]}"
"""


# The same of a completion whose function has another name.
OTHER_BASH = """source "$1"
function="$2"
shift 2
COMP_WORDS=("$@")
COMP_CWORD=$(($# - 1))
"$function"
printf "%s\\n" "${COMPREPLY[@]}"
"""


def called(words: Sequence[str], seconds: float = SECONDS, **environment: str) -> subprocess.CompletedProcess[str]:
    """What a command writes, and how it ends."""
    known = {**os.environ, **environment}
    return subprocess.run(words, env=known, stdin=subprocess.DEVNULL, stdout=subprocess.PIPE, stderr=subprocess.PIPE, text=True, timeout=seconds)


def written(program: str, folder: pathlib.Path) -> None:
    done = called([sys.executable, str(SCRIPT), program, "--folder", str(folder)], SECONDS * patience(program))
    want(done.returncode == 0 and not done.stderr, f"manual.py ended with {done.returncode}, {done.stderr}")
    found = sorted(str(path.relative_to(folder)) for path in folder.rglob("*") if path.is_file())
    names = ["bpfagent", *(f"bpfagent-{name}" for name in COMMANDS)]
    wanted = ["completion/_bpfagent", "completion/bpfagent.bash", *(f"man/{name}.1" for name in names)]
    want(found == sorted(wanted), f"manual.py wrote {found}")


def options_of(program: str, *command: str) -> list[str]:
    """The long options that help names."""
    return re.findall(r"(?m)^ +(?:-\w, )?(--[\w-]+)", called([program, *command, "--help"], SECONDS * patience(program)).stdout)


def show_pages(program: str, folder: pathlib.Path) -> None:
    """Each page names each option, and that of `run` has a part for each command of the protocol."""
    for name in COMMANDS:
        text = (folder / f"man/bpfagent-{name}.1").read_text()
        for option in options_of(program, name):
            want(f"\\fB{option}\\fR".replace("-", "\\-") in text, f"the page of {name} doesn't have {option}")
        want(".SH EXIT STATUS" in text and ".B 0\n" in text, f"the page of {name} doesn't say its statuses")
    run = (folder / "man/bpfagent-run.1").read_text()
    for command in re.findall(r"(?m)^### `(\w+)", (ROOT / "docs/PROTOCOL.md").read_text()):
        want(f".SS \\fB{command}" in run, f"the page of run has no part on {command}")
    want("asked n" in (folder / "man/bpfagent-serve.1").read_text(), "the page of serve doesn't say what is other in the service")


def show_man(program: str, folder: pathlib.Path) -> None:
    """man shows each page as text, and warns of nothing."""
    for path in sorted((folder / "man").iterdir()):
        done = called(["man", "--warnings=all", "-l", str(path)], MANWIDTH="120", LC_ALL="C.UTF-8")
        want(done.returncode == 0 and not done.stderr, f"man of {path.name} ended with {done.returncode}, {done.stderr}")
        left = [mark for mark in ("`", "](", "|--") if mark in done.stdout]
        want(("EXIT STATUS" in done.stdout or folder.name == "others") and not left, f"man of {path.name} shows {left} in {done.stdout}")


def show_mandoc(program: str, folder: pathlib.Path) -> None:
    pages = sorted(map(str, (folder / "man").iterdir()))
    done = called(["mandoc", "-T", "lint", "-W", "warning", *pages])
    want(done.returncode == 0, f"mandoc says {done.stdout}")


def offered(shell: Sequence[str], words: Sequence[str]) -> list[str]:
    done = called([*shell, *words])
    want(done.returncode == 0 and not done.stderr, f"{shell[0]} ended with {done.returncode}, {done.stderr}")
    return done.stdout.split()


def show_bash(program: str, folder: pathlib.Path) -> None:
    shell = ["bash", "--norc", "-c", BASH, "bash", str(folder / "completion/bpfagent.bash"), "bpfagent"]
    want(offered(shell, [""]) == [*COMMANDS, *options_of(program)], f"bash offers {offered(shell, [''])}")
    for begun, wanted in (("s", ["store", "serve"]), ("--v", ["--version"]), ("x", [])):
        want(offered(shell, [begun]) == wanted, f"bash offers {offered(shell, [begun])} after {begun}")
    for name in COMMANDS:
        want(offered(shell, [name, "--"]) == options_of(program, name), f"bash offers {offered(shell, [name, '--'])} to {name}")
    want(offered(shell, ["serve", "--sweep", "--w"]) == ["--workers"], "bash doesn't go on after an option")
    want(offered(shell, ["run", "--budget", ""]) == [], "bash offers a value of --budget")


def show_zsh(program: str, folder: pathlib.Path) -> None:
    shell = ["zsh", "-f", "-c", ZSH, "zsh", str(folder / "completion/_bpfagent"), "bpfagent"]
    found = offered(shell, [""])
    want(found[: len(COMMANDS)] == COMMANDS and set(options_of(program)) <= set(found), f"zsh offers {found}")
    for name in COMMANDS:
        found = offered(shell, [name, ""])
        want(set(options_of(program, name)) <= set(found) and not set(found) & set(COMMANDS), f"zsh offers {found} to {name}")


def show_refusals(program: str, folder: pathlib.Path) -> None:
    """Wrong arguments have status 2 and a usage; a program that can't be asked has status 1 and a line."""
    nowhere = folder / "none"
    for arguments, status in (([], 2), ([program, "x"], 2), ([str(nowhere)], 1), (["/bin/cat"], 1), (["/bin/false"], 1)):
        said = "usage: " if status == 2 else "manual.py: "
        done = called([sys.executable, str(SCRIPT), *arguments, "--folder", str(nowhere)])
        is_refused = done.returncode == status and done.stderr.startswith(said) and not done.stdout
        want(is_refused and not nowhere.exists(), f"manual.py {arguments} ended with {done.returncode}, {done.stderr}")
    for seconds in ("x", "9" * 17, "9" * 30):
        done = called([sys.executable, str(SCRIPT), program, "--folder", str(nowhere)], SECONDS * patience(program), SOURCE_DATE_EPOCH=seconds)
        why = f"manual.py: SOURCE_DATE_EPOCH is {seconds}, which is no time in seconds\n"
        want((done.returncode, done.stderr) == (1, why), f"with SOURCE_DATE_EPOCH {seconds} manual.py ended with {done.returncode}, {done.stderr}")


def show_others(program: str, folder: pathlib.Path) -> None:
    """The pages of the package's commands, of the library and of the documents; and what bash offers to a command, where that can be made."""
    made = folder / "others"
    done = called([sys.executable, str(SCRIPT), "--python", "--documents", "--folder", str(made)], 5 * SECONDS)
    want(done.returncode == 0 and not done.stderr, f"manual.py --python --documents ended with {done.returncode}, {done.stderr}")
    known = package.environment(program)
    for name in package.MODULES:
        said = called([package.python(), "-m", package.MODULES[name], "--help"], **known).stdout
        text = (made / f"man/{name}.1").read_text().replace("\\-", "-")
        missing = [option for option in re.findall(r"(?m)^  (?:-\w, )?(--[\w-]+)", said) if option != "--help" and option not in text]
        want(not missing and ".SH SYNOPSIS" in text, f"the page of {name} doesn't have {missing}")
        completion = made / f"completion/{name}.bash"
        if completion.is_file() and shutil.which("bash"):
            function = re.findall(r"-F (\w+)", completion.read_text())[-1]
            found = offered(["bash", "--norc", "-c", OTHER_BASH, "bash", str(completion), function], [name, "--v"])
            want("--version" in found, f"bash offers {found} to {name}")
    header = (ROOT / "include/bpfagent.h").read_text()
    library = (made / "man/bpfagent.3").read_text().replace("\\-", "-")
    missing = [call for call in re.findall(r"(?m)^\w+ (bpfagent_\w+)\(", header) if call not in library]
    want(not missing, f"the page of the library doesn't have {missing}")
    protocol = (made / "man/bpfagent-protocol.7").read_text()
    missing = [line for line in re.findall(r"(?m)^### `(\w+)", (ROOT / "docs/PROTOCOL.md").read_text()) if f".SS \\fB{line}" not in protocol]
    want(not missing, f"the page of the protocol has no part on {missing}")
    want("\\fBget\\fR" in protocol and "kind: 1 put, 2 get, 3 forget" in (made / "man/bpfagent-frames.7").read_text(), "the frames have no kinds")
    if shutil.which("man"):
        show_man(program, made)


# Each part, and what has to be installed for it.
PARTS = [("", written), ("", show_pages), ("", show_refusals), ("", show_others), ("man", show_man), ("mandoc", show_mandoc), ("bash", show_bash), ("zsh", show_zsh)]


def show_all(program: str) -> str:
    """Each part whose tool is there; which ones aren't."""
    left_out = [tool for tool, _ in PARTS if tool and not shutil.which(tool)]
    with tempfile.TemporaryDirectory() as folder:
        for tool, part in PARTS:
            if tool not in left_out:
                part(program, pathlib.Path(folder))
    return f"not installed, and left out: {', '.join(left_out)}" if left_out else ""


if __name__ == "__main__":
    run_parts("manual", [show_all])

#!/usr/bin/env python3
"""Installs by tools/install.py, with the header in place of the library too: install.py PROGRAM

The launcher passes on arguments, streams, signals and status, and finds the program behind a link, under a prefix with blanks, and where a package has
moved it. Modes under any umask; what --uninstall removes, and what it leaves. Installed examples compile.
"""
from __future__ import annotations

import contextlib
import functools
import os
import pathlib
import shutil
import signal
import subprocess
import sys
import tempfile
from typing import Callable, Iterator

sys.path.insert(0, str(pathlib.Path(__file__).resolve().parents[1]))
from lib.checks import run_parts, want, want_equal
from lib.programs import Process, run
from lib.sources import ROOT

INSTALL = [sys.executable, "-B", str(ROOT / "tools/install.py")]
LIST = "share/bpfagent/installed.txt"
THRESHOLD = "MALLOC_MMAP_THRESHOLD_"
SECONDS = 60
# In place of the program: shows its arguments and the threshold, and ends as the first argument says.
STAND_IN = f"""#!{sys.executable}
import os, sys
sys.stdout.write(ascii((sys.argv[1:], os.environ.get("{THRESHOLD}"))))
sys.stderr.write("errors")
sys.stdout.write(sys.stdin.read())
sys.exit(int(sys.argv[1]))
"""
# Shows which of its streams are closed, and which signals it ignores, by a file.
STREAMS = f"""#!{sys.executable}
import os, sys, signal
closed = [number for number in range(10) if not os.path.exists(f"/proc/self/fd/{{number}}")]
ignored = [number for number in (signal.SIGINT, signal.SIGTERM, signal.SIGHUP) if signal.getsignal(number) == signal.SIG_IGN]
open(sys.argv[1], "w").write(ascii((closed[:3], [int(number) for number in ignored], os.getpid())))
"""
ARGUMENTS = ["7", "", "two words", "$HOME *", "'\"\\", "-n", "line\nend", b"\xff\xfe"]


@contextlib.contextmanager
def installed(program: str, below: str = "prefix", destdir: str = "") -> Iterator[pathlib.Path]:
    """The prefix, in a folder of its own, below which the program is installed."""
    with tempfile.TemporaryDirectory(prefix="install-") as room:
        prefix = pathlib.Path(room) / below
        install(program, prefix, pathlib.Path(room) / destdir if destdir else None)
        yield prefix


def install(program: str, prefix: pathlib.Path, destdir: pathlib.Path | None = None, umask: int = 0o022) -> None:
    options = ["--destdir", destdir] if destdir else []
    run(*INSTALL, "--program", program, "--library", ROOT / "include/bpfagent.h", *options, prefix, preexec_fn=functools.partial(os.umask, umask))


def uninstall(prefix: pathlib.Path) -> str:
    return run(*INSTALL, "--uninstall", prefix)


def stand_in(prefix: pathlib.Path, text: str) -> pathlib.Path:
    """The launcher, for which something stands in place of the program."""
    (prefix / "libexec/bpfagent/bpfagent").write_text(text)
    return prefix / "bin/bpfagent"


def below(prefix: pathlib.Path) -> list[str]:
    """What is there, folders behind which nothing is with a slash."""
    return sorted(str(path.relative_to(prefix)) + "/" * path.is_dir() for path in prefix.rglob("*") if not path.is_dir() or not any(path.iterdir()))


def show_arguments(program: str) -> None:
    """Arguments, input, output, errors and status are those of the program. The threshold is set, unless it was."""
    with installed(program) as prefix:
        launcher = stand_in(prefix, STAND_IN)
        for given, threshold in ((None, "32768"), ("65536", "65536"), ("", "")):
            environment = {name: value for name, value in os.environ.items() if name != THRESHOLD}
            environment |= {} if given is None else {THRESHOLD: given}
            done = subprocess.run([launcher, *ARGUMENTS], input=b"the input", capture_output=True, env=environment, timeout=SECONDS)
            told = ascii(([os.fsdecode(word) for word in ARGUMENTS], threshold))
            want_equal((done.returncode, done.stdout.decode(), done.stderr), (7, told + "the input", b"errors"), "what the launcher passes on")


def want_streams(launcher: pathlib.Path, prepare: Callable[[], None], closed: list[int], ignored: list[int]) -> None:
    """Streams that are closed and signals that are ignored, as this prepares them, are so for the program; it is the same process."""
    note = launcher.parent / "note"

    def begin() -> None:
        # This script itself may ignore them, as under nohup.
        for number in (signal.SIGINT, signal.SIGHUP):
            signal.signal(number, signal.SIG_DFL)
        prepare()

    with subprocess.Popen([launcher, note], preexec_fn=begin, stdout=subprocess.DEVNULL, stderr=subprocess.DEVNULL) as process:
        want_equal(process.wait(SECONDS), 0, "the end of the program")
    want_equal(note.read_text(), ascii((closed, ignored, process.pid)), "closed streams, ignored signals and process behind the launcher")


def show_streams(program: str) -> None:
    """Closed streams, ignored signals, and a signal that ends the program."""
    with installed(program) as prefix:
        launcher = stand_in(prefix, STREAMS)
        want_streams(launcher, lambda: None, [3, 4, 5], [])
        want_streams(launcher, lambda: os.close(0), [0, 3, 4], [])
        want_streams(launcher, lambda: os.closerange(0, 3), [0, 1, 2], [])
        want_streams(launcher, lambda: [signal.signal(it, signal.SIG_IGN) for it in (signal.SIGINT, signal.SIGHUP)] and None, [3, 4, 5], [2, 1])
    with installed(program) as prefix:
        for number in (signal.SIGTERM, signal.SIGINT, signal.SIGKILL):
            heard = functools.partial(signal.signal, signal.SIGINT, signal.SIG_DFL)
            with subprocess.Popen([prefix / "bin/bpfagent", "run"], stdin=subprocess.PIPE, stdout=subprocess.PIPE, preexec_fn=heard) as process:
                process.stdin.write(b"make 8\n")
                process.stdin.flush()
                want_equal(process.stdout.readline(), b"made 1\n", "a reply behind the launcher")
                process.send_signal(number)
                want_equal(process.wait(SECONDS), -number, "how a signal ends the program behind the launcher")


def want_answer(launcher: str | pathlib.Path, what: str, **how: object) -> None:
    """The program is found and answers."""
    with Process(launcher, "run", **how) as process:
        want_equal(process.answer(b"make 8\n"), b"made 1\n", what)


def show_found(program: str) -> None:
    """Through links, by PATH, by a relative name, with blanks in the prefix, and where a package has moved what was installed for it."""
    with installed(program, "a prefix/with  blanks") as prefix:
        want_answer(prefix / "bin/bpfagent", "a prefix with blanks")
        links = prefix.parent / "links/of/others"
        links.mkdir(parents=True)
        (links / "one").symlink_to(prefix / "bin/bpfagent")
        (links / "two").symlink_to("one")
        (prefix / "other").symlink_to("bin")
        for link in (links / "one", links / "two", prefix / "other/bpfagent"):
            want_answer(link, f"the link {link}")
        want_answer("bpfagent", "a program on PATH", env={**os.environ, "PATH": f"{prefix / 'bin'}:{os.environ['PATH']}"})
        want_answer("./bpfagent", "a relative name", cwd=prefix / "bin")
        shutil.copytree(prefix, prefix.parent / "moved", symlinks=True)
        shutil.rmtree(prefix)
        want_answer(prefix.parent / "moved/bin/bpfagent", "an installation that was moved")
    with installed(program, "usr", "stage") as prefix:
        staged = pathlib.Path(f"{prefix.parent}/stage{prefix}")
        want(not prefix.exists() and (staged / LIST).is_file(), "DESTDIR isn't put before the prefix")
        want_answer(staged / "bin/bpfagent", "a stage")


def show_modes(program: str) -> None:
    """Under a umask that keeps others out, folders are 0755, programs too, and other files 0644."""
    with tempfile.TemporaryDirectory(prefix="install-") as room:
        prefix = pathlib.Path(room) / "opt/prefix"
        install(program, prefix, umask=0o077)
        for path in (prefix.parent, prefix, *prefix.rglob("*")):
            wanted = 0o755 if path.is_dir() or path.name == "bpfagent" and path.parent.name in ("bin", "bpfagent") else 0o644
            want_equal(oct(path.stat().st_mode & 0o777), oct(wanted), str(path))


def show_removed(program: str) -> None:
    """What was installed goes, with the folders that were made for it. Those that were there stay, empty as they were."""
    with installed(program) as prefix:
        uninstall(prefix)
        want(not prefix.exists(), f"{below(prefix)} are left of what was installed into a new folder")
        for folder in ("bin", "lib/pkgconfig", "share/man/man1"):
            (prefix / folder).mkdir(parents=True)
        (prefix / "lib/other").write_text("another's\n")
        install(program, prefix)
        (prefix / "include/mine").mkdir()
        uninstall(prefix)
        want_equal(below(prefix), ["bin/", "include/mine/", "lib/other", "lib/pkgconfig/", "share/man/man1/"], "what was there before")


def show_kept(program: str) -> None:
    """A file that was changed since stays, and is named; so does a link in place of a file."""
    with installed(program) as prefix:
        (prefix / "include/bpfagent.h").write_text("mine\n")
        (prefix / "lib/libbpfagent.a").unlink()
        (prefix / "lib/libbpfagent.a").symlink_to("/dev/null")
        (prefix / "bin/bpfagent").unlink()
        said = uninstall(prefix)
        want_equal(below(prefix), ["include/bpfagent.h", "lib/libbpfagent.a"], "what is left of files that were changed")
        want(all(f"{prefix / name} was changed since" in said for name in below(prefix)), f"uninstall says {said}")


def show_earlier(program: str) -> None:
    """What an earlier version installed goes too: by this list, and by one of names alone, which says nothing of folders."""
    with installed(program) as prefix:
        for line in ("share/bpfagent/older.txt", f"{'0' * 64}  share/bpfagent/changed.txt"):
            (prefix / line.split()[-1]).write_text("of an earlier version\n")
            (prefix / LIST).write_text((prefix / LIST).read_text() + f"{line}\n")
        install(program, prefix)
        want("changed.txt was changed since" in uninstall(prefix), "a file of an earlier version that was changed isn't named")
        want_equal(below(prefix), ["share/bpfagent/changed.txt"], "what is left of an earlier version")
        names = ["bin/bpfagent", "share/man/man1/bpfagent.1", LIST]
        for name in names:
            (prefix / name).parent.mkdir(parents=True, exist_ok=True)
            (prefix / name).write_text("".join(f"{name}\n" for name in names[:2]))
        uninstall(prefix)
        want_equal(below(prefix), ["bin/", "share/bpfagent/changed.txt", "share/man/man1/"], "what is left of a list of names")
        (prefix / LIST).write_text("../outside\n")
        done = subprocess.run([*INSTALL, "--uninstall", prefix], capture_output=True, text=True, timeout=SECONDS)
        want_equal((done.returncode, done.stderr.count("\n")), (1, 1), "a list that names a file outside")


def show_examples(program: str) -> None:
    """The examples in C find what they include where they are installed."""
    compiler = shutil.which("cc")
    if not compiler:
        print("install: the examples aren't compiled: there is no C compiler", flush=True)
        return
    with installed(program) as prefix:
        sources = sorted((prefix / "share/doc/bpfagent/examples/embed").glob("*.c"))
        want(bool(sources), "no example in C is installed")
        for source in sources:
            run(compiler, "-std=c11", "-fsyntax-only", "-Wall", "-Wextra", "-Werror", "-I", prefix / "include", source)


if __name__ == "__main__":
    run_parts("install", [show_examples, show_arguments, show_streams, show_found, show_modes, show_removed, show_kept, show_earlier])

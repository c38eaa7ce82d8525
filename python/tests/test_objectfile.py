"""Object files that are cut or damaged are refused, and never end in another exception. Those that would take long, or all memory, are a
line within a second, and what isn't printable in a name is escaped."""
from __future__ import annotations

import pathlib
import random
import resource
import shutil
import struct
import subprocess
import sys
import tempfile
import unittest
import zlib
from typing import Callable, Optional

from bpfagent.compiler import compile_c
from bpfagent.debug.lines import NoDwarf
from bpfagent.debug.symbols import Symbols
from bpfagent.image import Image
from bpfagent.objectfile import Unlinkable, link
from support import SECONDS, has_elftools

from lib.programs import few_times

SOURCE = """#include "bpfagent.h"
struct pair { uint64_t first; uint32_t second[3]; };
__attribute__((noinline)) uint64_t sum(struct pair *pair) { return pair->first + pair->second[2]; }
__attribute__((section("entry"))) uint64_t program(struct pair *pair) { return sum(pair) + sum(pair + 1); }
"""
TRIES = 150
# How often a file that takes too long is tried. A busy machine may be in the way.
TRIED = 8
SHIP = [sys.executable, "-m", "bpfagent.ship", "--check"]
# How much processor time a file may take that is refused, in seconds beyond that of an empty one, and how much memory.
MOMENT, MEMORY = 1.0, 1 << 30
# Fields of a section's head (System V gABI, "Section Header"): place and form.
TYPE, FLAGS, OFFSET, SIZE, LINK, INFO, ENTRY = (4, "<I"), (8, "<Q"), (24, "<Q"), (32, "<Q"), (40, "<I"), (44, "<I"), (56, "<Q")
NOBITS, COMPRESSED = 8, 1 << 11


@unittest.skipUnless(has_elftools() and shutil.which("clang"), "needs clang and pyelftools (python3-pyelftools)")
class Damaged(unittest.TestCase):
    """Copies of one object file with something wrong."""

    content: bytes

    @classmethod
    def setUpClass(cls) -> None:
        with tempfile.TemporaryDirectory() as folder:
            source, target = pathlib.Path(folder) / "source.c", pathlib.Path(folder) / "source.o"
            source.write_text(SOURCE)
            compile_c(source, target)
            cls.content = target.read_bytes()

    def refused_or_linked(self, content: bytes) -> None:
        """Nothing but a refusal comes of it, or code."""
        try:
            linked = link(content)
            self.assertEqual(len(linked.code) % 8, 0)
            Symbols(Image(pathlib.Path("source.o"), linked.code, linked, content))
        except (Unlinkable, NoDwarf) as why:
            self.assertTrue(str(why))

    def test_whole(self) -> None:
        """The file itself is linked: both functions, the entry point first."""
        linked = link(self.content)
        self.assertEqual([placed.function.name for placed in linked.functions], ["program", "sum"])

    def test_cut(self) -> None:
        """The file up to each of many places."""
        for length in range(0, len(self.content), max(len(self.content) // TRIES, 1)):
            self.refused_or_linked(self.content[:length])

    def test_changed(self) -> None:
        """The file with bytes changed, a fixed seed; the head and the section table among them."""
        chance = random.Random(7)
        places = [*range(64), *range(len(self.content) - 1024, len(self.content))]
        for _ in range(TRIES):
            content = bytearray(self.content)
            for _ in range(chance.randrange(1, 4)):
                content[chance.choice(places) if chance.random() < 0.7 else chance.randrange(len(content))] = chance.randrange(256)
            self.refused_or_linked(bytes(content))

    # ---- files that would take long, or all memory

    def section(self, name: str) -> int:
        """Where the head of a section of this name is."""
        heads = struct.unpack_from("<Q", self.content, 40)[0]
        size, count, names = struct.unpack_from("<HHH", self.content, 58)
        texts = struct.unpack_from("<Q", self.content, heads + names * size + OFFSET[0])[0]
        for head in range(heads, heads + count * size, size):
            at = texts + struct.unpack_from("<I", self.content, head)[0]
            if self.content[at : self.content.index(b"\0", at)] == name.encode():
                return head
        raise AssertionError(f"there is no section {name}")

    def with_fields(self, name: str, *fields: tuple[tuple[int, str], int], content: Optional[bytes] = None) -> bytes:
        """The file with other fields in a section's head, and if that is given with another content for it."""
        made, head = bytearray(self.content), self.section(name)
        if content is not None:
            fields = ((OFFSET, len(made)), (SIZE, len(content)), *fields)
            made += content
        for (at, form), value in fields:
            struct.pack_into(form, made, head + at, value)
        return bytes(made)

    def shipped(self, content: bytes, function: Callable[[], None] = lambda: None) -> tuple[int, str, str, float]:
        """The status, the output and the errors of `bpfagent-ship --check` of this file, and its processor time."""
        with tempfile.TemporaryDirectory() as folder:
            path = pathlib.Path(folder) / "file.o"
            path.write_bytes(content)
            before = resource.getrusage(resource.RUSAGE_CHILDREN)
            done = subprocess.run([*SHIP, path], capture_output=True, text=True, timeout=SECONDS, preexec_fn=function)
            after = resource.getrusage(resource.RUSAGE_CHILDREN)
            spent = after.ru_utime + after.ru_stime - before.ru_utime - before.ru_stime
            return done.returncode, done.stdout, done.stderr.replace(str(path), "FILE"), spent

    def want_line(self, content: bytes, why: str) -> None:
        """A file is refused by a line, within a moment, and in little memory."""
        least = min(self.shipped(b"")[3] for _ in range(2))
        for _ in range(TRIED):
            status, output, errors, seconds = self.shipped(content, lambda: resource.setrlimit(resource.RLIMIT_AS, (MEMORY, MEMORY)))
            self.assertRegex(errors, rf"\Abpfagent-ship: FILE: {why}\n\Z")
            self.assertEqual((status, output), (1, ""))
            if seconds < least + MOMENT:
                return
        self.fail(f"{why}: it took {seconds:.1f} seconds")

    def test_no_content(self) -> None:
        """Sections of 2^33 bytes without content: the code, and one of the debugging information, which is read where code is refused."""
        self.want_line(self.with_fields("entry", (TYPE, NOBITS), (SIZE, 1 << 33)), r"this is not a whole object file \(section \d+ has no content\)")
        self.want_line(self.with_fields(".debug_info", (TYPE, NOBITS), (SIZE, 1 << 33)), r"this is not a whole object file \(section \d+ has no content\)")
        self.want_line(self.with_fields("entry", (SIZE, 1 << 33)), r"this is not a whole object file \(it ends before section \d+ does\)")

    def test_compressed(self) -> None:
        """Compressed code that is damaged, code that is shorter than it says, and a little that becomes very much."""
        head = struct.pack("<IIQQ", 1, 0, 64, 8)
        wrong = self.with_fields("entry", (FLAGS, 6 | COMPRESSED), content=head + b"no zlib at all")
        self.want_line(wrong, r"this is not a whole object file \(Error -3 while decompressing data: .*\)")
        short = self.with_fields("entry", (FLAGS, 6 | COMPRESSED), content=head + zlib.compress(bytes(8)))
        self.want_line(short, "this is not a whole object file")
        much = struct.pack("<IIQQ", 1, 0, 1 << 33, 8) + zlib.compress(bytes(1 << 24))
        why = rf"this is not a whole object file \(its compressed sections have {1 << 33} bytes, and may have {1 << 26}\)"
        self.want_line(self.with_fields("entry", (FLAGS, 6 | COMPRESSED), content=much), why)

    def test_many(self) -> None:
        """8 MiB of symbols, as many relocations, and names that are long."""
        count = (8 << 20) // 24
        symbols = struct.pack("<IBBHQQ", 1, 2, 0, 3, 0, 8) * count
        self.want_line(self.with_fields(".symtab", content=symbols), rf"this is not a whole object file \(it has {count} symbols, and may have 65536\)")
        relocations = struct.pack("<QQ", 0, 1) * count
        why = rf"this is not a whole object file \(it has {count} relocations, and may have 65536\)"
        self.want_line(self.with_fields(".relentry", content=relocations), why)
        names = self.with_fields(".strtab", content=b"x" * (8 << 20) + b"\0")
        self.want_line(names, r"this is not a whole object file \(section \d+ has a name of more than 4096 bytes\)")
        self.want_line(self.with_fields(".symtab", (ENTRY, 1)), r"this is not a whole object file \(section \d+ has symbols of 1 bytes, and not 24\)")

    def test_most(self) -> None:
        """As many symbols as there may be, all functions at one place, are read within a moment."""
        begin, size = struct.unpack_from("<QQ", self.content, self.section(".symtab") + OFFSET[0])
        old = self.content[begin : begin + size]
        symbols = old + old[24:48] * (65_536 - len(old) // 24)

        def spent() -> float:
            status, output, errors, seconds = self.shipped(self.with_fields(".symtab", content=symbols))
            self.assertEqual((status, output, errors), (0, "", ""))
            return seconds - min(self.shipped(b"")[3] for _ in range(2))

        self.assertEqual(few_times(spent, MOMENT), [])

    def test_names(self) -> None:
        """What isn't printable in a name is escaped, in errors and for the debugger."""
        content = self.content.replace(b"\0program\0", b"\0" + b"pro\x1b[3m" + b"\0").replace(b"\0sum\0", b"\0s\x9b\x07\0")
        self.assertNotIn(b"\0program\0", content)
        with self.assertRaises(Unlinkable) as raised:
            link(content, "none")
        self.assertEqual(str(raised.exception), "there is no function none; the functions that aren't static: s\ufffd\\x07, pro\\x1b[3m")
        linked = link(content, "pro\\x1b[3m")
        symbols = Symbols(Image(pathlib.Path("source.o"), linked.code, linked, content))
        self.assertTrue(all(function.name.isprintable() for function in symbols.functions))


if __name__ == "__main__":
    unittest.main()

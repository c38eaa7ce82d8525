"""Each clang that is installed: a program's result, the instructions of RFC 9669 that its processors have, and advice by what a message means."""
from __future__ import annotations

import os
import pathlib
import re
import shutil
import unittest
from concurrent.futures import ThreadPoolExecutor
from typing import Callable, Optional
from unittest import mock

from bpfagent import Agent, address
from bpfagent.compiler import NEWEST, OLDER, Uncompiled, compile_c, processor_of
from bpfagent.objectfile import link
from support import PROGRAM, ROOT, SECONDS, folder_of, has_elftools

EXAMPLES = ROOT / "examples/c"
# All that Debian may have, each once.
FOUND = [found for name in ("clang", *(f"clang-{version}" for version in range(11, 30))) if (found := shutil.which(name))]
CLANGS = list({os.path.realpath(found): found for found in FOUND}.values())
# The first clang that compiles for RFC 9669's signed division.
FIRST_NEWEST = 18
# What is advised for the files of examples/c/refused that clang refuses.
ADVISED = {
    "atomic_byte": "use a field of 32 or 64 bits",
    "atomic_load": "use atomic_read and atomic_write of bpfagent_program.h",
    "big_frame": "put the array into an object",
    "copy": "write a loop: the length isn't a constant",
    "fence": "use compiler_barrier() of bpfagent_program.h",
    "floating_point": "use whole numbers",
    "nand": "use a loop with atomic_compare_exchange of bpfagent_program.h",
    "old_processor": "compile with -mcpu=v3, which has atomic operations on 32 bits",
    "old_processor_or": "compile with -mcpu=v3, which has atomic operations on 32 bits",
    "signed_division": "divide unsigned numbers; with -mcpu=v4, which clang 18 and later have, signed ones too",
    "six_arguments": "pass a pointer to a struct: a function takes five arguments",
    "struct_result": "pass a pointer to the result",
    "trap": "return a value instead of a trap",
    "varying_frame": "put the array into an object",
    "wide_product": "use numbers of at most 64 bits; a loop of which clang makes such a product needs compiler_barrier() inside",
}
# -100 / 7 and the sign of a byte, as C has them: -14 + -100.
SIGNED = '#include "bpfagent.h"\nint64_t program(int64_t a, int64_t b) { return a / b + (int64_t)(int8_t)a; }\n'
EXTENDED = '#include "bpfagent.h"\nint64_t program(int64_t a) { return (int64_t)(int8_t)a; }\n'
WORD = 1 << 64


def version_of(clang: str) -> int:
    """The first number of a clang's version."""
    with os.popen(f"{clang} -dumpversion") as told:
        return int(told.read().split(".")[0])


class Clangs(unittest.TestCase):
    """Compiles with each of them."""

    def setUp(self) -> None:
        self.folder = folder_of(self)

    def compiled(self, source: pathlib.Path, *flags: str) -> bytes:
        """The object file of a program."""
        target = self.folder / f"{source.stem}.o"
        compile_c(source, target, flags)
        return target.read_bytes()

    def on_each(self, call: Callable[[str], None]) -> None:
        """Does this with each clang."""
        for clang in CLANGS:
            with self.subTest(clang), mock.patch.dict(os.environ, CLANG=clang):
                call(clang)

    @unittest.skipUnless(CLANGS, "needs clang")
    def test_advice(self) -> None:
        """The advice is that of the message's meaning, whatever its words."""
        heads = {path.stem: path.read_text() for path in sorted((EXAMPLES / "refused").glob("*.c"))}
        refused = {name: text for name, text in heads.items() if re.search("^// clang: ", text, re.M)}
        self.assertEqual(sorted(refused), sorted(ADVISED))

        def said(name: str) -> str:
            flags = re.findall("^// flags: (.*)$", refused[name], re.M)
            try:
                self.compiled(EXAMPLES / f"refused/{name}.c", f"-mcpu={OLDER}", *flags)
            except Uncompiled as why:
                return str(why)
            return ""

        def want(clang: str) -> None:
            with ThreadPoolExecutor(4) as pool:
                for name, text in zip(ADVISED, pool.map(said, ADVISED)):
                    pattern = re.findall("^// clang: (.*)$", refused[name], re.M)[0]
                    self.assertRegex(text, pattern, name)
                    self.assertTrue(text.endswith(f"\nadvice: {ADVISED[name]}"), f"{name}: {text}")

        self.on_each(want)

    @unittest.skipUnless(PROGRAM and CLANGS and has_elftools(), "needs BPFAGENT, clang and pyelftools")
    def test_results(self) -> None:
        """A CRC is that of zip. Clang is asked for the newest processor that it knows, and signed numbers work there."""
        source = self.folder / "signed.c"

        def want(clang: str) -> None:
            is_new = version_of(clang) >= FIRST_NEWEST
            self.assertEqual(processor_of(clang), NEWEST if is_new else OLDER)
            code = link(self.compiled(EXAMPLES / "crc32.c"), None).code
            self.assertEqual(self.result(code, b"123456789", 9), 0xCBF43926)
            source.write_text(EXTENDED)
            code = link(self.compiled(source), None).code
            self.assertEqual(self.result(code, None, 0x19C), WORD - 100)
            source.write_text(SIGNED)
            if is_new:
                code = link(self.compiled(source), None).code
                self.assertEqual(self.result(code, None, WORD - 100, 7), WORD - 114)
            with self.assertRaisesRegex(Uncompiled, "advice: divide unsigned numbers"):
                self.compiled(source, f"-mcpu={OLDER}")

        self.on_each(want)

    def result(self, code: bytes, content: Optional[bytes], *numbers: int) -> Optional[int]:
        """R0 at the end of a program."""
        with Agent.run(PROGRAM, timeout=SECONDS) as agent:
            first = [address(agent.make_of(content))] if content else []
            return agent.run_until(agent.ship(code, 100_000, *first, *numbers)).value


if __name__ == "__main__":
    unittest.main()

"""How bpfagent is started: which program without a name, what is said if there is none, and in which environment."""
from __future__ import annotations

import os
import re
import subprocess
import sys
import unittest
import unittest.mock
from typing import Callable, Sequence

from bpfagent import Agent, Service, Unloadable
from bpfagent.image import program_path
from bpfagent.starting import THRESHOLD_NAME, ended
from support import SECONDS, folder_of, program_of

# What a stand-in for bpfagent answers: the threshold, as the number of an object, a port, or as it is.
ANSWERS = f"""import os
threshold = os.environ.get({THRESHOLD_NAME!r}, "0")
if sys.argv[1] == "run":
    sys.stdin.readline()
    print("made", threshold, flush=True)
    sys.stdin.read()
elif sys.argv[1] == "serve":
    sys.stdin.read()
    print("listening", threshold, flush=True)
else:
    print(sys.argv[1:], threshold, sys.stdin.read())"""


def said(words: Sequence[str]) -> tuple[int, str, str]:
    """Status, output and errors of a command that is given one line."""
    done = subprocess.run(words, input="make 1\n", capture_output=True, text=True, timeout=SECONDS)
    return done.returncode, done.stdout, done.stderr


class Starting(unittest.TestCase):
    def setUp(self) -> None:
        self.folder = folder_of(self)
        self.program = str(program_of(self.folder / "bpfagent", ANSWERS))

    def with_environment(self, **variables: str) -> None:
        """Until the test ends the environment has these variables of those that say which program is started, and how."""
        others = {name: value for name, value in os.environ.items() if name not in ("BPFAGENT", THRESHOLD_NAME)}
        patched = unittest.mock.patch.dict(os.environ, {**others, **variables}, clear=True)
        patched.start()
        self.addCleanup(patched.stop)

    def threshold(self) -> int:
        """What the program finds in its environment that is started without a name."""
        with Agent.run(timeout=SECONDS) as agent:
            return agent.make(1)

    def test_environment(self) -> None:
        """Every way to start the program sets the threshold, unless it is set."""
        cases: list[tuple[dict[str, str], int]] = [({}, 32768), ({THRESHOLD_NAME: "4096"}, 4096)]
        for variables, wanted in cases:
            with self.subTest(variables):
                self.with_environment(BPFAGENT=self.program, **variables)
                self.assertEqual(self.threshold(), wanted)
                service = Service(timeout=SECONDS)
                self.addCleanup(service.kill)
                self.assertEqual(service.listen(), f"127.0.0.1:{wanted}")
                self.assertEqual(service.port, wanted)
                done = ended(self.program, "check", "--explain", given=b"code", seconds=SECONDS)
                self.assertEqual((done.returncode, done.stdout), (0, f"['check', '--explain'] {wanted} code\n".encode()))
                self.assertEqual(os.environ.get(THRESHOLD_NAME), variables.get(THRESHOLD_NAME))

    def test_commands(self) -> None:
        """So do `bpfagent-cli`, which becomes the program, and `bpfagent-front`."""
        self.with_environment(BPFAGENT=self.program)
        for words, wanted in (((), "made 32768\n"), (("--", "--sweep"), "listening 32768\n")):
            self.assertEqual(said([sys.executable, "-m", "bpfagent.cli", "--raw", *words]), (0, wanted, ""))
        failing = program_of(self.folder / "failing", f"import os\nsys.exit('has ' + os.environ.get({THRESHOLD_NAME!r}, 'none'))")
        setup = self.folder / "setup"
        setup.write_text("make 8\n")
        status, _, errors = said([sys.executable, "-m", "bpfagent.front.main", "--listen", "127.0.0.1:0", "--program", str(failing), str(setup)])
        self.assertEqual(status, 1)
        self.assertIn("the agent ended with status 1 before it listened: has 32768\n", errors)

    def test_name(self) -> None:
        """BPFAGENT comes before PATH."""
        other = self.folder / "other"
        other.mkdir()
        program_of(other / "bpfagent", "sys.stdin.readline()\nprint('made 7', flush=True)\nsys.stdin.read()")
        self.with_environment(PATH=str(other))
        self.assertEqual((self.threshold(), program_path(None)), (7, str(other / "bpfagent")))
        self.with_environment(PATH=str(other), BPFAGENT=self.program)
        self.assertEqual((self.threshold(), program_path(None)), (32768, self.program))
        self.assertEqual(program_path(str(other / "bpfagent")), str(other / "bpfagent"))

    def test_tried(self) -> None:
        """If there is none, the error says what was tried. A wrong BPFAGENT isn't passed over."""
        cases = [
            ({"PATH": "/none:/nor"}, "there is no bpfagent: BPFAGENT isn't set, and PATH has none in /none:/nor"),
            ({"PATH": str(self.folder), "BPFAGENT": "/none/bpfagent"}, "/none/bpfagent can't be run, and BPFAGENT names it"),
        ]
        for variables, why in cases:
            with self.subTest(why):
                self.with_environment(**variables)
                starts: list[Callable[[], object]] = [Agent.run, Service]
                for start in starts:
                    with self.assertRaisesRegex(FileNotFoundError, f"^{re.escape(why)}$"):
                        start()
                with self.assertRaisesRegex(Unloadable, f"^{re.escape(why)}: give the path of bpfagent by --bpfagent, or set BPFAGENT$"):
                    program_path(None)


if __name__ == "__main__":
    unittest.main()

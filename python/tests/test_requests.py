"""The examples of requests: the client in C over a socket, that in Python, and every way of measure.py, briefly."""
from __future__ import annotations

import contextlib
import json
import pathlib
import re
import shutil
import signal
import subprocess
import sys
import tempfile
import unittest
from typing import Iterator

from bpfagent import Procedure, Service, load
from bpfagent.procedure import ANSWER, LENGTH, REQUEST
from support import PROGRAM, ROOT, SECONDS, has_elftools

from lib import package

EXAMPLES = ROOT / "examples/requests"
STRICT = ["-std=c11", "-O1", "-g", "-Wall", "-Wextra", "-Wpedantic", "-Werror", f"-I{ROOT / 'python/bpfagent/include'}"]
PLAIN: list[str] = []
SANITIZED = ["-fsanitize=address,undefined", "-fno-sanitize-recover=all"]
COMPILERS = [path for path in map(shutil.which, ("gcc", "clang")) if path]
EXIT = bytes.fromhex("9500000000000000")
GET, PUT, ADD = range(3)
# What ask.py shows; the sums are of k from 0 to 699 whose rest by 7 is the day, and whose last two digits are 50 or more.
ASKED = """after one addition: 42
after a hundred more, by eight threads: 142
a key that isn't there: machine N answered status 1, for the request (0, 8)
in the tree: 121
a wrong address: machine N answered status 2, for the request (4290672328704, 11)
amounts by day: 18725 18425 18825 18525 18925 18625 19025
"""


def told(*words: object, given: str = "") -> tuple[int, str, str]:
    """Status, output and errors of a command."""
    done = subprocess.run([str(word) for word in words], input=given, capture_output=True, text=True, timeout=10 * SECONDS, cwd=ROOT)
    return done.returncode, done.stdout, done.stderr


@unittest.skipUnless(PROGRAM and COMPILERS, "needs BPFAGENT and gcc or clang")
class InC(unittest.TestCase):
    """The client in C."""

    folder: tempfile.TemporaryDirectory[str]
    clients: list[pathlib.Path]

    @classmethod
    def setUpClass(cls) -> None:
        cls.folder = tempfile.TemporaryDirectory()
        cls.addClassCleanup(cls.folder.cleanup)
        cls.clients = list(cls.compiled())

    @classmethod
    def compiled(cls) -> Iterator[pathlib.Path]:
        """The client by each compiler, and with its sanitizers if it has them."""
        for compiler in COMPILERS:
            for flags in (PLAIN, SANITIZED):
                made = pathlib.Path(cls.folder.name, f"{pathlib.Path(compiler).name}{len(flags)}")
                status, _, errors = told(compiler, *STRICT, *flags, "-o", made, EXAMPLES / "client.c")
                if not flags:
                    assert not status, errors
                if not status:
                    yield made

    def ask(self, service: Service, given: str, client: int = 0, request: int = 2) -> tuple[int, str, str]:
        """What the client says to these requests of machine 1."""
        return told(self.clients[client], service.listen(), 1, request, given=given)

    def test_a_port(self) -> None:
        with Service(PROGRAM, "--port", "0", timeout=SECONDS) as service:
            service.procedure(EXAMPLES / "table.code", service.setup.make(1024), timeout=SECONDS)
            service.listen()
            self.assertEqual(told(self.clients[0], service.port, 1, 2, given=f"{PUT} 7 40\n"), (0, "0\n", ""))

    def test_a_table(self) -> None:
        with Service(PROGRAM, "--connections", str(len(self.clients)), timeout=SECONDS) as service:
            service.procedure(EXAMPLES / "table.code", service.setup.make(1024), timeout=SECONDS)
            for turn in range(len(self.clients)):
                said = self.ask(service, f"{PUT} 7 40\n{ADD} 7 {turn}\n{GET} 7\n{GET} 8\n{ADD} 0x10 1\n9\n", turn)
                before = 0 if turn == 0 else 40 + turn - 1
                self.assertEqual(said, (0, f"{before}\n{40 + turn}\n{40 + turn}\nstatus 1\n{turn + 1}\nstatus 3\n", ""))

    def test_a_machine_that_stopped(self) -> None:
        """A program without a grant of its object, and the same client again."""
        with Service(PROGRAM, "--connections", "2", timeout=SECONDS) as service:
            table = service.setup.make(1024)
            service.procedure(EXAMPLES / "table.code", table, grants={table: "r"}, timeout=SECONDS)
            slot = load(EXAMPLES / "table.code").awaits[0]
            status, output, errors = self.ask(service, f"{GET} 7\n{PUT} 7 1\n{GET} 7\n")
            self.assertEqual((status, output), (1, "status 1\n"))
            self.assertRegex(errors, r"^machine 1 has stopped at slot \d+: notgranted\n$")
            self.assertEqual(self.ask(service, f"{GET} 7\n")[2], errors)
            self.assertNotIn(f"slot {slot}:", errors)

    def test_an_object_that_is_far(self) -> None:
        with Service(PROGRAM, "--connections", "3", timeout=SECONDS) as service:
            table = service.setup.make(1024)
            service.procedure(EXAMPLES / "table.code", table, timeout=SECONDS)
            self.assertEqual(self.ask(service, f"{PUT} 7 40\n"), (0, "0\n", ""))
            other = service.connect(SECONDS)
            for number in (table, 2):
                other.leave(number)
            self.assertEqual(self.ask(service, f"{GET} 7\n" * 3), (0, "40\n" * 3, ""))

    def test_a_service_that_ends(self) -> None:
        with Service(PROGRAM, "--connections", "1", timeout=SECONDS) as service:
            service.procedure(EXAMPLES / "table.code", service.setup.make(1024), timeout=SECONDS)
            words = [str(self.clients[0]), str(service.listen()), "1", "2"]
            with subprocess.Popen(words, stdin=subprocess.PIPE, stdout=subprocess.PIPE, stderr=subprocess.PIPE, text=True) as client:
                assert client.stdin and client.stdout and client.stderr
                client.stdin.write(f"{ADD} 7 1\n")
                client.stdin.flush()
                self.assertEqual(client.stdout.readline(), "1\n")
                client.stdin.write(f"{ADD} 7 1\n" * 5000)
                client.stdin.flush()
                service.kill()
                # The client may have had all its answers before, or may have gone now.
                with contextlib.suppress(BrokenPipeError):
                    client.stdin.write(f"{ADD} 7 1\n")
                    client.stdin.flush()
                self.assertEqual(client.wait(SECONDS), 1)
                self.assertRegex(client.stderr.read(), "^the service has gone: ")
                with contextlib.suppress(BrokenPipeError):
                    client.stdin.close()
            self.assertRegex(told(*words)[2], "can't be reached: ")

    def test_a_client_that_was_killed(self) -> None:
        """Within its requests; the next client has answers to its own, and every addition was done whole."""
        with Service(PROGRAM, "--connections", "3", timeout=SECONDS) as service:
            service.procedure(EXAMPLES / "table.code", service.setup.make(1024), timeout=SECONDS)
            words = [str(self.clients[0]), str(service.listen()), "1", "2"]
            with subprocess.Popen(words, stdin=subprocess.PIPE, stdout=subprocess.PIPE, text=True) as client:
                assert client.stdin and client.stdout
                client.stdin.write(f"{ADD} 7 1\n" * 3000)
                client.stdin.flush()
                client.stdout.readline()
                client.send_signal(signal.SIGKILL)
                client.wait(SECONDS)
            count = int(self.ask(service, f"{GET} 7\n{GET} 7\n")[1].split()[1])
            with Procedure.connect(service.place, [(1, 2)], SECONDS) as call:
                self.assertEqual([call(ADD, 7, 1), call(GET, 7), call(GET, 7)], [count + 1] * 3)

    def test_examples_in_process_compile(self) -> None:
        """tests/product/embed.py runs the first of them, where the library is built."""
        for compiler in COMPILERS:
            for path in (ROOT / "examples/embed/requests.c", EXAMPLES / "measure_direct.c"):
                made = pathlib.Path(self.folder.name, "made.o")
                self.assertEqual(told(compiler, f"-I{ROOT / 'include'}", *STRICT, "-c", "-o", made, path), (0, "", ""))

    def test_wrong_words(self) -> None:
        self.assertEqual(told(self.clients[0])[::2], (1, "use: client PLACE MACHINE OBJECT\n"))
        with Service(PROGRAM, "--connections", "1", timeout=SECONDS) as service:
            service.setup.ship(EXIT, 1)
            self.assertEqual(told(self.clients[0], service.listen(), 2, 1)[::2], (1, "machine 2 is answered none\n"))


@unittest.skipUnless(PROGRAM, "needs BPFAGENT")
class InPython(unittest.TestCase):
    """The client in Python, and the measures."""

    def test_what_the_example_shows(self) -> None:
        status, output, errors = told(sys.executable, EXAMPLES / "ask.py", PROGRAM)
        masked = "".join(f"{machine_masked(line)}\n" for line in output.splitlines())
        self.assertEqual((status, masked, errors), (0, ASKED, ""))

    @unittest.skipUnless(COMPILERS, "needs gcc or clang")
    def test_each_way_of_a_request(self) -> None:
        """All ways give the results that the script computes itself; machines that wait take no processor time."""
        with tempfile.TemporaryDirectory() as folder:
            kept = pathlib.Path(folder, "figures")
            status, output, errors = told(sys.executable, EXAMPLES / "measure.py", "--short", "--output", kept, PROGRAM)
            self.assertEqual((status, errors), (0, ""), output)
            figures = json.loads(kept.read_text())
        ways = {way for _, _, way, _ in figures["times"]}
        self.assertLessEqual({"Python", "C", "gets", "C server"}, ways)
        for way, command in (("Redis", "redis-server"), ("memcached", "memcached"), ("in process", "in process (make lib)")):
            self.assertEqual(way in ways, command not in figures["skipped"])
        # The answer is in the packet of its request, but for the scan, which a worker does.
        trips = {(row, delay): value for row, delay, way, value in figures["times"] if way == "C, trips" and not row.startswith("scan")}
        self.assertEqual(trips, dict.fromkeys(trips, 1))
        self.assertGreater(len(trips), 6)
        self.assertLess(figures["more"]["48 machines wait, percent of a processor"], 0.1)
        print(f"skipped: {', '.join(figures['skipped']) or 'nothing'}")


@unittest.skipUnless(PROGRAM and has_elftools() and shutil.which("clang") and COMPILERS, "needs BPFAGENT, clang and pyelftools (python3-pyelftools)")
class Page(unittest.TestCase):
    """What docs/REQUESTS.md shows."""

    text = (ROOT / "docs/REQUESTS.md").read_text()

    def blocks(self, kind: str) -> list[str]:
        """The blocks of code of this kind."""
        return [text for found, text in re.findall(r"(?ms)^```(\w*)\n(.*?)^```$", self.text) if found == kind]

    def test_program(self) -> None:
        program, check = self.blocks("c")
        self.assertIn(program, (EXAMPLES / "table.c").read_text())
        self.assertIn(" ".join(check.split()), " ".join((EXAMPLES / "tree.c").read_text().split()))

    def test_python(self) -> None:
        [block] = self.blocks("python")
        self.assertIn("It prints 42 and 475.", self.text)
        self.assertEqual(told(sys.executable, "-c", block.replace('"bpfagent"', repr(PROGRAM))), (0, "42\n475\n", ""))

    def test_by_hand(self) -> None:
        _, serve, ask = self.blocks("")
        self.assertIn("It prints `made 1`, `made 2`, `shipped 1`, `ok` and `listening out/agent.sock`.", self.text)
        self.assertIn("It prints 0, 42, 42 and `status 1`.", self.text)
        setup, last = serve.split("bpfagent serve")
        self.assertEqual(last, " --unix out/agent.sock < out/setup\n")
        (ROOT / "out").mkdir(exist_ok=True)
        with tempfile.TemporaryDirectory() as folder:
            written = f"{folder}/setup"
            self.sh(setup.replace("out/setup", written))
            path = f"{folder}/agent.sock"
            with open(written) as lines, subprocess.Popen([PROGRAM, "serve", "--unix", path], stdin=lines, stdout=subprocess.PIPE, text=True) as service:
                assert service.stdout
                shown = [service.stdout.readline().rstrip() for _ in range(5)]
                self.assertEqual(shown, ["made 1", "made 2", "shipped 1", "ok", f"listening {path}"])
                asked = ask.replace("make ", "make --no-print-directory -s ").replace("out/agent.sock", path)
                self.assertEqual(self.sh(asked).split(), ["0", "42", "42", "status", "1"])
                service.communicate(timeout=SECONDS)

    def sh(self, command: str) -> str:
        """What commands of the page write, as the shell runs them at the top of the repository."""
        environment = package.environment(PROGRAM)
        done = subprocess.run(["sh", "-ec", command], stdout=subprocess.PIPE, text=True, cwd=ROOT, env=environment, timeout=SECONDS, check=True)
        return "\n".join(line for line in done.stdout.splitlines() if not line.startswith("cc "))

    def test_the_layout(self) -> None:
        """Header, page and package agree about where the parts of a request are."""
        header = (ROOT / "python/bpfagent/include/bpfagent_request.h").read_text()
        self.assertIn(f"#define REQUEST_BYTES {REQUEST.size}\n#define ANSWER_BYTES {ANSWER.size}\n", header)
        fields = re.findall(r"(?m)^    uint64_t (\w+)(?:\[(\d)\])?;", header)
        places, at = {}, 0
        for name, count in fields:
            places[name] = at
            at += 8 * int(count or 1)
        rows = {name: int(offset) for offset, name in re.findall(r"(?m)^\| (\d+) \| `(\w+)", self.text)}
        self.assertEqual((rows, at), (places, LENGTH))


def machine_masked(line: str) -> str:
    """A line without the number of the machine, which isn't known before."""
    before, word, rest = line.partition(" machine ")
    return f"{before}{word}N {rest.partition(' ')[2]}" if word else line


if __name__ == "__main__":
    unittest.main()

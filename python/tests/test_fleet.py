"""Jobs of many agents over Redis and Dask on this machine, in a small way.

The examples in examples/scaling do the same with thousands of objects. Here: what jobs compute and what they leave in Redis,
each stop with its place, agents that are replaced, jobs that are run twice or meet others at a key, the examples with few jobs
while workers and a node of Redis are killed, and whether docs/SCALING.md has the figures that are stored. Skipped where a Debian
package is missing.
"""
from __future__ import annotations

import contextlib
import os
import pickle
import random
import signal
import subprocess
import sys
import time
import unittest
import unittest.mock
from typing import Any, Callable, Iterator, Optional, TypeVar

from support import PROGRAM, ROOT, SECONDS, needs_debugger

sys.path.append(str(ROOT / "examples/scaling"))
import engines

if missing := engines.missing():
    raise unittest.SkipTest(f"needs Debian's {', '.join(missing)}")
import costs
import simulate_fleet
import transfers
import word_count
from bpfagent import Broken, Engine, Refused
from bpfagent.fleet import Fleet, Job, JobRefused, JobStopped, Owner, Result, Setting, Store, Unconfirmed, lines_of
from bpfagent.fleet.inprocess import InProcess
from bpfagent.fleet.lines import ByLines
from bpfagent.fleet.store import Read
from bpfagent.image import load
from bpfagent.library import library_if_there
from bpfagent.line_engine import LineEngine
from redis.backoff import NoBackoff
from redis.retry import Retry

Raised = TypeVar("Raised", bound=Exception)

# Which texts Python and the program have to count alike, and what an account holds at first.
LENGTHS = [*range(1, 20), 100, 2040, 2041, 2100]
AMOUNT = 1000
# Milliseconds after which nodes take one that is silent for dead, also on a busy machine.
BUSY = 30_000
# emit R1; exit with it, one more.
EMIT = bytes.fromhex("bf16000000000000 8500000003000000 bf61000000000000 0701000001000000 8500000003000000 bf10000000000000 9500000000000000")
# ldxdw r0, [r1]; ja -1. stdw [r1], 7; ja -1. ldxdw r0, [r1]; exit.
ENDLESS = bytes.fromhex("7910000000000000 0500ffff00000000")
WRITING = bytes.fromhex("7a01000007000000 0500ffff00000000")
READING = bytes.fromhex("7910000000000000 9500000000000000")


def code(name: str) -> bytes:
    return (ROOT / f"examples/scaling/{name}.code").read_bytes()


def number(value: int) -> bytes:
    return value.to_bytes(8, "little")


def value(content: bytes) -> int:
    return int.from_bytes(content, "little")


def number_in(read: Read, key: str) -> int:
    """The number that a body of a job reads."""
    content = read(key, None)[1]
    assert content is not None
    return value(content)


def random_pair(chance: random.Random) -> tuple[int, int]:
    """Two of five accounts."""
    one, other = chance.sample(range(5), 2)
    return one, other


@contextlib.contextmanager
def setting_of_one() -> Iterator[Setting]:
    """How jobs run over one Redis."""
    with engines.single() as server:
        yield Setting((server.url,), False, PROGRAM, 0, 60)


def accounts_in(setting: Setting, first: int, second: int) -> Store:
    """The store, with these amounts in the accounts a and b."""
    store = Store(setting)
    store.put("a", number(first))
    store.put("b", number(second))
    return store


def transfer(one: str, other: str, amount: int, **more: Any) -> Job:
    return Job(code("transfer"), {one: "w", other: "w"}, (one, other, amount), **more)


class FleetTest(unittest.TestCase):
    maxDiff = None

    def owner(self, setting: Setting) -> Owner:
        """An owner that is closed at the end of the test."""
        made = Owner(setting)
        self.addCleanup(made.close)
        return made

    def fails(self, call: Callable[[], object], kind: type[Raised], text: str) -> Raised:
        """What a call raises."""
        with self.assertRaises(kind) as raised:
            call()
        self.assertIn(text, str(raised.exception))
        return raised.exception

    def test_jobs(self) -> None:
        """What can't be a job."""
        self.fails(lambda: Job(b"", {"a": "x"}), ValueError, "'r' or 'w'")
        self.fails(lambda: Job(b"", {}, ("a",)), ValueError, "'a'")
        self.fails(lambda: Job(b"", {}, tuple(range(6))), ValueError, "at most 5 arguments")
        self.fails(lambda: Job(b"", {str(it): "r" for it in range(17)}), ValueError, "16 keys")
        job = Job(b"", {"x": "r", "a{7}b": "w"}, lines={0: "a.c:1", 4: "a.c:2"}, id="5")
        self.assertEqual(job.record, "bpfagent-job:{7}:5", "a record")
        self.assertEqual([job.source(it) for it in (0, 3, 4, 9)], ["a.c:1", "a.c:1", "a.c:2", "a.c:2"], "source lines")
        stopped = JobStopped("job", "spent", 1, "ja -1", "a.c:1", tuple(range(11)))
        self.assertEqual(str(pickle.loads(pickle.dumps(stopped))), str(stopped), "a stop that was sent")

    def test_missing(self) -> None:
        """Without its packages an example says which it needs, and that it was skipped."""
        for name in ("word_count", "transfers", "measure_fleet"):
            command = [sys.executable, "-S", str(ROOT / f"examples/scaling/{name}.py"), PROGRAM]
            done = subprocess.run(command, env={**os.environ, "BPFAGENT_FLEET": "tried"}, stdout=subprocess.PIPE, text=True, timeout=SECONDS)
            wanted = f"{name}.py: skipped, for it needs Debian's python3-distributed, python3-redis\n"
            self.assertEqual((done.returncode, done.stdout), (0, wanted), f"{name}.py without packages")

    def test_modules(self) -> None:
        """Without a module the import says which package has it."""
        for name in ("distributed", "redis"):
            text = (
                f"import sys\nsys.modules[{name!r}] = None\ntry:\n    import bpfagent.fleet\n"
                "except ImportError as why:\n    print(type(why).__name__, why.name, why)"
            )
            done = subprocess.run([sys.executable, "-c", text], stdout=subprocess.PIPE, text=True, timeout=SECONDS)
            wanted = f"ImportError {name} bpfagent.fleet needs {name}: apt-get install python3-{name}, or pip install 'bpfagent[fleet]'\n"
            self.assertEqual((done.returncode, done.stdout), (0, wanted))

    def test_contents(self) -> None:
        """An object has bytes alone: Redis isn't asked to keep anything else."""
        store = Store(Setting(("redis://127.0.0.1:1",), False, PROGRAM, 0, 1))
        put: Callable[[str, Any], None] = store.put
        for content, kind in (("abc", "str"), (5, "int"), (None, "NoneType"), ([1], "list")):
            self.fails(lambda: put("x", content), TypeError, f"an object has bytes, and not a {kind}: encode it")
        self.fails(lambda: put("x", bytearray()), ValueError, "an object has 1 to 65536 bytes, and not 0")

    def test_options(self) -> None:
        """A number out of its range gets the usage, before anything is started."""
        wrong = {
            "word_count": ["--objects 0", "--length 65537", "--agents x", "--kill-workers -1", "--kill-node nan"],
            "transfers": ["--accounts 1", "--jobs 0", "--agents 0"],
            "measure": ["--objects 1025", "--trips 0", "--seconds -1", "--seconds inf_"],
        }
        for name, options in wrong.items():
            command = [sys.executable, str(ROOT / f"examples/scaling/{name}.py")]
            for option in options:
                done = subprocess.run([*command, PROGRAM, *option.split()], capture_output=True, text=True, timeout=SECONDS)
                why = f"error: argument {option.split()[0]}: {option.split()[1]} is no number from "
                self.assertTrue((done.returncode, done.stdout) == (2, "") and why in done.stderr, f"{name}.py {option}: {done}")
            done = subprocess.run([*command, "/none"], capture_output=True, text=True, timeout=SECONDS)
            why = "error: argument program: /none can't be run\n"
            self.assertTrue((done.returncode, done.stdout) == (2, "") and done.stderr.endswith(why), f"{name}.py: {done}")

    def test_one_owner(self) -> None:
        """Results, objects and stops of one agent, by itself."""
        with setting_of_one() as setting:
            store, owner = accounts_in(setting, AMOUNT, 0), self.owner(setting)
            self.assertIsInstance(owner._execution, InProcess if library_if_there() else ByLines)
            self.assertEqual(owner.run(transfer("a", "b", 300)), Result(1, ()), "a transfer")
            self.assertEqual(owner.run(transfer("b", "a", 301)), Result(0, ()), "one of more than there is")
            self.assertEqual((value(store.get("a")), value(store.get("b"))), (AMOUNT - 300, 300), "the accounts")
            wide = number(5) + random.Random(1).randbytes(9993)
            store.put("wide", wide)
            self.assertEqual(owner.run(Job(code("spin"), {"wide": "w"}, ("wide", "wide", 1))).value, wide[-1], "the last byte of a long object")
            self.assertEqual(store.get("wide"), number(5 + wide[-1]) + wide[8:], "a long object that a job wrote")
            self.assertEqual(owner.run(Job(EMIT, {}, (-2,))), Result((1 << 64) - 1, ((1 << 64) - 2, (1 << 64) - 1)), "emitted values")
            stopped = self.fails(
                lambda: owner.run(Job(ENDLESS, {"a": "r"}, ("a",), 5, {0: "endless.c:3"})), JobStopped, "stopped spent at slot 1, ja -1, at endless.c:3"
            )
            self.assertEqual((stopped.why, stopped.slot, stopped.registers[0]), ("spent", 1, AMOUNT - 300), "an endless program")
            self.fails(lambda: owner.run(Job(WRITING, {"a": "w"}, ("a",), 5)), JobStopped, "spent")
            self.assertEqual(owner.run(Job(READING, {"a": "r"}, ("a",))).value, AMOUNT - 300, "what a job sees of another that wrote and stopped")
            job = Job(code("transfer"), {"a": "r", "b": "w"}, ("a", "b", 1))
            self.assertEqual(self.fails(lambda: owner.run(job), JobStopped, "stxdw [r1], r").why, "notgranted", "a write to a key that may only be read")
            self.assertEqual((value(store.get("a")), value(store.get("b"))), (AMOUNT - 300, 300), "the accounts after a stop")
            refused = self.fails(lambda: owner.run(Job(b"\0" * 8, {}, lines={0: "zero.c:1"})), JobRefused, "job: refused at slot 0, Opcode, at zero.c:1")
            self.assertEqual(str(pickle.loads(pickle.dumps(refused))), str(refused), "a refusal that was sent")
            self.fails(lambda: owner.run(transfer("a", "missing", 1)), KeyError, "missing")
            self.fails(lambda: store.put("long", bytes(65_537)), ValueError, "65536")

    @needs_debugger
    def test_lines(self) -> None:
        """Programs that clang compiles, and the source line of a stop."""
        for name in ("spin", "transfer", "word_count"):
            self.assertEqual(load(ROOT / f"examples/scaling/{name}.c").code, code(name), f"the stored code of {name}.c")
        source = ROOT / "examples/scaling/transfer.c"
        image = load(source)
        wanted = 1 + source.read_text().splitlines().index("    *from -= amount;")
        with setting_of_one() as setting:
            accounts_in(setting, AMOUNT, AMOUNT)
            job = Job(image.code, {"a": "r", "b": "w"}, ("a", "b", 1), lines=lines_of(image))
            self.fails(lambda: self.owner(setting).run(job), JobStopped, f"transfer.c:{wanted}; r0=")

    def test_texts(self) -> None:
        """The program that counts words, beside Python; each text is brought in anew, also with another length."""
        with setting_of_one() as setting:
            store, owner, chance, wanted = Store(setting), self.owner(setting), random.Random(1), 0
            store.put("total", number(0))
            for length in LENGTHS:
                text = bytes(chance.choice(b" \t\n\r\x0b\x0c!az\x7f\x80\xff") for _ in range(length))
                store.put("text", text)
                found = owner.run(Job(code("word_count"), {"text": "r", "total": "w"}, ("total", "text"))).value
                self.assertEqual(found, len(text.split()), f"the words of {text[:40]!r}")
                wanted += found
            self.assertEqual(value(store.get("total")), wanted, "the total")

    def test_replacing(self) -> None:
        """More jobs than an agent takes machines, and more objects than it makes."""
        with setting_of_one() as setting:
            store, owner = accounts_in(setting, AMOUNT, 0), self.owner(setting)
            for _ in range(100):
                owner.run(transfer("a", "b", 1))
            self.assertEqual(value(store.get("b")), 100, "the account after 100 jobs")
            for length in range(1, 1100):
                store.put("growing", bytes(length))
                self.fails(lambda: owner.run(Job(code("spin"), {"growing": "r", "missing": "r"})), KeyError, "missing")
            self.assertEqual(owner.run(transfer("b", "a", 100)).value, 1, "a job after more than 1,024 objects")

    def test_failing(self) -> None:
        """A job whose agent fails costs no other: one that is killed, if it is asked by lines, and one without memory in this process."""
        with setting_of_one() as setting:
            store, owner = accounts_in(setting, AMOUNT, 0), self.owner(setting)
            owner._execution = ByLines(PROGRAM)
            owner.run(transfer("a", "b", 1))
            assert owner._execution._agent
            (agent,) = costs.children_of(os.getpid())[-1:]
            os.kill(agent, signal.SIGKILL)
            self.fails(lambda: owner.run(transfer("a", "b", 2)), Broken, "")
            owner.run(transfer("a", "b", 4))
            self.assertEqual(value(store.get("b")), 5, "the account after an agent was killed")
            owner.close()
            if not library_if_there():
                return
            owner._execution = InProcess()
            with unittest.mock.patch.object(Engine, "make", side_effect=Refused("nomem")):
                self.fails(lambda: owner.run(transfer("a", "b", 8)), Refused, "nomem")
            owner.run(transfer("a", "b", 16))
            self.assertEqual(value(store.get("b")), 21, "the account after an agent without memory")

    def test_bytes(self) -> None:
        """In this process objects travel as bytes, without a line, and what a worker has isn't fetched again."""
        if not library_if_there():
            self.skipTest("needs the library of `make lib`: BPFAGENT_LIBRARY names it")
        content, asked, execution = number(7) + bytes(65_528), list[Optional[bytes]](), InProcess()
        self.addCleanup(execution.close)

        def read(key: str, known: Optional[bytes]) -> tuple[bytes, Optional[bytes]]:
            asked.append(known)
            return b"1", None if known == b"1" else content

        put = unittest.mock.patch.object(Engine, "put", autospec=True, side_effect=Engine.put)
        with put as puts, unittest.mock.patch.object(LineEngine, "tell", side_effect=AssertionError("a line is written")):
            for _ in range(2):
                execution.execute(Job(code("spin"), {"x": "w"}, ("x", "x", 1)), read)
        self.assertEqual((asked, puts.call_count), ([None, b"1"], 2))
        for call in puts.call_args_list:
            self.assertIs(call.args[3], content)

    def test_once(self) -> None:
        """A job that is run again, and one whose keys others change in between."""
        with setting_of_one() as setting:
            store, other = accounts_in(setting, AMOUNT, 0), Store(setting)
            job = transfer("a", "b", 1)
            self.assertEqual([self.owner(setting).run(job) for _ in range(2)], [Result(1, ())] * 2, "a job that is run twice")
            self.assertEqual(value(store.get("b")), 1, "the account")
            seen: list[int] = []

            def body(read: Read) -> tuple[Result, dict[str, bytes]]:
                seen.append(number_in(read, "a"))
                if len(seen) < 3:
                    other.put("b", number(len(seen)))
                return Result(7, (8,)), {"a": number(seen[-1] + number_in(read, "b"))}

            job = Job(b"", {"a": "w", "b": "r"})
            self.assertEqual(store.once(job, body)[0], Result(7, (8,)), "a job whose key changes")
            self.assertEqual((len(seen), value(store.get("a"))), (3, AMOUNT - 1 + 2), "how often it was run, and what it wrote")
            self.assertEqual(other.once(job, body), (Result(7, (8,)), None), "its record")
            self.assertEqual(len(seen), 3, "how often it was run then")
            seen.clear()

            def stopping(read: Read) -> tuple[Result, dict[str, bytes]]:
                seen.append(number_in(read, "a"))
                if len(seen) == 1:
                    other.put("a", number(5))
                raise JobStopped("job", "outside", 0, "exit", None, ())

            self.fails(lambda: store.once(Job(b"", {"a": "w"}), stopping), JobStopped, "outside")
            self.assertEqual(len(seen), 2, "how often a program is run that stops since an object changed")

    def test_replicas(self) -> None:
        """A write that no replica confirms stands, and says so; the record answers a further run."""
        with engines.single() as server, unittest.mock.patch("bpfagent.fleet.store.REPLICATED", 10):
            store = Store(Setting((server.url,), False, PROGRAM, 1, 60))
            store._retry = Retry(NoBackoff(), 1, (Unconfirmed,))
            job, runs = Job(b"", {"a": "w"}), list[int]()

            def body(read: Read) -> tuple[Result, dict[str, bytes]]:
                runs.append(1)
                return Result(7, ()), {"a": b"x"}

            for _ in range(2):
                self.fails(lambda: store.once(job, body), Unconfirmed, "0 replicas hold bpfagent-job:{a}:")
            self.assertEqual((store.get("a"), len(runs)), (b"x", 1), "what was written, and how often the job was run")

    def test_workers(self) -> None:
        """Dask's workers: many jobs at few keys while workers are killed, priorities as they are, and a stop."""
        with engines.single() as server, engines.workers(2) as (client, made):
            fleet = Fleet(client, server.url, PROGRAM)
            accounts = [f"account {it}" for it in range(5)]
            for name in accounts:
                fleet.put(name, number(transfers.START))
            chance = random.Random(1)
            asked, moved = list[tuple[int, int, int]](), list[int]()
            end = time.monotonic() + SECONDS
            with engines.Killer(made, 0.1) as killer:
                # A fast machine may do so many before a worker is killed.
                while not killer.killed and time.monotonic() < end:
                    more = [(*random_pair(chance), chance.randint(1, 2000)) for _ in range(60)]
                    jobs = [transfer(accounts[one], accounts[other], amount) for one, other, amount in more]
                    moved += [it.value for it in engines.results(client, fleet.map(jobs, priority=5))]
                    asked += more
            self.assertTrue(killer.killed, "no worker was killed")
            self.assertEqual(set(moved), {0, 1}, "results of transfers, some of more than there is")
            transfers.compare([value(fleet.get(name)) for name in accounts], moved, asked)
            stopped = self.fails(lambda: fleet.run(Job(ENDLESS, {accounts[0]: "r"}, (accounts[0],), 9)).result(), JobStopped, "spent")
            self.assertEqual(stopped.slot, 1, "the slot of a stop at a worker")

    def test_words(self) -> None:
        """The example that counts words, in a small way, while a node and workers are killed."""
        asked = [PROGRAM, "--objects", "16", "--length", "256", "--agents", "2", "--kill-workers", "0.5", "--kill-node", "0.1"]
        with contextlib.redirect_stdout(None):
            (counted,) = word_count.run(word_count.options().parse_args(asked))
        self.assertTrue(counted["takeover"], f"no node was killed: {counted}")

    def test_costs(self) -> None:
        """Laws are fitted, and a simulation of one agent takes what its stages take; the scheduler limits many."""
        wanted = costs.Law(2e-3, 3e-8, 5e-7)
        rows = [(length, count, wanted.of(length, count)) for length, count in ((64, 10), (64, 1000), (4096, 10), (65_536, 100))]
        found = costs.fitted(rows)
        pairs = zip(vars(found).values(), vars(wanted).values())
        self.assertTrue(all(abs(one - other) < 1e-12 for one, other in pairs), f"{found} was fitted, and not {wanted}")
        part = costs.Law(1e-3, 0.0, 0.0)
        laws = simulate_fleet.Laws(part, part, part, part, 1.0, 4)
        pauses = (0.5 + costs.TRIPS) * simulate_fleet.TRIP + simulate_fleet.WIRE * 64
        rate = simulate_fleet.Simulated(simulate_fleet.far(1, 1), laws, 64, 10).rate()
        self.assertTrue(abs(rate * (3e-3 + pauses) - 1) < 0.01, f"one agent does {rate} jobs a second")
        many = simulate_fleet.Simulated(simulate_fleet.far(1000, 1), laws, 64, 10).rate()
        self.assertTrue(abs(many - 1000) < 1, f"a scheduler that takes a millisecond for each job lets {many} jobs a second go")
        slow = simulate_fleet.Laws(part, costs.Law(0.1, 0.0, 0.0), costs.Law(0.1, 0.0, 0.0), part, 1.0, 16)
        calm, dying = (simulate_fleet.Simulated(simulate_fleet.far(10, 1), slow, 64, 10, deaths).rate() for deaths in (0.0, 1.0))
        self.assertTrue(0.8 < dying / calm < 0.97, f"of ten agents one dies each second, for a second and a job: {dying / calm:.0%} of the jobs are done")

    def test_cluster(self) -> None:
        """Keys in hash slots."""
        with engines.cluster(silent=BUSY) as servers:
            setting = Setting(tuple(it.url for it in servers), True, PROGRAM, 1, 60)
            store, owner = Store(setting), self.owner(setting)
            for name in ("a{1}", "b{1}", "c{2}"):
                store.put(name, number(AMOUNT))
            self.assertEqual(owner.run(transfer("a{1}", "b{1}", 1)).value, 1, "a transfer in a hash slot")
            self.fails(lambda: owner.run(transfer("a{1}", "c{2}", 1)), ValueError, "one hash slot")
            job = Job(code("word_count"), {"a{1}": "w", "c{2}": "r"}, ("a{1}", "c{2}"))
            self.assertEqual(owner.run(job).value, 1, "a key that is read in another slot")


if __name__ == "__main__":
    unittest.main()

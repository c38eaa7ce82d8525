"""The debugger for editors: whole sessions by a client of the Debug Adapter Protocol, over `run` and over `serve`."""
from __future__ import annotations

import base64
import os
import pathlib
import shutil
import signal
import subprocess
import time
import unittest
from typing import Any, Callable, Optional

import stand_in
from bpfagent import patiently
from bpfagent.agent import pauses
from support import DEBUG, DEBUGGER, ENDLESS, SECONDS, SIGNALS, TABLE, changes, editor_module, endless_service, hang, needs_debugger
from support import folder_of, is_at_once, is_soon, noting_program, silent_program, until_asked, until_gone, with_signals

Body = dict[str, Any]
SOURCE = {"path": str(DEBUG / "table.c")}
# Why the conversation with an agent that has ended is over: whether it is found out by a read or by a write.
GONE = ("the agent ended the conversation", "the stream failed: Broken pipe")


@needs_debugger
class Sessions(unittest.TestCase):
    """Sessions of an editor with the debugger."""

    def setUp(self) -> None:
        self.folder = folder_of(self)
        self.editor = editor_module().Editor([*DEBUGGER, "--dap"], is_quiet=True)
        self.addCleanup(self.editor.__exit__)

    def ask(self, command: str, **arguments: Any) -> Body:
        """The body of a response."""
        body: Body = self.editor.ask(command, **arguments)
        return body

    def refused(self, command: str, **arguments: Any) -> str:
        """Why a request is refused."""
        with self.assertRaises(RuntimeError) as found:
            self.ask(command, **arguments)
        return str(found.exception).removeprefix(f"{command}: ")

    def leave(self) -> None:
        """The editor disconnects, and the debugger ends well."""
        self.ask("disconnect")
        self.assertEqual(self.editor.process.wait(SECONDS), 0)

    def endless(self) -> pathlib.Path:
        """The source of a program that doesn't end."""
        path = self.folder / "endless.c"
        path.write_text(ENDLESS)
        return path

    def stopped(self, machine: int, reason: str) -> list[Body]:
        """The frames of a machine, once it has stopped for this reason."""
        while (body := self.editor.wait("stopped")["body"])["threadId"] != machine:
            pass
        self.assertEqual(body["reason"], reason, body)
        self.text = body.get("text", "")
        frames: list[Body] = self.ask("stackTrace", threadId=machine)["stackFrames"]
        return frames

    def standing(self, machine: int) -> list[Body]:
        """The frames of a machine, once it stands still."""
        for _ in pauses(SECONDS):
            try:
                frames: list[Body] = self.ask("stackTrace", threadId=machine)["stackFrames"]
                return frames
            except RuntimeError as why:
                self.assertIn(f"machine {machine} is running", str(why))
        raise AssertionError(f"machine {machine} doesn't stop")

    def launch(self, program: str = TABLE[0], arguments: tuple[str, ...] = tuple(TABLE[1:]), **options: Any) -> None:
        """Starts a program, up to the point at which breakpoints are set."""
        capabilities = self.ask("initialize", adapterID="test")
        self.assertTrue(capabilities["supportsConfigurationDoneRequest"] and capabilities["supportsDisassembleRequest"])
        self.ask("launch", program=program, arguments=list(arguments), **options)
        self.editor.wait("initialized")

    def variables(self, frame: Body, scope: int = 0) -> dict[str, Body]:
        """The variables of a frame's scope, by name."""
        found = self.ask("scopes", frameId=frame["id"])["scopes"][scope]
        return {variable["name"]: variable for variable in self.ask("variables", variablesReference=found["variablesReference"])["variables"]}

    def session(self, machine: int) -> None:
        """Break on a line, look at variables and at a struct in an object, step into a function, out of it, watch, go on."""
        self.assertEqual(
            [(found["verified"], found["line"]) for found in self.ask("setBreakpoints", source=SOURCE, breakpoints=[{"line": 23}])["breakpoints"]], [(True, 23)]
        )
        self.ask("configurationDone")
        frames = self.stopped(machine, "breakpoint")
        self.assertEqual([(frame["name"], frame["line"], frame["source"]["path"]) for frame in frames], [("program", 23, SOURCE["path"])])
        found = self.variables(frames[0])
        self.assertEqual({name: found[name]["value"] for name in found}, {"table": "(struct table *) 0x100000000 <object 1>", "key": "7", "sum": "0"})
        table = self.ask("variables", variablesReference=found["table"]["variablesReference"])["variables"][0]
        members = {each["name"]: each for each in self.ask("variables", variablesReference=table["variablesReference"])["variables"]}
        self.assertEqual((members["count"]["value"], members["count"]["memoryReference"]), ("2", "0x100000000"))
        pairs = self.ask("variables", variablesReference=members["pairs"]["variablesReference"])["variables"]
        self.assertEqual([each["value"] for each in pairs[:2]], ["{key = 7, value = 40}", "{key = 8, value = 2}"])
        self.ask("stepIn", threadId=machine)
        frames = self.stopped(machine, "step")
        self.assertEqual([(frame["name"], frame["line"]) for frame in frames], [("find", 15), ("program", 23)])
        self.assertEqual(self.variables(frames[0])["i"]["value"], "0")
        self.assertEqual(self.variables(frames[1])["key"]["value"], "7")
        self.ask("next", threadId=machine)
        self.assertEqual(self.stopped(machine, "step")[0]["line"], 16)
        self.ask("stepOut", threadId=machine)
        frames = self.stopped(machine, "step")
        self.assertEqual((self.text, frames[0]["name"], frames[0]["line"]), ("find returned 40", "program", 23))
        identity = self.ask("dataBreakpointInfo", name="table->count", frameId=frames[0]["id"])["dataId"]
        self.assertTrue(self.ask("setDataBreakpoints", breakpoints=[{"dataId": identity}])["breakpoints"][0]["verified"])
        self.ask("continue", threadId=machine)
        self.assertEqual(self.stopped(machine, "data breakpoint")[0]["line"], 25)
        self.assertEqual(self.text, "table->count: 2 -> 1")
        self.assertEqual(
            base64.b64decode(self.ask("readMemory", memoryReference="0x100000000", count=16)["data"]), bytes.fromhex("01000000000000000700000028000000")
        )
        self.ask("setDataBreakpoints", breakpoints=[])

    def test_run(self) -> None:
        """A whole session over `run`."""
        self.launch()
        self.session(1)
        self.assertEqual(self.ask("continue", threadId=1), {"allThreadsContinued": False})
        self.assertEqual(self.editor.wait("exited")["body"]["exitCode"], 40)
        self.editor.wait("terminated")
        self.leave()

    def test_serve(self) -> None:
        """The same over `serve` with four workers and three machines, each a thread; then the other two go on."""
        self.launch(serve=True, workers=4, machines=3)
        self.session(2)
        self.assertEqual([thread["id"] for thread in self.ask("threads")["threads"]], [1, 2, 3])
        for thread in (1, 3):
            self.assertEqual(self.standing(thread)[0]["line"], 23)
        for thread in (1, 2, 3):
            self.ask("continue", threadId=thread)
        self.assertEqual(self.editor.wait("exited")["body"]["exitCode"], 40)
        self.leave()

    def test_attach(self) -> None:
        """A service that runs: pause, a breakpoint on a function, evaluate, and leave; the machine goes on."""
        path = self.endless()
        with endless_service(path) as service:
            other = service.connect(SECONDS)
            self.ask("initialize")
            self.ask("attach", place=service.place, program=str(path))
            self.editor.wait("initialized")
            self.ask("configurationDone")
            self.assertEqual(self.refused("stackTrace", threadId=1), "machine 1 is running")
            self.ask("pause", threadId=1)
            frames = self.stopped(1, "pause")
            self.assertIn(frames[-1]["name"], ("program", "program (call site unknown)"))
            self.assertTrue(self.ask("setFunctionBreakpoints", breakpoints=[{"name": "more"}, {"name": "none"}])["breakpoints"][0]["verified"])
            self.ask("continue", threadId=1)
            frames = self.stopped(1, "function breakpoint")
            count = int.from_bytes(patiently(other.get, 1, 0, 8), "little")
            self.assertEqual(self.ask("evaluate", expression="*count + 1", frameId=frames[0]["id"])["result"], str(count + 1))
            self.assertEqual(other.regs(1).state, "paused")
            self.ask("setFunctionBreakpoints", breakpoints=[])
            self.ask("continue", threadId=1)
            self.leave()
            self.assertTrue(changes(other, 1), "the machine doesn't go on")

    def test_looking(self) -> None:
        """Registers, the machine, single instructions, disassembly past both ends, memory of the stack and past an object."""
        self.launch(stopOnEntry=True)
        self.ask("configurationDone")
        frame = self.stopped(1, "entry")[0]
        self.assertEqual(self.variables(frame, 1)["r1"]["value"], str(1 << 32))
        self.assertEqual(self.variables(frame, 2)["fuel"]["value"], "1000000")
        self.ask("stepIn", threadId=1, granularity="instruction")
        frame = self.stopped(1, "step")[0]
        self.assertEqual(self.variables(frame, 2)["slot"]["value"], "1")
        reference = frame["instructionPointerReference"]
        found = self.ask("disassemble", memoryReference=reference, instructionOffset=-3, instructionCount=60)["instructions"]
        self.assertEqual((len(found), [each["instruction"] for each in found[:4]]), (60, ["(none)", "(none)", "stxdw [r10-8], r1", "stxw [r10-12], r2"]))
        self.assertEqual((found[3]["address"], found[3]["line"], found[3]["symbol"]), (reference, 22, "program"))
        self.assertEqual(found[-1]["instruction"], "(none)")
        self.assertEqual(self.refused("disassemble", memoryReference=reference, instructionCount=10**9), "instructionCount is a number from 0 to 65536")
        pointer = self.variables(frame)["table"]
        self.assertEqual(pointer["value"], "(struct table *) 0x100000000 <object 1>")
        whole = self.ask("readMemory", memoryReference="0x100000000", offset=32, count=100)
        self.assertEqual((len(base64.b64decode(whole["data"])), whole["unreadableBytes"]), (8, 92))
        stack = self.ask("readMemory", memoryReference="1:0xffffffff00000ff8", count=8)
        self.assertEqual(base64.b64decode(stack["data"]), (1 << 32).to_bytes(8, "little"))
        self.assertEqual(self.ask("dataBreakpointInfo", name="$r1", frameId=frame["id"])["dataId"], None)
        self.leave()

    def test_wrong(self) -> None:
        """Requests that can't be done are refused with a reason, and the session goes on."""
        self.assertEqual(self.refused("threads"), "nothing is debugged yet: launch or attach comes first")
        self.assertEqual(self.refused("fly"), "fly isn't supported")
        self.assertIn("No such file", self.refused("launch", program="/none.c"))
        self.assertEqual(self.refused("launch"), "there is no program to debug: name a file, or connect to a service")
        self.assertEqual(self.refused("launch", program=TABLE[0], arguments=["1", "nine"]), "argument 2, `nine`: is neither a number nor +N, =TEXT or @FILE")
        self.assertEqual(self.refused("launch", program=TABLE[0], arguments=["1"] * 6), "6 arguments are given, and a program takes at most five")
        self.assertEqual(self.refused("launch", program=TABLE[0], arguments="+64"), "arguments is a list of strings")
        self.assertEqual(self.refused("attach", port=65_536 + 1, program=TABLE[0]), "port is a number from 1 to 65535")
        self.assertEqual(self.refused("attach", port=1, program=TABLE[0]), "no service can be reached at 127.0.0.1:1: Connection refused")
        self.launch()
        self.assertEqual(self.refused("launch", program=TABLE[0]), "something is debugged already")
        found = self.ask("setBreakpoints", source=SOURCE, breakpoints=[{"line": 999}, {"line": 14}])["breakpoints"]
        self.assertEqual((found[0]["verified"], found[1]["verified"], found[1]["line"]), (False, True, 15))
        self.assertIn("no code is at or after line 999", found[0]["message"])
        early = "the expression ends too early"
        nope, none = ("(struct nope *)i", "the program has no type struct nope"), ("none > 1", "nothing is called none there")
        for condition, why in (("i == (", early), ("i +* ", early), nope, none):
            breakpoints = [{"name": "find", "condition": tried} for tried in (condition, "i + 1 / 0")]
            found = self.ask("setFunctionBreakpoints", breakpoints=breakpoints)["breakpoints"]
            self.assertEqual(found[0], {"verified": False, "message": f"the condition `{condition}` can't be read: {why}"})
            self.assertTrue(found[1]["verified"], "this may have a value later")
        self.ask("setFunctionBreakpoints", breakpoints=[])
        self.assertIn("there is no source file", self.ask("setBreakpoints", source={"path": "/none.c"}, breakpoints=[{"line": 1}])["breakpoints"][0]["message"])
        self.ask("configurationDone")
        frames = self.stopped(1, "breakpoint")
        self.assertEqual(frames[1]["name"], "program (call site unknown)")
        self.assertEqual(self.refused("evaluate", expression="none", frameId=frames[0]["id"]), "there is no variable none in find")
        self.assertEqual(self.refused("stackTrace"), "threadId is required")
        self.assertEqual(self.refused("continue", threadId=9), "there is no machine 9")
        for wrong in (float("inf"), "x", None, [], 2**200):
            self.assertTrue(self.refused("pause", threadId=wrong), wrong)
        self.assertEqual(self.refused("evaluate", expression="(" * 900, frameId=frames[0]["id"]), "the expression is nested too deeply")
        self.ask("setBreakpoints", source=SOURCE, breakpoints=[])
        self.ask("continue", threadId=1)
        self.editor.wait("terminated")
        self.assertEqual(self.refused("continue", threadId=1), "machine 1 has stopped: exit 0000000000000028")
        self.leave()

    def test_pause(self) -> None:
        """A program that doesn't end is paused while it runs here, looked at, and goes on; requests are answered meanwhile."""
        path = self.endless()
        self.launch(program=str(path), arguments=("+8",), fuel=2**63)
        self.ask("configurationDone")
        counts = [0]
        for _ in pauses(SECONDS):
            self.assertEqual(len(self.ask("threads")["threads"]), 1)
            self.ask("pause", threadId=1)
            frames = self.stopped(1, "pause")
            count = int(self.ask("evaluate", expression="*(uint64_t *)0x100000000", frameId=frames[0]["id"])["result"])
            self.assertGreaterEqual(count, counts[-1])
            # On a busy machine it may take a while until the program goes on.
            counts += [count] if count > counts[-1] else []
            self.ask("continue", threadId=1)
            if len(counts) > 3:
                break
        self.assertEqual(len(counts), 4, counts)
        self.leave()

    def test_terminate(self) -> None:
        """The editor ends a program that goes on, in `run` and in a service, hears so, and may begin another."""
        path = self.endless()
        ways: list[Body] = [{}, {"serve": True, "workers": 4}]
        for options in ways:
            self.launch(program=str(path), arguments=("+8",), fuel=2**63, **options)
            self.ask("configurationDone")
            self.ask("terminate")
            self.editor.wait("terminated")
            self.assertEqual(self.refused("threads"), "nothing is debugged yet: launch or attach comes first")
        self.leave()

    def test_another(self) -> None:
        """A program that is begun after another has threads, and none of the other's breakpoints."""
        for _ in range(2):
            self.launch()
            self.ask("setFunctionBreakpoints", breakpoints=[{"name": "find"}])
            self.ask("setBreakpoints", source=SOURCE, breakpoints=[{"line": 23}])
            self.ask("setBreakpoints", source=SOURCE, breakpoints=[])
            self.ask("configurationDone")
            self.assertEqual(self.stopped(1, "function breakpoint")[0]["name"], "find")
            self.assertEqual(self.refused("configurationDone"), "the machines run already: configurationDone comes once")
            self.assertEqual([thread["id"] for thread in self.ask("threads")["threads"]], [1])
            self.ask("setFunctionBreakpoints", breakpoints=[])
            self.ask("setBreakpoints", source=SOURCE, breakpoints=[{"line": 26}])
            self.ask("continue", threadId=1)
            self.assertEqual(self.stopped(1, "breakpoint")[0]["line"], 26)
            self.ask("continue", threadId=1)
            self.editor.wait("terminated")
            self.ask("terminate")
            self.editor.wait("terminated")
        self.leave()

    def test_condition(self) -> None:
        """A breakpoint with a condition stops only where it holds."""
        self.launch(arguments=(TABLE[1], "8"))
        self.ask("setBreakpoints", source=SOURCE, breakpoints=[{"line": 16, "condition": "i == 1"}])
        self.ask("configurationDone")
        frames = self.stopped(1, "breakpoint")
        self.assertEqual((frames[0]["line"], self.variables(frames[0])["i"]["value"]), (16, "1"))
        self.ask("setBreakpoints", source=SOURCE, breakpoints=[])
        self.ask("continue", threadId=1)
        self.assertEqual(self.editor.wait("exited")["body"]["exitCode"], 2)
        self.leave()

    def test_stop(self) -> None:
        """A program that goes wrong stops with the reason, and can be looked at."""
        self.launch(arguments=("+4", "7"))
        self.ask("configurationDone")
        frames = self.stopped(1, "exception")
        said = "machine 1 stopped: outside (an access to bytes that aren't all there)\n[r2] is object 1, and object 1 has 4 bytes"
        self.assertEqual((self.text, frames[0]["name"], frames[0]["line"]), (said, "find", 15))
        self.assertEqual(self.variables(frames[0])["key"]["value"], "7")
        self.assertIn(
            "there is no object 1, or it ends before offset 40",
            self.ask("evaluate", expression="table", frameId=frames[0]["id"])["result"]
            + self.refused("evaluate", expression="*table", frameId=frames[0]["id"]),
        )
        self.leave()

    def test_hung(self) -> None:
        """An editor that disconnects from a service that has hung hears what may stay there, and isn't kept waiting."""
        path = self.endless()
        self.assertTrue(is_soon(self.left_hung, path))

    def left_hung(self, path: pathlib.Path) -> float:
        """Does so, and gives how long it takes."""
        editor = editor_module().Editor([*DEBUGGER, "--dap"], is_quiet=True)
        self.addCleanup(editor.__exit__)
        with endless_service(path) as service:
            editor.ask("initialize")
            editor.ask("attach", place=service.place, program=str(path))
            editor.ask("setFunctionBreakpoints", breakpoints=[{"name": "more"}])
            editor.ask("configurationDone")
            editor.wait("stopped")
            hang(service)
            # The adapter looks for new machines.
            until_asked(service.process)
            start = time.monotonic()
            editor.ask("disconnect")
            self.assertEqual(editor.process.wait(SECONDS), 0)
            took = time.monotonic() - start
            told = [event["body"]["output"] for event in editor.events if event["event"] == "output"]
            self.assertEqual(told[-1], "the service doesn't answer, and may keep breakpoint 1, the pause of machine 1\n")
            service._process.send_signal(signal.SIGCONT)
            return took

    def left(self, begun: Callable[[], Optional[int]], is_gone: bool, command: str, **arguments: Any) -> float:
        """An editor disconnects, or is gone, while what it asked for doesn't begin to answer. Gives how long the adapter takes to end."""
        editor = editor_module().Editor([*DEBUGGER, "--dap"], is_quiet=True)
        self.addCleanup(editor.__exit__)
        editor.ask("initialize")
        editor.send(command, **arguments)
        number = begun()
        start = time.monotonic()
        if is_gone:
            editor.process.stdin.close()
        else:
            editor.send("disconnect")
        expected = [(2, command, False, "the session was ended before a reply came"), (3, "disconnect", True, None)][: 1 if is_gone else 2]
        heard = [editor.receive() for _ in expected]
        self.assertEqual({message["type"] for message in heard}, {"response"})
        self.assertEqual([(message["request_seq"], message["command"], message["success"], message.get("message")) for message in heard], expected)
        self.assertEqual((editor.process.wait(SECONDS), editor.process.stdout.read()), (0, b""))
        took = time.monotonic() - start
        if number is not None:
            until_gone(number)
        return took

    def left_service(self, service: stand_in.StandIn, is_gone: bool) -> float:
        """The same of an editor that attaches to a service."""
        with service() as (port, begun):
            return self.left(begun, is_gone, "attach", port=port)

    def test_silent(self) -> None:
        """An editor may leave at once while a session begins with a service or a program that doesn't answer."""
        started = {serve: silent_program(self.folder, *answers) for serve, answers in ((False, ()), (True, ("shipped 1", "ok")))}
        for is_gone in (False, True):
            for service in (stand_in.silent, stand_in.full):
                self.assertTrue(is_at_once(self.left_service, service, is_gone), service.__name__)
            for serve, (path, begun) in started.items():
                self.assertTrue(is_at_once(self.left, begun, is_gone, "launch", program=TABLE[0], bpfagent=path, serve=serve), f"launch, {serve}")

    def test_garbage(self) -> None:
        """What is no message ends the adapter, which says why."""
        for garbage, why in (
            (b"hello\r\n\r\n", "a message has no length"),
            (b"Content-Length: x\r\n\r\n", "a message has no length"),
            (b"Content-Length: 3\r\n\r\nabc", "a message is no JSON"),
            (b"Content-Length: 2\r\n\r\n[]", "a message is no object"),
            (b"Content-Length: 100000\r\n\r\n" + b"[" * 100_000, "a message is nested too deeply"),
            (b"x" * 70_000, "this is no message of the Debug Adapter Protocol"),
        ):
            done = subprocess.run([*DEBUGGER, "--dap"], input=garbage, capture_output=True, timeout=SECONDS)
            self.assertEqual((done.returncode, done.stdout, done.stderr.decode()), (1, b"", f"bpfagent-debug: {why}\n"), garbage[:20])
        done = subprocess.run([*DEBUGGER, "--dap"], stdin=subprocess.DEVNULL, capture_output=True, timeout=SECONDS)
        self.assertEqual((done.returncode, done.stdout, done.stderr), (0, b"", b""), "an editor that goes")

    def test_unanswered(self) -> None:
        """A bpfagent that ends at once, or in a session, is a refusal and no silence; numbers out of range are refused."""
        for is_service in (False, True):
            self.assertIn(self.refused("launch", program=TABLE[0], arguments=TABLE[1:], bpfagent=shutil.which("true"), serve=is_service), GONE)
        wrong: list[tuple[Body, str]] = [
            ({"fuel": -1}, f"fuel is a number from 0 to {2**64 - 1}"),
            ({"fuel": "7"}, f"fuel is a number from 0 to {2**64 - 1}"),
            ({"workers": 17, "serve": True}, "workers is a number from 0 to 16"),
            ({"machines": 0}, "machines is a number from 1 to 48"),
            ({"fuel": True}, f"fuel is a number from 0 to {2**64 - 1}"),
            ({"flags": "-O2"}, "flags is a list of strings"),
        ]
        for options, why in wrong:
            self.assertEqual(self.refused("launch", program=TABLE[0], arguments=TABLE[1:], **options), why)
        note = self.folder / "number"
        program = noting_program(self.folder / "ends", note)
        self.launch(bpfagent=str(program), stopOnEntry=True)
        self.ask("configurationDone")
        self.stopped(1, "entry")
        os.kill(int(note.read_text()), signal.SIGKILL)
        self.assertIn(self.refused("next", threadId=1), GONE)
        self.editor.wait("terminated")
        self.assertEqual(self.editor.process.wait(SECONDS), 0)

    def test_signals(self) -> None:
        """A signal that ends the debugger leaves the machines of a service as a disconnection does."""
        path = self.endless()
        with_signals(self)
        for number in SIGNALS:
            with endless_service(path) as service:
                other = service.connect(SECONDS)
                editor = editor_module().Editor([*DEBUGGER, "--dap"], is_quiet=True)
                self.addCleanup(editor.__exit__)
                editor.ask("initialize")
                editor.ask("attach", place=service.place, program=str(path))
                editor.ask("setFunctionBreakpoints", breakpoints=[{"name": "more"}])
                editor.ask("configurationDone")
                editor.wait("stopped")
                self.assertEqual(other.regs(1).state, "paused")
                editor.process.send_signal(number)
                self.assertEqual(editor.process.wait(SECONDS), 128 + number)
                self.assertTrue(changes(other, 1), "the machine doesn't go on")


if __name__ == "__main__":
    unittest.main()

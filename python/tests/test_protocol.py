"""The adapter, request by request as Visual Studio Code asks: each message is held against the schema of the Debug Adapter Protocol."""
from __future__ import annotations

import base64
import contextlib
import functools
import importlib.util
import json
import os
import pathlib
import threading
import unittest
from typing import Any, Iterator

from bpfagent.debug.channel import Channel, Ended
from bpfagent.debug.dap import Adapter
from bpfagent.debug.ending import Ending
from support import DEBUG, ENDLESS, SECONDS, TABLE, folder_of, needs_debugger

Body = dict[str, Any]
HERE = pathlib.Path(__file__).resolve().parent
SOURCE = {"name": "table.c", "path": str(DEBUG / "table.c")}
# What Visual Studio Code says of itself.
CODE: Body = {
    "clientID": "vscode", "clientName": "Visual Studio Code", "adapterID": "bpfagent", "locale": "en", "linesStartAt1": True, "columnsStartAt1": True,
    "pathFormat": "path", "supportsVariableType": True, "supportsVariablePaging": True, "supportsRunInTerminalRequest": True,
    "supportsMemoryReferences": True, "supportsProgressReporting": True, "supportsInvalidatedEvent": True,
}  # fmt: skip
# Words of messages that only Python writes.
PYTHON = ("Error", "object is not", "has no attribute", "invalid literal", "NoneType", "argument must be", "'int'", "'str'", "mistake")
# Requests that have arguments, and the names of these.
REQUESTS = (
    "setBreakpoints setFunctionBreakpoints dataBreakpointInfo setDataBreakpoints continue next stepIn stepOut pause stackTrace scopes variables evaluate "
    "exceptionInfo readMemory disassemble initialize launch attach restart"
).split()
NAMES = (
    "threadId frameId source breakpoints name variablesReference memoryReference count expression port arguments start instructionCount granularity filter "
    "pathFormat program levels"
).split()
ARRAYS = """#include "bpfagent.h"
struct entry { uint64_t key; union { uint32_t low; uint8_t bytes[4]; }; unsigned bit : 3; struct entry *next; };
struct big { struct entry e[3]; uint16_t many[600]; };
int program(struct big *big)
{
    uint64_t key = 1;
    int result = -2;
    struct entry one = big->e[1];
    return result + (int)(one.key + key) * 0;
}
"""
NO_POINTER = "this is no pointer, but uint64_t: cast it, as in *(uint64_t *)"


@functools.lru_cache(maxsize=None)
def schema() -> Body:
    """The protocol's messages. An adapter says nothing that the protocol doesn't know; a launch has what the adapter wants."""
    found: Body = json.loads((HERE / "protocol.json").read_text())
    for name, definition in found["definitions"].items():
        if not name.endswith("RequestArguments") and definition.get("properties"):
            definition["additionalProperties"] = False
    return found


@functools.lru_cache(maxsize=None)
def validator(name: str) -> Any:
    """What holds a message against a definition; None without python3-jsonschema."""
    if importlib.util.find_spec("jsonschema") is None:
        return None
    import jsonschema

    return jsonschema.Draft7Validator({**schema(), "$ref": f"#/definitions/{name}"})


def check(message: Body, name: str) -> None:
    """Raises what is wrong with a message."""
    if held := validator(name):
        held.validate(message)


class Editor:
    """An editor that talks to an adapter in this process."""

    def __init__(self) -> None:
        reads, self._to = os.pipe()
        self._from, writes = os.pipe()
        self._channel, self._last = Channel(self._from, self._to), 0
        self.events: list[Body] = []
        self._thread = threading.Thread(target=self._serve, args=(Channel(reads, writes),), daemon=True)
        self._thread.start()

    @staticmethod
    def _serve(channel: Channel) -> None:
        with contextlib.suppress(Ended):
            Adapter(channel, Ending()).serve()

    def _receive(self) -> Body:
        message = self._channel.receive(SECONDS)
        assert message is not None, "the adapter says nothing"
        kind = message["type"]
        name = message["event"] if kind == "event" else message["command"]
        title = name[:1].upper() + name[1:]
        check(message, "ErrorResponse" if kind == "response" and not message["success"] else f"{title}{kind.capitalize()}")
        return message

    def send(self, command: str, arguments: Any) -> None:
        """Sends a request."""
        self._last += 1
        content = json.dumps({"seq": self._last, "type": "request", "command": command, "arguments": arguments}).encode()
        os.write(self._to, b"Content-Length: %d\r\n\r\n%b" % (len(content), content))

    def response(self, command: str, arguments: Any) -> Body:
        """The response to a request."""
        self.send(command, arguments)
        while (message := self._receive())["type"] == "event":
            self.events.append(message)
        assert message["request_seq"] == self._last
        return message

    def ask(self, command: str, **arguments: Any) -> Body:
        """The body of the response to a request that is done."""
        check({"seq": 1, "type": "request", "command": command, "arguments": arguments}, f"{command[:1].upper()}{command[1:]}Request")
        found = self.response(command, arguments)
        assert found["success"], found
        body: Body = found["body"]
        return body

    def refused(self, command: str, **arguments: Any) -> str:
        """Why a request is refused."""
        found = self.response(command, arguments)
        assert not found["success"], found
        return str(found["message"])

    def wait(self, name: str) -> Body:
        """The body of the next event of this name."""
        while True:
            message = self.events.pop(0) if self.events else self._receive()
            if message["event"] == name:
                return message.get("body") or {}

    def close(self) -> None:
        """The editor disconnects."""
        with contextlib.suppress(AssertionError, OSError):
            self.response("disconnect", {"restart": False})
        self._thread.join(SECONDS)
        os.close(self._to)
        os.close(self._from)


@needs_debugger
class Requests(unittest.TestCase):
    """Sessions of an editor."""

    def setUp(self) -> None:
        self.folder = folder_of(self)
        self.editor = Editor()
        self.addCleanup(self.editor.close)

    def launch(self, program: str = TABLE[0], arguments: tuple[str, ...] = tuple(TABLE[1:]), client: Body = CODE, **options: Any) -> Body:
        """Starts a program, up to the point at which breakpoints are set."""
        found = self.editor.ask("initialize", **client)
        self.editor.ask("launch", name="bpfagent", type="bpfagent", request="launch", program=program, arguments=list(arguments), __sessionId="1", **options)
        self.editor.wait("initialized")
        return found

    def points(self, *lines: int, **options: Any) -> list[Body]:
        """Breakpoints on lines of the program."""
        wanted = [{"line": line, **options} for line in lines]
        made: list[Body] = self.editor.ask("setBreakpoints", source=SOURCE, lines=list(lines), breakpoints=wanted, sourceModified=False)["breakpoints"]
        return made

    def stopped(self, reason: str) -> Body:
        """The innermost frame once the machine has stopped for this reason."""
        self.body = self.editor.wait("stopped")
        self.assertEqual(self.body["reason"], reason, self.body)
        frames = self.editor.ask("stackTrace", threadId=1, startFrame=0, levels=1)["stackFrames"]
        frame: Body = frames[0]
        return frame

    def scope(self, frame: Body, number: int = 0) -> list[Body]:
        """The variables of a scope of a frame."""
        reference = self.editor.ask("scopes", frameId=frame["id"])["scopes"][number]["variablesReference"]
        found: list[Body] = self.editor.ask("variables", variablesReference=reference)["variables"]
        return found

    def test_session(self) -> None:
        """A session from the launch to the end, with what the editor asks at each stop."""
        can = self.launch()
        self.assertEqual((can["supportsSetVariable"], can["supportsLogPoints"], can["supportsRestartRequest"]), (False, True, True))
        self.assertEqual([(made["verified"], made["line"]) for made in self.points(23)], [(True, 23)])
        self.editor.ask("setFunctionBreakpoints", breakpoints=[])
        self.editor.ask("setDataBreakpoints", breakpoints=[])
        self.editor.ask("setExceptionBreakpoints", filters=[])
        self.editor.ask("configurationDone")
        self.assertEqual(self.editor.ask("threads")["threads"], [{"id": 1, "name": "machine 1"}])
        frame = self.stopped("breakpoint")
        self.assertEqual(self.editor.ask("stackTrace", threadId=1, startFrame=1, levels=19), {"totalFrames": 1, "stackFrames": []})
        found = {each["name"]: each for each in self.scope(frame)}
        self.assertEqual(found["key"]["value"], "7")
        self.assertEqual(self.editor.ask("evaluate", expression="table->count", frameId=frame["id"], context="watch")["result"], "2")
        for request, line in (("stepIn", 15), ("next", 16), ("stepOut", 23), ("next", 24)):
            self.editor.ask(request, threadId=1, **({} if request == "stepOut" else {"granularity": "statement"}))
            self.assertEqual(self.stopped("step")["line"], line, request)
        frame = self.stopped_at_watch()
        self.assertEqual(frame["line"], 25)
        read = self.editor.ask("readMemory", memoryReference="0x100000000", offset=0, count=8)
        self.assertEqual(base64.b64decode(read["data"]), (1).to_bytes(8, "little"))
        self.editor.ask("disassemble", memoryReference=frame["instructionPointerReference"], offset=0, instructionOffset=-2, instructionCount=5)
        self.editor.ask("setDataBreakpoints", breakpoints=[])
        self.editor.ask("continue", threadId=1)
        self.assertEqual(self.editor.wait("output")["output"], "machine 1 ended: exit 0000000000000028 (40)\n")
        self.assertEqual(self.editor.wait("exited"), {"exitCode": 40})
        self.editor.wait("terminated")

    def stopped_at_watch(self) -> Body:
        """The frame behind a write to a watched value."""
        top = self.editor.ask("stackTrace", threadId=1)["stackFrames"][0]
        pointer = next(each for each in self.scope(top) if each["name"] == "table")
        pointed = self.editor.ask("variables", variablesReference=pointer["variablesReference"])["variables"][0]
        info = self.editor.ask("dataBreakpointInfo", variablesReference=pointed["variablesReference"], name="count")
        made = self.editor.ask("setDataBreakpoints", breakpoints=[{"dataId": info["dataId"], "accessType": "write"}])["breakpoints"]
        self.editor.ask("continue", threadId=1)
        frame = self.stopped("data breakpoint")
        self.assertEqual((self.body["hitBreakpointIds"], self.body["text"]), ([made[0]["id"]], "table->count: 2 -> 1"))
        return frame

    def test_terms(self) -> None:
        """Conditions, hit counts, log points and functions; what can't be read is refused when it is set."""
        self.launch(arguments=(TABLE[1], "8"))
        self.assertTrue(all(made["verified"] for made in self.points(16, hitCondition="2")))
        self.editor.ask("configurationDone")
        for _ in range(2):
            self.assertEqual(self.editor.ask("evaluate", expression="i", frameId=self.stopped("breakpoint")["id"])["result"], "1")
            # A restart counts hits from the beginning.
            self.editor.ask("restart")
        self.assertEqual(self.editor.ask("evaluate", expression="i", frameId=self.stopped("breakpoint")["id"])["result"], "1")
        self.points(16, logMessage="i is {i}, {key + 1}, {1 / 0}")
        self.editor.ask("setFunctionBreakpoints", breakpoints=[{"name": "find"}])
        self.editor.ask("restart")
        self.assertEqual(self.stopped("function breakpoint")["name"], "find")
        self.editor.ask("setFunctionBreakpoints", breakpoints=[])
        self.editor.ask("continue", threadId=1)
        said = [self.editor.wait("output")["output"] for _ in range(2)]
        self.assertEqual(said, ["i is 0, 9, <division by zero>\n", "i is 1, 9, <division by zero>\n"])
        self.assertEqual(self.editor.wait("exited"), {"exitCode": 2})
        for terms, why in (
            ({"condition": "nothing > 1"}, "the condition `nothing > 1` can't be read: nothing is called nothing there"),
            ({"condition": "table->none > 1"}, "the condition `table->none > 1` can't be read: const struct table has no member none; it has count, pairs"),
            ({"condition": "table->pairs[i].key && *i"}, f"the condition `table->pairs[i].key && *i` can't be read: {NO_POINTER}"),
            ({"logMessage": "{table->pairs->none}"}, "the message's `table->pairs->none` can't be read: struct pair has no member none; it has key, value"),
            ({"hitCondition": "often"}, "`often` is no number of hits: 5, >= 5 and % 5 are some"),
            ({"logMessage": "{i +}"}, "the message's `i +` can't be read: the expression ends too early"),
        ):
            self.assertEqual(self.points(16, **terms), [{"verified": False, "message": why}])

    def values(self, variables: list[Body], frame: Body, depth: int) -> Iterator[tuple[Body, str]]:
        """Each variable down to a depth, and the value that its expression has."""
        for each in variables:
            if "evaluateName" in each:
                yield each, self.editor.ask("evaluate", expression=each["evaluateName"], frameId=frame["id"], context="variables")["result"]
            if each["variablesReference"] and depth:
                paging = {"filter": "indexed", "start": 0, "count": 3} if "indexedVariables" in each else {}
                yield from self.values(self.editor.ask("variables", variablesReference=each["variablesReference"], **paging)["variables"], frame, depth - 1)

    def test_names(self) -> None:
        """Each child's and register's expression has its value; arrays come by pages; the exit code is a signed number."""
        path, data = self.folder / "arrays.c", self.folder / "data"
        path.write_text(ARRAYS)
        entries = [(k + 5).to_bytes(8, "little") + bytes([k, 2, 3, 4, 5, 0, 0, 0]) + (1 << 32).to_bytes(8, "little") for k in range(3)]
        data.write_bytes(b"".join(entries) + bytes(range(240)) * 5)
        self.launch(str(path), (f"@{data}",))
        self.editor.ask("setBreakpoints", source={"path": str(path)}, breakpoints=[{"line": 9}])
        self.editor.ask("configurationDone")
        frame = self.stopped("breakpoint")
        found = [each for number, depth in ((0, 5), (1, 0), (2, 0)) for each in self.values(self.scope(frame, number), frame, depth)]
        for each, value in found:
            self.assertEqual(each["value"], value, each["evaluateName"])
        names = [each["evaluateName"] for each, _ in found]
        wanted = {"big->e[1].key", "big->e[2].low", "big->e[0].bytes[2]", "one.bit", "*big->e[1].next", "one.next->key", "$r10", "$slot", "key"}
        self.assertLessEqual(wanted, set(names))
        big = self.editor.ask("evaluate", expression="big->many", frameId=frame["id"], context="hover")
        self.assertEqual(big["indexedVariables"], 600)
        page = self.editor.ask("variables", variablesReference=big["variablesReference"], filter="indexed", start=598, count=100)["variables"]
        self.assertEqual([each["name"] for each in page], ["[598]", "[599]"])
        self.assertEqual(self.editor.ask("variables", variablesReference=big["variablesReference"], filter="named")["variables"], [])
        self.assertEqual(len(self.editor.ask("variables", variablesReference=big["variablesReference"])["variables"]), 600)
        self.editor.ask("continue", threadId=1)
        self.assertEqual(self.editor.wait("exited"), {"exitCode": -2})

    def test_client(self) -> None:
        """Lines and columns that begin at 0, and paths as URI."""
        self.launch(client={**CODE, "linesStartAt1": False, "columnsStartAt1": False, "pathFormat": "uri"})
        uri = pathlib.Path(SOURCE["path"]).as_uri()
        made = self.editor.ask("setBreakpoints", source={"path": uri}, breakpoints=[{"line": 22}])["breakpoints"][0]
        self.assertEqual((made["verified"], made["line"], made["source"]["path"]), (True, 22, uri))
        self.editor.ask("configurationDone")
        frame = self.stopped("breakpoint")
        self.assertEqual((frame["line"], frame["column"], frame["source"]["path"]), (22, 0, uri))
        found = self.editor.ask("disassemble", memoryReference=frame["instructionPointerReference"], instructionCount=1)["instructions"][0]
        self.assertEqual((found["line"], found["location"]["path"]), (22, uri))
        self.assertEqual(self.editor.refused("initialize", adapterID="x", pathFormat="other"), "pathFormat is path or uri, and not other")

    def test_undebugged(self) -> None:
        """With noDebug nothing stops the program, and a fault ends the session with its text."""
        self.launch(arguments=("+4", "7"), noDebug=True, stopOnEntry=True)
        self.assertEqual(self.points(23), [{"verified": False, "message": "the program runs without debugging"}])
        self.editor.ask("configurationDone")
        self.assertEqual(self.editor.wait("output")["output"].splitlines()[0], "machine 1 stopped: outside (an access to bytes that aren't all there)")
        self.editor.wait("terminated")

    def test_fault(self) -> None:
        """A fault is told in the terminal's words and can be looked at. Going on ends the session, and is refused with the reason from then on."""
        self.launch(arguments=("+4", "7"))
        self.editor.ask("configurationDone")
        reason = "outside (an access to bytes that aren't all there)"
        text = f"machine 1 stopped: {reason}\n[r2] is object 1, and object 1 has 4 bytes"
        for going, body in (("continue", {"allThreadsContinued": False}), ("next", {}), ("stepOut", {})):
            self.assertEqual(self.stopped("exception")["line"], 15)
            self.assertEqual((self.body["text"], self.body["description"]), (text, text.splitlines()[0]))
            found = self.editor.ask("exceptionInfo", threadId=1)
            self.assertEqual((found["exceptionId"], found["description"], found["breakMode"]), ("outside", text, "always"))
            self.assertEqual(self.editor.ask(going, threadId=1), body)
            self.assertEqual(self.editor.wait("thread"), {"reason": "exited", "threadId": 1})
            self.editor.wait("terminated")
            for request in ("continue", "next"):
                self.assertEqual(self.editor.refused(request, threadId=1), f"machine 1 has stopped: {reason}")
            self.assertEqual([event for event in self.editor.events if event["event"] == "terminated"], [])
            self.editor.ask("restart")

    def test_running(self) -> None:
        """A breakpoint that is set while a program is in a loop stops it there, also on the loop's line."""
        path = self.folder / "endless.c"
        path.write_text(ENDLESS)
        self.launch(str(path), ("+8",), fuel=2**63)
        self.editor.ask("configurationDone")
        for line in (10, 11):
            made = self.editor.ask("setBreakpoints", source={"path": str(path)}, breakpoints=[{"line": line}])["breakpoints"][0]
            self.assertTrue(made["verified"])
            self.assertEqual(self.stopped("breakpoint")["line"], made["line"])
            self.editor.ask("setBreakpoints", source={"path": str(path)}, breakpoints=[])
            self.editor.ask("continue", threadId=1)

    def test_words(self) -> None:
        """Wrong arguments are refused in words, and the session goes on."""
        self.assertEqual(self.editor.refused("setVariable", variablesReference=1, name="i", value="2"), "setVariable isn't supported")
        self.launch(stopOnEntry=True)
        self.editor.ask("configurationDone")
        frame = self.stopped("entry")
        self.assertEqual(self.editor.refused("stackTrace"), "threadId is required")
        self.assertEqual(self.editor.refused("exceptionInfo", threadId=1), "machine 1 hasn't gone wrong")
        self.assertEqual(self.editor.refused("restart", arguments={"program": "/other.c"}), "restart keeps the program: disconnect, and launch another")
        wrongs: list[Any] = [None, "x", [], -1, 2**200, 1.5, {}, True, ["x"], [{"line": "x"}], [{"dataId": 1}], [{"name": None}]]
        for request in REQUESTS:
            for wrong in wrongs:
                found = self.editor.response(request, {name: wrong for name in NAMES} if wrong != "x" else "x")
                message = str(found.get("message"))
                self.assertFalse(not found["success"] and any(word in message for word in PYTHON), f"{request}, {wrong}: {message}")
        self.assertEqual(self.editor.ask("evaluate", expression="1 + 1", frameId=frame["id"])["result"], "2")


if __name__ == "__main__":
    unittest.main()

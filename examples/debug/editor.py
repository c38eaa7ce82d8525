#!/usr/bin/env python3
"""What an editor says to the debugger, and hears: editor.py [--serve] FILE ARGUMENT ..

It starts `bpfagent-debug --dap`, has it stop on a line, looks at variables, steps into a function and out of it, watches a
value, and goes on to the end. Each request is shown behind `->`, and what came of it below. With --serve the program runs in a
service, as three machines over four workers.
"""
from __future__ import annotations

import json
import os
import shutil
import subprocess
import sys
from typing import Any, Optional

Body = dict[str, Any]
# The machine that is followed, and the line of its breakpoint.
MACHINE, LINE = 1, 23


class Editor:
    """A client of the Debug Adapter Protocol that prints what it says, unless it is to be quiet, and hears."""

    def __init__(self, command: list[str], is_quiet: bool = False) -> None:
        self.process = subprocess.Popen(command, stdin=subprocess.PIPE, stdout=subprocess.PIPE)
        self.sequence, self.events, self.is_quiet = 0, list[Body](), is_quiet

    def __enter__(self) -> Editor:
        return self

    def __exit__(self, *_: object) -> None:
        assert self.process.stdin and self.process.stdout
        self.process.stdin.close()
        self.process.stdout.close()
        self.process.wait(30)

    def receive(self) -> Body:
        """The next message."""
        assert self.process.stdout
        length = 0
        while line := self.process.stdout.readline().strip():
            length = int(line.split(b":")[1])
        if not length:
            raise RuntimeError("the debugger has ended")
        message: Body = json.loads(self.process.stdout.read(length))
        return message

    def send(self, command: str, **arguments: Any) -> None:
        """Sends a request."""
        assert self.process.stdin
        if not self.is_quiet:
            print("->", command, *[f"{name}={value}" for name, value in arguments.items() if isinstance(value, (int, str))])
        self.sequence += 1
        content = json.dumps({"seq": self.sequence, "type": "request", "command": command, "arguments": arguments}).encode()
        self.process.stdin.write(b"Content-Length: %d\r\n\r\n%b" % (len(content), content))
        self.process.stdin.flush()

    def ask(self, command: str, **arguments: Any) -> Body:
        """The body of the response to a request. Events on the way are kept."""
        self.send(command, **arguments)
        while (message := self.receive())["type"] == "event":
            self.events.append(message)
        if not message["success"]:
            raise RuntimeError(f"{command}: {message['message']}")
        body: Body = message["body"]
        return body

    def wait(self, *names: str) -> Body:
        """The next event of one of these names."""
        while True:
            message = self.events.pop(0) if self.events else self.receive()
            if message["event"] in names:
                return message

    def stopped(self, machine: int) -> Body:
        """The innermost frame of a machine, when it has stopped; printed, with those that called it."""
        while (body := self.wait("stopped")["body"])["threadId"] != machine:
            pass
        text = f" ({body['text']})" if "text" in body else ""
        print(f"<- stopped: machine {machine}, {body['reason']}{text}")
        frames: list[Body] = self.ask("stackTrace", threadId=machine)["stackFrames"]
        print("  " + ", ".join(f"{frame['name']} at line {frame['line']}" for frame in frames))
        return frames[0]

    def variables(self, frame: Body) -> dict[str, Body]:
        """The local variables of a frame; printed."""
        scope = self.ask("scopes", frameId=frame["id"])["scopes"][0]
        found = self.ask("variables", variablesReference=scope["variablesReference"])["variables"]
        print("  " + ", ".join(f"{variable['name']} = {variable['value']}" for variable in found))
        return {variable["name"]: variable for variable in found}

    def inner(self, variable: Body) -> list[Body]:
        """What is within a variable; printed."""
        found: list[Body] = self.ask("variables", variablesReference=variable["variablesReference"])["variables"]
        for each in found:
            print(f"  {each['name']} = {each['value']}")
        return found


def session(editor: Editor, file: str, arguments: list[str], options: Body) -> None:
    """A whole session, from the first breakpoint to the program's end."""
    editor.ask("initialize", adapterID="bpfagent")
    editor.ask("launch", program=file, arguments=arguments, **options)
    editor.wait("initialized")
    made = editor.ask("setBreakpoints", source={"path": os.path.abspath(file)}, breakpoints=[{"line": LINE}])
    print(f"  line {made['breakpoints'][0]['line']}, verified: {made['breakpoints'][0]['verified']}")
    editor.ask("configurationDone")
    frame = editor.stopped(MACHINE)
    print("  " + ", ".join(thread["name"] for thread in editor.ask("threads")["threads"]))
    editor.inner(editor.inner(editor.variables(frame)["table"])[0])
    editor.ask("stepIn", threadId=MACHINE)
    frame = editor.stopped(MACHINE)
    editor.variables(frame)
    for instruction in editor.ask("disassemble", memoryReference=frame["instructionPointerReference"], instructionOffset=0, instructionCount=2)["instructions"]:
        print(f"  {instruction['instruction']}")
    editor.ask("next", threadId=MACHINE)
    editor.stopped(MACHINE)
    editor.ask("stepOut", threadId=MACHINE)
    to_the_end(editor, file, editor.stopped(MACHINE))


def to_the_end(editor: Editor, file: str, frame: Body) -> None:
    """Watches a value, goes on until it is written, and then to the end."""
    watched = editor.ask("dataBreakpointInfo", name="table->count", frameId=frame["id"])
    editor.ask("setDataBreakpoints", breakpoints=[{"dataId": watched["dataId"]}])
    editor.ask("setBreakpoints", source={"path": os.path.abspath(file)}, breakpoints=[])
    editor.ask("continue", threadId=MACHINE)
    editor.stopped(MACHINE)
    print(" ", editor.ask("readMemory", memoryReference="0x100000000", count=12)["data"])
    editor.ask("setDataBreakpoints", breakpoints=[])
    for thread in editor.ask("threads")["threads"]:
        editor.ask("continue", threadId=thread["id"])
    print("<- exited, code", editor.wait("exited")["body"]["exitCode"])
    editor.ask("disconnect")


def main() -> None:
    """The command line."""
    words = sys.argv[1:]
    options: Body = {"serve": True, "workers": 4, "machines": 3} if words[:1] == ["--serve"] else {}
    file: Optional[str] = next((word for word in words if word != "--serve"), None)
    if file is None:
        sys.exit(__doc__)
    try:
        installed = shutil.which("bpfagent-debug")
        with Editor([*([installed] if installed else [sys.executable, "-m", "bpfagent.debug.main"]), "--dap"]) as editor:
            session(editor, file, words[words.index(file) + 1 :], options)
    except (OSError, RuntimeError) as why:
        sys.exit(f"editor.py: {why}")


if __name__ == "__main__":
    main()

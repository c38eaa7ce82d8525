"""The debugger for editors, by the Debug Adapter Protocol. Each machine is a thread."""
from __future__ import annotations

import contextlib
import os
import sys
from typing import Callable, Optional

from .. import limits
from ..commands import address_text, fault_text
from ..image import Unloadable
from ..replies import PAUSED, RUNNING, Broken, Refused
from ..ship import FUEL, Unshippable
from ..streams import LAST_PORT, checked_place
from . import views
from .adapter_points import Points
from .adapter_views import Views
from .channel import Channel, Ended
from .ending import Ending
from .engine import ENDS, Goal, Impossible, Stop
from .expressions import Invalid
from .given import Body, Client, Given
from .lines import NoDwarf
from .program import NoPlace
from .session import LEAVING, MOST_WORKERS, WORKERS, Plan, Session
from .stepping import Stepper
from .symbols import Nowhere

# Why a request can't be done, and what only a mistake of the debugger's raises.
FAULTS = (Impossible, Invalid, NoPlace, NoDwarf, Nowhere, Refused, Unloadable, Unshippable, OSError)
MISTAKES = (ArithmeticError, AttributeError, LookupError, RecursionError, TypeError, ValueError)
CAPABILITIES = (
    "supportsConfigurationDoneRequest",
    "supportsConditionalBreakpoints",
    "supportsHitConditionalBreakpoints",
    "supportsLogPoints",
    "supportsFunctionBreakpoints",
    "supportsDataBreakpoints",
    "supportsSteppingGranularity",
    "supportsReadMemoryRequest",
    "supportsDisassembleRequest",
    "supportsEvaluateForHovers",
    "supportsExceptionInfoRequest",
    "supportsRestartRequest",
    "supportsTerminateRequest",
)
REASONS = {
    "breakpoint": "breakpoint",
    "watch": "data breakpoint",
    "end": "data breakpoint",
    "step": "step",
    "finish": "step",
    "stopped": "exception",
    "waiting": "pause",
    "pause": "pause",
}
# Arguments that are numbers: what each is if it isn't given, the least and the most.
NUMBERS = {"fuel": (FUEL, 0, limits.WORD), "workers": (WORKERS, 0, MOST_WORKERS), "machines": (1, 1, limits.MACHINES)}
# How long nothing is done while a service's machines run, which is doubled up to the second as long as nothing happens, and
# while nothing runs; in seconds.
FIRST, LAST, NOTHING = 0.002, 0.05, 0.5


class Adapter(Points, Views):
    """One session with an editor."""

    def __init__(self, channel: Channel, ending: Ending) -> None:
        super().__init__(channel, ending)
        self._pause = FIRST

    # ---- messages

    def serve(self) -> None:
        """Answers requests until the editor disconnects."""
        try:
            while not self._is_over:
                patience = self._patience()
                with self._ending.awaiting():
                    message = self._channel.receive(patience)
                self._pause = min(2 * self._pause, LAST) if message is None else FIRST
                if message is not None and message.get("type") == "request":
                    self._answer(message)
                elif message is None and self._session and self._is_configured:
                    self._poll()
        except Broken as why:
            self._event("output", category="stderr", output=f"{why}\n")
            self._event("terminated")
            self._ending.check()
            self._part()
        finally:
            self._close()

    def _close(self) -> None:
        """Ends what is debugged, if something is."""
        session, self._session = self._session, None
        self._begin_anew()
        if session and (left := session.close()):
            # At once: an editor doesn't listen behind the response to its disconnection.
            with contextlib.suppress(OSError):
                self._channel.send("event", event="output", body={"category": "stderr", "output": f"{left}\n"})

    def _part(self) -> None:
        """Answers a disconnection that has come while a reply was awaited."""
        with contextlib.suppress(Ended):
            while (message := self._channel.receive(0)) is not None:
                if message.get("type") == "request" and message.get("command") == "disconnect":
                    self._answer(message)

    def _is_leaving(self) -> bool:
        """Whether the debugger is to end."""
        return self._ending.has_come or self._channel.is_leaving()

    def _give_up(self) -> None:
        """While the first replies are awaited: if the debugger is to end, it does so at once, for nothing is set yet."""
        if self._is_leaving():
            raise Impossible("the session was ended before a reply came")

    def _look_up(self) -> None:
        """While a reply is awaited: if the debugger is to end, the agent has little time."""
        if self._session and self._is_leaving():
            self._engine.agent.hurry(LEAVING)

    def _patience(self) -> Optional[float]:
        """How long a request is waited for before machines go on, and new ones are looked for; None if neither can be."""
        if not self._session or not self._is_configured:
            return None
        if any(machine.goal for machine in self._engine.machines.values()):
            return self._pause if self._engine.is_service else 0.0
        return NOTHING if self._engine.is_service else None

    def _answer(self, message: Body) -> None:
        """Does a request, and responds to it. Then the events come that the request had."""
        command = str(message.get("command"))
        self._is_answering = True
        broken: Optional[Broken] = None
        try:
            body, why = self._done(command, message.get("arguments")), ""
        except Broken as fault:
            body, why, broken = None, str(fault), fault
        except FAULTS as fault:
            body, why = None, fault_text(fault)
        except MISTAKES:
            body, why = None, f"{command} failed by a mistake of the debugger's"
        finally:
            self._is_answering = False
        parts = {"request_seq": message.get("seq"), "command": command}
        if why:
            shown = {"error": {"id": 1, "format": "{why}", "variables": {"why": why}, "showUser": True}}
            self._channel.send("response", success=False, message=why, body=shown, **parts)
        else:
            self._channel.send("response", success=True, body=body or {}, **parts)
        later, self._later = self._later, []
        for name, held in later:
            self._event(name, **held)
        # One that couldn't begin leaves nothing behind, and another may.
        if broken and self._session:
            raise broken
        if not why:
            self._after(command)

    def _done(self, command: str, arguments: object) -> Optional[Body]:
        """The body of the response to a request."""
        handler: Optional[Callable[[Given], Optional[Body]]] = getattr(self, f"on_{command}", None)
        if handler is None:
            raise Impossible(f"{command} isn't supported")
        return handler(Given({} if arguments is None else arguments))

    def _after(self, command: str) -> None:
        """What follows on a response."""
        if command in ("launch", "attach"):
            self._event("initialized")
        elif command in ("configurationDone", "restart"):
            self._start()

    # ---- beginning and end

    def on_initialize(self, given: Given) -> Body:
        """What this adapter can do."""
        self._client = Client(given)
        return {**{capability: True for capability in CAPABILITIES}, "supportsSetVariable": False, "exceptionBreakpointFilters": []}

    def on_launch(self, given: Given) -> None:
        """Starts a program in this process, or in a new service."""
        self._open(given, None)

    def on_attach(self, given: Given) -> None:
        """Connects to a service."""
        self._open(given, place_in(given))

    def _open(self, given: Given, place: Optional[str]) -> None:
        if self._session:
            raise Impossible("something is debugged already")
        fuel, workers, machines = (given.number(name, *numbers) for name, numbers in NUMBERS.items())
        plan = Plan(
            given.optional("program"),
            given.texts("arguments"),
            given.optional("bpfagent"),
            fuel,
            given.optional("entry"),
            given.texts("flags"),
            given.flag("serve"),
            workers,
            machines,
            place,
        )
        self._runs_only = given.flag("noDebug")
        self._stops_on_entry = given.flag("stopOnEntry") and not self._runs_only
        self._session = Session(plan, self._give_up)
        self._listen()

    def _listen(self) -> None:
        """Hears what the debugger has to say meanwhile."""
        self._engine.agent.idle = self._look_up
        self._engine.log = lambda machine, text: self._output(text)

    def on_restart(self, given: Given) -> None:
        """Begins the program anew, with other arguments if there are some."""
        session = self._session
        if session is None:
            raise Impossible("nothing is debugged yet: launch or attach comes first")
        anew = given.part("arguments") if given.has("arguments") else Given({})
        if anew.has("program") and anew.text("program") != session.plan.file:
            raise Impossible("restart keeps the program: disconnect, and launch another")
        session.restart(anew.texts("arguments") if anew.has("arguments") else None)
        self._listen()
        self._tree.clear()
        self._ended, self._told, self._has_terminated = set(), set(), False

    def _start(self) -> None:
        """Lets the machines go on, or tells the editor that they stand at their beginning."""
        self._is_configured = True
        for number in sorted(self._engine.machines):
            self._event("thread", reason="started", threadId=number)
            self._told.add(number)
            if self._engine.is_running(number):
                continue
            state = self._engine.registers(number).state
            if self._stops_on_entry or state not in (RUNNING, PAUSED):
                self._event("stopped", reason="entry", threadId=number, allThreadsStopped=False)
            else:
                self._engine.run(number)

    def on_configurationDone(self, given: Given) -> None:
        """All breakpoints are set."""
        self._engine  # noqa: B018 - there has to be one
        if self._is_configured:
            raise Impossible("the machines run already: configurationDone comes once")

    def on_terminate(self, given: Given) -> None:
        """Ends what is debugged. The editor disconnects later."""
        self._close()
        self._event("terminated")

    def on_disconnect(self, given: Given) -> None:
        """The editor goes."""
        self._is_over = True
        self._close()

    # ---- machines that run

    def _poll(self) -> None:
        """Goes on with the machines, and tells the editor what has stopped."""
        for stop in self._engine.poll():
            self._tell(stop)
        for number in self._engine.machines:
            if number not in self._told:
                self._told.add(number)
                self._event("thread", reason="started", threadId=number)

    def _tell(self, stop: Stop) -> None:
        """Tells the editor why a machine has stopped."""
        self._tree.clear(stop.machine)
        for line in stop.gone:
            self._output(line)
        self._forget_watched()
        if stop.reason == "exit":
            self._exited(stop)
            return
        text = self._text(stop)
        if stop.reason == "stopped" and self._runs_only:
            self._output(text, "stderr")
            self._over(stop.machine)
            return
        is_named = bool(set(stop.breakpoints) & set(self._by_name)) and stop.reason == "breakpoint"
        body: Body = {"reason": "function breakpoint" if is_named else REASONS[stop.reason], "threadId": stop.machine, "allThreadsStopped": False}
        if text:
            body.update(description=text.splitlines()[0], text=text)
        if stop.breakpoints:
            body["hitBreakpointIds"] = list(stop.breakpoints)
        self._event("stopped", **body)

    def _text(self, stop: Stop) -> str:
        """What there is to say of a stop; of a program that has gone wrong, what the terminal says."""
        if stop.reason == "stopped":
            return "\n".join([f"machine {stop.machine} stopped: {views.stop_text(stop)}", *views.access_lines(self._engine, stop)])
        return "; ".join([f"{stop.text} {stop.value}" if stop.value else stop.text, *stop.gone]).strip("; ")

    def _exited(self, stop: Stop) -> None:
        """A machine has ended; after the last the session is over."""
        self._output(f"machine {stop.machine} ended: {stop.text} ({views.both(self._engine.registers(stop.machine).values[0])})")
        self._over(stop.machine, self._exit_code(stop.machine))

    def _exit_code(self, number: int) -> int:
        """The value that a program has returned, by its type; a whole word is a signed number."""
        program, value = self._engine.machine(number).program, self._engine.registers(number).values[0]
        function = program.symbols.function_at(0) if program and program.symbols else None
        type_ = function.type if function else None
        size = type_.size if type_ and 0 < type_.size < 8 else 8
        found = value & ((1 << 8 * size) - 1)
        is_signed = size == 8 or (type_ is not None and type_.is_signed)
        return found - (1 << 8 * size) if is_signed and found >> (8 * size - 1) else found

    def _over(self, number: int, code: Optional[int] = None) -> None:
        """A machine doesn't go on; if it was the last that could, the session is over."""
        if number not in self._ended:
            self._ended.add(number)
            self._event("thread", reason="exited", threadId=number)
        if self._ended >= set(self._engine.machines) and self._session and self._session.is_started and not self._has_terminated:
            self._has_terminated = True
            if code is not None:
                self._event("exited", exitCode=code)
            self._event("terminated")

    def _begin(self, given: Given, goal: Callable[[Stepper], Goal]) -> None:
        number = self._machine_of(given)
        machine = self._engine.machine(number)
        if machine.last and machine.last.reason in ENDS:
            if number not in self._ended:
                # A program that has gone wrong was looked at, and its session ends. After a refusal Emacs would miss `terminated`.
                self._over(number)
                return
            raise Impossible(f"machine {number} has stopped: {views.stop_text(machine.last) if machine.last.reason == 'stopped' else machine.last.text}")
        if machine.goal is None:
            self._tree.clear(number)
        self._engine.begin(number, goal(Stepper(self._engine, machine)))

    def on_exceptionInfo(self, given: Given) -> Body:
        """Why a program has gone wrong."""
        last = self._engine.machine(number := self._machine_of(given)).last
        if last is None or last.reason != "stopped":
            raise Impossible(f"machine {number} hasn't gone wrong")
        text = self._text(last)
        return {
            "exceptionId": last.text,
            "description": text,
            "breakMode": "always",
            "details": {"message": text, "typeName": last.text},
        }

    def on_continue(self, given: Given) -> Body:
        """A machine goes on."""
        self._begin(given, lambda stepper: stepper.to_the_end())
        return {"allThreadsContinued": False}

    def on_next(self, given: Given) -> None:
        """To the next line, or instruction."""
        self._step(given, into=False)

    def on_stepIn(self, given: Given) -> None:
        """To the next line, into calls, or one instruction."""
        self._step(given, into=True)

    def _step(self, given: Given, into: bool) -> None:
        if given.text("granularity", "statement") == "instruction":
            self._begin(given, lambda stepper: stepper.instruction())
        else:
            self._begin(given, lambda stepper: stepper.line(into))

    def on_stepOut(self, given: Given) -> None:
        """Out of a function."""
        self._begin(given, lambda stepper: stepper.out())

    def on_pause(self, given: Given) -> None:
        """Stops a machine."""
        number = self._machine_of(given)
        if number in self._ended:
            raise Impossible(f"machine {number} has stopped")
        self._tell(self._engine.pause(number))


def place_in(given: Given) -> str:
    """The service to which the arguments say to connect: its place, or its port and its host."""
    if not given.has("place"):
        return address_text(given.text("host", "127.0.0.1"), given.number("port", None, 1, LAST_PORT))
    try:
        return checked_place(given.text("place"))
    except ValueError as why:
        raise Impossible(str(why)) from None


def serve(ending: Ending) -> None:
    """Speaks with an editor on standard input and output. Whatever else is printed goes to standard error."""
    reads, writes = os.dup(sys.stdin.fileno()), os.dup(sys.stdout.fileno())
    os.dup2(sys.stderr.fileno(), sys.stdout.fileno())
    with contextlib.suppress(Ended):
        Adapter(Channel(reads, writes), ending).serve()

"""What the parts of the adapter for editors share: the session, what was told, and the frames."""
from __future__ import annotations

from typing import Any, Optional

from .channel import Channel
from .ending import Ending
from .engine import Engine, Impossible
from .frames import Frame
from .given import GREATEST, Body, Client, Given
from .lines import SourceLine
from .session import Session
from .variables import Tree

# A frame's number for the editor: its machine and its level.
LEVELS = 1 << 16


class State:
    """One session with an editor."""

    def __init__(self, channel: Channel, ending: Ending) -> None:
        self._channel, self._ending = channel, ending
        self._session: Optional[Session] = None
        self._client = Client(Given({}))
        self._begin_anew()
        self._stops_on_entry = self._is_over = self._runs_only = False
        # Events that come while a request is done follow on its response.
        self._is_answering = False
        self._later: list[tuple[str, Body]] = []

    def _begin_anew(self) -> None:
        """Forgets the breakpoints, machines and values of a program that was debugged before."""
        self._tree = Tree()
        self._by_source: dict[str, list[int]] = {}
        self._by_name: list[int] = []
        self._watched: list[int] = []
        self._ended: set[int] = set()
        self._told: set[int] = set()
        self._is_configured = self._has_terminated = False

    def _event(self, name: str, **body: Any) -> None:
        if self._is_answering:
            self._later.append((name, body))
        else:
            self._channel.send("event", event=name, body=body)

    def _output(self, text: str, category: str = "console") -> None:
        """Shows a line in the editor."""
        self._event("output", category=category, output=f"{text}\n")

    @property
    def _engine(self) -> Engine:
        if self._session is None:
            raise Impossible("nothing is debugged yet: launch or attach comes first")
        return self._session.engine

    def _machine_of(self, given: Given) -> int:
        """The machine that a request is about."""
        number = given.number("threadId", least=0)
        self._engine.machine(number)
        return number

    def _standing(self, number: int) -> int:
        """A machine that has to stand still."""
        if self._engine.is_running(number):
            raise Impossible(f"machine {number} is running")
        return number

    def _frame(self, identity: int) -> Frame:
        number, level = divmod(identity, LEVELS)
        frames = self._engine.frames(self._standing(number))
        if level >= len(frames):
            raise Impossible("this frame isn't there any more")
        return frames[level]

    def _frame_of(self, given: Given) -> Frame:
        """The frame that a request is about, or any."""
        return self._frame(given.number("frameId", most=GREATEST)) if given.has("frameId") else self._any_frame()

    def _any_frame(self) -> Frame:
        """A frame of a machine that stands still."""
        number = next((number for number in sorted(self._engine.machines) if not self._engine.is_running(number)), None)
        if number is None:
            raise Impossible("all machines are running")
        return self._engine.frames(number)[0]

    def _place(self, at: Optional[SourceLine]) -> Body:
        """A source line, as the protocol has it."""
        return {"line": self._client.line(at.line), "source": self._client.source(at)} if at else {}

"""Clients, and the agent that answers them: from the start to the end, and from one agent to the next."""
from __future__ import annotations

import argparse
import asyncio
import contextlib
import json
import socket
import ssl
import sys
import time
from typing import Any, Awaitable, Callable, Mapping, Optional, Sequence, cast

from ..limits import MACHINES
from ..replies import Broken
from . import doors
from .clients import Client, Gone, is_of_objects
from .doors import Door, Doorkeeper
from .kept import Kept, objects_of, written_by
from .lanes import Lane
from .numbers import Numbers
from .saving import restored, save
from .upstream import Bytes, Refused, Setup, Upstream
from .wires import Wire, Wires

NAME = "bpfagent-front"
# After an agent that ended of itself the next one starts after a pause, which is twice as long each time, in seconds.
FIRST_PAUSE, LAST_PAUSE = 0.05, 10.0
# An agent that lasted so long, in seconds, ends the growth of that pause. One that couldn't be replaced is kept for so long.
LASTED = 60.0
# An agent that owes a reply for so long, in seconds, isn't healthy.
SILENT = 10.0
# The states of a machine that could still do something.
ALIVE = ("run", "paused")
SHIPS, PUT = (b"ship ", b"ship2 "), b"put "
FULL = b"full"


class Log:
    """A line for each thing that happens, on standard error."""

    def __init__(self, is_json: bool) -> None:
        self._is_json = is_json

    def say(self, what: str, **fields: object) -> None:
        """Writes a line. If nobody can read it, it is lost."""
        if self._is_json:
            line = json.dumps({"time": time.strftime("%Y-%m-%dT%H:%M:%SZ", time.gmtime()), "what": what, **fields})
        else:
            line = " ".join([f"{NAME}: {what}", *(f"{name}={value}" for name, value in fields.items())])
        with contextlib.suppress(OSError):
            print(line, file=sys.stderr, flush=True)

    def failed(self, loop: asyncio.AbstractEventLoop, context: Mapping[str, Any]) -> None:
        """A connection or a task has failed, and nobody else is told."""
        why = context.get("exception")
        self.say("something failed", why=f"{context.get('message')}" + (f": {why}" if why else ""))


class Front:
    """Clients, and the agent that answers them."""

    def __init__(self, given: argparse.Namespace, setup: Setup, token: Optional[bytes], log: Log) -> None:
        self._given, self._setup, self._log = given, setup, log
        self.token, self.client_seconds = token, given.client_timeout
        self.numbers, self.is_held = Numbers(), False
        self._wires = Wires()
        self._clients: set[Client] = set()
        self._agent: Optional[Upstream] = None
        self._kept = Kept({})
        self._restored: Bytes = {}
        self._is_ending = self._is_used_up = False
        self._changed, self._needs_next = asyncio.Event(), asyncio.Event()
        # The time before which an agent that is used up stays.
        self._stays_until = 0.0
        self._handshakes: set[asyncio.Future[Any]] = set()

    # ---- what clients ask

    def came(self, client: Client) -> bool:
        """A client came."""
        if self._is_ending:
            return False
        self._clients.add(client)
        self.numbers.clients = len(self._clients)
        self.numbers.came[client.door] += 1
        return True

    def went(self, client: Client, why: Gone) -> None:
        """A client went."""
        self._clients.discard(client)
        self._wires.others -= client.door == "tls"
        self.numbers.clients = len(self._clients)
        self.numbers.went[why.value] += 1
        if why not in (Gone.ENDED, Gone.CLOSING):
            self._log.say("a client went", why=why.value)
        self._changed.set()

    def lane_of(self, client: Client, lines: bytes, count: int) -> Lane:
        """The agent's connection to which so many lines of a client go."""
        if not client.knows_machines and not is_of_objects(lines, count):
            client.knows_machines = client.is_first = True
            client.leave_lane()
        if client.knows_machines:
            if not self._kept.is_all_unkept:
                self._lose(self._changed_by(lines))
        elif self._kept.unkept and not client.knows_unkept:
            client.knows_unkept = not self._kept.unkept.isdisjoint(objects_of(lines))
        if client.lane is None:
            assert self._agent
            client.lane = self._agent.of_machines() if client.knows_machines else self._agent.of_objects
            client.lane.clients += 1
        return client.lane

    def _changed_by(self, lines: bytes) -> set[int]:
        """The objects that a client with machines changes by these lines, or lets machines change."""
        found = objects_of(lines) if lines.find(PUT) >= 0 else set()
        if b"ship" in lines:
            found = found.union(*(written_by(line, self._setup.lengths) for line in lines.split(b"\n")))
        return found - self._kept.unkept

    def _lose(self, numbers: set[int]) -> None:
        """The bytes of these objects aren't known any more. Who has given a command may have seen them."""
        if numbers:
            self._kept.lose(numbers)
            for client in self._clients:
                client.knows_unkept = client.knows_unkept or client.lane is not None

    def takes(self, client: Client, lines: bytes, replies: bytes) -> bool:
        """Notes what was answered. False if the lines have to wait for the next agent, since this one has no number for a machine."""
        if not client.knows_machines:
            if lines.find(PUT) >= 0:
                self._kept.wrote(lines, replies)
        else:
            if replies.find(FULL) >= 0 and self._is_refused(lines, replies):
                is_first, self._is_used_up = client.is_first, True
                self._needs_next.set()
                if is_first and lines.count(b"\n") == 1:
                    client.knows_machines, client.is_stalled = False, True
                    client.leave_lane()
                    return False
            client.is_first = False
        self.numbers.answered(lines, replies)
        return True

    def _is_refused(self, lines: bytes, replies: bytes) -> bool:
        """Whether a machine is refused that another agent could take."""
        if not self._given.renew or self._is_ending or self._setup.machines >= MACHINES or time.monotonic() < self._stays_until:
            return False
        return any(line.startswith(SHIPS) and reply == FULL for line, reply in zip(lines.split(b"\n"), replies.split(b"\n")))

    def can_go_on(self, client: Client) -> bool:
        """Whether the next agent has all that a client knows, now that this one has gone."""
        return not (client.knows_machines or client.knows_unkept or self._is_ending)

    def is_healthy(self) -> bool:
        """Whether lines are answered."""
        return self._agent is not None and not self.is_held and not self._is_ending and self._agent.silence < SILENT

    # ---- agents

    async def _started(self, objects: Mapping[int, bytes]) -> Upstream:
        """An agent with its setup done, and with these objects' bytes."""
        begun = time.monotonic()
        agent = await Upstream.start(self._given.program, self._given.agent, self._setup, self._wires, self._heard, self._agent_ended)
        try:
            if objects:
                await agent.write(objects)
        except BaseException:
            await agent.kill()
            raise
        self._log.say("an agent serves", objects=len(self._setup.lengths), machines=self._setup.machines, seconds=round(time.monotonic() - begun, 3))
        return agent

    async def _first(self) -> Upstream:
        """The first agent, which begins with the objects that are to be restored."""
        agent = await self._started({})
        if self._given.restore:
            try:
                self._restored = restored(self._given.restore, self._setup.lengths)
                await agent.write(self._restored)
            except BaseException:
                await agent.kill()
                raise
        return agent

    def _take(self, agent: Upstream, objects: Mapping[int, bytes]) -> None:
        """This agent serves from now on. Objects have these bytes, and otherwise those of the setup."""
        self._agent, self._is_used_up = agent, False
        self._kept = Kept(self._setup.lengths)
        for line, reply in zip(self._setup.lines, self._setup.replies):
            self._kept.lose(written_by(line, self._setup.lengths))
            self._kept.wrote(line, reply.encode("ascii"))
        self._kept.base(objects)
        self.numbers.begin(self._setup.machines, len(self._setup.lengths))
        self._agent_ended()

    def _heard(self, line: str) -> None:
        self.numbers.heard(line)
        if self._given.verbose:
            self._log.say("agent", line=line)

    def _agent_ended(self) -> None:
        """An agent ended of itself. If it isn't the one that serves, whoever starts it knows."""
        if self._agent and self._agent.has_ended:
            self.is_held = True
            self._needs_next.set()

    async def _succeed(self) -> None:
        """Has another agent take the place of one that ended. It gets the bytes that the front has kept."""
        assert self._agent
        lost = sorted(self._kept.unkept)
        objects = {**self._restored, **self._kept.objects()}
        self._log.say("the agent ended", machines=self.numbers.machines(), lost_objects=len(lost), first_lost=lost[:8])
        await self._agent.kill()
        self._agent, pause = None, FIRST_PAUSE
        while True:
            try:
                agent = await self._started(objects)
                break
            except (Broken, OSError, Refused) as why:
                self._log.say("no agent could be started", why=str(why))
                await asyncio.sleep(pause)
                pause = min(2 * pause, LAST_PAUSE)
        self._take(agent, objects)
        self._go_on(lambda client: client.knows_machines or client.knows_unkept)

    async def _renew(self) -> None:
        """Has another agent take the place of one whose numbers are used up. It is made ready first. Clients with machines have a while to end."""
        old = self._agent
        assert old
        new = await self._started({})
        try:
            await self._until_true(lambda: self.is_held or not any(client.knows_machines for client in self._clients), self._given.grace)
            if not self.is_held:
                await self._move(old, new)
        except BaseException:
            await new.kill()
            raise
        if self._agent is old:
            await new.kill()
        else:
            await old.kill()

    async def _move(self, old: Upstream, new: Upstream) -> None:
        """Moves the objects' bytes, while nothing else is sent to an agent."""
        begun, self.is_held = time.monotonic(), True
        await self._until_true(lambda: not any(client.is_busy for client in self._clients), self._given.grace)
        gone = [f"{number}:{state}" for number, state in (await old.states()).items() if state in ALIVE]
        objects = await old.move_to(new)
        self._take(new, objects)
        self._log.say("the numbers of machines were used up", gone_machines=gone, seconds=round(time.monotonic() - begun, 3))
        self._go_on(lambda client: client.knows_machines or client.is_busy)

    def _go_on(self, is_cut: Callable[[Client], bool]) -> None:
        """Clients go on with another agent, but those that know more of the last one than this one has."""
        self.numbers.restarts += 1
        for client in list(self._clients):
            if is_cut(client):
                client.drop(Gone.REPLACED)
            else:
                client.leave_agent()
        self._let()

    def _let(self) -> None:
        """Lines are sent to the agent again, if it hasn't ended meanwhile."""
        assert self._agent
        self.is_held = self._agent.has_ended
        for client in list(self._clients):
            client.go_on()

    async def _replace(self) -> None:
        """Puts another agent in the place of this one. If that fails while this one still answers, it stays for a while."""
        if self._is_used_up and not self.is_held:
            try:
                await self._renew()
                return
            except (Broken, OSError, Refused) as why:
                self._log.say("the agent couldn't be replaced", why=str(why))
            assert self._agent
            if not self._agent.has_ended:
                self._is_used_up, self._stays_until = False, time.monotonic() + LASTED
                for client in self._clients:
                    client.is_stalled = False
                self._let()
                return
        await self._succeed()

    async def _until_true(self, is_so: Callable[[], bool], seconds: float) -> None:
        """Waits until this is so, for so many seconds at most."""
        until = time.monotonic() + seconds
        while not is_so() and time.monotonic() < until:
            self._changed.clear()
            with contextlib.suppress(asyncio.TimeoutError):
                await asyncio.wait_for(self._changed.wait(), min(0.01, max(until - time.monotonic(), 0.0)))

    # ---- from the start to the end

    def _accepted(self, made: socket.socket, door: Door) -> None:
        """A client came to a door."""
        client = Client(self, door.kind)
        if door.context is None:
            client.begin(Wire(self._wires, made, client))
            return
        self._wires.others += 1
        task = asyncio.ensure_future(self._shake_hands(made, client, door.context))
        self._handshakes.add(task)
        task.add_done_callback(self._handshakes.discard)

    async def _shake_hands(self, made: socket.socket, client: Client, context: ssl.SSLContext) -> None:
        """Has a client show its certificate."""
        try:
            # Each loop has this call, that of uvloop too.
            loop = cast(asyncio.BaseEventLoop, asyncio.get_running_loop())
            await loop.connect_accepted_socket(lambda: client, made, ssl=context, ssl_handshake_timeout=self.client_seconds)
        except (OSError, asyncio.TimeoutError) as why:
            made.close()
            self.numbers.came["tls"] += 1
            self.numbers.went[Gone.DENIED.value] += 1
            self._log.say("a client went", why=Gone.DENIED.value, tls=doors.fault_of(why))
            self._wires.others -= 1

    async def serve(self, opened: Sequence[Door], ending: asyncio.Event) -> int:
        """Serves clients until `ending` is set. Gives the agent's status."""
        self._take(await self._first(), self._restored)
        keepers = [Doorkeeper(self._wires, door, self._accepted, lambda why: self._log.say("no client can be accepted now", why=why)) for door in opened]
        for door in opened:
            print(f"listening {door.name}", flush=True)
        doors.notify("READY=1")
        try:
            await self._serve_until(ending)
        finally:
            doors.notify("STOPPING=1")
            self._is_ending = True
            for keeper in keepers:
                keeper.close()
        return await self._end()

    async def _serve_until(self, ending: asyncio.Event) -> None:
        """Replaces the agent each time that it has to be, until the end."""
        over = asyncio.ensure_future(ending.wait())
        pause, begun = FIRST_PAUSE, time.monotonic()
        try:
            while not over.done():
                needed = asyncio.ensure_future(self._needs_next.wait())
                await asyncio.wait([over, needed], return_when=asyncio.FIRST_COMPLETED)
                needed.cancel()
                if over.done():
                    break
                self._needs_next.clear()
                if self.is_held:
                    pause = FIRST_PAUSE if time.monotonic() - begun > LASTED else min(2 * pause, LAST_PAUSE)
                    await asyncio.wait([over], timeout=pause)
                if self.is_held or self._is_used_up:
                    await self._replaced(over)
                begun = time.monotonic()
        finally:
            over.cancel()

    async def _replaced(self, over: Awaitable[Any]) -> None:
        """Replaces the agent. At the end this may still take a while, so that there is a state to keep."""
        replacing = asyncio.ensure_future(self._replace())
        await asyncio.wait([asyncio.ensure_future(over), replacing], return_when=asyncio.FIRST_COMPLETED)
        if not replacing.done():
            await asyncio.wait([replacing], timeout=self._given.grace)
            replacing.cancel()
        with contextlib.suppress(asyncio.CancelledError):
            await replacing

    async def _end(self) -> int:
        """Lets requests end, keeps what is to be kept, and tells the agent's last state."""
        for client in list(self._clients):
            client.close(Gone.CLOSING)
        await self._until_true(lambda: not self._clients, self._given.grace)
        for client in list(self._clients):
            client.drop(Gone.CLOSING)
        agent = self._agent
        if agent is None or agent.has_ended:
            raise Broken("there was no agent at the end")
        try:
            if self._given.save:
                save(self._given.save, await agent.read())
                self._log.say("objects are saved", file=str(self._given.save))
            status, told = await agent.close()
        finally:
            await agent.kill()
            self._wires.close()
        sys.stdout.write(told.decode("ascii", "replace"))
        return status

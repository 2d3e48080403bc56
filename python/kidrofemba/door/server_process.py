"""A path server that is kept running: its process is started again wherever it ended, and the same
lines are given once more to the next one.

The server tells `kept` for a line whose work was done before, so a line that is given twice is done
once.
"""
from __future__ import annotations

import asyncio
import re
import traceback
from collections.abc import Callable, Sequence
from functools import partial
from typing import Any

from kidrofemba.door.limits import Shortage, is_shortage
from kidrofemba.door.session import Session, open_session

LINES_A_SESSION = 99_000
"""Lines of a client that a server is given before it is started anew: it takes 100,000."""
SET_BACK = 20
"""The status where a journal has fewer entries than were told: none that the server ends with."""
NOT_STARTED = 2
"""The status where the server's program can't be started."""
BROKEN = 70
"""The status where what keeps the server running met a fault of its own."""
_FRONT = re.compile(rb" at ([0-9]+)(?: |$)")
_TRIES = 8
_PAUSE_S = 0.1
_LONGEST_PAUSE_S = 2.0


class ServerEnded(Exception):
    """The server ends whenever it is started, or was asked to end: its exit status."""

    def __init__(self, status: int):
        super().__init__(f"the server ended with {status}")
        self.status = status


class NoReply(Exception):
    """Server after server ended over one line."""


def front_of(reply: bytes) -> int | None:
    """The front that a reply tells for good, if it tells one; that of `unsettled` may count an
    entry that a crash takes away."""
    found = _FRONT.search(reply.rstrip(b"\n"))
    return int(found[1]) if found is not None and not reply.startswith(b"unsettled ") else None


class Server:
    """A server over one journal that is started again wherever it ended.

    `words` are those of `serve` without clients. Where a line has no reply within `patience_s`, or
    a client has had `lines` of them, the server is started anew. `tell` is told of each such start.
    `when_up` is called once a process has answered, before lines are handed to it; what it raises
    makes the start a failed one. Where the machine is short of handles, memory or processes, a
    start is tried again until it succeeds; only the first of all is tried once.

    A server that knows fewer entries than one before it told has a journal that lost its end: it is
    handed no line, and none is started any more; the status is SET_BACK then.
    """

    def __init__(self, words: Sequence[str], clients: Sequence[str], tell: Callable[[str], None],
                 lines: int = LINES_A_SESSION, patience_s: float | None = None,
                 when_up: Callable[[], None] = lambda: None):
        self.words, self.clients, self.tell = list(words), list(clients), tell
        self.lines, self.patience_s, self.when_up = lines, patience_s, when_up
        self.starts = 0
        self.front = 0
        loop = asyncio.get_running_loop()
        self.over: asyncio.Future[int] = loop.create_future()
        self._asking = {client: asyncio.Lock() for client in clients}
        self._shortage = Shortage("server", tell)
        # The process that lines are handed to, or the one to come.
        self._current: asyncio.Future[Session] = loop.create_future()
        self._starting: Session | None = None
        self._keeper: asyncio.Task[None] | None = None

    @property
    def is_up(self) -> bool:
        """Whether a process stands that has answered."""
        return self._current.done()

    async def start(self) -> None:
        """Starts the server, and waits until it answers; ServerEnded where it does not."""
        self._keeper = asyncio.create_task(self._keep())
        await self._session_now()

    def give_up(self) -> None:
        """Has the server started no more: one that is starting is killed, one that stands ends in
        order."""
        if not self.over.done():
            self.over.set_result(0)
        if self._starting is not None:
            self._starting.process.kill()
        if self._current.done():
            self._retire(self._current.result(), in_order=True)

    async def stop(self) -> None:
        """Ends the server in order, and waits for it."""
        self.give_up()
        if self._keeper is not None:
            await self._keeper

    async def ask(self, client: str, line: bytes) -> bytes:
        """The reply to one whole line; both end with byte 10. Of one client's lines one is at the
        server at a time. NoReply or ServerEnded where there is none to be had."""
        async with self._asking[client]:
            for _ in range(_TRIES):
                session = await self._session_now()
                if session.pipes[client].lines >= self.lines:
                    self._retire(session, in_order=True)
                    session = await self._session_now()
                reply = await session.exchange(client, line, self.patience_s)
                if reply is not None:
                    self.front = max(self.front, front_of(reply) or 0)
                    return reply
                self._retire(session, in_order=False)
        raise NoReply(f"{client}: no server replies to {line[:80]!r}")

    async def _session_now(self) -> Session:
        """The process that lines are handed to, once there is one."""
        while not self._current.done():
            if self.over.done():
                raise ServerEnded(self.over.result())
            either: list[asyncio.Future[Any]] = [self._current, self.over]
            await asyncio.wait(either, return_when=asyncio.FIRST_COMPLETED)
        return self._current.result()

    def _retire(self, session: Session, in_order: bool) -> None:
        """Has no more lines handed to a process, and has it ended."""
        if self._current.done() and self._current.result() is session:
            self._current = asyncio.get_running_loop().create_future()
            session.ends_in_order = in_order
            session.leaving.set()

    def _see_end(self, session: Session, _: asyncio.Future[int]) -> None:
        self._retire(session, in_order=False)

    async def _keep(self) -> None:
        """Keeps a process that answers, until the server is to be started no more."""
        tries = 1
        try:
            while True:
                session = await self._begin(tries)
                self._current.set_result(session)
                session.ended.add_done_callback(partial(self._see_end, session))
                if self.over.done():
                    self._retire(session, in_order=True)
                await self._end_of(session)
                tries = _TRIES
        except ServerEnded as ended:
            self._finish(ended.status)
        except Exception:
            self.tell(f"a fault of the door: {traceback.format_exc()}")
            self._finish(BROKEN)

    def _finish(self, status: int) -> None:
        if not self.over.done():
            self.over.set_result(status)

    async def _end_of(self, session: Session) -> None:
        """Waits until a process is to be ended, ends it, and tells so."""
        await session.leaving.wait()
        in_order = session.ends_in_order
        status = await (session.end() if in_order else session.kill())
        if self.over.done():
            raise ServerEnded(self.over.result())
        near = " near its limit" if in_order else ""
        self.tell(f"server ended with {status}{near}, started again")
        if not in_order:
            await self._pause(_PAUSE_S)

    async def _pause(self, seconds: float) -> None:
        """Waits so long, or until the server is to be started no more."""
        await asyncio.wait({self.over}, timeout=seconds)

    async def _begin(self, tries: int) -> Session:
        """A process that answers, by so many tries; one that met a shortage counts for none, but
        where there is one try alone."""
        pause_s = _PAUSE_S
        while not self.over.done():
            try:
                started = await self._start_once()
                if isinstance(started, Session):
                    self._shortage.is_over()
                    return started
                status, told = started, f"server ended with {started} before it answered"
            except (OSError, MemoryError) as failure:
                status, told = NOT_STARTED, f"server can't be started: {failure!s}"
                if is_shortage(failure) and tries > 1:
                    self._shortage.is_met(f"can't be started for want of what the machine has: "
                                          f"{failure!s}; tried again until it can")
                    tries += 1
                elif tries == 1:
                    self.tell(told)
            tries -= 1
            if not tries:
                raise ServerEnded(status)
            if not self._shortage.is_on:
                self.tell(f"{told}, started again")
            await self._pause(pause_s)
            pause_s = min(_LONGEST_PAUSE_S, 2 * pause_s)
        raise ServerEnded(self.over.result())

    async def _start_once(self) -> Session | int:
        """A process that answers, or the exit status of one that did not."""
        session = self._starting = await open_session(self.words, self.clients)
        self.starts += 1
        is_good = False
        try:
            reply = await session.exchange(self.clients[0], b"front\n", None)
            if reply is not None:
                self._look_at(front_of(reply) or 0)
                self.when_up()
                is_good = True
        finally:
            self._starting = None
            status = 0 if is_good else await session.kill()
        return session if is_good else status

    def _look_at(self, front: int) -> None:
        """Looks whether a process that was started knows all entries that were told."""
        if front < self.front:
            self.tell(f"journal: its front is {front}, and was {self.front}: it lost its end, or "
                      "was set back; nothing is handed over")
            raise ServerEnded(SET_BACK)
        self.front = front

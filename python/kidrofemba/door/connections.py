"""The connections of one client: how many it may have, and whose turn it is.

A client has at most so many connections at once; one more is accepted, and waits for room. Nothing
further is accepted meanwhile: it waits in the socket's queue, where it costs the door nothing. At
each turn of the event loop a client has one connection accepted and one line of each connection
begun, so that nobody waits for more of another one than that.
"""
from __future__ import annotations

import asyncio
import re
import socket
import time
import traceback
from collections.abc import Callable
from dataclasses import dataclass, field

from kidrofemba.door.counts import Counts
from kidrofemba.door.limits import ACCEPTS_A_SECOND, ACCEPTS_AT_ONCE, Budget, Shortage
from kidrofemba.door.lines import Lines, LineTooLong
from kidrofemba.door.rules import Rights
from kidrofemba.door.server_process import NoReply, Server, ServerEnded

# A connection that has waited for less is not ended for another one's sake.
_SHORTEST_WAIT_S = 0.1
_ACCEPT_PAUSE_S = 0.2
# How long peers have to read their last reply once the door ends.
_LAST_READ_S = 2.0
_BASE = re.compile(rb"base ([0-9a-f]{64})\n")


@dataclass(eq=False)
class Connection:
    """One connection of a client. `reading` is the time until which its peer has to read what it
    is sent."""

    lines: Lines
    task: asyncio.Task[None] | None = None
    is_waiting: bool = False
    since_s: float = field(default_factory=time.monotonic)
    reading: asyncio.Timeout | None = None

    def leave(self) -> None:
        """Ends the connection where no line of it is open."""
        if self.is_waiting and self.task is not None:
            self.is_waiting = False
            self.task.cancel()


@dataclass(frozen=True)
class Service:
    """What all clients of a door have in common: the server, the digest of the base file of its
    journal, what is counted, and the bounds."""

    server: Server
    base: Callable[[], str]
    counts: Counts
    tell: Callable[[str], None]
    patience_s: float
    connections: int


class Connections:
    """The connections of one client, which come in at its listening socket."""

    def __init__(self, service: Service, rights: Rights, listener: socket.socket):
        self.service, self.rights, self.listener = service, rights, listener
        self.client = rights.client
        self.standing: list[Connection] = []
        self._is_ending = False
        self._changed = asyncio.Event()
        self._shortage = Shortage(f"{self.client}: accepting", service.tell)
        listener.setblocking(False)

    async def accept(self) -> None:
        """Accepts connections, one a turn and as many as the budget has, until it is cancelled."""
        loop, budget = asyncio.get_running_loop(), Budget(ACCEPTS_AT_ONCE, ACCEPTS_A_SECOND)
        while True:
            try:
                stream, _ = await loop.sock_accept(self.listener)
            except (OSError, MemoryError) as failure:
                self._shortage.is_met(f"{failure!s}; tried again until it can")
                await asyncio.sleep(_ACCEPT_PAUSE_S)
                continue
            self._shortage.is_over()
            try:
                await self._make_room()
            except BaseException:
                stream.close()
                raise
            here = Connection(Lines(stream))
            self.standing.append(here)
            here.task = asyncio.create_task(self._serve(here))
            await asyncio.sleep(budget.take())

    def end(self) -> None:
        """Has no more lines taken: who has none open leaves, the others once they have their
        reply."""
        self._is_ending = True
        self.listener.close()
        latest = asyncio.get_running_loop().time() + _LAST_READ_S
        for here in self.standing:
            here.leave()
            if here.reading is not None:
                here.reading.reschedule(min(latest, here.reading.when() or latest))

    async def _make_room(self) -> None:
        """Waits until there is room for one connection more. Of those that wait for a line the one
        that has waited longest ends: a peer that is gone without a word holds no place for good."""
        while len(self.standing) >= self.service.connections:
            self._changed.clear()
            try:
                async with asyncio.timeout(self._end_one()):
                    await self._changed.wait()
            except TimeoutError:
                pass  # one has waited long enough now

    def _end_one(self) -> float | None:
        """Ends the connection that has waited longest for a line, or tells in how many seconds one
        will have waited long enough; None where there is nothing to wait for but a change."""
        waiting = [here for here in self.standing if here.is_waiting]
        if not waiting:
            return None
        oldest = min(waiting, key=lambda here: here.since_s)
        left_s = oldest.since_s + _SHORTEST_WAIT_S - time.monotonic()
        if left_s > 0:
            return left_s
        self._count_cut_off("connections")
        oldest.leave()
        return None

    def _count_cut_off(self, why: str) -> None:
        self.service.counts.cut_off[self.client, why] += 1

    async def _serve(self, here: Connection) -> None:
        """Serves one connection to its end."""
        try:
            while not self._is_ending and await self._serve_line(here):
                await asyncio.sleep(0)  # the others' turn
        except TimeoutError:
            self._count_cut_off("does-not-read")
        except (OSError, asyncio.CancelledError, ServerEnded):
            pass  # the peer is gone, or has to leave, or the door ends
        except NoReply as told:
            self.service.tell(str(told))
            self._count_cut_off("no-reply")
        except Exception:
            self.service.tell(f"{self.client}: a fault of the door: {traceback.format_exc()}")
            self._count_cut_off("fault")
        finally:
            self.standing.remove(here)
            here.lines.stream.close()
            self._changed.set()

    async def _serve_line(self, here: Connection) -> bool:
        """Replies to the next line; whether there may be another one."""
        here.is_waiting, here.since_s = True, time.monotonic()
        self._changed.set()
        try:
            line = await here.lines.next()
        except LineTooLong:
            self._count_cut_off("long-line")
            await self._send(here, b"closed line\n")
            return False
        finally:
            here.is_waiting = False
        if line is None:
            return False
        named = _BASE.fullmatch(line)
        if named is not None:
            return await self._compare_base(here, named[1].decode())
        await self._send(here, await self.rights.reply_to(
            line, lambda asked: self.service.server.ask(self.client, asked)))
        return True

    async def _compare_base(self, here: Connection, named: str) -> bool:
        """Tells the base file of the journal; whether it is the one that the client means."""
        base = self.service.base()
        await self._send(here, f"base {base}\n".encode())
        if named != base:
            self._count_cut_off("base")
        return named == base

    async def _send(self, here: Connection, reply: bytes) -> None:
        """Sends a reply; TimeoutError where the peer does not read it."""
        self.service.counts.add_reply(self.client, reply)
        patience_s = self.service.patience_s
        if self._is_ending:
            patience_s = min(patience_s, _LAST_READ_S)
        try:
            async with asyncio.timeout(patience_s) as here.reading:
                await asyncio.get_running_loop().sock_sendall(here.lines.stream, reply)
        finally:
            here.reading = None

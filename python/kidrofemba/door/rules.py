"""What a client behind the door may send, and what it is shown.

Each rule is the door's own and answers by a reply of its own; what it lets through is judged by the
server.
"""
from __future__ import annotations

import re
from collections.abc import Awaitable, Callable
from dataclasses import dataclass
from datetime import datetime, timezone

from kidrofemba.common.clock import Clock
from kidrofemba.common.companion import escaped

WORDS = ("hold", "holds", "pin", "ask", "free", "show", "front")
_NUMBER = re.compile(rb"0|[1-9][0-9]{0,18}")
_TICK = re.compile(rb"0|-?[1-9][0-9]{0,5}")
_LONGEST_WORD = 32
# The field behind the word in which a path's first tick stands, of `ask` and of `pin` alike.
_DEPARTURE = 5
# No entry is at this position, so freeing it does nothing; but a number that was used is told.
_NOWHERE = 2 ** 63 - 1

Ask = Callable[[bytes], Awaitable[bytes]]


@dataclass(frozen=True)
class Rights:
    """What one client may do: the words of its lines (None for all), whether it is shown its own
    entries alone, and the clock by which departures in the past are refused (None for none), so
    many ticks ahead."""

    client: str
    words: frozenset[str] | None = None
    own_shows: bool = False
    clock: Clock | None = None
    lead: int = 0

    async def reply_to(self, line: bytes, ask: Ask) -> bytes:
        """The reply to a whole line of the client; `ask` asks the server."""
        fields = line[:-1].split(b" ")
        if fields[0] == b"after":
            fields = fields[2:]
        word = fields[0].decode("ascii", "surrogateescape") if fields else ""
        if self.words is not None and word and word not in self.words:
            return f"closed {escaped(word)[:_LONGEST_WORD]}\n".encode()
        if self.clock is not None and word in ("ask", "pin"):
            refusal = await self._past(fields, ask)
            if refusal is not None:
                return refusal
        reply = await ask(line)
        return self._narrowed(reply) if self.own_shows and word == "show" else reply

    def _narrowed(self, reply: bytes) -> bytes:
        """A reply to `show`, without what another client's entry is."""
        fields = reply.split(b" ", 6)
        if fields[0] != b"shown" or fields[5] == self.client.encode():
            return reply
        return b"hidden %b at %b\n" % (fields[1], fields[3])

    async def _past(self, fields: list[bytes], ask: Ask) -> bytes | None:
        """The refusal of a line whose path would depart in the past. A line that was done before is
        let through, so that it is told `kept` however late it is sent again; one that is not in the
        form is the server's to refuse."""
        if len(fields) <= _DEPARTURE or not _TICK.fullmatch(fields[_DEPARTURE]):
            return None
        first = self.first_tick(datetime.now(timezone.utc))
        if int(fields[_DEPARTURE]) >= first or not _NUMBER.fullmatch(fields[1]):
            return None
        told = await ask(b"free %b %d\n" % (fields[1], _NOWHERE))
        if told.startswith(b"unknown "):
            return b"past %b before %d\n" % (fields[1], first)
        return told if told.split()[0] in (b"disk-fault", b"no-memory") else None

    def first_tick(self, now: datetime) -> int:
        """The first tick at which a path may depart."""
        clock = self.clock
        assert clock is not None
        local = now if clock.zero.tzinfo is not None else now.astimezone().replace(tzinfo=None)
        return -int(-clock.seconds_to(local) // clock.tick_s) + self.lead

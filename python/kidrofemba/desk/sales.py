"""Sales: a request becomes a line with a number of its tenant, the line goes to the door, and what
is told for it is noted; whatever is killed in between, the same line with the same number is sent
once more, and the server tells `kept` where it was done.
"""
from __future__ import annotations

import asyncio
import json
import time
from collections.abc import Callable
from concurrent.futures import ThreadPoolExecutor
from dataclasses import dataclass
from typing import Any, TypeVar

from kidrofemba.common.companion import escaped
from kidrofemba.desk.door_line import DoorLine, NoReply
from kidrofemba.desk.store import PER_TENANT, Line, State, Store, Who
from kidrofemba.desk.tail import Tail
from kidrofemba.journal.journal_file import Entry, Kind

_Told = TypeVar("_Told")
SPANS_A_LINE = 64


class Refusal(Exception):
    """A line that was not done: the status of HTTP, a word for why, and the server's reply."""

    def __init__(self, status: int, word: str, reply: str = ""):
        super().__init__(word)
        self.status, self.word, self.reply = status, word, reply


#: For each first word of a reply that does nothing: the status and the word for why.
_REFUSALS = {"no-path": (409, "no_path"), "again": (409, "again"), "denied": (403, "denied"),
             "closed": (403, "closed"), "past": (422, "past"), "wide": (413, "wide"),
             "bad": (422, "bad"), "taken": (409, "taken"), "other": (409, "other"),
             "gone": (409, "gone"), "full": (503, "full")}
#: Replies of which the same line may be told otherwise later: the request stays open.
_PASSING = frozenset({"full", "closed"})


@dataclass(frozen=True)
class Sale:
    """A line that stands: the line, the journal's entry, and whether it had been done before."""

    line: Line
    entry: Entry
    kept: bool


def id_of(number: int) -> str:
    """A number as people and programs are told it."""
    return f"{number // PER_TENANT}-{number % PER_TENANT}"


def number_of(text: str) -> int | None:
    """The number of such a text; None where it is none."""
    tenant, _, count = text.partition("-")
    if not (tenant.isdecimal() and count.isdecimal() and len(tenant) < 8 and len(count) < 13):
        return None
    return int(tenant) * PER_TENANT + int(count)


class Sales:
    """All that the desk sells, before one door and one journal."""

    def __init__(self, store: Store, door: DoorLine, tail: Tail, owner: str):
        self.store, self.door, self.tail, self.owner = store, door, tail, owner
        self._thread = ThreadPoolExecutor(1, "store")
        self._under_way: dict[int, asyncio.Task[Sale]] = {}
        #: The front that each tenant was told of.
        self.seen: dict[int, int] = {}

    async def stored(self, work: Callable[..., _Told], *values: Any) -> _Told:
        """What a call of the store answers, in the store's thread."""
        return await asyncio.get_running_loop().run_in_executor(self._thread, work, *values)

    def close(self) -> None:
        """Ends the store's thread, once its work is done, and closes the store."""
        self._thread.shutdown()
        self.store.close()

    # ---- Lines

    async def buy(self, who: Who, key: str | None, digest: str, body: dict[str, Any],
                  rest: tuple[str, str], mode: str, expires: float | None = None,
                  batch: int | None = None) -> Sale:
        """Does what a line asks for, once for each key of a tenant: the sale, new or kept. Refusal
        where it is not done."""
        quota = who.quota if mode in ("sell", "offer") else None
        line, is_new = await self.stored(self.store.begin, who.tenant, key, digest,
                                         json.dumps(body), rest, mode, expires, batch, quota)
        if line is None:
            raise Refusal(403, "quota")
        if line.digest != digest:
            raise Refusal(422, "key_used")
        if line.state is State.REFUSED:
            raise _refusal_of(line.reply)
        if line.state is State.OPEN:
            return await self._settled(line, is_new)
        return Sale(line, self._entry(line.number), True)

    async def _settled(self, line: Line, is_new: bool) -> Sale:
        """A line's sale once it has a reply; requests of one key wait for one sending."""
        task = self._under_way.get(line.number)
        if task is None:
            task = asyncio.ensure_future(self._send(line))
            self._under_way[line.number] = task
            task.add_done_callback(lambda _: self._under_way.pop(line.number, None))
            return await asyncio.shield(task)
        sale = await asyncio.shield(task)
        return Sale(sale.line, sale.entry, True) if not is_new else sale

    async def _send(self, line: Line) -> Sale:
        """Sends a line that was noted, and notes what is told. It may have been settled since it
        was read: then it is not sent, as what it bought may be given back by now."""
        now = await self.stored(self.store.line, line.number)
        if now is not None and now.state is State.REFUSED:
            raise _refusal_of(now.reply)
        if now is not None and now.state is not State.OPEN:
            return Sale(now, self._entry(now.number), True)
        return await self._sent(line)

    async def _sent(self, line: Line) -> Sale:
        """Sends an open line, and notes what is told."""
        try:
            reply = await self.door.send(line.line)
        except NoReply as why:
            raise Refusal(503, "no_reply", str(why)) from None
        word = reply.split(" ", 1)[0]
        if word in _REFUSALS:
            if word not in _PASSING:
                state = State.FREED if word == "gone" else State.REFUSED
                await self.stored(self.store.end, line.number, state, reply)
            raise _refusal_of(reply)
        if word not in ("granted", "held", "kept"):
            raise Refusal(503, "no_reply", reply)
        self.read_on()
        entry = self._entry(line.number)
        self.seen[line.tenant] = max(self.seen.get(line.tenant, 0), entry.at + 1)
        await self.stored(self.store.end, line.number, State.STANDS, " ".join(
            reply.split(" ", 4)[:4]))
        return Sale(line, entry, word == "kept")

    def _entry(self, number: int) -> Entry:
        """The journal's entry of a number that stands."""
        entry = self.tail.of(self.owner, number)
        if entry is None:
            raise Refusal(503, "no_entry")
        return entry

    def read_on(self) -> list[Entry]:
        """Reads what the journal gained; for who listens, too."""
        entries = self.tail.read_on()
        for entry in entries:
            self.on_entry(entry)
        return entries

    def on_entry(self, entry: Entry) -> None:
        """Is told of each entry that the journal gained."""

    # ---- Giving back

    async def free(self, line: Line) -> None:
        """Gives back what a line was granted; nothing is done where it was given back before."""
        if line.state is State.FREED:
            return
        entry = self._entry(line.number)
        if entry.freed_by is None:
            number = await self.stored(self.store.begin_free, line.number)
            await self._send_free(line, number, entry.at)
        await self.stored(self.store.end, line.number, State.FREED, line.reply)

    async def _send_free(self, line: Line, number: int, at: int) -> None:
        try:
            reply = await self.door.send(f"free {number} {at}")
        except NoReply as why:
            raise Refusal(503, "no_reply", str(why)) from None
        if reply.split(" ", 1)[0] not in ("freed", "kept", "already-freed"):
            raise Refusal(503, "no_reply", reply)
        self.read_on()
        self.seen[line.tenant] = self.tail.front

    # ---- Closures

    async def close_zones(self, who: Who, key: str | None, digest: str, body: dict[str, Any],
                          reason: str, spans: list[tuple[int, int, int]]) -> list[Sale]:
        """Holds spans of zones, in as many lines as they need; where one is refused, those before
        it are given back."""
        parts = [spans[at:at + SPANS_A_LINE] for at in range(0, len(spans), SPANS_A_LINE)]
        done: list[Sale] = []
        batch = 0
        for at, part in enumerate(parts, 1):
            words = " ".join(f"{zone} {begin} {end}" for zone, begin, end in part)
            rest = ("holds", f"{escaped(reason)} {len(part)} {words}")
            part_key = None if key is None else key if at == 1 else f"{key}#{at}"
            try:
                done.append(await self.buy(who, part_key, digest, body, rest, "closure", None,
                                           batch))
            except Refusal:
                for sale in done:
                    await self.free(sale.line)
                raise
            batch = done[0].line.number
        return done

    # ---- What was left open

    async def finish(self) -> None:
        """Sends lines that have no reply, and gives back offers whose time is over."""
        for line in await self.stored(self.store.open_lines):
            if line.number in self._under_way:
                continue
            try:
                if line.state is State.OPEN:
                    await self._settled(line, True)
                else:
                    await self.free(line)
            except Refusal:
                continue
        for line in await self.stored(self.store.expired):
            try:
                await self.free(line)
            except Refusal:
                continue

    async def keep_finishing(self, pause_s: float) -> None:
        """Does so again and again."""
        while True:
            await self.finish()
            await asyncio.sleep(pause_s)


def _refusal_of(reply: str) -> Refusal:
    status, word = _REFUSALS[reply.split(" ", 1)[0]]
    return Refusal(status, word, reply)


def lines_of_journal(tail: Tail, owner: str) -> tuple[list[Line], dict[int, int]]:
    """The lines that a journal tells of an owner with numbers of tenants, and the last counter of
    each tenant."""
    lines: list[Line] = []
    counters: dict[int, int] = {}
    batches: dict[tuple[int, str], int] = {}
    for entry in tail.entries:
        tenant, count = divmod(entry.number, PER_TENANT)
        if entry.owner != owner or not tenant:
            continue
        counters[tenant] = max(counters.get(tenant, 0), count)
        if entry.kind is Kind.FREE:
            continue
        is_path = entry.train is not None
        batch = None if is_path else batches.setdefault((tenant, entry.reason or ""), entry.number)
        free = tail.entries[entry.freed_by].number if entry.freed_by is not None else None
        lines.append(Line(entry.number, tenant, None, "", "{}", "", "sell" if is_path else
                          "closure", State.STANDS if entry.is_live else State.FREED,
                          f"kept {entry.number} entry {entry.at}", batch, time.time(), None,
                          free))
    return lines, counters

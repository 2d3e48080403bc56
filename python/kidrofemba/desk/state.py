"""What all handlers of the desk share: the day, the sales, looks, who listens, and limits."""
from __future__ import annotations

import asyncio
import time
from collections import Counter, defaultdict
from concurrent.futures import ProcessPoolExecutor
from dataclasses import dataclass, field
from pathlib import Path
from typing import Any

from kidrofemba.desk.graphs import Graphs
from kidrofemba.desk.look import Looks, Seen
from kidrofemba.desk.network import Day
from kidrofemba.desk.sales import Sale, Sales, id_of
from kidrofemba.desk.store import PER_TENANT, State, Who
from kidrofemba.desk.wanted import Wanted
from kidrofemba.desk.why import Found, end_with_parent, found_in
from kidrofemba.journal.journal_file import Entry, Run

_MOST_BUCKETS = 20_000
_SUGGESTED_S = 4 * 3600
_MOST_WAITING = 100


@dataclass(frozen=True)
class Settings:
    """How the desk is run: whether cookies are for TLS alone, how long an offer stands, how many
    event streams there may be, and requests a minute of one address without an account."""

    is_secure: bool
    offer_s: float
    streams: int
    streams_a_tenant: int = 50
    guests_a_minute: int = 20


class Limiter:
    """Requests a minute of each tenant or address: a bucket that fills evenly."""

    def __init__(self) -> None:
        self._buckets: dict[str, tuple[float, float]] = {}

    def wait_s(self, name: str, rate: int) -> float:
        """How long to wait before the next request of this name; 0 where it may be taken now."""
        now = time.monotonic()
        if len(self._buckets) > _MOST_BUCKETS:
            self._buckets = {key: one for key, one in self._buckets.items() if now - one[1] < 60}
        left, since = self._buckets.get(name, (float(rate), now))
        left = min(float(rate), left + (now - since) * rate / 60)
        if left < 1:
            self._buckets[name] = (left, now)
            return (1 - left) * 60 / rate
        self._buckets[name] = (left - 1, now)
        return 0.0


@dataclass(eq=False)
class Listener:
    """Who listens to events: their tenant, whether they are told of all, and what waits."""

    who: Who
    queue: asyncio.Queue[dict[str, Any]] = field(
        default_factory=lambda: asyncio.Queue(_MOST_WAITING))


class Desk:
    """The desk of one day."""

    def __init__(self, day: Day, sales: Sales, looks: Looks, settings: Settings):
        self.day, self.sales, self.looks, self.settings = day, sales, looks, settings
        self.graphs = Graphs(day)
        self.limiter = Limiter()
        self.listeners: set[Listener] = set()
        self.counts: Counter[tuple[str, str]] = Counter()
        self.times_s: defaultdict[str, float] = defaultdict(float)
        self.pool = ProcessPoolExecutor(1, initializer=end_with_parent)
        self.names: dict[int, str] = {}
        self.pool_lock = asyncio.Semaphore(8)
        sales.on_entry = self.tell  # type: ignore[assignment]

    async def refresh_names(self) -> None:
        """Reads the names of tenants."""
        self.names = await self.sales.stored(self.sales.store.tenant_names)

    # ---- Paths as programs are told them

    def rows(self, runs: tuple[Run, ...]) -> list[dict[str, Any]]:
        """The rows of a path."""
        def told(seconds: int | None) -> str | None:
            return None if seconds is None else self.day.moment(seconds)

        return [{"point": one.point, "track": one.track, "arrive": told(one.arrive_s),
                 "pass": told(one.pass_s), "depart": told(one.depart_s)}
                for one in self.day.rows(runs)]

    def seen_path(self, wanted: Wanted, seen: Seen) -> dict[str, Any]:
        """A path that was only looked at."""
        return self._path("", "seen", "try", wanted.train, seen.runs) | {"front": seen.front}

    def path_of(self, sale: Sale) -> dict[str, Any]:
        """A path that was sold, or had been."""
        entry, line = sale.entry, sale.line
        state = "stands" if entry.is_live else "freed"
        train = entry.train.name if entry.train else ""
        made = self._path(id_of(line.number), state, line.mode, train, entry.runs, sale.kept)
        if line.mode == "offer" and line.expires is not None:
            seconds = line.expires - self.day.clock.zero.timestamp()
            made["expires"] = self.day.moment(int(seconds))
        return made

    def _path(self, name: str, state: str, mode: str, train: str, runs: tuple[Run, ...],
              kept: bool = False) -> dict[str, Any]:
        return {"id": name, "state": state, "mode": mode, "train": train, "rows": self.rows(runs),
                "departs": self.day.moment_of_tick(runs[0].enter),
                "arrives": self.day.moment_of_tick(runs[-1].leave),
                "metres": self.day.metres(runs), "kept": kept}

    # ---- Looks

    async def look(self, who: Who, wanted: Wanted) -> Seen:
        """What a request would get."""
        sales = self.sales
        sales.read_on()
        return (await self.looks.ask([wanted.fields()], sales.tail.front,
                                     sales.seen.get(who.tenant, 0)))[0]

    async def suggestions(self, who: Who, wanted: Wanted) -> list[dict[str, Any]]:
        """Wider times with which there is a path, each of them looked at."""
        horizon, span = self.day.horizon, _SUGGESTED_S // self.day.clock.tick_s
        first, last = wanted.depart
        open_end = (wanted.arrive[0], horizon)
        asks: list[tuple[str, tuple[int, int], tuple[int, int]]] = []
        if wanted.arrive[1] < horizon:
            asks.append(("arrive_later", wanted.depart, open_end))
        if last < horizon:
            asks.append(("depart_later", (last, min(last + span, horizon)), open_end))
        for part in (8, 4, 2, 1) if first > 0 else ():
            earliest = max(0, first - span // part)
            asks.append(("depart_earlier", (earliest, first), wanted.arrive))
        fields = [Wanted(wanted.train, wanted.origin, wanted.destination, depart, arrive,
                         wanted.stops, "try").fields() for _, depart, arrive in asks]
        self.sales.read_on()
        # what helps is worked out beside all that stands: a refusal may be younger than a copy
        front = self.sales.tail.front
        told = await self.looks.ask(fields, front, front)
        found: dict[str, dict[str, Any]] = {}
        for (name, _, _), seen in zip(asks, told):
            if seen.word == "granted" and name not in found:
                found[name] = self._suggestion(name, seen)
        return list(found.values())

    def _suggestion(self, name: str, seen: Seen) -> dict[str, Any]:
        departs = self.day.moment_of_tick(seen.runs[0].enter)
        arrives = self.day.moment_of_tick(seen.runs[-1].leave)
        return {"what": name, "until": arrives if name == "arrive_later" else departs,
                "departs": departs, "arrives": arrives}

    async def why(self, who: Who, wanted: Wanted) -> dict[str, Any]:
        """Who is in the way of a request, as far as this tenant may know, and what would help."""
        sales = self.sales
        sales.read_on()
        front = sales.tail.front
        seen, proof = await self.looks.proved(wanted.fields(), front, front)
        if seen.word != "no-path":
            reason = "path" if seen.word == "granted" else "unknown"
            return {"reason": reason, "nearest_km": None, "walls": [], "suggestions": [],
                    "front": seen.front}
        async with self.pool_lock:
            found = await asyncio.get_running_loop().run_in_executor(
                self.pool, found_in, self.day.files, proof)
        walls = [self._wall(who, one) for one in found["walls"]]
        return {"reason": found["reason"], "nearest_km": found["nearest_km"], "walls": walls,
                "suggestions": await self.suggestions(who, wanted), "front": seen.front}

    def _wall(self, who: Who, found: Found) -> dict[str, Any]:
        """Who is in the way, under the name that this tenant may know."""
        kind, name = "planned", ""
        if found.planned is not None:
            name = self.day.base.trains[found.planned].name
        elif found.entry is not None:
            entry = self.sales.tail.entries[found.entry]
            kind, name = self.kind_and_name(who, entry)
        return {"who": name, "kind": kind, "place": self.day.place_of_zone(found.zone),
                "from": self.day.moment_of_tick(found.begin),
                "until": self.day.moment_of_tick(found.end),
                "without": "none" if found.is_vain else None}

    def kind_and_name(self, who: Who, entry: Entry) -> tuple[str, str]:
        """What an entry is, and the name by which this tenant may know it: of others' none."""
        tenant = entry.number // PER_TENANT if entry.owner == self.sales.owner else 0
        if entry.train is None:
            return "closure", (entry.reason or "") if who.is_desk else ""
        if tenant == who.tenant:
            return "path", id_of(entry.number)
        if not who.is_desk:
            return "path", ""
        name = self.names.get(tenant, entry.owner)
        return "path", f"{name} {id_of(entry.number) if tenant else entry.number}"

    # ---- Events

    def tell(self, entry: Entry) -> None:
        """Tells an entry to all who may know of it."""
        if entry.frees is not None:
            what, told = "freed", self.sales.tail.entries[entry.frees]
        else:
            what, told = ("closed" if entry.train is None else "sold"), entry
        tenant = told.number // PER_TENANT if told.owner == self.sales.owner else 0
        name = id_of(told.number) if tenant else f"{told.owner} {told.number}"
        event = {"what": what, "id": name,
                 "tenant": self.names.get(tenant, told.owner), "front": entry.at + 1}
        if told.train is not None and told.runs:
            event |= {"train": told.train.name,
                      "departs": self.day.moment_of_tick(told.runs[0].enter),
                      "arrives": self.day.moment_of_tick(told.runs[-1].leave)}
        for one in list(self.listeners):
            if one.who.is_desk or tenant == one.who.tenant:
                if one.queue.full():
                    one.queue.get_nowait()
                one.queue.put_nowait(event)

    def may_listen(self, who: Who) -> bool:
        """Whether there is room for one more event stream of this tenant."""
        own = sum(one.who.tenant == who.tenant for one in self.listeners)
        return len(self.listeners) < self.settings.streams \
            and own < self.settings.streams_a_tenant

    async def keep_reading(self, pause_s: float) -> None:
        """Reads the journal on, for sales of other clients of the door."""
        while True:
            self.sales.read_on()
            await asyncio.sleep(pause_s)

    def metrics(self) -> str:
        """Counts in the text that Prometheus reads."""
        rows = [f'desk_requests_total{{route="{route}",status="{status}"}} {count}'
                for (route, status), count in sorted(self.counts.items())]
        rows += [f'desk_request_seconds_total{{route="{route}"}} {seconds:.6f}'
                 for route, seconds in sorted(self.times_s.items())]
        rows += [f"desk_event_streams {len(self.listeners)}",
                 f"desk_front {self.sales.tail.front}",
                 f"desk_look_copies_total {self.looks.copies}"]
        return "\n".join(rows) + "\n"


def shown_state(state: State) -> str:
    """A line's state as the API tells it."""
    return {State.STANDS: "stands", State.FREED: "freed"}.get(state, "open")


def paths_file(name: str) -> Path:
    """A file beside the desk's modules."""
    return Path(__file__).resolve().parent / name

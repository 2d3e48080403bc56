"""What the desk knows of the day that is sold: points and trains by name, and paths by stations and
clock times."""
from __future__ import annotations

import json
import subprocess
import unicodedata
from dataclasses import dataclass
from datetime import datetime, timezone
from functools import cached_property
from pathlib import Path
from typing import Any

from kidrofemba.common.clock import Clock
from kidrofemba.common.companion import Refused
from kidrofemba.journal.journal_file import Entry, Run
from kidrofemba.journal.served_files import Base, Network, read_base, read_trains
from kidrofemba.network.blocking_times import Railway as Model
from kidrofemba.network.blocking_times import Run as ModelRun
from kidrofemba.network.blocking_times import Train
from kidrofemba.network.line_places import chain_of_blocks
from kidrofemba.network.railway import Block, Railway, read_railway
from kidrofemba.network.table_file import read_table_text

MOST_FOUND = 12
_SHORT_LIST = 5


@dataclass(frozen=True)
class Files:
    """The files of a server, and its program."""

    network: Path
    trains: Path
    base: Path
    journal: Path
    program: Path


@dataclass(frozen=True)
class Row:
    """A path at an operational point: on which track, and the seconds from tick 0 at which its head
    arrives, passes and departs there, as far as it does each."""

    point: str
    track: str
    arrive_s: int | None
    pass_s: int | None
    depart_s: int | None


def _plain(text: str) -> str:
    """A text for comparing: without accents, in small letters."""
    split = unicodedata.normalize("NFKD", text)
    return "".join(one for one in split if not unicodedata.combining(one)).casefold()


def table_text(program: Path, network: Path) -> str:
    """What `list` prints of a network."""
    told = subprocess.run([program, "list", "--network", network, "--out", "stdout"],
                          stdin=subprocess.DEVNULL, capture_output=True, check=False)
    if told.returncode:
        raise Refused(network, "", told.stderr.decode("utf-8", "replace").strip()
                      or f"`list` ended with {told.returncode}")
    return told.stdout.decode("ascii")


class Day:
    """The network, the trains and the planned trains of one base file."""

    def __init__(self, files: Files):
        self.files = files
        text = table_text(files.program, files.network)
        table = read_table_text(text, "the table of `list`")
        self.railway: Railway = read_railway(files.network, "the table of `list`", table)
        self.base: Base = read_base(str(files.base))
        if not self.clock.is_dated or self.clock.zero.tzinfo is None:
            raise Refused(files.base, "begins", "is needed, with its offset from UTC, such as "
                                                "2026-12-01T00:00:00+01:00")
        self.trains: dict[str, Train] = read_trains(str(files.trains))
        self._table = table
        self.points = sorted(self.railway.points)

    @property
    def clock(self) -> Clock:
        """The clock of the base file."""
        return self.base.clock

    @property
    def horizon(self) -> int:
        """The last tick at which a path may end."""
        return self.base.settings.horizon

    @cached_property
    def network(self) -> Network:
        """The network as the model of blocking times reads it."""
        infra = json.loads(self.files.network.read_bytes())
        return Network(self.files.network, Path("the table of `list`"), infra, self._table)

    @cached_property
    def model(self) -> Model:
        """The plain model of blocking times."""
        return Model(self.network.blocks(), settings=self.base.settings)

    # ---- Names

    def points_like(self, text: str) -> list[str]:
        """The points that a text may mean, the best first: its whole name, name or code, then those
        that begin with it, then those that have it."""
        wanted = _plain(text.strip())
        ranked = []
        for point in self.points:
            known = _plain(point)
            name, _, code = known.rpartition("/")
            if wanted == known or wanted in (name, name.replace("_", " "), code):
                rank = 0 if wanted == known else 1
            elif known.startswith(wanted) or known.replace("_", " ").startswith(wanted):
                rank = 2
            elif wanted in known or wanted in known.replace("_", " "):
                rank = 3
            else:
                continue
            ranked.append((rank, point))
        return [point for _, point in sorted(ranked)]

    def point_of(self, text: str) -> tuple[str | None, list[str]]:
        """The one point that a text means, or None with those that it may mean."""
        found = self.points_like(text) if text.strip() else []
        exact = [one for one in found if _plain(one) == _plain(text.strip())]
        if exact or len(found) == 1:
            return (exact or found)[0], []
        wanted = _plain(text.strip())
        named = [one for one in found if wanted in (
            _plain(one).rpartition("/")[0], _plain(one).rpartition("/")[0].replace("_", " "))]
        if len(named) == 1:
            return named[0], []
        return None, found[:_SHORT_LIST]

    # ---- Times

    def moment(self, seconds: int) -> str:
        """The date and time so many seconds behind tick 0, with its offset."""
        zero = self.clock.zero
        at = datetime.fromtimestamp(zero.timestamp() + seconds, zero.tzinfo)
        return at.isoformat()

    def moment_of_tick(self, tick: int) -> str:
        """The date and time at which a tick begins."""
        return self.moment(tick * self.clock.tick_s)

    def clock_time(self, seconds: int) -> str:
        """The clock time so many seconds behind tick 0, to the second where it has some."""
        text = self.clock.text_of_seconds(seconds)
        return text.replace(":00", "", 1) if text[5:8] == ":00" and len(text) == 8 else text

    def now_tick(self) -> int:
        """The tick that is now; it may lie outside the day."""
        return int(self.clock.seconds_to(datetime.now(timezone.utc)) // self.clock.tick_s)

    # ---- Paths

    def rows(self, runs: tuple[Run, ...]) -> list[Row]:
        """A path by operational points: where its head departs, what it passes, where it stands."""
        told: list[Row] = []
        tick_s = self.clock.tick_s
        for at, run in enumerate(runs):
            block = self.railway.blocks[run.block]
            onward = runs[at + 1].enter if at + 1 < len(runs) else None
            for metre, point, track in sorted(self._on_block(block)):
                share = metre / max(block.length, 1)
                seconds = round((run.enter + (run.leave - run.enter) * share) * tick_s)
                row = Row(point, track, None, seconds, None)
                if run.stops:
                    row = Row(point, track, run.leave * tick_s, None,
                              None if onward is None else onward * tick_s)
                if at == 0 and not told:
                    row = Row(point, track, None, None, run.enter * tick_s)
                if told and told[-1].point == point:
                    if run.stops and told[-1].arrive_s is None and told[-1].depart_s is None:
                        told[-1] = row
                    continue
                told.append(row)
        return told

    def _on_block(self, block: Block) -> list[tuple[float, str, str]]:
        """The operational points on a block: metres behind its begin, name and track."""
        found = []
        for name, places in self.railway.points.items():
            gone = 0
            for stretch in block.way:
                for place in places:
                    offset = stretch.offset(place.position)
                    if place.track == stretch.track and 0 <= offset <= stretch.length:
                        found.append((gone + offset, name, stretch.track))
                gone += stretch.length
        return found

    def metres(self, runs: tuple[Run, ...]) -> int:
        """The length of a path."""
        return sum(self.railway.blocks[run.block].length for run in runs)

    def claims(self, entry: Entry) -> tuple[tuple[int, int, int], ...]:
        """What an entry takes: zone, and the ticks from which and before which."""
        if entry.train is None:
            return tuple((one.zone, one.begin, one.end) for one in entry.claims)
        one = entry.train
        train = Train(one.length_m, one.speed, one.accel, one.brake, one.allowance)
        runs = [ModelRun(run.block, run.enter, run.leave, run.stops) for run in entry.runs]
        return tuple(self.model.stairway(train, runs))

    # ---- Zones

    def place_of_zone(self, zone: int) -> str:
        """Where a zone lies, in words: the operational point in it, or those between which it lies,
        with its track and metres."""
        first = self.railway.zones[zone][0]
        place = f"{first.track[:8]} {first.begin}-{first.end} m"
        own = [name for name in self.points if zone in self.zones_at(name)]
        near = own[:1] or sorted({name for blocks in self._ways for name in self._nearest(
            zone, blocks)})[:2]
        return f"{' – '.join(near)} ({place})" if near else place

    @cached_property
    def _ways(self) -> tuple[dict[int, list[int]], dict[int, list[int]]]:
        """For each block those that follow it, and those that it follows."""
        followers = self.railway.followers()
        before: dict[int, list[int]] = {number: [] for number in followers}
        for number, others in followers.items():
            for other in others:
                before[other].append(number)
        return followers, before

    def _nearest(self, zone: int, ways: dict[int, list[int]]) -> list[str]:
        """The operational point that is fewest blocks away from a zone, one way."""
        queue = [block.number for block in self.railway.blocks if zone in block.zones]
        seen = set(queue)
        for number in queue:
            names = [name for _, name, _ in sorted(self._on_block(self.railway.blocks[number]))]
            if names:
                return names[:1]
            for other in ways[number]:
                if other not in seen:
                    seen.add(other)
                    queue.append(other)
        return []

    def zones_at(self, point: str) -> list[int]:
        """The zones in which an operational point lies."""
        return [number for number, zone in enumerate(self.railway.zones) for piece in zone
                if any(place.track == piece.track and piece.begin <= place.position <= piece.end
                       for place in self.railway.points[point])]

    def zones_of_tracks(self, track: str, begin: float, end: float) -> list[int]:
        """The zones that a stretch of a track touches."""
        return [number for number, zone in enumerate(self.railway.zones)
                if any(piece.track == track and piece.begin < end and begin < piece.end
                       for piece in zone)]

    def zones_between(self, points: list[str]) -> set[int]:
        """The zones of the shortest way by these operational points; none where there is no way."""
        chain = chain_of_blocks(self.railway, points, set())
        return {zone for block in chain for zone in block.zones}

    @cached_property
    def schematic(self) -> dict[str, Any]:
        """The operational points, and between which two of them blocks lead without a third."""
        order: dict[int, list[str]] = {}
        for block in self.railway.blocks:
            order[block.number] = [name for _, name, _ in sorted(self._on_block(block))]
        followers = self.railway.followers()
        links: dict[tuple[str, str], int] = {}
        for block in self.railway.blocks:
            if order[block.number]:
                self._links_from(block, order, followers, links)
        return {"points": [{"id": one, "name": one.rpartition("/")[0] or one,
                            "code": one.rpartition("/")[2],
                            "tracks": len(self.railway.points[one])} for one in self.points],
                "links": [{"from": a, "to": b, "metres": metres}
                          for (a, b), metres in sorted(links.items())]}

    def _links_from(self, block: Block, order: dict[int, list[str]],
                    followers: dict[int, list[int]], links: dict[tuple[str, str], int]) -> None:
        """Adds the links that begin at the last point of a block."""
        here = order[block.number][-1]
        queue, seen = [(0, one) for one in followers[block.number]], {block.number}
        while queue:
            queue.sort(reverse=True)
            gone, number = queue.pop()
            if number in seen:
                continue
            seen.add(number)
            names = [one for one in order[number] if one != here]
            gone += self.railway.blocks[number].length
            if names:
                key = (here, names[0])
                links[key] = min(gone, links.get(key, gone))
                continue
            queue += [(gone, one) for one in followers[number]]

"""Reads the files that a server is given: the network with the table that `list` prints of it, the
base timetable, the trains, and the journal; each fault is told with its file."""
from __future__ import annotations

from collections.abc import Callable
from dataclasses import dataclass
from pathlib import Path
from typing import Any, TypeVar

from kidrofemba.common.clock import Clock, clock_of
from kidrofemba.common.companion import Refused
from kidrofemba.common.json_spot import Spot, spot_of_file
from kidrofemba.journal.journal_file import Journal, read_journal
from kidrofemba.network.blocking_times import Block, Settings, Train, blocks_of
from kidrofemba.network.route_walks import Point, ends_of_blocks
from kidrofemba.network.table_file import Table, read_table

_Found = TypeVar("_Found")


@dataclass(frozen=True)
class Network:
    """A network file and its table."""

    file: Path
    table_file: Path
    infra: dict[str, Any]
    table: Table

    def blocks(self) -> list[Block]:
        """The blocks, as the model of blocking times has them."""
        return self._found(lambda: blocks_of(self.table, self.infra))

    def ends(self) -> list[tuple[Point, Point]]:
        """Where each block begins and ends."""
        return self._found(lambda: ends_of_blocks(self.table, self.infra))

    def _found(self, find: Callable[[], _Found]) -> _Found:
        """What is found in a network that `list` accepts, together with its own table."""
        try:
            return find()
        except ValueError as wrong:
            raise Refused(self.table_file, "", f"is no table of {self.file}: {wrong}") from None
        except (KeyError, TypeError, IndexError, AttributeError) as wrong:
            raise Refused(self.file, "", f"no network that `list` accepts ({wrong!r})") from None


@dataclass(frozen=True)
class PlannedTrain:
    """A train of a base file, with its claims: zone, begin and end."""

    name: str
    claims: tuple[tuple[int, int, int], ...]


@dataclass(frozen=True)
class Base:
    """A base file: as it was read, its settings, its clock and its trains."""

    file: Path
    told: dict[str, Any]
    settings: Settings
    clock: Clock
    trains: tuple[PlannedTrain, ...]


def read_network(file: str, table: str) -> Network:
    """The network of a file, and the table of another."""
    return Network(Path(file), Path(table), spot_of_file(file).value, read_table(table))


def read_base(file: str) -> Base:
    """The base timetable of a file."""
    spot = spot_of_file(file)
    tick_s, setting, release, horizon = (
        spot.member(key).whole() for key in ("tick_s", "setting", "release", "horizon"))
    loss = spot.optional("speed_loss")
    settings = Settings(tick_s, setting, release, horizon,
                        loss is not None and loss.whole() == 1)
    try:
        clock = clock_of(spot.value)
    except ValueError as wrong:
        raise spot.wrong(str(wrong)) from None
    trains = tuple(PlannedTrain(one.member("name").text(),
                                tuple(map(_claim_of, one.elements_of("requirements"))))
                   for one in spot.elements_of("trains"))
    return Base(Path(file), spot.value, settings, clock, trains)


def _claim_of(need: Spot) -> tuple[int, int, int]:
    return (need.member("zone").whole(), need.member("from").whole(), need.member("to").whole())


def read_trains(file: str) -> dict[str, Train]:
    """The trains of a train file by their names."""
    return {one.member("name").text(): Train(*(one.member(key).whole() for key in (
        "length_m", "speed", "accel", "brake", "allowance")))
        for one in spot_of_file(file).elements_of("trains")}


def read_journal_of(file: str, network: Path, base: Path) -> Journal:
    """The journal of a file, which must belong to these two."""
    journal = read_journal(file)
    if not journal.is_of(network.read_bytes(), base.read_bytes()):
        raise Refused(file, "", f"belongs to another network or base file than {network} and "
                                f"{base}")
    return journal

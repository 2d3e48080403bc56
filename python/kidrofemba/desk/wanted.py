"""What a request asks for: read from JSON, with each fault told by its place in plain words."""
from __future__ import annotations

import json
from dataclasses import dataclass, field
from datetime import datetime, timedelta
from functools import cache
from hashlib import sha256
from typing import Any

import jsonschema

from kidrofemba.common.companion import escaped
from kidrofemba.desk.network import Day
from kidrofemba.desk.openapi import schema

MODES = ("sell", "offer", "try")


@dataclass(frozen=True)
class Fault:
    """What is wrong with a part of a request: where, by JSON pointer, and what, by a text of the
    table of words with its values."""

    pointer: str
    word: str
    values: dict[str, Any] = field(default_factory=dict)


class Faulty(Exception):
    """A request that can't be understood, with all its faults."""

    def __init__(self, faults: list[Fault]):
        super().__init__(", ".join(fault.word for fault in faults))
        self.faults = faults


@dataclass(frozen=True)
class Wanted:
    """A path that is wanted: train, points, windows in ticks with both ends, stops on the way with
    the ticks of each, and how."""

    train: str
    origin: str
    destination: str
    depart: tuple[int, int]
    arrive: tuple[int, int]
    stops: tuple[tuple[str, int], ...]
    mode: str

    def fields(self) -> str:
        """The fields of an `ask` behind its number."""
        stops = "".join(f" {escaped(stop)} {dwell}" for stop, dwell in self.stops)
        windows = " ".join(map(str, (*self.depart, *self.arrive)))
        return (f"{escaped(self.train)} {escaped(self.origin)} {escaped(self.destination)} "
                f"{windows} {len(self.stops)}{stops}")


def digest_of_body(body: Any) -> str:
    """The digest by which two requests of one key are compared."""
    told = {key: value for key, value in body.items() if key != "key"}
    return sha256(json.dumps(told, sort_keys=True).encode()).hexdigest()


@cache
def _validator(name: str) -> Any:
    return jsonschema.Draft7Validator(schema(name))


def check_form(name: str, body: Any) -> None:
    """Raises Faulty where a body is not in the form of this schema."""
    faults = []
    for wrong in sorted(_validator(name).iter_errors(body), key=lambda one: list(one.path)):
        path = [str(part).replace("~", "~0").replace("/", "~1") for part in wrong.absolute_path]
        if wrong.validator == "required":
            lost = next((one for one in wrong.validator_value if one not in wrong.instance), "")
            faults.append(Fault("/" + "/".join([*path, lost]), "missing"))
        elif wrong.validator == "additionalProperties":
            extra = sorted(set(wrong.instance) - set(wrong.schema.get("properties", {})))
            faults.append(Fault("/" + "/".join([*path, extra[0]]), "unknown_field"))
        else:
            faults.append(Fault("/" + "/".join(path) if path else "", "form",
                                {"wrong": _short(wrong.message)}))
    if faults:
        raise Faulty(faults)


def _short(text: str) -> str:
    return text if len(text) <= 160 else text[:157] + "..."


class Reader:
    """Reads a request beside a day, and gathers its faults."""

    def __init__(self, day: Day):
        self.day = day
        self.faults: list[Fault] = []

    def _fault(self, pointer: str, word: str, **values: Any) -> None:
        fault = Fault(pointer, word, values)
        if fault not in self.faults:
            self.faults.append(fault)

    def point(self, text: str, pointer: str) -> str:
        """The operational point that a text names."""
        found, near = self.day.point_of(text)
        if found is not None:
            return found
        if near:
            self._fault(pointer, "point_many", text=text, near=", ".join(near))
        else:
            self._fault(pointer, "point_unknown", text=text)
        return ""

    def train(self, text: str) -> str:
        """The train that a text names."""
        near = [one for one in self.day.trains if one.casefold() == text.casefold()]
        if text in self.day.trains:
            return text
        if len(near) == 1:
            return near[0]
        self._fault("/train", "train_unknown", text=text,
                    near=", ".join(sorted(self.day.trains)[:5]))
        return ""

    def moment(self, text: str, pointer: str) -> datetime | None:
        """The moment that a text names, which tells its offset."""
        try:
            moment = datetime.fromisoformat(text)
        except ValueError:
            self._fault(pointer, "no_time", text=_short(text))
            return None
        if moment.tzinfo is None:
            self._fault(pointer, "no_offset", text=text)
            return None
        return moment

    def window(self, told: dict[str, Any] | None, pointer: str) -> tuple[int, int]:
        """The ticks of a window: all of the day where none is told."""
        first, last = 0, self.day.horizon
        if told is None:
            return first, last
        begin = self._edge(told, "from", "minutes_before", -1, pointer)
        end = self._edge(told, "until", "minutes_after", 1, pointer)
        tick_s, clock = self.day.clock.tick_s, self.day.clock
        if begin is not None:
            first = -int(-clock.seconds_to(begin) // tick_s)
        if end is not None:
            last = int(clock.seconds_to(end) // tick_s)
        if begin is not None and end is not None and end < begin:
            self._fault(pointer, "window_back")
        elif last < 0 or first > self.day.horizon:
            self._fault(pointer, "window_outside", begin=self.day.moment_of_tick(0),
                        end=self.day.moment_of_tick(self.day.horizon))
        elif first > last:
            self._fault(pointer, "window_short", tick=tick_s)
        return max(first, 0), max(min(last, self.day.horizon), 0)

    def _edge(self, told: dict[str, Any], name: str, minutes: str, sign: int, pointer: str
              ) -> datetime | None:
        """An edge of a window: told itself, or as a time with minutes of tolerance."""
        if name in told:
            return self.moment(told[name], f"{pointer}/{name}")
        if "at" not in told:
            return None
        at = self.moment(told["at"], f"{pointer}/at")
        return None if at is None else at + sign * timedelta(minutes=told.get(minutes, 0))

    def wanted(self, body: dict[str, Any]) -> Wanted:
        """What a request asks for; Faulty with all that is wrong."""
        origin = self.point(body["from"]["point"], "/from/point")
        destination = self.point(body["to"]["point"], "/to/point")
        depart = self.window(body["from"].get("depart"), "/from/depart")
        arrive = self.window(body["to"].get("arrive"), "/to/arrive")
        stops = []
        for at, stop in enumerate(body.get("stops", [])):
            name = self.point(stop["point"], f"/stops/{at}/point")
            stops.append((name, -(-int(60 * stop["minutes"]) // self.day.clock.tick_s)))
        train = self.train(body["train"])
        if origin and origin == destination and not stops:
            self._fault("/to/point", "same_point")
        if self.faults:
            raise Faulty(self.faults)
        return Wanted(train, origin, destination, depart, arrive, tuple(stops),
                      body.get("mode", "sell"))

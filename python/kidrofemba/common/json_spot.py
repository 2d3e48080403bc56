"""Values of a JSON file with their places, so that a refusal says where in the file it is wrong."""
from __future__ import annotations

from collections.abc import Iterator
from dataclasses import dataclass
from pathlib import Path
from typing import Any

from kidrofemba.common.companion import Refused, read_json


@dataclass(frozen=True)
class Spot:
    """A value, the file that it stands in, and its place there, such as `routes[2].id`."""

    file: str | Path
    place: str
    value: Any

    def wrong(self, what: str) -> Refused:
        """The refusal that says what is wrong with this value."""
        return Refused(self.file, self.place, what)

    def named(self, key: str) -> Spot:
        """This object with its name, which stands under a key, besides its place. Where it has no
        name that fits in a message, it is told by its place alone."""
        name = self.value.get(key) if isinstance(self.value, dict) else None
        if not isinstance(name, str) or not name.isprintable() or not 1 <= len(name) <= 255:
            return self
        return Spot(": ".join((str(self.file), f"{self.place} {name}".strip())), "", self.value)

    def optional(self, key: str) -> Spot | None:
        """The value under a key of this object; None where it is absent or null."""
        if not isinstance(self.value, dict):
            raise self.wrong("is no object")
        found = self.value.get(key)
        if found is None:
            return None
        return Spot(self.file, f"{self.place}.{key}" if self.place else key, found)

    def member(self, key: str) -> Spot:
        """The value under a key of this object, which must be there."""
        found = self.optional(key)
        if found is None:
            raise self.wrong(f"has no `{key}`")
        return found

    def elements(self) -> Iterator[Spot]:
        """The elements of this list."""
        if not isinstance(self.value, list):
            raise self.wrong("is no list")
        for at, one in enumerate(self.value):
            yield Spot(self.file, f"{self.place}[{at}]", one)

    def elements_of(self, key: str) -> Iterator[Spot]:
        """The elements of the list under a key of this object; none where it is absent."""
        found = self.optional(key)
        return found.elements() if found else iter(())

    def text(self) -> str:
        """This value, which must be a text."""
        if not isinstance(self.value, str):
            raise self.wrong("is no text")
        return self.value

    def number(self) -> float:
        """This value, which must be a number."""
        if isinstance(self.value, bool) or not isinstance(self.value, (int, float)):
            raise self.wrong("is no number")
        return self.value

    def whole(self) -> int:
        """This value, which must be a whole number, also where it is written `2000.0`."""
        told = self.number()
        if told != told or told in (float("inf"), float("-inf")) or told != int(told):
            raise self.wrong("is no whole number")
        return int(told)


def spot_of_file(file: str | Path) -> Spot:
    """The value of a whole JSON file, which must be an object."""
    spot = Spot(file, "", read_json(file))
    if not isinstance(spot.value, dict):
        raise spot.wrong("is no JSON object")
    return spot

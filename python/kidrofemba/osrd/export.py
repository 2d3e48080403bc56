"""Reads an infrastructure that OSRD exported: RailJSON, object by object, so that a large file
needs little memory. Of each object only what the importer uses is kept; geometry goes as soon as
it was read.
"""
from __future__ import annotations

import codecs
import json
import re
from collections.abc import Callable, Iterator
from dataclasses import dataclass, field
from pathlib import Path
from typing import Any, BinaryIO

from kidrofemba.common.companion import Refused
from kidrofemba.common.progress import Progress

#: An object of JSON.
Object = dict[str, Any]
FORWARD, BACKWARD = "START_TO_STOP", "STOP_TO_START"
BEGIN, END = "BEGIN", "END"
DETECTOR, BUFFER_STOP = "Detector", "BufferStop"
LONGEST_ID = 255
LONGEST_TRACK_M = 1_000_000
# Of how much a position may lie beyond the end of its track, as sums of fractions do.
BEYOND_M = 1.0
# What later versions of OSRD may call the same things.
RENAMED = {
    "track_nodes": "switches",
    "extended_track_node_types": "extended_switch_types",
    "track_node_type": "switch_type",
    "node_type": "switch_type",
    "track_nodes_directions": "switches_directions",
}
Ways = tuple[tuple[str, str], ...]
# OSRD's own types of switches: for each group the pairs of ports that it joins.
BUILT_IN: dict[str, dict[str, Ways]] = {
    "link": {"STATIC": (("A", "B"),)},
    "point_switch": {"A_B1": (("A", "B1"),), "A_B2": (("A", "B2"),)},
    "crossing": {"STATIC": (("A1", "B1"), ("A2", "B2"))},
    "single_slip_switch": {"STATIC": (("A1", "B1"), ("A2", "B2")), "A1_B2": (("A1", "B2"),)},
    "double_slip_switch": {f"{a}_{b}": ((a, b),) for a in ("A1", "A2") for b in ("B1", "B2")},
}


@dataclass(slots=True)
class Track:
    id: str
    length: float
    line: str | None


@dataclass(slots=True)
class Point:
    """A detector or a buffer stop."""

    kind: str
    id: str
    track: str
    position: float


@dataclass(slots=True)
class Signal:
    id: str
    track: str
    position: float
    direction: str
    sight: float
    # Its signalling systems, and of these the ones that end a block here.
    systems: tuple[str, ...]
    ending: tuple[str, ...]


@dataclass(slots=True)
class Switch:
    id: str
    type: str
    # For each port the track and its end.
    ports: dict[str, tuple[str, str]]


@dataclass(slots=True)
class Route:
    id: str
    entry: tuple[str, str]
    direction: str
    exit: tuple[str, str]
    groups: dict[str, str]
    releases: list[str]


@dataclass(slots=True)
class OperationalPoint:
    id: str
    name: str | None
    code: str | None
    parts: list[tuple[str, float]]


@dataclass(slots=True)
class SpeedSection:
    id: str
    limit: float | None
    by_tag: dict[str, float]
    ranges: list[tuple[str, float, float, str]]
    on_routes: bool


@dataclass(slots=True)
class Fault:
    """What is wrong with a field of an object, with its place in the file; and whether it is so
    only because another object has a fault.
    """

    place: str
    wrong: str
    follows: bool = False


@dataclass
class Export:
    """What an export holds, by ids, in the order of the file."""

    tracks: dict[str, Track] = field(default_factory=dict)
    types: dict[str, dict[str, Ways]] = field(default_factory=lambda: dict(BUILT_IN))
    switches: dict[str, Switch] = field(default_factory=dict)
    detectors: dict[str, Point] = field(default_factory=dict)
    buffer_stops: dict[str, Point] = field(default_factory=dict)
    signals: dict[str, Signal] = field(default_factory=dict)
    routes: dict[str, Route] = field(default_factory=dict)
    operational_points: dict[str, OperationalPoint] = field(default_factory=dict)
    speed_sections: dict[str, SpeedSection] = field(default_factory=dict)
    # Each object's index in its list of the file, for messages.
    index: dict[tuple[str, str], int] = field(default_factory=dict)
    # Lists and keys at the top that are not used, with how many objects they have.
    unused: dict[str, int] = field(default_factory=dict)
    faults: list[Fault] = field(default_factory=list)

    def fault(self, key: str, name: str, place: str, wrong: str, follows: bool = False) -> None:
        """Notes a fault of an object that was read."""
        self.faults.append(Fault(spot(key, self.index[key, name], place, name), wrong, follows))


class WrongField(Exception):
    """A field of an object is not as it must be."""

    def __init__(self, place: str, wrong: str) -> None:
        super().__init__(place, wrong)
        self.place, self.wrong = place, wrong


def spot(list_name: str, index: int, place: str, name: str | None) -> str:
    """Where a field stands: its list, the object's index and id, and the field."""
    shown = "" if name is None else f" of {shown_name(name)}"
    field_name = f".{shown_name(place)}" if place else ""
    return f"{list_name}[{index}]{field_name}{shown}"


def shown_name(name: str) -> str:
    """A name as messages and the report show it: on one line, whatever characters it has."""
    if (
        name.isprintable()
        and not name[:1].isspace()
        and not name[-1:].isspace()
        and len(name) <= 300
    ):
        return name
    return json.dumps(name[:300])


def read_export(path: Path, progress: Progress) -> Export:
    """The export in a file, with all faults of its fields and of its references."""
    export = Export()
    try:
        size = path.stat().st_size
        with path.open("rb") as source:
            text = JsonText(path, source)
            for key, index, value in text.members():
                if index % 256 == 0:
                    progress.tell(lambda: f"{text.taken / 1e6:.0f} of {size / 1e6:.0f} MB read")
                take(export, RENAMED.get(key, key), index, value, path)
    except OSError as failure:
        raise Refused(path, "", failure.strerror or str(failure)) from None
    if not export.tracks and not export.faults:
        raise Refused(
            path, "track_sections", "no track is there: this is no infrastructure of OSRD"
        )
    check_references(export)
    return export


# The text of a file, value by value.

PIECE = 1 << 20
BLANK = re.compile(r"[ \t\r\n]*")


class JsonText:
    """A JSON object in a file, which is read a piece at a time."""

    def __init__(self, path: Path, source: BinaryIO) -> None:
        self.path, self.source = path, source
        self.decoder = codecs.getincrementaldecoder("utf-8-sig")()
        self.scan = json.JSONDecoder().raw_decode
        self.text, self.at, self.ended = "", 0, False
        self.taken = 0
        # The line in which the text begins, and how many characters of it were before.
        self.line, self.column = 1, 0
        self.more()

    def members(self) -> Iterator[tuple[str, int, Any]]:
        """The members of the object: each key with its value and -1, but where the value is a list:
        there the key once with an empty list and -1, and then with each element and its index."""
        self.expect("{", "the file is no JSON object")
        for _ in self.parted("}"):
            key = self.value()
            if not isinstance(key, str):
                self.refuse("a key is no text")
            self.expect(":", "a colon is missing behind a key")
            if self.next() != "[":
                yield key, -1, self.value()
                continue
            self.expect("[", "")
            yield key, -1, []
            for index in self.parted("]"):
                yield key, index, self.value()
        if self.next() != "":
            self.refuse("more text behind the object")

    def parted(self, close: str) -> Iterator[int]:
        """Goes from comma to comma up to a closing bracket."""
        index = 0
        if self.next() == close:
            self.at += 1
            return
        while True:
            yield index
            index += 1
            found = self.next()
            if found not in (",", close) or found == "":
                self.refuse(f"a comma or {close} is missing")
            self.at += 1
            if found == close:
                return

    def next(self) -> str:
        """The next character that is not blank, or nothing at the end of the file."""
        while True:
            blank = BLANK.match(self.text, self.at)
            self.at = blank.end() if blank else self.at
            if self.at < len(self.text):
                return self.text[self.at]
            if self.ended:
                return ""
            self.more()

    def expect(self, character: str, wrong: str) -> None:
        if self.next() != character:
            self.refuse(wrong)
        self.at += 1

    def value(self) -> Any:
        """The next value, whole."""
        self.next()
        while True:
            try:
                found, end = self.scan(self.text, self.at)
            except json.JSONDecodeError as wrong:
                cut = wrong.pos >= len(self.text) - 16 or wrong.msg.startswith("Unterminated")
                if self.ended or not cut:
                    self.at = wrong.pos
                    self.refuse(wrong.msg)
            except RecursionError:
                self.refuse("nested too deeply")
            except ValueError:
                self.refuse("a number of too many digits")
            else:
                if end < len(self.text) or self.ended:
                    self.at = end
                    return found
            # The value goes on behind what was read: twice as much is read then, so that no value
            # is scanned more often than its length doubles.
            self.more(len(self.text) - self.at)

    def more(self, least: int = 0) -> None:
        """Reads on, and forgets what was taken."""
        self.line, self.column = self._place()
        data = self.source.read(max(PIECE, least))
        self.taken += len(data)
        try:
            fresh = self.decoder.decode(data, final=not data)
        except UnicodeDecodeError as wrong:
            at = self.taken - len(wrong.object) + wrong.start
            raise Refused(self.path, f"byte {at}", "is no UTF-8") from None
        self.text, self.at, self.ended = self.text[self.at :] + fresh, 0, not data

    def refuse(self, wrong: str) -> None:
        line, column = self._place()
        raise Refused(self.path, f"line {line}, character {column + 1}", f"no JSON: {wrong}")

    def _place(self) -> tuple[int, int]:
        """The present line, and how many characters of it are before."""
        last = self.text.rfind("\n", 0, self.at)
        if last < 0:
            return self.line, self.column + self.at
        return self.line + self.text.count("\n", 0, self.at), self.at - last - 1


# The fields of an object.

MISSING = object()
KINDS = {
    dict: "an object",
    list: "a list",
    str: "a text",
    bool: "a truth value",
    int: "a number",
    float: "a number",
    type(None): "null",
}


def get(one: Object, name: str, kind: type, prefix: str = "") -> Any:
    """A field that must be there, of this kind."""
    value = one.get(name, MISSING)
    if type(value) is kind:
        return value
    if value is MISSING:
        raise WrongField(prefix + name, "is missing")
    raise WrongField(prefix + name, f"is {KINDS[type(value)]}, not {KINDS[kind]}")


def get_or(one: Object, name: str, kind: type, prefix: str = "") -> Any:
    """A field that may be missing or null: its value, or an empty one."""
    if one.get(name) is None:
        return kind()
    return get(one, name, kind, prefix)


def get_id(one: Object, name: str, prefix: str = "") -> str:
    """A name of an object: a text of 1 to 255 bytes."""
    value: str = get(one, name, str, prefix)
    if not 1 <= len(value) <= LONGEST_ID or not value.isascii():
        try:
            count = len(value.encode())
        except UnicodeEncodeError:
            raise WrongField(prefix + name, "has half a character (a lone surrogate)") from None
        if not 1 <= count <= LONGEST_ID:
            raise WrongField(prefix + name, f"has {count} bytes, not 1 to {LONGEST_ID}")
    return value


def get_number(one: Object, name: str, prefix: str = "") -> float:
    value = one.get(name, MISSING)
    if type(value) is not int and type(value) is not float:
        get(one, name, float, prefix)
    if not -1e15 < value < 1e15:
        raise WrongField(prefix + name, f"is {str(value)[:40]}, which is no length or speed")
    return float(value)


def get_word(one: Object, name: str, words: tuple[str, ...], prefix: str = "") -> str:
    value: str = get(one, name, str, prefix)
    if value not in words:
        raise WrongField(prefix + name, f"is {shown_name(value)}, not {' or '.join(words)}")
    return value


def elements(one: Object, name: str) -> Iterator[tuple[str, Object]]:
    """The objects of a nested list, each with the beginning of its place."""
    for index, element in enumerate(get_or(one, name, list)):
        prefix = f"{name}[{index}]"
        if type(element) is not dict:
            raise WrongField(prefix, f"is {KINDS[type(element)]}, not an object")
        yield prefix + ".", element


def nested(one: Object, *names: str) -> Any:
    """A value in objects of extensions, or nothing where one of them is not there."""
    value: Any = one
    for name in names:
        value = value.get(name) if type(value) is dict else None
    return value


def get_metres(one: Object, name: str, prefix: str = "") -> float:
    """A place on a track, which is not before its begin."""
    value = get_number(one, name, prefix)
    if value < 0:
        raise WrongField(prefix + name, f"is {value}, before the begin of the track")
    return value


def read_track(one: Object, name: str) -> Track:
    length = get_number(one, "length")
    if not 0 < length <= LONGEST_TRACK_M:
        raise WrongField("length", f"is {length}, not above 0 and at most {LONGEST_TRACK_M}")
    code = nested(one, "extensions", "sncf", "line_code")
    return Track(name, length, None if code is None else str(code))


def read_detector(one: Object, name: str) -> Point:
    return Point(DETECTOR, name, get_id(one, "track"), get_metres(one, "position"))


def read_buffer_stop(one: Object, name: str) -> Point:
    return Point(BUFFER_STOP, name, get_id(one, "track"), get_metres(one, "position"))


def read_signal(one: Object, name: str) -> Signal:
    systems: dict[str, bool] = {}
    for prefix, entry in elements(one, "logical_signals"):
        system = get_id(entry, "signaling_system", prefix)
        ends = get_or(entry, "settings", dict, prefix).get("distant") not in ("true", True)
        systems[system] = systems.get(system, False) or ends
    sight = get_number(one, "sight_distance")
    if not 0 <= sight <= 100_000:
        raise WrongField("sight_distance", f"is {sight}, not 0 to 100000")
    return Signal(
        name,
        get_id(one, "track"),
        get_metres(one, "position"),
        get_word(one, "direction", (FORWARD, BACKWARD)),
        sight,
        tuple(systems),
        tuple(system for system, ends in systems.items() if ends),
    )


def read_switch(one: Object, name: str) -> Switch:
    ports: dict[str, tuple[str, str]] = {}
    given = get(one, "ports", dict)
    for port, end in given.items():
        prefix = f"ports.{port}"
        if type(end) is not dict:
            raise WrongField(prefix, f"is {KINDS[type(end)]}, not an object")
        where = get_word(end, "endpoint", (BEGIN, END), prefix + ".")
        ports[port] = get_id(end, "track", prefix + "."), where
    return Switch(name, get_id(one, "switch_type"), ports)


def read_point(one: Object, name: str) -> tuple[str, str]:
    end = get(one, name, dict)
    return get_word(end, "type", (DETECTOR, BUFFER_STOP), name + "."), get_id(end, "id", name + ".")


def read_route(one: Object, name: str) -> Route:
    groups = get_or(one, "switches_directions", dict)
    for switch, group in groups.items():
        if type(group) is not str:
            raise WrongField(
                f"switches_directions.{switch}", f"is {KINDS[type(group)]}, not a text"
            )
    releases = get_or(one, "release_detectors", list)
    for index, release in enumerate(releases):
        if type(release) is not str:
            raise WrongField(
                f"release_detectors[{index}]", f"is {KINDS[type(release)]}, not a text"
            )
    return Route(
        name,
        read_point(one, "entry_point"),
        get_word(one, "entry_point_direction", (FORWARD, BACKWARD)),
        read_point(one, "exit_point"),
        groups,
        releases,
    )


def read_operational_point(one: Object, name: str) -> OperationalPoint:
    parts = [
        (get_id(part, "track", prefix), get_metres(part, "position", prefix))
        for prefix, part in elements(one, "parts")
    ]
    known = nested(one, "extensions", "identifier", "name")
    code = nested(one, "extensions", "sncf", "ch")
    return OperationalPoint(
        name,
        known if isinstance(known, str) else None,
        code if isinstance(code, str) else None,
        parts,
    )


def read_limit(one: Object, name: str, prefix: str = "") -> float:
    limit = get_number(one, name, prefix)
    if limit < 0.001:
        raise WrongField(prefix + name, f"is {limit} m/s, at which no train could run")
    return limit


def read_speed_section(one: Object, name: str) -> SpeedSection:
    limit = None if one.get("speed_limit") is None else read_limit(one, "speed_limit")
    tags = get_or(one, "speed_limit_by_tag", dict)
    by_tag = {tag: read_limit(tags, tag, "speed_limit_by_tag.") for tag in tags}
    ranges = []
    for prefix, given in elements(one, "track_ranges"):
        begin, end = get_metres(given, "begin", prefix), get_metres(given, "end", prefix)
        if end < begin:
            raise WrongField(prefix + "end", f"is {end}, before the begin at {begin}")
        way = get_word(given, "applicable_directions", (FORWARD, BACKWARD, "BOTH"), prefix)
        ranges.append((get_id(given, "track", prefix), begin, end, way))
    return SpeedSection(name, limit, by_tag, ranges, bool(one.get("on_routes")))


def read_type(one: Object, name: str) -> dict[str, Ways]:
    """A type of switches: for each group the pairs of ports that it joins."""
    groups: dict[str, Ways] = {}
    for group, pairs in get(one, "groups", dict).items():
        if type(pairs) is not list:
            raise WrongField(f"groups.{group}", f"is {KINDS[type(pairs)]}, not a list")
        made = []
        for index, pair in enumerate(pairs):
            prefix = f"groups.{group}[{index}]"
            if type(pair) is not dict:
                raise WrongField(prefix, f"is {KINDS[type(pair)]}, not an object")
            made.append((get(pair, "src", str, prefix + "."), get(pair, "dst", str, prefix + ".")))
        groups[group] = tuple(made)
    return groups


READERS: dict[str, tuple[Callable[[Object, str], Any], Callable[[Export], dict[str, Any]]]] = {
    "track_sections": (read_track, lambda export: export.tracks),
    "switches": (read_switch, lambda export: export.switches),
    "detectors": (read_detector, lambda export: export.detectors),
    "buffer_stops": (read_buffer_stop, lambda export: export.buffer_stops),
    "signals": (read_signal, lambda export: export.signals),
    "routes": (read_route, lambda export: export.routes),
    "operational_points": (read_operational_point, lambda export: export.operational_points),
    "speed_sections": (read_speed_section, lambda export: export.speed_sections),
    "extended_switch_types": (read_type, lambda export: export.types),
}


def take(export: Export, key: str, index: int, value: Any, path: Path) -> None:
    """Takes an element of a list at the top of the file, or a value that stands there alone."""
    if key not in READERS:
        export.unused[key] = max(export.unused.get(key, 0), index + 1)
        return
    if index < 0:
        if type(value) is not list and value is not None:
            raise Refused(path, key, f"is {KINDS[type(value)]}, not a list")
        return
    read, kept_in = READERS[key]
    name = None
    try:
        if type(value) is not dict:
            raise WrongField("", f"is {KINDS[type(value)]}, not an object")
        for old, new in RENAMED.items():
            if old in value:
                value[new] = value.pop(old)
        name = get_id(value, "id")
        if (key, name) in export.index:
            raise WrongField(
                "id", f"another of {key} has it too, at index {export.index[key, name]}"
            )
        export.index[key, name] = index
        kept_in(export)[name] = read(value, name)
    except WrongField as wrong:
        export.faults.append(Fault(spot(key, index, wrong.place, name), wrong.wrong))


# References from object to object.

# A fault of an object: the field, what is wrong, and whether it only follows from another fault.
Found = tuple[str, str, bool] | None


def check_references(export: Export) -> None:
    """Takes out what names things that are not there, and notes each as a fault."""
    keep(export, "switches", export.switches, lambda one: switch_fault(export, one))
    free_ends(export)
    placed: tuple[tuple[str, dict[str, Any]], ...] = (
        ("detectors", export.detectors),
        ("buffer_stops", export.buffer_stops),
        ("signals", export.signals),
    )
    for key, points in placed:
        keep(export, key, points, lambda one: place_fault(export, "", one.track, one.position))
    for route in export.routes.values():
        check_lists_of_route(export, route)
    keep(export, "routes", export.routes, lambda one: route_fault(export, one))
    for point in export.operational_points.values():
        point.parts = [
            part
            for index, part in enumerate(point.parts)
            if is_fine(
                export,
                "operational_points",
                point.id,
                place_fault(export, f"parts[{index}].", *part),
            )
        ]
    for section in export.speed_sections.values():
        section.ranges = [
            one
            for index, one in enumerate(section.ranges)
            if is_fine(
                export,
                "speed_sections",
                section.id,
                absent(export, f"track_ranges[{index}].track", "track_sections", one[0]),
            )
        ]


WHAT = {
    "track_sections": "track",
    "switches": "switch",
    "detectors": "detector",
    "buffer_stops": "buffer stop",
    "extended_switch_types": "type of switches",
}


def absent(export: Export, place: str, key: str, name: str) -> Found:
    """The fault of a field that names an object which is not there."""
    if name in READERS[key][1](export):
        return None
    if (key, name) in export.index:
        return place, f"{WHAT[key]} {shown_name(name)} has a fault and is left out", True
    return place, f"no {WHAT[key]} has the id {shown_name(name)}", False


def is_fine(export: Export, key: str, name: str, found: Found) -> bool:
    """Notes a fault of an object, if one was found."""
    if found is not None:
        export.fault(key, name, *found)
    return found is None


def keep(
    export: Export, key: str, objects: dict[str, Any], fault_of: Callable[[Any], Found]
) -> None:
    """Takes the objects out that have a fault."""
    for one in list(objects.values()):
        if not is_fine(export, key, one.id, fault_of(one)):
            del objects[one.id]


def place_fault(export: Export, prefix: str, track: str, position: float) -> Found:
    if track not in export.tracks:
        return absent(export, f"{prefix}track", "track_sections", track)
    length = export.tracks[track].length
    if position > length + BEYOND_M:
        return f"{prefix}position", f"is {position}, beyond the end of its track at {length}", False
    return None


def switch_fault(export: Export, one: Switch) -> Found:
    if one.type not in export.types:
        return absent(export, "switch_type", "extended_switch_types", one.type)
    wanted = {port for ways in export.types[one.type].values() for way in ways for port in way}
    for port in sorted(wanted - set(one.ports)):
        return f"ports.{port}", "is missing", False
    for port, (track, _) in one.ports.items():
        if track not in export.tracks:
            return absent(export, f"ports.{port}.track", "track_sections", track)
    return None


def free_ends(export: Export) -> None:
    """Takes the switches out that name an end of track for the second time."""
    taken: dict[tuple[str, str], str] = {}

    def fault_of(one: Switch) -> Found:
        own: dict[tuple[str, str], str] = {}
        for port, end in one.ports.items():
            other = taken.get(end) or own.get(end)
            if other is not None:
                wrong = f"{end[1]} of track {shown_name(end[0])} is at {other} too"
                return f"ports.{port}", wrong, False
            own[end] = f"port {shown_name(port)} of switch {shown_name(one.id)}"
        taken.update(own)
        return None

    keep(export, "switches", export.switches, fault_of)


def check_lists_of_route(export: Export, route: Route) -> None:
    """Takes out of a route's lists what is not there."""
    for switch in list(route.groups):
        place = f"switches_directions.{switch}"
        found = absent(export, place, "switches", switch)
        if found is None:
            kind, group = export.switches[switch].type, route.groups[switch]
            if group not in export.types[kind]:
                found = place, f"{shown_name(kind)} has no group {shown_name(group)}", False
        if not is_fine(export, "routes", route.id, found):
            del route.groups[switch]
    route.releases = [
        name
        for index, name in enumerate(route.releases)
        if is_fine(
            export,
            "routes",
            route.id,
            absent(export, f"release_detectors[{index}]", "detectors", name),
        )
    ]


def route_fault(export: Export, one: Route) -> Found:
    for place, (kind, name) in (("entry_point", one.entry), ("exit_point", one.exit)):
        found = absent(
            export, f"{place}.id", "detectors" if kind == DETECTOR else "buffer_stops", name
        )
        if found is not None:
            return found
    return None

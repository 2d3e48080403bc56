"""Reads the entries of a journal of version 2, whose bytes docs/FORMATS.md tells.

A journal that a server is writing to may be read: entries end at the first gate that is not 1.
"""
from __future__ import annotations

import hashlib
import struct
from collections.abc import Iterator
from dataclasses import dataclass, replace
from enum import IntEnum
from itertools import islice
from pathlib import Path

from kidrofemba.common.companion import Refused

_MAGIC = b"STDCMJNL"
_VERSION = 2
_DIGEST_SIZE = 32
_FIRST_GATE = len(_MAGIC) + 4 + 2 * _DIGEST_SIZE


class Kind(IntEnum):
    """What an entry does, numbered as in its body."""

    HOLD = 1
    GRANT = 2
    PIN = 3
    FREE = 4
    HOLDS = 5


@dataclass(frozen=True)
class Claim:
    """A zone, taken from tick `begin` on and before tick `end`."""

    zone: int
    begin: int
    end: int


@dataclass(frozen=True)
class Run:
    """A block, with the ticks at which the head enters it and leaves it, and whether the train
    stops at its end."""

    block: int
    enter: int
    leave: int
    stops: bool


@dataclass(frozen=True)
class JournalTrain:
    """A train as it was when the path was granted: metres, mm/s, mm/s² twice, and per cent."""

    name: str
    length_m: int
    speed: int
    accel: int
    brake: int
    allowance: int


@dataclass(frozen=True)
class Request:
    """What was asked for: stops by their numbers, windows of ticks with both ends, and each stop on
    the way with the ticks that the train stands there at least."""

    origin: int
    destination: int
    depart: tuple[int, int]
    arrive: tuple[int, int]
    stops: tuple[tuple[int, int], ...]


@dataclass(frozen=True)
class Entry:
    """An entry of a journal. A hold has claims, one of kind HOLDS also a reason; a granted path has
    its train and runs, and one that was asked for also its request; one of kind FREE tells which
    entry it `frees`. `freed_by` tells which entry freed this one."""

    at: int
    kind: Kind
    number: int
    line: int
    owner: str
    claims: tuple[Claim, ...] = ()
    reason: str | None = None
    train: JournalTrain | None = None
    request: Request | None = None
    runs: tuple[Run, ...] = ()
    frees: int | None = None
    freed_by: int | None = None

    @property
    def is_live(self) -> bool:
        """Whether it is a hold or a granted path that was not freed."""
        return self.kind is not Kind.FREE and self.freed_by is None


@dataclass(frozen=True)
class Journal:
    """The digests of the files that a journal belongs to, and its entries."""

    network_digest: bytes
    base_digest: bytes
    entries: tuple[Entry, ...]

    def live(self) -> list[Entry]:
        """The holds and the granted paths that stand, in the order in which they came."""
        return [entry for entry in self.entries if entry.is_live]

    def live_at(self, front: int) -> list[Entry]:
        """The holds and the granted paths that stood when the first `front` entries did."""
        return [entry for entry in self.entries[:front] if entry.kind is not Kind.FREE
                and (entry.freed_by is None or entry.freed_by >= front)]

    def is_of(self, network: bytes, base: bytes) -> bool:
        """Whether it belongs to a network's file and a base file with these bytes."""
        return (self.network_digest == hashlib.sha256(network).digest()
                and self.base_digest == hashlib.sha256(base).digest())


class _Fields:
    """The fields of a body, taken from its front."""

    def __init__(self, body: bytes):
        self.body, self.at = body, 0

    def numbers(self, form: str) -> tuple[int, ...]:
        """Numbers, most significant byte first, in a form of the module struct."""
        told = struct.unpack_from(">" + form, self.body, self.at)
        self.at += struct.calcsize(">" + form)
        return told

    def number(self, form: str) -> int:
        return self.numbers(form)[0]

    def text(self) -> str:
        """A text behind its length; bytes that are no UTF-8 stand in it as surrogates."""
        size = self.number("B")
        if self.at + size > len(self.body):
            raise struct.error("a text is cut")
        self.at += size
        return self.body[self.at - size:self.at].decode("utf-8", "surrogateescape")

    def claims(self, count: int) -> tuple[Claim, ...]:
        return tuple(Claim(*self.numbers("Iqq")) for _ in range(count))

    def train(self) -> JournalTrain:
        return JournalTrain(self.text(), *self.numbers("5I"))

    def request(self) -> Request:
        origin, destination = self.numbers("II")
        first, last, earliest, latest = self.numbers("4q")
        stops = tuple((stop, dwell) for stop, dwell in
                      (self.numbers("II") for _ in range(self.number("I"))))
        return Request(origin, destination, (first, last), (earliest, latest), stops)

    def runs(self) -> tuple[Run, ...]:
        told = (self.numbers("IqqB") for _ in range(self.number("I")))
        return tuple(Run(block, enter, leave, stops == 1) for block, enter, leave, stops in told)


def runs_of_words(words: list[str]) -> tuple[Run, ...]:
    """The runs that a reply tells: their count, and each one's four fields; else ValueError."""
    numbers = list(map(int, words))
    if not numbers or len(numbers) != 1 + 4 * numbers[0]:
        raise ValueError(f"no runs: {' '.join(words)}")
    return tuple(Run(numbers[at], numbers[at + 1], numbers[at + 2], numbers[at + 3] == 1)
                 for at in range(1, len(numbers), 4))


def entry_of(at: int, body: bytes) -> Entry:
    """The entry of this body; ValueError where the bytes are none."""
    fields = _Fields(body)
    try:
        kind, number, line = fields.numbers("BQI")
        entry = _content_of(Entry(at, Kind(kind), number, line, fields.text()), fields)
    except struct.error:
        raise ValueError("its body is cut") from None
    if fields.at != len(body):
        raise ValueError("its body has bytes behind it")
    return entry


def _content_of(entry: Entry, fields: _Fields) -> Entry:
    """An entry with what its kind has behind the owner."""
    if entry.kind is Kind.HOLD:
        return replace(entry, claims=fields.claims(1))
    if entry.kind is Kind.HOLDS:
        return replace(entry, reason=fields.text(), claims=fields.claims(fields.number("I")))
    if entry.kind is Kind.GRANT:
        return replace(entry, train=fields.train(), request=fields.request(), runs=fields.runs())
    if entry.kind is Kind.PIN:
        return replace(entry, train=fields.train(), runs=fields.runs())
    return replace(entry, frees=fields.number("Q"))


def _gates(file: str | Path, data: bytes) -> Iterator[int]:
    """Where the gates of a journal stand: one before each entry, and the one behind the last."""
    if data[:len(_MAGIC)] != _MAGIC:
        raise Refused(file, "byte 0", "not a journal")
    version = int.from_bytes(data[len(_MAGIC):len(_MAGIC) + 4], "big")
    if version != _VERSION or len(data) <= _FIRST_GATE:
        raise Refused(file, f"byte {len(_MAGIC)}", f"not a whole journal of version {_VERSION}")
    gate = _FIRST_GATE
    yield gate
    while data[gate] == 1:
        end = gate + 5 + int.from_bytes(data[gate + 1:gate + 5], "big")
        if end >= len(data):
            raise Refused(file, f"byte {gate}", "an open gate with no whole record behind it")
        gate = end
        yield gate


def beginning_of(file: str | Path, front: int, base: bytes | None = None) -> bytes:
    """A journal with the first `front` entries of the one that a file holds, of the same base file
    or of another one of these bytes."""
    data = Path(file).read_bytes()
    gates = list(islice(_gates(file, data), front + 1))
    if front >= len(gates):
        raise Refused(file, "", f"has {len(gates) - 1} entries, {front} were wanted")
    header = data[:_FIRST_GATE] if base is None else \
        data[:_FIRST_GATE - _DIGEST_SIZE] + hashlib.sha256(base).digest()
    return header + data[_FIRST_GATE:gates[front]] + b"\0"


@dataclass(frozen=True)
class Joined:
    """A journal that is a backup and behind its last entry what another file has there: its bytes,
    the entries of the backup and of the whole, and how many bytes of the backup the other file has
    otherwise."""

    data: bytes
    backup: int
    front: int
    mended: int


def joined(backup: str | Path, damaged: str | Path) -> Joined:
    """The entries of a backup, and behind them those of a file that is damaged before its end."""
    whole, rest = Path(backup).read_bytes(), Path(damaged).read_bytes()
    gates = list(_gates(backup, whole))
    if len(rest) <= gates[-1]:
        raise Refused(damaged, f"byte {len(rest)}", f"ends before the backup, at {gates[-1]}")
    data = whole[:gates[-1]] + rest[gates[-1]:]
    front = sum(1 for _ in _gates(damaged, data)) - 1
    mended = sum(one != other for one, other in zip(whole[:gates[-1]], rest))
    return Joined(data, len(gates) - 1, front, mended)


def read_journal(file: str | Path) -> Journal:
    """The journal that a file holds; whoever was freed knows by which entry."""
    data = Path(file).read_bytes()
    gates = list(_gates(file, data))
    entries: list[Entry] = []
    for at, (gate, end) in enumerate(zip(gates, gates[1:])):
        body = data[gate + 5:end]
        try:
            entry = entry_of(at, body)
        except ValueError as wrong:
            raise Refused(file, f"entry {at}", str(wrong)) from None
        if entry.frees is not None:
            if entry.frees >= at:
                raise Refused(file, f"entry {at}", f"it frees entry {entry.frees}, which is later")
            entries[entry.frees] = replace(entries[entry.frees], freed_by=at)
        entries.append(entry)
    digests = data[_FIRST_GATE - 2 * _DIGEST_SIZE:_FIRST_GATE]
    return Journal(digests[:_DIGEST_SIZE], digests[_DIGEST_SIZE:], tuple(entries))


def base_digest_of(file: str | Path) -> bytes:
    """The digest of the base file that a journal belongs to, from its first bytes alone."""
    with open(file, "rb") as journal:
        data = journal.read(_FIRST_GATE + 1)
    next(_gates(file, data))
    return data[_FIRST_GATE - _DIGEST_SIZE:_FIRST_GATE]

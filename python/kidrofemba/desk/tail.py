"""The entries of a journal that a server is writing to, read on from where they ended before."""
from __future__ import annotations

from dataclasses import dataclass, field, replace
from hashlib import sha256
from pathlib import Path

from kidrofemba.common.companion import Refused
from kidrofemba.journal.journal_file import Entry, entry_of

_HEADER = 76
_MAGIC = b"STDCMJNL\0\0\0\2"


@dataclass
class Tail:
    """A journal as far as it was read: its entries by position, and which of them, by owner and
    number, did what was asked for."""

    file: Path
    network: bytes
    base: bytes
    entries: list[Entry] = field(default_factory=list)
    by_number: dict[tuple[str, int], int] = field(default_factory=dict)
    live: dict[int, None] = field(default_factory=dict)
    _gate: int = _HEADER

    def __post_init__(self) -> None:
        wanted = _MAGIC + sha256(self.network).digest() + sha256(self.base).digest()
        with open(self.file, "rb") as source:
            if source.read(_HEADER) != wanted:
                raise Refused(self.file, "", "is no journal of this network and this base file")
        self._header = wanted

    @property
    def front(self) -> int:
        """How many entries stand."""
        return len(self.entries)

    def read_on(self) -> list[Entry]:
        """The entries that came since the last call."""
        with open(self.file, "rb") as source:
            if source.read(_HEADER) != self._header:
                raise Refused(self.file, "", "was replaced by another journal: start the desk anew")
            source.seek(self._gate)
            data = source.read()
        if not data:
            raise Refused(self.file, f"byte {self._gate}", "the journal lost its end")
        made, at = [], 0
        while data[at:at + 1] == b"\1":
            end = at + 5 + int.from_bytes(data[at + 1:at + 5], "big")
            if end >= len(data):
                break
            made.append(self._take(data[at + 5:end]))
            at = end
        self._gate += at
        return made

    def _take(self, body: bytes) -> Entry:
        """Adds the entry of a body."""
        try:
            entry = entry_of(len(self.entries), body)
        except ValueError as wrong:
            raise Refused(self.file, f"entry {len(self.entries)}", str(wrong)) from None
        self.entries.append(entry)
        if entry.frees is not None:
            self.entries[entry.frees] = replace(self.entries[entry.frees], freed_by=entry.at)
            self.live.pop(entry.frees, None)
        else:
            self.by_number[entry.owner, entry.number] = entry.at
            self.live[entry.at] = None
        return entry

    def of(self, owner: str, number: int) -> Entry | None:
        """What stands, or stood, by a client's number."""
        at = self.by_number.get((owner, number))
        return None if at is None else self.entries[at]

    def live_entries(self) -> list[Entry]:
        """The holds and the paths that stand, in the order in which they came."""
        return [self.entries[at] for at in self.live]

"""What the door counts, as the text that Prometheus reads."""
from __future__ import annotations

import os
from collections import Counter
from collections.abc import Iterable, Iterator
from dataclasses import dataclass, field
from pathlib import Path


@dataclass
class Counts:
    """Replies by client and first word, and connections that were cut off by client and reason."""

    replies: Counter[tuple[str, str]] = field(default_factory=Counter)
    cut_off: Counter[tuple[str, str]] = field(default_factory=Counter)

    def add_reply(self, client: str, reply: bytes) -> None:
        """Counts a reply."""
        self.replies[client, reply.split(None, 1)[0].decode("ascii", "replace")] += 1


@dataclass(frozen=True)
class Moment:
    """What is told beside the counts: how it stands now."""

    time_s: float
    is_up: bool
    starts: int
    front: int
    connections: dict[str, int]
    journal: Path
    journal_limit: int


def text_of(counts: Counts, moment: Moment) -> str:
    """The whole text of a status file."""
    return "".join(_lines(counts, moment))


def _lines(counts: Counts, moment: Moment) -> Iterator[str]:
    pairs = [({"client": client, "reply": word}, count)
             for (client, word), count in sorted(counts.replies.items())]
    yield from _family("replies_total", "counter", "Replies by client and first word.", pairs)
    pairs = [({"client": client, "why": why}, count)
             for (client, why), count in sorted(counts.cut_off.items())]
    yield from _family("cut_off_total", "counter", "Connections that the door ended.", pairs)
    pairs = [({"client": client}, count) for client, count in moment.connections.items()]
    yield from _family("connections", "gauge", "Open connections by client.", pairs)
    yield from _alone("server_up", "gauge", "Whether a server answers.", int(moment.is_up))
    yield from _alone("server_starts_total", "counter", "Starts of the server.", moment.starts)
    yield from _alone("front", "gauge", "The highest front that a server told.",
                      moment.front)
    yield from _alone("journal_limit_bytes", "gauge", "What the journal may take.",
                      moment.journal_limit)
    try:
        size, disk = os.stat(moment.journal).st_size, os.statvfs(moment.journal)
    except OSError:
        pass  # the journal may be gone, and then its size is not told
    else:
        yield from _alone("journal_bytes", "gauge", "What the journal takes.", size)
        yield from _alone("disk_free_bytes", "gauge", "Room on the journal's disk.",
                          disk.f_bavail * disk.f_frsize)
    yield from _alone("written_seconds", "gauge", "When this was written, since 1970.",
                      round(moment.time_s, 3))


def _alone(name: str, kind: str, sense: str, value: float) -> Iterator[str]:
    return _family(name, kind, sense, [({}, value)])


def _family(name: str, kind: str, sense: str,
            values: Iterable[tuple[dict[str, str], float]]) -> Iterator[str]:
    """The lines of one metric. Values of labels are names of clients and words, which need no
    quoting."""
    yield f"# HELP path_door_{name} {sense}\n# TYPE path_door_{name} {kind}\n"
    for labels, value in values:
        told = ",".join(f'{label}="{text}"' for label, text in labels.items())
        yield f"path_door_{name}{f'{{{told}}}' if told else ''} {value}\n"

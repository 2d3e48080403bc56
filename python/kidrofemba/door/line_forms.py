"""The fields of lines by their names, and what stands in each: so a reply that counts a field is
told in words."""
from __future__ import annotations

from dataclasses import dataclass

NUMBERED = frozenset({"hold", "holds", "pin", "ask", "free"})
"""The words behind which a number of the client stands."""

_WINDOWS = ("begin of the departure", "end of the departure", "begin of the arrival",
            "end of the arrival")
_TICK = "a clock time beside --base, or a tick, -100000 to 100000"
_WANTED = {
    "word": "one of ask, hold, holds, pin, free, show, front",
    "number": "a whole number, 0 to 9223372036854775807, or `-` with --state",
    "train": "the name of a train of the train file, %20 for a space",
    "origin": "the name of an operational point of the network",
    "destination": "the name of an operational point of the network",
    "stop": "the name of an operational point of the network",
    "dwell at stop": "how long the train stands at least, as 8min beside --base, or 0 to 17280 "
                     "ticks",
    "count of stops": "how many stops follow, 0 to 16",
    "zone": "the number of a zone of the network",
    "zone of span": "the number of a zone of the network, spans standing by zone and then by begin",
    "end": f"behind the begin, {_TICK}",
    "end of span": f"behind its begin, {_TICK}",
    "reason": "1 to 255 bytes, %20 for a space",
    "count of spans": "how many spans follow, 1 to 64",
    "count of runs": "how many runs follow, 1 to 4096",
    "block of run": "the number of a block of the network",
    "stops of run": "1 where the train stops at the end of the block, else 0",
    "entry": "the number of an entry, as replies tell it",
}


def wanted(name: str) -> str:
    """What stands in a field of this name, such as `stop 2`."""
    return _WANTED.get(name.rstrip("0123456789 "), _TICK)


@dataclass(frozen=True)
class Form:
    """The fields of a line behind its word, by their names: those that it always has, and those
    that come as often as the last of them says."""

    fields: tuple[str, ...]
    repeated: tuple[str, ...] = ()

    def name(self, at: int, words: list[str]) -> str | None:
        """The name of a field, counted from 1 at the line's word; None where it is one too many."""
        at -= 2
        if at < len(self.fields):
            return self.fields[at]
        again, part = divmod(at - len(self.fields), max(1, len(self.repeated)))
        count = words[len(self.fields)] if self.repeated else "0"
        if not count.isdecimal() or again >= int(count):
            return None
        return f"{self.repeated[part]} {again + 1}"


FORMS = {
    "ask": Form(("number", "train", "origin", "destination", *_WINDOWS, "count of stops"),
                ("stop", "dwell at stop")),
    "hold": Form(("number", "zone", "begin", "end")),
    "holds": Form(("number", "reason", "count of spans"),
                  ("zone of span", "begin of span", "end of span")),
    "pin": Form(("number", "train", "count of runs"),
                ("block of run", "enter of run", "leave of run", "stops of run")),
    "free": Form(("number", "entry")),
    "show": Form(("entry",)),
    "front": Form(()),
}
_MOST_SHOWN = 80


def words_of(line: str) -> list[str]:
    """The fields of a line from its word on, without the `after N` that may stand before it."""
    words = line.split(" ")
    return words[2:] if words[0] == "after" else words


def shown(word: str) -> str:
    """A word of a line as a message shows it."""
    return word if len(word) <= _MOST_SHOWN else f"{word[:_MOST_SHOWN]}.."


def why_bad(field: int, line: str) -> str | None:
    """What is wrong with a field of a line, counted from 1; None where nothing more is known."""
    words = words_of(line)
    field -= len(line.split(" ")) - len(words)
    if not words or field < 1 or field > len(words) + 1:
        return None
    form = FORMS.get(words[0])
    if field == 1:
        return f"{shown(words[0])} is no word of a line: wanted is {wanted('word')}"
    if form is None:
        return None
    name = form.name(field, words)
    if field > len(words):
        return f"{name} is missing: wanted is {wanted(name)}" if name else None
    word = shown(words[field - 1])
    return f"{word} ({name}) is not known or not in its form: wanted is {wanted(name)}" if name \
        else f"{word} is one field too many"

"""Reports of what a companion kept, changed and dropped, one by one under headings."""
from __future__ import annotations

from collections import defaultdict


class Report:
    """Notes under headings, in the order in which the headings first came."""

    def __init__(self) -> None:
        self._notes: dict[str, list[str]] = defaultdict(list)
        self._uncounted: set[str] = set()

    def note(self, heading: str, text: str) -> None:
        """Adds a note under a heading."""
        self._notes[heading].append(text)

    def tell(self, heading: str, text: str) -> None:
        """Adds what is said under a heading whose notes are not counted."""
        self._uncounted.add(heading)
        self.note(heading, text)

    def text(self, shown: int | None = None) -> str:
        """The whole report, or no more than so many notes of each heading."""
        rows = []
        for heading, notes in self._notes.items():
            count = "" if heading in self._uncounted else f": {len(notes)}"
            rows += [heading + count, *(f"  {note}" for note in notes[:shown])]
            if shown is not None and len(notes) > shown:
                rows.append(f"  and {len(notes) - shown} more")
        return "".join(row + "\n" for row in rows)

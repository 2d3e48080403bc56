"""Tells on standard error what a companion is at, where its work takes long."""
from __future__ import annotations

import sys
import time
from collections.abc import Callable

FIRST_S, NEXT_S = 2.0, 1.0


class Progress:
    """Tells nothing for two seconds, and from then on once a second."""

    def __init__(self, name: str) -> None:
        self.name = name
        self.due = time.monotonic() + FIRST_S

    def tell(self, text: Callable[[], str]) -> None:
        """Tells this where it is time to; the text is made only then."""
        now = time.monotonic()
        if now >= self.due:
            self.due = now + NEXT_S
            print(f"{self.name}: {text()}", file=sys.stderr, flush=True)

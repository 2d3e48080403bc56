"""What bounds a door: its handles, and how a shortage of the machine is told."""
from __future__ import annotations

import errno
import resource
import time
from collections.abc import Callable

from kidrofemba.common.companion import Refused

CONNECTIONS = 4
"""Connections of one client at once."""
MAX_CONNECTIONS = 64
ACCEPTS_AT_ONCE = 50
ACCEPTS_A_SECOND = 100.0
"""Connections of one client that are accepted at once, and so many more a second."""
MAX_LINE_BYTES = 65_536
"""Bytes of a line, without its end."""
# Handles of the door itself: its three streams, the event loop's, and files that it opens a moment.
_OWN_HANDLES = 24
# Of each client: its socket, a connection that waits for room, its pipes, and while a server is
# started those of the one before and the other ends.
_CLIENT_HANDLES = 8
_SHORTAGES = frozenset({errno.EMFILE, errno.ENFILE, errno.ENOMEM, errno.EAGAIN, errno.ENOBUFS,
                        errno.ENOSPC})
_TOLD_AGAIN_S = 60.0


def handles_wanted(clients: int, connections: int) -> int:
    """How many handles a door has open at most, with so many connections of each client."""
    return _OWN_HANDLES + clients * (_CLIENT_HANDLES + connections)


def take_handles(wanted: int) -> None:
    """Sees that this process may have so many handles open; Refused where it may not."""
    soft, hard = resource.getrlimit(resource.RLIMIT_NOFILE)
    if hard != resource.RLIM_INFINITY and hard < wanted:
        raise Refused("limits", "", f"{wanted} open files are wanted for these clients, and {hard} "
                      "are allowed: see `ulimit -Hn`, or LimitNOFILE of the unit")
    if soft != resource.RLIM_INFINITY and soft < wanted:
        resource.setrlimit(resource.RLIMIT_NOFILE, (wanted, hard))


def is_shortage(failure: BaseException) -> bool:
    """Whether a failure is one that passes: want of handles, memory or processes."""
    return isinstance(failure, MemoryError) or (
        isinstance(failure, OSError) and failure.errno in _SHORTAGES)


class Shortage:
    """Tells a shortage once when it comes and once when it is over, whatever it does in between,
    and not more than once a minute."""

    def __init__(self, subject: str, tell: Callable[[str], None]):
        self.subject, self.tell = subject, tell
        self.is_on = False
        self._was_told = False
        self._last_s = -_TOLD_AGAIN_S

    def is_met(self, text: str) -> None:
        """A shortage is met; what it keeps from being done."""
        now_s = time.monotonic()
        if not self.is_on and now_s - self._last_s >= _TOLD_AGAIN_S:
            self.tell(f"{self.subject}: {text}")
            self._was_told, self._last_s = True, now_s
        self.is_on = True

    def is_over(self) -> None:
        """What a shortage kept from being done was done."""
        if self.is_on and self._was_told:
            self.tell(f"{self.subject}: the shortage is over")
            self._was_told = False
        self.is_on = False


class Budget:
    """What may be done: so often at once, and so often a second from then on."""

    def __init__(self, at_once: int, a_second: float):
        self._gap_s, self._ahead_s = 1 / a_second, (at_once - 1) / a_second
        self._next_s = 0.0

    def take(self) -> float:
        """Takes one; in how many seconds the next one may be taken."""
        now_s = time.monotonic()
        self._next_s = max(self._next_s, now_s - self._ahead_s) + self._gap_s
        return max(0.0, self._next_s - now_s)

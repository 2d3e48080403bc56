"""The lines that come over a connection."""
from __future__ import annotations

import asyncio
import socket
from dataclasses import dataclass, field

from kidrofemba.door.limits import MAX_LINE_BYTES

_READ_BYTES = 65_536


class LineTooLong(Exception):
    """A line has more bytes than one may have."""


@dataclass
class Lines:
    """Whole lines of a stream. No more is read than the next line wants: what a peer sends ahead
    stays with its socket, so this has at most two lines' bytes."""

    stream: socket.socket
    _taken: bytearray = field(default_factory=bytearray)
    _searched: int = 0

    async def next(self) -> bytes | None:
        """The next whole line with its end, None where there is none to come."""
        loop = asyncio.get_running_loop()
        while True:
            end = self._taken.find(b"\n", self._searched)
            if max(end, len(self._taken) if end < 0 else 0) > MAX_LINE_BYTES:
                raise LineTooLong
            if end >= 0:
                line = bytes(self._taken[:end + 1])
                del self._taken[:end + 1]
                self._searched = 0
                return line
            self._searched = len(self._taken)
            data = await loop.sock_recv(self.stream, _READ_BYTES)
            if not data:
                return None
            self._taken += data

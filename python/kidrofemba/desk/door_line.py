"""One connection to the desk's socket at the door: a line, its reply, and the same line again after
a break."""
from __future__ import annotations

import asyncio
import time
from pathlib import Path

_ONCE_MORE = frozenset({"unsettled", "disk-fault", "no-memory", "again"})
_MAX_REPLY_BYTES = 2 ** 24
_FIRST_PAUSE_S, _LONGEST_PAUSE_S = 0.05, 2.0


class NoReply(Exception):
    """The door gave no reply that settles a line in time; the line may have been done."""


class DoorLine:
    """The desk's socket at the door. Lines go one after the other, as the door takes them."""

    def __init__(self, path: Path, patience_s: float):
        self.path, self.patience_s = path, patience_s
        self._lock = asyncio.Lock()
        self._reader: asyncio.StreamReader | None = None
        self._writer: asyncio.StreamWriter | None = None

    async def send(self, line: str) -> str:
        """The reply to a line, which is sent again until there is one that settles it; NoReply
        where that takes longer than the desk waits."""
        end, pause_s = time.monotonic() + self.patience_s, _FIRST_PAUSE_S
        while True:
            try:
                async with asyncio.timeout(max(0.05, end - time.monotonic())):
                    reply = await self._exchange(line)
                why = reply
                if reply.split(" ", 1)[0] not in _ONCE_MORE:
                    return reply
            except (OSError, TimeoutError, asyncio.IncompleteReadError,
                    asyncio.LimitOverrunError) as failure:
                why = str(failure) or type(failure).__name__
            if time.monotonic() + pause_s > end:
                raise NoReply(why)
            await asyncio.sleep(pause_s)
            pause_s = min(_LONGEST_PAUSE_S, 2 * pause_s)

    async def _exchange(self, line: str) -> str:
        """The reply of this connection to a line."""
        async with self._lock:
            try:
                if self._writer is None:
                    self._reader, self._writer = await asyncio.open_unix_connection(
                        str(self.path), limit=_MAX_REPLY_BYTES)
                assert self._reader is not None
                self._writer.write(line.encode("ascii") + b"\n")
                await self._writer.drain()
                reply = await self._reader.readuntil(b"\n")
            except BaseException:
                # A reply that comes later must not be taken for that of another line.
                self.leave()
                raise
            return reply[:-1].decode("ascii")

    def leave(self) -> None:
        """Leaves the socket."""
        if self._writer is not None:
            self._writer.close()
        self._reader = self._writer = None

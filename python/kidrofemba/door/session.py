"""One process of a path server, with a pipe each way for each client."""
from __future__ import annotations

import asyncio
import os
import subprocess
from collections.abc import Sequence
from contextlib import ExitStack
from dataclasses import dataclass, field
from select import PIPE_BUF
from typing import BinaryIO

_MAX_REPLY_BYTES = 2 ** 26
_ORDERLY_S = 10.0


@dataclass
class Pipes:
    """Where one client's lines go, and where its replies come from."""

    to: int
    back: asyncio.StreamReader
    transport: asyncio.BaseTransport
    lines: int = 0
    has_room: asyncio.Event = field(default_factory=asyncio.Event)

    async def hand(self, line: bytes) -> None:
        """Writes a line. Its last bytes are written by one call that a pipe takes whole or not at
        all, so that the front of a line never looks like a whole one, whoever is killed."""
        for part in (line[:-PIPE_BUF], line[-PIPE_BUF:]):
            while part:
                try:
                    part = part[os.write(self.to, part):]
                except BlockingIOError:
                    await self._wait_for_room()

    async def _wait_for_room(self) -> None:
        """Waits until the pipe takes bytes again, or is closed."""
        loop, handle = asyncio.get_running_loop(), self.to
        self.has_room.clear()
        loop.add_writer(handle, self.has_room.set)
        await self.has_room.wait()
        if self.to == handle:
            loop.remove_writer(handle)

    def close_input(self) -> None:
        """Ends the client's input."""
        if self.to >= 0:
            asyncio.get_running_loop().remove_writer(self.to)
            os.close(self.to)
            self.to = -1
            self.has_room.set()


@dataclass
class Session:
    """One process of the server. `leaving` is set once it is to be ended, by its end or in order;
    `ended` tells its exit status."""

    process: subprocess.Popen[bytes]
    pipes: dict[str, Pipes]
    ended: asyncio.Future[int]
    leaving: asyncio.Event = field(default_factory=asyncio.Event)
    ends_in_order: bool = False
    open_lines: int = 0
    idle: asyncio.Event = field(default_factory=asyncio.Event)

    async def exchange(self, client: str, line: bytes, patience_s: float | None) -> bytes | None:
        """The reply to a line, or None where this process gave none."""
        pipes = self.pipes[client]
        self.open_lines += 1
        self.idle.clear()
        pipes.lines += 1
        try:
            async with asyncio.timeout(patience_s):
                await pipes.hand(line)
                return await pipes.back.readuntil(b"\n")
        except (OSError, TimeoutError, asyncio.IncompleteReadError, asyncio.LimitOverrunError):
            return None
        finally:
            self.open_lines -= 1
            if self.open_lines == 0:
                self.idle.set()

    async def end(self) -> int:
        """Ends the process in order: open lines are replied to, and then its inputs end. It is
        killed where that takes long. Answers its exit status."""
        try:
            async with asyncio.timeout(_ORDERLY_S):
                if self.open_lines:
                    await self.idle.wait()
                for pipes in self.pipes.values():
                    pipes.close_input()
                await asyncio.shield(self.ended)
        except TimeoutError:
            pass  # so it is killed
        return await self.kill()

    async def kill(self) -> int:
        """Kills the process where it stands, and answers the exit status. What it acknowledged
        stands on the disk at any moment."""
        self.process.kill()
        status = await asyncio.shield(self.ended)
        for pipes in self.pipes.values():
            pipes.close_input()
            pipes.transport.close()
        return status


def _end_of(process: subprocess.Popen[bytes]) -> asyncio.Future[int]:
    """The exit status of a process, once it ends; no thread waits for it."""
    loop = asyncio.get_running_loop()
    ended: asyncio.Future[int] = loop.create_future()
    handle = os.pidfd_open(process.pid)

    def reap() -> None:
        loop.remove_reader(handle)
        os.close(handle)
        ended.set_result(process.wait())

    try:
        loop.add_reader(handle, reap)
    except BaseException:
        os.close(handle)
        raise
    return ended


def _launched(words: Sequence[str], given: Sequence[int]) -> subprocess.Popen[bytes]:
    # A group of its own: an interrupt at a terminal is the door's to act on.
    return subprocess.Popen(words, pass_fds=given, stdin=subprocess.DEVNULL, process_group=0)


@dataclass
class _Ends:
    """The ends of all clients' pipes: `ours` are kept, `theirs` are the server's."""

    ours: dict[str, tuple[int, BinaryIO]] = field(default_factory=dict)
    theirs: list[int] = field(default_factory=list)
    options: list[str] = field(default_factory=list)

    def add(self, client: str, undo: ExitStack, given: ExitStack) -> None:
        """Adds a client's pipes; `undo` closes our ends, `given` those of the server."""
        lines_out, lines_in = os.pipe()
        given.callback(os.close, lines_out)
        undo.callback(os.close, lines_in)
        replies_out, replies_in = os.pipe()
        given.callback(os.close, replies_in)
        replies = undo.enter_context(os.fdopen(replies_out, "rb", 0))
        os.set_blocking(lines_in, False)
        self.ours[client] = lines_in, replies
        self.theirs += [lines_out, replies_in]
        self.options += ["--client", f"{client}=/dev/fd/{lines_out}:/dev/fd/{replies_in}"]


async def open_session(words: Sequence[str], clients: Sequence[str]) -> Session:
    """Starts a process with pipes for these clients. OSError or MemoryError where the machine can't
    have one more; whatever was opened until then is closed again."""
    undo = ExitStack()
    try:
        return await _open_session(words, clients, undo)
    except BaseException:
        undo.close()
        raise


async def _open_session(words: Sequence[str], clients: Sequence[str], undo: ExitStack) -> Session:
    ends, given = _Ends(), ExitStack()
    try:
        for client in clients:
            ends.add(client, undo, given)
        process = _launched([*words, *ends.options], ends.theirs)
    finally:
        given.close()
    try:
        ended = _end_of(process)
    except BaseException:
        process.kill()
        process.wait()
        raise
    undo.callback(process.kill)
    pipes = {client: await _pipes_of(lines_in, replies, undo)
             for client, (lines_in, replies) in ends.ours.items()}
    return Session(process, pipes, ended)


async def _pipes_of(lines_in: int, replies: BinaryIO, undo: ExitStack) -> Pipes:
    """The door's ends of a client's pipes."""
    back = asyncio.StreamReader(limit=_MAX_REPLY_BYTES)
    transport, _ = await asyncio.get_running_loop().connect_read_pipe(
        lambda: asyncio.StreamReaderProtocol(back), replies)
    undo.callback(transport.close)
    return Pipes(lines_in, back, transport)

"""The door's process: a socket for each client before one server, and a status file."""
from __future__ import annotations

import asyncio
import signal
import sys
import time
from pathlib import Path

from kidrofemba.common.companion import Refused, run_companion, write_whole
from kidrofemba.common.program_names import OPEN_STATUS, faults_of
from kidrofemba.door.connections import Connections, Service
from kidrofemba.door.counts import Counts, Moment, text_of
from kidrofemba.door.limits import handles_wanted, take_handles
from kidrofemba.door.sockets import listen
from kidrofemba.door.words import Plan, plan_of
from kidrofemba.journal.journal_file import base_digest_of
from kidrofemba.door.server_process import BROKEN, SET_BACK, Server, ServerEnded

NAME = "door"
_GRACE_S = 10.0


class Door:
    """The sockets of all clients before one server."""

    def __init__(self, plan: Plan):
        self.plan = plan
        self.counts = Counts()
        self.base = ""
        self.server = Server(plan.server, list(plan.rights), _tell, plan.lines, plan.reply_s,
                             self._learn_base)
        self.clients: dict[str, Connections] = {}
        self.accepting: list[asyncio.Task[None]] = []
        self.ended = asyncio.Event()
        self.has_fault = False
        self.status_fault = ""

    async def run(self) -> int:
        """Serves until SIGTERM or SIGINT, or until the server starts no more; its exit status."""
        for number in (signal.SIGTERM, signal.SIGINT):
            asyncio.get_running_loop().add_signal_handler(number, self._end)
        self.server.over.add_done_callback(lambda _: self.ended.set())
        try:
            await self.server.start()
            self._open()
            await self._write_statuses()
        except ServerEnded:
            pass  # `over` tells the status
        finally:
            await self._close()
        status = self.server.over.result()
        if status == SET_BACK:
            _tell("it ends: what to do stands in docs/OPERATING.md, at a damaged journal")
        elif status:
            _tell(f"server: it ends with {status} whenever it is started")
        if status == OPEN_STATUS:
            for fault in faults_of("serve", self.plan.server):
                _tell(fault)
        if self.has_fault:
            return BROKEN
        return status if status >= 0 else 128 - status

    def _end(self) -> None:
        """Ends the door in order."""
        self.ended.set()
        if not self.clients:
            self.server.give_up()

    def _learn_base(self) -> None:
        """Learns which base file the journal belongs to: another one may be there since."""
        self.base = base_digest_of(self.plan.journal).hex()

    def _open(self) -> None:
        """Opens the sockets of all clients."""
        service = Service(self.server, lambda: self.base, self.counts, _tell, self.plan.patience_s,
                          self.plan.connections)
        for name, rights in self.plan.rights.items():
            listener = listen(self._path(name), self.plan.owners[name])
            self.clients[name] = Connections(service, rights, listener)
            task = asyncio.create_task(self.clients[name].accept())
            task.add_done_callback(self._accepts_no_more)
            self.accepting.append(task)

    def _accepts_no_more(self, task: asyncio.Task[None]) -> None:
        """Ends the door where a client's connections are accepted no more by a fault."""
        if not task.cancelled() and task.exception() is not None:
            _tell(f"a fault of the door: {task.exception()!r}")
            self.has_fault = True
            self.ended.set()

    async def _close(self) -> None:
        """Ends all connections, each once its open line is replied to, then the server."""
        for task in self.accepting:
            task.cancel()
        for client in self.clients.values():
            client.end()
        standing = [here.task for client in self.clients.values() for here in client.standing
                    if here.task is not None]
        if standing:
            await asyncio.wait(standing, timeout=_GRACE_S)
        await self.server.stop()
        if self.clients:
            for name in self.plan.rights:
                self._path(name).unlink(missing_ok=True)
            self._write_status()
            if self.server.over.result() == 0 and self.plan.status.is_file():
                self.plan.status.unlink()  # nobody wakes for a door that was told to end

    def _path(self, client: str) -> Path:
        return self.plan.folder / f"{client}.sock"

    async def _write_statuses(self) -> None:
        """Writes the status file each second until the door ends."""
        while not self.ended.is_set():
            self._write_status()
            try:
                await asyncio.wait_for(self.ended.wait(), 1)
            except TimeoutError:
                pass  # a second is over

    def _write_status(self) -> None:
        """Writes the status file whole; where that fails, it is told once."""
        moment = Moment(time.time(), self.server.is_up, self.server.starts, self.server.front,
                        {name: len(client.standing) for name, client in self.clients.items()},
                        self.plan.journal, self.plan.journal_limit)
        wrong = ""
        try:
            write_whole(self.plan.status, text_of(self.counts, moment), is_synced=False)
        except (OSError, Refused) as failure:
            wrong = f"{self.plan.status}: {failure}"
        if wrong and wrong != self.status_fault:
            _tell(wrong)
        self.status_fault = wrong


def _tell(text: str) -> None:
    print(f"{NAME}: {text}", file=sys.stderr, flush=True)


async def _run(plan: Plan) -> int:
    take_handles(handles_wanted(len(plan.rights), plan.connections))
    plan.folder.mkdir(parents=True, exist_ok=True)
    return await Door(plan).run()


def main(words: list[str]) -> int:
    """Reads the words, and serves; the exit status."""
    return run_companion(NAME, lambda: asyncio.run(_run(plan_of(words))))

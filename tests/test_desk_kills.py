#!/usr/bin/env python3
"""Kills the desk, the door and the server at drawn moments while tenants buy, look and cancel; then
the store, the journal and what the tenants were told must agree, and nothing is bought twice.

    PYTHONPATH=python python3 -m tests.test_desk_kills --program crates/stdcm/out/stdcm \\
        --kills 300 --tenants 50
"""
from __future__ import annotations

import argparse
import http.client
import os
import random
import signal
import sqlite3
import subprocess
import sys
import threading
import time
from collections import Counter
from dataclasses import dataclass, field
from pathlib import Path
from typing import Any

from kidrofemba.desk.store import PER_TENANT, Store
from kidrofemba.journal.journal_file import Entry, read_journal
from tests.desk_world import (WEB, WORDS, Caller, DeskWorld, Desks, lost_packages, moment,
                              path_wanted)
from tests.door_world import LONG_S, PROGRAM, Door, run_cases, wait_until, want

_ROLLS = ("desk", "door", "server")


@dataclass
class Told:
    """What one tenant was told: the path of each key, and which of them are given back."""

    caller: Caller
    tenant: int
    paths: dict[str, str] = field(default_factory=dict)
    refused: set[str] = field(default_factory=set)
    freed: set[str] = field(default_factory=set)
    twice: list[str] = field(default_factory=list)


class Buyer(threading.Thread):
    """A tenant that sends each request until it is answered, often twice, and cancels some."""

    def __init__(self, told: Told, draw: random.Random, ended: threading.Event):
        super().__init__(daemon=True)
        self.told, self.draw, self.ended = told, draw, ended
        self.tries = 0

    def run(self) -> None:
        count = 0
        while not self.ended.is_set():
            count += 1
            self._buy(f"key {count}", self.draw.randrange(0, 40 * 60))
            if self.told.paths and self.draw.random() < 0.4:
                key = self.draw.choice(sorted(self.told.paths))
                self._cancel(self.told.paths[key])
            time.sleep(self.draw.random() * 0.2)

    def _sent(self, method: str, path: str, body: Any = None) -> Any:
        """The answer to a call that is sent until the desk settles it."""
        while True:
            self.tries += 1
            try:
                answer = self.told.caller.call(method, path, body)
                if answer.status not in (429, 500, 503):
                    return answer
            except (OSError, http.client.HTTPException):
                pass
            time.sleep(0.1 + 0.2 * self.draw.random())

    def _buy(self, key: str, minute: int) -> None:
        day, minute = divmod(minute, 1440)
        begin = moment(f"{minute // 60:02}:{minute % 60:02}", day + 1)
        body = path_wanted("00:00", "00:00", key=key)
        body["from"]["depart"] = {"at": begin, "minutes_after": 30}
        for _ in range(1 if self.draw.random() < 0.5 else 2):
            answer = self._sent("POST", "/v1/requests", body)
            if answer.status in (200, 201):
                path = answer.json["id"]
                if self.told.paths.setdefault(key, path) != path:
                    self.told.twice.append(f"{key}: {self.told.paths[key]} and {path}")
            else:
                want(answer.status == 409, f"{answer.status} {answer.text[:300]}")
                self.told.refused.add(key)

    def _cancel(self, path: str) -> None:
        answer = self._sent("DELETE", f"/v1/paths/{path}")
        want(answer.status == 204, f"{answer.status} {answer.text[:300]}")
        self.told.freed.add(path)


class Killer:
    """Kills one of the three, and sees that it comes again."""

    def __init__(self, desk: DeskWorld, draw: random.Random):
        self.desk, self.draw = desk, draw
        self.kills: Counter[str] = Counter()

    def kill(self) -> None:
        roll = self.draw.choice(_ROLLS)
        if roll == "server":
            if not self.desk.door.kill_server():
                return
        elif roll == "desk":
            self.desk.end(signal.SIGKILL)
            self.desk.start()
        else:
            self._kill_door()
        self.kills[roll] += 1

    def _kill_door(self) -> None:
        door, world = self.desk.door, self.desk.world
        os.kill(door.process.pid, signal.SIGKILL)
        door.process.wait(LONG_S)
        with open(world.folder / "door.log", "ab") as log:
            while True:
                process = subprocess.Popen(
                    world.door_words([WEB], "--allow", f"{WEB}={WORDS}"), stderr=log)
                door.process = process
                try:
                    wait_until(lambda: process.poll() is not None or Door(world, process).server()
                               != 0 and world.socket_of(WEB).exists(), "the door opens")
                except OSError:
                    pass
                if process.poll() is None:
                    return
                time.sleep(0.2)


def agree(desk: DeskWorld, all_told: list[Told]) -> None:
    """Fails the case where what tenants were told, the store and the journal differ."""
    entries = read_journal(desk.world.journal).entries
    by_number: dict[int, Entry] = {}
    for entry in entries:
        if entry.frees is None:
            want(entry.number not in by_number, f"number {entry.number} stands twice")
            by_number[entry.number] = entry
    with sqlite3.connect(desk.store) as rows:
        stored = {number: (key, state) for number, key, state in rows.execute(
            "SELECT number, key, state FROM lines WHERE mode='sell'")}
    for number, entry in by_number.items():
        want(number in stored, f"the store lacks {number}")
        state = "stands" if entry.is_live else "freed"
        want(stored[number][1] == state, f"{number} is {stored[number][1]}, in truth {state}")
    for number, (_, state) in stored.items():
        want(state != "open", f"{number} is still open")
        want((state in ("stands", "freed")) == (number in by_number), f"{number} is {state}")
    for told in all_told:
        want(not told.twice, f"bought twice: {told.twice}")
        for key, path in told.paths.items():
            tenant, count = map(int, path.split("-"))
            number = tenant * PER_TENANT + count
            want(tenant == told.tenant and number in by_number, f"{path} was told and is lost")
            want(stored[number][0] == key, f"{path} is another key's")
            want(by_number[number].is_live == (path not in told.freed), f"{path} freed or not")
        own = [one for one in by_number if one // PER_TENANT == told.tenant]
        want(len(own) == len(told.paths), f"tenant {told.tenant}: {len(own)} paths in the journal, "
                                          f"{len(told.paths)} told")


def kills_lose_nothing_and_buy_nothing_twice(desks: Desks) -> None:
    """The journal's owner is the desk alone; its numbers tell whose a path is."""
    desk, draw = desks.of("--patience", "5"), random.Random(OPTIONS.seed)
    store, all_told = Store(desk.store), []
    for at in range(OPTIONS.tenants):
        tenant = store.add_tenant(f"tenant of kills {at}", 100_000, 1_000_000)
        all_told.append(Told(Caller(desk.port, store.add_token(tenant, "operator", "test")),
                             tenant))
    store.close()
    ended, killer = threading.Event(), Killer(desk, draw)
    buyers = [Buyer(told, random.Random(draw.random()), ended) for told in all_told]
    for buyer in buyers:
        buyer.start()
    begun = time.monotonic()
    while sum(killer.kills.values()) < OPTIONS.kills and \
            time.monotonic() - begun < OPTIONS.seconds:
        time.sleep(draw.random() * OPTIONS.pause)
        killer.kill()
    ended.set()
    for buyer in buyers:
        buyer.join(LONG_S)
        want(not buyer.is_alive(), "a tenant waits for ever")
    wait_until(lambda: not _open_lines(desk), "all lines are settled")
    agree(desk, all_told)
    entries = read_journal(desk.world.journal).entries
    print(f"{dict(killer.kills)} kills, {len(all_told)} tenants, "
          f"{sum(buyer.tries for buyer in buyers)} calls, {len(entries)} entries, "
          f"{sum(len(told.paths) for told in all_told)} paths told, "
          f"{sum(len(told.freed) for told in all_told)} given back, "
          f"{time.monotonic() - begun:.0f} s", file=sys.stderr)
    want(sum(len(told.paths) for told in all_told) > 0, "nothing was bought")


def _open_lines(desk: DeskWorld) -> int:
    with sqlite3.connect(desk.store) as rows:
        count: int = rows.execute("SELECT count(*) FROM lines WHERE state='open' OR"
                                  " (state='stands' AND free_number IS NOT NULL)").fetchone()[0]
        return count


OPTIONS = argparse.Namespace(kills=6, tenants=6, seed=1, pause=1.0, seconds=240.0)


def main() -> int:
    parser = argparse.ArgumentParser(description=__doc__)
    parser.add_argument("--program", type=Path, default=PROGRAM)
    for name, value in vars(OPTIONS).items():
        parser.add_argument(f"--{name}", type=type(value), default=value)
    options = parser.parse_args(namespace=OPTIONS)
    lost = lost_packages()
    if lost is not None:
        print(f"the desk is not tried: {lost} is not installed\n0 passed, 0 failed")
        return 0
    with Desks(options.program.absolute()) as desks:
        return run_cases([kills_lose_nothing_and_buy_nothing_twice], desks)


if __name__ == "__main__":
    sys.exit(main())

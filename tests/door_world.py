"""A door before a server over a journal of its own, for tests: real processes, and sockets of this
machine."""
from __future__ import annotations

import json
import os
import signal
import socket
import subprocess
import sys
import tempfile
import time
from collections.abc import Callable, Iterator, Sequence
from contextlib import contextmanager
from dataclasses import dataclass, field
from pathlib import Path
from typing import Any

HERE = Path(__file__).resolve().parent
EXAMPLES = HERE.parent / "examples"
PROGRAM = HERE.parent / "crates/stdcm/out/stdcm"
KIDROFEMBA = HERE.parent / "kidrofemba"


LONG_S = 120.0
"""How long something may take on a machine that is busy, before a case fails."""


class Failed(Exception):
    """What a case found to be otherwise than it must be."""


def want(is_so: bool, what: str) -> None:
    """Fails the case where something is not so."""
    if not is_so:
        raise Failed(what)


def wait_until(is_so: Callable[[], bool], what: str, seconds: float = LONG_S) -> None:
    """Waits until something is so; fails the case where it does not come to be."""
    end = time.monotonic() + seconds
    while not is_so():
        want(time.monotonic() < end, f"not within {seconds} s: {what}")
        time.sleep(0.01)


@dataclass
class World:
    """The files of a server and the folder of its door."""

    program: Path
    folder: Path
    network: Path = EXAMPLES / "line6.json"
    trains: Path = EXAMPLES / "trains.json"
    base_object: dict[str, Any] = field(default_factory=lambda: {
        "tick_s": 10, "setting": 1, "release": 1, "horizon": 17280,
        "journal_bytes": 268435456, "trains": []})

    def __post_init__(self) -> None:
        self.base.write_text(json.dumps(self.base_object))

    @property
    def base(self) -> Path:
        return self.folder / "base.json"

    @property
    def journal(self) -> Path:
        return self.folder / "journal"

    @property
    def sockets(self) -> Path:
        return self.folder / "sockets"

    def files(self) -> list[str]:
        return ["--network", str(self.network), "--base", str(self.base),
                "--journal", str(self.journal)]

    def begin(self) -> None:
        """Begins the journal."""
        subprocess.run([str(self.program), "init", *self.files()], check=True)

    def serve_words(self) -> list[str]:
        return [str(self.program), "serve", *self.files(), "--trains", str(self.trains)]

    def door_words(self, clients: Sequence[str], *options: str) -> list[str]:
        named = [word for name in clients for word in ("--client", name)]
        return [sys.executable, str(KIDROFEMBA), "door", "--folder", str(self.sockets), *named,
                *options, "--", *self.serve_words()]

    def socket_of(self, client: str) -> Path:
        return self.sockets / f"{client}.sock"

    def status(self) -> dict[str, float]:
        """The values of the status file by their names and labels."""
        rows = (self.sockets / "status.prom").read_text().splitlines()
        return {name: float(value) for name, value in
                (row.rsplit(" ", 1) for row in rows if not row.startswith("#"))}

    @contextmanager
    def door(self, clients: Sequence[str], *options: str) -> Iterator[Door]:
        """A door that stands; it is ended behind the case."""
        with open(self.folder / "door.log", "ab") as log:
            process = subprocess.Popen(self.door_words(clients, *options), stderr=log)
        door = Door(self, process)
        try:
            wait_until(lambda: process.poll() is not None or self.socket_of(clients[-1]).exists(),
                       "the door opens")
            want(process.poll() is None, f"the door ended at once: {self.log()}")
            yield door
        finally:
            door.end()

    def log(self) -> str:
        return (self.folder / "door.log").read_text()


@dataclass
class Door:
    """The process of a door, and the server that it keeps."""

    world: World
    process: subprocess.Popen[bytes]

    def server(self) -> int:
        """The id of the server's process, 0 where there is none at the moment."""
        at = f"/proc/{self.process.pid}/task/{self.process.pid}/children"
        told = Path(at).read_text().split() if Path(at).exists() else []
        return int(told[0]) if told else 0

    def kill_server(self) -> bool:
        """Kills the server that stands; whether there was one."""
        server = self.server()
        try:
            if server:
                os.kill(server, signal.SIGKILL)
        except ProcessLookupError:
            return False
        return server != 0

    def memory_mb(self) -> float:
        """The door's memory at its peak."""
        rows = Path(f"/proc/{self.process.pid}/status").read_text().splitlines()
        return next(int(row.split()[1]) / 1024 for row in rows if row.startswith("VmHWM:"))

    def end(self) -> int:
        """Ends the door in order, and answers its status."""
        if self.process.poll() is None:
            self.process.send_signal(signal.SIGTERM)
        try:
            return self.process.wait(LONG_S)
        except subprocess.TimeoutExpired:
            self.process.kill()
            raise Failed("the door does not end") from None


class Talk:
    """A connection to a client's socket."""

    def __init__(self, path: Path, seconds: float = LONG_S):
        end = time.monotonic() + seconds
        while (stream := _connected(path, seconds)) is None:
            want(time.monotonic() < end, f"not within {seconds} s: {path} has room for one more")
            time.sleep(0.01)
        self.stream = stream
        self.replies = self.stream.makefile("rb")

    def say(self, *lines: str) -> list[str]:
        """The replies to these lines."""
        self.stream.sendall("".join(f"{line}\n" for line in lines).encode())
        return [self.replies.readline().decode().rstrip("\n") for _ in lines]

    def close(self) -> None:
        self.stream.close()

    def __enter__(self) -> Talk:
        return self

    def __exit__(self, *_: object) -> None:
        self.close()


def _connected(path: Path, seconds: float) -> socket.socket | None:
    """A connection, None where too many wait at the socket."""
    stream = socket.socket(socket.AF_UNIX)
    stream.settimeout(seconds)
    try:
        stream.connect(str(path))
    except BlockingIOError:
        stream.close()
        return None
    except OSError:
        stream.close()
        raise
    return stream


@contextmanager
def new_world(program: Path, folder: Path | None = None, **given: Any) -> Iterator[World]:
    """A world in a folder of its own, with a journal without entries."""
    with tempfile.TemporaryDirectory(dir=folder) as name:
        world = World(program, Path(name), **given)
        world.begin()
        yield world


def in_memory() -> Path | None:
    """Where files need no disk, if there is such a place: what is killed here are processes."""
    shared = Path("/dev/shm")
    return shared if os.access(shared, os.W_OK) else None


def run_cases(cases: Sequence[Callable[[Path], None]], program: Path) -> int:
    """Runs cases, prints a line for each that fails, and answers the exit status."""
    failed = 0
    for case in cases:
        begun = time.monotonic()
        try:
            case(program)
        except (Failed, OSError, subprocess.SubprocessError, ValueError, KeyError) as wrong:
            failed += 1
            print(f"FAILED {case.__name__}: {wrong}", flush=True)
        print(f"{case.__name__}: {time.monotonic() - begun:.1f} s", file=sys.stderr)
    print(f"{len(cases) - failed} passed, {failed} failed")
    return 1 if failed else 0

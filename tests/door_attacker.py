"""A client that misbehaves at one socket of a door for a while, for tests.

    door_attacker.py KIND SOCKET SECONDS

It prints how many connections it made.
"""
from __future__ import annotations

import socket
import sys
import time
from collections.abc import Callable
from pathlib import Path

_HELD = 100


def _connected(path: Path) -> socket.socket:
    stream = socket.socket(socket.AF_UNIX)
    stream.settimeout(1)
    try:
        stream.connect(str(path))
    except OSError:
        stream.close()
        raise
    return stream


def _sent_and_left(path: Path, data: bytes) -> None:
    with _connected(path) as stream:
        if data:
            stream.sendall(data)


def line_and_leave(path: Path, _: float) -> None:
    _sent_and_left(path, b"front\n")


def lines_and_leave(path: Path, _: float) -> None:
    _sent_and_left(path, b"front\n" * 200)


def connect_and_leave(path: Path, _: float) -> None:
    _sent_and_left(path, b"")


def half_line_and_leave(path: Path, _: float) -> None:
    _sent_and_left(path, b"hold 1 " + b"9" * 60_000)


def long_line(path: Path, _: float) -> None:
    _sent_and_left(path, b"x" * 100_000)


_held: list[socket.socket] = []


def stay(path: Path, _: float) -> None:
    """Keeps its connections, of which each has half a line."""
    stream = _connected(path)
    stream.sendall(b"fro")
    _held.append(stream)
    if len(_held) > _HELD:
        _held.pop(0).close()


def flood(path: Path, until: float) -> None:
    """Sends lines without a pause, and reads."""
    with _connected(path) as stream:
        _flood(stream, b"front\n", until)


def flood_of_closed_words(path: Path, until: float) -> None:
    """Sends lines that the door refuses itself without a pause, and reads."""
    with _connected(path) as stream:
        _flood(stream, b"hold\n", until)


def _flood(stream: socket.socket, line: bytes, until: float) -> None:
    stream.setblocking(False)
    lines = line * 1_000
    while time.monotonic() < until:
        try:
            stream.send(lines)
        except BlockingIOError:
            time.sleep(0.0005)
        try:
            if not stream.recv(65_536):
                return
        except BlockingIOError:
            time.sleep(0.0005)


def deaf(path: Path, until: float) -> None:
    """Sends lines without a pause, and never reads."""
    with _connected(path) as stream:
        while time.monotonic() < until:
            stream.sendall(b"front\n" * 1_000)


KINDS: dict[str, Callable[[Path, float], None]] = {
    work.__name__: work for work in (
        line_and_leave, lines_and_leave, connect_and_leave, half_line_and_leave, long_line, stay,
        flood, flood_of_closed_words, deaf)}


def main() -> None:
    kind, path, until = KINDS[sys.argv[1]], Path(sys.argv[2]), time.monotonic() + float(sys.argv[3])
    made = 0
    while time.monotonic() < until:
        try:
            kind(path, until)
            made += 1
        except OSError:
            time.sleep(0.001)
    print(made)


if __name__ == "__main__":
    main()

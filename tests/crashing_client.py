"""A client for tests that may be killed at any moment: it sends its lines, a few ahead of their
replies, notes each reply before it goes on, and begins again behind the last one that it noted.

    crashing_client.py SOCKET NOTES INDEX COUNT
"""
from __future__ import annotations

import os
import re
import socket
import sys
import time
from pathlib import Path

AHEAD = 4
ZONES = 6


def span_of(index: int, number: int) -> tuple[int, int, int]:
    """The zone and the ticks of a hold: each number of each client has its own, below tick 0 or
    behind the horizon."""
    begin = (-95_000, -35_000, 25_000)[index // ZONES] + 2 * number
    return index % ZONES, begin, begin + 2


def line_of(index: int, number: int, replies: dict[int, str]) -> str:
    """The line of this number: of ten one asks for a path, one clashes with a hold of the client,
    one asks for the front, one frees, and the others hold."""
    kind = number % 10
    if kind == 2:
        departs = (number * 7919 + index * 1009) % 16_000
        return f"ask {number} F1 W E {departs} {departs} 0 17280 0"
    if kind == 7:
        return "front"
    if kind == 9:
        return f"free {number} {entry_of(replies[number - 9])}"
    zone, begin, end = span_of(index, number - 1 if kind == 4 else number)
    return f"hold {number} {zone} {begin} {end}"


def entry_of(reply: str) -> int:
    """The entry that a reply names."""
    found = re.search(r" entry ([0-9]+)", reply)
    if found is None:
        raise ValueError(f"no entry in {reply!r}")
    return int(found[1])


def noted(notes: Path) -> dict[int, str]:
    """The replies that were noted, by number; a row that is not whole was not."""
    rows = notes.read_text().split("\n")[:-1] if notes.exists() else []
    return {int(number): reply for number, reply in (row.split(" ", 1) for row in rows)}


def talk(path: str, index: int, count: int, replies: dict[int, str], out: int) -> None:
    """Sends all lines that have no reply yet, over one connection."""
    with socket.socket(socket.AF_UNIX) as stream:
        stream.settimeout(120)
        stream.connect(path)
        back = stream.makefile("rb")
        sent = len(replies)
        while len(replies) < count:
            while sent < min(count, len(replies) + AHEAD):
                stream.sendall(f"{line_of(index, sent, replies)}\n".encode())
                sent += 1
            reply = back.readline().decode()
            if not reply.endswith("\n"):
                raise ConnectionError("the door is gone")
            number = len(replies)
            os.write(out, f"{number} {reply}".encode())
            replies[number] = reply.rstrip("\n")


def main() -> None:
    path, notes, index, count = sys.argv[1], Path(sys.argv[2]), int(sys.argv[3]), int(sys.argv[4])
    replies = noted(notes)
    whole = "".join(f"{number} {reply}\n" for number, reply in replies.items())
    if notes.exists():
        os.truncate(notes, len(whole.encode()))
    out = os.open(notes, os.O_WRONLY | os.O_CREAT | os.O_APPEND)
    while len(replies) < count:
        try:
            talk(path, index, count, replies, out)
        except OSError:
            time.sleep(0.05)


if __name__ == "__main__":
    main()

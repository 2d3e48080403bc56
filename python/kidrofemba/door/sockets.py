"""Sockets of clients, by their names in a folder."""
from __future__ import annotations

import os
import socket
import stat
from dataclasses import dataclass
from pathlib import Path

from kidrofemba.common.companion import Refused


@dataclass(frozen=True)
class Owner:
    """Who owns a client's socket, and its file mode; -1 for whoever runs the door."""

    user: int = -1
    group: int = -1
    mode: int = 0o660


def listen(path: Path, owner: Owner) -> socket.socket:
    """A socket that listens at this name, which nobody else can use from the moment at which it is
    there.

    It gets its name once it listens, so that nobody who finds it there is turned away.
    """
    unnamed = path.with_name(f".{path.stem}")
    _clear(path)
    _clear(unnamed)
    listener = socket.socket(socket.AF_UNIX)
    mask = os.umask(0o177)
    try:
        listener.bind(str(unnamed))
        listener.listen()
        os.link(unnamed, path)
        unnamed.unlink()
    except OSError as wrong:
        listener.close()
        raise Refused(path, "", wrong.strerror or str(wrong)) from None
    finally:
        os.umask(mask)
    os.chown(path, owner.user, owner.group)
    os.chmod(path, owner.mode)
    return listener


def _clear(path: Path) -> None:
    """Removes a socket that a door left behind, and nothing else."""
    try:
        mode = path.lstat().st_mode
    except FileNotFoundError:
        return
    if not stat.S_ISSOCK(mode):
        raise Refused(path, "", "is there, and is no socket")
    with socket.socket(socket.AF_UNIX) as trial:
        try:
            trial.connect(str(path))
        except ConnectionRefusedError:
            path.unlink()
            return
    raise Refused(path, "", "another door listens here")

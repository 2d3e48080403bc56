"""What the companions have in common: refusals that name a file and a place, files written whole or
not at all, and names as lines and tables write them."""
from __future__ import annotations

import json
import os
import sys
import tempfile
from collections.abc import Callable
from pathlib import Path
from typing import Any, NoReturn
from urllib.parse import unquote_to_bytes

from kidrofemba.common.synced import sync_name


class Refused(Exception):
    """Bad input: which file, where in it (or nowhere in particular), and what is wrong."""

    def __init__(self, file: str | Path, place: str, wrong: str):
        super().__init__(": ".join(part for part in (str(file), place, wrong) if part))


def run_companion(name: str, work: Callable[[], int | None]) -> int:
    """Does a companion's work, and answers its exit status; a refusal is one line on standard error
    and status 2."""
    try:
        return work() or 0
    except Refused as refusal:
        print(f"{name}: {refusal}", file=sys.stderr)
    except OSError as failure:
        place = failure.filename if failure.filename is not None else "input or output"
        print(f"{name}: {place}: {failure.strerror or failure}", file=sys.stderr)
    return 2


def read_text(file: str | Path) -> str:
    """The text of a file, which must be UTF-8."""
    data = Path(file).read_bytes()
    try:
        return data.decode("utf-8")
    except UnicodeDecodeError as wrong:
        raise Refused(file, f"byte {wrong.start}", "is no UTF-8") from None


def read_json(file: str | Path) -> Any:
    """The value of a JSON file."""
    def no_number(word: str) -> NoReturn:
        raise Refused(file, "", f"no JSON: {word} is no number")

    try:
        return json.loads(read_text(file), parse_constant=no_number)
    except json.JSONDecodeError as wrong:
        raise Refused(file, f"line {wrong.lineno}", f"no JSON: {wrong.msg}") from None
    except RecursionError:
        raise Refused(file, "", "no JSON that can be read: it is nested too deeply") from None
    except ValueError as wrong:
        raise Refused(file, "", f"no JSON that can be read: {wrong}") from None


def write_whole(file: str | Path, text: str, is_synced: bool = True) -> None:
    """Writes a file beside its place and renames it there, so that nobody sees a half of it. What
    is there and is no plain file, such as a pipe, is written to as it is. Once it returns the file
    outlasts a loss of power, unless it need not be synced."""
    target = Path(file)
    if target.exists() and not target.is_file():
        target.write_text(text, encoding="utf-8")
        return
    try:
        handle, beside = tempfile.mkstemp(prefix=f".{target.name}.", dir=target.parent)
    except OSError as failure:
        raise Refused(file, "", failure.strerror or str(failure)) from None
    try:
        with os.fdopen(handle, "w", encoding="utf-8") as made:
            made.write(text)
            if is_synced:
                made.flush()
                os.fsync(made.fileno())
        os.chmod(beside, 0o666 & ~_mask())
        os.replace(beside, target)
    except BaseException:
        os.unlink(beside)
        raise
    if is_synced:
        sync_name(target)


def _mask() -> int:
    """The mask of permissions that new files of this process have."""
    mask = os.umask(0)
    os.umask(mask)
    return mask


def escaped(name: str) -> str:
    """A name as lines, replies and tables write it."""
    data = name.encode("utf-8", "surrogateescape")
    return "".join(chr(byte) if 33 <= byte <= 126 and byte != 37 else f"%{byte:02X}"
                   for byte in data)


def unescaped(word: str) -> str:
    """The name that a line, a reply or a table writes as this word."""
    return unquote_to_bytes(word).decode("utf-8", "surrogateescape")

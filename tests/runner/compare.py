"""Comparing what the program gave with what a scenario expects."""
from __future__ import annotations

import re
from typing import NoReturn

#: A reply that is expected: a text, a list of which one comes, or {"matches": REGULAR EXPRESSION}.
Expected = str | list | dict | None


class Difference(Exception):
    """The first difference of a scenario."""


def show(value: object) -> str:
    """One printable line, cut where it is long."""
    if value is None:
        return "nothing"
    if isinstance(value, bytes):
        value = value.decode("utf-8", "backslashreplace")
    text = f"'{value.encode('unicode_escape').decode()}'" if isinstance(value, str) else repr(value)
    return text if len(text) <= 240 else f"{text[:200]}... ({len(text)} characters)"


def differ(what: str, expected: object, got: object) -> NoReturn:
    raise Difference(f"{what}: expected {show(expected)}, got {show(got)}")


def same(what: str, expected: object, got: object) -> None:
    if expected != got:
        differ(what, expected, got)


def fits(expected: Expected, line: str) -> bool:
    """Whether a line is one that is expected."""
    if isinstance(expected, str):
        return expected == line
    if isinstance(expected, list):
        return any(fits(one, line) for one in expected)
    return expected is not None and re.fullmatch(expected["matches"], line) is not None


def same_line(what: str, expected: Expected, line: str) -> None:
    if not fits(expected, line):
        differ(what, expected, line)


def same_lines(what: str, expected: list, got: bytes) -> None:
    """Each expected line in order, each ended by byte 10, and nothing more."""
    lines = got.decode("utf-8", "backslashreplace").split("\n")
    rest = lines.pop()
    for at, line in enumerate(expected):
        if at >= len(lines):
            differ(f"{what} line {at + 1}", line, rest + " (no line end)" if rest else None)
        same_line(f"{what} line {at + 1}", line, lines[at])
    if len(lines) > len(expected):
        differ(f"{what} line {len(expected) + 1}", None, lines[len(expected)])
    if rest:
        differ(f"{what} after its last line", None, rest)


def same_bytes(what: str, expected: bytes, got: bytes | None) -> None:
    """Byte by byte; the place of the first difference is named."""
    if got is None:
        differ(what, f"{len(expected)} bytes", "no file")
    if expected == got:
        return
    pairs = enumerate(zip(expected, got))
    at = next((i for i, (a, b) in pairs if a != b), min(len(expected), len(got)))
    differ(f"{what} at byte {at} (sizes {len(expected)} and {len(got)})",
           expected[at:at + 24].hex(" ") or None, got[at:at + 24].hex(" ") or None)


def same_text(what: str, expected: bytes, got: bytes | None) -> None:
    """As same_lines where both are texts, so that the line is named."""
    if got is None:
        differ(what, expected, "no file")
    if expected == got:
        return
    if expected.endswith(b"\n") or not expected:
        same_lines(what, expected.decode("utf-8", "backslashreplace").split("\n")[:-1], got)
    same_bytes(what, expected, got)

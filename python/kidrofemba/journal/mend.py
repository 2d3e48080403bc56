"""Mends a copy of a journal that a server refuses: the server must not run, and the journal itself
is not changed.

With --backup, a copy that was made of the same journal: the entries of the backup, and behind them
those of the journal. That mends all damage that lies within the backup, and loses nothing. With
--entries I: the first I entries of the journal alone; what stands behind is lost.

What it made is told, and must be tried by the server: `front` tells how many entries stand. A
damage behind the backup is refused with its place; one that looks like the journal's end is not
noticed, and shows in `front` alone.
"""
from __future__ import annotations

import argparse
import os
from pathlib import Path

from kidrofemba.common.companion import Refused, run_companion
from kidrofemba.common.synced import sync_name
from kidrofemba.journal.journal_file import beginning_of, joined

NAME = "mend"
EXAMPLE = """examples:
  kidrofemba mend --journal damaged --backup journal.backup --out mended
  kidrofemba mend --journal damaged --entries 17 --out mended
"""


def _write_new(file: Path, data: bytes) -> None:
    """Writes a file that is not there yet, for the eyes of its user alone; once it returns, the
    file and its name are on the disk."""
    try:
        handle = os.open(file, os.O_WRONLY | os.O_CREAT | os.O_EXCL, 0o600)
    except FileExistsError:
        raise Refused(file, "", "is there: name a new file") from None
    try:
        with os.fdopen(handle, "wb") as out:
            out.write(data)
            out.flush()
            os.fsync(out.fileno())
        sync_name(file)
    except BaseException:
        file.unlink()
        raise


def _parser() -> argparse.ArgumentParser:
    parser = argparse.ArgumentParser(
        prog=f"kidrofemba {NAME}", description=__doc__, epilog=EXAMPLE, allow_abbrev=False,
        formatter_class=argparse.RawDescriptionHelpFormatter)
    parser.add_argument("--journal", type=Path, required=True, help="a copy of the journal")
    way = parser.add_mutually_exclusive_group(required=True)
    way.add_argument("--backup", type=Path, help="a backup of the same journal")
    way.add_argument("--entries", type=int, metavar="I", help="how many entries are kept")
    parser.add_argument("--out", type=Path, required=True, help="is made: the mended journal")
    return parser


def _mend(options: argparse.Namespace) -> int:
    """Mends the copy."""
    if options.backup is None:
        if options.entries < 0:
            raise Refused("words", "--entries", "is less than 0")
        _write_new(options.out, beginning_of(options.journal, options.entries))
        print(f"front {options.entries}")
        return 0
    made = joined(options.backup, options.journal)
    _write_new(options.out, made.data)
    print(f"front {made.front}, {made.backup} of them of the backup, where {made.mended} bytes "
          "were others")
    return 0


def main(words: list[str]) -> int:
    """Mends the copy that the words name; the exit status."""
    options = _parser().parse_args(words)
    return run_companion(NAME, lambda: _mend(options))

"""Tries that a journal which is only read is opened so, with real processes over real files.

`stairs`, `capacity` and `check` read their journal, `carry` and `init` their old one. None of them
needs the right to write it or makes one: a name that is mistyped is refused as `open: NAME`, and
leaves no file. Where this runs as root, what it starts has no right but that of the files' modes.

    PYTHONPATH=python python3 -m tests.test_only_read --program crates/stdcm/out/stdcm
"""
from __future__ import annotations

import argparse
import ctypes
import os
import subprocess
import sys
from collections.abc import Callable
from pathlib import Path

from tests.runner.calls import Ended, Program
from tests.test_lock import (
    EXAMPLES, GRANTED, LONG, PROGRAM, Site, fault_of, lengthen, must, stopped_at_the_journal,
)

#: What each command that reads a journal is given behind its files.
READING = {"stairs": ("--entry", "0", "--out", "stdout"),
           "capacity": ("--first", "0", "--last", "2", "--from", "0", "--to", "1000",
                        "--out", "stdout"),
           "check": ("--proof", str(EXAMPLES / "refusal.proof"))}
#: What each command that begins a journal from an old one is given behind its files.
MOVING = {"init": ("--from", "old"),
          "carry": ("--from", "old", "--from-base", str(EXAMPLES / "base.json"))}
#: `prctl` drops a right from those that a program of root may have, and the two rights that go past
#: the modes of files.
PR_CAPBSET_DROP, PAST_MODES = 24, (1, 2)


def drop_rights() -> None:
    """Takes the rights of root that go past the modes of files, before a program is started."""
    if os.geteuid() == 0:
        library = ctypes.CDLL(None, use_errno=True)
        for right in PAST_MODES:
            if library.prctl(PR_CAPBSET_DROP, right, 0, 0, 0):
                raise OSError(ctypes.get_errno(), "a right is not dropped")


def call(site: Site, words: list[str]) -> Ended:
    """A call to its end, with no right but that of the files' modes."""
    done = subprocess.run(site.program.words(words), cwd=site.folder, stdin=subprocess.DEVNULL,
                          capture_output=True, timeout=site.program.limit, check=False,
                          preexec_fn=drop_rights)
    return Ended(done.returncode, done.stdout, done.stderr)


def words_of(site: Site, command: str, journal: str = "journal") -> list[str]:
    """The words of a command; those of `carry` name files as those of `init` do."""
    if command in READING:
        return site.words(command, *READING[command], journal=journal)
    return [command, *site.words("init", *MOVING[command], journal=journal)[1:]]


def must_not_open(ended: Ended, name: str) -> None:
    must((ended.status, ended.out, ended.report) == (7, b"", f"open: {name}\n".encode()),
         f"it ends with {ended}, not with open: {name}")


def make_old(site: Site, name: str) -> bytes:
    """A journal of one grant that nobody may write; its bytes."""
    site.begin(name)
    must(site.serve([GRANTED], journal=name).status == 0, "the first server fails")
    (site.folder / name).chmod(0o400)
    return site.bytes(name)


def a_missing_journal_is_told_and_not_made(site: Site) -> None:
    for command in READING:
        before = sorted(os.listdir(site.folder))
        must_not_open(call(site, words_of(site, command)), "journal")
        must(sorted(os.listdir(site.folder)) == before, f"{command} leaves a file")


def a_missing_old_journal_is_told_and_not_made(site: Site) -> None:
    for command in MOVING:
        must_not_open(call(site, words_of(site, command)), "old")
        must(not (site.folder / "old").exists(), f"{command} makes the old journal")
        must(site.bytes() == b"", f"{command} writes the new journal")


def what_is_no_plain_file_is_told_at_once(site: Site) -> None:
    os.mkfifo(site.folder / "pipe")
    (site.folder / "folder").mkdir()
    for command in READING:
        for name in ("pipe", "folder", "/dev/null"):
            must_not_open(call(site, words_of(site, command, name)), name)


def a_journal_that_nobody_may_write_is_read(site: Site) -> None:
    before = make_old(site, "journal")
    for command in READING:
        ended = call(site, words_of(site, command))
        must(ended.status == 0, f"{command} ends with {ended}")
    must(site.bytes() == before, "the journal was written to")
    ended = call(site, site.words("serve", "--client", "Z=stdin:stdout"))
    must_not_open(ended, "journal")


def an_old_journal_that_nobody_may_write_is_carried(site: Site) -> None:
    before = make_old(site, "old")
    ended = call(site, words_of(site, "carry"))
    must((ended.status, ended.report) == (0, b"carried 1 left 0\n"), f"carry ends with {ended}")
    must(site.bytes("old") == before, "the old journal was written to")
    must(call(site, words_of(site, "stairs")).status == 0, "the new journal has no grant")


def an_old_journal_is_held_alone(site: Site) -> None:
    """A server has the old journal, so that it is not carried or moved from."""
    site.begin("old")
    with site.server(journal="old") as first:
        for command in MOVING:
            must_not_open(call(site, words_of(site, command)), "old")
        first.must("hold 1 1 10 20", "held 1 entry 0 at 1")
        first.end()


def a_journal_is_opened_to_be_read_alone(site: Site) -> None:
    """The machine tells of a command that stands still how its journal is open."""
    site.begin()
    must(site.serve([GRANTED]).status == 0, "the first server fails")
    lengthen(site, LONG)
    journal = str((site.folder / "journal").resolve())
    with stopped_at_the_journal(site, "check", *READING["check"]) as process:
        place = Path(f"/proc/{process.pid}")
        [number] = [one.name for one in (place / "fd").iterdir() if os.readlink(one) == journal]
        lines = (place / "fdinfo" / number).read_text().splitlines()
    [flags] = [int(line.split()[1], 8) for line in lines if line.startswith("flags:")]
    must(flags & os.O_ACCMODE == os.O_RDONLY, f"its journal is open with the flags {flags:o}")


CASES: list[Callable[[Site], None]] = [
    a_missing_journal_is_told_and_not_made,
    a_missing_old_journal_is_told_and_not_made,
    what_is_no_plain_file_is_told_at_once,
    a_journal_that_nobody_may_write_is_read,
    an_old_journal_that_nobody_may_write_is_carried,
    an_old_journal_is_held_alone,
    a_journal_is_opened_to_be_read_alone,
]


def main() -> int:
    formatter = argparse.RawDescriptionHelpFormatter
    parser = argparse.ArgumentParser(description=__doc__, formatter_class=formatter)
    parser.add_argument("--program", type=Path, default=PROGRAM, help="the built program")
    options = parser.parse_args()
    if not options.program.is_file():
        parser.error(f"no program at {options.program}: dev/build makes it")
    program = Program(options.program.resolve(), 60.0)
    failed = 0
    for case in CASES:
        fault = fault_of(case, program)
        if fault is not None:
            failed += 1
            print(f"FAILED {case.__name__.replace('_', ' ')}: {fault}", flush=True)
    print(f"{len(CASES) - failed} passed, {failed} failed")
    return 1 if failed else 0


if __name__ == "__main__":
    sys.exit(main())

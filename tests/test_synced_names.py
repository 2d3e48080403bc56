"""Tests that a file which was told to be made has its name on the disk: by strace, the calls of
each way to make one, in their order: the file is synced, then it gets its name, then the folder of
the name is synced.

strace is a Debian package; where it is missing the tests are skipped, and say so.
"""
from __future__ import annotations

import re
import shutil
import subprocess
import sys
import tempfile
import unittest
from dataclasses import dataclass
from pathlib import Path

TOP = Path(__file__).resolve().parent.parent
PROGRAM = TOP / "crates/stdcm/out/stdcm"
EXAMPLES = TOP / "examples"
BASE = ('{"begins":"2026-12-01T00:00:00+01:00","tick_s":10,"setting":1,"release":1,"horizon":17280,'
        '"journal_bytes":268435456,"trains":[]}')
CALL = re.compile(r'(?:\[pid +\d+\] |\d+ +)?(?:(fsync|fdatasync)\(\d+<([^>]*)>\) += 0'
                  r'|rename(?:at2?)?\((?:AT_FDCWD<[^>]*>, )?"([^"]*)", (?:AT_FDCWD<[^>]*>, )?'
                  r'"([^"]*)"(?:, \d+)?\) += 0)')


@dataclass(frozen=True)
class Call:
    """A call that the system did: `sync` of a path, or `name`, which gave a path its name."""

    what: str
    path: Path


@unittest.skipIf(shutil.which("strace") is None,
                 "strace is not there (Debian package strace): the calls are not looked at")
@unittest.skipUnless(PROGRAM.exists(), f"no program at {PROGRAM}")
class SyncedNames(unittest.TestCase):
    """Each way to make a journal, and the two ways to make other files."""

    def setUp(self) -> None:
        place = tempfile.TemporaryDirectory()
        self.addCleanup(place.cleanup)
        self.top = Path(place.name).resolve()
        self.day = self.top / "day"
        self.day.mkdir()
        (self.top / "base.json").write_text(BASE)
        (self.top / "next.json").write_text(BASE + "\n")
        (self.top / "later.json").write_text(BASE.replace("12-01", "12-02"))
        self.network = ["--network", str(EXAMPLES / "line3.json")]

    def calls(self, *words: str) -> list[Call]:
        """The syncs and renames of a command that succeeds, of all its processes."""
        trace = self.top / "trace"
        told = subprocess.run(
            ["strace", "-f", "-qq", "-y", "-e", "trace=fsync,fdatasync,rename,renameat,renameat2",
             "-e", "signal=none", "-o", str(trace), *words], cwd=self.top, capture_output=True,
            text=True, timeout=120, check=False)
        self.assertEqual(told.returncode, 0, told.stdout + told.stderr)
        calls = []
        for row in trace.read_text().splitlines():
            found = CALL.match(row)
            if found is not None and found[1]:
                calls.append(Call("sync", Path(found[2])))
            elif found is not None:
                calls.append(Call("name", self.top / found[4]))
        return calls

    def command(self, *words: str) -> list[Call]:
        return self.calls(sys.executable, str(TOP / "kidrofemba"), *words)

    def must_end(self, calls: list[Call], *wanted: Call) -> None:
        """Of the calls about these paths, the last are these."""
        paths = {one.path for one in wanted}
        about = [one for one in calls if one.path in paths]
        self.assertEqual(about[-len(wanted):], list(wanted), calls)

    def init(self, journal: str = "journal") -> None:
        subprocess.run([str(PROGRAM), "init", *self.network, "--base", "base.json", "--journal",
                        journal], cwd=self.top, check=True)

    def test_init(self) -> None:
        calls = self.command("init", *self.network, "--base", "base.json",
                             "--journal", "day/journal")
        self.must_end(calls, Call("sync", self.day / "journal"), Call("sync", self.day))

    def test_init_through_a_link(self) -> None:
        """The name that is made is that to which the link leads."""
        (self.top / "journal").symlink_to("day/journal")
        calls = self.command("init", *self.network, "--base", "base.json",
                             "--journal=journal")
        self.must_end(calls, Call("sync", self.day / "journal"), Call("sync", self.day))

    def test_carry(self) -> None:
        self.init()
        calls = self.command("carry", *self.network, "--base", "next.json", "--journal",
                             "day/journal", "--from", "journal", "--from-base", "base.json")
        self.must_end(calls, Call("sync", self.day / "journal"), Call("sync", self.day))

    def test_roll_over_by_carry(self) -> None:
        self.init()
        calls = self.roll_over("next.json")
        self.must_end(calls, Call("sync", self.day / "journal"), Call("sync", self.day))

    def test_roll_over_by_lines(self) -> None:
        """The journal is made and synced beside its place, and named at the end; the base file that
        goes with it has its name first."""
        self.init()
        calls = self.roll_over("later.json", "--out-base", "day/base.json")
        made = next(one.path for one in calls if one.path.name == "journal"
                    and one.path.parent.name.startswith(".roll_over."))
        self.must_end(calls, Call("sync", made), Call("name", self.day / "base.json"),
                      Call("sync", self.day), Call("name", self.day / "journal"),
                      Call("sync", self.day))

    def roll_over(self, base: str, *options: str) -> list[Call]:
        return self.command("roll-over", "--program", str(PROGRAM), *self.network, "--trains",
                            str(EXAMPLES / "trains.json"), "--base", base, "--journal",
                            "day/journal", "--from", "journal", "--from-base", "base.json",
                            *options)

    def test_mend(self) -> None:
        self.init()
        shutil.copy(self.top / "journal", self.top / "backup")
        calls = self.command("mend", "--journal", "journal", "--backup", "backup", "--out",
                             "day/mended")
        self.must_end(calls, Call("sync", self.day / "mended"), Call("sync", self.day))

    def test_files_written_whole(self) -> None:
        calls = self.calls(sys.executable, "-c",
                           "from kidrofemba.common.companion import write_whole; "
                           "write_whole('day/A.state', 'last 1 0')")
        self.assertEqual([one.what for one in calls], ["sync", "name", "sync"], calls)
        self.assertTrue(calls[0].path.name.startswith(".A.state."), calls)
        self.must_end(calls, Call("name", self.day / "A.state"), Call("sync", self.day))

    def test_files_written_together(self) -> None:
        (self.top / "other").mkdir()
        calls = self.calls(sys.executable, "-c",
                           "from pathlib import Path; "
                           "from kidrofemba.common.files_together import write_together; "
                           "write_together({Path('day/a'): ['1'], Path('other/b'): ['2']})")
        self.assertEqual([one.what for one in calls],
                         ["sync", "sync", "name", "name", "sync", "sync"], calls)
        self.must_end(calls, Call("name", self.day / "a"), Call("name", self.top / "other/b"),
                      Call("sync", self.day), Call("sync", self.top / "other"))

    def test_what_need_not_outlast_anything_is_not_synced(self) -> None:
        """A door writes its status each second, and nobody reads one of before."""
        calls = self.calls(sys.executable, "-c",
                           "from kidrofemba.common.companion import write_whole; "
                           "write_whole('day/status.prom', 'up 1', is_synced=False)")
        self.assertEqual([one.what for one in calls], ["name"], calls)


class FoldersThatFail(unittest.TestCase):
    """A folder that can't be synced."""

    def test_the_status_of_init(self) -> None:
        """`init` told Done, and its folder is gone behind it: the disk failed."""
        from kidrofemba.common.hand_on import DISK_STATUS, hand_on
        with tempfile.TemporaryDirectory() as name:
            program = Path(name) / "program"
            program.write_text(f"#!/bin/sh\nrm -r '{name}/day'\n")
            program.chmod(0o755)
            (Path(name) / "day").mkdir()
            words = ["--journal", f"{name}/day/journal"]
            self.assertEqual(hand_on(str(program), "init", words), DISK_STATUS)
            self.assertEqual(hand_on("/bin/true", "init", ["--journal", f"{name}/journal"]), 0)
            self.assertEqual(hand_on("/bin/true", "serve", words), 0)


if __name__ == "__main__":
    if shutil.which("strace") is None:
        print("strace is not there (Debian package strace): the calls are not looked at")
    unittest.main()

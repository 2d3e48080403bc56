"""Tests of why a name can't be opened: real files, real rights, and locks of other processes. What
depends on rights is tried as the user nobody where the tests run as root."""
from __future__ import annotations

import fcntl
import getpass
import os
import pwd
import signal
import subprocess
import sys
import tempfile
import time
import unittest
from collections.abc import Iterator
from contextlib import contextmanager
from pathlib import Path

from kidrofemba.common.open_faults import Opened, fault_of, told_behind
from kidrofemba.common.program_names import names_of

TOP = Path(__file__).resolve().parent.parent
PROGRAM = TOP / "crates/stdcm/out/stdcm"
EXAMPLES = TOP / "examples"
HOLDER = ("import fcntl, sys\n"
          "with open(sys.argv[1], 'rb') as held:\n"
          "    fcntl.flock(held, fcntl.LOCK_EX)\n"
          "    print('held', flush=True)\n"
          "    sys.stdin.read()\n")


@contextmanager
def held(file: Path) -> Iterator[subprocess.Popen[str]]:
    """Another process that holds the lock of a file."""
    (file.parent / "holder.py").write_text(HOLDER)
    process = subprocess.Popen([sys.executable, "holder.py", str(file)], text=True,
                               cwd=file.parent, stdin=subprocess.PIPE, stdout=subprocess.PIPE)
    with process:
        assert process.stdin is not None and process.stdout is not None
        assert process.stdout.readline() == "held\n"
        yield process
        process.stdin.close()


def as_nobody(one: Opened) -> str | None:
    """What a process of the user nobody tells of a file."""
    come, go = os.pipe()
    child = os.fork()
    if child == 0:
        nobody = pwd.getpwnam("nobody")
        os.setgroups([])
        os.setgid(nobody.pw_gid)
        os.setuid(nobody.pw_uid)
        os.write(go, (fault_of(one) or "").encode())
        os._exit(0)
    os.close(go)
    with open(come, encoding="utf-8") as told:
        text = told.read()
    os.waitpid(child, 0)
    return text or None


class Faults(unittest.TestCase):
    """Each reason by itself."""

    def setUp(self) -> None:
        place = tempfile.TemporaryDirectory()
        self.addCleanup(place.cleanup)
        self.folder = Path(place.name)
        self.folder.chmod(0o755)
        self.file = self.folder / "journal"
        self.file.write_bytes(b"STDCMJNL")

    def test_nothing_is_in_the_way(self) -> None:
        self.assertIsNone(fault_of(Opened(str(self.file), writes=True, is_held=True)))
        self.assertIsNone(fault_of(Opened("journal"), self.folder))
        self.assertIsNone(fault_of(Opened(str(self.folder / "new"), writes=True, is_made=True)))
        self.assertEqual(sorted(os.listdir(self.folder)), ["journal"])

    def test_there_is_no_such_file(self) -> None:
        missing = self.folder / "jornal"
        self.assertEqual(fault_of(Opened(str(missing))), "there is no such file")
        self.assertEqual(fault_of(Opened(str(self.folder / "day/journal"))),
                         f"there is no folder {self.folder / 'day'}")
        (self.folder / "link").symlink_to("jornal")
        self.assertEqual(fault_of(Opened(str(self.folder / "link"))),
                         "leads to jornal, which is not there")
        self.assertEqual(fault_of(Opened(str(self.folder))), "is a folder")

    @unittest.skipIf(os.geteuid() != 0, "only root can ask as another user")
    def test_no_right(self) -> None:
        me = getpass.getuser()
        self.file.chmod(0o600)
        self.assertEqual(as_nobody(Opened(str(self.file))),
                         f"no right to read it (owner {me}, mode 600, you are nobody)")
        self.file.chmod(0o644)
        self.assertIsNone(as_nobody(Opened(str(self.file))))
        self.assertEqual(as_nobody(Opened(str(self.file), writes=True)),
                         f"no right to write it (owner {me}, mode 644, you are nobody)")
        self.assertEqual(as_nobody(Opened(str(self.folder / "new"), writes=True,
                                           is_made=True)),
                         f"no right to make it in the folder {self.folder} (owner {me}, mode 755, "
                         "you are nobody)")
        self.folder.chmod(0o700)
        self.assertEqual(as_nobody(Opened(str(self.file))),
                         f"no right to enter the folder {self.folder} (owner {me}, mode 700, you "
                         "are nobody)")

    def test_another_process_holds_it(self) -> None:
        with held(self.file) as holder:
            told = fault_of(Opened(str(self.file), is_held=True))
            self.assertEqual(told, f"another process holds it: {holder.pid} {sys.executable} "
                             f"holder.py {self.file}")
            self.assertIsNone(fault_of(Opened(str(self.file))), "a reader needs no lock")
        self.assertIsNone(fault_of(Opened(str(self.file), is_held=True)))

    def test_a_look_leaves_the_lock_as_it_is(self) -> None:
        fault_of(Opened(str(self.file), is_held=True))
        with self.file.open("rb") as mine:
            fcntl.flock(mine, fcntl.LOCK_EX | fcntl.LOCK_NB)

    def test_a_pipe_is_not_opened(self) -> None:
        """Opening it would let a writer that waits for a reader go on."""
        pipe = self.folder / "A.in"
        os.mkfifo(pipe)
        self.assertIsNone(fault_of(Opened(str(pipe))))

    def test_a_report_is_told_line_by_line(self) -> None:
        names = names_of("serve", ["--network", "net.json", "--journal=journal", "--client",
                                   "A=A.in:A.out", "--proof", "A=proofs"])
        self.assertEqual([one.name for one in names],
                         ["net.json", "journal", "A.in", "A.out", "proofs"])
        self.assertEqual(told_behind("open: net.json\n", names, self.folder),
                         ["net.json: there is no such file"])
        self.assertEqual(told_behind("read: net.json\nno memory\n", names, self.folder), [])
        self.assertEqual(told_behind("open: journal\n", names, self.folder),
                         ["journal: it can be opened now"])


class Command(unittest.TestCase):
    """The command `kidrofemba` before the program."""

    def setUp(self) -> None:
        if not PROGRAM.exists():
            self.skipTest(f"no program at {PROGRAM}")
        place = tempfile.TemporaryDirectory()
        self.addCleanup(place.cleanup)
        self.folder = Path(place.name)
        (self.folder / "base.json").write_text(
            '{"tick_s":10,"setting":1,"release":1,"horizon":17280,"journal_bytes":268435456,'
            '"trains":[]}')
        self.files = ["--network", str(EXAMPLES / "line3.json"), "--base", "base.json",
                      "--journal", "journal"]

    def run_in(self, *words: str, told: str = "") -> subprocess.CompletedProcess[str]:
        return subprocess.run([sys.executable, str(TOP / "kidrofemba"), *words], cwd=self.folder,
                              input=told, capture_output=True, text=True, timeout=60, check=False)

    def test_a_missing_file(self) -> None:
        done = self.run_in("list", "--network", "netwrk.json", "--out", "stdout")
        self.assertEqual((done.returncode, done.stderr),
                         (7, "open: netwrk.json\nnetwrk.json: there is no such file\n"))

    def test_a_journal_that_is_served(self) -> None:
        self.assertEqual(self.run_in("init", *self.files).returncode, 0)
        serve = ["serve", *self.files, "--trains", str(EXAMPLES / "trains.json")]
        first = subprocess.Popen([str(PROGRAM), *serve, "--client", "A=stdin:stdout"],
                                 cwd=self.folder, stdin=subprocess.PIPE, stdout=subprocess.PIPE,
                                 stderr=subprocess.DEVNULL, text=True)
        with first:
            assert first.stdin is not None and first.stdout is not None
            first.stdin.write("front\n")
            first.stdin.flush()
            self.assertEqual(first.stdout.readline(), "front at 0\n")
            done = self.run_in(*serve, "--client", "A=stdin:stdout", told="front\n")
            self.assertEqual((done.returncode, done.stdout), (7, ""))
            self.assertRegex(done.stderr, "^open: journal\njournal: another process holds it: "
                             f"{first.pid} .*stdcm .*\n$")
            first.stdin.close()

    def test_a_door_over_a_journal_that_is_served(self) -> None:
        self.assertEqual(self.run_in("init", *self.files).returncode, 0)
        with held(self.folder / "journal") as holder:
            done = self.run_in("door", "--folder", "sockets", "--client", "A", "--", str(PROGRAM),
                               "serve", *self.files, "--trains", str(EXAMPLES / "trains.json"))
        self.assertEqual(done.returncode, 7, done.stderr)
        self.assertEqual(done.stderr, "open: journal\n"
                         "door: server: it ends with 7 whenever it is started\n"
                         f"door: journal: another process holds it: {holder.pid} {sys.executable} "
                         f"holder.py {self.folder / 'journal'}\n")

    def test_a_roll_over_into_a_missing_folder(self) -> None:
        """The folder of the new journal is not there."""
        self.assertEqual(self.run_in("init", *self.files).returncode, 0)
        later = self.folder / "later.json"
        later.write_text((self.folder / "base.json").read_text() + "\n")
        words = ["roll-over", "--program", str(PROGRAM), "--network", str(EXAMPLES / "line3.json"),
                 "--trains", str(EXAMPLES / "trains.json"), "--base", "later.json", "--journal",
                 "day/journal", "--from", "journal", "--from-base", "base.json", "--shift",
                 "0"]
        done = self.run_in(*words)
        self.assertEqual((done.returncode, done.stdout),
                         (2, "open: day/journal; day/journal: there is no folder day\n"))

    def test_where_nothing_is_in_the_way_the_program_takes_the_place_of_the_command(self) -> None:
        """So who kills the command kills the server, and handles that were given to it are its."""
        self.assertEqual(self.run_in("init", *self.files).returncode, 0)
        come, go = os.pipe()
        with os.fdopen(come), subprocess.Popen(
                [sys.executable, str(TOP / "kidrofemba"), "serve", *self.files, "--trains",
                 str(EXAMPLES / "trains.json"), "--client", f"A=stdin:/dev/fd/{go}"],
                cwd=self.folder, stdin=subprocess.PIPE, stderr=subprocess.DEVNULL, pass_fds=[go],
                text=True) as server:
            os.close(go)
            assert server.stdin is not None
            server.stdin.write("front\n")
            server.stdin.flush()
            self.assertEqual(os.read(come, 100), b"front at 0\n")
            command = Path(f"/proc/{server.pid}/cmdline").read_bytes()
            self.assertNotIn(b"kidrofemba\0serve", command)
            server.stdin.close()
            self.assertEqual(server.wait(60), 0)

    def test_status_streams_and_signals_are_handed_on(self) -> None:
        self.assertEqual(self.run_in("init", *self.files).returncode, 0)
        serve = ["serve", *self.files, "--trains", str(EXAMPLES / "trains.json"), "--client",
                 "A=stdin:stdout"]
        done = self.run_in(*serve, told="hold 1 0 5 6\nfront\n")
        self.assertEqual((done.returncode, done.stdout, done.stderr),
                         (0, "held 1 entry 0 at 1\nfront at 1\n", "client A lines 2 end input\n"))
        self.assertEqual(self.run_in("serve").returncode, 2)
        server = subprocess.Popen([sys.executable, str(TOP / "kidrofemba"), *serve],
                                  cwd=self.folder, stdin=subprocess.PIPE, stdout=subprocess.PIPE,
                                  text=True)
        with server:
            assert server.stdin is not None and server.stdout is not None
            server.stdin.write("front\n")
            server.stdin.flush()
            self.assertEqual(server.stdout.readline(), "front at 1\n")
            server.terminate()
            self.assertEqual(server.wait(60), -15)
        self.assertEqual(self.run_in(*serve, told="front\n").stdout, "front at 1\n")


class HandedOn(unittest.TestCase):
    """A program behind which something is to be done."""

    def test_a_signal_and_a_kill_reach_it(self) -> None:
        for number, status in ((signal.SIGTERM, 128 + 15), (signal.SIGKILL, -9)):
            with tempfile.TemporaryDirectory() as name:
                program = Path(name) / "program"
                program.write_text(f"#!/bin/sh\necho $$ >{name}/pid\nexec sleep 60\n")
                program.chmod(0o755)
                command = subprocess.Popen([
                    sys.executable, "-c", "import sys\n"
                    "from kidrofemba.common.hand_on import hand_on\n"
                    "sys.exit(hand_on(sys.argv[1], 'init', []))", str(program)])
                until = time.monotonic() + 30
                while not (Path(name) / "pid").exists() or not (Path(name) / "pid").read_text():
                    self.assertLess(time.monotonic(), until)
                    time.sleep(0.01)
                child = int((Path(name) / "pid").read_text())
                command.send_signal(number)
                self.assertEqual(command.wait(30), status)
                while is_alive(child):
                    self.assertLess(time.monotonic(), until)
                    time.sleep(0.01)


def is_alive(process: int) -> bool:
    """Whether there is a process with this number that has not ended."""
    try:
        told = Path(f"/proc/{process}/stat").read_text()
    except FileNotFoundError:
        return False
    return told.rpartition(")")[2].split()[0] != "Z"


if __name__ == "__main__":
    unittest.main()

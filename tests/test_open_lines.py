"""Tests of lines that a client left open: whether they are sent once the journal may be another
one. The door is a socket that replies as one does."""
from __future__ import annotations

import hashlib
import json
import socket
import subprocess
import sys
import tempfile
import threading
import unittest
from collections.abc import Iterator, Sequence
from contextlib import contextmanager
from pathlib import Path

TOP = Path(__file__).resolve().parent.parent
BASE = {"begins": "2026-12-01T00:00:00+01:00", "tick_s": 10, "setting": 1, "release": 1,
        "horizon": 17280, "journal_bytes": 268435456, "trains": []}
WAY_OUT = ("give the --base with which they were begun, while its journal is served; else look by "
           "`show ENTRY` whether they were done, and drop them by --drop-open\n")
LIMIT_S = 60.0


@contextmanager
def door(path: Path, served: str | None) -> Iterator[list[str]]:
    """A door over a journal of the base file with the digest `served`, or an older door that knows
    no `base`; and the lines that came. It frees what it is told to free."""
    lines: list[str] = []
    listener = socket.socket(socket.AF_UNIX)
    listener.bind(str(path))
    listener.listen()
    ends = threading.Event()

    def reply_to(line: str) -> tuple[str, bool]:
        word, *rest = line.removeprefix("after 5 ").split()
        if word == "base" and served is not None:
            return f"base {served}", rest == [served]
        if word == "free":
            return f"freed {rest[0]} entry 7 of {rest[1]} at 8", True
        return ("front at 7" if word == "front" else "bad 1"), True

    def serve() -> None:
        while not ends.is_set():
            try:
                stream, _ = listener.accept()
            except OSError:
                return
            with stream, stream.makefile("r", newline="\n") as source:
                for row in source:
                    lines.append(row.rstrip("\n"))
                    reply, goes_on = reply_to(lines[-1])
                    stream.sendall(f"{reply}\n".encode())
                    if not goes_on:
                        break

    thread = threading.Thread(target=serve, daemon=True)
    thread.start()
    try:
        yield lines
    finally:
        ends.set()
        listener.shutdown(socket.SHUT_RDWR)
        listener.close()
        thread.join(LIMIT_S)


class OpenLines(unittest.TestCase):
    """A client with a state in which `free 30 1` is open."""

    def setUp(self) -> None:
        place = tempfile.TemporaryDirectory()
        self.addCleanup(place.cleanup)
        self.folder = Path(place.name)
        self.state, self.path = self.folder / "A.state", self.folder / "A.sock"
        self.monday = self._base("monday.json", BASE)
        self.tuesday = self._base("tuesday.json", BASE | {"begins": "2026-12-02T00:00:00+01:00"})

    def _base(self, name: str, told: object) -> Path:
        (self.folder / name).write_text(json.dumps(told))
        return self.folder / name

    def digest(self, base: Path) -> str:
        return hashlib.sha256(base.read_bytes()).hexdigest()

    def begin(self, base: str) -> str:
        """Leaves a line open beside a base file with this digest; the state."""
        self.state.write_text(f"last 30 5\nbase {base}\nopen 30 free 30 1\n")
        return self.state.read_text()

    def ask(self, *options: str, lines: str = "") -> tuple[int, list[str], str]:
        words: Sequence[str] = [sys.executable, str(TOP / "kidrofemba"), "ask", "--socket",
                                str(self.path), "--give-up", "5", *options]
        told = subprocess.run(words, input=lines, capture_output=True, text=True, timeout=LIMIT_S,
                              check=False)
        return told.returncode, told.stdout.splitlines(), told.stderr

    def must_not_send(self, told: tuple[int, list[str], str], came: list[str]) -> None:
        """Nothing that frees was sent, and the way out was told."""
        self.assertEqual((told[0], told[1]), (2, []))
        self.assertTrue(told[2].startswith(f"ask: {self.state}: not sent") and
                        "free 30 1" in told[2] and told[2].endswith(WAY_OUT), told[2])
        self.assertEqual([line for line in came if "free" in line], [])

    def test_begun_without_a_base_file(self) -> None:
        """Nobody knows which journal such an entry is of."""
        self.begin("-")
        with door(self.path, None) as came:
            self.must_not_send(self.ask("--state", str(self.state)), came)
            self.assertIn("open 30 free 30 1\n", self.state.read_text())

    def test_begun_with_another_base_file(self) -> None:
        self.begin(self.digest(self.monday))
        with door(self.path, self.digest(self.tuesday)) as came:
            told = self.ask("--state", str(self.state), "--base", str(self.tuesday))
            self.must_not_send(told, came)

    def test_begun_with_the_base_file_that_is_served(self) -> None:
        digest = self.digest(self.monday)
        self.begin(digest)
        with door(self.path, digest) as came:
            told = self.ask("--state", str(self.state), "--base", str(self.monday))
        self.assertEqual(told, (0, ["left open before: freed 30 entry 7 of 1 at 8: entry 1 is "
                                    "given back"], ""))
        self.assertEqual(came, [f"base {digest}", "after 5 free 30 1"])

    def test_the_journal_was_carried_meanwhile(self) -> None:
        """The client has Monday's base file still; the door serves Tuesday's journal."""
        monday, tuesday = self.digest(self.monday), self.digest(self.tuesday)
        self.begin(monday)
        with door(self.path, tuesday) as came:
            status, told, wrong = self.ask("--state", str(self.state), "--base", str(self.monday))
        self.assertEqual((status, told), (2, []))
        self.assertEqual(wrong, f"ask: {self.path}: its journal is of another base file, "
                         f"{tuesday}, than lines are written for, {monday}: nothing is sent, and "
                         "open lines stay open; give the base file that is served now by --base\n")
        self.assertEqual(came, [f"base {monday}"])
        self.assertIn("open 30 free 30 1\n", self.state.read_text())

    def test_a_line_without_a_state_is_not_sent_either(self) -> None:
        with door(self.path, self.digest(self.tuesday)) as came:
            status, told, _ = self.ask("--base", str(self.monday), lines="hold 1 0 06:00 07:00\n")
        self.assertEqual((status, told), (2, []))
        self.assertEqual(came, [f"base {self.digest(self.monday)}"])

    def test_an_older_door_goes_on(self) -> None:
        self.begin(self.digest(self.monday))
        with door(self.path, None) as came:
            told = self.ask("--state", str(self.state), "--base", str(self.monday))
        self.assertEqual(told[0], 0, told)
        self.assertEqual(came[1:], ["after 5 free 30 1"])

    def test_a_front_that_is_forgotten_says_that_the_journal_is_another_one(self) -> None:
        """Also of the same base file: a carry may have made it, or a restored copy. The state is
        left as it was, so that a next run does not send the line either."""
        before = self.begin(self.digest(self.monday))
        words = ["--state", str(self.state), "--base", str(self.monday), "--forget-front"]
        with door(self.path, self.digest(self.monday)) as came:
            self.must_not_send(self.ask(*words), came)
            self.assertEqual(self.state.read_text(), before)

    def test_the_way_out(self) -> None:
        self.begin("-")
        words = ["--state", str(self.state), "--base", str(self.tuesday), "--forget-front",
                 "--drop-open"]
        with door(self.path, self.digest(self.tuesday)) as came:
            told = self.ask(*words, lines="front\n")
        self.assertEqual(told, (0, ["dropped: free 30 1", "front at 7"], ""))
        self.assertEqual(came, [f"base {self.digest(self.tuesday)}", "front"])
        self.assertNotIn("open", self.state.read_text())
        self.assertTrue(self.state.read_text().startswith("last 30 0\n"))


if __name__ == "__main__":
    unittest.main()

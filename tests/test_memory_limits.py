"""Tests of the program under limits of memory: wherever it ends for want of memory it says so in
one line, and what it was to write is not begun.

    PYTHONPATH=python python3 -m tests.test_memory_limits

KIDROFEMBA_STDCM in the environment may name another program than crates/stdcm/out/stdcm.
"""
from __future__ import annotations

import os
import resource
import shutil
import subprocess
import tempfile
import unittest
from dataclasses import dataclass
from pathlib import Path

REPOSITORY = Path(__file__).resolve().parent.parent
PROGRAM = Path(os.environ.get("KIDROFEMBA_STDCM", REPOSITORY / "crates/stdcm/out/stdcm")).resolve()
EXAMPLES = REPOSITORY / "examples"
#: How a call ends that wanted memory, and what it tells.
NO_MEMORY, LINE = 11, "no memory\n"
#: How a call ends that the loader could not begin.
NOT_LOADED = 127
#: A page, and the limits that are tried behind the least one at which the program is loaded: each
#: of those for which its first pieces of memory may be refused, and then some up to where nothing
#: is.
PAGE = os.sysconf("SC_PAGE_SIZE")
NEAR_PAGES, FAR_PAGES, FAR_STEP = 96, 1024, 16
#: What a call has in its environment: the loader counts it too.
ENVIRONMENT: dict[str, str] = {}
#: A limit below which no program is loaded, and one above which each is that can be limited.
LEAST, MOST = 64 * PAGE, 256 << 20
CALL_S = 60.0


@dataclass(frozen=True)
class Told:
    """How a call ended, and what it told."""

    status: int
    out: str
    report: str


def call(folder: Path, words: list[str], limit: int | None = None) -> Told:
    """Runs the program in a folder, with so many bytes of addresses at most."""
    def limited() -> None:
        if limit is not None:
            resource.setrlimit(resource.RLIMIT_AS, (limit, limit))
    ran = subprocess.run([str(PROGRAM), *words], cwd=folder, env=ENVIRONMENT, preexec_fn=limited,
                         stdin=subprocess.DEVNULL, capture_output=True, text=True,
                         timeout=CALL_S, check=False)
    return Told(ran.returncode, ran.stdout, ran.stderr)


def least_limit(folder: Path) -> int | None:
    """The least limit, in whole pages, at which the program is loaded; None where there is none."""
    def is_loaded(limit: int) -> bool:
        try:
            return call(folder, ["none"], limit).status in (2, NO_MEMORY)
        except OSError:
            return False
    if not is_loaded(MOST):
        return None
    low, high = LEAST, MOST
    while high - low > PAGE:
        middle = (low + high) // 2 // PAGE * PAGE
        low, high = (low, middle) if is_loaded(middle) else (middle, high)
    return high


class MemoryLimits(unittest.TestCase):
    """Each command over a journal of one path, at each limit near the least one."""

    folder: Path
    least: int

    @classmethod
    def setUpClass(cls) -> None:
        if not os.access(PROGRAM, os.X_OK):
            raise unittest.SkipTest(f"{PROGRAM} is not there")
        cls.folder = Path(tempfile.mkdtemp(prefix="memory-test-"))
        cls.addClassCleanup(shutil.rmtree, cls.folder)
        for name, example in (("network", "line3.json"), ("trains", "trains.json"),
                              ("base", "base.json"), ("later", "base.json")):
            shutil.copyfile(EXAMPLES / example, cls.folder / name)
        (cls.folder / "lines").write_text("ask 1 F1 W E 6 6 0 17280 0\n")
        for words in (cls.words("init", "network", "base", "journal"),
                      [*cls.words("serve", "network", "trains", "base", "journal"),
                       "--client", "A=lines:replies"]):
            told = call(cls.folder, words)
            if told.status:
                raise AssertionError(f"{words}: {told}")
        found = least_limit(cls.folder)
        if found is None:
            raise unittest.SkipTest(f"{PROGRAM} cannot be held to {MOST} bytes, as one with an"
                                    " address checker cannot")
        cls.least = found

    @staticmethod
    def words(command: str, *names: str) -> list[str]:
        return [command, *(word for name in names for word in (f"--{name}", name))]

    def limits(self) -> list[int]:
        """The limits that are tried."""
        pages = [*range(NEAR_PAGES), *range(NEAR_PAGES, FAR_PAGES, FAR_STEP)]
        return [self.least + count * PAGE for count in pages]

    def try_limits(self, words: list[str], written: str | None = None) -> None:
        """At each limit a call is done, or wants memory, tells it, and has written nothing."""
        ends: list[int] = []
        for limit in self.limits():
            if written is not None:
                (self.folder / written).unlink(missing_ok=True)
            told = call(self.folder, words, limit)
            if told.status == NOT_LOADED:
                # (the loader's own memory grows with the words)
                continue
            with self.subTest(words=words[0], limit_kb=limit // 1024):
                self.assertIn(told.status, (0, NO_MEMORY), told)
                if told.status == NO_MEMORY:
                    self.assertEqual((LINE, ""), (told.report, told.out))
                    if written is not None:
                        path = self.folder / written
                        self.assertEqual(b"", path.read_bytes() if path.exists() else b"")
            ends.append(told.status)
        self.assertIn(NO_MEMORY, ends, "no limit was too small")
        self.assertIn(0, ends, "no limit was enough")

    def test_carry(self) -> None:
        """A journal that is carried is not begun where memory is wanted."""
        words = ["carry", "--network", "network", "--base", "later", "--journal", "new",
                 "--from", "journal", "--from-base", "base"]
        self.try_limits(words, written="new")

    def test_init(self) -> None:
        self.try_limits(["init", "--network", "network", "--base", "base", "--journal", "begun"],
                        written="begun")

    def test_list(self) -> None:
        self.try_limits(["list", "--network", "network", "--out", "table"], written="table")

    def test_stairs(self) -> None:
        self.try_limits([*self.words("stairs", "network", "base", "journal"), "--entry", "0",
                         "--out", "stairway"], written="stairway")

    def test_many_words(self) -> None:
        """Want of memory for the rules that the words ask for is told as any other."""
        rules = [word for at in range(64) for word in ("--rule", f"A=longest:{900 + at}")]
        words = [*self.words("serve", "network", "trains", "base", "journal"), *rules,
                 "--client", "A=nothing:none"]
        (self.folder / "nothing").write_bytes(b"")
        for limit in self.limits():
            told = call(self.folder, words, limit)
            with self.subTest(limit_kb=limit // 1024):
                self.assertIn(told.status, (0, NO_MEMORY, NOT_LOADED), told)
                if told.status == NO_MEMORY:
                    self.assertEqual(LINE, told.report)


if __name__ == "__main__":
    unittest.main()

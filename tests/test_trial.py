"""Tests of the trial of the program, with a stand-in for the toolchain, and of the tour over it.

    PYTHONPATH=python python3 -m tests.test_trial

The tour itself is over the program at crates/stdcm/out/stdcm, or the one that KIDROFEMBA_STDCM in the
environment names; where there is none it is left out.
"""
from __future__ import annotations

import json
import os
import shutil
import signal
import subprocess
import sys
import tempfile
import time
import unittest
from collections.abc import Callable
from pathlib import Path

REPOSITORY = Path(__file__).resolve().parent.parent
PROGRAM = Path(os.environ.get("KIDROFEMBA_STDCM", REPOSITORY / "crates/stdcm/out/stdcm")).resolve()
TRIAL, BUILD, CHECK = "dev/trial", "dev/build", "dev/check"
#: What the tour's clone has of the repository, where it is there.
COPIED = ("demo", "kidrofemba", "dev", "python", "examples")
CRATES = {"lowest": "", "stdcm": "lowest"}
#: The time that a call may take on a machine that is busy.
LIMIT_S = 120.0


class Clone:
    """A repository of two small crates in a fresh folder, with the stand-in on its PATH."""

    def __init__(self, root: Path):
        self.root, self.noted = root, root / "noted"
        for name in COPIED:
            source = REPOSITORY / name
            if source.is_dir():
                shutil.copytree(source, root / name, symlinks=True,
                                ignore=shutil.ignore_patterns("__pycache__"))
            elif source.is_file():
                shutil.copy2(source, root / name)
        (root / "HANDLES").write_text("Handles allowed: none.\n")
        (root / "crates.txt").write_text("".join(f"{one}: {it}\n" for one, it in CRATES.items()))
        for name in CRATES:
            (root / "crates" / name / "src").mkdir(parents=True)
        self.source = root / "crates/lowest/src/lib.rt"
        self.source.write_text("fn lowest() {}\n")
        (root / "crates/stdcm/src/main.rt").write_text("fn main() {}\n")
        for name in ("args", "stdout"):
            shutil.copy2(REPOSITORY / "crates/stdcm" / name, root / "crates/stdcm" / name)
        self.trial = root / "out/trial/stdcm"
        self.built = root / "crates/stdcm/out/stdcm"

    def start(self, *words: str, fake: str = "", path: str | None = None,
              compiled: Path | None = None) -> subprocess.Popen[str]:
        environment = {**os.environ, "FAKE": fake, "NOTES": str(self.noted),
                       "PATH": path or f"{REPOSITORY / 'tests/fakes'}:{os.environ['PATH']}"}
        if compiled is not None:
            environment["COMPILED"] = str(compiled)
        return subprocess.Popen(
            [*words], cwd=self.root, env=environment, text=True, stdin=subprocess.DEVNULL,
            stdout=subprocess.PIPE, stderr=subprocess.PIPE, start_new_session=True)

    def run(self, *words: str, fake: str = "", path: str | None = None,
            compiled: Path | None = None) -> subprocess.CompletedProcess[str]:
        process = self.start(*words, fake=fake, path=path, compiled=compiled)
        try:
            out, told = process.communicate(timeout=LIMIT_S)
        except subprocess.TimeoutExpired:
            os.killpg(process.pid, signal.SIGKILL)
            out, told = process.communicate()
            told += "no end"
        return subprocess.CompletedProcess(process.args, process.returncode, out, told)

    def runs(self) -> list[str]:
        """How often the stand-in was asked to compile."""
        rows = self.noted.read_text().splitlines() if self.noted.is_file() else []
        return [row for row in rows if row.startswith("try")]

    def at_work(self) -> list[int]:
        """The processes that a run of the stand-in has left."""
        own, found = f"NOTES={self.noted}".encode(), []
        for at in Path("/proc").iterdir():
            try:
                if at.name.isdigit() and own in (at / "environ").read_bytes().split(b"\0"):
                    state = (at / "stat").read_text().rpartition(")")[2].split()[0]
                    found += [int(at.name)] if state not in "ZX" else []
            except OSError:
                continue
        return found

    def left(self) -> list[str]:
        """What stands beside the trial."""
        return sorted(path.name for path in (self.root / "out/trial").iterdir()
                      if path.name.startswith("run-"))


def waits_for(fact: Callable[[], object], wait_s: float = 30.0) -> bool:
    until = time.monotonic() + wait_s
    while time.monotonic() < until:
        if fact():
            return True
        time.sleep(0.05)
    return False


class InClone(unittest.TestCase):
    """Each case has a clone of its own, in which nothing runs on behind it."""

    clone: Clone

    def setUp(self) -> None:
        folder = tempfile.TemporaryDirectory(prefix="trial-test-")
        self.addCleanup(folder.cleanup)
        self.clone = Clone(Path(folder.name).resolve())
        self.addCleanup(self.end_all)

    def end_all(self) -> None:
        for pid in self.clone.at_work():
            os.kill(pid, signal.SIGKILL)

    def is_refused(self, ran: subprocess.CompletedProcess[str], status: int, *parts: str) -> None:
        """A call told this on one line behind its name, left no trial, and nothing at work."""
        self.assertEqual(status, ran.returncode, ran.stderr)
        told = " ".join(ran.stderr.split())
        for part in parts:
            self.assertIn(part, told)
        self.assertNotIn("Traceback", ran.stderr)
        self.assertFalse((self.clone.root / "out/trial/stdcm.json").exists())
        self.assertTrue(waits_for(lambda: not self.clone.at_work(), 10.0))
        if (self.clone.root / "out/trial").is_dir():
            self.assertEqual([], self.clone.left())

    def keep_as_built(self, text: str) -> None:
        """Keeps a program as dev/build keeps one of this very tree."""
        script = "\n".join((
            "from dev.build import KEPT, Program, Repository, ROOT",
            "program = Program(Repository(ROOT), 'stdcm')",
            "KEPT.mkdir(parents=True)",
            "made = KEPT / 'made'",
            f"made.write_text({text!r})",
            "made.chmod(0o755)",
            "program.keep(made, program.repository.digest('stdcm'), 'a stand-in')"))
        subprocess.run([sys.executable, "-B", "-c", script], check=True, cwd=self.clone.root)


class MakingATrial(InClone):
    """What dev/trial makes, keeps, and refuses."""

    def test_a_trial_is_made_and_found_again(self) -> None:
        made = self.clone.run(TRIAL)
        self.assertEqual(0, made.returncode, made.stderr)
        self.assertIn("nothing of it is proved", made.stderr)
        self.assertEqual(["try list in stdcm"], self.clone.runs())
        table = self.clone.run(str(self.clone.trial), "list", "--network",
                               "examples/station.json", "--out", "stdout")
        self.assertEqual((REPOSITORY / "examples/station.table").read_text(), table.stdout)
        again = self.clone.run(TRIAL)
        self.assertEqual(0, again.returncode, again.stderr)
        self.assertIn("stands already", again.stderr)
        self.assertEqual(1, len(self.clone.runs()))
        self.assertEqual([], self.clone.left())
        self.assertEqual([], self.clone.at_work())

    def test_it_needs_no_toolchain_once_it_stands(self) -> None:
        self.clone.run(TRIAL)
        again = self.clone.run(TRIAL, path="/usr/bin:/bin")
        self.assertEqual(0, again.returncode, again.stderr)

    def test_its_record(self) -> None:
        self.clone.run(TRIAL)
        told = json.loads((self.clone.root / "out/trial/stdcm.json").read_text())
        self.assertEqual({"sources", "program", "kit", "loader", "date"}, {*told})
        self.assertEqual("a stand-in", told["kit"])

    def test_a_stale_trial_is_made_anew(self) -> None:
        self.clone.run(TRIAL)
        self.clone.source.write_text("fn other() {}\n")
        again = self.clone.run(TRIAL)
        self.assertEqual(0, again.returncode, again.stderr)
        self.assertEqual(2, len(self.clone.runs()))

    def test_a_changed_program_is_made_anew(self) -> None:
        self.clone.run(TRIAL)
        with (self.clone.root / "out/trial/program").open("a") as program:
            program.write("# more\n")
        self.clone.run(TRIAL)
        self.assertEqual(2, len(self.clone.runs()))

    def test_one_whose_loader_is_gone_is_made_anew(self) -> None:
        self.clone.run(TRIAL)
        shutil.rmtree(self.clone.root / "kit")
        self.clone.run(TRIAL)
        self.assertEqual(2, len(self.clone.runs()))

    def test_no_rt(self) -> None:
        ran = self.clone.run(sys.executable, TRIAL, path="/usr/sbin")
        self.is_refused(ran, 2, "trial: rt: PATH: not found")

    def test_no_loader(self) -> None:
        ran = self.clone.run(TRIAL, fake="no-loader")
        self.is_refused(ran, 2, "ld-linux-x86-64.so.2: not found")

    def test_refused_code(self) -> None:
        ran = self.clone.run(TRIAL, fake="refuses")
        self.is_refused(ran, 1, "rt try refuses the program, status 1",
                        "src/main.rt:7:22: error[mismatched-types]: expected `u8`")

    def test_a_run_that_is_killed(self) -> None:
        self.is_refused(self.clone.run(TRIAL, fake="killed"), 1, "as where memory is short")

    def test_a_run_without_a_program(self) -> None:
        self.is_refused(self.clone.run(TRIAL, fake="no-run"), 1, "status 2")

    def test_a_program_that_does_not_do_what_it_must(self) -> None:
        ran = self.clone.run(TRIAL, fake="wrong")
        self.is_refused(ran, 1, "its table of a station is not right")

    def test_a_failed_run_leaves_no_older_trial(self) -> None:
        """Where the sources were changed and cannot be compiled, the older trial is not taken."""
        self.clone.run(TRIAL)
        self.clone.source.write_text("fn other() {}\n")
        ran = self.clone.run(TRIAL, fake="refuses")
        self.assertEqual(1, ran.returncode)
        self.assertEqual(1, self.clone.run(TRIAL, fake="refuses").returncode)

    def test_sources_that_are_changed_meanwhile(self) -> None:
        ran = self.clone.run(TRIAL, fake="edits-source")
        self.is_refused(ran, 1, "the sources were changed")

    def test_an_interrupt_ends_all(self) -> None:
        for number in (signal.SIGINT, signal.SIGTERM, signal.SIGHUP):
            with self.subTest(signal=number.name):
                count = len(self.clone.runs())
                process = self.clone.start(TRIAL, fake="waits")
                self.assertTrue(waits_for(lambda: len(self.clone.runs()) > count))
                process.send_signal(number)
                out, told = process.communicate(timeout=LIMIT_S)
                ran = subprocess.CompletedProcess([], process.returncode, out, told)
                self.is_refused(ran, 128 + number, "interrupted")

    def test_two_at_once_make_one(self) -> None:
        first = self.clone.start(TRIAL)
        second = self.clone.start(TRIAL)
        for process in (first, second):
            _, told = process.communicate(timeout=LIMIT_S)
            self.assertEqual(0, process.returncode, told)
        self.assertEqual(1, len(self.clone.runs()))

    def test_help(self) -> None:
        ran = self.clone.run(TRIAL, "--help")
        self.assertEqual(0, ran.returncode)
        self.assertIn("not proved", ran.stdout)


class BesideAProvedProgram(InClone):
    """Which of the two is taken."""

    def test_checks_never_take_a_trial(self) -> None:
        self.clone.run(TRIAL)
        ran = self.clone.run(CHECK)
        self.assertEqual(2, ran.returncode)
        self.assertIn("no program at crates/stdcm/out/stdcm", ran.stderr)

    def test_a_trial_does_not_stand_as_built(self) -> None:
        self.assertEqual(1, self.clone.run(BUILD, "--standing").returncode)
        self.clone.run(TRIAL)
        self.assertEqual(1, self.clone.run(BUILD, "--standing").returncode)
        # nor where it was put in the place of the program
        self.clone.built.parent.mkdir(exist_ok=True)
        shutil.copy2(self.clone.trial, self.clone.built)
        self.assertEqual(1, self.clone.run(BUILD, "--standing").returncode)

    def test_a_built_program_stands_until_its_sources_change(self) -> None:
        self.keep_as_built("#!/bin/sh\necho built\n")
        self.assertEqual(0, self.clone.run(BUILD, "--standing").returncode)
        self.assertEqual("built\n", self.clone.run(str(self.clone.built)).stdout)
        self.clone.source.write_text("fn other() {}\n")
        self.assertEqual(1, self.clone.run(BUILD, "--standing").returncode)

    def test_the_time_that_building_takes(self) -> None:
        ran = self.clone.run(BUILD, "--minutes")
        self.assertEqual(0, ran.returncode, ran.stderr)
        self.assertRegex(ran.stdout, r"\A\d+\n\Z")


@unittest.skipUnless(os.access(PROGRAM, os.X_OK), f"{PROGRAM} is not there")
class TheTour(InClone):
    """./demo over a trial, and over the program that is built."""

    HEAD = "This is a trial: the program is compiled, and nothing of it is proved yet;"

    def setUp(self) -> None:
        super().setUp()
        starts = f'#!/bin/sh\nexec {PROGRAM} "$@"\n'
        self.starter = self.clone.root / "starter"
        self.starter.write_text(starts)
        self.starter.chmod(0o755)

    def tour(self, *words: str) -> list[list[str]]:
        """The pages of the tour, each as its lines."""
        ran = self.clone.run("./demo", *words, compiled=self.starter)
        self.assertEqual(0, ran.returncode, ran.stderr)
        return [page.splitlines() for page in ran.stdout.split("\n\n")]

    def test_each_page_says_that_it_is_a_trial(self) -> None:
        pages = self.tour()
        self.assertEqual(1, len(self.clone.runs()))
        self.assertGreater(len(pages), 8)
        for page in pages:
            self.assertRegex(page[0], f"^{self.HEAD} .* in about \\d+ minutes\\.$")
            self.assertTrue(page[1].endswith(":"), page)
        drawn = (self.clone.root / "out/trial/corridor.html").read_text()
        self.assertIn(f"<body>\n<p>{self.HEAD}", drawn)
        self.assertFalse((self.clone.root / "out/corridor.html").exists())
        # behind that line the tour is that over the program, but for where pictures stand; on
        # pages of clients or workers at once the order of what they ask is free
        plain = self.tour("--program", str(self.starter))
        without = [[row.replace("out/trial/", "out/") for row in page[1:]] for page in pages]
        self.assertEqual([page[0].split(", entry ")[0] for page in plain],
                         [page[0].split(", entry ")[0] for page in without])
        for page in plain:
            if any(word in page[0] for word in ("zones", "between", "corridor", "refused")):
                self.assertIn(page, without)

    def test_the_program_that_is_built_is_taken(self) -> None:
        self.keep_as_built(self.starter.read_text())
        self.assertFalse(any(self.HEAD in row for page in self.tour() for row in page))
        self.assertEqual([], self.clone.runs())
        self.assertFalse((self.clone.root / "out/trial").exists())

    def test_replies_and_proofs_are_of_the_program_that_is_built(self) -> None:
        self.keep_as_built(self.starter.read_text())
        for word, name in (("--replies", "station.replies"), ("--proof", "refusal.proof")):
            ran = self.clone.run("./demo", word)
            self.assertEqual((REPOSITORY / "examples" / name).read_text(), ran.stdout)
        self.assertEqual([], self.clone.runs())

    def test_what_fails_in_the_trial_ends_the_tour(self) -> None:
        ran = self.clone.run("./demo", fake="refuses")
        self.assertEqual(1, ran.returncode)
        self.assertEqual("", ran.stdout)
        self.assertIn("src/main.rt:7:22: error[mismatched-types]", ran.stderr)

    def test_words(self) -> None:
        for words in (["--what"], ["--proved", "--program", str(self.starter)]):
            ran = self.clone.run("./demo", *words)
            self.assertEqual(2, ran.returncode, words)
            self.assertIn("./demo [--proved", ran.stderr)


if __name__ == "__main__":
    unittest.main()

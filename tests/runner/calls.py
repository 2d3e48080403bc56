"""Running the program: one call to its end, or a session over named pipes."""
from __future__ import annotations

import errno
import os
import resource
import select
import signal
import subprocess
import sys
import time
from dataclasses import dataclass
from pathlib import Path

from .compare import Difference, Expected, differ


@dataclass
class Ended:
    """How a call ended, and what it wrote."""

    status: int
    out: bytes
    report: bytes


@dataclass
class Program:
    """The program under test and its time limit in seconds for each call."""

    path: Path
    limit: float = 30.0

    def words(self, words: list[str]) -> list[str]:
        start = [sys.executable] if self.path.suffix == ".py" else []
        return [*start, str(self.path), *words]

    def start(self, words: list[str], folder: Path, *, stdin: int, stdout: str | None = None,
              stderr: str | None = None, file_size: int | None = None) -> subprocess.Popen:
        """Starts a call; `stdout` and `stderr` may name a file, and `file_size` bounds each file
        that it writes, as a full disk does."""
        def bounded() -> None:
            signal.signal(signal.SIGXFSZ, signal.SIG_IGN)
            resource.setrlimit(resource.RLIMIT_FSIZE, (file_size, file_size))
        opened = [open(name, "wb") for name in (stdout, stderr) if name]
        try:
            sinks = iter(opened)
            return subprocess.Popen(
                self.words(words), cwd=folder, stdin=stdin,
                stdout=next(sinks) if stdout else subprocess.PIPE,
                stderr=next(sinks) if stderr else subprocess.PIPE,
                start_new_session=True, restore_signals=file_size is None,
                preexec_fn=bounded if file_size is not None else None)
        finally:
            for sink in opened:
                sink.close()

    def call(self, words: list[str], folder: Path, *, stdin: bytes | None = None,
             **options) -> Ended:
        """Runs a call to its end; kills it at the limit."""
        given = subprocess.DEVNULL if stdin is None else subprocess.PIPE
        process = self.start(words, folder, stdin=given, **options)
        try:
            out, report = process.communicate(stdin, timeout=self.limit)
        except subprocess.TimeoutExpired:
            stop(process)
            told = f"no end within {self.limit:g} s, of the call {' '.join(words)}"
            raise Difference(f"time: {told}") from None
        return Ended(process.returncode, out or b"", report or b"")


def kill(process: subprocess.Popen) -> None:
    """SIGKILL for a call of ours and whatever it has started."""
    try:
        os.killpg(process.pid, signal.SIGKILL)
    except ProcessLookupError:
        pass
    process.wait()


def stop(process: subprocess.Popen) -> None:
    """Kills a call of ours where it still runs, and closes what is left of it."""
    if process.poll() is None:
        kill(process)
    for pipe in (process.stdin, process.stdout, process.stderr):
        if pipe:
            pipe.close()


class Pipes:
    """One client's two named pipes, with the tester at their other ends."""

    def __init__(self, folder: Path, name: str):
        self.name = name
        self.input, self.output = f"{name}.in", f"{name}.out"
        os.mkfifo(folder / self.input)
        os.mkfifo(folder / self.output)
        self.path = folder / self.input
        self.to_program: int | None = None
        self.from_program: int | None = os.open(folder / self.output,
                                                os.O_RDONLY | os.O_NONBLOCK)
        self.unread = b""

    def connect(self) -> bool:
        """Opens the input; false as long as the program does not open it too."""
        try:
            self.to_program = os.open(self.path, os.O_WRONLY | os.O_NONBLOCK)
        except OSError as fault:
            if fault.errno != errno.ENXIO:
                raise
        return self.to_program is not None

    def send(self, content: bytes) -> None:
        if self.to_program is None:
            raise Difference(f"client {self.name}: the program did not open its input")
        sent = 0
        while sent < len(content):
            try:
                sent += os.write(self.to_program, content[sent:sent + 4096])
            except (BlockingIOError, BrokenPipeError):
                told = f"client {self.name}: the program does not read its input"
                raise Difference(told) from None

    def close_input(self) -> None:
        if self.to_program is not None:
            os.close(self.to_program)
            self.to_program = None

    def hang_up(self) -> None:
        """Closes the end at which replies are read."""
        if self.from_program is not None:
            os.close(self.from_program)
            self.from_program = None

    def pull(self, wait: float) -> bool:
        """Takes what has come within the time; tells whether anything came."""
        if self.from_program is None:
            time.sleep(min(wait, 0.005))
            return False
        poll = select.poll()
        poll.register(self.from_program, select.POLLIN)
        ready = poll.poll(max(1, int(wait * 1000)))
        if not ready or not ready[0][1] & select.POLLIN:
            if ready:
                time.sleep(min(wait, 0.005))
            return False
        try:
            piece = os.read(self.from_program, 65536)
        except BlockingIOError:
            return False
        self.unread += piece
        return bool(piece)

    def close(self) -> None:
        self.close_input()
        self.hang_up()


class Session:
    """A call of `serve` whose clients speak over named pipes."""

    def __init__(self, program: Program, folder: Path, names: list[str]):
        self.program, self.folder = program, folder
        self.pipes = {name: Pipes(folder, name) for name in names}
        self.process: subprocess.Popen | None = None
        self.deadline = 0.0

    def clients(self) -> list[str]:
        return [f"{one.name}={one.input}:{one.output}" for one in self.pipes.values()]

    def start(self, words: list[str], **options) -> None:
        """Starts the call, and opens each client's input as soon as the program has done so."""
        self.deadline = time.monotonic() + self.program.limit
        self.process = self.program.start(words, self.folder, stdin=subprocess.DEVNULL, **options)
        waiting = list(self.pipes.values())
        while waiting and self.process.poll() is None:
            waiting = [pipe for pipe in waiting if not pipe.connect()]
            if waiting and self.left() <= 0:
                raise Difference(f"client {waiting[0].name}: the program did not open its input"
                                 f" within {self.program.limit:g} s")
            time.sleep(0.002)

    def left(self) -> float:
        return self.deadline - time.monotonic()

    def send(self, name: str, content: bytes) -> None:
        self.pipes[name].send(content)

    def hear(self, name: str, what: str, expected: Expected) -> str:
        """The next reply line of a client."""
        pipe = self.pipes[name]
        while b"\n" not in pipe.unread:
            ended = self.process.poll() is not None
            if not pipe.pull(0.05) and ended and b"\n" not in pipe.unread:
                report = self.process.stderr.read() if self.process.stderr else b""
                differ(what, expected, f"the program's end with status {self.process.returncode}"
                       f" and report {report.decode('utf-8', 'backslashreplace')!r}")
            if self.left() <= 0:
                differ(what, expected, f"no whole reply within {self.program.limit:g} s")
        line, pipe.unread = pipe.unread.split(b"\n", 1)
        return line.decode("utf-8", "backslashreplace")

    def whole_replies(self, name: str) -> int:
        """Takes what an output still holds; tells how many whole replies were not heard."""
        pipe = self.pipes[name]
        while pipe.pull(0.01):
            pass
        return pipe.unread.count(b"\n")

    def kill(self) -> None:
        """SIGKILL, as a power cut would end the program."""
        kill(self.process)

    def end(self) -> Ended:
        """Closes all inputs, waits for the end, and drains every output."""
        for pipe in self.pipes.values():
            pipe.close_input()
        while self.process.poll() is None:
            for pipe in self.pipes.values():
                pipe.pull(0.01)
            if self.left() <= 0:
                raise Difference(f"time: no end within {self.program.limit:g} s"
                                 " after the clients' inputs were closed")
        for pipe in self.pipes.values():
            while pipe.pull(0.001):
                pass
        out = self.process.stdout.read() if self.process.stdout else b""
        report = self.process.stderr.read() if self.process.stderr else b""
        return Ended(self.process.returncode, out, report)

    def close(self) -> None:
        if self.process is not None:
            stop(self.process)
        for pipe in self.pipes.values():
            pipe.close()
            for name in (pipe.input, pipe.output):
                os.unlink(self.folder / name)

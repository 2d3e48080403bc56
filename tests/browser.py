"""A browser that is driven through its pipes, without any network: it opens a page, answers what an
expression comes to in it, and moves and turns the mouse."""
from __future__ import annotations

import base64
import fcntl
import json
import os
import shutil
import subprocess
import tempfile
from collections.abc import Callable
from pathlib import Path
from types import TracebackType
from typing import Any

NAMES = ("chromium", "chromium-browser", "google-chrome")


def found_browser() -> str | None:
    """The browser of this machine, where it has one."""
    return next((path for path in map(shutil.which, NAMES) if path), None)


class Browser:
    """A browser without a window, with one page."""

    def __init__(self, program: str):
        self.profile = tempfile.mkdtemp(prefix="profile")
        commands, self.write = (_high(one) for one in os.pipe())
        self.read, events = (_high(one) for one in os.pipe())

        def as_pipes() -> None:
            os.dup2(commands, 3)
            os.dup2(events, 4)

        self.process = subprocess.Popen(
            [program, "--headless", "--no-sandbox", "--disable-gpu", "--hide-scrollbars",
             "--remote-debugging-pipe", f"--user-data-dir={self.profile}", "about:blank"],
            stdin=subprocess.DEVNULL, stdout=subprocess.DEVNULL, stderr=subprocess.DEVNULL,
            pass_fds=(3, 4), preexec_fn=as_pipes)
        os.close(commands)
        os.close(events)
        self.rest, self.count, self.session = b"", 0, ""
        self.passed: list[dict[str, Any]] = []
        targets = self.call("Target.getTargets")["targetInfos"]
        page = next(one["targetId"] for one in targets if one["type"] == "page")
        self.session = self.call("Target.attachToTarget", targetId=page, flatten=True)["sessionId"]
        self.call("Page.enable")

    def be(self, width: int, height: int, is_dark: bool) -> None:
        """Takes this size, and prefers dark pages, or light ones."""
        self.call("Emulation.setDeviceMetricsOverride", width=width, height=height,
                  deviceScaleFactor=1, mobile=False)
        self.call("Emulation.setEmulatedMedia", features=[
            {"name": "prefers-color-scheme", "value": "dark" if is_dark else "light"}])

    def __enter__(self) -> Browser:
        return self

    def __exit__(self, kind: type[BaseException] | None, failure: BaseException | None,
                 trace: TracebackType | None) -> None:
        os.close(self.write)
        os.close(self.read)
        self.process.terminate()
        self.process.wait()
        shutil.rmtree(self.profile, ignore_errors=True)

    def _message(self) -> dict[str, Any]:
        while b"\0" not in self.rest:
            data = os.read(self.read, 1 << 16)
            if not data:
                raise SystemExit("the browser has ended")
            self.rest += data
        message, self.rest = self.rest.split(b"\0", 1)
        return json.loads(message)

    def _await(self, fits: Callable[[dict[str, Any]], bool]) -> dict[str, Any]:
        for at, message in enumerate(self.passed):
            if fits(message):
                del self.passed[:at + 1]
                return message
        while True:
            message = self._message()
            if fits(message):
                return message
            self.passed.append(message)

    def call(self, method: str, **parameters: Any) -> dict[str, Any]:
        """What the browser answers to a call."""
        self.count += 1
        call = {"id": self.count, "method": method, "params": parameters}
        if self.session:
            call["sessionId"] = self.session
        os.write(self.write, json.dumps(call).encode() + b"\0")
        answer = self._await(lambda one: one.get("id") == self.count)
        if "error" in answer:
            raise SystemExit(f"{method}: {answer['error']}")
        return answer["result"]

    def open(self, file: Path) -> None:
        """Opens a file, and waits until it is drawn."""
        self.passed.clear()
        self.call("Page.navigate", url=file.resolve().as_uri())
        self._await(lambda one: one.get("method") == "Page.loadEventFired")
        self.settle()

    def open_url(self, place: str) -> None:
        """Opens a page of a server of this machine, and waits until it is drawn."""
        self.passed.clear()
        self.call("Page.navigate", url=place)
        self._await(lambda one: one.get("method") == "Page.loadEventFired")
        self.settle()

    def follow(self, expression: str) -> None:
        """Does what leads to another page, and waits until that is drawn."""
        self.passed.clear()
        self.value(f"(() => {{ {expression}; return 1; }})()")
        self._await(lambda one: one.get("method") == "Page.loadEventFired")
        self.settle()

    def settle(self) -> None:
        """Waits for two frames."""
        self.value("new Promise(done => requestAnimationFrame(() => requestAnimationFrame("
                   "() => done(1))))")

    def value(self, expression: str) -> Any:
        """What an expression comes to in the page."""
        told = self.call("Runtime.evaluate", expression=expression, returnByValue=True,
                         awaitPromise=True)
        if "exceptionDetails" in told:
            raise SystemExit(f"{expression}: {told['exceptionDetails']}")
        return told["result"].get("value")

    def mouse(self, kind: str, x: float, y: float, **parameters: Any) -> None:
        """A move, a press, a release or a turn of the wheel, and what is drawn then."""
        self.call("Input.dispatchMouseEvent", type=kind, x=x, y=y, **parameters)
        self.settle()

    def picture(self, file: Path) -> None:
        """Writes what the page looks like, as PNG."""
        file.write_bytes(base64.b64decode(self.call("Page.captureScreenshot")["data"]))


def _high(handle: int) -> int:
    """The same handle under a number above those that the browser takes."""
    moved = fcntl.fcntl(handle, fcntl.F_DUPFD_CLOEXEC, 10)
    os.close(handle)
    return moved

"""A desk before a door and a server, over the example day, for tests: real processes, a store and a
journal of their own. Each answer of the API is compared with the desk's description of it."""
from __future__ import annotations

import http.client
import json
import os
import shutil
import signal
import socket
import subprocess
import sys
import tempfile
from collections.abc import Iterator
from contextlib import ExitStack, contextmanager
from dataclasses import dataclass, field
from pathlib import Path
from typing import Any
from urllib.parse import urlencode

from kidrofemba.desk.openapi import OPERATIONS, schema
from kidrofemba.desk.packages import DEBIANS, NEEDED, missing
from kidrofemba.desk.store import Store
from kidrofemba.journal.journal_file import read_journal
from tests.door_world import KIDROFEMBA, LONG_S, Talk, World, in_memory, wait_until, want

TOP = KIDROFEMBA.parent
WEB = "WEB"
WORDS = "ask,free,show,front,holds"
PASSWORD = "a long password"


def lost_packages() -> str | None:
    """What the desk would lack here; None where it can be started."""
    if not missing():
        return None
    told = subprocess.run([DEBIANS, "-c", "import " + ", ".join(NEEDED)], check=False,
                          capture_output=True) if DEBIANS.exists() else None
    return None if told is not None and told.returncode == 0 else ", ".join(missing())


@dataclass
class Answer:
    """An answer of HTTP."""

    status: int
    headers: http.client.HTTPMessage
    data: bytes

    @property
    def text(self) -> str:
        return self.data.decode()

    @property
    def json(self) -> Any:
        return json.loads(self.data)

    def cookie(self, name: str) -> str:
        """The whole line that sets a cookie, empty where none does."""
        return next((one for one in self.headers.get_all("Set-Cookie") or []
                     if one.startswith(name + "=")), "")


def _is_described(method: str, path: str, answer: Answer) -> None:
    """Fails the case where an answer of the API is not as the description tells it."""
    import jsonschema
    parts = path.partition("?")[0].split("/")
    for verb, place, _, _, answers in OPERATIONS:
        told = place.split("/")
        if verb == method.lower() and len(told) == len(parts) and all(
                one == other or one == "{id}" for one, other in zip(told, parts)):
            want(answer.status in answers, f"{method} {path} answers {answer.status}, which is not "
                                           f"described: {answer.text[:300]}")
            name = answers[answer.status]
            if name is None:
                return
            try:
                jsonschema.validate(answer.json, schema(name))
            except jsonschema.ValidationError as wrong:
                want(False, f"{method} {path}: {wrong.message}")
            return
    want(answer.status == 404, f"{method} {path} is not described: {answer.status}")


@dataclass
class Caller:
    """A program with an API token, or a person's browser with a cookie."""

    port: int
    token: str = ""
    cookie: str = ""
    headers: dict[str, str] = field(default_factory=dict)

    def call(self, method: str, path: str, body: Any = None, **headers: str) -> Answer:
        """The answer to a call; a body that is no text goes as JSON."""
        sent = {name.replace("_", "-"): value for name, value in (self.headers | headers).items()}
        if self.token:
            sent["Authorization"] = f"Bearer {self.token}"
        if self.cookie:
            sent["Cookie"] = self.cookie
        if body is not None and not isinstance(body, bytes | str):
            body, sent["Content-Type"] = json.dumps(body), "application/json"
        link = http.client.HTTPConnection("127.0.0.1", self.port, timeout=LONG_S)
        try:
            link.request(method, path, body, sent)
            told = link.getresponse()
            answer = Answer(told.status, told.headers, told.read())
        finally:
            link.close()
        if path.startswith("/v1/") and not path.startswith("/v1/events"):
            _is_described(method, path, answer)
        return answer

    def get(self, path: str) -> Answer:
        return self.call("GET", path)

    def post(self, path: str, body: Any, **headers: str) -> Answer:
        return self.call("POST", path, body, **headers)

    def form(self, path: str, **fields: str) -> Answer:
        """The answer to a form of a page."""
        return self.call("POST", path, urlencode(fields),
                         Content_Type="application/x-www-form-urlencoded")

    def csrf(self) -> str:
        """The token against forged forms that the pages of this session have."""
        text = self.get("/").text
        return text.split('name="csrf" value="', 1)[1].split('"', 1)[0]


def log_in(port: int, name: str, password: str = PASSWORD) -> Caller:
    """The browser of a person who has logged in."""
    answer = Caller(port).form("/login", name=name, password=password)
    want(answer.status == 303, f"{name} can't log in: {answer.status} {answer.text[:300]}")
    return Caller(port, cookie=answer.cookie("desk_session").split(";", 1)[0])


def moment(text: str, day: int = 1) -> str:
    """A clock time of the example day."""
    return f"2026-12-{day:02}T{text}:00+01:00"


def path_wanted(begin: str, end: str, arrive: tuple[str, str] | None = None, mode: str = "sell",
                key: str | None = None, **more: Any) -> dict[str, Any]:
    """A request of a freight train from Station_0 to Station_2."""
    body: dict[str, Any] = {
        "train": "freight", "mode": mode, "to": {"point": "Station_2/BV"},
        "from": {"point": "Station_0/BV", "depart": {"from": moment(begin), "until": moment(end)}}}
    if arrive is not None:
        body["to"]["arrive"] = {"from": moment(arrive[0]), "until": moment(arrive[1])}
    if key is not None:
        body["key"] = key
    return body | more


def free_port() -> int:
    """A port that nobody listens at."""
    with socket.socket() as trial:
        trial.bind(("127.0.0.1", 0))
        port: int = trial.getsockname()[1]
        return port


@dataclass
class DeskWorld:
    """A desk, its door, and their files."""

    world: World
    port: int
    options: tuple[str, ...] = ()
    process: subprocess.Popen[bytes] | None = None
    door: Any = None
    case: int = 0
    first: int = 0
    freed: int = 0

    @property
    def store(self) -> Path:
        return self.world.folder / "desk.sqlite"

    def words(self, *options: str) -> list[str]:
        """The command of the desk."""
        return [sys.executable, str(KIDROFEMBA), "desk", *self.world.files(), "--trains",
                str(self.world.trains), "--program", str(self.world.program), "--socket",
                str(self.world.socket_of(WEB)), "--store", str(self.store), *options]

    def told(self, *options: str) -> str:
        """What the desk's command prints that does one thing and ends."""
        done = subprocess.run(self.words(*options), capture_output=True, text=True, check=False,
                              timeout=LONG_S)
        want(done.returncode == 0, f"{options}: {done.returncode} {done.stderr}")
        return done.stdout.strip()

    def in_case(self, tenant: str) -> str:
        """A tenant's name in this case: none has the sales of another case."""
        return f"{tenant} {self.case}"

    def token(self, tenant: str, role: str = "operator") -> Caller:
        """A program of a tenant of this case."""
        store = Store(self.store)
        caller = Caller(self.port, store.add_token(self._tenant(store, tenant), role, "test"))
        store.close()
        return caller

    def person(self, name: str, tenant: str, role: str) -> Caller:
        """The browser of a new person of a tenant of this case, who has logged in."""
        store = Store(self.store)
        store.add_person(name, self._tenant(store, tenant), role, PASSWORD)
        store.close()
        return log_in(self.port, name)

    def _tenant(self, store: Store, tenant: str) -> int:
        name = self.in_case(tenant)
        known = {told: number for number, told in store.tenant_names().items()}
        return known[name] if name in known else store.add_tenant(name, 100, 6000)

    def front(self) -> int:
        """How many entries this case has added."""
        return len(read_journal(self.world.journal).entries) - self.first

    def clear(self) -> None:
        """Begins a case: what stands in the journal is freed."""
        self.case += 1
        live = [entry.at for entry in read_journal(self.world.journal).live()]
        with Talk(self.world.socket_of(WEB)) as talk:
            for at in live:
                self.freed += 1
                talk.say(f"free {self.freed} {at}")
        self.first = len(read_journal(self.world.journal).entries)

    def start(self) -> None:
        """Starts the desk, and waits until it answers."""
        with open(self.world.folder / "desk.log", "ab") as log:
            self.process = subprocess.Popen(self.words(
                "--listen", f"127.0.0.1:{self.port}", *self.options), stderr=log, stdout=log)
        wait_until(self.answers, "the desk answers")

    def answers(self) -> bool:
        """Whether the desk answers; fails the case where it has ended."""
        want(self.process is not None and self.process.poll() is None,
             f"the desk ended: {self.log()}")
        try:
            answer = Caller(self.port).get("/login")
        except OSError:
            return False
        want(answer.status == 200, f"the desk fails: {self.log()}")
        return True

    def log(self) -> str:
        return (self.world.folder / "desk.log").read_text()

    def end(self, number: int = signal.SIGTERM) -> int:
        """Ends the desk, and answers its status."""
        assert self.process is not None
        if self.process.poll() is None:
            self.process.send_signal(number)
        return self.process.wait(LONG_S)


_MADE: dict[str, Path] = {}


def example_files(program: Path) -> Path:
    """The folder of an example day without sales; it is made once, by the desk's own modules."""
    if "day" not in _MADE:
        folder = Path(tempfile.mkdtemp(prefix="desk_day."))
        code = ("import sys; from pathlib import Path; from kidrofemba.desk.example import make_day"
                "; make_day(Path(sys.argv[1]), Path(sys.argv[2]))")
        python = sys.executable if not missing() else str(DEBIANS)
        subprocess.run([python, "-c", code, str(folder), str(program)], check=True,
                       env=os.environ | {"PYTHONPATH": str(TOP / "python")}, timeout=LONG_S)
        _MADE["day"] = folder
    return _MADE["day"]


def drop_example() -> None:
    """Removes that folder."""
    if "day" in _MADE:
        shutil.rmtree(_MADE.pop("day"))


@contextmanager
def _started(program: Path, options: tuple[str, ...]) -> Iterator[DeskWorld]:
    """A desk that answers, over an example day of its own."""
    source = example_files(program)
    with tempfile.TemporaryDirectory(dir=in_memory()) as name:
        folder = Path(name)
        world = World(program, folder, network=folder / "network.json",
                      trains=folder / "trains.json", base_object={})
        for file in ("network.json", "trains.json", "base.json", "journal"):
            shutil.copyfile(source / file, folder / file)
        desk = DeskWorld(world, free_port(), options)
        with world.door([WEB], "--allow", f"{WEB}={WORDS}") as door:
            desk.door = door
            try:
                desk.start()
                yield desk
            finally:
                if desk.process is not None:
                    desk.end()


class Desks:
    """Desks that cases use one after the other: one for each way in which it is started."""

    def __init__(self, program: Path):
        self.program = program
        self._stack = ExitStack()
        self._desks: dict[tuple[str, ...], DeskWorld] = {}

    def __enter__(self) -> Desks:
        return self

    def __exit__(self, *_: object) -> None:
        self._stack.close()
        drop_example()

    def of(self, *options: str) -> DeskWorld:
        """A desk of these options, on which nothing of an earlier case stands."""
        if options not in self._desks:
            self._desks[options] = self._stack.enter_context(_started(self.program, options))
        self._desks[options].clear()
        return self._desks[options]

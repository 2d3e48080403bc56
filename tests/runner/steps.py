"""The steps of a scenario."""
from __future__ import annotations

from . import texts
from .calls import Ended, Program, Session
from .compare import Difference, differ, fits, same, same_bytes, same_line, same_lines, same_text
from .texts import BASE, JOURNAL, NETWORK, TRAINS, Place, bytes_of
from .words import OPTIONS, edited_words, words_of

#: Commands that never write to the journal.
READERS = ("list", "stairs", "demo", "check", "capacity")

#: File and status of each kind of faulty file.
FAULTY = {"network": (NETWORK, 3), "base": (BASE, 4), "trains": (TRAINS, 5)}


def talk_of(items: list, place: Place) -> list[tuple[bytes, object]]:
    """Lines with their replies; a reply that is None is not given."""
    talk = []
    for item in items:
        if isinstance(item, dict):
            talk += [(bytes_of(item["line"], place), item["reply"])] * item.get("times", 1)
        else:
            talk.append((bytes_of(item[0], place), item[1]))
    return talk


def is_read(client: dict) -> bool:
    """Whether a client's output is a file that can be looked at."""
    return not client["sink"].startswith("/dev/")


def bounds(step: dict) -> dict:
    """What bounds the calls of a step."""
    return {key: step[key] for key in ("stdout", "stderr", "file_size") if key in step}


class Runner:
    """Runs the steps of one scenario in its folder."""

    def __init__(self, program: Program, place: Place, scenario: dict):
        self.program, self.place, self.scenario = program, place, scenario
        self.at = 0

    def run(self) -> None:
        """Writes the files, then does step after step; raises the first difference."""
        for name, kind in ((NETWORK, "network"), (BASE, "base"), (TRAINS, "trains")):
            form = self.scenario.get(kind, "LINE3" if kind == "network" else kind)
            self.write(name, texts.document(form, name, self.place))
        for name, form in self.scenario.get("files", {}).items():
            self.write(name, self.content_of(form, NETWORK))
        for self.at, step in enumerate(self.scenario["steps"]):
            try:
                getattr(self, "do_" + step["do"], self.do_command)(step)
            except Difference as difference:
                raise Difference(f"step {self.at + 1} ({step['do']}), {difference}") from None

    def write(self, name: str, content: bytes) -> None:
        path = self.place.path(name)
        path.parent.mkdir(parents=True, exist_ok=True)
        path.write_bytes(content)

    def content_of(self, form, kind: str) -> bytes:
        """An edit of a file of tests/, or a text."""
        if texts.is_edit(form):
            return texts.document(form, kind, self.place)
        return bytes_of(form, self.place)

    # Steps on files.

    def do_put(self, step: dict) -> None:
        """Writes a file of the folder."""
        self.write(step["file"], self.content_of(step["content"], step.get("kind", NETWORK)))

    def do_edit(self, step: dict) -> None:
        """Cuts a file, puts bytes at a place, or adds bytes."""
        content = bytearray(self.place.path(step["file"]).read_bytes())
        if "cut" in step:
            del content[step["cut"]:]
        if "at" in step:
            new = texts.hex_bytes(step["hex"], self.place)
            content[step["at"]:step["at"] + len(new)] = new
        if "add" in step:
            content += bytes_of(step["add"], self.place)
        self.write(step["file"], bytes(content))

    def do_copy(self, step: dict) -> None:
        self.write(step["to"], self.place.path(step["file"]).read_bytes())

    def do_folder(self, step: dict) -> None:
        self.place.path(step["name"]).mkdir()

    def do_content(self, step: dict) -> None:
        """Compares a file of the folder: its size, its bytes, its text or its lines."""
        name = step["file"]
        got = self.place.content(name)
        if got is None:
            differ(name, "a file", None)
        if "size" in step:
            same(f"size of {name}", step["size"], len(got))
        if "bytes" in step:
            same_bytes(name, bytes_of(step["bytes"], self.place), got)
        if "text" in step:
            same_text(name, bytes_of(step["text"], self.place), got)
        if "first_line" in step:
            line = got.split(b"\n")[0].decode()
            same_line(f"first line of {name}", step["first_line"], line)

    # Steps that call the program.

    def do_serve(self, step: dict) -> None:
        """One call of `serve`, each client's lines ready before it begins."""
        clients = [dict(client) for client in step["clients"]]
        stdin, words = None, []
        for client in clients:
            client["talk"] = talk_of(client.get("talk", []), self.place)
            given = self.input_of(client)
            source, sink = client.get("in", "file"), client.get("out", "file")
            if source == "stdin":
                stdin = given
            elif source == "file":
                source = f"{client['name']}{self.at}.in"
                self.write(source, given)
            if sink == "file":
                sink = f"{client['name']}{self.at}.out"
            client["sink"] = sink
            words.append(f"{client['name']}={source}:{sink}")
        before = {c["sink"]: self.place.held(c["sink"]) for c in clients if c["sink"] != "stdout"}
        ended = self.call("serve", step, {"client": words}, stdin)
        if self.finish(step, ended, self.report_of(step, clients)):
            for client in clients:
                got = self.gained(client, ended, b"") if is_read(client) else b""
                same_bytes(f"output of {client['name']}", before.get(client["sink"], b""), got)
            return
        outputs = {client["name"]: self.gained(client, ended, before.get(client["sink"], b""))
                   for client in clients if is_read(client)}
        if "either" in step:
            self.check_either(step["either"], outputs)
            return
        for client in clients:
            if client["name"] in outputs:
                expected = [reply for _, reply in client["talk"] if reply is not None]
                if "replies" in client:
                    expected += texts.made(client["replies"], texts.REPLIES)
                same_lines(f"output of {client['name']}", expected, outputs[client["name"]])

    def gained(self, client: dict, ended: Ended, before: bytes) -> bytes:
        """What a client's output holds behind what it held before."""
        if client["sink"] == "stdout":
            return ended.out
        content = self.place.held(client["sink"])
        what = f"output of {client['name']}, the bytes that it held before"
        same_bytes(what, before, content[:len(before)])
        return content[len(before):]

    def input_of(self, client: dict) -> bytes:
        if "raw" in client:
            return bytes_of(client["raw"], self.place)
        return b"".join(line + b"\n" for line, _ in client["talk"])

    def check_either(self, choices: list[dict], outputs: dict[str, bytes]) -> None:
        """Several clients at once: one of the listed outcomes came."""
        got = {name: out.decode("utf-8", "backslashreplace").split("\n")[:-1]
               for name, out in outputs.items()}
        for choice in choices:
            if all(len(lines) == len(got[name]) and all(map(fits, lines, got[name]))
                   for name, lines in choice.items()):
                return
        told = f"{choices[0]} or another listed outcome"
        differ("replies of all clients", told, str(got))

    def report_of(self, step: dict, clients: list[dict]) -> list | dict:
        """The report that is stated, else one line per client and end `input`."""
        if "report" in step:
            return step["report"]
        lines = []
        for client in clients:
            answered = sum(reply is not None for _, reply in client["talk"])
            count, end = client.get("lines", answered), client.get("end", "input")
            lines.append(f"client {client['name']} lines {count} end {end}")
            lines += client.get("rules", [])
        return lines

    def do_session(self, step: dict) -> None:
        """One call of `serve` over named pipes, with the lines in a stated order."""
        session = Session(self.program, self.place.folder, step["clients"])
        try:
            self.speak(session, step)
        finally:
            session.close()

    def speak(self, session: Session, step: dict) -> None:
        values = {"client": session.clients(), **step.get("options", {})}
        form, order = step.get("form", "plain"), step.get("order", "table")
        session.start(words_of("serve", values, form, order), **bounds(step))
        counts = dict.fromkeys(step["clients"], 0)
        for number, item in enumerate(step["talk"]):
            verb = item[0] if item[0].startswith("!") else "!say"
            if verb == "!say":
                item = ["!say", *item]
            what = f"talk {number + 1} ({item[1] if len(item) > 1 else ''})"
            if verb == "!kill":
                session.kill()
                return
            if verb == "!close":
                session.pipes[item[1]].close_input()
            if verb == "!hang_up":
                session.pipes[item[1]].hang_up()
            if verb == "!part":
                session.send(item[1], bytes_of(item[2], self.place))
            if verb in ("!say", "!send"):
                session.send(item[1], bytes_of(item[2], self.place) + b"\n")
            if verb in ("!say", "!hear"):
                expected = item[3] if verb == "!say" else item[2]
                same_line(what, expected, session.hear(item[1], what, expected))
                counts[item[1]] += 1
        ended = session.end()
        for name, pipe in session.pipes.items():
            if pipe.unread:
                differ(f"output of {name} after its last reply", None, pipe.unread)
        served = [f"client {name} lines {count} end input" for name, count in counts.items()]
        self.finish(step, ended, step.get("report", served))

    def do_storm(self, step: dict) -> None:
        """Sends holds all at once, kills the program behind some replies, and asks for all again.

        Every hold whose reply had come must stand; those behind it that stand too must be
        without a gap.
        """
        lines = texts.made({"holds": step["lines"]}, texts.LINES)
        content = "".join(line + "\n" for line in lines).encode()
        held = texts.made({"held": step["lines"]}, texts.REPLIES)
        options = step.get("options", {})
        session = Session(self.program, self.place.folder, ["A"])
        try:
            session.start(words_of("serve", {"client": session.clients(), **options}))
            session.send("A", content)
            for at in range(step["replies"]):
                what = f"reply {at + 1} before the kill"
                same_line(what, held[at], session.hear("A", what, held[at]))
            session.kill()
            answered = step["replies"] + session.whole_replies("A")
        finally:
            session.close()
        self.write("storm.in", content)
        self.write("storm.out", b"")
        words = words_of("serve", {"client": "A=storm.in:storm.out", **options})
        ended = self.program.call(words, self.place.folder)
        self.finish(step, ended, [f"client A lines {len(lines)} end input"])
        got = self.place.held("storm.out")
        stood = sum(not line.startswith(b"held ") for line in got.split(b"\n")[:-1])
        if stood < answered:
            differ("holds that stand after the kill", f"the {answered} that were answered", stood)
        kept = [f"kept {n} entry {n - 1} at {stood} {line.replace(f'hold {n}', 'hold', 1)}"
                for n, line in enumerate(lines, 1)]
        same_lines("replies after the kill", kept[:stood] + held[stood:], got)

    def do_words(self, step: dict) -> None:
        """A call with the words as they are written."""
        self.check_call(step, step["words"], self.bytes_or_none(step.get("stdin")))

    def do_misworded(self, step: dict) -> None:
        """A command's words with an edit for each case; all are refused, and nothing happens."""
        values = {"client": "A=a.in:a.out", "out": "out", "entry": 0, "number": 1,
                  "proof": "proofs" if step["of"] == "check" else None, "workers": 1,
                  "first": 0, "last": 2, "from": 0, "to": 1000, **step.get("options", {})}
        if step["of"] == "init":
            values.pop("from", None)
        plain = words_of(step["of"], values)
        journals = self.journals()
        for case in step["cases"]:
            words = edited_words(plain, case)
            ended = self.program.call(words, self.place.folder)
            what = "words " + " ".join(map(repr, words)) + ", "
            same(what + "exit status", 2, ended.status)
            same_lines(what + "report", ["words not understood"], ended.report)
            same_bytes(what + "standard output", b"", ended.out)
            for name in ("a.out", "out"):
                same_bytes(what + name, b"", self.place.held(name))
            self.check_journals(journals)

    def do_faulty(self, step: dict) -> None:
        """A file for each case, with the fault that it is refused for, or none."""
        kind = step["kind"]
        name, status = FAULTY[kind]
        values, command = {"journal": "new"}, "init"
        if kind == "trains":
            values, command = {"journal": JOURNAL, "client": "A=a.in:a.out"}, "serve"
        words = words_of(command, values)
        self.write("a.in", b"")
        for number, case in enumerate(step["cases"], 1):
            is_text = any(key in case for key in ("text", "hex", "json"))
            form = case if is_text else {"like": step["like"], **case}
            self.write(name, texts.document(form, name, self.place))
            ended = self.program.call(words, self.place.folder)
            what = f"case {number} ({case['fault'] or 'no fault'}), "
            if case["fault"] is None:
                served = b"client A lines 0 end input\n" if kind == "trains" else b""
                same_bytes(what + "report", served, ended.report)
                same(what + "exit status", 0, ended.status)
            else:
                same_lines(what + "report", [f"{kind}: {case['fault']}"], ended.report)
                same(what + "exit status", status, ended.status)
                same_bytes(what + "the journal", b"", self.place.held("new"))
            self.place.path("new").unlink(missing_ok=True)

    def do_command(self, step: dict) -> None:
        """A command with its options, other than `serve`."""
        command = step["do"]
        if command not in OPTIONS:
            raise ValueError(f"no such step: {command}")
        values = dict(step.get("options", {}))
        if "out" in OPTIONS[command]:
            values.setdefault("out", f"out{self.at}")
        if command == "batch":
            values["client"] = f"{step.get('name', 'B')}=batch{self.at}.in:batch{self.at}.out"
            self.write(f"batch{self.at}.in", bytes_of(step["input"], self.place))
        words = words_of(command, values, step.get("form", "plain"), step.get("order", "table"))
        self.check_call(step, words, self.bytes_or_none(step.get("stdin")), values.get("out"))

    def check_call(self, step: dict, words: list[str], stdin: bytes | None,
                   sink: str | None = None) -> None:
        """One call: its end, what its output gained, and that the journal is as it was."""
        sink = step.get("sink", sink)
        if step["do"] == "batch":
            sink = f"batch{self.at}.out"
        is_file = sink not in (None, "stdout") and not sink.startswith("/dev/")
        journals = self.journals()
        held = self.place.held(sink) if is_file else b""
        ended = self.program.call(words, self.place.folder, stdin=stdin, **bounds(step))
        refused = self.finish(step, ended, step.get("report", []))
        if (refused or step["do"] in READERS) and step.get("status") != 8:
            self.check_journals(journals)
        if step["do"] == "batch" and "either" in step:
            self.check_either([{"B": choice} for choice in step["either"]],
                              {"B": self.place.held(sink)})
            return
        expected = self.bytes_or_none(step.get("out"))
        if isinstance(step.get("out"), dict) and "demo" in step["out"]:
            expected = texts.demo_line(step["out"]["demo"]).encode()
        if sink == "stdout":
            same_text("standard output", expected or b"", ended.out)
            return
        same_bytes("standard output", b"", ended.out)
        if is_file and not self.place.path(sink).is_dir():
            content = self.place.content(sink)
            if expected is not None or content is not None:
                same_text(sink, held + (expected or b""), content)

    def call(self, command: str, step: dict, values: dict, stdin: bytes | None) -> Ended:
        words = words_of(command, {**values, **step.get("options", {})},
                         step.get("form", "plain"), step.get("order", "table"))
        journals = self.journals()
        ended = self.program.call(words, self.place.folder, stdin=stdin, **bounds(step))
        if 1 <= step.get("status", 0) <= 8:
            self.check_journals(journals)
        if not any(word.endswith("stdout") for word in words):
            same_bytes("standard output", b"", ended.out)
        return ended

    def finish(self, step: dict, ended: Ended, report: list | dict) -> bool:
        """Status and report; tells whether the command was refused before it served anybody."""
        status = step.get("status", 0)
        if ended.status != status:
            told = ended.report.decode("utf-8", "backslashreplace")
            differ("exit status", status, f"{ended.status}, report {told}")
        if "stderr" not in step:
            if isinstance(report, dict):
                choices = [{"report": choice} for choice in report["one_of"]]
                self.check_either(choices, {"report": ended.report})
            else:
                same_lines("report", [texts.fill(line, self.place) if isinstance(line, str)
                                      else line for line in report], ended.report)
        return 1 <= status <= 8

    def bytes_or_none(self, form) -> bytes | None:
        if form is None or isinstance(form, dict) and "demo" in form:
            return None
        return bytes_of(form, self.place)

    def journals(self) -> dict[str, bytes]:
        names = [JOURNAL, *self.scenario.get("journals", [])]
        return {name: self.place.held(name) for name in names}

    def check_journals(self, before: dict[str, bytes]) -> None:
        """After a refusal a journal holds what it held; a missing one may be there and empty."""
        for name, content in before.items():
            what = f"{name}, which this call must not change"
            same_bytes(what, content, self.place.held(name))

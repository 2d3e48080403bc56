"""Tests of `kidrofemba ask`: before a door with real processes, and before a socket that replies as
a failing server does."""
from __future__ import annotations

import argparse
import json
import shutil
import socket
import subprocess
import sys
import threading
import time
from collections.abc import Iterator, Sequence
from contextlib import contextmanager
from pathlib import Path

from kidrofemba.common.companion import Refused
from kidrofemba.door.client import Numbers, PathClient
from kidrofemba.journal.journal_file import read_journal
from tests.door_world import (EXAMPLES, KIDROFEMBA, LONG_S, PROGRAM, Talk, World, in_memory,
                              new_world, run_cases, wait_until, want)

BASE = {"tick_s": 10, "setting": 1, "release": 1, "horizon": 17280, "journal_bytes": 268435456,
        "trains": []}
LINE3 = EXAMPLES / "line3.json"


def client_words(path: Path, *options: str) -> list[str]:
    return [sys.executable, str(KIDROFEMBA), "ask", "--socket", str(path), *options]


def told_by(path: Path, lines: str, *options: str) -> tuple[int, list[str], str]:
    """The status, the answers and the complaints of a client to which these lines are given."""
    told = subprocess.run(client_words(path, *options), input=lines, capture_output=True, text=True,
                          timeout=LONG_S, check=False)
    return told.returncode, told.stdout.splitlines(), told.stderr


def answers_are_in_clock_times(program: Path) -> None:
    """The path of a known train over three blocks leaves at tick 6 and arrives at tick 45; ticks
    are 10 s, and tick 0 is at 23:55."""
    base = BASE | {"begins": "2026-11-29T23:55:00+01:00"}
    with new_world(program, in_memory(), network=LINE3, base_object=base) as world:
        with world.door(["A"], "--allow", "A=ask,hold,holds,free,show,front"):
            lines = ("# a note\n\nask 1 F1 W E 23:56 23:56:09 23:00 06:00+1d 0\nhold 2 1 37 50\n"
                     "hold 2 1 38 50\nholds 3 a%20fire 2 0 60 61 1 60 70\nfree 4 1\nshow 0\n"
                     "ask 1 F1 W E 6 6 -330 2190 0\npin 5 F1 1 0 0 15 1\nfront\nhold x\n")
            status, told, wrong = told_by(world.socket_of("A"), lines, "--base", str(world.base))
            want(status == 0 and not wrong, f"{status} {wrong}")
            path = "departs 23:56:00 from W, arrives 00:02:30+1d at E"
            fire = "zone 0 00:05:00+1d to 00:05:10+1d, zone 1 00:05:00+1d to 00:06:40+1d"
            want(told == [f"granted 1 entry 0 at 1: {path}",
                          "taken 2 zone 1 by entry 0 at 1: zone 1 is not free then, entry 0, which "
                          "`show 0` tells, has it: choose other times",
                          "held 2 entry 1 at 2: zone 1 00:01:20+1d to 00:03:20+1d",
                          f"held 3 entry 2 at 3: {fire}",
                          "freed 4 entry 3 of 1 at 4: entry 1 is given back",
                          "shown 0 at 4 owner A number 1: departs 23:56:00, arrives 00:02:30+1d "
                          "live",
                          f"kept 1 entry 0 at 4: done before, {path}",
                          "closed pin: you may not send `pin` here: who runs the door has not "
                          "allowed it", "front at 4",
                          "bad 2: x (number) is not known or not in its form: wanted is a whole "
                          "number, 0 to 9223372036854775807, or `-` with --state"],
                 "\n".join(told))
            lines = "show 1\nshow 2\nshow 3\nask 1 F1 W E 6 6 -330 2190 0\n"
            told = told_by(world.socket_of("A"), lines, "--base", str(world.base), "--runs")[1]
            want(told == ["shown 1 at 4 owner A number 2: zone 1 00:01:20+1d to 00:03:20+1d "
                          "freed 3",
                          "shown 2 at 4 owner A number 3: zone 0 00:05:00+1d to 00:05:10+1d, "
                          "zone 1 00:05:00+1d to 00:06:40+1d live",
                          "shown 3 at 4 owner A number 4 free 1 done",
                          f"kept 1 entry 0 at 4: done before, {path}",
                          "  block 0 23:56:00 to 23:58:30", "  block 1 23:58:30 to 00:00:10+1d",
                          "  block 2 00:00:10+1d to 00:02:30+1d"], "\n".join(told))
            told = told_by(world.socket_of("A"), "show 0\n")[1]
            want(told == ["shown 0 at 4 owner A number 1: departs tick 6, arrives tick 45 live"],
                 "without --base: " + "\n".join(told))


def unknown(field: int, what: str, wanted: str) -> str:
    """What is told of a field that the program does not know."""
    return f"bad {field}: {what} is not known or not in its form: wanted is {wanted}"


def bad_fields_are_named(program: Path) -> None:
    """Of each line the field that the program refuses, by its name and word."""
    point = "the name of an operational point of the network"
    tick = "a clock time beside --base, or a tick, -100000 to 100000"
    dwell = "how long the train stands at least, as 8min beside --base, or 0 to 17280 ticks"
    rows = {
        "ask 1 F9 W E 6 6 0 100 0": unknown(
            3, "F9 (train)", "the name of a train of the train file, %20 for a space"),
        "ask 1 F1 Station_2 E 6 6 0 100 0": unknown(4, "Station_2 (origin)", point),
        "ask 1 F1 W X 6 6 0 100 0": unknown(5, "X (destination)", point),
        "ask 1 F1 W E six 6 0 100 0": unknown(6, "six (begin of the departure)", tick),
        "ask 1 F1 W E 6 6 0": f"bad 9: end of the arrival is missing: wanted is {tick}",
        "ask 1 F1 W E 6 6 0 100 0 M 6": "bad 11: M is one field too many",
        "ask 1 F1 W E 6 6 0 100 2 M 6 N 6": unknown(13, "N (stop 2)", point),
        "ask 1 F1 W E 6 6 0 100 1 M x": unknown(12, "x (dwell at stop 1)", dwell),
        "ask 1 F1 W E 6 6 0 100 1": f"bad 11: stop 1 is missing: wanted is {point}",
        "after 0 ask 1 F1 X E 6 6 0 100 0": unknown(6, "X (origin)", point),
        "hold 1 7 5 6": unknown(3, "7 (zone)", "the number of a zone of the network"),
        "hold 1 0 5": f"bad 5: end is missing: wanted is behind the begin, {tick}",
        "holds 1 a%2 1 0 5 6": unknown(3, "a%2 (reason)", "1 to 255 bytes, %20 for a space"),
        "holds 1 a 2 0 5 6 1 5 x": unknown(10, "x (end of span 2)", f"behind its begin, {tick}"),
        "pin 1 F1 1 9 6 21 1": unknown(
            5, "9 (block of run 1)", "the number of a block of the network"),
        "pin 1 F1 1 0 6 21 2": unknown(
            8, "2 (stops of run 1)", "1 where the train stops at the end of the block, else 0"),
        "free 1 x": unknown(3, "x (entry)", "the number of an entry, as replies tell it"),
        "show x": unknown(2, "x (entry)", "the number of an entry, as replies tell it"),
        "show 0 0": "bad 3: 0 is one field too many",
        "front 0": "bad 2: 0 is one field too many",
        "hodl 1 0 5 6": "bad 1: hodl is no word of a line: wanted is one of ask, hold, holds, pin, "
                        "free, show, front",
    }
    with new_world(program, in_memory(), network=LINE3) as world, world.door(["A"]):
        status, told, wrong = told_by(world.socket_of("A"), "".join(row + "\n" for row in rows))
        want(status == 0 and not wrong, f"{status} {wrong}")
        want(told == list(rows.values()), "\n".join(
            f"{line}: {one}" for (line, wanted), one in zip(rows.items(), told) if one != wanted))
        # A front that was seen stands before the line that is sent, and is not counted.
        lines = "hold 1 0 5 6\nshow x\n"
        told = told_by(world.socket_of("A"), lines)[1]
        want(told[1:] == [rows["show x"]], f"{told}")


def numbers_are_kept_over_runs(program: Path) -> None:
    with new_world(program, in_memory(), network=LINE3) as world, world.door(["A"]):
        state, path = world.folder / "A.state", world.socket_of("A")
        given = ["--state", str(state), "--first", "100"]
        want(told_by(path, "hold - 0 5 6\nhold - 0 6 7\n", *given)[1]
             == ["held 100 entry 0 at 1", "held 101 entry 1 at 2"], "the first run")
        want(told_by(path, "hold - 0 7 8\n", *given)[1] == ["held 102 entry 2 at 3"], "the second")
        # A run that ended behind its note, before the line was sent; and one that ended behind it.
        with state.open("a") as out:
            out.write("open 103 hold 103 0 8 9\nopen 104 hold 104 0 5 6\nopen 105 ho")
        want(told_by(path, "hold - 0 9 10\n", *given)[1]
             == ["left open before: held 103 entry 3 at 4",
                 "left open before: taken 104 zone 0 by entry 0 at 4: zone 0 is not free then, "
                 "entry 0, which `show 0` tells, has it: choose other times",
                 "held 105 entry 4 at 5"],
             "left open")
        with state.open("a") as out:
            out.write("open 102 hold 102 0 7 8\n")
        want(told_by(path, "hold - 0 20 21\n", *given)[1]
             == ["left open before: kept 102 entry 2 at 5: done before, zone 0 tick 7 to tick 8",
                 "held 106 entry 5 at 6"], "done before")
        want(told_by(path, "", *given)[1] == [], "nothing is open")
        numbers = Numbers(state)
        try:
            status, _, wrong = told_by(path, "front\n", *given)
            want(status == 2 and wrong == f"ask: {state}: another client has this file\n", wrong)
        finally:
            numbers.close()


def clients_outlive_servers_and_doors(program: Path) -> None:
    """While a file of 400 lines is sent, the server is killed twice, and the door once."""
    with new_world(program, in_memory()) as world:
        lines = world.folder / "lines"
        lines.write_text("".join(f"hold {at} 0 {2 * at} {2 * at + 1}\n" for at in range(400)))
        path = world.socket_of("A")
        with world.door(["A"]) as door:
            client = subprocess.Popen(client_words(path, "--file", str(lines)),
                                      stdout=subprocess.PIPE, text=True)
            for front in (60, 120):
                wait_for_front(world, front)
                door.kill_server()
            wait_for_front(world, 180)
            door.process.kill()
            door.process.wait()
        with world.door(["A"]):
            out = client.communicate(timeout=LONG_S)[0].splitlines()
        want(client.returncode == 0, f"the client ended with {client.returncode}")
        want([row.split()[:2] for row in out] in ordered(400), f"{len(out)} answers")
        entries = read_journal(world.journal).entries
        want([entry.number for entry in entries] == list(range(400)), f"{len(entries)} entries")


class ordered:
    """Answers `held` or `kept` to the numbers from 0 on, each once, in their order."""

    def __init__(self, count: int):
        self.count = count

    def __contains__(self, rows: Sequence[list[str]]) -> bool:
        return len(rows) == self.count and all(
            word in ("held", "kept") and number == str(at)
            for at, (word, number) in enumerate(rows))


def wait_for_front(world: World, front: int) -> None:
    wait_until(lambda: len(read_journal(world.journal).entries) >= front, f"{front} entries")


def journals_that_were_set_back_are_noticed(program: Path) -> None:
    with new_world(program, in_memory(), network=LINE3) as world:
        state, path = world.folder / "A.state", world.socket_of("A")
        older = world.folder / "older"
        with world.door(["A"]):
            told_by(path, "hold - 0 5 6\n", "--state", str(state))
            shutil.copy(world.journal, older)
            told_by(path, "hold - 0 6 7\nhold - 0 7 8\n", "--state", str(state))
        shutil.copy(older, world.journal)
        with world.door(["A"]):
            status, told, wrong = told_by(path, "front\n", "--state", str(state))
            want(status == 2 and not told, f"{status} {told}")
            want(wrong == f"ask: {path}: ahead 3 at 1: the server has fewer than the 3 entries "
                 "that this client has seen: its journal was set back, or is a new one; where its "
                 "operator told you so, go on with --forget-front\n", wrong)
            # Numbers and open lines stay; what the client sees from then on counts again.
            with state.open("a") as out:
                out.write("open 4 hold 4 0 8 9\n")
            status, told, wrong = told_by(path, "hold - 0 9 10\n", "--state", str(state),
                                          "--forget-front")
            want((status, told) == (0, ["left open before: held 4 entry 1 at 2",
                                        "held 5 entry 2 at 3"]), f"{told} {wrong}")
            rows = state.read_text().splitlines()
            want(rows[0] == "last 4 0" and rows[-1] == "done 5 3", f"{rows}")


def open_lines_outlast_words_that_are_closed(program: Path) -> None:
    """A door may let clients look alone for a while: what is open stays so until it is answered."""
    with new_world(program, in_memory(), network=LINE3) as world:
        state, path = world.folder / "A.state", world.socket_of("A")
        state.write_text("last 2 0\nopen 3 hold 3 0 8 9\n")
        with world.door(["A"], "--allow", "A=front,show"):
            told = told_by(path, "front\nhold - 0 9 10\n", "--state", str(state))[1]
            closed = ("closed hold: you may not send `hold` here: who runs the door has not "
                      "allowed it")
            want(told == [f"left open before: {closed}", "front at 0", closed], f"{told}")
        with world.door(["A"]):
            told = told_by(path, "hold - 0 5 6\n", "--state", str(state))[1]
            want(told == ["left open before: held 3 entry 0 at 1", "held 5 entry 1 at 2"],
                 f"{told}")


def open_lines_stay_with_their_base_file(program: Path) -> None:
    """A line that was begun beside Monday's base file has Monday's ticks: beside another base file
    it isn't sent, until the client says that it is dropped."""
    with new_world(program, in_memory(), network=LINE3) as world, world.door(["A"]):
        state, path = world.folder / "A.state", world.socket_of("A")
        tuesday = world.folder / "tuesday.json"
        tuesday.write_text(json.dumps(BASE | {"begins": "2026-12-01T00:00:00+01:00"}))
        day = ["--state", str(state), "--base"]
        want(told_by(path, "hold - 0 5 6\n", *day, str(world.base))[1]
             == ["held 1 entry 0 at 1: zone 0 00:00:50 to 00:01:00"], "Monday")
        with state.open("a") as out:
            out.write("open 2 hold 2 0 7 8\nopen 3 free 3 0\n")
        for base in ([*day, str(tuesday)], day[:2]):
            status, told, wrong = told_by(path, "hold - 0 20 21\n", *base)
            want((status, told) == (2, []), f"{status} {told}")
            want(wrong.startswith(f"ask: {state}: not sent, as ticks and entries may mean "
                                  "something else now: hold 2 0 7 8; free 3 0: give the --base")
                 and wrong.endswith(", and drop them by --drop-open\n"), wrong)
        want(len(read_journal(world.journal).entries) == 1, "something is sent")
        # Beside their own base file they are sent, though other runs refused them.
        with state.open("a") as out:
            out.write("done 3 0\n")
        want(told_by(path, "", *day, str(world.base))[1]
             == ["left open before: held 2 entry 1 at 2: zone 0 00:01:10 to 00:01:20"],
             "Monday again")
        with state.open("a") as out:
            out.write("open 4 hold 4 0 9 10\n")
        beside = [*day, str(tuesday), "--drop-open"]
        status, told, wrong = told_by(path, "hold - 0 20 21\n", *beside)
        # The server's journal is Monday's: a line with Tuesday's ticks is for another one.
        want((status, told) == (2, ["dropped: hold 4 0 9 10"]), f"{told} {wrong}")
        want("its journal is of another base file" in wrong, wrong)
        beside = [*day, str(world.base), "--drop-open"]
        want(told_by(path, "", *beside)[:2] == (0, ["dropped: hold 5 0 20 21"]),
             "Tuesday's line is sent")
        with state.open("a") as out:
            out.write("open 6 hold 6 0 30 31\n")
        want(told_by(path, "", *beside)[1]
             == ["left open before: held 6 entry 2 at 3: zone 0 00:05:00 to 00:05:10"],
             "a line of this base file is dropped")


@contextmanager
def failing_door(folder: Path, replies: list[bytes]) -> Iterator[tuple[Path, list[bytes]]]:
    """A socket that gives these replies, and ends a connection behind one that is not whole; and
    the lines that came."""
    path, lines = folder / "failing.sock", []
    listener = socket.socket(socket.AF_UNIX)
    listener.bind(str(path))
    listener.listen()

    def serve() -> None:
        left = list(replies)
        while left:
            stream, _ = listener.accept()
            is_whole = True
            with stream, stream.makefile("rb") as source:
                while left and is_whole:
                    lines.append(source.readline())
                    stream.sendall(left[0])
                    is_whole = left.pop(0).endswith(b"\n")

    thread = threading.Thread(target=serve, daemon=True)
    thread.start()
    yield path, lines
    thread.join(LONG_S)
    listener.close()


def lines_are_sent_again_until_they_are_answered(program: Path) -> None:
    with new_world(program, in_memory()) as world:
        replies = [b"", b"disk-fault\n", b"grant", b"unsettled 4 entry 0 at 0\n", b"no-memory\n",
                   b"again 4 entry 9 searched 9 at 12\n", b"kept 4 entry 0 at 12 hold 0 5 6\n"]
        with failing_door(world.folder, replies) as (path, lines):
            begun = time.monotonic()
            with_state = PathClient(path, Numbers(world.folder / "state", 4))
            told = with_state.want("hold", "0 5 6")
            with_state.close()
            want(told == "kept 4 entry 0 at 12 hold 0 5 6", told)
            want(time.monotonic() - begun > 3, "it does not wait between")
            want(with_state.front == 12, f"the front is {with_state.front}")
        want(set(lines) == {b"hold 4 0 5 6\n"} and len(lines) == len(replies), f"{lines}")
        rows = (world.folder / "state").read_text().splitlines()
        want(rows == ["last 3 0", "base -", "open 4 hold 4 0 5 6", "done 4 12"], f"{rows}")
        (world.folder / "failing.sock").unlink()
        with failing_door(world.folder, [b"front at 12\n"]) as (path, lines):
            told = PathClient(path, None).send("front")
            want(told == "front at 12" and lines == [b"front\n"], f"{told} {lines}")


def fronts_that_were_seen_stand_before_lines(program: Path) -> None:
    with new_world(program, in_memory()) as world:
        with failing_door(world.folder, [b"shown 0 at 7 owner at number 1 hold 0 5 6 live\n",
                                         b"front at 9\n", b"front at 9\n"]) as (path, lines):
            client = PathClient(path, None)
            for line in ("show 0", "front", "after 1 front"):
                client.send(line)
        want(lines == [b"show 0\n", b"after 7 front\n", b"after 1 front\n"], f"{lines}")


def refusals_have_a_place(program: Path) -> None:
    with new_world(program, in_memory()) as world:
        nowhere, lines = world.folder / "nowhere", world.folder / "lines"
        base = world.folder / "base.json"
        begun = time.monotonic()
        status, told, wrong = told_by(nowhere, "front\n", "--give-up", "1")
        want(status == 2 and not told, f"{status} {told}")
        want(wrong == f"ask: {nowhere}: no answer: [Errno 2] No such file or directory\n", wrong)
        want(0.3 < time.monotonic() - begun < LONG_S, "it waits about a second")
        for text, place in (("front\nask 1 F1 W E 25:00 1 1 1 0\n", "line 2: 25:00 (begin of the "
                             "departure): no clock time"),
                            ("hold 1 0 5 6\u00e9\n", "line 1: a byte that no line has"),):
            lines.write_text(text)
            status, told, wrong = told_by(nowhere, "", "--file", str(lines), "--give-up", "0.1",
                                          "--base", str(base)) if text[0] == "h" else \
                with_door(program, lines, base)
            want(status == 2 and wrong.startswith(f"ask: {lines}: {place}"), wrong)
        status, _, wrong = told_by(nowhere, "hold - 0 5 6\n")
        want(status == 2 and wrong.endswith("a number `-` needs --state\n"), wrong)
        base.write_text(json.dumps({"tick_s": "ten"}))
        status, _, wrong = told_by(nowhere, "front\n", "--base", str(base))
        want(status == 2 and wrong == f"ask: {base}: `tick_s` is no whole number of seconds\n",
             wrong)
        for option in ("--forget-front", "--drop-open"):
            status, _, wrong = told_by(nowhere, "front\n", option)
            want(status == 2 and wrong.endswith(": are about --state\n"), wrong)
        (world.folder / "state").write_text("last 3 0\nend 4 5\n")
        status, _, wrong = told_by(nowhere, "front\n", "--state", str(world.folder / "state"))
        want(status == 2 and ": line 2: is no row" in wrong, wrong)
        try:
            Numbers(world.folder / "state")
        except Refused:
            return
        want(False, "the module takes a state that it does not understand")


def with_door(program: Path, lines: Path, base: Path) -> tuple[int, list[str], str]:
    """A client before a door, as its first line is a good one."""
    with new_world(program, in_memory()) as world, world.door(["A"]):
        return told_by(world.socket_of("A"), "", "--file", str(lines), "--base", str(base))


def a_terminal_is_served_line_by_line(program: Path) -> None:
    """Each answer is there before the next line is typed."""
    with new_world(program, in_memory()) as world, world.door(["A"]):
        client = subprocess.Popen(client_words(world.socket_of("A")), stdin=subprocess.PIPE,
                                  stdout=subprocess.PIPE, text=True)
        with client:
            for front in range(3):
                client.stdin.write(f"hold {front} 0 {front} {front + 1}\n")
                client.stdin.flush()
                told = client.stdout.readline()
                want(told == f"held {front} entry {front} at {front + 1}\n", told)
            with Talk(world.socket_of("A")) as other:
                want(other.say("front") == ["front at 3"], "another connection of the client")
            client.stdin.close()
            want(client.wait(LONG_S) == 0, f"it ended with {client.returncode}")


CASES = [answers_are_in_clock_times, bad_fields_are_named, numbers_are_kept_over_runs,
         clients_outlive_servers_and_doors, journals_that_were_set_back_are_noticed,
         lines_are_sent_again_until_they_are_answered, fronts_that_were_seen_stand_before_lines,
         open_lines_stay_with_their_base_file, open_lines_outlast_words_that_are_closed,
         refusals_have_a_place, a_terminal_is_served_line_by_line]


def main() -> int:
    parser = argparse.ArgumentParser(description=__doc__)
    parser.add_argument("--program", type=Path, default=PROGRAM)
    parser.add_argument("--case", help="the one case of this name")
    options = parser.parse_args()
    cases = [case for case in CASES if options.case in (None, case.__name__)]
    return run_cases(cases, options.program.resolve())


if __name__ == "__main__":
    sys.exit(main())

#!/usr/bin/env python3
"""Stories of the desk's API, before a real door and server over the example day.

    PYTHONPATH=python python3 -m tests.test_desk_api --program crates/stdcm/out/stdcm
"""
from __future__ import annotations

import argparse
import http.client
import json
import os
import sqlite3
import subprocess
import sys
import threading
import time
from concurrent.futures import ThreadPoolExecutor
from pathlib import Path
from typing import Any

from kidrofemba.desk.store import Store
from kidrofemba.journal.journal_file import read_journal
from tests.desk_world import (TOP, Caller, Desks, lost_packages, moment,
                              path_wanted)
from tests.door_world import LONG_S, PROGRAM, run_cases, wait_until, want

DEPARTS, ARRIVES = "2026-12-01T06:07:10+01:00", "2026-12-01T06:44:40+01:00"
"""The path that README tells for a departure from 06:00 to 08:00."""
SPECIAL = ("--secure", "--streams", "3", "--offer-minutes", "0.1", "--patience", "3")
"""How the desk is started for cases of its limits."""


def is_problem(answer: Any, status: int, name: str) -> None:
    """Fails the case where an answer is not this fault, in the form of RFC 9457."""
    want(answer.status == status, f"{answer.status}, not {status}: {answer.text[:300]}")
    want(answer.headers["Content-Type"].startswith("application/problem+json"),
         answer.headers["Content-Type"])
    told = answer.json
    want(told["type"] == f"urn:kidrofemba:{name}" and told["status"] == status, answer.text)
    want("Traceback" not in answer.text and "/python/" not in answer.text, answer.text)


def a_path_is_seen_bought_kept_and_given_back(desks: Desks) -> None:
    desk = desks.of()
    one = desk.token("Freight Ltd")
    seen = one.post("/v1/requests", path_wanted("06:00", "08:00", mode="try"))
    want(seen.status == 200 and seen.json["state"] == "seen", seen.text)
    want((seen.json["departs"], seen.json["arrives"]) == (DEPARTS, ARRIVES), seen.text)
    want(desk.front() == 0, "a look has sold something")
    sold = one.post("/v1/requests", path_wanted("06:00", "08:00", key="a"))
    want(sold.status == 201 and not sold.json["kept"], sold.text)
    rows = sold.json["rows"]
    want([row["point"] for row in rows] == ["Station_0/BV", "Station_1_freight/FR",
                                            "Station_1/BV", "Station_2/BV"], sold.text)
    want(rows[0]["depart"] == DEPARTS and rows[-1]["arrive"] == ARRIVES, sold.text)
    want(rows[0]["arrive"] is None and rows[1]["pass"] > DEPARTS, sold.text)
    path = sold.json["id"]
    want(sold.headers["Location"] == f"/v1/paths/{path}", sold.text)
    again = one.post("/v1/requests", path_wanted("06:00", "08:00", key="a"))
    want(again.status == 200 and again.json["kept"] and again.json["id"] == path, again.text)
    entry = read_journal(desk.world.journal).entries[-1]
    tenant, count = map(int, path.split("-"))
    want((entry.owner, entry.number) == ("WEB", tenant * 10 ** 12 + count), f"{entry}")
    other = one.post("/v1/requests", path_wanted("06:00", "09:00", key="a"))
    is_problem(other, 422, "key-used")
    want(one.get("/v1/paths").json["paths"][0]["id"] == path, "is not listed")
    for _ in range(2):
        want(one.call("DELETE", f"/v1/paths/{path}").status == 204, "is not given back")
    want(one.get(f"/v1/paths/{path}").json["state"] == "freed", "does not say freed")
    want(desk.front() == 2, "was given back twice")


def a_header_is_a_key_too(desks: Desks) -> None:
    desk = desks.of()
    one = desk.token("Freight Ltd")
    wanted = path_wanted("06:00", "08:00")
    with ThreadPoolExecutor(8) as pool:
        told = list(pool.map(lambda _: one.post("/v1/requests", wanted, Idempotency_Key="k"),
                             range(8)))
    want(len({answer.json["id"] for answer in told}) == 1, "bought twice")
    want(sorted(answer.status for answer in told) == [200] * 7 + [201], "is not kept")
    want(desk.front() == 1, "the journal has more")


def faults_are_told_by_their_places(desks: Desks) -> None:
    desk = desks.of()
    one = desk.token("Freight Ltd")
    wrong = {"train": "freigt", "from": {"point": "Station"},
             "to": {"point": "Lyon", "arrive": {"at": "2026-12-01T06:00"}},
             "stops": [{"point": "Station_1", "minutes": 5}, {"point": "x", "minutes": 5}]}
    answer = one.post("/v1/requests", wrong)
    is_problem(answer, 422, "faulty")
    want([one["pointer"] for one in answer.json["errors"]] == [
        "/from/point", "/to/point", "/to/arrive/at", "/stops/1/point", "/train"], answer.text)
    want("Station_0/BV, Station_1/BV" in answer.json["errors"][0]["detail"], answer.text)
    missing = one.post("/v1/requests", {"train": "freight", "from": {}, "to": {"point": "x"}})
    want(missing.json["errors"] == [{"pointer": "/from/point", "detail": "is missing"}],
         missing.text)
    french = one.post("/v1/requests", wrong, Accept_Language="fr-CH")
    want("aucun train" in french.json["errors"][4]["detail"], french.text)
    back = one.post("/v1/requests", path_wanted("08:00", "06:00"))
    want(back.json["errors"][0]["pointer"] == "/from/depart", back.text)
    for text in (b"{", b"[]", b"\xff", b"[" * 5000):
        is_problem(one.post("/v1/requests", text), 422, "faulty")
    want(desk.front() == 0, "something was sold")


def stations_are_found_by_name_part_and_code(desks: Desks) -> None:
    desk = desks.of()
    one = desk.token("Freight Ltd")

    def found(text: str) -> list[str]:
        return [point["id"] for point in one.get(f"/v1/points?q={text}").json["points"]]

    want(found("station_2") == ["Station_2/BV"], "name")
    want(found("FREIGHT") == ["Station_1_freight/FR"], "part")
    want(found("fr")[0] == "Station_1_freight/FR", "code")
    want(found("station%201") == ["Station_1/BV", "Station_1_freight/FR"], "words")
    want(found("zzz") == [], "nothing")
    want(len(one.get("/v1/points").json["points"]) == 4, "all")
    want([train["name"] for train in one.get("/v1/trains").json["trains"]]
         == ["freight", "regional"], "trains")
    network = one.get("/v1/network").json
    want((network["zones"], network["blocks"]) == (75, 152), "zones and blocks")


def a_stop_stands_as_long_as_it_was_asked(desks: Desks) -> None:
    desk = desks.of()
    one = desk.token("Freight Ltd")
    stops = [{"point": "Station_1", "minutes": 8}]
    rows = one.post("/v1/requests", path_wanted("10:00", "14:00", stops=stops)).json["rows"]
    stop = next(row for row in rows if row["point"] == "Station_1/BV")
    want(stop["arrive"] is not None and stop["pass"] is None, f"{rows}")
    stood = [sum(int(part) * unit for part, unit in zip(stop[name][11:19].split(":"),
                                                        (3600, 60, 1)))
             for name in ("arrive", "depart")]
    want(stood[1] - stood[0] >= 480, f"stands {stood[1] - stood[0]} s")


def a_refusal_says_who_and_what_would_help(desks: Desks) -> None:
    """By README R 103 is in the way of a departure at 06:00 with arrival until 06:40, beside the
    path that is sold there."""
    desk = desks.of()
    first, second = desk.token("Freight Ltd"), desk.token("Cargo SA")
    path = first.post("/v1/requests", path_wanted("06:00", "08:00")).json["id"]
    wanted = path_wanted("06:00", "06:10", ("06:00", "06:40"), key="no")
    refused = second.post("/v1/requests", wanted)
    is_problem(refused, 409, "no-path")
    why = second.get(refused.json["why"]).json
    want(why["reason"] == "walls" and why["walls"], f"{why}")
    names = [wall["who"] for wall in why["walls"]]
    want("R 103" in names, f"{names}")
    paths = [wall for wall in why["walls"] if wall["kind"] == "path"]
    want(paths and all(wall["who"] == "" for wall in paths), "another's path has a name")
    want(paths[0]["from"] < "2026-12-01T06:40" < "2026-12-01T06:50", f"{paths}")
    later = next(one for one in refused.json["suggestions"] if one["what"] == "depart_later")
    seen = second.post("/v1/requests", path_wanted(
        "06:00", later["departs"][11:16], ("06:00", "23:00"), mode="try",
        **{"from": {"point": "Station_0", "depart": {
            "from": moment("06:00"), "until": later["departs"]}}}))
    want(seen.status == 200 and seen.json["departs"] == later["departs"], seen.text)
    own = first.post("/v1/why", path_wanted("06:00", "06:10", ("06:00", "06:40"))).json
    want(path in [wall["who"] for wall in own["walls"]], f"{own}")


def arrival_until_is_what_helps(desks: Desks) -> None:
    """README: R 103 bars all but a path that leaves at 06:07:10 and arrives at 06:44:40."""
    desk = desks.of()
    one = desk.token("Freight Ltd")
    refused = one.post("/v1/requests", path_wanted("06:00", "06:10", ("06:00", "06:40")))
    later = [told for told in refused.json["suggestions"] if told["what"] == "arrive_later"]
    want([told["until"] for told in later] == [ARRIVES], refused.text)


def tenants_see_their_own_alone(desks: Desks) -> None:
    desk = desks.of()
    one, other = desk.token("Freight Ltd"), desk.token("Cargo SA")
    manager = desk.token("Infrastructure", "desk")
    path = one.post("/v1/requests", path_wanted("06:00", "08:00", key="same")).json["id"]
    want(other.get("/v1/paths").json == {"paths": []}, "lists another's")
    is_problem(other.get(f"/v1/paths/{path}"), 404, "not-found")
    is_problem(other.call("DELETE", f"/v1/paths/{path}"), 404, "not-found")
    is_problem(other.post(f"/v1/paths/{path}/accept", {}), 404, "not-found")
    mine = other.post("/v1/requests", path_wanted("12:00", "14:00", key="same")).json["id"]
    want(mine != path, "one tenant's key is another's")
    seen = {told["id"] for told in manager.get("/v1/paths").json["paths"]}
    want({path, mine} <= seen, "the desk does not see all")
    is_problem(other.get("/v1/closures"), 403, "not-allowed")
    is_problem(other.post("/v1/closures", {}), 403, "not-allowed")
    is_problem(Caller(desk.port).get("/v1/paths"), 401, "login-wanted")
    is_problem(Caller(desk.port, "kd_wrong").get("/v1/paths"), 401, "login-wanted")
    want(desk.front() == 2, "something was done")


def a_quota_ends_at_its_number(desks: Desks) -> None:
    desk = desks.of()
    one = desk.token("Freight Ltd")
    with sqlite3.connect(desk.store) as rows:
        rows.execute("UPDATE tenants SET quota=2 WHERE name=?", (desk.in_case("Freight Ltd"),))
    told = [one.post("/v1/requests", path_wanted(f"{hour:02}:00", f"{hour + 1:02}:00"))
            for hour in (10, 12, 14)]
    want([answer.status for answer in told] == [201, 201, 403], "quota")
    is_problem(told[2], 403, "quota")
    one.call("DELETE", f"/v1/paths/{told[0].json['id']}")
    want(one.post("/v1/requests", path_wanted("14:00", "15:00")).status == 201, "after freeing")


def an_offer_is_accepted_or_given_back(desks: Desks) -> None:
    desk = desks.of(*SPECIAL)
    one = desk.token("Freight Ltd")
    kept = one.post("/v1/requests", path_wanted("10:00", "11:00", mode="offer")).json
    want(kept["mode"] == "offer" and kept["expires"], f"{kept}")
    answer = one.post(f"/v1/paths/{kept['id']}/accept", {})
    want(answer.status == 200 and answer.json["mode"] == "sell", answer.text)
    lost = one.post("/v1/requests", path_wanted("12:00", "13:00", mode="offer")).json["id"]
    wait_until(lambda: one.get(f"/v1/paths/{lost}").json["state"] == "freed", "it expires")
    is_problem(one.post(f"/v1/paths/{lost}/accept", {}), 409, "expired")
    want(one.get(f"/v1/paths/{kept['id']}").json["state"] == "stands", "the accepted one stands")


def a_place_is_closed_and_opened_again(desks: Desks) -> None:
    desk = desks.of()
    one, manager = desk.token("Freight Ltd"), desk.token("Infrastructure", "desk")
    works = {"place": {"between": ["Station_1", "Station_2"]}, "reason": "rail grinding",
             "from": moment("18:00"), "until": moment("20:00"), "key": "w"}
    closed = manager.post("/v1/closures", works)
    want(closed.status == 201 and closed.json["state"] == "stands", closed.text)
    want(manager.post("/v1/closures", works).status == 200, "the key closes twice")
    refused = one.post("/v1/requests", path_wanted("18:00", "18:30", ("18:00", "19:30")))
    is_problem(refused, 409, "no-path")
    walls = one.post("/v1/why", path_wanted("18:00", "18:30", ("18:00", "19:30"))).json["walls"]
    want("closure" in [wall["kind"] for wall in walls], f"{walls}")
    told = manager.get("/v1/closures").json["closures"]
    want(told[0]["reason"] == "rail grinding", f"{told}")
    want(told[0]["from"] == moment("18:00"), f"{told}")
    want(manager.call("DELETE", f"/v1/closures/{closed.json['id']}").status == 204, "open")
    want(one.post("/v1/requests", path_wanted("18:00", "18:30")).status == 201, "sold then")
    taken = manager.post("/v1/closures", works | {"key": "w2"})
    is_problem(taken, 409, "taken")
    want(all(entry.kind.name != "HOLDS" or not entry.is_live
             for entry in read_journal(desk.world.journal).entries), "a part of it stands")
    empty = manager.post("/v1/closures", works | {"place": {}, "key": "w3"})
    want(empty.json["errors"][0]["pointer"] == "/place", empty.text)


def sales_are_told_as_they_come(desks: Desks) -> None:
    desk = desks.of()
    one, other = desk.token("Freight Ltd"), desk.token("Cargo SA")
    manager = desk.token("Infrastructure", "desk")
    told: dict[str, list[dict[str, Any]]] = {}

    def listen(name: str, caller: Caller) -> http.client.HTTPConnection:
        link = http.client.HTTPConnection("127.0.0.1", desk.port, timeout=LONG_S)
        link.request("GET", "/v1/events", headers={"Authorization": f"Bearer {caller.token}"})
        answer = link.getresponse()
        want(answer.headers["Content-Type"] == "text/event-stream", "no stream")
        answer.readline()
        told[name] = []

        def read() -> None:
            try:
                for line in answer:
                    if line.startswith(b"data: "):
                        told[name].append(json.loads(line[6:]))
            except (OSError, ValueError, AttributeError):
                return

        threading.Thread(target=read, daemon=True).start()
        return link

    links = [listen(name, caller) for name, caller in
             (("one", one), ("other", other), ("manager", manager))]
    path = one.post("/v1/requests", path_wanted("06:00", "08:00")).json["id"]
    one.call("DELETE", f"/v1/paths/{path}")

    def heard(name: str) -> list[str]:
        return [event["what"] for event in told[name] if event["id"] == path]

    wait_until(lambda: heard("manager") == heard("one") == ["sold", "freed"], "both are told")
    sold = next(event for event in told["one"] if event["what"] == "sold")
    want(sold["departs"] == DEPARTS, f"{told}")
    want(told["other"] == [], "another is told")
    for link in links:
        link.close()


def the_store_is_made_anew_from_the_journal(desks: Desks) -> None:
    desk = desks.of(*SPECIAL)
    one, other = desk.token("Freight Ltd"), desk.token("Cargo SA")
    manager = desk.token("Infrastructure", "desk")
    first = one.post("/v1/requests", path_wanted("06:00", "08:00")).json["id"]
    second = one.post("/v1/requests", path_wanted("10:00", "12:00")).json["id"]
    other.post("/v1/requests", path_wanted("14:00", "15:00"))
    one.call("DELETE", f"/v1/paths/{second}")
    manager.post("/v1/closures", {"place": {"point": "Station_1"}, "reason": "works",
                                  "from": moment("22:00"), "until": moment("23:00")})
    before = manager.get("/v1/paths").json, manager.get("/v1/closures").json
    desk.end()
    for file in desk.world.folder.glob("desk.sqlite*"):
        file.unlink()
    entries = read_journal(desk.world.journal).entries
    told = [entry for entry in entries if entry.frees is None]
    tenants = {entry.number // 10 ** 12 for entry in told}
    for _ in range(2):
        want(desk.told("--rebuild") == f"{len(told)} paths and closures of {len(tenants)} tenants, "
             f"of {len(entries)} entries", "what --rebuild tells")
    desk.start()
    manager = desk.token("Infrastructure", "desk")
    after = manager.get("/v1/paths").json, manager.get("/v1/closures").json

    def by_id(paths: dict[str, Any]) -> list[tuple[Any, ...]]:
        return sorted((path["id"], path["state"], path["departs"]) for path in paths["paths"])

    want(by_id(before[0]) == by_id(after[0]), f"{before} {after}")
    want(before[1] == after[1], f"{before[1]} {after[1]}")
    number = int(first.split("-")[0])
    store = Store(desk.store)
    again = Caller(desk.port, store.add_token(number, "operator", "again"))
    store.close()
    want({path["id"] for path in again.get("/v1/paths").json["paths"]} == {first, second},
         "the tenant's own")
    fresh = again.post("/v1/requests", path_wanted("16:00", "18:00")).json["id"]
    want(fresh == f"{number}-4", f"the counter went back: {fresh}")


def a_desk_without_a_server_says_so(desks: Desks) -> None:
    desk = desks.of(*SPECIAL)
    one = desk.token("Freight Ltd")
    socket, aside = desk.world.socket_of("WEB"), desk.world.folder / "aside"
    want(Caller(desk.port).get("/healthz").status == 200, "health")
    one.post("/v1/requests", path_wanted("20:00", "21:00"))
    os.rename(socket, aside)
    # A connection that stands serves on; the desk is started anew, and finds no socket.
    desk.end()
    desk.start()
    want(Caller(desk.port).get("/healthz").status == 503, "health of no server")
    lost = one.post("/v1/requests", path_wanted("06:00", "08:00", key="l"))
    is_problem(lost, 503, "no-reply")
    want(lost.headers["Retry-After"] is not None, "Retry-After")
    os.rename(aside, socket)
    want(one.post("/v1/requests", path_wanted("06:00", "08:00", key="l")).status in (200, 201),
         "the same request is done later")
    want(desk.front() == 2, "it was done twice")


# ---- Security: what OWASP names, each with what tries it


def a_forged_form_does_nothing(desks: Desks) -> None:
    """Broken access control: forms of other sites, and other roles."""
    desk = desks.of()
    person = desk.person("alice", "Freight Ltd", "operator")
    want(person.form("/logout").status == 403, "a form without the token logs out")
    want(person.form("/logout", csrf="x" * 43).status == 403, "a wrong token logs out")
    answer = person.post("/v1/requests", path_wanted("06:00", "08:00"))
    is_problem(answer, 403, "forged")
    want(person.get("/v1/paths").status == 200, "reading needs no token")
    done = person.post("/v1/requests", path_wanted("06:00", "08:00"),
                       X_CSRF_Token=person.csrf())
    want(done.status == 201, done.text)
    for place in ("/admin", "/desk", "/closures"):
        want(person.get(place).status == 403, f"an operator sees {place}")
    want(person.form("/admin/people", csrf=person.csrf(), name="eve", tenant="1",
                     role="admin", password="long enough 1").status == 403, "makes an admin")
    other_site = Caller(desk.port, headers={"Origin": "http://evil.example"})
    want(other_site.form("/login", name="alice", password="x").status == 403, "forged login")
    want(Caller(desk.port).get("/paths").headers["Location"] == "/login", "no login")


def secrets_are_kept_as_digests_and_not_logged(desks: Desks) -> None:
    """Cryptographic failures, and logging failures."""
    desk = desks.of(*SPECIAL)
    one = desk.token("Freight Ltd")
    password = desk.told("--add-person", "bob", "--tenant", desk.in_case("Freight Ltd"), "--role",
                         "admin")
    mine = one.get("/v1/paths").status
    want(mine == 200, "the token is not the tenant's")
    answer = Caller(desk.port).form("/login", name="bob", password=password)
    cookie = answer.cookie("desk_session")
    for word in ("HttpOnly", "Secure", "SameSite=Strict"):
        want(word in cookie, f"{word} is not in {cookie}")
    want("Strict-Transport-Security" in answer.headers, "no HSTS")
    session = Caller(desk.port, cookie=cookie.split(";", 1)[0])
    session.form("/admin/people", csrf=session.csrf(), name="eve", tenant="1",
                 role="operator", password="eve's own words")
    with sqlite3.connect(desk.store) as rows:
        dump = "\n".join(rows.iterdump())
    secret = cookie.split(";", 1)[0].split("=", 1)[1]
    for told in (one.token, password, secret, "eve's own words"):
        want(told not in dump, "the store has a secret")
        want(told not in desk.log(), "the log has a secret")
    want("person eve tenant 1 role operator" in desk.log(), "no note of a new account")
    session.form("/logout", csrf=session.csrf())
    want(session.get("/paths").status == 303, "the session lives on")


def texts_are_texts(desks: Desks) -> None:
    """Injection: into SQL, HTML, lines of the server, and headers."""
    desk = desks.of()
    one = desk.token("Freight Ltd")
    for key in ("'; DROP TABLE lines; --", "\" OR 1=1", "a\u0000b"):
        told = one.post("/v1/requests", path_wanted("06:00", "08:00", key=key))
        want(told.status in (201, 409), told.text)
    for train in ("freight 1 2 3\nfree 1 0", "freight%0Afront"):
        is_problem(one.post("/v1/requests", path_wanted("06:00", "08:00") | {"train": train}),
                   422, "faulty")
    person = desk.person("mallory", "<script>alert(1)</script>", "operator")
    page = person.get("/?from=%22%3E%3Cscript%3Ealert(2)%3C/script%3E").text
    want("<script>alert" not in page, "a script of the query or of a name")
    want("&lt;script&gt;alert(1)" in page, "the name is not shown")
    for path in ("/static/../desk.py", "/static/%2e%2e/desk.py", "/static/..%2fdesk.py",
                 "/paths/1-1'--", "/paths/999999999999-1", "/v1/paths/-1--1"):
        want(person.get(path).status in (403, 404), path)
    back = person.form("/language", csrf=person.csrf(), language="de",
                       back="//evil.example/")
    want(back.headers["Location"] == "/", "leads to another site")


def requests_are_bounded(desks: Desks) -> None:
    """Insecure design and availability: rates, lengths, trials of passwords, streams."""
    desk = desks.of(*SPECIAL)
    one, other = desk.token("Freight Ltd"), desk.token("Cargo SA")
    is_problem(one.post("/v1/requests", b"x" * 70_000), 413, "too-long")
    with sqlite3.connect(desk.store) as rows:
        rows.execute("UPDATE tenants SET rate=5 WHERE name=?", (desk.in_case("Freight Ltd"),))
    told = [one.get("/v1/trains").status for _ in range(2)]
    while 429 not in told and len(told) < 12:
        told.append(one.call("DELETE", "/v1/paths/1-99").status
                    if len(told) % 2 else one.get("/v1/paths/1-99").status)
    want(429 in told, f"{told}")
    want(other.get("/v1/trains").status == 200, "another tenant is limited too")
    with ThreadPoolExecutor(16) as pool:
        trials = list(pool.map(lambda _: Caller(desk.port).form(
            "/login", name="alice", password="wrong").status, range(16)))
    want(set(trials) == {403, 429} and trials.count(403) <= 12, f"{trials}")
    links = []
    for _ in range(4):
        link = http.client.HTTPConnection("127.0.0.1", desk.port, timeout=LONG_S)
        link.request("GET", "/v1/events", headers={"Authorization": f"Bearer {other.token}"})
        links.append((link, link.getresponse().status))
    want([status for _, status in links] == [200, 200, 200, 503], f"{links}")
    for link, _ in links:
        link.close()


def answers_have_their_headers(desks: Desks) -> None:
    """Security misconfiguration: headers, no scripts within pages, nothing of other hosts."""
    desk = desks.of()
    person = desk.person("alice", "Freight Ltd", "admin")
    for place in ("/", "/paths", "/desk", "/closures", "/admin", "/tokens", "/nowhere",
                  "/v1/trains", "/static/desk.css"):
        answer = person.get(place)
        policy = answer.headers["Content-Security-Policy"]
        want("script-src 'self'" in policy and "unsafe" not in policy, f"{place}: {policy}")
        for name in ("X-Content-Type-Options", "Referrer-Policy", "X-Frame-Options"):
            want(answer.headers[name] is not None, f"{place}: {name}")
        want(answer.headers["Server"] == "kidrofemba", "names its software")
        if answer.headers["Content-Type"].startswith("text/html"):
            want("http://" not in answer.text and "https://" not in answer.text, place)
            want("style=" not in answer.text and "onclick" not in answer.text, place)


def a_failure_tells_no_traces(desks: Desks) -> None:
    """Software and data integrity: a store that fails is told as a fault, and logged."""
    desk = desks.of()
    one = desk.token("Freight Ltd")
    with sqlite3.connect(desk.store) as rows:
        rows.execute("ALTER TABLE lines RENAME TO lost")
    answer = one.post("/v1/requests", path_wanted("06:00", "08:00"))
    want(answer.status == 500 or answer.status == 503, answer.text)
    want("sqlite" not in answer.text.lower() and "Traceback" not in answer.text, answer.text)
    want("OperationalError" in desk.log(), "it is not logged")


def missing_packages_are_told_in_one_line(desks: Desks) -> None:
    """Without site packages the desk names the packages and the command; nothing is made."""
    done = subprocess.run(
        [sys.executable, "-S", "-m", "kidrofemba", "desk", "--example", "/nowhere/day"],
        env={"PYTHONPATH": str(TOP / "python"), "KIDROFEMBA_DESK_PYTHON": "yes",
             "PATH": os.environ["PATH"]},
        capture_output=True, text=True, check=False)
    want(done.returncode == 2 and done.stderr.count("\n") == 1, done.stderr)
    want("aiohttp" in done.stderr and "apt-get install python3-aiohttp" in done.stderr, done.stderr)


def pages_speak_three_languages(desks: Desks) -> None:
    desk = desks.of()
    person = desk.person("alice", "Freight Ltd", "operator")
    for language, word in (("en", "Request a path"), ("fr", "Demander un sillon"),
                           ("de", "Trasse anfragen")):
        answer = person.call("GET", "/", Accept_Language=language)
        want(word in answer.text and f'<html lang="{language}">' in answer.text, language)


CASES = [a_path_is_seen_bought_kept_and_given_back, a_header_is_a_key_too,
         faults_are_told_by_their_places, stations_are_found_by_name_part_and_code,
         a_stop_stands_as_long_as_it_was_asked, a_refusal_says_who_and_what_would_help,
         arrival_until_is_what_helps, tenants_see_their_own_alone, a_quota_ends_at_its_number,
         an_offer_is_accepted_or_given_back, a_place_is_closed_and_opened_again,
         sales_are_told_as_they_come, a_forged_form_does_nothing, texts_are_texts,
         answers_have_their_headers, pages_speak_three_languages,
         missing_packages_are_told_in_one_line, secrets_are_kept_as_digests_and_not_logged,
         requests_are_bounded, a_desk_without_a_server_says_so,
         the_store_is_made_anew_from_the_journal, a_failure_tells_no_traces]


def main() -> int:
    parser = argparse.ArgumentParser(description=__doc__)
    parser.add_argument("--program", type=Path, default=PROGRAM)
    parser.add_argument("--only", help="cases with this in their names")
    options = parser.parse_args()
    lost = lost_packages()
    if lost is not None:
        print(f"the desk is not tried: {lost} is not installed\n0 passed, 0 failed")
        return 0
    begun = time.monotonic()
    with Desks(options.program.absolute()) as desks:
        status = run_cases([case for case in CASES if not options.only
                            or options.only in case.__name__], desks)
    print(f"{time.monotonic() - begun:.0f} s", file=sys.stderr)
    return status


if __name__ == "__main__":
    sys.exit(main())

#!/usr/bin/env python3
"""Stories of the desk's screens in a browser without a window: from logging in to the sheet, a
refusal and what helps, two browsers that want one path, the desk's live graph, closures, accounts.

    PYTHONPATH=python python3 -m tests.test_desk_browser --program crates/stdcm/out/stdcm \\
        --pictures FOLDER
"""
from __future__ import annotations

import argparse
import sys
import time
from pathlib import Path

from kidrofemba.journal.journal_file import read_journal
from tests.browser import Browser, found_browser
from tests.desk_world import PASSWORD, Desks, DeskWorld, lost_packages
from tests.door_world import PROGRAM, run_cases, wait_until, want

LANGUAGES = ("en", "fr", "de")
# The least contrast of a text with what is behind it, of each element of a page that has text.
CONTRAST = """
(() => {
  const luminance = colour => {
    const parts = colour.match(/[0-9.]+/g).map(Number);
    const linear = parts.slice(0, 3).map(one => one / 255).map(
      one => one <= 0.04045 ? one / 12.92 : ((one + 0.055) / 1.055) ** 2.4);
    return 0.2126 * linear[0] + 0.7152 * linear[1] + 0.0722 * linear[2];
  };
  const behind = element => {
    for (let one = element; one; one = one.parentElement) {
      const ground = getComputedStyle(one).backgroundColor;
      if (ground !== "rgba(0, 0, 0, 0)") return ground;
    }
    return "rgb(255, 255, 255)";
  };
  let least = [99, ""];
  for (const one of document.querySelectorAll("body *")) {
    const text = [...one.childNodes].some(it => it.nodeType === 3 && it.textContent.trim());
    if (!text || !one.getClientRects().length || one.tagName === "OPTION") continue;
    const [a, b] = [luminance(getComputedStyle(one).color), luminance(behind(one))];
    const ratio = (Math.max(a, b) + 0.05) / (Math.min(a, b) + 0.05);
    if (ratio < least[0]) least = [ratio, one.tagName + " " + one.textContent.trim().slice(0, 40)];
  }
  return least;
})()
"""
AA = 4.5


class Person:
    """A person before the desk's screens."""

    def __init__(self, browser: Browser, desk: DeskWorld, pictures: Path | None):
        self.browser, self.desk, self.pictures = browser, desk, pictures

    def open(self, place: str) -> None:
        """Opens a page."""
        self.browser.open_url(f"http://127.0.0.1:{self.desk.port}{place}")

    def press(self, choice: str) -> None:
        """Presses what a selector finds, which leads to another page."""
        self.browser.follow(f"document.querySelector({choice!r}).click()")

    def fill(self, **fields: str) -> None:
        """Fills fields of the page's form."""
        for name, text in fields.items():
            self.browser.value(f"document.querySelector('main [name=\"{name}\"]').value = {text!r}")

    def text(self, choice: str = "main") -> str:
        """What a part of the page says."""
        told = self.browser.value(f"(document.querySelector({choice!r}) || {{}}).innerText || ''")
        return str(told)

    def log_in(self, name: str, tenant: str, role: str) -> None:
        """Logs in as a new person."""
        self.desk.person(name, tenant, role)
        self.browser.call("Network.clearBrowserCookies")
        self.open("/")
        want(self.text("h1") == "Log in", "no form to log in")
        self.fill(name=name, password=PASSWORD)
        self.press("main button.main")
        want(self.text("h1") == "Request a path", self.text())

    def picture(self, name: str) -> None:
        """Keeps what the page looks like, where that is wanted."""
        wait_until(lambda: bool(self.browser.value(
            "[...document.images].every(one => one.complete && one.naturalWidth > 0)")),
            f"{name}: all pictures are there")
        if self.pictures is not None:
            self.browser.picture(self.pictures / f"{name}.png")

    def request(self, begin: str, after: str, arrive: str = "", press: str = "look",
                to: str = "Station_2/BV") -> None:
        """Fills the request form, and presses one of its buttons."""
        self.open("/")
        self.fill(**{"from": "Station_0/BV"}, to=to, train="freight", depart_at=begin,
                  depart_after=after, arrive_at=arrive)
        self.press(f"form#request button[value={press}]")


def a_path_is_seen_booked_printed_and_cancelled(desks: Desks, person: Person) -> None:
    """The path is that of README: from 06:00 to 08:00 it leaves at 06:07:10, arrives 06:44:40."""
    person.browser.be(1280, 1000, is_dark=False)
    person.log_in("alice", "Freight Ltd", "operator")
    person.picture("request")
    person.request("2026-12-01T06:00", "120")
    want("06:07:10" in person.text() and "06:44:40" in person.text(), person.text())
    want("Nothing was bought yet" in person.text(), person.text())
    want(person.desk.front() == 0, "a look has bought something")
    person.picture("look")
    person.press(".answer button[value=book]")
    want("Booked" in person.text(".done"), person.text())
    rows = person.text("table.rows").splitlines()
    want(any("Station_0/BV" in row and "06:07:10" in row for row in rows), f"{rows}")
    want(any("Station_2/BV" in row and "06:44:40" in row for row in rows), f"{rows}")
    person.picture("path")
    want(not person.browser.value("document.querySelector('[data-print]').hidden"), "no printing")
    data = person.browser.call("Page.printToPDF", printBackground=True)["data"]
    want(len(data) > 10_000, "the sheet is empty")
    person.browser.call("Emulation.setEmulatedMedia", media="print")
    want(person.browser.value("getComputedStyle(document.querySelector('header')).display")
         == "none", "the sheet has the page's head")
    person.browser.call("Emulation.setEmulatedMedia", media="")
    person.press("a.danger")
    want("Really cancel" in person.text(), person.text())
    person.press("form button.danger")
    want("cancelled" in person.text("strong"), person.text())
    live = read_journal(person.desk.world.journal).live()
    want(live == [], "it still stands")
    person.open("/paths")
    want("cancelled" in person.text("table"), person.text())
    person.picture("paths")


def a_refusal_names_who_and_fills_the_form(desks: Desks, person: Person) -> None:
    """README: arrival until 06:40 is barred by R 103; with arrival until 06:44:40 there is one."""
    person.log_in("bob", "Cargo SA", "operator")
    person.fill(arrive_before="60", arrive_after="0", depart_after="10")
    person.fill(**{"from": "Station_0/BV"}, to="station 2", depart_at="2026-12-01T06:00",
                arrive_at="2026-12-01T06:40")
    person.press("form#request button[value=book]")
    told = person.text(".answer")
    want("There is no path" in told and "R 103" in told, told)
    want("with arrival until 06:44:40 there is one" in told, told)
    person.picture("refusal")
    person.press("a.chip")
    want(person.browser.value("document.querySelector('[name=arrive_after]').value") == "5",
         "the form is not filled")
    person.press("form#request button[value=book]")
    want("Booked" in person.text(".done"), person.text())


def wrong_fields_are_marked(desks: Desks, person: Person) -> None:
    person.log_in("carol", "Cargo SA", "operator")
    person.request("2026-12-01T06:00", "120", to="Lyon")
    want("Lyon" in person.text("#to_wrong"), person.text())
    want(person.browser.value("document.querySelector('#to').getAttribute('aria-invalid')")
         == "true", "is not marked")
    person.picture("wrong_field")


def two_who_want_one_path_get_one(desks: Desks, person: Person) -> None:
    """Two forms of one minute: only one of the two gets the path that leaves then."""
    person.log_in("dora", "Freight Ltd", "operator")
    person.request("2026-12-01T12:00", "0", press="book")
    want("Booked" in person.text(".done"), person.text())
    person.log_in("emil", "Cargo SA", "operator")
    person.request("2026-12-01T12:00", "0", press="book")
    told = person.text(".answer")
    want("There is no path" in told and "a path of another operator" in told, told)
    want("Freight" not in told, "names another operator")
    person.picture("two")


def completion_knows_parts_of_names(desks: Desks, person: Person) -> None:
    person.log_in("finn", "Cargo SA", "operator")
    person.browser.value("""(() => { const one = document.querySelector('#from');
        one.value = 'freight'; one.dispatchEvent(new Event('input')); })()""")
    wait_until(lambda: person.browser.value("document.querySelector('#points').children.length")
               == 1, "one point is offered")
    want(person.browser.value("document.querySelector('#points option').value")
         == "Station_1_freight/FR", "another point")


def the_desk_sees_sales_as_they_come(desks: Desks, person: Person) -> None:
    person.browser.be(1900, 1100, is_dark=False)
    person.log_in("grace", "Infrastructure", "admin")
    person.open("/desk")
    seller = person.desk.token("Freight Ltd")
    wait_until(lambda: 'desk_event_streams 1' in seller.get("/metrics").text, "it listens")
    from tests.desk_world import path_wanted
    want(seller.post("/v1/requests", path_wanted("06:00", "08:00")).status == 201, "not sold")
    wait_until(lambda: "sold: " in person.text("#events") and "06:07" in person.text("#events"),
               "the sale is told")
    wait_until(lambda: "at=" in str(person.browser.value("document.querySelector('#live').src")),
               "the graph is drawn anew")
    person.picture("desk")
    person.browser.be(1280, 1000, is_dark=False)


def a_place_is_closed_by_its_name(desks: Desks, person: Person) -> None:
    person.log_in("henry", "Infrastructure", "desk")
    person.open("/closures")
    person.fill(point="Station_1", to="Station_2", begin="2026-12-01T18:00",
                end="2026-12-01T20:00", reason="rail grinding")
    person.press("main button.main")
    want("rail grinding" in person.text("table"), person.text())
    person.picture("closures")
    person.press("table button")
    want("cancelled" in person.text("table tbody tr"), person.text())


def accounts_are_added_and_tokens_shown_once(desks: Desks, person: Person) -> None:
    person.log_in("ida", "Infrastructure", "admin")
    person.open("/admin")
    person.fill(name="New Rail")
    person.browser.value("document.querySelector('#t_name').value = 'New Rail'")
    person.browser.follow("document.querySelector('#t_name').form.requestSubmit()")
    want("New Rail" in person.text(), person.text())
    person.picture("admin")
    person.open("/tokens")
    person.fill(label="our own system")
    person.browser.follow("document.querySelector('#label').form.requestSubmit()")
    want(person.text("#token").startswith("kd_"), person.text())
    person.open("/tokens")
    want("kd_" not in person.text() and "our own system" in person.text(), "shown again")


def pages_fit_and_have_contrast(desks: Desks, person: Person) -> None:
    """At 400 and 1,900 pixels, light and dark, in three languages: nothing is wider than the
    screen, and each text has WCAG's contrast AA."""
    person.log_in("jane", "Infrastructure", "admin")
    for width, is_dark in ((400, False), (400, True), (1900, False), (1900, True)):
        person.browser.be(width, 900, is_dark)
        for place in ("/", "/paths", "/desk", "/closures", "/admin", "/tokens"):
            person.open(place)
            wide = person.browser.value("document.documentElement.scrollWidth")
            want(wide <= width, f"{place} is {wide} px wide at {width}")
            least, where = person.browser.value(CONTRAST)
            want(least >= AA, f"{place}, dark {is_dark}: contrast {least:.2f} of {where}")
        person.open("/")
        person.picture(f"request_{width}_{'dark' if is_dark else 'light'}")
    person.browser.be(1280, 1000, is_dark=False)
    for language in LANGUAGES:
        person.open("/")
        person.press(f"header button[value={language}]")
        want(person.browser.value("document.documentElement.lang") == language, language)
        person.picture(f"request_{language}")
    person.press("header button[value=en]")


def everything_is_reached_by_keyboard(desks: Desks, person: Person) -> None:
    """Tab comes to the skip link first, then to all links, fields and buttons, each with a mark."""
    person.log_in("kim", "Freight Ltd", "operator")
    person.open("/")
    met = []
    for _ in range(40):
        for kind in ("keyDown", "keyUp"):
            person.browser.call("Input.dispatchKeyEvent", type=kind, key="Tab", code="Tab",
                                windowsVirtualKeyCode=9)
        met.append(person.browser.value(
            "(document.activeElement.name || document.activeElement.className || '') + ' ' +"
            "getComputedStyle(document.activeElement).outlineStyle"))
    names = [str(one).split(" ")[0] for one in met]
    want(names[0] == "skip", f"{met}")
    for name in ("train", "from", "to", "depart_at", "arrive_at", "action"):
        want(name in names, f"{name} is not reached: {names}")
    want(all("none" not in str(one) for one in met if str(one).startswith(("from", "action"))),
         f"no mark: {met}")


def a_server_that_is_killed_is_not_noticed(desks: Desks, person: Person) -> None:
    person.log_in("lena", "Freight Ltd", "operator")
    person.desk.door.kill_server()
    person.request("2026-12-01T15:00", "60", press="book")
    want("Booked" in person.text(".done"), person.text())
    paths = [entry for entry in read_journal(person.desk.world.journal).live() if entry.train]
    want(len(paths) == 1, f"{len(paths)} paths stand")


CASES = [a_path_is_seen_booked_printed_and_cancelled, a_refusal_names_who_and_fills_the_form,
         wrong_fields_are_marked, two_who_want_one_path_get_one, completion_knows_parts_of_names,
         the_desk_sees_sales_as_they_come, a_place_is_closed_by_its_name,
         accounts_are_added_and_tokens_shown_once, pages_fit_and_have_contrast,
         everything_is_reached_by_keyboard, a_server_that_is_killed_is_not_noticed]


def main() -> int:
    parser = argparse.ArgumentParser(description=__doc__)
    parser.add_argument("--program", type=Path, default=PROGRAM)
    parser.add_argument("--only", help="cases with this in their names")
    parser.add_argument("--pictures", type=Path, help="where pictures of the pages go")
    options = parser.parse_args()
    browser_program, lost = found_browser(), lost_packages()
    if lost is not None or browser_program is None:
        print(f"the desk's screens are not tried: {lost or 'a browser'} is not installed\n"
              "0 passed, 0 failed")
        return 0
    if options.pictures:
        options.pictures.mkdir(parents=True, exist_ok=True)
    begun = time.monotonic()
    with Desks(options.program.absolute()) as desks, Browser(browser_program) as browser:
        browser.call("Network.enable")

        def tried(case):  # type: ignore[no-untyped-def]
            def run(_: object) -> None:
                case(desks, Person(browser, desks.of(), options.pictures))
            run.__name__ = case.__name__
            return run

        status = run_cases([tried(case) for case in CASES if not options.only
                            or options.only in case.__name__], options.program)
    print(f"{time.monotonic() - begun:.0f} s", file=sys.stderr)
    return status


if __name__ == "__main__":
    sys.exit(main())

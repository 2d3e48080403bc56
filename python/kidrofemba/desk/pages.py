"""The screens: forms and answers that work without JavaScript, in three languages."""
from __future__ import annotations

import asyncio
import secrets
from datetime import datetime, timedelta
from functools import cache
from typing import Any
from urllib.parse import quote, urlencode

import jinja2
from aiohttp import web

from kidrofemba.desk.api import buy, close, closures_of, open_again, sale_of, sales_of
from kidrofemba.desk.http import (COOKIE, LANGUAGE_COOKIE, LOG, Denied, admin_role, desk_of,
                                  desk_role, language_of, who_of)
from kidrofemba.desk.sales import Refusal, number_of
from kidrofemba.desk.state import Desk, paths_file
from kidrofemba.desk.store import ROLES, SESSION_S, Who
from kidrofemba.desk.wanted import Fault, Faulty, Reader, check_form
from kidrofemba.desk.words import LANGUAGES, NAMES, word
from kidrofemba.journal.journal_file import Entry, Run

_STOPS = 4
_LEAST_PASSWORD = 10
_SPARE_TICKS = 90
#: Fields of the form by the pointer of the request's part.
_FIELDS = {"/train": "train", "/from/point": "from", "/to/point": "to",
           "/from/depart": "depart_at", "/from/depart/at": "depart_at",
           "/to/arrive": "arrive_at", "/to/arrive/at": "arrive_at"}
_CLOSE_FIELDS = {"/place/point": "point", "/place/between/0": "point", "/place/between/1": "to",
                 "/place": "point", "/from": "begin", "/until": "end", "": "end",
                 "/reason": "reason"}


@cache
def _templates() -> jinja2.Environment:
    made = jinja2.Environment(loader=jinja2.FileSystemLoader(paths_file("pages")),
                              autoescape=True, trim_blocks=True, lstrip_blocks=True,
                              undefined=jinja2.StrictUndefined)
    made.filters["clock"] = _clock
    made.filters["kilometres"] = lambda metres: f"{metres / 1000:.1f}"
    return made


def _clock(text: str | None) -> str:
    """The clock time of a moment, with its seconds where it has some."""
    if not text:
        return ""
    return text[11:16] if text[17:19] == "00" else text[11:19]


def page(request: web.Request, template: str, status: int = 200,
         headers: dict[str, str] | None = None, **values: Any) -> web.Response:
    """A screen."""
    language, who = language_of(request), request.get("who")

    def told(text: str, **more: Any) -> str:
        return word(language, text, **more)

    day = desk_of(request).day
    html = _templates().get_template(template).render(
        t=told, language=language, languages=NAMES, who=who, csrf=request.get("csrf", ""),
        path=request.path, date=day.clock.zero.date().isoformat(),
        offset=day.moment(0)[19:] or "UTC", **values)
    return web.Response(status=status, text=html, content_type="text/html", headers=headers)


def fault_page(request: web.Request, status: int, title: str, headers: dict[str, str]
               ) -> web.Response:
    """A fault, for a person."""
    return page(request, "fault.html", status, headers, title=title)


def _to(place: str) -> web.Response:
    return web.Response(status=303, headers={"Location": place})


# ---- Log in and out, language


async def get_login(request: web.Request) -> web.StreamResponse:
    """The form to log in."""
    return page(request, "login.html", wrong="", name="")


def _is_ours(request: web.Request) -> bool:
    """Whether a form without a session comes from a page of the desk, as the browser tells."""
    site = request.headers.get("Sec-Fetch-Site")
    origin = request.headers.get("Origin")
    if site is not None:
        return site in ("same-origin", "none")
    return origin is None or origin.split("://", 1)[-1] == request.host


async def post_login(request: web.Request) -> web.StreamResponse:
    """Begins a session."""
    if not _is_ours(request):
        raise Denied(403, "forged")
    desk, form = desk_of(request), await request.post()
    name, password = str(form.get("name", "")), str(form.get("password", ""))
    wait_s = desk.limiter.wait_s(f"login {name[:64]}", 10)
    if wait_s:
        raise Denied(429, "too_many", wait_s)
    begun = await desk.sales.stored(desk.sales.store.log_in, name, password[:1000])
    if begun is None:
        return page(request, "login.html", 403, wrong=word(language_of(request), "wrong_login"),
                    name=name)
    response = _to("/")
    response.set_cookie(COOKIE, begun[0], max_age=SESSION_S, httponly=True, samesite="Strict",
                        secure=desk.settings.is_secure, path="/")
    return response


async def post_logout(request: web.Request) -> web.StreamResponse:
    """Ends a session."""
    desk = desk_of(request)
    await desk.sales.stored(desk.sales.store.log_out, request.cookies.get(COOKIE, ""))
    response = _to("/login")
    response.del_cookie(COOKIE, path="/")
    return response


async def post_language(request: web.Request) -> web.StreamResponse:
    """Keeps a language for this browser."""
    form = await request.post()
    told, back = str(form.get("language", "")), str(form.get("back", "/"))
    response = _to(back if back.startswith("/") and not back.startswith(("//", "/\\")) else "/")
    if told in LANGUAGES:
        response.set_cookie(LANGUAGE_COOKIE, told, max_age=31_536_000, samesite="Strict",
                            httponly=True, secure=desk_of(request).settings.is_secure, path="/")
    return response


# ---- Request


def _fields_of(told: Any, desk: Desk) -> dict[str, str]:
    """The fields of the request form, from a form or the words behind a question mark."""
    zero = desk.day.clock.zero
    now = datetime.now(zero.tzinfo)
    last = zero + timedelta(seconds=desk.day.horizon * desk.day.clock.tick_s)
    begin = now + timedelta(minutes=15) if zero <= now < last else zero + timedelta(hours=6)
    fields = {"train": "", "from": "", "to": "", "depart_at": begin.strftime("%Y-%m-%dT%H:%M"),
              "depart_before": "0", "depart_after": "60", "arrive_at": "", "arrive_before": "60",
              "arrive_after": "0", "key": secrets.token_urlsafe(12)}
    for at in range(_STOPS):
        fields |= {f"stop{at}": "", f"minutes{at}": "5"}
    return {name: str(told.get(name, value))[:255] for name, value in fields.items()}


def _offset(desk: Desk) -> str:
    return desk.day.moment(0)[19:]


class _Form:
    """Makes a request's body of the form's fields."""

    def __init__(self, fields: dict[str, str], desk: Desk):
        self.fields, self.desk = fields, desk
        self.errors: dict[str, tuple[str, dict[str, Any]]] = {}

    def minutes(self, name: str) -> int:
        """A field of whole minutes."""
        text = self.fields[name].strip() or "0"
        if not text.isdecimal() or len(text) > 4 or int(text) > 2880:
            self.errors[name] = ("number_wanted", {})
            return 0
        return int(text)

    def window(self, name: str) -> dict[str, Any] | None:
        """A time with its tolerances."""
        at = self.fields[f"{name}_at"].strip()
        if not at:
            return None
        return {"at": at[:16] + ":00" + _offset(self.desk),
                "minutes_before": self.minutes(f"{name}_before"),
                "minutes_after": self.minutes(f"{name}_after")}

    def body(self, mode: str) -> dict[str, Any]:
        """The request."""
        for name in ("train", "from", "to", "depart_at"):
            if not self.fields[name].strip():
                self.errors[name] = ("missing", {})
        depart, arrive = self.window("depart"), self.window("arrive")
        body: dict[str, Any] = {"train": self.fields["train"], "mode": mode,
                                "from": {"point": self.fields["from"]},
                                "to": {"point": self.fields["to"]}, "stops": []}
        if depart is not None:
            body["from"]["depart"] = depart
        if arrive is not None:
            body["to"]["arrive"] = arrive
        for at in range(_STOPS):
            if self.fields[f"stop{at}"].strip():
                body["stops"].append({"point": self.fields[f"stop{at}"],
                                      "minutes": self.minutes(f"minutes{at}")})
        if mode != "try":
            body["key"] = "form " + self.fields["key"]
        return body

    def take(self, faults: list[Fault]) -> None:
        """Puts faults of a request at the fields that they are about."""
        filled = [at for at in range(_STOPS) if self.fields[f"stop{at}"].strip()]
        for fault in faults:
            name = _FIELDS.get(fault.pointer, "depart_at")
            if fault.pointer.startswith("/stops/"):
                name = f"stop{filled[int(fault.pointer.split('/')[2])]}"
            self.errors.setdefault(name, (fault.word, fault.values))


def _request_page(request: web.Request, form: _Form, status: int = 200, **more: Any
                  ) -> web.Response:
    desk, language = desk_of(request), language_of(request)
    values: dict[str, Any] = {"seen": None, "refusal": None, "chips": [], "query": ""} | more
    errors = {name: word(language, one, **told) for name, (one, told) in form.errors.items()}
    return page(request, "request.html", status, fields=form.fields, errors=errors,
                trains=sorted(desk.day.trains), points=desk.day.points, stops=_STOPS, **values)


async def get_request(request: web.Request) -> web.StreamResponse:
    """The form of a request; words behind a question mark fill it."""
    who_of(request)
    desk = desk_of(request)
    return _request_page(request, _Form(_fields_of(request.query, desk), desk))


async def post_request(request: web.Request) -> web.StreamResponse:
    """Looks, or books."""
    desk, who = desk_of(request), who_of(request)
    told = await request.post()
    form = _Form(_fields_of(told, desk), desk)
    mode = "sell" if told.get("action") == "book" else "try"
    body = form.body(mode)
    if form.errors:
        return _request_page(request, form, 422)
    try:
        check_form("Request", body)
        wanted = Reader(desk.day).wanted(body)
    except Faulty as faulty:
        form.take(faulty.faults)
        return _request_page(request, form, 422)
    if mode == "try":
        seen = await desk.look(who, wanted)
        if seen.word == "granted":
            path = desk.seen_path(wanted, seen)
            return _request_page(request, form, seen=path, query=_graph_query(form.fields))
        name = {"no-path": "no_path", "wide": "wide"}.get(seen.word, "bad")
        return await _refused(request, form, who, name)
    try:
        sale = await buy(desk, who, body, wanted)
    except Refusal as refusal:
        form.fields["key"] = form.fields["key"] if refusal.status == 503 \
            else secrets.token_urlsafe(12)
        return await _refused(request, form, who, refusal.word, refusal.status)
    number = sale.line.number
    return _to(f"/paths/{number // 10 ** 12}-{number % 10 ** 12}?booked=1")


def _graph_query(fields: dict[str, str]) -> str:
    names = ("train", "from", "to", "depart_at", "depart_before", "depart_after", "arrive_at",
             "arrive_before", "arrive_after", *(f"stop{at}" for at in range(_STOPS)),
             *(f"minutes{at}" for at in range(_STOPS)))
    return urlencode({name: fields[name] for name in names})


async def _refused(request: web.Request, form: _Form, who: Who, name: str, status: int = 409
                   ) -> web.Response:
    """The form with why there is no path, and what would help."""
    desk, language = desk_of(request), language_of(request)
    why: dict[str, Any] | None = None
    chips: list[dict[str, str]] = []
    if name == "no_path":
        why = await desk.why(who, Reader(desk.day).wanted(form.body("try")))
        for wall in why["walls"]:
            wall["text"] = word(language, "wall", **{
                "who": wall["who"] or word(language, "other_path" if wall["kind"] == "path"
                                           else "a_closure"),
                "place": wall["place"], "from": _clock(wall["from"]),
                "until": _clock(wall["until"])})
        chips = [_chip(form.fields, one, language) for one in why["suggestions"]]
    return _request_page(request, form, status, refusal=word(language, name), why=why,
                         chips=chips)


def _chip(fields: dict[str, str], one: dict[str, Any], language: str) -> dict[str, str]:
    """A suggestion, with the words that fill the form by it."""
    filled = dict(fields)
    filled.pop("key")

    def widen(name: str, moment: str, sign: int) -> None:
        at = datetime.fromisoformat(fields[f"{name}_at"])
        far = sign * (datetime.fromisoformat(moment).replace(tzinfo=None) - at).total_seconds()
        side = f"{name}_{'after' if sign > 0 else 'before'}"
        filled[side] = str(max(int(fields[side] or 0), -int(-far // 60)))

    if one["what"] == "depart_earlier":
        widen("depart", one["departs"], -1)
    elif one["what"] == "depart_later":
        widen("depart", one["departs"], 1)
    if one["what"] != "depart_earlier" and fields["arrive_at"]:
        widen("arrive", one["arrives"], 1)
    return {"text": word(language, one["what"], until=_clock(one["until"])),
            "query": urlencode(filled)}


# ---- Paths


async def get_paths(request: web.Request) -> web.StreamResponse:
    """The tenant's paths."""
    desk, who = desk_of(request), who_of(request)
    paths = [desk.path_of(one) | {"tenant": desk.names.get(one.line.tenant, "")}
             for one in await sales_of(desk, who)]
    return page(request, "paths.html", paths=paths)


async def get_path(request: web.Request) -> web.StreamResponse:
    """A path by stations and clock times."""
    sale = await sale_of(request)
    desk = desk_of(request)
    return page(request, "path.html", one=desk.path_of(sale), is_booked="booked" in request.query,
                sure="sure" in request.query, tenant=desk.names.get(sale.line.tenant, ""))


async def post_cancel(request: web.Request) -> web.StreamResponse:
    """Gives a path back."""
    sale = await sale_of(request)
    await desk_of(request).sales.free(sale.line)
    return _to(f"/paths/{request.match_info['id']}")


def _graph_window(runs: tuple[Run, ...]) -> tuple[float, float]:
    return float(runs[0].enter - _SPARE_TICKS), float(runs[-1].leave + _SPARE_TICKS)


async def _graph(request: web.Request, points: tuple[str, ...], window: tuple[float, float],
                 runs: tuple[Run, ...] = ()) -> web.Response:
    """A train graph for who asks: of others' paths it tells no names."""
    desk, who = desk_of(request), who_of(request)
    desk.sales.read_on()
    entries = [one for one in desk.sales.tail.live_entries() if _is_within(one, window)]

    def name_of(entry: Entry) -> str:
        return desk.kind_and_name(who, entry)[1] or "–"

    width = request.query.get("width", "1000")
    drawn = await asyncio.to_thread(
        desk.graphs.picture, points, entries, name_of, window,
        int(width) if width.isdecimal() and len(width) < 5 else 1000, runs)
    return web.Response(text=drawn, content_type="image/svg+xml", headers={
        "Content-Security-Policy": "default-src 'none'; style-src 'unsafe-inline'; sandbox"})


def _is_within(entry: Entry, window: tuple[float, float]) -> bool:
    """Whether an entry takes something between two ticks, give or take."""
    if entry.train is None:
        return any(one.begin <= window[1] and one.end >= window[0] for one in entry.claims)
    return entry.runs[0].enter - 200 <= window[1] and entry.runs[-1].leave + 200 >= window[0]


def _corridor(desk: Desk, runs: tuple[Run, ...]) -> tuple[str, ...]:
    """The operational points of a path, each once."""
    return tuple(dict.fromkeys(row.point for row in desk.day.rows(runs)))


async def get_path_graph(request: web.Request) -> web.StreamResponse:
    """The train graph around a path."""
    sale = await sale_of(request)
    runs = sale.entry.runs
    return await _graph(request, _corridor(desk_of(request), runs), _graph_window(runs))


async def get_look_graph(request: web.Request) -> web.StreamResponse:
    """The train graph around a path that was only looked at: it is looked at once more."""
    desk, who = desk_of(request), who_of(request)
    form = _Form(_fields_of(request.query, desk), desk)
    body = form.body("try")
    if form.errors:
        raise Denied(404, "not_found")
    seen = await desk.look(who, Reader(desk.day).wanted(body))
    if seen.word != "granted":
        raise Denied(404, "not_found")
    return await _graph(request, _corridor(desk, seen.runs), _graph_window(seen.runs), seen.runs)


# ---- The desk's screens


async def get_desk(request: web.Request) -> web.StreamResponse:
    """The live train graph of a corridor."""
    who = desk_role(request)
    desk = desk_of(request)
    query = {"from": request.query.get("from", ""), "to": request.query.get("to", ""),
             "begin": request.query.get("begin", ""), "end": request.query.get("end", "")}
    ends = [one for one in (desk.day.point_of(query["from"])[0], desk.day.point_of(query["to"])[0])
            if one is not None]
    if len(ends) < 2:
        ends = [desk.day.points[0], desk.day.points[-1]]
    begins = desk.day.clock.zero
    query["begin"] = query["begin"] or (begins + timedelta(hours=5)).strftime("%Y-%m-%dT%H:%M")
    query["end"] = query["end"] or (begins + timedelta(hours=10)).strftime("%Y-%m-%dT%H:%M")
    query |= {"from": ends[0], "to": ends[-1]}
    paths = [desk.path_of(one) | {"tenant": desk.names.get(one.line.tenant, "")}
             for one in (await sales_of(desk, who))[:50]]
    return page(request, "desk.html", query=query, graph=urlencode(query), paths=paths,
                points=desk.day.points)


async def get_desk_graph(request: web.Request) -> web.StreamResponse:
    """The picture of that graph."""
    desk_role(request)
    desk = desk_of(request)
    reader = Reader(desk.day)
    points = tuple(reader.point(request.query.get(name, ""), f"/{name}") for name in ("from", "to"))
    moments = [reader.moment(request.query.get(name, "")[:16] + _offset(desk), f"/{name}")
               for name in ("begin", "end")]
    if reader.faults or moments[0] is None or moments[1] is None or moments[0] >= moments[1]:
        raise Denied(404, "not_found")
    tick_s = desk.day.clock.tick_s
    window = (desk.day.clock.seconds_to(moments[0]) / tick_s,
              desk.day.clock.seconds_to(moments[1]) / tick_s)
    return await _graph(request, points, window)


async def _closures_page(request: web.Request, status: int = 200,
                         fields: dict[str, str] | None = None,
                         errors: dict[str, str] | None = None, refusal: str = "") -> web.Response:
    desk = desk_of(request)
    begin = desk.day.moment_of_tick(0)[:10]
    empty = {"point": "", "to": "", "reason": "", "begin": begin + "T22:00",
             "end": begin + "T23:59", "key": secrets.token_urlsafe(12)}
    return page(request, "closures.html", status, fields=fields or empty, errors=errors or {},
                closures=await closures_of(desk), points=desk.day.points, refusal=refusal)


async def get_closures(request: web.Request) -> web.StreamResponse:
    """All closures, and the form of a new one."""
    desk_role(request)
    return await _closures_page(request)


async def post_closure(request: web.Request) -> web.StreamResponse:
    """Closes a place."""
    who = desk_role(request)
    desk, told, language = desk_of(request), await request.post(), language_of(request)
    fields = {name: str(told.get(name, ""))[:255].strip()
              for name in ("point", "to", "reason", "begin", "end", "key")}
    errors = {name: word(language, "missing") for name in ("point", "reason", "begin", "end")
              if not fields[name]}
    if errors:
        return await _closures_page(request, 422, fields, errors)
    place: dict[str, str | list[str]] = {"point": fields["point"]}
    if fields["to"]:
        place = {"between": [fields["point"], fields["to"]]}
    body = {"place": place, "reason": fields["reason"], "key": "form " + fields["key"],
            "from": fields["begin"][:16] + ":00" + _offset(desk),
            "until": fields["end"][:16] + ":00" + _offset(desk)}
    try:
        check_form("ClosureRequest", body)
        await close(desk, who, body)
    except Faulty as faulty:
        errors = {_CLOSE_FIELDS.get(one.pointer, "end"): word(language, one.word, **one.values)
                  for one in faulty.faults}
        return await _closures_page(request, 422, fields, errors)
    except Refusal as refusal:
        fields["key"] = secrets.token_urlsafe(12)
        return await _closures_page(request, refusal.status, fields, None,
                                    _taken_text(desk, who, refusal, language))
    return _to("/closures")


def _taken_text(desk: Desk, who: Who, refusal: Refusal, language: str) -> str:
    """Why a place can't be closed: who has it."""
    text = word(language, refusal.word)
    words = refusal.reply.split(" ")
    if words[0] != "taken":
        return text
    place = desk.day.place_of_zone(int(words[3]))
    if words[5] == "base":
        name = desk.day.base.trains[int(words[6])].name
    else:
        name = desk.kind_and_name(who, desk.sales.tail.entries[int(words[6])])[1]
    return f"{text}: {name}, {place}"


async def post_open_again(request: web.Request) -> web.StreamResponse:
    """Opens a closed place again."""
    desk_role(request)
    await open_again(desk_of(request), number_of(request.match_info["id"]))
    return _to("/closures")


# ---- Accounts


async def _admin_page(request: web.Request, status: int = 200, wrong: str = "", drawn: str = ""
                      ) -> web.Response:
    desk = desk_of(request)
    store = desk.sales.store
    return page(request, "admin.html", status, wrong=wrong, drawn=drawn, roles=ROLES,
                tenants=await desk.sales.stored(store.tenants),
                people=await desk.sales.stored(store.people))


async def get_admin(request: web.Request) -> web.StreamResponse:
    """Tenants and people."""
    admin_role(request)
    return await _admin_page(request)


def _whole(told: Any, name: str, least: int, most: int) -> int:
    text = str(told.get(name, ""))
    if not text.isdecimal() or len(text) > 9 or not least <= int(text) <= most:
        raise Denied(422, "faulty")
    return int(text)


async def post_tenant(request: web.Request) -> web.StreamResponse:
    """Adds a tenant, or changes one."""
    who = admin_role(request)
    desk, told = desk_of(request), await request.post()
    quota, rate = _whole(told, "quota", 0, 1_000_000), _whole(told, "rate", 1, 1_000_000)
    store, name = desk.sales.store, str(told.get("name", "")).strip()[:100]
    if told.get("id"):
        number = _whole(told, "id", 1, 9_000_000)
        await desk.sales.stored(store.set_tenant, number, quota, rate)
    else:
        try:
            if not name:
                raise ValueError
            number = await desk.sales.stored(store.add_tenant, name, quota, rate)
        except ValueError:
            return await _admin_page(request, 422, word(language_of(request), "name_taken"))
    _note(who, f"tenant {number} quota {quota} rate {rate}")
    await desk.refresh_names()
    return _to("/admin")


async def post_person(request: web.Request) -> web.StreamResponse:
    """Adds a person, sets a new password, or takes one out."""
    who = admin_role(request)
    desk, told = desk_of(request), await request.post()
    name, password = str(told.get("name", "")).strip()[:64], str(told.get("password", ""))
    if told.get("action") == "remove":
        if name == who.name:
            raise Denied(422, "not_allowed")
        await desk.sales.stored(desk.sales.store.drop_person, name)
        _note(who, f"person {quote(name)} removed")
        return _to("/admin")
    if not _LEAST_PASSWORD <= len(password) <= 1000 or not name:
        return await _admin_page(request, 422, word(language_of(request), "password_short"))
    role = str(told.get("role", ""))
    if role not in ROLES:
        raise Denied(422, "faulty")
    tenant = _whole(told, "tenant", 1, 9_000_000)
    if tenant not in await desk.sales.stored(desk.sales.store.tenant_names):
        raise Denied(422, "faulty")
    await desk.sales.stored(desk.sales.store.add_person, name, tenant, role, password)
    _note(who, f"person {quote(name)} tenant {tenant} role {role}")
    return _to("/admin")


def _note(who: Who, what: str) -> None:
    """Notes in the log who changed an account."""
    LOG.info("%s: %s", quote(who.name), what)


async def _tokens_page(request: web.Request, drawn: str = "") -> web.Response:
    desk, who = desk_of(request), who_of(request)
    tokens = await desk.sales.stored(desk.sales.store.tokens,
                                     None if who.role == "admin" else who.tenant)
    return page(request, "tokens.html", tokens=tokens, drawn=drawn)


async def get_tokens(request: web.Request) -> web.StreamResponse:
    """The tenant's API tokens."""
    who_of(request)
    return await _tokens_page(request)


async def post_token(request: web.Request) -> web.StreamResponse:
    """Makes a token, or takes one out."""
    desk, who, told = desk_of(request), who_of(request), await request.post()
    store = desk.sales.store
    if told.get("action") == "remove":
        await desk.sales.stored(store.drop_token, _whole(told, "id", 1, 10 ** 9),
                                None if who.role == "admin" else who.tenant)
        return _to("/tokens")
    label = str(told.get("label", "")).strip()[:100] or "-"
    drawn = await desk.sales.stored(store.add_token, who.tenant, who.role, label)
    _note(who, f"token {quote(label)} made")
    return await _tokens_page(request, drawn)


def routes() -> list[web.RouteDef]:
    """The screens' routes."""
    return [
        web.get("/login", get_login), web.post("/login", post_login),
        web.post("/logout", post_logout), web.post("/language", post_language),
        web.get("/", get_request), web.post("/", post_request),
        web.get("/look/graph.svg", get_look_graph),
        web.get("/paths", get_paths), web.get("/paths/{id}", get_path),
        web.post("/paths/{id}/cancel", post_cancel),
        web.get("/paths/{id}/graph.svg", get_path_graph),
        web.get("/desk", get_desk), web.get("/desk/graph.svg", get_desk_graph),
        web.get("/closures", get_closures), web.post("/closures", post_closure),
        web.post("/closures/{id}/open", post_open_again),
        web.get("/admin", get_admin), web.post("/admin/tenants", post_tenant),
        web.post("/admin/people", post_person),
        web.get("/tokens", get_tokens), web.post("/tokens", post_token)]

"""The API: requests, paths, why, points, trains, network, closures, events."""
from __future__ import annotations

import asyncio
import json
import time
from typing import Any

from aiohttp import web

from kidrofemba.desk import openapi
from kidrofemba.desk.door_line import NoReply
from kidrofemba.desk.http import Denied, desk_of, desk_role, problem, who_of
from kidrofemba.desk.network import MOST_FOUND
from kidrofemba.desk.sales import Refusal, Sale, id_of, number_of
from kidrofemba.desk.state import Desk, Listener, shown_state
from kidrofemba.desk.store import Line, State, Who
from kidrofemba.desk.wanted import Fault, Faulty, Reader, Wanted, check_form, digest_of_body

_BEAT_S = 15.0
_LONGEST_KEY = 200


async def body_of(request: web.Request, form: str) -> dict[str, Any]:
    """The body of a request, in the form of a schema."""
    try:
        body = json.loads(await request.read())
    except (ValueError, RecursionError):
        raise Faulty([Fault("", "not_json")]) from None
    if not isinstance(body, dict):
        raise Faulty([Fault("", "not_json")])
    told = request.headers.get("Idempotency-Key")
    if told is not None and "key" not in body:
        body["key"] = told[:_LONGEST_KEY]
    check_form(form, body)
    return body


def json_of(told: Any, status: int = 200, **headers: str) -> web.Response:
    """An answer in JSON."""
    return web.Response(status=status, text=json.dumps(told), headers=headers,
                        content_type="application/json")


async def buy(desk: Desk, who: Who, body: dict[str, Any], wanted: Wanted) -> Sale:
    """Buys what is wanted, or has it offered."""
    expires = time.time() + desk.settings.offer_s if wanted.mode == "offer" else None
    return await desk.sales.buy(who, body.get("key"), digest_of_body(body), body,
                                ("ask", wanted.fields()), wanted.mode, expires)


async def post_request(request: web.Request) -> web.StreamResponse:
    """Buys, has offered, or looks."""
    desk, who = desk_of(request), who_of(request)
    body = await body_of(request, "Request")
    wanted = Reader(desk.day).wanted(body)
    if wanted.mode == "try":
        seen = await desk.look(who, wanted)
        if seen.word == "granted":
            return json_of(desk.seen_path(wanted, seen))
        return await refused_look(request, desk, who, wanted, seen.reply)
    try:
        sale = await buy(desk, who, body, wanted)
    except Refusal as refusal:
        if refusal.word != "no_path":
            raise
        line = await desk.sales.stored(desk.sales.store.line_of_key, who.tenant,
                                       body["key"]) if "key" in body else None
        why = f"/v1/requests/{id_of(line.number)}/why" if line else "/v1/why"
        return problem(request, 409, "no_path", why=why,
                       suggestions=await desk.suggestions(who, wanted))
    status = 200 if sale.kept else 201
    return json_of(desk.path_of(sale), status, Location=f"/v1/paths/{id_of(sale.line.number)}")


async def refused_look(request: web.Request, desk: Desk, who: Who, wanted: Wanted, reply: str
                       ) -> web.Response:
    """What a look that found no path is told."""
    known = {"no-path": (409, "no_path"), "wide": (413, "wide")}
    status, name = known.get(reply.split(" ")[0], (422, "bad"))
    more: dict[str, Any] = {}
    if name == "no_path":
        more = {"why": "/v1/why", "suggestions": await desk.suggestions(who, wanted)}
    return problem(request, status, name, **more)


async def post_why(request: web.Request) -> web.StreamResponse:
    """Who is in the way of a request."""
    desk, who = desk_of(request), who_of(request)
    body = await body_of(request, "Request")
    return json_of(await desk.why(who, Reader(desk.day).wanted(body)))


async def line_of(request: web.Request, who: Who, modes: tuple[str, ...]) -> Line:
    """The line that a request names, of this tenant; others' are not to be found."""
    number = number_of(request.match_info["id"])
    desk = desk_of(request)
    line = await desk.sales.stored(desk.sales.store.line, number) if number is not None else None
    if line is None or line.mode not in modes or (line.tenant != who.tenant and not who.is_desk):
        raise Denied(404, "not_found")
    return line


async def get_why(request: web.Request) -> web.StreamResponse:
    """Who is in the way of a request that was refused, beside what stands now."""
    desk, who = desk_of(request), who_of(request)
    line = await line_of(request, who, ("sell", "offer"))
    try:
        wanted = Reader(desk.day).wanted(json.loads(line.body))
    except (Faulty, KeyError):
        raise Denied(404, "not_found") from None
    return json_of(await desk.why(who, wanted))


async def sale_of(request: web.Request) -> Sale:
    """The path that a request names."""
    desk, who = desk_of(request), who_of(request)
    line = await line_of(request, who, ("sell", "offer"))
    desk.sales.read_on()
    entry = desk.sales.tail.of(desk.sales.owner, line.number)
    if entry is None:
        raise Denied(404, "not_found")
    return Sale(line, entry, True)


async def get_path(request: web.Request) -> web.StreamResponse:
    """A path."""
    return json_of(desk_of(request).path_of(await sale_of(request)))


async def get_paths(request: web.Request) -> web.StreamResponse:
    """The tenant's paths; the desk's are those of all."""
    desk, who = desk_of(request), who_of(request)
    return json_of({"paths": [desk.path_of(one) for one in await sales_of(desk, who)]})


async def sales_of(desk: Desk, who: Who) -> list[Sale]:
    """The paths that this tenant may see, the newest first."""
    tenant = None if who.is_desk else who.tenant
    lines = await desk.sales.stored(desk.sales.store.paths, tenant)
    desk.sales.read_on()
    found = ((line, desk.sales.tail.of(desk.sales.owner, line.number)) for line in lines)
    return [Sale(line, entry, True) for line, entry in found if entry is not None]


async def delete_path(request: web.Request) -> web.StreamResponse:
    """Gives a path back."""
    sale = await sale_of(request)
    await desk_of(request).sales.free(sale.line)
    return web.Response(status=204)


async def accept_path(request: web.Request) -> web.StreamResponse:
    """Makes an offer a sale."""
    desk, sale = desk_of(request), await sale_of(request)
    store = desk.sales.store
    if sale.line.mode == "offer" and not await desk.sales.stored(store.accept, sale.line.number):
        raise Refusal(409, "expired")
    if sale.line.state is State.FREED:
        raise Refusal(409, "expired")
    line = await desk.sales.stored(store.line, sale.line.number)
    assert line is not None
    return json_of(desk.path_of(Sale(line, sale.entry, True)))


async def get_points(request: web.Request) -> web.StreamResponse:
    """Points like a text, or all."""
    desk = desk_of(request)
    who_of(request)
    text = request.query.get("q", "")[:255]
    names = desk.day.points_like(text)[:MOST_FOUND] if text.strip() else desk.day.points
    return json_of({"points": [one for one in desk.day.schematic["points"]
                               if one["id"] in set(names)] if not text.strip() else
                    [one for name in names for one in desk.day.schematic["points"]
                     if one["id"] == name]})


async def get_trains(request: web.Request) -> web.StreamResponse:
    """The trains that may be asked for."""
    who_of(request)
    return json_of({"trains": [
        {"name": name, "length_m": one.length, "speed_km_h": round(one.speed * 3.6 / 1000, 1),
         "allowance_percent": one.allowance}
        for name, one in sorted(desk_of(request).day.trains.items())]})


async def get_network(request: web.Request) -> web.StreamResponse:
    """The network as a schematic."""
    who_of(request)
    day = desk_of(request).day
    return json_of(day.schematic | {
        "zones": len(day.railway.zones), "blocks": len(day.railway.blocks),
        "begins": day.moment_of_tick(0), "ends": day.moment_of_tick(day.horizon)})


# ---- Closures


def closure_of(desk: Desk, lines: list[Line]) -> dict[str, Any]:
    """A closure of its parts."""
    entries = [one for one in (desk.sales.tail.of(desk.sales.owner, line.number)
                               for line in lines) if one is not None]
    claims = [claim for entry in entries for claim in entry.claims]
    reason = entries[0].reason if entries and entries[0].reason else ""
    return {"id": id_of(lines[0].batch or lines[0].number), "reason": reason,
            "zones": sorted({claim.zone for claim in claims}),
            "state": "stands" if any(one.is_live for one in entries) else
            shown_state(lines[0].state) if not entries else "freed",
            "from": desk.day.moment_of_tick(min((one.begin for one in claims), default=0)),
            "until": desk.day.moment_of_tick(max((one.end for one in claims), default=0))}


async def closures_of(desk: Desk) -> list[dict[str, Any]]:
    """All closures, the newest first."""
    desk.sales.read_on()
    groups: dict[int, list[Line]] = {}
    for line in await desk.sales.stored(desk.sales.store.closures):
        groups.setdefault(line.batch or line.number, []).append(line)
    return [closure_of(desk, lines) for lines in groups.values()]


async def get_closures(request: web.Request) -> web.StreamResponse:
    """All closures."""
    desk_role(request)
    return json_of({"closures": await closures_of(desk_of(request))})


def zones_of_place(desk: Desk, place: dict[str, Any]) -> list[int]:
    """The zones of a place; Faulty where there are none."""
    reader, day = Reader(desk.day), desk.day
    zones: set[int] = set()
    if "zones" in place:
        zones = {one for one in place["zones"] if one < len(day.railway.zones)}
    elif "track" in place:
        zones = set(day.zones_of_tracks(place["track"], place.get("begin_m", 0),
                                        place.get("end_m", 1e9)))
    elif "between" in place:
        points = [reader.point(text, f"/place/between/{at}")
                  for at, text in enumerate(place["between"])]
        if not reader.faults:
            for one in (points, points[::-1]):
                zones |= day.zones_between(one)
    elif "point" in place:
        point = reader.point(place["point"], "/place/point")
        zones = set() if reader.faults else set(day.zones_at(point))
    else:
        reader.faults.append(Fault("/place", "place_wanted"))
    if not zones and not reader.faults:
        reader.faults.append(Fault("/place", "place_empty"))
    if reader.faults:
        raise Faulty(reader.faults)
    return sorted(zones)


async def close(desk: Desk, who: Who, body: dict[str, Any]) -> tuple[dict[str, Any], bool]:
    """Closes a place for a time; the closure, and whether it had been done before."""
    reader = Reader(desk.day)
    window = reader.window({"from": body["from"], "until": body["until"]}, "")
    if reader.faults:
        raise Faulty(reader.faults)
    spans = [(zone, window[0], window[1] + 1) for zone in zones_of_place(desk, body["place"])]
    sales = await desk.sales.close_zones(who, body.get("key"), digest_of_body(body), body,
                                         body["reason"], spans)
    return closure_of(desk, [one.line for one in sales]), all(one.kept for one in sales)


async def post_closure(request: web.Request) -> web.StreamResponse:
    """Closes a place."""
    who = desk_role(request)
    body = await body_of(request, "ClosureRequest")
    told, kept = await close(desk_of(request), who, body)
    return json_of(told, 200 if kept else 201)


async def open_again(desk: Desk, number: int | None) -> None:
    """Gives back all parts of a closure."""
    lines = await desk.sales.stored(desk.sales.store.closures)
    parts = [line for line in lines if number in (line.batch, line.number)
             and line.state is not State.OPEN]
    if number is None or not parts:
        raise Denied(404, "not_found")
    for line in parts:
        await desk.sales.free(line)


async def delete_closure(request: web.Request) -> web.StreamResponse:
    """Opens a closed place again."""
    desk_role(request)
    await open_again(desk_of(request), number_of(request.match_info["id"]))
    return web.Response(status=204)


# ---- Events and health


async def get_events(request: web.Request) -> web.StreamResponse:
    """A stream of events, which lasts until the listener leaves."""
    desk, who = desk_of(request), who_of(request)
    if not desk.may_listen(who):
        return problem(request, 503, "busy", 10.0)
    response = web.StreamResponse(headers={"Content-Type": "text/event-stream",
                                           "X-Accel-Buffering": "no"})
    listener = Listener(who)
    desk.listeners.add(listener)
    try:
        await response.prepare(request)
        await response.write(b": listening\n\n")
        while True:
            try:
                event = await asyncio.wait_for(listener.queue.get(), _BEAT_S)
                text = f"event: {event['what']}\ndata: {json.dumps(event)}\n\n"
            except TimeoutError:
                text = ": still here\n\n"
            await response.write(text.encode())
    except (ConnectionError, asyncio.CancelledError):
        return response
    finally:
        desk.listeners.discard(listener)


async def get_health(request: web.Request) -> web.StreamResponse:
    """Whether the server answers through the door."""
    desk = desk_of(request)
    try:
        async with asyncio.timeout(5):
            reply = await desk.sales.door.send("front")
        front = int(reply.removeprefix("front at "))
    except (NoReply, TimeoutError, ValueError):
        return json_of({"ok": False, "front": None}, 503)
    return json_of({"ok": True, "front": front})


async def get_metrics(request: web.Request) -> web.StreamResponse:
    """Counts for Prometheus."""
    return web.Response(text=desk_of(request).metrics(), content_type="text/plain")


async def get_openapi(request: web.Request) -> web.StreamResponse:
    """The description of the API."""
    return json_of(openapi.description())


def routes() -> list[web.RouteDef]:
    """The API's routes."""
    return [
        web.post("/v1/requests", post_request), web.post("/v1/why", post_why),
        web.get("/v1/requests/{id}/why", get_why), web.get("/v1/paths", get_paths),
        web.get("/v1/paths/{id}", get_path), web.delete("/v1/paths/{id}", delete_path),
        web.post("/v1/paths/{id}/accept", accept_path), web.get("/v1/points", get_points),
        web.get("/v1/trains", get_trains), web.get("/v1/network", get_network),
        web.get("/v1/closures", get_closures), web.post("/v1/closures", post_closure),
        web.delete("/v1/closures/{id}", delete_closure), web.get("/v1/events", get_events),
        web.get("/healthz", get_health), web.get("/metrics", get_metrics),
        web.get("/openapi.json", get_openapi)]

"""The description of the API in OpenAPI 3, and the schemas by which requests are judged."""
from __future__ import annotations

from typing import Any

_MOMENT = {"type": "string", "maxLength": 40, "example": "2026-12-01T06:00:00+01:00"}
_TEXT = {"type": "string", "minLength": 1, "maxLength": 255}
_MINUTES = {"type": "integer", "minimum": 0, "maximum": 2880}


def _object(required: list[str], **properties: Any) -> dict[str, Any]:
    return {"type": "object", "required": required, "properties": properties,
            "additionalProperties": False}


def _list(items: Any, **more: Any) -> dict[str, Any]:
    return {"type": "array", "items": items} | more


def _or_null(one: dict[str, Any]) -> dict[str, Any]:
    kind = one["type"]
    return one | {"type": [kind, "null"]}


_STRING, _WHOLE = {"type": "string"}, {"type": "integer"}
_WINDOW = _object([], **{"from": _MOMENT, "until": _MOMENT, "at": _MOMENT,
                         "minutes_before": _MINUTES, "minutes_after": _MINUTES})
_ROW = _object(["point", "track", "arrive", "pass", "depart"], point=_STRING, track=_STRING,
               arrive=_or_null(_STRING), depart=_or_null(_STRING), **{"pass": _or_null(_STRING)})
_SUGGESTION = _object(["what", "until", "departs", "arrives"],
                      what={"type": "string", "enum": ["arrive_later", "depart_later",
                                                       "depart_earlier"]},
                      until=_STRING, departs=_STRING, arrives=_STRING)
_WALL = _object(["who", "kind", "place", "from", "until", "without"], who=_STRING,
                kind={"type": "string", "enum": ["planned", "path", "closure"]}, place=_STRING,
                until=_STRING, without=_or_null({"type": "string"}), **{"from": _STRING})
_FAULT = _object(["pointer", "detail"], pointer=_STRING, detail=_STRING)

SCHEMAS: dict[str, dict[str, Any]] = {
    "Request": _object(
        ["train", "from", "to"], key={"type": "string", "minLength": 1, "maxLength": 200},
        train=_TEXT, to=_object(["point"], point=_TEXT, arrive=_WINDOW),
        stops=_list(_object(["point", "minutes"], point=_TEXT,
                            minutes={"type": "number", "minimum": 0, "maximum": 2880}),
                    maxItems=16),
        mode={"type": "string", "enum": ["sell", "offer", "try"]},
        **{"from": _object(["point"], point=_TEXT, depart=_WINDOW)}),
    "Path": _object(
        ["id", "state", "mode", "train", "rows", "departs", "arrives", "metres", "kept"],
        id=_STRING, state={"type": "string", "enum": ["stands", "freed", "seen"]},
        mode={"type": "string", "enum": ["sell", "offer", "try"]}, train=_STRING,
        rows=_list(_ROW), departs=_STRING, arrives=_STRING, metres=_WHOLE,
        kept={"type": "boolean"}, expires=_or_null({"type": "string"}), tenant=_STRING,
        front=_WHOLE),
    "Paths": _object(["paths"], paths=_list({"$ref": "#/components/schemas/Path"})),
    "Problem": _object(["type", "title", "status"], type=_STRING, title=_STRING, status=_WHOLE,
                       detail=_STRING, errors=_list(_FAULT), why=_STRING, reply=_STRING,
                       suggestions=_list(_SUGGESTION)),
    "Why": _object(["reason", "walls", "suggestions", "front"],
                   reason={"type": "string",
                           "enum": ["path", "no_way", "windows", "walls", "unknown"]},
                   nearest_km=_or_null({"type": "number"}), walls=_list(_WALL),
                   suggestions=_list(_SUGGESTION), front=_WHOLE),
    "Points": _object(["points"], points=_list(_object(["id", "name", "code", "tracks"],
                                                       id=_STRING, name=_STRING, code=_STRING,
                                                       tracks=_WHOLE))),
    "Trains": _object(["trains"], trains=_list(_object(
        ["name", "length_m", "speed_km_h", "allowance_percent"], name=_STRING, length_m=_WHOLE,
        speed_km_h={"type": "number"}, allowance_percent=_WHOLE))),
    "Network": _object(["points", "links", "zones", "blocks", "begins", "ends"],
                       points=_list({"type": "object"}), zones=_WHOLE, blocks=_WHOLE,
                       begins=_STRING, ends=_STRING, links=_list(_object(
                           ["from", "to", "metres"], to=_STRING, metres=_WHOLE,
                           **{"from": _STRING}))),
    "ClosureRequest": _object(
        ["place", "reason", "from", "until"], key={"type": "string", "minLength": 1,
                                                  "maxLength": 200},
        place=_object([], point=_TEXT, between=_list(_TEXT, minItems=2, maxItems=2), track=_TEXT,
                      begin_m={"type": "number"}, end_m={"type": "number"},
                      zones=_list({"type": "integer", "minimum": 0}, minItems=1, maxItems=640)),
        reason={"type": "string", "minLength": 1, "maxLength": 150}, until=_MOMENT,
        **{"from": _MOMENT}),
    "Closure": _object(["id", "reason", "zones", "state", "from", "until"], id=_STRING,
                       reason=_STRING, zones=_list(_WHOLE), until=_STRING,
                       state={"type": "string", "enum": ["stands", "freed", "open"]},
                       **{"from": _STRING}),
    "Closures": _object(["closures"], closures=_list({"$ref": "#/components/schemas/Closure"})),
    "Health": _object(["ok", "front"], ok={"type": "boolean"}, front=_or_null({"type": "integer"})),
}


def _inlined(one: Any) -> Any:
    """A schema in which named ones stand where they are named."""
    if isinstance(one, dict):
        if "$ref" in one:
            return _inlined(SCHEMAS[one["$ref"].rsplit("/", 1)[1]])
        return {key: _inlined(value) for key, value in one.items() if key != "example"}
    return [_inlined(value) for value in one] if isinstance(one, list) else one


def schema(name: str) -> dict[str, Any]:
    """A schema by its name, that needs nothing else."""
    made = _inlined(SCHEMAS[name])
    assert isinstance(made, dict)
    return made


def _nullable(one: Any) -> Any:
    """A schema as OpenAPI 3.0 writes it: `nullable` in place of a second type."""
    if isinstance(one, dict):
        made = {key: _nullable(value) for key, value in one.items()}
        if isinstance(made.get("type"), list):
            made |= {"type": made["type"][0], "nullable": True}
        return made
    return [_nullable(value) for value in one] if isinstance(one, list) else one


#: What each operation answers: method, path, what it does, the schema of its body, and for each
#: status a schema, or None where there is no body.
_OPERATIONS: tuple[tuple[str, str, str, str | None, dict[int, str | None]], ...] = (
    ("post", "/v1/requests", "Buys a path, has one offered for a while, or tries", "Request",
     {200: "Path", 201: "Path", 409: "Problem", 422: "Problem"}),
    ("post", "/v1/why", "Tells who is in the way of a request, and what to widen", "Request",
     {200: "Why", 422: "Problem"}),
    ("get", "/v1/requests/{id}/why", "The same of a request that was refused", None,
     {200: "Why", 404: "Problem"}),
    ("get", "/v1/paths", "The tenant's paths, the newest first", None, {200: "Paths"}),
    ("get", "/v1/paths/{id}", "A path by stations and clock times", None,
     {200: "Path", 404: "Problem"}),
    ("delete", "/v1/paths/{id}", "Gives a path back", None, {204: None, 404: "Problem"}),
    ("post", "/v1/paths/{id}/accept", "Makes an offer a sale", None,
     {200: "Path", 404: "Problem", 409: "Problem"}),
    ("get", "/v1/points", "Operational points like the text q", None, {200: "Points"}),
    ("get", "/v1/trains", "The trains that may be asked for", None, {200: "Trains"}),
    ("get", "/v1/network", "The network as a schematic", None, {200: "Network"}),
    ("get", "/v1/closures", "Closures of zones (roles desk and admin)", None, {200: "Closures"}),
    ("post", "/v1/closures", "Closes a place for a time (roles desk and admin)", "ClosureRequest",
     {200: "Closure", 201: "Closure", 409: "Problem", 422: "Problem"}),
    ("delete", "/v1/closures/{id}", "Opens a closed place again", None,
     {204: None, 404: "Problem"}),
    ("get", "/v1/events", "Server-sent events: sold, freed, closed", None, {200: None}),
    ("get", "/healthz", "Whether the server answers", None, {200: "Health", 503: "Health"}),
)
#: What each call of a tenant may be told besides.
_COMMON: dict[int, str | None] = dict.fromkeys((401, 403, 413, 429, 500, 503), "Problem")
OPERATIONS = tuple(
    (method, path, about, body, answers | (_COMMON if path.startswith("/v1/") else {}))
    for method, path, about, body, answers in _OPERATIONS)


def _operation(about: str, body: str | None, answers: dict[int, str | None], path: str
               ) -> dict[str, Any]:
    """An operation as OpenAPI tells it."""
    made: dict[str, Any] = {"summary": about, "responses": {}}
    for status, name in answers.items():
        kind = "application/problem+json" if name == "Problem" else "application/json"
        told: dict[str, Any] = {"description": "" if name is None else name}
        if name is not None:
            told["content"] = {kind: {"schema": {"$ref": f"#/components/schemas/{name}"}}}
        made["responses"][str(status)] = told
    if body is not None:
        made["requestBody"] = {"required": True, "content": {"application/json": {
            "schema": {"$ref": f"#/components/schemas/{body}"}}}}
    if "{id}" in path:
        made["parameters"] = [{"name": "id", "in": "path", "required": True,
                               "schema": {"type": "string"}}]
    if path == "/v1/points":
        made["parameters"] = [{"name": "q", "in": "query", "schema": {"type": "string"}}]
    if path.startswith("/v1"):
        made["security"] = [{"token": []}]
    return made


def description() -> dict[str, Any]:
    """The whole description."""
    paths: dict[str, Any] = {}
    for method, path, about, body, answers in OPERATIONS:
        paths.setdefault(path, {})[method] = _operation(about, body, answers, path)
    return {"openapi": "3.0.3", "info": {"title": "Kidrofemba desk", "version": "1"},
            "paths": paths, "components": {
                "schemas": _nullable(SCHEMAS),
                "securitySchemes": {"token": {"type": "http", "scheme": "bearer"}}}}

"""What stands around every handler: who asks, limits, faults without traces, and headers."""
from __future__ import annotations

import hmac
import json
import logging
import math
import time
from collections.abc import Awaitable, Callable
from typing import Any

from aiohttp import web

from kidrofemba.desk.look import LookFailed
from kidrofemba.desk.sales import Refusal
from kidrofemba.desk.state import Desk
from kidrofemba.desk.store import Who
from kidrofemba.desk.wanted import Fault, Faulty
from kidrofemba.desk.words import LANGUAGES, word

LOG = logging.getLogger("desk")
COOKIE, LANGUAGE_COOKIE = "desk_session", "desk_language"
MOST_BODY_BYTES = 65_536
DESK: str = "desk"
POLICY = ("default-src 'none'; script-src 'self'; style-src 'self'; img-src 'self' data:; "
          "connect-src 'self'; form-action 'self'; base-uri 'none'; frame-ancestors 'none'")
HEADERS = {
    "Content-Security-Policy": POLICY, "X-Content-Type-Options": "nosniff",
    "X-Frame-Options": "DENY", "Referrer-Policy": "same-origin", "Server": "kidrofemba",
    "Cross-Origin-Opener-Policy": "same-origin", "Cross-Origin-Resource-Policy": "same-origin",
    "Permissions-Policy": "geolocation=(), camera=(), microphone=()",
}
_SAFE = ("GET", "HEAD", "OPTIONS")
_STATUS_WORDS = {404: "not_found", 405: "not_found", 413: "too_long"}

Handler = Callable[[web.Request], Awaitable[web.StreamResponse]]


class Denied(Exception):
    """A request that is turned away before it is done: the status and a word for why."""

    def __init__(self, status: int, name: str, retry_s: float = 0.0):
        super().__init__(name)
        self.status, self.name, self.retry_s = status, name, retry_s


def desk_of(request: web.Request) -> Desk:
    """The desk that a request is for."""
    desk = request.app[DESK]
    assert isinstance(desk, Desk)
    return desk


def language_of(request: web.Request) -> str:
    """The language in which to answer: that of the cookie, else of the browser."""
    told = request.cookies.get(LANGUAGE_COOKIE, "")
    if told in LANGUAGES:
        return told
    for part in request.headers.get("Accept-Language", "")[:200].split(","):
        if part.strip()[:2].lower() in LANGUAGES:
            return part.strip()[:2].lower()
    return "en"


def is_api(request: web.Request) -> bool:
    """Whether a program asks, which is told faults as JSON."""
    return request.path.startswith("/v1/") or request.path in ("/healthz", "/metrics")


def who_of(request: web.Request) -> Who:
    """Who asks; Denied where that is not known."""
    who = request.get("who")
    if not isinstance(who, Who):
        raise Denied(401, "login_wanted")
    return who


def desk_role(request: web.Request) -> Who:
    """Who asks, of the infrastructure manager's desk."""
    who = who_of(request)
    if not who.is_desk:
        raise Denied(403, "not_allowed")
    return who


def admin_role(request: web.Request) -> Who:
    """Who asks, an administrator."""
    who = who_of(request)
    if who.role != "admin":
        raise Denied(403, "not_allowed")
    return who


async def find_who(request: web.Request) -> None:
    """Notes who asks, and the name of the tenant."""
    await _find_who(request)
    who = request.get("who")
    if isinstance(who, Who):
        desk_of(request).names[who.tenant] = who.tenant_name


async def _find_who(request: web.Request) -> None:
    """Notes who asks, by an API token or a session. With a session, what changes something needs
    the session's token against forged forms."""
    desk, store = desk_of(request), desk_of(request).sales.store
    told = request.headers.get("Authorization", "")
    if told.startswith("Bearer ") and len(told) < 200:
        request["who"] = await desk.sales.stored(store.who_of_token, told[7:].strip())
        return
    secret = request.cookies.get(COOKIE, "")
    if not 0 < len(secret) < 100:
        return
    found = await desk.sales.stored(store.who_of_session, secret)
    if found is None:
        return
    request["who"], request["csrf"] = found
    if request.method not in _SAFE:
        sent = request.headers.get("X-CSRF-Token") or ""
        if not sent and not is_api(request):
            sent = str((await request.post()).get("csrf", ""))
        if not hmac.compare_digest(sent.encode(), found[1].encode()):
            raise Denied(403, "forged")


def limit(request: web.Request) -> None:
    """Denied where a tenant, or an address without an account, asks too often."""
    desk = desk_of(request)
    who = request.get("who")
    if isinstance(who, Who):
        wait_s = desk.limiter.wait_s(f"tenant {who.tenant}", who.rate)
    elif request.method not in _SAFE or is_api(request) and request.path != "/healthz":
        wait_s = desk.limiter.wait_s(f"address {address_of(request)}",
                                     desk.settings.guests_a_minute)
    else:
        return
    if wait_s:
        raise Denied(429, "too_many", wait_s)


def address_of(request: web.Request) -> str:
    """The address from which a request comes: behind a proxy of this machine the one that the
    proxy saw."""
    if request.remote in ("127.0.0.1", "::1", None, ""):
        told = request.headers.get("X-Forwarded-For", "").rsplit(",", 1)[-1].strip()
        return told[:64] or "local"
    return request.remote or "local"


def problem(request: web.Request, status: int, name: str, retry_s: float = 0.0, **more: Any
            ) -> web.Response:
    """A fault as RFC 9457 has it; for a person a page."""
    language = language_of(request)
    title = word(language, name) if "{" not in word("en", name) else name
    headers = {"Retry-After": str(math.ceil(retry_s))} if retry_s else {}
    if status == 401 and is_api(request):
        headers["WWW-Authenticate"] = "Bearer"
    if is_api(request):
        told = {"type": f"urn:kidrofemba:{name.replace('_', '-')}", "title": title,
                "status": status} | more
        return web.Response(status=status, text=json.dumps(told), headers=headers,
                            content_type="application/problem+json")
    from kidrofemba.desk.pages import fault_page
    return fault_page(request, status, title, headers)


def told_faults(faults: list[Fault], language: str) -> list[dict[str, str]]:
    """Faults as programs are told them."""
    return [{"pointer": one.pointer, "detail": word(language, one.word, **one.values)}
            for one in faults]


async def answer(request: web.Request, handler: Handler) -> web.StreamResponse:
    """A handler's answer, or the fault that it ended in."""
    try:
        await find_who(request)
        limit(request)
        return await handler(request)
    except Denied as denied:
        if denied.status == 401 and not is_api(request):
            return web.Response(status=303, headers={"Location": "/login"})
        return problem(request, denied.status, denied.name, denied.retry_s)
    except Faulty as faulty:
        return problem(request, 422, "faulty",
                       errors=told_faults(faulty.faults, language_of(request)))
    except Refusal as refusal:
        more = {"reply": refusal.reply.split(" at ")[0]} if refusal.reply else {}
        return problem(request, refusal.status, refusal.word,
                       2.0 if refusal.status == 503 else 0.0, **more)
    except LookFailed:
        return problem(request, 503, "busy", 1.0)
    except web.HTTPException as told:
        if told.status < 400:
            raise
        return problem(request, told.status, _STATUS_WORDS.get(told.status, "fault"))
    except ConnectionError:
        raise
    except Exception as failure:
        LOG.error("%s %s: %s", request.method, request.path, type(failure).__name__,
                  exc_info=failure)
        return problem(request, 500, "fault")


@web.middleware
async def around(request: web.Request, handler: Handler) -> web.StreamResponse:
    """Answers, counts, and gives each answer its headers."""
    begun = time.monotonic()
    response = await answer(request, handler)
    resource = request.match_info.route.resource
    route = resource.canonical if resource is not None else "other"
    desk = desk_of(request)
    desk.counts[f"{request.method} {route}", str(response.status)] += 1
    desk.times_s[f"{request.method} {route}"] += time.monotonic() - begun
    return response


async def give_headers(request: web.Request, response: web.StreamResponse) -> None:
    """Gives an answer the headers that all have."""
    for name, value in HEADERS.items():
        if name not in response.headers or name == "Server":
            response.headers[name] = value
    if not request.path.startswith("/static/") and "Cache-Control" not in response.headers:
        response.headers["Cache-Control"] = "no-store"
    if desk_of(request).settings.is_secure:
        response.headers["Strict-Transport-Security"] = "max-age=31536000"

"""The desk's store: tenants, people, API tokens, and which number stands for which request.

What was sold stands in the journal; the store can be made anew from it. A number is drawn and
synced here before its line is sent. SQLite, one connection, one thread.
"""
from __future__ import annotations

import hashlib
import hmac
import secrets
import sqlite3
import time
from dataclasses import dataclass
from enum import Enum
from pathlib import Path
from typing import Any

from kidrofemba.common.companion import Refused

#: NUMBER is tenant * PER_TENANT + counter.
PER_TENANT = 10 ** 12
MOST_TENANTS = 9_000_000
ROLES = ("operator", "desk", "admin")
SESSION_S = 12 * 3600
#: scrypt's cost: 32 MB and some 0.1 s a trial.
_SCRYPT = {"n": 2 ** 15, "r": 8, "p": 1, "maxmem": 2 ** 26}

_SCHEMA = """
CREATE TABLE IF NOT EXISTS tenants (id INTEGER PRIMARY KEY, name TEXT NOT NULL UNIQUE,
    quota INTEGER NOT NULL, rate INTEGER NOT NULL);
CREATE TABLE IF NOT EXISTS people (name TEXT PRIMARY KEY,
    tenant INTEGER NOT NULL REFERENCES tenants, role TEXT NOT NULL, salt BLOB NOT NULL,
    digest BLOB NOT NULL);
CREATE TABLE IF NOT EXISTS tokens (id INTEGER PRIMARY KEY,
    tenant INTEGER NOT NULL REFERENCES tenants, role TEXT NOT NULL, label TEXT NOT NULL,
    digest BLOB NOT NULL UNIQUE, made REAL NOT NULL);
CREATE TABLE IF NOT EXISTS sessions (digest BLOB PRIMARY KEY, person TEXT NOT NULL,
    csrf TEXT NOT NULL, ends REAL NOT NULL);
CREATE TABLE IF NOT EXISTS counters (tenant INTEGER PRIMARY KEY, last INTEGER NOT NULL);
CREATE TABLE IF NOT EXISTS lines (number INTEGER PRIMARY KEY, tenant INTEGER NOT NULL,
    key TEXT, digest TEXT NOT NULL, body TEXT NOT NULL, line TEXT NOT NULL, mode TEXT NOT NULL,
    state TEXT NOT NULL, reply TEXT NOT NULL, batch INTEGER, made REAL NOT NULL, expires REAL,
    free_number INTEGER, UNIQUE (tenant, key));
CREATE INDEX IF NOT EXISTS lines_by_tenant ON lines (tenant, state);
CREATE INDEX IF NOT EXISTS lines_by_state ON lines (state);
"""


class State(str, Enum):
    """What became of a line: it has no reply yet, it stands, it was refused, or given back."""

    OPEN = "open"
    STANDS = "stands"
    REFUSED = "refused"
    FREED = "freed"


@dataclass(frozen=True)
class Line:
    """A line that the desk sent, or is about to send."""

    number: int
    tenant: int
    key: str | None
    digest: str
    body: str
    line: str
    mode: str
    state: State
    reply: str
    batch: int | None
    made: float
    expires: float | None
    free_number: int | None


@dataclass(frozen=True)
class Who:
    """Who asks: a tenant's person or token, and by which role."""

    tenant: int
    tenant_name: str
    role: str
    name: str
    quota: int
    rate: int

    @property
    def is_desk(self) -> bool:
        """Whether it may see all tenants and close zones."""
        return self.role in ("desk", "admin")


def digest_of(secret: str) -> bytes:
    """The digest by which a secret of 32 drawn bytes is kept."""
    return hashlib.sha256(secret.encode()).digest()


def scrypt(password: str, salt: bytes) -> bytes:
    """The digest by which a password is kept."""
    return hashlib.scrypt(password.encode(), salt=salt, n=_SCRYPT["n"], r=_SCRYPT["r"],
                          p=_SCRYPT["p"], maxmem=_SCRYPT["maxmem"])


def _line_of(row: dict[str, Any]) -> Line:
    told: dict[str, Any] = row | {"state": State(row["state"])}
    return Line(**told)


class Store:
    """The store in a file, or in memory (`:memory:`)."""

    def __init__(self, file: Path | str):
        self.file = file
        try:
            self.rows = sqlite3.connect(str(file), isolation_level=None, check_same_thread=False)
            self.rows.row_factory = sqlite3.Row
            self.rows.execute("PRAGMA journal_mode=WAL")
            self.rows.execute("PRAGMA synchronous=FULL")
            self.rows.execute("PRAGMA foreign_keys=ON")
            self.rows.executescript(_SCHEMA)
        except sqlite3.Error as wrong:
            raise Refused(file, "", f"is no store that can be opened: {wrong}") from None

    def close(self) -> None:
        """Closes the file."""
        self.rows.close()

    # ---- Tenants and people

    def add_tenant(self, name: str, quota: int, rate: int, number: int | None = None) -> int:
        """A new tenant's number; ValueError where the name is taken or none is left."""
        if number is None:
            known = self.rows.execute("SELECT max(id) FROM tenants").fetchone()[0] or 0
            number = known + 1
        if number > MOST_TENANTS:
            raise ValueError("tenants")
        try:
            self.rows.execute("INSERT INTO tenants VALUES (?, ?, ?, ?)",
                              (number, name, quota, rate))
        except sqlite3.IntegrityError:
            raise ValueError("taken") from None
        return number

    def set_tenant(self, number: int, quota: int, rate: int) -> None:
        """Gives a tenant another quota and rate."""
        self.rows.execute("UPDATE tenants SET quota=?, rate=? WHERE id=?", (quota, rate, number))

    def tenants(self) -> list[dict[str, Any]]:
        """All tenants, with how many of their paths stand."""
        return [dict(row) for row in self.rows.execute(
            "SELECT t.*, (SELECT count(*) FROM lines l WHERE l.tenant=t.id AND l.state='stands'"
            " AND l.mode IN ('sell', 'offer')) AS standing FROM tenants t ORDER BY t.id")]

    def tenant_names(self) -> dict[int, str]:
        """The name of each tenant."""
        return {row["id"]: row["name"] for row in self.rows.execute("SELECT id, name FROM tenants")}

    def add_person(self, name: str, tenant: int, role: str, password: str) -> None:
        """A new person; one of this name gets this tenant, role and password, and is logged out."""
        salt = secrets.token_bytes(16)
        self.rows.execute("INSERT OR REPLACE INTO people VALUES (?, ?, ?, ?, ?)",
                          (name, tenant, role, salt, scrypt(password, salt)))
        self.rows.execute("DELETE FROM sessions WHERE person=?", (name,))

    def drop_person(self, name: str) -> None:
        """Takes a person out, and ends their sessions."""
        self.rows.execute("DELETE FROM people WHERE name=?", (name,))
        self.rows.execute("DELETE FROM sessions WHERE person=?", (name,))

    def people(self) -> list[dict[str, Any]]:
        """All people, without what their passwords are kept by."""
        return [dict(row) for row in self.rows.execute(
            "SELECT p.name, p.role, p.tenant, t.name AS tenant_name FROM people p"
            " JOIN tenants t ON t.id=p.tenant ORDER BY p.name")]

    def log_in(self, name: str, password: str) -> tuple[str, str] | None:
        """The secret of a new session and its token against forged forms; None where name and
        password are not a person's. An unknown name takes as long as a wrong password."""
        row = self.rows.execute("SELECT salt, digest FROM people WHERE name=?", (name,)).fetchone()
        made = scrypt(password, row["salt"] if row else b"\0" * 16)
        if row is None or not hmac.compare_digest(made, row["digest"]):
            return None
        secret, csrf = secrets.token_urlsafe(32), secrets.token_urlsafe(32)
        self.rows.execute("DELETE FROM sessions WHERE ends<?", (time.time(),))
        self.rows.execute("INSERT INTO sessions VALUES (?, ?, ?, ?)",
                          (digest_of(secret), name, csrf, time.time() + SESSION_S))
        return secret, csrf

    def log_out(self, secret: str) -> None:
        """Ends a session."""
        self.rows.execute("DELETE FROM sessions WHERE digest=?", (digest_of(secret),))

    def who_of_session(self, secret: str) -> tuple[Who, str] | None:
        """Whose session this is, and its token against forged forms."""
        row = self.rows.execute(
            "SELECT t.id, t.name AS tenant_name, p.role, p.name, t.quota, t.rate, s.csrf"
            " FROM sessions s JOIN people p ON p.name=s.person JOIN tenants t ON t.id=p.tenant"
            " WHERE s.digest=? AND s.ends>?", (digest_of(secret), time.time())).fetchone()
        return None if row is None else (Who(*tuple(row)[:6]), row["csrf"])

    def add_token(self, tenant: int, role: str, label: str) -> str:
        """A new API token, which is told once: its digest alone is kept."""
        secret = "kd_" + secrets.token_urlsafe(32)
        self.rows.execute("INSERT INTO tokens (tenant, role, label, digest, made)"
                          " VALUES (?, ?, ?, ?, ?)",
                          (tenant, role, label, digest_of(secret), time.time()))
        return secret

    def drop_token(self, token: int, tenant: int | None) -> None:
        """Takes a token out, of this tenant alone where one is named."""
        self.rows.execute("DELETE FROM tokens WHERE id=? AND (? IS NULL OR tenant=?)",
                          (token, tenant, tenant))

    def tokens(self, tenant: int | None) -> list[dict[str, Any]]:
        """The tokens of a tenant, or of all."""
        return [dict(row) for row in self.rows.execute(
            "SELECT k.id, k.tenant, k.role, k.label, k.made, t.name AS tenant_name FROM tokens k"
            " JOIN tenants t ON t.id=k.tenant WHERE ? IS NULL OR k.tenant=? ORDER BY k.id",
            (tenant, tenant))]

    def who_of_token(self, secret: str) -> Who | None:
        """Whose token this is."""
        row = self.rows.execute(
            "SELECT t.id, t.name, k.role, k.label, t.quota, t.rate FROM tokens k"
            " JOIN tenants t ON t.id=k.tenant WHERE k.digest=?", (digest_of(secret),)).fetchone()
        return None if row is None else Who(*row)

    # ---- Lines

    def _next(self, tenant: int) -> int:
        """A number of a tenant that was not used before."""
        self.rows.execute("INSERT INTO counters VALUES (?, 1) ON CONFLICT (tenant)"
                          " DO UPDATE SET last=last+1", (tenant,))
        row = self.rows.execute("SELECT last FROM counters WHERE tenant=?", (tenant,)).fetchone()
        return tenant * PER_TENANT + int(row[0])

    def begin(self, tenant: int, key: str | None, digest: str, body: str, rest: tuple[str, str],
              mode: str, expires: float | None = None, batch: int | None = None,
              quota: int | None = None) -> tuple[Line | None, bool]:
        """The line of a key, and whether it is new: then its number was drawn, and stands on the
        disk. None where the tenant has as many paths as its quota. `rest` is the line's word, and
        what stands behind its number; `batch` 0 is the number itself."""
        self.rows.execute("BEGIN IMMEDIATE")
        try:
            known = self.line_of_key(tenant, key) if key is not None else None
            if known is not None:
                return known, False
            if quota is not None and self.standing(tenant) >= quota:
                return None, False
            number = self._next(tenant)
            self.rows.execute(
                "INSERT INTO lines VALUES (?, ?, ?, ?, ?, ?, ?, 'open', '', ?, ?, ?, NULL)",
                (number, tenant, key, digest, body, f"{rest[0]} {number} {rest[1]}", mode,
                 number if batch == 0 else batch, time.time(), expires))
            made = self.line(number)
            assert made is not None
            return made, True
        finally:
            self.rows.execute("COMMIT")

    def standing(self, tenant: int) -> int:
        """How many paths of a tenant stand or are being asked for."""
        return int(self.rows.execute(
            "SELECT count(*) FROM lines WHERE tenant=? AND mode IN ('sell', 'offer')"
            " AND state IN ('open', 'stands')", (tenant,)).fetchone()[0])

    def begin_free(self, number: int) -> int:
        """The number by which a line's path is given back: drawn once, and on the disk."""
        self.rows.execute("BEGIN IMMEDIATE")
        try:
            line = self.line(number)
            assert line is not None
            if line.free_number is not None:
                return line.free_number
            free_number = self._next(line.tenant)
            self.rows.execute("UPDATE lines SET free_number=? WHERE number=?",
                              (free_number, number))
            return free_number
        finally:
            self.rows.execute("COMMIT")

    def end(self, number: int, state: State, reply: str) -> None:
        """Notes what became of a line."""
        self.rows.execute("UPDATE lines SET state=?, reply=? WHERE number=?",
                          (state.value, reply, number))

    def accept(self, number: int) -> bool:
        """Makes an offer a sale; whether it was one that stands."""
        done = self.rows.execute("UPDATE lines SET mode='sell', expires=NULL WHERE number=?"
                                 " AND mode='offer' AND state='stands' AND expires>?"
                                 " AND free_number IS NULL", (number, time.time()))
        return done.rowcount == 1

    def _lines(self, where: str, values: tuple[Any, ...] = ()) -> list[Line]:
        told = self.rows.execute(f"SELECT * FROM lines WHERE {where}", values)
        return [_line_of(dict(row)) for row in told]

    def line(self, number: int) -> Line | None:
        """The line of a number."""
        return next(iter(self._lines("number=?", (number,))), None)

    def line_of_key(self, tenant: int, key: str) -> Line | None:
        """The line of a tenant's key."""
        return next(iter(self._lines("tenant=? AND key=?", (tenant, key))), None)

    def open_lines(self) -> list[Line]:
        """The lines without a reply, and those of which a free has none."""
        return self._lines("state='open' OR (state='stands' AND free_number IS NOT NULL)"
                           " ORDER BY number")

    def expired(self) -> list[Line]:
        """The offers that stand and whose time is over."""
        return self._lines("mode='offer' AND state='stands' AND expires<=?", (time.time(),))

    def paths(self, tenant: int | None, most: int = 1000) -> list[Line]:
        """The newest paths of a tenant, or of all: those that stand or stood."""
        return self._lines("mode IN ('sell', 'offer') AND state IN ('stands', 'freed')"
                           " AND (? IS NULL OR tenant=?) ORDER BY made DESC, number DESC LIMIT ?",
                           (tenant, tenant, most))

    def closures(self) -> list[Line]:
        """The parts of all closures, the newest first."""
        return self._lines("mode='closure' AND state IN ('stands', 'freed', 'open')"
                           " ORDER BY number DESC LIMIT 2000")

    def rebuild(self, lines: list[Line], counters: dict[int, int]) -> None:
        """Puts what a journal tells in the place of all lines: tenants that are not known get a
        name of their number. A line whose number the journal does not have is kept where it is
        open or was refused."""
        self.rows.execute("BEGIN IMMEDIATE")
        try:
            names = self.tenant_names()
            for tenant in sorted(counters):
                if tenant not in names:
                    self.rows.execute("INSERT INTO tenants VALUES (?, ?, 100, 600)",
                                      (tenant, f"tenant {tenant}"))
                self.rows.execute(
                    "INSERT INTO counters VALUES (?, ?) ON CONFLICT (tenant)"
                    " DO UPDATE SET last=max(last, excluded.last)", (tenant, counters[tenant]))
            self.rows.execute("DELETE FROM lines WHERE state IN ('stands', 'freed')"
                              " AND number NOT IN (SELECT value FROM json_each(?))",
                              (str([one.number for one in lines]),))
            for one in lines:
                self.rows.execute(
                    "INSERT INTO lines VALUES (?, ?, ?, ?, ?, ?, ?, ?, ?, ?, ?, ?, ?)"
                    " ON CONFLICT (number) DO UPDATE SET state=excluded.state",
                    (one.number, one.tenant, one.key, one.digest, one.body, one.line, one.mode,
                     one.state.value, one.reply, one.batch, one.made, one.expires,
                     one.free_number))
        finally:
            self.rows.execute("COMMIT")

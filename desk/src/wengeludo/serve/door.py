# SPDX-License-Identifier: LicenseRef-Wengeludo
"""The door: who comes in and from where, and what every answer says to the browser."""

from __future__ import annotations

import getpass
import hmac
import time
from dataclasses import dataclass
from typing import Any, Optional, Tuple

from flask import Flask, Response, abort, g, redirect, request, url_for

from .people import People, Person
from .words import pick

POLICY = (
    "default-src 'none'; script-src 'self'; style-src 'self'; img-src 'self' data:; connect-src 'self'; form-action 'self'; base-uri 'none'; "
    "frame-ancestors 'none'"
)
OPEN = ("static", "health")  # pages that ask nobody who they are


@dataclass(frozen=True)
class Door:
    """The names that the server answers to, and either people with passwords or a key in the printed address."""

    hosts: Tuple[str, ...] = ()
    people: Optional[People] = None
    key: str = ""
    secure: bool = False  # behind TLS

    @property
    def cookie(self) -> str:
        return "__Host-wengeludo" if self.secure else "wengeludo"


def guard(app: Flask, door: Door) -> None:
    """Puts the door in front of every page."""
    csrf = hmac.new(door.key.encode(), b"forms", "sha256").hexdigest()  # the same after a restart: an open page goes on

    @app.before_request
    def enter() -> Any:
        g.began, g.person, g.say = time.perf_counter(), None, pick(request.headers.get("Accept-Language", ""), request.cookies.get("words", ""))
        if door.hosts and request.host not in door.hosts:  # a name that another site has made point here
            return Response("this server does not answer to that name\n", 421, mimetype="text/plain")
        if request.endpoint in OPEN:
            return None
        barred = _with_password(door) if door.people else _with_key(door, csrf)
        return barred or _sent_from_here()

    @app.after_request
    def leave(answer: Response) -> Response:
        answer.headers.setdefault("Content-Security-Policy", POLICY)  # the page of a history run has its own, which shuts it in
        answer.headers["X-Content-Type-Options"] = "nosniff"
        answer.headers["Referrer-Policy"] = "same-origin"
        answer.headers["Cross-Origin-Opener-Policy"] = "same-origin"
        if request.endpoint != "static":
            answer.headers["Cache-Control"] = "no-store"
            answer.headers["Server-Timing"] = f"app;dur={(time.perf_counter() - g.began) * 1e3:.1f}"
        return answer


def _with_password(door: Door) -> Any:
    """Who has a session; others are shown the login, and come back to where they wanted to go."""
    assert door.people is not None
    token = request.cookies.get(door.cookie, "")
    g.person = door.people.person(token) if token else None
    if g.person is None and request.endpoint != "login":
        return redirect(url_for("login", then=request.full_path if request.method == "GET" else "/"), 303)
    return None


def _with_key(door: Door, csrf: str) -> Any:
    """Who has the key of the printed address: the key goes into a cookie and out of the address."""
    given = request.args.get("key", "")
    if given and hmac.compare_digest(given.encode(), door.key.encode()):
        answer = redirect(request.path, 303)
        answer.set_cookie(door.cookie, door.key, httponly=True, samesite="Strict", secure=door.secure)
        return answer
    if not hmac.compare_digest(request.cookies.get(door.cookie, "").encode(), door.key.encode()):
        return Response("Open the address that `wengeludo serve` has printed: it ends with a key.\n", 403, mimetype="text/plain")
    g.person = Person(getpass.getuser(), "engineer", frozenset(range(8)), csrf, alone=True)
    return None


def _sent_from_here() -> Any:
    """A form must come from a page of ours: by its origin and by the token in it."""
    if request.method not in ("POST", "PUT", "DELETE", "PATCH"):
        return None
    origin = request.headers.get("Origin")
    if origin and origin.split("://", 1)[-1] != request.host:
        abort(403)
    if request.endpoint == "login":
        return None
    if not (g.person and hmac.compare_digest(request.form.get("csrf", "").encode(), g.person.csrf.encode())):
        abort(403)
    return None

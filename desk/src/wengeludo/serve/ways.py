# SPDX-License-Identifier: LicenseRef-Wengeludo
"""Ways in and out: login, people, the reader's language."""

from __future__ import annotations

import re
from typing import Any, FrozenSet

from flask import Flask, abort, g, redirect, render_template, request

from ..read.faults import Stopped
from .door import Door
from .people import ROLES, People, Wait

_PATH = re.compile(r"/(?!/)[\w\-./?=&%+,;:]*")
YEAR = 365 * 24 * 3600


def back_to(then: str) -> str:
    """Where somebody wanted to go, if it is a page of ours."""
    return then if _PATH.fullmatch(then) else "/"


def register(app: Flask, door: Door) -> None:
    """The routes of coming in and going out."""

    @app.route("/login", methods=["GET", "POST"])
    def login() -> Any:
        then = back_to(request.values.get("then", "/"))
        if door.people is None:
            return redirect("/", 303)
        if request.method == "GET":
            return render_template("login.html", then=then, told="")
        return _login(door, then)

    @app.post("/logout")
    def logout() -> Any:
        if door.people is not None:
            door.people.logout(request.cookies.get(door.cookie, ""))
        answer = redirect("/login", 303)
        answer.delete_cookie(door.cookie, secure=door.secure)
        return answer

    @app.get("/words")
    def tongue() -> Any:
        answer = redirect(back_to(request.args.get("then", "/")), 303)
        if request.args.get("to") in ("de", "en"):
            answer.set_cookie("words", request.args["to"], max_age=YEAR, samesite="Lax", secure=door.secure)
        return answer

    @app.route("/people", methods=["GET", "POST"])
    def people() -> Any:
        if door.people is None or not g.person.may("people"):
            abort(403)
        told = ""
        if request.method == "POST":
            try:
                _changed(door.people)
                return redirect("/people", 303)
            except Stopped as error:
                told = str(error)
        return render_template("people.html", everybody=door.people.all(), roles=ROLES, told=told), 422 if told else 200


def _login(door: Door, then: str) -> Any:
    assert door.people is not None
    try:
        token = door.people.login(request.form.get("name", "")[:80], request.form.get("password", "")[:200], request.remote_addr or "")
    except Wait:
        return render_template("login.html", then=then, told=g.say("Too many wrong passwords: try again in some minutes.")), 429
    if not token:
        return render_template("login.html", then=then, told=g.say("Name or password is wrong.")), 403
    answer = redirect(then, 303)
    answer.set_cookie(door.cookie, token, httponly=True, samesite="Lax", secure=door.secure, max_age=12 * 3600)
    return answer


def _changed(people: People) -> None:
    """Somebody added, or changed, as the form says."""
    form = request.form
    if form.get("role") not in ROLES:
        raise Stopped(f"a role would do: {', '.join(ROLES)}")
    name, password, offices = form.get("name", "").strip(), form.get("password", ""), offices_in(form.get("offices", ""))
    if form.get("new"):
        people.add(name, password, form["role"], offices)
        return
    people.set(name, form["role"], offices, form.get("disabled") == "1")
    if password:
        people.password(name, password)


def offices_in(text: str) -> FrozenSet[int]:
    """The offices that a text names; Stopped if it names none of 0 to 7."""
    words = text.replace(",", " ").split()
    if any(not re.fullmatch("[0-7]", word) for word in words):
        raise Stopped(f"{text}: offices from 0 to 7 would do, as 0,3")
    return frozenset(int(word) for word in words)

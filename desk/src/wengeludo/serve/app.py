# SPDX-License-Identifier: LicenseRef-Wengeludo
"""The pages of the desk as one web application."""

from __future__ import annotations

import secrets
from typing import Any, Dict

from flask import Flask, g, render_template, request
from werkzeug.exceptions import HTTPException

from ..read.faults import Stopped
from ..write import view
from . import bench, keeping, pages, upload, ways
from .door import Door, guard
from .shelf import Absent, Closed, Conflict, Shelf, Unreachable
from .show import day, thin
from .words import GERMAN

BARRED = {
    403: "You may not do that here, or the page is older than your login: reload it.",
    413: "The file is too large for a list.",
}


def application(shelf: Shelf, door: Door) -> Flask:
    """The application over a book, behind a door."""
    app = Flask(__name__)
    app.config["MAX_CONTENT_LENGTH"] = upload.MOST_BYTES + 100_000
    app.jinja_env.trim_blocks = app.jinja_env.lstrip_blocks = True
    app.jinja_env.filters.update(thin=thin, day=day, basename=lambda source: source.rsplit("/", 1)[-1], said=_said, verdict=lambda headline: _said(headline.split(":")[0]))
    app.jinja_env.globals.update(version=secrets.token_hex(4), cost_text=view.cost_text)
    guard(app, door)

    @app.context_processor
    def common() -> Dict[str, Any]:
        german = g.say("Lists") == GERMAN["Lists"]
        return {"_": g.say, "lang": "de" if german else "en", "person": g.get("person"), "here": request.full_path.rstrip("?"), "runs_there": shelf.has_runs}

    for part in (bench, keeping, pages):
        part.register(app, shelf)
    ways.register(app, door)
    _told_faults(app)

    @app.get("/health")
    def health() -> Any:
        shelf.lasts()
        return "ok\n"

    return app


def _said(text: str) -> str:
    told: str = g.say(text)
    return told


def _told_faults(app: Flask) -> None:
    """What goes wrong, each on a page that says what would do."""

    def plain(status: int, title: str, text: str, **more: Any) -> Any:
        return render_template("plain.html", title=g.say(title), text=text, **more), status

    @app.errorhandler(Unreachable)
    def gone(error: Unreachable) -> Any:
        app.logger.warning("book: %s", error)
        text = "The database does not answer. Kept sheets are safe where they are, and nothing is kept meanwhile. This page tries again in ten seconds."
        return plain(503, "The book cannot be reached", g.say(text), retry=True)

    @app.errorhandler(Closed)
    def closed(error: Closed) -> Any:
        return plain(409, "The book takes no sheets", str(error))

    @app.errorhandler(Conflict)
    def conflict(error: Conflict) -> Any:
        return plain(409, "Not kept again", f"{error}. {g.say('Reload the page that you came from and keep it from there.')}")

    @app.errorhandler(Absent)
    def absent(error: Absent) -> Any:
        return plain(404, "Not there", str(error))

    @app.errorhandler(Stopped)
    def stopped(error: Stopped) -> Any:
        return plain(422, "No sheet", "", lines=str(error).splitlines())

    @app.errorhandler(HTTPException)
    def told(error: HTTPException) -> Any:
        status = error.code or 400
        text = BARRED.get(status, "There is no such page.") if status < 500 else "This page has failed; it is told in the server's own messages."
        return plain(status, "Not there" if status == 404 else "Not done", g.say(text))

# SPDX-License-Identifier: LicenseRef-Wengeludo
"""Taking lists and keeping sheets: the only pages that write."""

from __future__ import annotations

import json
import re
from typing import Any, Dict

from flask import Flask, abort, g, redirect, render_template, request, url_for

from . import upload
from .bench import decimal
from .changes import FIELDS, Trial, trial_of
from .shelf import Shelf, Unreachable

LONGEST_NOTE = 500


def register(app: Flask, shelf: Shelf) -> None:
    """The routes that write."""

    @app.post("/lists")
    def take() -> Any:
        return _take(shelf)

    @app.post("/keep")
    def keep() -> Any:
        return _keep(app, shelf, request.form.to_dict())


def _take(shelf: Shelf) -> Any:
    """A list that was sent, read and laid into the book; all its faults at once if it has any."""
    if not g.person.may("take"):
        abort(403)
    file = request.files.get("list")
    name = upload.name_of(file.filename or "") if file and file.filename else ""
    try:
        if not file or not name:
            raise upload.Unreadable(g.say("choose a file first"))
        site = upload.read(name, file.read(upload.MOST_BYTES + 1))
    except upload.Unreadable as error:
        title = f"{name or g.say('The list')} {g.say('cannot be taken yet')}"
        text = g.say("Mend what is told below in the spreadsheet and choose the file again.")
        return render_template("plain.html", title=title, text=text, lines=str(error).splitlines()), 422
    number = shelf.take(site, name, g.person.name)
    return redirect(url_for("list_page", number=number), 303)


def _keep(app: Flask, shelf: Shelf, form: Dict[str, str]) -> Any:
    """The sheet of a form, kept under its office's next number; sent again, it is the same sheet."""
    if not re.fullmatch(r"[0-7]", form.get("office", "")) or int(form["office"]) not in g.person.offices:
        abort(403)
    if not re.fullmatch(r"[0-9a-f]{32}", form.get("request", "")):
        abort(400)
    base = shelf.base(form.get("base", ""))
    trial = trial_of(base.site, form, decimal())
    note = form.get("note", "").strip()[:LONGEST_NOTE]
    if trial.faults or (trial.counted and not note):
        text = g.say("A changed sheet is kept with a note on why it was changed, and without faulty fields. Nothing was kept; go back and add it.")
        return render_template("plain.html", title=g.say("Not kept"), text=text), 422
    try:
        said = {"source": base.source, "who": g.person.name, "changes": changes_of(trial), "note": note}
        ref = shelf.keep(trial.site, int(form["office"]), f"{g.person.name}/{form['request']}", said)
    except Unreachable as error:
        app.logger.warning("keep: %s", error)
        return render_template("again.html", form=form), 503
    if ref is None:
        return render_template("plain.html", title=g.say("No sheet"), text=g.say("No flow keeps within all ranges, so there is nothing to keep.")), 422
    return redirect(url_for("sheet_page", ref=ref, kept="now"), 303)


def changes_of(trial: Trial) -> str:
    """The changed fields as they are kept beside the sheet; nothing if it has none."""
    if not trial.counted:
        return ""
    rows = [[c.stream + 1, FIELDS[c.field], c.before, c.read(decimal()).replace("\u202f", "")] for c in trial.counted]
    return json.dumps(rows, ensure_ascii=False)

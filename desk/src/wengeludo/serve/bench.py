# SPDX-License-Identifier: LicenseRef-Wengeludo
"""The workbench: a list or a kept sheet with its what-ifs, as one page or in parts."""

from __future__ import annotations

import re
import uuid
from typing import Any, Dict, List, Mapping, Tuple
from urllib.parse import urlencode

from flask import Flask, Response, g, jsonify, render_template, request
from markupsafe import Markup

from ..balance.kind import SheetKind
from ..balance.sheet import Balance, balance
from ..balance.site import Site
from ..explain import purchase, suspects
from ..explain.charges import Charge, bill
from ..explain.steps import steps, told as notes_of
from ..explain.why import overfull, why
from ..read.faults import Stopped
from ..write import outputs, view
from ..write.page import scale
from ..write.paint import Marks, paint
from .changes import FIELDS, Trial, field_of, trial_of
from .shelf import Absent, Base, Shelf
from .show import SIGNS, kind_line, named, thin, thin_texts

TYPES = {
    "xlsx": "application/vnd.openxmlformats-officedocument.spreadsheetml.sheet", "csv": "text/csv; charset=utf-8", "svg": "image/svg+xml",
    "json": "application/json", "html": "text/html; charset=utf-8",
}
FORMS = ("xlsx", "csv", "html")


def decimal() -> str:
    """The decimal mark that the reader has fixed, if any."""
    return request.cookies.get("decimal", "")


def seen(shelf: Shelf, base: Base, words: Mapping[str, str]) -> Tuple[Trial, Balance, Balance]:
    """The what-if of an address, the sheet without it and the sheet with it."""
    trial, first = trial_of(base.site, words, decimal()), shelf.first(base)
    return trial, first, balance(trial.site) if trial.counted else first


def workbench(shelf: Shelf, base: Base) -> Any:
    """The page, or the parts of it that a change moves."""
    told = _told(shelf, base, request.args.to_dict())
    if not request.headers.get("X-Part"):
        return render_template("work.html", request_key=uuid.uuid4().hex, kept_now=request.args.get("kept") == "now", **told)
    parts: Dict[str, Any] = {name: render_template(f"{name}.html", **told) for name in ("band", "head", "side")}
    rows = [[r["flow"], r["was"], r["correction"], r["sigmas"], r["test"], r["spread"], r["how"], r["look"]] for r in told["rows"]]
    trial = told["trial"]
    parts |= {"drawing": told["drawing"], "rows": rows, "tone": told["tone"], "changed": sorted(trial.streams), "faults": trial.faults}
    return jsonify(parts | {"whatif": bool(trial.changes), "kept": base.kept, "wasWord": g.say("was")})


def _told(shelf: Shelf, base: Base, words: Mapping[str, str]) -> Dict[str, Any]:
    """All that a workbench shows."""
    trial, first, now = seen(shelf, base, words)
    chosen = _chosen(now.site, words)
    query = urlencode(trial.words)
    return {
        "base": base, "trial": trial, "first": first, "now": now, "site": now.site, "chosen": chosen, "fields": FIELDS, "field_of": field_of,
        "headline": view.headline(now), "before": view.headline(first), "tone": view.tone(now), "scale": scale(now), "steps": steps(now),
        "notes": notes_of(now), "words": trial.words, "query": query, "faults": trial.faults, "decimal": decimal(), "signs": SIGNS, "forms": FORMS,
        "trying": bool(trial.changes) or not base.kept or "try" in words, "rows": _rows(first, now, bool(trial.counted)),
        "reasons": overfull(now) if now.refused else [now.reason] if now.flowless else why(now, chosen) if chosen >= 0 else [],
        "drawing": Markup(thin_texts(paint(shelf.layout(base), now, Marks(trial.streams, trial.struck, chosen, focus=True)))),
        "kind_line": g.say(kind_line(now)), "whose": view.whose(now), "without": lambda name: _without(trial, words, name),
        **_side(now),
    }


def _without(trial: Trial, words: Mapping[str, str], name: str) -> str:
    """The address without a change."""
    left = {other: text for other, text in trial.words.items() if other != name}
    return "?" + urlencode(left | {other: words[other] for other in ("stream", "try") if other in words})


def _chosen(site: Site, words: Mapping[str, str]) -> int:
    """The chosen stream, from 0; -1 if none is chosen."""
    told = words.get("stream", "")
    return int(told) - 1 if re.fullmatch(r"[1-9]\d?", told) and int(told) <= len(site.list.pipes) else -1


def _side(now: Balance) -> Dict[str, Any]:
    """Suspects, meters to buy and the bill."""
    failing = view.tone(now) == "bad" and not now.flowless
    listed = suspects.leading(now) if failing or now.kind is SheetKind.ENGINE and not now.flowless else []
    likely = {s.index for s in suspects.likeliest(now, listed) if not s.why_not} if failing else set()
    bought = purchase.cheapest(now.site)
    charges, cents, no_bill = _bill(now)
    return {
        "suspects": listed, "likely": likely, "bought": bought, "account": purchase.account(bought) if bought.pipes else [],
        "charges": charges, "cents": cents, "no_bill": no_bill, "bill_note": "",
    }


def _bill(now: Balance) -> Tuple[List[Charge], int, str]:
    if now.flowless or not any(pipe.target == 0 and pipe.rate is not None for pipe in now.site.list.pipes):
        return [], 0, g.say("The list has no rates.")
    try:
        charges, cents = bill(now, now.site.list.name)
        return charges, cents, ""
    except Stopped as stopped:
        return [], 0, str(stopped)


def _rows(first: Balance, now: Balance, changed: bool) -> List[Dict[str, str]]:
    """The rows of the table; beside a flow that a what-if moves, the flow that it was."""
    rows = []
    for k, row in enumerate(view.rows(now)):
        cells = dict(zip(view.heads(now), row.signed))
        told = dict.fromkeys(("flow", "was", "correction", "sigmas", "test", "spread", "look"), "") | {"reading": thin(cells["reading"]), "how": g.say("no sheet")}
        if not now.flowless:
            told |= {
                "flow": thin(cells["balanced"]), "correction": thin(cells["correction"]), "sigmas": cells["σ"], "test": cells["test"], "spread": thin(cells["±"]),
                "how": _how(cells["how known"]), "look": f"kind-{row.kind} {row.mark}".strip(), "was": _was(first, now, k) if changed else "",
            }
        rows.append(told)
    return rows


def _how(text: str) -> str:
    """How a number is known, each part in the reader's words."""
    return g.say(text) if g.say(text) != text else text


def _was(first: Balance, now: Balance, k: int) -> str:
    if first.flowless or first.lines[k].flow == now.lines[k].flow:
        return ""
    flow = first.lines[k].flow
    return "?" if flow is None else thin(now.site.shown(flow))


def download(shelf: Shelf, path: str, form: str) -> Response:
    """A sheet as a file; one that is not kept says so in its title."""
    if form not in TYPES:
        raise Absent("that form of a sheet is not written")
    base = shelf.base(path)
    trial, _, now = seen(shelf, base, request.args)
    unkept = trial.counted or not base.kept
    if unkept:
        told = f", {g.say('What-if')}: {len(trial.counted)} {g.say('changed')}" if trial.counted else ""
        now = named(now, f"{now.site.list.name} — {g.say('NOT KEPT')}{told}")
    data = outputs.FORMS[f".{form}"](now)
    if unkept and form == "csv":  # a line above the header, which a list may have
        data = b"\xef\xbb\xbf" + f'"{now.site.list.name}"\r\n'.replace('"' + "=", '"\'=').encode() + data.removeprefix(b"\xef\xbb\xbf")
    name = re.sub(r"[^A-Za-z0-9_-]", "_", f"{base.site.list.name}-{path.split('/')[1]}{'-what-if' if trial.counted else ''}{'-NOT-KEPT' if unkept else ''}")
    return Response(data, mimetype=TYPES[form], headers={"Content-Disposition": f'attachment; filename="{name}.{form}"'})


def register(app: Flask, shelf: Shelf) -> None:
    """The routes of the workbench."""

    @app.get("/list/<int:number>")
    def list_page(number: int) -> Any:
        return workbench(shelf, shelf.base(f"list/{number}"))

    @app.get("/sheet/<string:ref>")
    def sheet_page(ref: str) -> Any:
        return workbench(shelf, shelf.base(f"sheet/{ref}"))

    @app.get("/<string:kind>/<string:which>.<string:form>")
    def file(kind: str, which: str, form: str) -> Any:
        return download(shelf, f"{kind}/{which}", form)

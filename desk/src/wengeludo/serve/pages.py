# SPDX-License-Identifier: LicenseRef-Wengeludo
"""Lists, book, comparison of two sheets, history runs."""

from __future__ import annotations

import math
import re
from typing import Any, Dict, List, Mapping, Optional

from flask import Flask, Response, g, redirect, render_template, request, url_for

from ..balance.sheet import SHORT, Balance, Line
from ..write import view
from .shelf import Absent, Base, Query, Shelf
from .show import SIGNS, thin

PAGE = 50
_JUMP = re.compile(r"\s*([0-7])\s*[-/ ]\s*(f?)\s*(\d{1,10})\s*")
_DATE = re.compile(r"\d{4}-\d\d-\d\d")


def register(app: Flask, shelf: Shelf) -> None:
    """The routes that show what there is."""

    @app.get("/")
    def home() -> Any:
        before = int(request.args["before"]) if re.fullmatch(r"\d{1,12}", request.args.get("before", "")) else None
        lists = shelf.lists(before, PAGE + 1)
        older = url_for("home", before=lists[PAGE - 1].list) if len(lists) > PAGE else None
        return render_template("home.html", lists=lists[:PAGE], older=older, lasts=shelf.lasts(), recent=shelf.search(Query(), 8))

    @app.get("/book")
    def book_page() -> Any:
        jump = _JUMP.fullmatch(request.args.get("q", ""))
        if jump:
            return redirect(url_for("sheet_page", ref=f"{jump[1]}-{jump[2]}{jump[3]}"), 303)
        rows = shelf.search(query_of(request.args), PAGE + 1)
        older = url_for("book_page", **{**request.args.to_dict(), "before": rows[PAGE - 1].place}) if len(rows) > PAGE else None
        return render_template("book.html", rows=rows[:PAGE], older=older, lasts=shelf.lasts(), words=request.args, signs=SIGNS)

    @app.get("/compare")
    def compare() -> Any:
        refs = request.args.getlist("s")[:2]
        if len(refs) != 2:
            text = g.say("Tick two sheets in the book, then compare them.")
            return render_template("plain.html", title=g.say("Two sheets"), text=text), 400
        return _compare(shelf, *sorted((shelf.base(f"sheet/{ref}") for ref in refs), key=lambda base: base.at))

    @app.get("/runs")
    def runs() -> Any:
        return render_template("runs.html", runs=shelf.runs())

    @app.get("/runs/<string:name>")
    def run(name: str) -> Any:
        data = shelf.run(name)
        # the page of a run is one file with its own script and style; it may do nothing else
        policy = "default-src 'none'; script-src 'unsafe-inline'; style-src 'unsafe-inline'; img-src data:; base-uri 'none'; frame-ancestors 'none'; sandbox allow-scripts"
        answer = Response(data, mimetype="text/html")
        answer.headers["Content-Security-Policy"] = policy
        return answer


def query_of(words: Mapping[str, str]) -> Query:
    """What a search asks for; words that are no question are passed over."""
    office = words.get("office", "")
    verdict = words.get("verdict", "")
    since, until = (words.get(name, "") if _DATE.fullmatch(words.get(name, "")) else "" for name in ("since", "until"))
    return Query(
        words.get("q", "").strip()[:100], int(office) if re.fullmatch("[0-7]", office) else None, verdict if verdict in SIGNS else None,
        since, until, words.get("before", "")[:100],
    )


def _compare(shelf: Shelf, one: Base, other: Base) -> Any:
    """Two kept sheets, the older left."""
    a, b = shelf.first(one), shelf.first(other)
    there = {line.pipe.label: line for line in b.lines}
    lines = [_pair(a, b, line, there.pop(line.pipe.label, None)) for line in a.lines]
    lines += [_pair(a, b, None, line) for line in there.values()]
    tones = [view.tone(drawn) for drawn in (a, b)]
    return render_template("compare.html", one=one, other=other, a=a, b=b, lines=lines, tones=tones, headline=view.headline)


def _pair(a: Balance, b: Balance, one: Optional[Line], other: Optional[Line]) -> Dict[str, Any]:
    """A stream of two sheets: what was read, what was balanced, and how far it moved in deviations of both together."""
    line, site = (one, a.site) if one else (other, b.site)
    assert line is not None
    moved = other.flow - one.flow if one and other and one.flow is not None and other.flow is not None else None
    spread = math.hypot(one.spread or 0, other.spread or 0) if one and other else 0.0
    off = moved / spread if moved is not None and spread > 1e-9 else None
    both = [(one, a), (other, b)]
    return {
        "label": line.pipe.label, "what": line.pipe.what, "run": f"{site.place(line.pipe.source)} → {site.place(line.pipe.target)}",
        "read": [_shown(drawn, x.pipe.reading) if x else "" for x, drawn in both],
        "flow": [("?" if x.flow is None else _shown(drawn, x.flow)) if x else "" for x, drawn in both],
        "moved": _shown(a, moved, "+") if moved else "", "off": f"{off:+.1f}".replace("-", "−") if off else "", "notable": off is not None and abs(off) > 2,
        "how": [SHORT[x.kind] if x else "not in this sheet" for x, _ in both],
    }


def _shown(drawn: Balance, value: Optional[float], sign: str = "") -> str:
    return "" if value is None else thin(drawn.site.shown(value, sign))

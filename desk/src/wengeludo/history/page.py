# SPDX-License-Identifier: LicenseRef-Wengeludo
"""The page of a run: one file, no network, under 200 KB whatever the rows, prints on A4."""

from __future__ import annotations

import json
from collections import Counter
from datetime import datetime
from typing import Any, Dict, List, Sequence, Tuple

from jinja2 import Environment, PackageLoader, select_autoescape
from markupsafe import Markup

from . import charts
from .analysis import Analysis
from .bill import Bill, account
from .events import Event
from .findings import cause_words, period, sentence
from .run import Run

MOST_EVENTS, MOST_FINDINGS, MOST_CAUSES, MOST_CHARGES = 24, 20, 7, 12
MOST_BYTES, SHEET_BYTES = 190_000, 60_000  # of a page, and of the weeks' sheets in it
SHEETS = "{the sheets of the weeks}"


SHEETS_OF = {False: "the engine’s own", True: "checked flows"}
WHOSE = {
    False: "The engine’s, proved: flows, classes, costs, limits, verdicts, suspects of a row.",
    True: "Whole flows of least cost by the tool’s solver, each row’s passed by a proved call; classes and degrees by the engine; cost and verdict of the "
    "list’s own deviations by the tool, near the limit in exact fractions. The engine’s own sheets do not stand for this run: its weights cannot hold "
    "these accuracies closely enough, and --unit would show them nevertheless.",
}
COSTS = {False: "Costs, limits and verdicts are the engine’s.", True: "Costs and verdicts are of checked flows; the limits are the engine’s."}


def headline(found: Analysis) -> str:
    """What was found, in a line."""
    rows, fails = int(found.run.tested.sum()), int(found.fails().sum())
    many = len(found.findings)
    told = "no finding" if not many else "1 finding" if many == 1 else f"{many} findings"
    return f"{told}, {fails:,} of {rows:,} tested rows fail"


def summary(found: Analysis) -> str:
    """Span, unit, reference, and how the cost stands to its degrees."""
    import numpy as np

    run, tested = found.run, found.run.tested
    degrees = float(run.sheets.degrees[tested].sum())
    told = [f"{period(run, 0, len(run.times))}, {len(run.times):,} rows of {_step(run.step)}", f"unit {float(run.unit):g} kg/h", f"sheets: {SHEETS_OF[run.exact]}",
            f"reference {period(run, found.reference.start, found.reference.end)}"]
    if degrees:
        told.append(f"cost per check {float(run.costs[tested].sum()) / degrees:.2f} (1 if the stated deviations are right)")
    refused = int(np.count_nonzero(run.sheets.refusal))
    if refused:
        told.append(f"{refused:,} rows have no sheet")
    return " · ".join(told)


def _step(seconds: int) -> str:
    for size, word in ((86_400, "d"), (3600, "h"), (60, "min")):
        if seconds % size == 0:
            return f"{seconds // size} {word}"
    return f"{seconds} s"


def event_words(run: Run, event: Event, alike: Dict[int, List[int]]) -> str:
    """An event in a sentence."""
    rows = event.end - event.start
    span = f"{rows:,} rows" if run.step != 3600 else f"{rows:,} h"
    name = "all tags" if event.stream < 0 else run.list.pipes[event.stream].title
    if event.kind == "step":
        return f"{name} steps by {charts.signed(event.size)} kg/h and stays: the plant, no meter"
    if event.kind == "spike":
        others = " or ".join(run.list.pipes[k].label for k in [event.stream, *alike.get(event.stream, [])])
        return f"spike of {charts.signed(event.size)} kg/h: {others}"
    words = {"frozen": f"{name} stands at one value, {event.size:,.1f}", "zero": f"{name} stands at zero", "held": f"{name} is held",
             "no signal": f"{name} without a signal"}
    return f"{span}: {words[event.kind]}"


def happenings(found: Analysis) -> List[Tuple[str, str]]:
    """Events in order of time; if they are many, the kinds of those that are left out are counted."""
    listed = sorted(found.events, key=lambda e: (e.kind == "spike", e.start - e.end))
    shown = sorted(listed[:MOST_EVENTS], key=lambda e: e.start)
    told = [(found.run.at(e.start, "%-d %b %H:%M", False), event_words(found.run, e, found.alike)) for e in shown]
    rest = Counter(e.kind for e in listed[MOST_EVENTS:])
    if rest:
        told.append(("and more", ", ".join(f"{count:,} × {kind}" for kind, count in rest.most_common()) + "; events.csv has all"))
    return told


def meter_rows(found: Analysis) -> List[Dict[str, Any]]:
    """The table of meters: sets together, unchecked ones last."""
    import numpy as np

    run, sums = found.run, found.summary
    order = [k for together in found.sets for k in together] + [int(k) for k in run.metered if int(k) not in found.share]
    made = []
    for k in order:
        tested, least, checked = int(sums.tested[k]), found.least_bias(k), found.share.get(k, 0.0) >= 1e-6
        over = float(sums.over[k]) / tested if tested else 0.0
        made.append({
            "title": run.list.pipes[k].title, "deviation": f"{run.deviations[k]:,.3g}", "share": f"{100 * found.share.get(k, 0.0):.0f} %",
            "least": f"{least:,.2g}" if least is not None else "none", "tested": f"{tested:,}", "over": f"{100 * over:.1f} %" if checked else "–",
            "hot": over > 0.1, "mean": charts.signed(float(sums.mean[k]), ".2f") if checked else "–",
            "suspect": f"{int(np.count_nonzero(run.sheets.dropped[:, 0] == k + 1)):,}" if checked else "–",
            "alike": ", ".join(run.list.pipes[other].label for other in found.alike.get(k, [])),
        })
    return made


def week_sheets(found: Analysis, left: int) -> Dict[str, Any]:
    """The weeks' sheets that a click shows: those that fail first, as many as so many bytes hold."""
    run, made = found.run, {}
    order = sorted((k for k, week in enumerate(found.weeks) if week.flows is not None), key=lambda k: (not found.weeks[k].fails, k))
    for number in order:
        week = found.weeks[number]
        told = {
            "when": period(run, week.start, week.end), "cost": f"{week.cost:,.1f}", "limit": f"{week.limit:,.1f}", "fails": week.fails,
            "why": "; or ".join(cause_words(run, cause) for cause in week.steps[0][:MOST_CAUSES]) if week.steps else "",
            "reads": [round(float(value), 1) if run.deviations[k] else None for k, value in enumerate(week.readings)],
            "flows": [None if kind == "W" else round(float(value), 1) for value, kind in zip(week.flows, week.kinds)],
        }
        left -= len(_json(told).encode()) + 10
        if left < 0:
            break
        made[str(number)] = told
    return made


def bill_of(bill: Bill) -> Dict[str, Any]:
    """A bill as the page has it: its sentences, the streams that are charged most, and how many more there are."""
    charged = sorted((charge for charge in bill.charges if charge.cents or charge.once), key=lambda charge: -abs(charge.cents))
    rows = [{"title": f"{c.label} {c.what}".strip(), "cents": f"{c.cents:,}", "failing": f"{c.failing:,}", "once": f"{c.once:,}",
             "proved": "" if c.proved is None else f"{c.proved:,}"} for c in charged[:MOST_CHARGES]]
    return {"told": " ".join(account(bill)), "rows": rows, "more": max(0, len(charged) - MOST_CHARGES), "proved": not bill.why}


def _json(told: Any) -> str:
    """JSON that may stand in a script of a page."""
    return json.dumps(told, separators=(",", ":"), ensure_ascii=False).replace("<", "\\u003c")


def page(found: Analysis, bills: Sequence[Bill]) -> str:
    """The page of a run as HTML; the weeks' sheets fill what is left of its size."""
    run = found.run
    environment = Environment(loader=PackageLoader("wengeludo.history"), autoescape=select_autoescape(), trim_blocks=True, lstrip_blocks=True)
    worst = charts.worst_meter(found)
    words = ", ".join(f"{word} ({count:,})" for word, count in run.words.most_common(8))
    notes = run.notes + ([f"Cells that are no measured number: {words}{' …' if len(run.words) > 8 else ''}."] if words else [])
    text = environment.get_template("run.html").render(
        site=run.list.name, headline=headline(found), summary=summary(found), bad=bool(found.findings),
        findings=[sentence(run, finding, MOST_CAUSES) for finding in found.findings[:MOST_FINDINGS]], more=max(0, len(found.findings) - MOST_FINDINGS),
        events=happenings(found), cost=Markup(charts.cost_chart(found)), map=Markup(charts.meter_map(found)),
        drift=Markup(charts.drift_chart(found, *worst)) if worst else "", meters=meter_rows(found), notes=notes,
        bills=[bill_of(bill) for bill in bills], certified=_certified(run), whose=WHOSE[run.exact], costs=COSTS[run.exact], date=datetime.now().strftime("%Y-%m-%d %H:%M"), sheets=SHEETS,
    )
    told = {"titles": [pipe.title for pipe in run.list.pipes], "fields": charts.week_fields(found)}
    left = min(SHEET_BYTES, MOST_BYTES - len(text.encode()) - len(_json(told).encode()))
    return text.replace(SHEETS, _json({**told, "weeks": week_sheets(found, left)}))


def _certified(run: Run) -> str:
    """How many sheets passed the proved check, if they were checked."""
    if run.sheets.checked is None:
        return ""
    return f"{run.passed:,} of {int((run.sheets.refusal == 0).sum()):,} sheets passed the proved check with their place numbers."

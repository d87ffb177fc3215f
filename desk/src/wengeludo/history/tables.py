# SPDX-License-Identifier: LicenseRef-Wengeludo
"""The tables of a run: their names, their columns, their rows. What is the tool's own is called an estimate in the head of its column."""

from __future__ import annotations

from dataclasses import dataclass
from typing import Any, Callable, Dict, Iterable, Iterator, List, Optional, Sequence, Tuple

from wengeludo_balance import ADJUSTED, AS_READ, GIVEN, WITHHELD, Verdict

from .analysis import Analysis
from .bill import Bill
from .clock import shown
from .run import Run

ESTIMATE = " (estimate)"
LETTERS = {ADJUSTED: "A", AS_READ: "R", GIVEN: "G", WITHHELD: "W", 0: "-"}
WORDS = {verdict: verdict.name.lower() for verdict in Verdict}
CHUNK = 16_384


@dataclass(frozen=True)
class Table:
    """A table: its name, its heads, and what gives its rows anew each time."""

    name: str
    heads: Tuple[str, ...]
    rows: Callable[[], Iterable[Sequence[Any]]]


def guarded(cell: Any) -> Any:
    """A text that a spreadsheet would take for a formula, made one that it does not."""
    return f"'{cell}" if isinstance(cell, str) and cell[:1] in ("=", "@", "\t", "\r") else cell


def times_of(run: Run) -> Iterator[List[str]]:
    """The times of all rows as tables show them, some thousand at a time."""
    for first in range(0, len(run.times), CHUNK):
        yield [shown(at, run.zone) for at in run.times[first : first + CHUNK].tolist()]


def amounts(run: Run, whole: Iterable[int]) -> List[str]:
    """Whole units in kg/h, exact."""
    unit = run.unit
    if unit.denominator == 1:
        return [str(amount * unit.numerator) for amount in whole]
    places = next(k for k in range(1, 20) if (unit * 10**k).denominator == 1)
    return [f"{float(amount * unit):.{places}f}" for amount in whole]


def _rows(found: Analysis) -> Iterator[Sequence[Any]]:
    run, sheets, summary = found.run, found.run.sheets, found.summary
    labels = [guarded(pipe.label) for pipe in run.list.pipes] + [""]
    letters = bytes(ord(LETTERS.get(kind, "-")) for kind in range(256))
    certified, kind = sheets.checked is not None, run.kind.value
    for number, times in enumerate(times_of(run)):
        part = slice(number * CHUNK, number * CHUNK + len(times))
        kinds = [row.tobytes().translate(letters).decode() for row in sheets.kinds[part]]
        dropped, without = sheets.dropped[part, 0].tolist(), amounts(run, sheets.dropped_flow[part, 0].tolist())
        columns = zip(
            times, sheets.verdict[part].tolist(), sheets.cost[part].tolist(), run.limits[part].tolist(), sheets.degrees[part].tolist(), kinds,
            dropped, without, sheets.cleared[part].tolist(), sheets.refusal[part].tolist(), summary.worst[part].tolist(), summary.worst_z[part].tolist(),
        )
        for at, (time, verdict, cost, limit, degrees, classes, out, flow, then, refusal, worst, z) in enumerate(columns):
            tested = not refusal and verdict != Verdict.NONE
            told = (time, kind, "" if refusal else WORDS[verdict], f"{cost / 1000:.3f}" if tested else "", f"{limit:.3f}" if tested else "",
                    "" if refusal else degrees, classes, labels[out - 1] if out else "", flow if out else "", WORDS[then] if out else "", refusal or "")
            check = (("passes" if not sheets.checked[part.start + at] else sheets.checked[part.start + at]) if not refusal else "",) if certified else ()
            yield (*told, *check, labels[worst], f"{z:+.2f}" if worst >= 0 else "")


def _flows(found: Analysis) -> Iterator[Sequence[Any]]:
    run = found.run
    for number, times in enumerate(times_of(run)):
        part = slice(number * CHUNK, number * CHUNK + len(times))
        blank = (run.sheets.kinds[part] == WITHHELD) | (run.sheets.kinds[part] == 0)
        for time, flows, none in zip(times, run.sheets.flows[part].tolist(), blank.tolist()):
            yield (time, run.kind.value, *("" if no else text for text, no in zip(amounts(run, flows), none)))


def _meters(found: Analysis) -> Iterator[Sequence[Any]]:
    import numpy as np

    run, share, alike = found.run, found.share, found.alike
    for k in found.run.metered.tolist():
        pipe, summary, least = run.list.pipes[k], found.summary, found.least_bias(k)
        checked = share.get(k, 0.0) > 1e-6
        yield (pipe.label, pipe.what, f"{run.deviations[k]:.4g}", f"{float(run.variances[0][k]) ** 0.5 * float(run.unit):.4g}",
               int(np.count_nonzero(run.sheets.dropped[:, 0] == k + 1)), f"{share.get(k, 0.0):.2f}",
               " ".join(run.list.pipes[other].label for other in alike.get(k, [])), int(summary.tested[k]), int(summary.over[k]),
               f"{summary.mean[k]:+.2f}" if checked else "", f"{least:.3g}" if least is not None else "")


def _findings(found: Analysis) -> Iterator[Sequence[Any]]:
    run = found.run
    for number, finding in enumerate(found.findings, 1):
        ask = run.list.pipes[finding.ask].label if finding.ask is not None else ""
        for rank, cause in enumerate(finding.causes, 1):
            meter = cause.kind == "meter"
            name = run.list.pipes[cause.index].label if meter else run.list.places[cause.index]
            own = f"{cause.off / run.deviations[cause.index]:+.1f}" if meter else ""
            yield (number, run.at(finding.start), run.at(finding.end), finding.weeks, rank, cause.kind, name, f"{cause.off:+.1f}", own,
                   f"{finding.explains:.1f}", f"{finding.limit:.3f}", ask)


def _events(found: Analysis) -> Iterator[Sequence[Any]]:
    run, alike = found.run, found.alike
    for event in found.events:
        name = "all" if event.stream < 0 else run.list.pipes[event.stream].label
        others = " ".join(run.list.pipes[k].label for k in alike.get(event.stream, [])) if event.kind == "spike" else ""
        size = f"{event.size:.1f}" if event.kind in ("frozen", "zero", "spike", "step") else ""
        yield run.at(event.start), run.at(event.end), event.end - event.start, event.kind, name, size, others


def _overrides(found: Analysis) -> Iterator[Sequence[Any]]:
    """Proposed, not applied: the first meter of each finding as a fault, meters that stand still as held."""
    run = found.run
    for finding in found.findings:
        first = finding.causes[0]
        if first.kind == "meter":
            why = f"proposed: off by {first.off:+.0f} kg/h against the reference"
            yield run.list.pipes[first.index].label, run.at(finding.start), run.at(finding.end), "fault", why
    for event in found.events:
        if event.kind in ("frozen", "zero"):
            yield run.list.pipes[event.stream].label, run.at(event.start), run.at(event.end), "fault", f"proposed: {event.kind} at {event.size:.1f} kg/h"


def tables(found: Analysis, bills: Sequence[Bill]) -> Dict[str, Table]:
    """The tables of a run by name; the bill's only if one was asked for."""
    e = ESTIMATE
    run = found.run
    check = ("check",) if run.sheets.checked is not None else ()
    made = [
        Table("rows", ("time", "sheet", "verdict", "cost", "limit", "degrees", "classes", "suspect", "flow without it", "verdict without", "refusal", *check,
                       f"worst{e}", f"z of the worst{e}"), lambda: _rows(found)),
        Table("flows", ("time", "sheet", *(pipe.label for pipe in run.list.pipes)), lambda: _flows(found)),
        Table("meters", ("stream", "what", "deviation kg/h", "counts as kg/h", "rows as first suspect", f"checked share{e}", f"not told apart from{e}",
                         f"rows tested{e}", f"rows over 1.96{e}", f"mean z{e}", f"least bias one week shows kg/h{e}"), lambda: _meters(found)),
        Table("findings", ("finding", "from", "to", "weeks", "rank", f"kind{e}", f"stream or place{e}", f"off kg/h{e}", f"own deviations{e}",
                           f"cost it explains{e}", "limit", f"a meter here would tell{e}"), lambda: _findings(found)),
        Table("events", ("from", "to", "rows", f"kind{e}", "stream", f"value kg/h{e}", f"not told apart from{e}"), lambda: _events(found)),
        Table("overrides", ("stream", "from", "to", "status", "why"), lambda: _overrides(found)),
    ]
    if bills:
        heads = bills[0].heads()
        made.append(Table("bill", heads, lambda: (row for bill in bills for row in bill.table())))
    return {table.name: table for table in made}

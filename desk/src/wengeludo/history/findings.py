# SPDX-License-Identifier: LicenseRef-Wengeludo
"""Findings: weeks that fail for the same reason, in one sentence that an engineer can act on, and what would tell their causes apart."""

from __future__ import annotations

from dataclasses import dataclass, field
from statistics import median
from typing import List, Optional, Sequence, Set, Tuple

import wengeludo_balance as engine
from wengeludo_balance import Verdict

from .run import Run
from .weeks import Candidate, Trial, Week, trial_of

PLAIN = 4.0  # more cost than so much: a further meter contradicts a cause
MOSTLY = 0.6  # of the greatest error of a series: weeks below that count as cut
STRONG = 4.0  # a single week counts if it explains so many limits


@dataclass(frozen=True)
class Finding:
    """A series of weeks by its first row and the one past its last: the causes that explain all of it, the likeliest first; what the best
    week's cost falls by; its limit; of each week its first row and how far off the first cause is; a meter that would tell them apart."""

    start: int
    end: int
    weeks: int
    causes: Tuple[Candidate, ...]
    explains: float
    limit: float
    offs: Tuple[Tuple[int, float], ...]
    ask: Optional[int] = None


@dataclass
class _Series:
    start: int
    end: int
    names: Set[Tuple[str, int]]
    parts: List[Tuple[Week, Tuple[Candidate, ...], float]] = field(default_factory=list)


def findings(run: Run, weeks: Sequence[Week]) -> List[Finding]:
    """Weeks with a cause in common, over at most one week that passes, are a series; two of them, or one that is strong, a finding."""
    open_, done = [], []  # type: List[_Series], List[_Series]
    for number, week in enumerate(weeks):
        for series in [s for s in open_ if number - s.end > 1]:
            open_.remove(series)
            done.append(series)
        if week.fails:
            _joined(open_, number, week)
    told = sorted(done + open_, key=lambda s: s.start)
    return [_finding(run, weeks, s) for s in told if len(s.parts) > 1 or max(fall / week.limit for week, _, fall in s.parts) >= STRONG]


def _joined(open_: List[_Series], number: int, week: Week) -> None:
    """Puts each step of a week to the series that has a cause in common with it, or begins one."""
    before = week.cost or 0.0
    for step in week.steps:
        names = {candidate.name for candidate in step}
        fall, before = before - step[0].cost, step[0].cost
        series = next((s for s in open_ if s.names & names), None)
        if series is None:
            series = _Series(number, number, names)
            open_.append(series)
        series.names &= names
        series.end = number + 1
        series.parts.append((week, step, fall))


def _finding(run: Run, weeks: Sequence[Week], series: _Series) -> Finding:
    week, step, fall = max(series.parts, key=lambda part: part[2])
    causes = [candidate for candidate in step if candidate.name in series.names] or list(step)
    middle = {c.name: _usual_off([o.off for _, other, _ in series.parts for o in other if o.name == c.name]) for c in causes}
    shown = tuple(Candidate(c.kind, c.index, middle[c.name], c.cost, c.flow) for c in causes)
    offs = tuple((w.start, c.off) for w, other, _ in series.parts for c in other if c.name == causes[0].name)
    last = weeks[min(series.end, len(weeks)) - 1]
    count = len({w.start for w, _, _ in series.parts})
    return Finding(weeks[series.start].start, last.end, count, shown, fall, week.limit, offs, asked(run, week, shown))


def _usual_off(offs: Sequence[float]) -> float:
    """The median of the weeks that show most of it: the first and the last week of a series are seldom whole."""
    most = max(map(abs, offs))
    return median(off for off in offs if abs(off) >= MOSTLY * most)


def asked(run: Run, week: Week, causes: Sequence[Candidate]) -> Optional[int]:
    """The pipe without a meter on which one would tell the causes apart, by the engine's sheets: with it, at the flow that one cause leaves,
    the sheet of another cause fails. Of several the one that does so for most pairs; none if no pipe does."""
    bare = [k for k, s in enumerate(run.plant.streams) if not s.metered]
    if len(causes) < 2 or not bare or week.readings is None:
        return None
    trial = trial_of(run, week.readings, run.deviations)
    counts = {k: _told_apart(trial, causes[:6], k) for k in bare}
    best = max(counts, key=lambda k: (counts[k], -k))
    return best if counts[best] else None


def _told_apart(trial: Trial, causes: Sequence[Candidate], k: int) -> int:
    """How many ordered pairs of causes a meter on this pipe tells apart, if it is as good as the best of the list."""
    best = float(trial.variances[trial.variances > 0].min())
    return sum(_differs(trial, one, other, k, best) for one in causes for other in causes if one is not other)


def _differs(trial: Trial, one: Candidate, other: Candidate, k: int, variance: float) -> bool:
    """Whether the flow that one cause leaves in a pipe contradicts the other cause."""
    first = trial.taken(one)
    sheet = first.sheets(first.without())
    if sheet.refusal[0] or sheet.kinds[0, k] == engine.WITHHELD:
        return False
    then = trial.metered_too(k, float(sheet.flows[0, k]), variance).taken(other)
    made = then.sheets(then.without())
    without = trial.taken(other)
    alone = without.sheets(without.without())
    return bool(made.verdict[0] == Verdict.FAIL and float(made.cost[0]) > float(alone.cost[0]) + PLAIN * 1000)


def period(run: Run, start: int, end: int) -> str:
    """From which day to which."""
    return f"{run.at(start, '%-d %b %Y', False)} to {run.at(max(start, end - 1), '%-d %b %Y', False)}"


def amount(run: Run, value: float) -> str:
    """kg/h as sentences show it."""
    return f"{abs(value):,.0f}" if abs(value) >= 10 else f"{abs(value):.2g}"


def cause_words(run: Run, cause: Candidate) -> str:
    """A cause as a sentence names it."""
    if cause.kind == "leak":
        return f"a leak of {amount(run, cause.off)} kg/h at {run.list.places[cause.index]}"
    own = abs(cause.off) / run.deviations[cause.index]
    way = "high" if cause.off > 0 else "low"
    return f"{run.list.pipes[cause.index].title} reads {amount(run, cause.off)} kg/h too {way} ({own:.1f} of its deviations)"


def sentence(run: Run, found: Finding, most: int = 96) -> str:
    """A finding in a sentence that says since when, which it may be, how far off each, and what would tell them apart."""
    left = len(found.causes) - most
    causes = "; or ".join([*(cause_words(run, cause) for cause in found.causes[:most]), *([f"{left} causes more"] if left > 0 else [])])
    several = "" if found.weeks == 1 else "s"
    told = f"{period(run, found.start, found.end)}, {found.weeks} week{several}: {causes}."
    if len(found.causes) < 2:
        return told
    told += " No balance tells these apart"
    told += "; the first needs the smallest error of its own." if found.causes[0].kind == "meter" else "."
    if found.ask is None:
        return told + " No further meter on a pipe of the list would."
    pipe = run.list.pipes[found.ask]
    return told + f" A meter on {pipe.title} would tell at least two of them apart."

# SPDX-License-Identifier: LicenseRef-Wengeludo
"""Meters worth a visit: what the sheet would cost without each, and what its pipe would then carry. Of the engine's own sheet by the
engine's call, of checked flows by the same rule without that meter."""

from __future__ import annotations

from dataclasses import dataclass
from typing import List, Optional, Sequence, Tuple

import wengeludo_balance as engine
from wengeludo_balance import Verdict

from ..balance import individual, wide
from ..balance.checked import Checked
from ..balance.exact import Exacts, without
from ..balance.sheet import Balance
from ..balance.site import Site
from ..balance.spread import at_end

LEADING = 12  # meters that are looked at for what to do next
MOST_GONE = 5  # meters that are taken out one after the other


@dataclass(frozen=True)
class Suspect:
    """A metered stream, the cost without its meter, the verdict then, and the flow that its pipe would carry, in kg/h."""

    index: int
    cost: float
    verdict: Verdict
    flow: float
    why_not: str = ""

    @property
    def clears(self) -> bool:
        """Whether the sheet would no longer fail."""
        return self.verdict is not Verdict.FAIL


@dataclass(frozen=True)
class Gone:
    """Meters that no balance tells apart, of which one was taken out, and the cost and verdict then."""

    alike: Tuple[int, ...]
    cost: float
    verdict: Verdict


def suspects(balance: Balance) -> List[Suspect]:
    """The checked meters by the cost without each, worked out once for a balance."""
    return balance.once("suspects", lambda: _by_rule(balance, balance.site.exacts.checked) if balance.checked else _by_engine(balance.site))


def leading(balance: Balance) -> List[Suspect]:
    """Those of them that can matter for what to do next: of checked flows the meters with the greatest test values, as the cost falls by
    about the square of it, and those that have none because they are held at an end of their range; worked out once."""
    if not balance.checked or "suspects" in balance.memo:
        return suspects(balance)
    return balance.once("leading", lambda: _by_rule(balance, _greatest_tests(balance)))


def _greatest_tests(balance: Balance) -> Sequence[int]:
    tests = {k: balance.lines[k].test for k in balance.site.exacts.checked}
    order = sorted((k for k, test in tests.items() if test is not None), key=lambda k: -abs(tests[k] or 0))
    return sorted({*order[:LEADING], *(k for k, test in tests.items() if test is None)})


def _by_engine(site: Site) -> List[Suspect]:
    return [_suspect(site, visit) for visit in engine.visits(site.file)]


def _suspect(site: Site, visit: engine.Visit) -> Suspect:
    k = visit.stream - 1
    streams = list(site.plant.streams)
    streams[k] = streams[k].unmetered()
    sheet = engine.balance(engine.Plant(site.plant.units, tuple(streams)).file())
    flow = site.kg(sheet.records[k].flow or 0)
    return Suspect(k, visit.cost / 1000, sheet.verdict, flow, _why_not(site, k, flow))


def _by_rule(balance: Balance, among: Sequence[int]) -> List[Suspect]:
    """The same for checked flows, among these meters: one without which nothing can be judged is left out."""
    site, found = balance.site, []
    for k in among:
        then = _solved(without(site.exacts, [k]))
        if then is None:
            continue
        flow = float((then.sheet.records[k].flow or 0) * then.unit)
        found.append(Suspect(k, float(then.judged.cost), then.judged.verdict, flow, _why_not(site, k, flow)))
    return sorted(found, key=lambda s: (s.cost, s.index))


def _solved(listed: Exacts) -> Optional[Checked]:
    """The checked flows of a list, if it has some that can be judged."""
    try:
        found = wide.solve(listed)
    except (wide.NotJudged, wide.Overfull):
        return None
    return found if found.judged.guarded else None


def _why_not(site: Site, k: int, flow: float) -> str:
    """Why the meter alone is hardly at fault: its pipe would run backwards, or outside its range."""
    pipe = site.list.pipes[k]
    if (pipe.low is not None and flow < pipe.low) or (pipe.high is not None and flow > pipe.high):
        return f"would carry {site.shown(flow)}, outside its range"
    if flow * (pipe.reading or 0) < 0 and abs(flow) > site.unit:
        return f"would have to run backwards, at {site.shown(flow)}"
    return ""


def eliminated(balance: Balance) -> List[Gone]:
    """Of a sheet that fails, the meters taken out one after the other, always the one with the greatest test value, until the sheet no
    longer fails; worked out once. By the rule, in exact fractions, whatever the kind of the sheet."""
    return balance.once("eliminated", lambda: _eliminated(balance))


def _eliminated(balance: Balance) -> List[Gone]:
    listed = balance.site.exacts
    gone: List[int] = []
    found: List[Gone] = []
    left = _solved(listed)
    while left is not None and left.judged.verdict is Verdict.FAIL and len(gone) < MOST_GONE:
        alike = _greatest(left)
        if not alike:
            break
        gone.append(alike[0])
        left = _solved(without(listed, gone))
        if left is not None:
            found.append(Gone(alike, float(left.judged.cost), left.judged.verdict))
    return found


def _greatest(checked: Checked) -> Tuple[int, ...]:
    """The meter with the greatest test value, and those that no balance tells apart from it."""
    held = {k: flow * checked.unit for k, flow in enumerate(checked.flows) if at_end(checked.plant.streams[k], flow)}
    tests = individual.tests(checked.listed, held)
    if not tests:
        return ()
    first = max(tests, key=lambda k: (abs(tests[k]), -k))
    return tuple(k for k in individual.alike(checked.listed, first) if k in tests)


def likeliest(balance: Balance, listed: List[Suspect]) -> List[Suspect]:
    """The meters that explain a failing sheet about as well as the best one, those with nothing against them first."""
    if not listed or balance.flowless:
        return []
    best = listed[0].cost
    near = [s for s in listed if s.cost <= best + 0.1 * (balance.cost - best) + 1e-9]
    return sorted(near, key=lambda s: bool(s.why_not))


def words(balance: Balance, suspect: Suspect) -> str:
    """What the fitter is told."""
    site = balance.site
    pipe = site.list.pipes[suspect.index]
    reading = pipe.reading or 0.0
    then = {Verdict.PASS: "the sheet then passes", Verdict.CLOSE: "the sheet is then close", Verdict.NONE: "nothing is then left to test"}
    outcome = then.get(suspect.verdict, "the sheet still fails, so more than one meter is off")
    off = site.shown(reading - suspect.flow, "+")
    return (
        f"{pipe.title}: without this meter the cost falls from {balance.cost:,.1f} to {suspect.cost:,.1f}, and {outcome}; the pipe would carry "
        f"{site.shown(suspect.flow)} where the meter reads {site.shown(reading)} ({off})"
    )


def titles(balance: Balance, streams: Sequence[int]) -> str:
    """The names of streams, the last after an "or"."""
    names = [balance.site.list.pipes[k].title for k in streams]
    return names[0] if len(names) == 1 else f"{', '.join(names[:-1])} or {names[-1]}"


def first(listed: List[Suspect]) -> Optional[Suspect]:
    """The meter to visit first, if anything speaks for one."""
    return listed[0] if listed and not listed[0].why_not else None

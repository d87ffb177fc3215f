# SPDX-License-Identifier: LicenseRef-Wengeludo
"""What to do next: at most five lines, the most pressing first; then what is to be told of the list."""

from __future__ import annotations

from typing import List, Set

from wengeludo_balance import Verdict

from ..balance.graph import across, rings
from ..balance.individual import MARKED, SURE
from ..balance.sheet import Balance, by_rule
from ..balance.site import notes
from . import purchase, ranges, suspects, together
from .why import overfull

MOST = 5


def steps(balance: Balance) -> List[str]:
    """What an engineer does with this sheet, worked out once."""
    return balance.once("steps", lambda: _overfull(balance) if balance.refused else _steps(balance))


def _steps(balance: Balance) -> List[str]:
    if balance.flowless:
        return [_not_judged(balance), *told(balance)]
    found = [*_verdict(balance), *_blanks(balance), *_held(balance), *ranges.broken(balance)]
    return [*found[:MOST], *told(balance)] or [f"Nothing: the meters agree, and every flow is known.{_chance(balance)}"]


def told(balance: Balance) -> List[str]:
    """What is worth knowing of the list and how it was read, all of it."""
    return [*notes(balance.site), *ranges.notes(balance)]


def _not_judged(balance: Balance) -> str:
    return f"Not judged: {balance.reason}. Rely on no number of it; look at the meter whose accuracy is the finest by far."


def _verdict(balance: Balance) -> List[str]:
    verdict = balance.verdict
    if verdict is None:
        return [_not_judged(balance)]
    if verdict is Verdict.NONE:
        return ["No meter is checked by another: a further meter on a stream that closes a balance would."]
    if verdict is Verdict.CLOSE:
        return [_close(balance)]
    if verdict is Verdict.PASS:
        return _watched(balance)
    return _failing(balance)


def _close(balance: Balance) -> str:
    """What the rule says of a sheet that rounding may alone have taken above its limit."""
    ruled = balance.once("ruled", lambda: by_rule(balance.site.list))
    if ruled.verdict is None or ruled.verdict is Verdict.CLOSE:
        return "Take it as it is: rounding to whole units may alone have taken the cost above its limit, and nothing shows that it has not."
    word = "passes" if ruled.verdict is Verdict.PASS else "fails"
    limit = f"{ruled.limit:.3f}" if ruled.limit is not None else "none"
    return f"In a finer unit, in exact fractions, the list {word}: its least cost is {ruled.cost:.3f} beside the limit {limit}."


def _watched(balance: Balance) -> List[str]:
    """Of a sheet that passes, the meter whose correction is more than chance gives."""
    if not balance.worst:
        return []
    value = abs(balance.lines[balance.worst[0]].test or 0)
    apart = " (no balance tells them apart)" if len(balance.worst) > 1 else ""
    told = f"its correction is {value:.1f} times its own deviation, and chance takes a meter above {balance.bound:.1f} in 5 of 100 sheets"
    return [f"Keep an eye on {suspects.titles(balance, balance.worst)}{apart}: the sheet passes, yet {told}."]


def _chance(balance: Balance) -> str:
    """Why a mark alone is nothing to do."""
    tested = [line for line in balance.lines if line.test is not None]
    labels = ", ".join(line.pipe.label for line in tested if line.notable)
    if not labels:
        return ""
    share = round(100 * (1 - SURE ** len(tested)))
    return f" ▲ marks a test value over {MARKED} ({labels}): chance marks some of {len(tested)} meters in {share} of 100 sheets."


def _failing(balance: Balance) -> List[str]:
    """Of a sheet that fails: the meters to visit, what to leave alone, and the meters that explain it together."""
    listed = suspects.likeliest(balance, suspects.leading(balance))
    good = [s for s in listed if not s.why_not]
    lines: List[str] = []
    told: Set[int] = set()
    for suspect in good:
        alike = [s.index for s in good if s.index in balance.alike(suspect.index) and s is not suspect]
        if suspect.index not in told and len(lines) < 2:
            apart = f". No balance tells it apart from {suspects.titles(balance, alike)}" if alike else ""
            lines.append(f"Visit the meter of {suspects.words(balance, suspect)}{apart}.")
        told |= {suspect.index, *alike}
    poor = [f"{balance.site.list.pipes[s.index].title} {s.why_not}" for s in listed if s.why_not]
    if poor and good:
        lines.append(f"Leave alone what would clear the sheet on paper only: {'; '.join(poor[:2])}.")
    if not any(s.clears for s in good):
        lines.append(_several(balance))
    return lines


def _several(balance: Balance) -> str:
    """The meters that explain a failing sheet together, taken out one after the other."""
    gone = suspects.eliminated(balance)
    if len(gone) < 2 or gone[-1].verdict is Verdict.FAIL:
        return "No single meter explains it: more than one is off, or a stream is missing in the list."
    names = ", then ".join(suspects.titles(balance, one.alike) for one in gone)
    then = f"the cost is then {gone[-1].cost:,.1f}, and the sheet no longer fails"
    return f"More than one meter is off. Taken out one after the other, each time the one with the greatest test value: {names}; {then}."


def _blanks(balance: Balance) -> List[str]:
    if not balance.blanks:
        return []
    site = balance.site
    found = rings(site.plant.streams, balance.blanks)
    labels = ", ".join(site.list.pipes[k].label for k in balance.blanks)
    on = "a ring" if len(found) == 1 else f"{len(found)} rings"
    sums = "; ".join(together.words(balance, s) for s in together.side_by_side(balance))
    known = f" Together {sums}." if sums else ""
    end = f"The cheapest meters that end it: {purchase.words(purchase.cheapest(site))}."
    return [f"Not known: {labels}, which lie on {on} without meters.{known} {end}"]


def _held(balance: Balance) -> List[str]:
    """Meters that read outside their range, so that the end of it stands."""
    site = balance.site
    told = []
    for line in balance.lines:
        pipe = line.pipe
        beyond = (pipe.low is not None and (pipe.reading or 0) < pipe.low) or (pipe.high is not None and (pipe.reading or 0) > pipe.high)
        if line.held and beyond:
            told.append(f"{pipe.title} reads {site.shown(pipe.reading or 0)}, its {line.held} end is {site.shown(line.flow or 0)}")
    return [f"Range or meter is off where the end of a range stands: {'; '.join(told)}."] if told else []


def _overfull(balance: Balance) -> List[str]:
    """Which ranges to look at again."""
    site, streams, ends = balance.site, balance.site.plant.streams, []
    for k, way in sorted(across(streams, balance.marked), key=lambda one: -one[1]):
        pipe = site.list.pipes[k]
        ends.append(f"{pipe.title} (at {'least' if way > 0 else 'most'} {site.shown((pipe.low if way > 0 else pipe.high) or 0)})")
    return [f"Look again at these ranges, at least one of them is wrong: {', '.join(ends)}.", overfull(balance)[-1]]

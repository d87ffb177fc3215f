# SPDX-License-Identifier: LicenseRef-Wengeludo
"""Why a stream has the number that it has, or none."""

from __future__ import annotations

from typing import List, Sequence

from wengeludo_balance import Kind

from ..balance.graph import Signed, across, chain, groups, ring, summed, unmetered
from ..balance.individual import MARKED
from ..balance.sheet import HOW, Balance, sigmas
from . import together
from .purchase import cheapest
from .purchase import words as bought

Lines = List[str]


def why(balance: Balance, k: int) -> Lines:
    """The reasons for stream k, in lines."""
    line = balance.lines[k]
    number = "" if line.flow is None else f"{balance.site.shown(line.flow)} kg/h, "
    head = f"{line.pipe.title} ({_run(balance, k)}): {number}{HOW[line.kind]}"
    tell = {Kind.WITHHELD: _blank, Kind.GIVEN: _given, Kind.AS_READ: _as_read, Kind.ADJUSTED: _adjusted}
    return [head, *tell[line.kind](balance, k)]


def _run(balance: Balance, k: int) -> str:
    pipe = balance.site.list.pipes[k]
    return f"{balance.site.place(pipe.source)} → {balance.site.place(pipe.target)}"


def _titles(balance: Balance, indices: Sequence[int]) -> str:
    return ", ".join(balance.site.list.pipes[k].title for k in indices)


def _places(balance: Balance, places: Sequence[int]) -> str:
    return ", ".join(balance.site.place(place) for place in sorted(places))


def _terms(balance: Balance, signed: Signed) -> Lines:
    """The terms of a sum, one a line, those that count up first."""
    shown = {k: balance.site.shown(balance.lines[k].flow or 0) for k, _ in signed}
    width = max((len(text) for text in shown.values()), default=0)
    return [
        f"  {'+' if sign > 0 else '−'} {shown[k]:>{width}}  {balance.site.list.pipes[k].title}"
        for k, sign in sorted(signed, key=lambda one: -one[1])
    ]


def _blank(balance: Balance, k: int) -> Lines:
    site, streams = balance.site, balance.site.plant.streams
    on = ring(streams, balance.blanks, k)
    lines = [f"It lies on a ring of streams without meters: {_titles(balance, on)}."]
    lines.append("Any amount may go round that ring and no meter would see it, so a number would be invented.")
    places = sorted({end for j in on for end in (streams[j].source, streams[j].target)} - {0})
    sums = [s for s in together.side_by_side(balance) if any(j in on for j, _ in s.signed)]
    told = {frozenset(j for j, _ in s.signed) for s in sums}
    sums += [s for s in together.at_places(balance, places) if frozenset(j for j, _ in s.signed) not in told]
    for known in sums:
        at = f" (at {site.place(known.place)})" if known.place is not None else ""
        lines.append(f"Known together: {together.words(balance, known)}{at}")
    lines.append(f"The cheapest meters that end every blank: {bought(cheapest(site))}.")
    return lines


def _given(balance: Balance, k: int) -> Lines:
    signed, beyond = summed(balance.site.plant.streams, k)
    what = f"It is what the balance of {_places(balance, list(beyond))} leaves for it:"
    if not signed:
        return [what, "  nothing else flows in or out there, so 0."]
    line = balance.lines[k]
    total = f"  = {balance.site.shown(line.flow or 0)} ± {balance.site.shown(line.spread or 0)} (one standard deviation, estimate)"
    return [what, *_terms(balance, signed), total]


def _as_read(balance: Balance, k: int) -> Lines:
    streams, line = balance.site.plant.streams, balance.lines[k]
    way = chain(streams, unmetered(streams), streams[k].target, streams[k].source) or []
    lines = [f"Streams without meters join its two ends, whatever it reads they take up: {_titles(balance, way)}.", "So no other meter can contradict it."]
    if line.held:
        lines.append(f"Its reading lies outside its range; the nearest value in range stands, its {line.held} end.")
    return lines


def _adjusted(balance: Balance, k: int) -> Lines:
    site, stream, line = balance.site, balance.site.plant.streams[k], balance.lines[k]
    moved = f"{site.shown(line.correction or 0, '+')} kg/h or {sigmas(line.sigmas)} deviations"
    lines = [f"It reads {site.shown(line.pipe.reading or 0)}, a correction of {moved}{_tested(balance, k)}. What checks it:"]
    for group in groups(site.plant.streams, site.plant.units):
        if (stream.source in group) != (stream.target in group) and 0 not in group:
            lines += [f"At {_places(balance, list(group))} what comes in (+) is what goes out (−):", *_terms(balance, across(site.plant.streams, group))]
    if line.held:
        lines.append(f"It is held at the {line.held} end of its range.")
    return lines


def _tested(balance: Balance, k: int) -> str:
    """The test value of a correction, and the meters that no balance tells apart from it."""
    test = balance.lines[k].test
    if test is None:
        return ""
    others = [j for j in balance.alike(k) if j != k]
    apart = f"; no balance tells it apart from {_titles(balance, others)}" if others else ""
    return f", {abs(test):.1f} times the correction's own deviation (marked above {MARKED}, a warning above {balance.bound:.1f}){apart}"


def overfull(balance: Balance) -> Lines:
    """Why there is no sheet: the marked places, each stream across their edge, the two sums."""
    site, streams = balance.site, balance.site.plant.streams
    lines = [f"No flow keeps within all ranges: {_places(balance, list(balance.marked))} must take in more than they can let out."]
    sums = []
    for sign, word in ((1, "at least"), (-1, "at most")):
        amounts = []
        for k, way in across(streams, balance.marked):
            if way == sign:
                pipe = site.list.pipes[k]
                amounts.append((pipe.low if sign > 0 else pipe.high) or 0.0)
                lines.append(f"  {'in ' if sign > 0 else 'out'} {word} {site.shown(amounts[-1])}  {site.list.pipes[k].title}, {_run(balance, k)}")
        sums.append(sum(amounts))
    lines.append(f"At least {site.shown(sums[0])} come in, at most {site.shown(sums[1])} go out: {site.shown(sums[0] - sums[1])} kg/h too many.")
    return lines

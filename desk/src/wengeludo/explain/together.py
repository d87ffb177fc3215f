# SPDX-License-Identifier: LicenseRef-Wengeludo
"""What is known of blanks together. The engine itself is asked: blanks that end at one place are led to a new unit beside it, from which
one pipe runs on; if the sheet gives that pipe a number, it is what the blanks carry together."""

from __future__ import annotations

from dataclasses import dataclass
from typing import Dict, List, Optional, Sequence, Tuple

import wengeludo_balance as engine
from wengeludo_balance import Kind, Stream

from ..balance.checked import pinned
from ..balance.sheet import Balance, deviations
from ..balance.spread import spreads
from ..read.lists import MOST_STREAMS, MOST_UNITS


@dataclass(frozen=True)
class Sum:
    """Blanks with their signs, what they carry together in kg/h, and the estimate of its deviation; the place that tells it."""

    signed: Tuple[Tuple[int, int], ...]
    amount: float
    spread: float
    place: Optional[int] = None


def known_sum(balance: Balance, blanks: Sequence[int], place: int) -> Optional[Sum]:
    """The flow into a place by these blanks together, where the meters force it."""
    site = balance.site
    streams, new = list(site.plant.streams), site.plant.units + 1
    if new > MOST_UNITS or len(streams) == MOST_STREAMS:
        return None
    signed = []
    for k in blanks:
        inward = streams[k].target == place
        streams[k] = Stream(streams[k].source, new) if inward else Stream(new, streams[k].target)
        signed.append((k, 1 if inward else -1))
    plant = engine.Plant(new, (*streams, Stream(new, place)))
    sheet = engine.balance(_drawable(balance, plant).file())
    last = sheet.records[-1]
    if last.kind is not Kind.GIVEN or last.flow is None:
        return None
    spread = spreads(plant, sheet.records, [*deviations(site.list), None])[-1]
    return Sum(tuple(signed), site.kg(last.flow), spread or 0.0, place)


def _drawable(balance: Balance, plant: engine.Plant) -> engine.Plant:
    """The plant whose sheet has the flows of this balance: of checked flows every range is pinned to its flow."""
    if not balance.checked:
        return plant
    return pinned(plant, (*balance.checked.flows, 0))


def side_by_side(balance: Balance) -> List[Sum]:
    """Of blanks that run side by side between two places, what they carry together, where it is known."""
    pairs: Dict[Tuple[int, int], List[int]] = {}
    streams = balance.site.plant.streams
    for k in balance.blanks:
        ends = (streams[k].source, streams[k].target)
        pairs.setdefault((min(ends), max(ends)), []).append(k)
    found = []
    for blanks in pairs.values():
        if len(blanks) > 1:
            known = known_sum(balance, blanks, streams[blanks[0]].target)
            if known:
                found.append(Sum(known.signed, known.amount, known.spread))
    return found


def at_places(balance: Balance, places: Sequence[int]) -> List[Sum]:
    """At each of these places, what the blanks that end there bring in together."""
    streams, found = balance.site.plant.streams, []
    for place in places:
        blanks = [k for k in balance.blanks if place in (streams[k].source, streams[k].target)]
        known = known_sum(balance, blanks, place) if len(blanks) > 1 else None
        if known:
            found.append(known)
    return found


def words(balance: Balance, known: Sum) -> str:
    """18 + 19 = 7,931 ± 32 kg/h (one deviation, estimate)."""
    site, text = balance.site, ""
    signs = known.signed if known.amount >= 0 or len({sign for _, sign in known.signed}) > 1 else [(k, -sign) for k, sign in known.signed]
    amount = known.amount if signs is known.signed else -known.amount
    for k, sign in sorted(signs, key=lambda one: -one[1]):
        text += (" + " if sign > 0 else " − ") if text else ("" if sign > 0 else "−")
        text += site.list.pipes[k].label
    return f"{text} = {site.shown(amount)} ± {site.shown(known.spread)} kg/h"

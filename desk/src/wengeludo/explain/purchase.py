# SPDX-License-Identifier: LicenseRef-Wengeludo
"""Meters to buy and layouts, with the names and prices of a list. Both depend on no reading."""

from __future__ import annotations

from dataclasses import dataclass
from typing import List, Tuple

import wengeludo_balance as engine

from ..balance.graph import chain, unmetered
from ..balance.site import Site
from ..read.faults import Stopped
from ..read.lists import Pipe


DEAREST = 1_000_000  # the greatest price that the engine takes


@dataclass(frozen=True)
class Purchase:
    """The meters to buy; of the streams whose meter could end a blank, those whose price the list says, and the others."""

    pipes: Tuple[Pipe, ...]
    priced: Tuple[Pipe, ...]
    unpriced: Tuple[Pipe, ...]

    @property
    def price(self) -> int:
        """What the meters cost whose price is known."""
        return sum(pipe.price or 0 for pipe in self.pipes)


def cheapest(site: Site) -> Purchase:
    """The cheapest meters that end every blank. A price that the list does not say is taken as the greatest, so that the prices that it
    does say decide."""
    pipes, streams = site.list.pipes, site.plant.streams
    bare = unmetered(streams)
    blank = [k for k in bare if chain(streams, (j for j in bare if j != k), streams[k].target, streams[k].source) is not None]
    bought = engine.meters_to_buy(site.shape, [pipes[k].price or DEAREST for k in bare])
    sides = [tuple(pipes[k] for k in blank if (pipes[k].price is not None) == said) for said in (True, False)]
    return Purchase(tuple(pipes[k - 1] for k in bought.streams), sides[0], sides[1])


def words(purchase: Purchase) -> str:
    """The meters, and what they cost."""
    names = ", ".join(pipe.title for pipe in purchase.pipes)
    if not purchase.priced:
        return f"{names} (the list has no prices)"
    labels = ", ".join(pipe.label for pipe in purchase.unpriced)
    return f"{names} (price {purchase.price:,}{f', without a price in the list for {labels}' if labels else ''})"


def account(purchase: Purchase) -> List[str]:
    """What they cost together, and how far that is the least."""
    if not purchase.unpriced:
        return [f"Together {purchase.price:,}; no set of meters does it for less."]
    if not purchase.priced:
        return ["No smaller number of meters does it. The list has no prices: of equally many meters those with the lowest streams are told."]
    left = ", ".join(pipe.title for pipe in purchase.pipes if pipe.price is None)
    missing = ", ".join(pipe.title for pipe in purchase.unpriced)
    return [
        f"Together {purchase.price:,}" + (f", and what the meter of {left} costs." if left else "."),
        f"No price in the list for: {missing}. They were taken as dearer than any other; with their prices another set may cost less.",
    ]


def layouts(site: Site) -> List[Tuple[int, int]]:
    """(k, how many choices of k meters leave no blank)."""
    if len(site.plant.streams) > 12:
        raise Stopped(f"{site.list.name} has {len(site.plant.streams)} streams: layouts are surveyed of at most 12")
    return list(enumerate(engine.layouts_of(site.shape)))

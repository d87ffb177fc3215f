# SPDX-License-Identifier: LicenseRef-Wengeludo
"""Ranges of pipes without a meter: no part of the balance, which has ranges for meters only; held against its flows, and told."""

from __future__ import annotations

from typing import List

from ..balance.sheet import Balance
from ..read.lists import Pipe
from ..read.numbers import exact


def _range(balance: Balance, pipe: Pipe) -> str:
    """The range of a pipe in words."""
    site = balance.site
    low, high = (None if end is None else site.shown(end) for end in (pipe.low, pipe.high))
    return f"{low} to {high}" if low and high else f"at least {low}" if low else f"at most {high}"


def broken(balance: Balance) -> List[str]:
    """The pipes without a meter whose deduced flow lies outside their range: what to do."""
    told = []
    for line in balance.lines:
        pipe, flow = line.pipe, line.flow
        if pipe.reading is not None or flow is None:
            continue
        if (pipe.low is not None and exact(flow) < exact(pipe.low)) or (pipe.high is not None and exact(flow) > exact(pipe.high)):
            told.append(f"{pipe.title} would carry {balance.site.shown(flow)}, its range is {_range(balance, pipe)}")
    return [f"A range or a meter is off: a pipe without a meter is deduced outside its range: {'; '.join(told)}."] if told else []


def notes(balance: Balance) -> List[str]:
    """The pipes without a meter whose range is kept, and those whose flow is not known: both play no part in the balance."""
    ranged = [line for line in balance.lines if line.pipe.reading is None and (line.pipe.low is not None or line.pipe.high is not None)]
    outside = " ".join(broken(balance))
    kept = [line.pipe.title for line in ranged if line.flow is not None and f"{line.pipe.title} would carry" not in outside]
    blank = [line.pipe.title for line in ranged if line.flow is None]
    found = [f"ranges of pipes without a meter are no part of the balance; its flows keep within those of {', '.join(kept)}"] if kept else []
    return found + ([f"ranges that cannot be held against a flow, as there is no meter and the flow is not known: {', '.join(blank)}"] if blank else [])

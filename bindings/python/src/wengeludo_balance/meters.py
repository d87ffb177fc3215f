# SPDX-License-Identifier: LicenseRef-Wengeludo
"""Meters to buy, layouts of meters, meters worth a visit, charges."""

from __future__ import annotations

from dataclasses import dataclass
from typing import Sequence, Tuple

from ._slices import ffi, fitting, given, lent, lib, out, raise_for
from .plant import MAX_STREAMS


@dataclass(frozen=True)
class Purchase:
    """The streams to be metered, counted from 1, in rising order, and their price together."""

    streams: Tuple[int, ...]
    price: int


@dataclass(frozen=True)
class Visit:
    """An A stream, counted from 1, and the least cost with it made unmetered."""

    stream: int
    cost: int


@dataclass(frozen=True)
class Bill:
    """The charged streams, counted from 1, with their charges, and the bill, in whole cents."""

    charges: Tuple[Tuple[int, int], ...]
    cents: int


def meters_to_buy(file: bytes, prices: Sequence[int]) -> Purchase:
    """The cheapest meters that end every blank; a price for each unmetered stream. Refused: 3 to 12, 18, 21."""
    streams, count, price = out("uint8_t", MAX_STREAMS), ffi.new("size_t *"), ffi.new("uint32_t *")
    priced = fitting("uint32_t[]", prices, 0, 2**32 - 1, 0)
    raise_for(lib.wengeludo_meters_to_buy(*given(file), *lent(priced), *lent(streams), count, price))
    return Purchase(tuple(streams[0 : count[0]]), price[0])


def layouts_of(file: bytes) -> Tuple[int, ...]:
    """For each k from 0 to the number of streams, how many choices of k meters leave no blank. Refused: 3 to 12, 18, 23."""
    counts, count = out("uint16_t", lib.WENGELUDO_SURVEY_SIZE), ffi.new("size_t *")
    raise_for(lib.wengeludo_layouts_of(*given(file), *lent(counts), count))
    return tuple(counts[0 : count[0] + 1])


def visits(file: bytes) -> Tuple[Visit, ...]:
    """Meters worth a visit: each A stream with the least cost without its meter, the least first. Refused: 3 to 12, 18, 19."""
    streams, costs, count = out("uint8_t", MAX_STREAMS), out("uint64_t", MAX_STREAMS), ffi.new("size_t *")
    raise_for(lib.wengeludo_visits(*given(file), *lent(streams), *lent(costs), count))
    return tuple(Visit(streams[k], costs[k]) for k in range(count[0]))


def charges(file: bytes, rates: Sequence[int]) -> Bill:
    """What each stream to the outside is charged for one hour, a rate for each. Refused: 3 to 12, 18, 19, 24, 25."""
    streams, cents = out("uint8_t", MAX_STREAMS), out("int64_t", MAX_STREAMS)
    count, bill = ffi.new("size_t *"), ffi.new("int64_t *")
    rated = fitting("uint16_t[]", rates, 0, 65_535, 65_535)
    raise_for(lib.wengeludo_charges(*given(file), *lent(rated), *lent(streams), *lent(cents), count, bill))
    return Bill(tuple((streams[k], cents[k]) for k in range(count[0])), bill[0])

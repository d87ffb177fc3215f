# SPDX-License-Identifier: LicenseRef-Wengeludo
"""Refusals: the one exception of this package."""

from __future__ import annotations

from typing import FrozenSet

TEXTS = {
    # refusals: texts, from tools/refusals.tsv
    1: "a slice is too short: under 880 bytes for a sheet, 8 numbers for the offices, 1,636 bytes for a plant file, 96 elements for the plant reader, the sheet reader and lists of streams, 13 for the survey, 33 for the numbers of the places; for the check of a flow, fewer elements than streams, or numbers than places",
    2: "the calling office's last sheet number is 4,294,967,295",
    3: "bytes end where a record is due or inside a body",
    4: "kind not allowed at this place",
    5: "a 97th stream; for the plant writer and the check of a flow, a count over 96",
    6: "the number of units, n, is 0 or over 32",
    7: "from or to above n",
    8: "from equals to",
    9: "weight 0 or over 1,000; for the check of a flow, over 1,099,511,627,776",
    10: "reading outside -4,000,000 to 4,000,000; for the check of a flow, outside -1,099,511,627,776 to 1,099,511,627,776",
    11: "end count differs from the streams read",
    12: "bytes after the end record",
    13: "in a sheet, a record is missing, cut short, a 97th or of a wrong kind",
    14: "in a sheet, a field of the total is not allowed: an office over 7, number 0, degrees over 32 or a verdict that does not fit",
    15: "in a sheet, bytes after the total",
    16: "a transmitter's value is not finite",
    17: "a transmitter's deviation is no finite number above 0",
    18: "low above high, or either outside -2,000,000,000 to 2,000,000,000; for the check of a flow, low above high",
    19: "no balanced flow lies within all ranges",
    20: "moving home, a range is narrower than -2,000,000,000 to 2,000,000,000",
    21: "prices are not one for each unmetered stream, or one is 0 or over 1,000,000",
    22: "the office is above 7",
    23: "more than the 12 streams of which layouts are surveyed",
    24: "rates are not one for each stream to the outside, or one is over 10,000",
    25: "a stream to the outside is withheld, whatever its rate",
    26: "a sheet or a flow that is checked breaks a rule, a number of a place is missing, extra or past its limit, or the plant has no sheet",
    # refusals: end of texts
}


class Refusal(Exception):
    """A call was refused. Nothing was written, no sheet number was drawn.

    number  the refusal's number, 1 to 26
    text    what it means
    places  with 19, the marked places: they must take in more than they can let out; else empty
    """

    def __init__(self, number: int, marked: int = 0) -> None:
        self.number = number
        self.text = TEXTS.get(number, "a number that this binding does not know")
        self.places: FrozenSet[int] = frozenset(place for place in range(64) if marked >> place & 1)
        super().__init__(number, marked)

    def __str__(self) -> str:
        marked = f"; too much goes into places {', '.join(map(str, sorted(self.places)))}" if self.places else ""
        return f"refused {self.number}: {self.text}{marked}"

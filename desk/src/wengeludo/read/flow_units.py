# SPDX-License-Identifier: LicenseRef-Wengeludo
"""Units of flow beside a number, in a heading, in a column of their own or in a number format; each as an exact number of kg/h."""

from __future__ import annotations

import re
from fractions import Fraction
from typing import Dict, Optional, Tuple

POUND = Fraction(45359237, 100_000_000)  # kg, by definition
_MASSES: Dict[str, Fraction] = {
    "kg": Fraction(1), "t": Fraction(1_000), "to": Fraction(1_000), "te": Fraction(1_000), "mt": Fraction(1_000), "tonne": Fraction(1_000),
    "tonnen": Fraction(1_000), "tonnes": Fraction(1_000), "g": Fraction(1, 1_000), "lb": POUND, "lbs": POUND, "lbm": POUND, "klb": 1_000 * POUND,
    "kt": Fraction(1_000_000),
}
_TIMES: Dict[str, Fraction] = {
    "h": Fraction(1), "hr": Fraction(1), "hour": Fraction(1), "std": Fraction(1), "stunde": Fraction(1), "s": Fraction(3_600), "sec": Fraction(3_600),
    "min": Fraction(60), "d": Fraction(1, 24), "day": Fraction(1, 24), "tag": Fraction(1, 24),
}
_WORDS: Dict[str, Fraction] = {"kgh": Fraction(1), "tph": Fraction(1_000), "pph": POUND, "kpph": 1_000 * POUND}
KNOWN = "kg/h, t/h, kg/s, g/s, kg/min, t/d, lb/h or klb/h"
LONGEST = 100  # letters of a cell in which a unit is looked for
_SUFFIX = re.compile(r"\s*([A-Za-zµ][A-Za-z0-9.³²µ]*\s*(?:/|\bper\b|\bpro\b)\s*[A-Za-z]+\.?|(?:tph|pph|kpph))\s*$", re.IGNORECASE)
_IN_HEADING = re.compile(r"^(.*?)\s*(?:[(\[]\s*(?:in\s+)?([^()\[\]]*)[)\]]|\s+in\s+(\S.*)|,\s*(\S.*)|\s(\S+/\S+))\s*$", re.IGNORECASE)


def flow_unit(text: str) -> Optional[Fraction]:
    """How many kg/h a unit is; None if it is none that is known. Tons without more are not: they may be metric or short."""
    plain = re.sub(r"[\s.]", "", text.replace(" per ", "/").replace(" pro ", "/"))
    if plain in ("Mg/h", "Mg/d", "Mg/s"):  # a megagram is a tonne; a milligram is no flow of a pipe
        plain = "t" + plain[2:]
    plain = plain.casefold()
    mass, _, time = plain.partition("/")
    if mass in _MASSES and time in _TIMES:
        return _MASSES[mass] * _TIMES[time]
    return _WORDS.get(plain)


def split_unit(text: str) -> Tuple[str, Optional[str]]:
    """A number and the unit behind it, if one is there: 8.151 t/h."""
    found = _SUFFIX.search(text) if len(text) <= LONGEST else None
    if not found or not text[: found.start()].strip():
        return text, None
    return text[: found.start()].strip(), found[1]


def split_heading(text: str) -> Tuple[str, Optional[str]]:
    """The name of a column and the unit in it, if one is there: reading (t/h), reading [t/h], reading in t/h."""
    found = _IN_HEADING.match(text) if len(text) <= LONGEST else None
    unit = next((part for part in found.groups()[1:] if part), None) if found else None
    if found and unit and ("/" in unit or flow_unit(unit) is not None):
        return found[1].strip(), unit.strip()
    return text, None

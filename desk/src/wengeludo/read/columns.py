# SPDX-License-Identifier: LicenseRef-Wengeludo
"""The columns of a list, in English and in German, said once."""

from __future__ import annotations

from typing import Dict, FrozenSet, Sequence, Tuple

COLUMNS = ("stream", "what", "from", "to", "reading", "accuracy", "low", "high", "price", "rate")
MORE = ("unit", "floor")  # columns that a list may have beside those
NUMBERS = ("reading", "accuracy", "low", "high", "price", "rate", "floor")
AMOUNTS = ("reading", "low", "high", "floor")  # numbers of kg/h
OUTSIDE = "outside"
RESULTS = ("balanced", "correction", "σ", "test", "±", "how known")
_TELLING = ("balanced", "correction", "how known")  # by these a sheet is known
GERMAN: Dict[str, Tuple[str, ...]] = {
    "stream": ("Strom", "Nr", "Nr.", "Nummer", "Leitung", "Stream"), "what": ("Bezeichnung", "Benennung", "Beschreibung", "Was"), "from": ("von",),
    "to": ("nach", "bis"), "reading": ("Messwert", "Ablesung", "Anzeige", "Wert"), "accuracy": ("Genauigkeit", "Unsicherheit", "Messgenauigkeit"),
    "low": ("mindestens", "untere Grenze", "unterer Grenzwert"), "high": ("höchstens", "obere Grenze", "oberer Grenzwert"), "price": ("Preis",),
    "rate": ("Tarif", "Satz"), "unit": ("Einheit",), "floor": ("Mindestabweichung", "Grundabweichung"), "balanced": ("ausgeglichen",),
    "correction": ("Korrektur",), "test": ("Prüfwert",), "how known": ("woher",), OUTSIDE: ("außen", "aussen", "draußen", "draussen", "Umgebung"),
}
_ENGLISH = {"unit": ("unit", "units", "uom"), **{name: (name,) for name in (*COLUMNS, "floor")}}
_OUTSIDES: FrozenSet[str] = frozenset(word.casefold() for word in GERMAN[OUTSIDE])


def known_words(lang: str) -> Dict[str, str]:
    """The words of a heading in a language, folded, each with the column that it means. German headings may have English words too."""
    words = {word.casefold(): name for name, names in _ENGLISH.items() for word in names}
    if lang == "de":
        words |= {word.casefold(): name for name, names in GERMAN.items() if name in (*COLUMNS, *MORE) for word in names}
    return words


def language_of(cells: Sequence[str]) -> str:
    """The language of a heading by its two words that must be there; nothing if this is no heading."""
    folded = {" ".join(cell.casefold().split()) for cell in cells}
    if {"from", "to"} <= folded:
        return "en"
    return "de" if {"von", "nach"} <= folded else ""


def word(name: str, lang: str) -> str:
    """The word for a column in a language."""
    return GERMAN[name][0] if lang == "de" and name in GERMAN else name


def is_outside(name: str, lang: str) -> bool:
    """Whether a folded place is the world beyond the site."""
    return name == OUTSIDE or (lang == "de" and name in _OUTSIDES)


def results_of(cells: Sequence[str]) -> FrozenSet[str]:
    """The columns of an earlier sheet, if a heading has them: what the tool wrote is no column of the user's."""
    folded = {" ".join(cell.casefold().split()) for cell in cells}
    for lang in ("en", "de"):
        if {word(name, lang).casefold() for name in _TELLING} <= folded:
            return frozenset(word(name, lang).casefold() for name in RESULTS) & folded
    return frozenset()

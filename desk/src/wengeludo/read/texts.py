# SPDX-License-Identifier: LicenseRef-Wengeludo
"""Texts that people wrote, and what of them can be shown."""

from __future__ import annotations

import re

_UNSEEN = re.compile("[\x00-\x08\x0b\x0c\x0e-\x1f\x7f-\x9f\ud800-\udfff\ufffe\uffff\u2028\u2029\u202a-\u202e\u2066-\u2069]")
_FORMULA = re.compile(r"'*[=+\-@\t\r]")
_GUARDED = re.compile(r"'+[=+\-@\t\r]")


def legible(text: str) -> str:
    """A text without control characters, which no file and no screen can show."""
    return _UNSEEN.sub("", text)


def guarded(text: str) -> str:
    """A text of a CSV file with an apostrophe before it if a spreadsheet would take it for a formula."""
    return "'" + text if _FORMULA.match(text) else text


def unguarded(text: str) -> str:
    """The text that `guarded` was given."""
    return text[1:] if _GUARDED.match(text) else text

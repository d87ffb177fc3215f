# SPDX-License-Identifier: LicenseRef-Wengeludo
"""Words of the commands over books: a book's name, the hour of readings, a kept sheet."""

from __future__ import annotations

import re
from typing import Optional, Tuple

import click

from ..read.hours import hour_from


class BookType(click.ParamType):
    """A file, or postgresql://user@server/database."""

    name = "book"

    def convert(self, value: object, param: Optional[click.Parameter], ctx: Optional[click.Context]) -> str:
        text = str(value)
        if re.match(r"[a-z]+://", text) and not text.startswith(("postgresql://", "postgres://")):
            self.fail(f"{text} is no book: a file or postgresql://user@server/database would do", param, ctx)
        return text


class HourType(click.ParamType):
    """The hour of readings."""

    name = "hour"

    def convert(self, value: object, param: Optional[click.Parameter], ctx: Optional[click.Context]) -> str:
        text = str(value).strip()
        found = hour_from(text) if text else ""
        if found is None:
            self.fail(f"{text} is no hour: 2026-11-17 14:00 or 17.11.2026 14:00 would do", param, ctx)
        return found


class ReferenceType(click.ParamType):
    """A kept sheet: its office and number."""

    name = "sheet"

    def convert(self, value: object, param: Optional[click.Parameter], ctx: Optional[click.Context]) -> Tuple[int, int]:
        if isinstance(value, tuple):
            return value
        match = re.fullmatch(r"([0-7])-([0-9]{1,10})", str(value).strip())
        if not match:
            self.fail(f"{value} is no sheet: 3-17, sheet 17 of office 3, would do", param, ctx)
        return int(match[1]), int(match[2])


BOOK = click.argument("book", type=BookType(), metavar="BOOK")

# SPDX-License-Identifier: LicenseRef-Wengeludo
"""Faults: what is wrong with a list, where, and what would do; all of them at once."""

from __future__ import annotations

from dataclasses import dataclass
from typing import Optional, Sequence


@dataclass(frozen=True)
class Fault:
    """A fault of a list: its row as the spreadsheet counts it, its column, the stream, what stands there, what would do."""

    wanted: str
    row: Optional[int] = None
    column: Optional[str] = None
    stream: Optional[str] = None
    found: Optional[str] = None

    def __str__(self) -> str:
        where = [f"row {self.row}"] if self.row else []
        where += [f"column {self.column}"] if self.column else []
        where += [f"stream {self.stream}"] if self.stream else []
        found = "" if self.found is None else f"{quoted(self.found)} stands there; "
        return (", ".join(where) + ": " if where else "") + found + self.wanted


class Stopped(Exception):
    """A command cannot go on; the message is for the user."""


class Faulty(Stopped):
    """A list with faults."""

    def __init__(self, path: object, faults: Sequence[Fault]) -> None:
        self.path, self.faults = str(path), tuple(faults)
        super().__init__("\n".join(f"{self.path}: {fault}" for fault in self.faults))


class FaultyFiles(Stopped):
    """Several files with faults, each told as it is by itself."""

    def __init__(self, files: Sequence[Faulty]) -> None:
        self.files = tuple(files)
        super().__init__("\n".join(map(str, self.files)))


def together(files: Sequence[Faulty]) -> Stopped:
    """What several files with faults are told by; of one file alone its own."""
    return files[0] if len(files) == 1 else FaultyFiles(files)


def quoted(text: str) -> str:
    """What stands in a cell, short enough for a line."""
    if not text:
        return "nothing"
    text = " ".join(text.split())
    return f'"{text[:40]}…"' if len(text) > 41 else f'"{text}"'

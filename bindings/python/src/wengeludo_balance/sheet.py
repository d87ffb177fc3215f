# SPDX-License-Identifier: LicenseRef-Wengeludo
"""Sheets: drawn, read back in, checked."""

from __future__ import annotations

from dataclasses import dataclass
from enum import Enum, IntEnum
from typing import Optional, Sequence, Tuple

from ._slices import ffi, fitting, given, lent, lib, out, raise_for
from .plant import MAX_STREAMS
from .refusal import Refusal

SHEET_SIZE = lib.WENGELUDO_SHEET_SIZE
PLACES = lib.WENGELUDO_MAX_UNITS + 1
OFFICES = 8
NO_SHEETS = (0,) * OFFICES
_LEAST, _MOST = -(2**63), 2**63 - 1


class Kind(Enum):
    """The class of a stream; its value is the letter."""

    ADJUSTED = "A"
    AS_READ = "R"
    GIVEN = "G"
    WITHHELD = "W"


_KINDS = {0x11: Kind.ADJUSTED, 0x12: Kind.AS_READ, 0x13: Kind.GIVEN, 0x14: Kind.WITHHELD}


class Verdict(IntEnum):
    """The verdict of the test."""

    PASS = 0
    FAIL = 1
    NONE = 2
    CLOSE = 3


@dataclass(frozen=True)
class Record:
    """A stream's class, and its flow where there is one."""

    kind: Kind
    flow: Optional[int]


@dataclass(frozen=True)
class Sheet:
    """A sheet as the sheet reader reads it. `plain`: the total is of the kind without an office, 0x1F."""

    records: Tuple[Record, ...]
    office: int
    number: int
    cost: int
    degrees: int
    verdict: Verdict
    plain: bool

    def __str__(self) -> str:
        """The listing, as the program `balance` prints it."""
        lines = [f"{k} {r.kind.value} {'-' if r.flow is None else r.flow}" for k, r in enumerate(self.records, 1)]
        total = f"total {self.number} {self.cost} {self.degrees} {self.verdict.name.lower()}"
        return "\n".join([*lines, total]) + "\n"


@dataclass(frozen=True)
class Drawn:
    """What the sheet call hands back: the sheet's bytes, and the eight last numbers after it."""

    sheet: bytes
    lasts: Tuple[int, ...]


def balance_plant(file: bytes, office: int = 0, lasts: Sequence[int] = NO_SHEETS) -> Drawn:
    """Draws the sheet of a plant file for an office. Refused: 22, 2, 3 to 12, 18, 19 (with the marked places).

    `lasts` are the eight offices' last sheet numbers; ValueError where they are not eight numbers of 32 bits.
    """
    if len(lasts) != OFFICES or not all(0 <= last < 2**32 for last in lasts):
        raise ValueError("the last sheet numbers are eight, each from 0 to 4,294,967,295")
    counters, sheet = ffi.new("uint32_t[]", list(lasts)), out("uint8_t", SHEET_SIZE)
    written, marked = ffi.new("size_t *"), ffi.new("uint64_t *")
    desk = office if 0 <= office <= 255 else 255
    number = lib.wengeludo_balance_plant(*given(file), desk, *lent(counters), *lent(sheet), written, marked)
    raise_for(number, marked[0])
    return Drawn(bytes(ffi.buffer(sheet, written[0])), tuple(counters))


def read_sheet(sheet: bytes) -> Sheet:
    """Reads a kept sheet back in. Refused: 13, 14, 15."""
    kinds, flows, count = out("uint8_t", MAX_STREAMS), out("int64_t", MAX_STREAMS), ffi.new("size_t *")
    kind, office, number = ffi.new("uint8_t *"), ffi.new("uint8_t *"), ffi.new("uint32_t *")
    cost, degrees, verdict = ffi.new("uint64_t *"), ffi.new("uint8_t *"), ffi.new("uint8_t *")
    total = (kind, office, number, cost, degrees, verdict)
    raise_for(lib.wengeludo_read_sheet(*given(sheet), *lent(kinds), *lent(flows), count, *total))
    found = ((_KINDS[kinds[k]], flows[k]) for k in range(count[0]))
    records = tuple(Record(k, None if k is Kind.WITHHELD else flow) for k, flow in found)
    return Sheet(records, office[0], number[0], cost[0], degrees[0], Verdict(verdict[0]), kind[0] == 0x1F)


def balance(file: bytes) -> Sheet:
    """The sheet of a plant file, by its parts, as sheet 1 of office 0. Refused: 3 to 12, 18, 19."""
    return read_sheet(balance_plant(file).sheet)


def check_sheet(plant: bytes, sheet: bytes, numbers: Sequence[int]) -> None:
    """Checks a sheet drawn up elsewhere, with one number for each place. Refused: the plant's, the sheet's, 26."""
    array = fitting("int64_t[]", numbers, _LEAST, _MOST, _MOST)
    raise_for(lib.wengeludo_check_sheet(*given(plant), *given(sheet), *lent(array)))


def broken_rule(plant: bytes, sheet: bytes, numbers: Sequence[int]) -> Optional[str]:
    """None if the sheet passes the check; the first broken rule in words if it is refused with 26. Refused: the plant's, the sheet's."""
    try:
        check_sheet(plant, sheet, numbers)
        return None
    except Refusal as refusal:
        if refusal.number != lib.WENGELUDO_RULE_BROKEN:
            raise
    array, words = fitting("int64_t[]", numbers, _LEAST, _MOST, _MOST), out("char", 160)
    lib.wengeludo_broken_rule(*given(plant), *given(sheet), *lent(array), words)
    return str(ffi.string(words).decode("ascii")) or "a rule is broken"


def place_numbers(file: bytes) -> Tuple[int, ...]:
    """One number for each place, the outside first, with which the plant's sheets pass the check. Refused: 3 to 12, 18, 19."""
    numbers, count = out("int64_t", PLACES), ffi.new("size_t *")
    raise_for(lib.wengeludo_place_numbers(*given(file), *lent(numbers), count))
    return tuple(numbers[0 : count[0]])

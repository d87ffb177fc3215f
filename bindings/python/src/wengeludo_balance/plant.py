# SPDX-License-Identifier: LicenseRef-Wengeludo
"""Plants: their streams, plant files and transmitter files."""

from __future__ import annotations

import struct
from dataclasses import dataclass
from typing import Iterable, Optional, Sequence, Tuple

from ._slices import ffi, fitting, given, lent, lib, out, raise_for

FILE_SIZE = lib.WENGELUDO_FILE_SIZE
MAX_STREAMS = lib.WENGELUDO_MAX_STREAMS
WIDEST = lib.WENGELUDO_MAX_RANGE
_SITE, _END = 0x01, 0x04


@dataclass(frozen=True)
class Stream:
    """A stream from one place to another; place 0 is the outside.

    Without a weight it is unmetered. `low` and `high`, both or neither, are the range of a metered stream; ValueError else.
    """

    source: int
    target: int
    weight: Optional[int] = None
    reading: int = 0
    low: Optional[int] = None
    high: Optional[int] = None

    def __post_init__(self) -> None:
        if (self.low is None) != (self.high is None) or (self.weight is None and self.low is not None):
            raise ValueError("a range is low and high, both or neither, of a stream with a weight")

    @property
    def metered(self) -> bool:
        return self.weight is not None

    @property
    def ranged(self) -> bool:
        return self.metered and self.low is not None and self.high is not None

    def unmetered(self) -> "Stream":
        """The same pipe without its meter and range."""
        return Stream(self.source, self.target)


@dataclass(frozen=True)
class Plant:
    """Units 1 to `units`, and the streams in file order."""

    units: int
    streams: Tuple[Stream, ...] = ()

    def file(self) -> bytes:
        """The plant file. Refused: 5 to 10, 18."""
        return write_plant(self.units, self.streams)


@dataclass(frozen=True)
class Signal:
    """What a transmitter sends of a stream. Without a value: a fault."""

    source: int
    target: int
    value: Optional[float] = None
    deviation: float = 0.0
    held: bool = False


@dataclass(frozen=True)
class Fault:
    """The first fault of a file: the refusal's number, the byte, counted from 0, and the stream, counted from 1; 0 if it is in none."""

    number: int
    byte: int
    stream: int

    def __str__(self) -> str:
        return f"byte {self.byte}, counted from 0" + (f", in stream {self.stream}" if self.stream else "")


def fault_at(file: bytes, transmitter: bool = False) -> Optional[Fault]:
    """Where a plant file, or a transmitter file, is refused; None if it is taken. Host code beside the proved calls, as in C."""
    call = lib.wengeludo_transmitter_fault_at if transmitter else lib.wengeludo_plant_fault_at
    byte, stream = ffi.new("size_t *"), ffi.new("size_t *")
    number = call(*given(file), byte, stream)
    return Fault(number, byte[0], stream[0]) if number else None


def write_plant(units: int, streams: Sequence[Stream]) -> bytes:
    """The plant file of a plant's parts. Refused: 6, 5, then stream after stream 7 to 10, 18.

    A number that does not fit its field in C is handed over as one that the call refuses.
    """
    metered = [s.metered for s in streams]
    ranged = [s.ranged for s in streams]
    columns = (
        fitting("uint8_t[]", (s.source for s in streams), 0, 255, 255),
        fitting("uint8_t[]", (s.target for s in streams), 0, 255, 255),
        ffi.new("uint8_t[]", metered),
        fitting("uint16_t[]", (s.weight or 0 for s in streams), 0, 65_535, 0),
        fitting("int32_t[]", (s.reading for s in streams), -(2**31), 2**31 - 1, 2**31 - 1),
        ffi.new("uint8_t[]", ranged),
        fitting("int32_t[]", (s.low if r else 0 for s, r in zip(streams, ranged)), -(2**31), 2**31 - 1, -(2**31)),
        fitting("int32_t[]", (s.high if r else 0 for s, r in zip(streams, ranged)), -(2**31), 2**31 - 1, 2**31 - 1),
    )
    file, written = out("uint8_t", FILE_SIZE), ffi.new("size_t *")
    slices = [part for column in columns for part in lent(column)]
    raise_for(lib.wengeludo_write_plant(units if 0 <= units <= 255 else 0, len(streams), *slices, *lent(file), written))
    return bytes(ffi.buffer(file, written[0]))


def read_plant(file: bytes) -> Plant:
    """The units and streams of a plant file. Refused: 3 to 12, 18."""
    columns = [out(kind, MAX_STREAMS) for kind in ("uint8_t", "uint8_t", "uint8_t", "uint16_t", "int32_t", "uint8_t", "int32_t", "int32_t")]
    units, count = ffi.new("uint8_t *"), ffi.new("size_t *")
    slices = [part for column in columns for part in lent(column)]
    raise_for(lib.wengeludo_read_plant(*given(file), units, count, *slices))
    rows = zip(*(column[0 : count[0]] for column in columns))
    return Plant(units[0], tuple(_stream(*row) for row in rows))


def _stream(source: int, target: int, metered: int, weight: int, reading: int, ranged: int, low: int, high: int) -> Stream:
    if not metered:
        return Stream(source, target)
    return Stream(source, target, weight, reading, low, high) if ranged else Stream(source, target, weight, reading)


def _moved(call: str, file: bytes) -> bytes:
    moved, written = out("uint8_t", FILE_SIZE), ffi.new("size_t *")
    raise_for(getattr(lib, call)(*given(file), *lent(moved), written))
    return bytes(ffi.buffer(moved, written[0]))


def to_ranged(file: bytes) -> bytes:
    """The plant file with the widest range on each meter that had none. Refused: 3 to 12, 18."""
    return _moved("wengeludo_to_ranged", file)


def from_ranged(file: bytes) -> bytes:
    """The plant file with no widest range. Refused: 3 to 12, 18, 20 where a range is narrower."""
    return _moved("wengeludo_from_ranged", file)


def plant_from_transmitter(file: bytes) -> bytes:
    """The plant file that a transmitter file becomes. Refused: 3 to 12, 16, 17."""
    return _moved("wengeludo_plant_from_transmitter", file)


def transmitter_file(units: int, signals: Iterable[Signal]) -> bytes:
    """A transmitter file of its parts; struct.error or OverflowError where a number does not fit its field."""
    records = []
    for s in signals:
        if s.value is None:
            records.append(struct.pack(">BBB", 0x23, s.source, s.target))
        else:
            records.append(struct.pack(">BBBfd", 0x22 if s.held else 0x21, s.source, s.target, s.value, s.deviation))
    return struct.pack(">BB", _SITE, units) + b"".join(records) + struct.pack(">BB", _END, len(records))

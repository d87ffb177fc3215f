"""The form of a case, stated here and in crates/vectors/src/cases.rt.

A file has its cases one after the other, with no gap. A case, numbers high byte first:

    0      what is called, one of those below
    1      the filling: what each byte of the slice is before the call
    2-3    how many bytes are handed in
    4-5    how many bytes of the slice follow; those past them are the filling
    6-7    length of the slice
    8-11   the number handed in
    12     the number returned
    13     zero
    14-15  the count handed back
    16-19  the number handed back

then the bytes handed in, then those of the slice as they must be after the call. For each call:

    1 SHEET     of office 0. Handed in: its last sheet number (the others' are 0), plant file; back: `written`, its last sheet
                number, the sheet in the slice
    2 READER    handed in: plant file; back: units, how many streams, the 96 streams in a slice of 1,632 bytes
    3 WRITER    handed in: units (1), how many streams (1), 96 streams; back: `written`, the file in the slice
    4 UNHINTED  handed in: for each of 96 streams 1 where its flow is compared, else 0, then the plant file; back: the 96
                flows in a slice of 768 bytes, 8 bytes each, two's complement, 0 where not compared; where no flow is in
                range, 19 is returned and the slice is left alone
    5 LISTING   handed in: plant file; back: the text's length, the text in the slice
    6 KEPT      handed in: sheet; back: how many streams, the sheet's number, and at the front of a slice of 876 bytes the kind
                of the total, the office, the cost (8), degrees, verdict and an entry for each stream
    7 TRANSLATOR  handed in: transmitter file; back: `written`, the plant file in the slice
    8 COMPRESSION  handed in: the 33 potentials of the places as the solver holds them, 8 bytes each; back: the same after they
                were compressed where one was below the floor, in a slice of 264 bytes
    9 FORTH     handed in: plant file; back: `written`, the plant file in the ranged form in the slice
    10 HOME     handed in: plant file; back: `written`, the plant file moved home in the slice
    11 BUYING   handed in: how many prices (2), the prices (4 each), then the plant file; back: how many streams are to be
                metered, what they cost together, and their numbers at the front of the slice
    12 SURVEY   handed in: plant file; back: how many streams, the 13 counts in a slice of 26 bytes, 2 bytes each
    13 LAYOUTS  handed in: plant file; back: the text's length, the text of the survey in the slice
    14 VISITS   handed in: plant file; back: how many streams are listed, and at the front of a slice of 864 bytes or more for each
                of them, in the list's order, its number (1) and its cost (8)
    15 VISIT_TEXT  handed in: plant file; back: the text's length, the text of that list in the slice
    16 OFFICES  the sheet call of any office. Handed in: the office (1), the eight last sheet numbers (4 each), then the plant
                file; back: `written`; the last sheet numbers in the first 32 bytes of the slice, and the sheet in the part
                behind them, which is the slice that the call is lent
    17 CHARGES  handed in: how many rates (2), the rates (2 each), then the plant file; back: how many streams are charged, and at
                the front of a slice of 872 bytes the bill (8, two's complement) and for each of them 9 bytes: its number, and
                its cents (8, two's complement)
    18 CHECK    the check of a sheet. Handed in: how many numbers (2), how many bytes the sheet has (2), the numbers (8 each, two's
                complement), the sheet, then the plant file
    19 NUMBERS  handed in: for how many numbers a slice is lent (2), how many bytes the sheet has (2), the sheet, then the plant
                file; back: how many numbers. Which they are stands in no case: the program checks the sheet with them, and
                that the rest of the slice is as it was

Where a call has no number or count, 0 stands. A stream is 17 bytes: 1 where it is metered and 2 where it has a range, added;
from, to, weight (2); reading, low, high (4 each, two's complement). An entry is 9 bytes: the kind of the stream's record, its
flow (8, two's complement; 0 for W).

Calls 1, 4 and 16 also mark places. Where 19 is the number returned, the program reads the plant from the bytes handed in and tests
the set: no place above the units, only ranged streams across its edge, the lows in summing to more than the highs out. Where it
is another, no place may be marked. So no case tells a set.
"""

from typing import NamedTuple

SHEET, READER, WRITER, UNHINTED, LISTING, KEPT, TRANSLATOR, COMPRESSION, FORTH, HOME = 1, 2, 3, 4, 5, 6, 7, 8, 9, 10
BUYING = 11
SURVEY, LAYOUTS = 12, 13
VISITS, VISIT_TEXT = 14, 15
OFFICES = 16
CHECK, NUMBERS = 18, 19
LASTS = 32  # bytes of the eight last sheet numbers
CHARGES = 17
STREAMS = 96
HEAD = 20
ROOM = 2_560  # most bytes handed in, and of a slice


class Record(NamedTuple):
    call: int
    given: bytes
    slice_length: int
    answer: bytes  # the bytes of the slice, as far as they are told
    filling: int = 0xA5
    number_in: int = 0
    returned: int = 0
    count: int = 0
    number_back: int = 0


def number(value, size):
    return value.to_bytes(size, "big", signed=value < 0)


def lasts(numbers):
    return b"".join(number(value, 4) for value in numbers)


def stream(source, target, metered, weight, reading, ranged, low, high):
    ends = bytes((metered + 2 * ranged, source, target))
    return ends + number(weight, 2) + number(reading, 4) + number(low, 4) + number(high, 4)


def encoded(case):
    """The bytes of a case; the slice's end is left off as far as it is the filling."""
    if max(len(case.given), case.slice_length) > ROOM or len(case.answer) > case.slice_length:
        raise ValueError("a case is too long")
    answer = case.answer.rstrip(bytes((case.filling,)))
    return b"".join((
        bytes((case.call, case.filling)),
        *(number(value, 2) for value in (len(case.given), len(answer), case.slice_length)),
        number(case.number_in, 4),
        bytes((case.returned, 0)),
        number(case.count, 2),
        number(case.number_back, 4),
        case.given,
        answer,
    ))


def decoded(data):
    """The cases of a file, each with all bytes of its slice that are told."""
    at = 0
    while at < len(data):
        head = data[at : at + HEAD]
        call, filling, returned, zero = head[0], head[1], head[12], head[13]
        given, told, room, count = (int.from_bytes(head[k : k + 2], "big") for k in (2, 4, 6, 14))
        number_in, number_back = (int.from_bytes(head[k : k + 4], "big") for k in (8, 16))
        middle, end = at + HEAD + given, at + HEAD + given + told
        if zero or end > len(data) or told > room:
            raise ValueError("not the form of a case")
        yield Record(call, data[at + HEAD : middle], room, data[middle:end], filling, number_in, returned, count, number_back)
        at = end

# SPDX-License-Identifier: LicenseRef-Wengeludo
"""Steam and condensate balance sheets.

>>> from wengeludo_balance import Plant, Stream, balance
>>> file = Plant(1, (Stream(0, 1, 10, 100), Stream(1, 0, 10, 103))).file()
>>> print(balance(file), end="")
1 A 101
2 A 101
total 1 50 1 pass

Every call is one of the proved archive, or made of them; `Refusal` is the one exception. But `wide_solve` and `wide_rows` are a solver that
is not proved; what they give has passed the proved `check_flow`, else it is `NotCertified`. The calls keep no state and may run in several
threads.
"""

from ._version import __version__, version
from .meters import Bill, Purchase, Visit, charges, layouts_of, meters_to_buy, visits
from .plant import (
    FILE_SIZE,
    MAX_STREAMS,
    WIDEST,
    Fault,
    Plant,
    Signal,
    Stream,
    fault_at,
    from_ranged,
    plant_from_transmitter,
    read_plant,
    to_ranged,
    transmitter_file,
    write_plant,
)
from .refusal import TEXTS, Refusal
from .row_sheets import ADJUSTED, AS_READ, FAULT, GIVEN, HELD, MEASURED, WITHHELD, Rows, deviation_for, rows
from .sheet import (
    NO_SHEETS,
    OFFICES,
    SHEET_SIZE,
    Drawn,
    Kind,
    Record,
    Sheet,
    Verdict,
    balance,
    balance_plant,
    broken_rule,
    check_sheet,
    place_numbers,
    read_sheet,
)
from .wide import (
    WIDE_FLOW,
    WIDE_NUMBER,
    WIDE_READING,
    WIDE_WEIGHT,
    NotCertified,
    WideFlow,
    WidePlant,
    WideRows,
    check_flow,
    overfull,
    wide_rows,
    wide_solve,
)

__all__ = [
    "ADJUSTED", "AS_READ", "Bill", "Drawn", "FAULT", "FILE_SIZE", "Fault", "GIVEN", "HELD", "Kind", "MAX_STREAMS", "MEASURED", "NO_SHEETS",
    "NotCertified", "OFFICES", "Plant", "Purchase", "Record", "Refusal", "Rows", "SHEET_SIZE", "Sheet", "Signal", "Stream", "TEXTS",
    "Verdict", "Visit", "WIDEST", "WIDE_FLOW", "WIDE_NUMBER", "WIDE_READING", "WIDE_WEIGHT", "WITHHELD", "WideFlow", "WidePlant",
    "WideRows", "__version__", "balance", "balance_plant", "broken_rule", "charges", "check_flow", "check_sheet", "deviation_for", "fault_at", "from_ranged",
    "layouts_of", "meters_to_buy", "overfull", "place_numbers", "plant_from_transmitter", "read_plant", "read_sheet", "rows", "to_ranged",
    "transmitter_file", "version", "visits", "wide_rows", "wide_solve", "write_plant",
]

"""The sample plants: units, streams, plant files, a transmitter file, and what samples/README.md must show of them."""

import struct
from typing import NamedTuple

from reference import charges, foreign, purchases, solver, survey, transmitter, visits
from reference.parts import metered, plant_file, unmetered, within


class Sample(NamedTuple):
    name: str
    units: tuple  # names of units 1, 2, ...
    stream_names: tuple
    streams: tuple

    @property
    def file(self):
        return plant_file(len(self.units), self.streams)

    def place(self, number):
        return f"{number} {self.units[number - 1]}" if number else "0 outside"

    def table(self):
        """The streams as a table in text; with a column of ranges where there are any."""
        ranges = any(s.ranged for s in self.streams)
        lines = ["| stream | what | from | to | weight | reading |" + " range |" * ranges, "|---" * (6 + ranges) + "|"]
        for k, (name, s) in enumerate(zip(self.stream_names, self.streams), 1):
            meter = f"{s.weight} | {s.reading}" if s.weight else "not metered |"
            limits = (f" {s.low} to {s.high} |" if s.ranged else " |") * ranges
            lines.append(f"| {k} | {name} | {self.place(s.source)} | {self.place(s.target)} | {meter} |{limits}")
        return "\n".join(lines) + "\n"


LISTING = Sample(
    "listing",
    ("boiler", "header"),
    ("feedwater", "steam, first line", "steam, second line", "steam to the works"),
    (metered(0, 1, 100), unmetered(1, 2), unmetered(1, 2), metered(2, 0, 98)),
)

# The listing's plant as its transmitters send it: feedwater measured as 100.25 with deviation 10, no signal from the steam
# lines, steam to the works held at 98.5 with deviation 5.
TRANSMITTER = b"".join((
    bytes((0x01, 2)),
    struct.pack(">BBBfd", 0x21, 0, 1, 100.25, 10.0),
    bytes((0x23, 1, 2)),
    bytes((0x23, 1, 2)),
    struct.pack(">BBBfd", 0x22, 2, 0, 98.5, 5.0),
    bytes((0x04, 4)),
))

_STEAM_SITE = (
    ("make-up water", metered(0, 1, 3_254, 40)),
    ("condensate returned", metered(13, 1, 15_224, 2)),
    ("steam to the deaerator", unmetered(7, 1)),
    ("vent of the deaerator", unmetered(1, 0)),
    ("feedwater", metered(1, 2, 20_397, 2)),
    ("feedwater to boiler 1", metered(2, 3, 12_261, 4)),
    ("feedwater to boiler 2", metered(2, 4, 8_151, 4)),
    ("steam from boiler 1", metered(3, 5, 12_013, 1)),
    ("steam from boiler 2", metered(4, 5, 7_979, 1)),
    ("blowdown of boiler 1", unmetered(3, 0)),
    ("blowdown of boiler 2", metered(4, 0, 158, 40)),
    ("steam to the turbine", metered(5, 6, 14_026, 1)),
    ("exhaust of the turbine", metered(6, 7, 13_981, 1)),
    ("reducing station", unmetered(5, 7)),
    ("steam to the dryers", metered(7, 8, 9_018, 2)),
    ("steam to the dye house", metered(7, 9, 5_493, 2)),
    ("steam to the heating station", metered(7, 10, 3_712, 4)),
    ("condensate of the dryers, east line", unmetered(8, 11)),
    ("condensate of the dryers, west line", unmetered(8, 11)),
    ("steam used up in the dryers", metered(8, 0, 1_085, 1)),
    ("steam used up in the dye house", unmetered(9, 0)),
    ("condensate of the dye house", metered(9, 11, 3_795, 4)),
    ("condensate of the heating station", unmetered(10, 12)),
    ("condensate from the flash vessel", metered(12, 11, 3_490, 4)),
    ("flash steam", metered(12, 7, 203, 40)),
    ("condensate to the polisher", unmetered(11, 13)),
)

STEAM_SITE = Sample(
    "steam_site",
    (
        "deaerator", "feed pumps", "boiler 1", "boiler 2", "high-pressure header", "turbine", "low-pressure header",
        "dryers", "dye house", "heating station", "condensate tank", "flash vessel", "polisher",
    ),
    tuple(name for name, _ in _STEAM_SITE),
    tuple(stream for _, stream in _STEAM_SITE),
)

_RATED_SITE = (
    ("feedwater", within(metered(0, 1, 10_172, 4), 0, 12_000)),
    ("blowdown", within(metered(1, 0, 161, 40), 100, 400)),
    ("steam of the boiler", within(metered(1, 2, 10_041, 1), 0, 10_000)),
    ("steam to the turbine", within(metered(2, 3, 6_008, 1), 2_000, 5_970)),
    ("exhaust of the turbine", metered(3, 4, 5_984, 1)),
    ("reducing station", within(metered(2, 4, 4_019, 1), 0, 8_000)),
    ("steam to the works", unmetered(4, 0)),
    ("vent of the header", within(metered(4, 0, -12, 10), 0, 500)),
)

RATED_SITE = Sample(
    "rated_site",
    ("boiler", "high-pressure header", "turbine", "low-pressure header"),
    tuple(name for name, _ in _RATED_SITE),
    tuple(stream for _, stream in _RATED_SITE),
)

_OVERFULL_SITE = (
    ("feedwater", unmetered(0, 1)),
    ("steam of the boiler", within(metered(1, 2, 8_140, 1), 8_000, 20_000)),
    ("reducing station", unmetered(2, 3)),
    ("steam to the dryers", within(metered(3, 4, 4_960, 2), 0, 5_000)),
    ("steam to the dye house", within(metered(3, 5, 2_480, 2), 0, 2_500)),
    ("flash steam of the dryers", within(metered(4, 3, 210, 10), 150, 400)),
    ("condensate of the dryers", unmetered(4, 0)),
    ("condensate of the dye house", unmetered(5, 0)),
)

OVERFULL_SITE = Sample(
    "overfull_site",
    ("boiler", "high-pressure header", "low-pressure header", "dryers", "dye house"),
    tuple(name for name, _ in _OVERFULL_SITE),
    tuple(stream for _, stream in _OVERFULL_SITE),
)

SMALL_HEADER = Sample(
    "small_header",
    ("header",),
    ("steam of the boiler", "steam to the kitchen", "steam to the laundry"),
    (metered(0, 1, 52, 444), metered(1, 0, 30, 444), metered(1, 0, 27, 444)),
)

_BLIND_SITE = (
    ("feedwater", metered(0, 1, 3_012, 4)),
    ("steam of the boiler", unmetered(1, 2)),
    ("steam through the turbine", unmetered(2, 3)),
    ("reducing station", unmetered(2, 3)),
    ("steam to the dryers", metered(3, 4, 5_862, 2)),
    ("steam to the dye house", unmetered(3, 5)),
    ("condensate of the dryers", unmetered(4, 6)),
    ("condensate of the dye house", unmetered(5, 6)),
    ("condensate returned", unmetered(6, 1)),
    ("steam used up in the dryers", metered(4, 0, 1_244, 4)),
    ("blowdown", metered(1, 0, 148, 40)),
    ("steam used up in the dye house", metered(5, 0, 1_590, 4)),
)

BLIND_SITE = Sample(
    "blind_site",
    ("boiler", "high-pressure header", "low-pressure header", "dryers", "dye house", "condensate tank"),
    tuple(name for name, _ in _BLIND_SITE),
    tuple(stream for _, stream in _BLIND_SITE),
)

# What a meter costs on each of its unmetered streams; and the site with the meters bought, as they then read.
PRICES = (900, 1_400, 650, 650, 300, 300, 420)
READ_THEN = {4: metered(2, 3, 3_846, 2), 8: metered(5, 6, 2_411, 4)}

SIGHTED_SITE = Sample(
    "sighted_site",
    BLIND_SITE.units,
    BLIND_SITE.stream_names,
    tuple(READ_THEN.get(k, stream) for k, stream in enumerate(BLIND_SITE.streams, 1)),
)

# A site with one meter far off.
_FAR_OFF_SITE = (
    ("make-up water", metered(0, 1, 2_093, 10)),
    ("condensate returned", metered(7, 1, 8_318, 4)),
    ("feedwater to boiler 1", metered(1, 2, 6_251, 4)),
    ("feedwater to boiler 2", metered(1, 3, 4_152, 4)),
    ("blowdown of boiler 1", metered(2, 0, 63, 40)),
    ("blowdown of boiler 2", unmetered(3, 0)),
    ("steam of boiler 1", metered(2, 4, 6_188, 2)),
    ("steam of boiler 2", metered(3, 4, 4_117, 2)),
    ("steam to the mill", metered(4, 5, 6_383, 2)),
    ("steam to the dye house", metered(4, 6, 4_262, 10)),
    ("condensate of the mill", metered(5, 7, 5_611, 4)),
    ("condensate of the dye house", metered(6, 7, 2_688, 4)),
    ("steam used up in the mill", metered(5, 0, 812, 4)),
    ("steam used up in the dye house", metered(6, 0, 1_194, 4)),
)

FAR_OFF_SITE = Sample(
    "far_off_site",
    ("feed tank", "boiler 1", "boiler 2", "header", "mill", "dye house", "condensate tank"),
    tuple(name for name, _ in _FAR_OFF_SITE),
    tuple(stream for _, stream in _FAR_OFF_SITE),
)

FAR_OFF = 10  # the number of that meter's stream

_BILLED_SITE = (
    ("feedwater", metered(0, 1, 9_846, 4)),
    ("blowdown", metered(1, 0, 152, 40)),
    ("steam of the boiler", metered(1, 2, 9_730, 1)),
    ("steam to the brewery", metered(2, 0, 5_213, 2)),
    ("steam to the laundry", metered(2, 0, 3_107, 4)),
    ("line to the paper mill", metered(2, 0, -1_284, 4)),
    ("steam to the baths", unmetered(2, 0)),
)

BILLED_SITE = Sample(
    "billed_site",
    ("boiler", "header"),
    tuple(name for name, _ in _BILLED_SITE),
    tuple(stream for _, stream in _BILLED_SITE),
)

_TWIN_LINES = (
    ("feedwater", metered(0, 1, 6_120, 4)),
    ("steam of the boiler", metered(1, 2, 6_088, 1)),
    ("steam to the hospital", metered(2, 0, 4_015, 4)),
    ("steam to the school, main line", unmetered(2, 0)),
    ("steam to the school, stand-by line", unmetered(2, 0)),
)

TWIN_LINES = Sample(
    "twin_lines",
    ("boiler", "header"),
    tuple(name for name, _ in _TWIN_LINES),
    tuple(stream for _, stream in _TWIN_LINES),
)

# The rates of the streams to the outside, in ten-thousandths of a cent per kg.
BILLS = ((BILLED_SITE, (0, 8_350, 8_350, 7_120, 9_060)), (TWIN_LINES, (8_350, 8_350, 8_350)))

# A sheet of the rated site as another solver might draw it, for office 3 under number 12, and its numbers of the places, by another
# method than the engine's.
_RATED = solver.Plant(len(RATED_SITE.units), RATED_SITE.streams)
RATED_SHEET = solver.sheet_bytes(solver.balance(_RATED), 12, 3)
RATED_NUMBERS = foreign.numbers_for(_RATED, solver.cheapest_flow(_RATED))

SAMPLES = (LISTING, STEAM_SITE, RATED_SITE, OVERFULL_SITE, SMALL_HEADER, BLIND_SITE, SIGHTED_SITE)
BILLED = tuple(sample for sample, _ in BILLS)


def files():
    """The files under samples/ that follow from the plants, as (path, bytes)."""
    for sample in SAMPLES + (FAR_OFF_SITE,) + BILLED:
        yield f"samples/{sample.name}.bin", sample.file
        yield f"samples/{sample.name}.expected", solver.listing(sample.file).encode()
    for sample, rates in BILLS:
        yield f"samples/{sample.name}.charges", charges.text(sample.file, rates).encode()
    if transmitter.translate_call(TRANSMITTER, solver.FILE_LENGTH)[2] != LISTING.file:
        raise ValueError("the sample's signals are another plant's")
    yield "samples/transmitter.bin", TRANSMITTER
    yield "samples/listing.layouts", survey.text(LISTING.file).encode()
    for sample in (LISTING, FAR_OFF_SITE):
        yield f"samples/{sample.name}.visits", visits.text(sample.file).encode()
    if foreign.check_call(RATED_SITE.file, RATED_SHEET, RATED_NUMBERS) != 0:
        raise ValueError("the sample's sheet does not pass")
    yield "samples/rated_site.sheet", RATED_SHEET
    yield "samples/rated_site.numbers", "".join(f"{x}\n" for x in RATED_NUMBERS).encode()
    if purchases.buy_call(BLIND_SITE.file, PRICES, solver.STREAMS)[1] != list(READ_THEN):
        raise ValueError("other meters are to be bought")


def missing_text(root):
    """What samples/README.md should show and does not, as (path, problem)."""
    path = "samples/README.md"
    text = (root / path).read_text(encoding="utf-8") if (root / path).exists() else ""
    for sample in SAMPLES + (FAR_OFF_SITE,) + BILLED:
        bytes_shown = sample.file.hex(" ").upper()
        for what, wanted in (
            ("table", sample.table()),
            ("listing", "```\n" + solver.listing(sample.file) + "```\n"),
            ("units", ", ".join(f"{k} {name}" for k, name in enumerate(sample.units, 1))),
        ):
            if " ".join(wanted.split()) not in " ".join(text.split()):
                yield path, f"{what} of {sample.name}; wanted:\n{wanted}"
        if sample is LISTING and bytes_shown not in text:
            yield path, f"bytes of {sample.name}; wanted: {bytes_shown}"
    unread = visits.without(solver.read_plant(FAR_OFF_SITE.file), FAR_OFF - 1)
    shown = solver.listing(plant_file(*unread)).splitlines()
    for what, wanted in (
        ("visits", f"```\n{visits.text(FAR_OFF_SITE.file)}```"),
        ("sheet without that meter", f"`{shown[FAR_OFF - 1]}` and `{shown[-1]}`"),
    ):
        if wanted not in text:
            yield path, f"{what} of {FAR_OFF_SITE.name}; wanted:\n{wanted}"
    if f"meters_to_buy samples/blind_site.bin {' '.join(map(str, PRICES))}`" not in text:
        yield path, f"the prices; wanted: {PRICES}"
    for sample, rates in BILLS:
        for wanted in (f"charges_file samples/{sample.name}.bin {' '.join(map(str, rates))}`", f"```\n{charges.text(sample.file, rates)}```"):
            if wanted not in text:
                yield path, f"the charges of {sample.name}; wanted:\n{wanted}"
    if f"numbers {', '.join(map(str, RATED_NUMBERS))}" not in text:
        yield path, f"the numbers of rated_site; wanted: {RATED_NUMBERS}"
    if TRANSMITTER.hex(" ").upper() not in text:
        yield path, f"bytes of the transmitter file; wanted: {TRANSMITTER.hex(' ').upper()}"

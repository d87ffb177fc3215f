"""Plants to try whose classes and degrees were written by hand from their definitions, and plants with known flows.

What was written by hand or found by another program is held to the reference solver here, so that a wrong reference shows.
"""

from pathlib import Path

from reference.parts import Unhinted, metered, plant_file, taken, unmetered
from reference.solver import Plant, Stream, balance

# Units, degrees, and three characters for each stream: from, to (0 to 9, then a for 10 and so on to w for 32), and its class.
# Streams of class A and R are metered, those of class G and W are not.
CLASSES = (
    # -- The smallest plants.
    # No streams: each place is a group and a piece by itself.
    (1, 0, ""),
    # In metered, out unmetered: one group, so the meter is not redundant, and the stream out is given.
    (1, 0, "01R10G"),
    # In and out metered: two groups in one piece.
    (1, 1, "01A10A"),
    # An unmetered dead end: its flow is 0 in every balanced flow.
    (1, 0, "01G"),
    # Three meters round two units and the outside: three groups in one piece.
    (2, 2, "01A12A20A"),
    # None metered, in a row from the outside: given, all 0.
    (3, 0, "01G12G23G"),
    # -- Each of the three shortcuts that spoil a sheet, on plants where it goes wrong.
    # Readings 101 in, 60 and 40 out, equal weights: the real optimum rounds to 101, 60, 40, which does not balance.
    (1, 1, "01A10A10A"),
    # A group with a loop: 1, 2 and 3 are on it, the stream to 4 hangs off it and is given.
    (4, 1, "01A12W23W31W34G40A"),
    # A metered dead end: its ends are in different groups, its flow is forced to 0.
    (1, 1, "01A"),
    # A metered dead end beside a metered way through.
    (2, 2, "01A10A12A"),
    # -- Loops of unmetered streams.
    # Two units joined twice, between two meters.
    (2, 1, "01A12W12W20A"),
    # Through the outside.
    (2, 0, "01W12W20W"),
    # A chain is followed in either direction: this is a loop, though nothing can run round it along the streams.
    (3, 0, "21W23W31W"),
    # A meter across a loop.
    (3, 0, "12W23W31W13R"),
    # A loop that a meter closes is no loop of unmetered streams.
    (2, 0, "01G12G20R"),
    # Two loops with one unit in common.
    (5, 0, "12W23W31W34W45W53W"),
    # Each unit of four joined to each other.
    (4, 0, "12W13W14W23W24W34W"),
    # A loop of four listed in mixed order, the stream that closes it first.
    (4, 0, "41W12W34W23W"),
    # -- Streams that hang off loops, and meters round them.
    # Two loops joined by one stream, which is on neither.
    (6, 0, "12W23W31W34G45W56W64W"),
    # A row that hangs off a loop, with a meter at its end.
    (5, 1, "12W21W23G34G45G50A"),
    # Streams that hang off a loop on both sides, one listed before it.
    (3, 0, "01G12W21W23G"),
    # An unmetered dead end behind two meters.
    (2, 1, "01A10A12G"),
    # A meter whose ends are joined the long way round.
    (4, 1, "12G23G34G14R01A40A"),
    # A meter whose ends are joined by a chain that runs against one stream's direction.
    (3, 0, "21G23G13R"),
    # -- Parallel streams.
    # Unmetered twice, alike and opposed: loops of two.
    (1, 0, "01W01W"),
    (1, 0, "01W10W"),
    # Unmetered once, beside a meter: given, and the meter not redundant.
    (1, 0, "01R01G"),
    # Metered twice.
    (1, 1, "01A01A"),
    # Unmetered three times, and metered.
    (1, 0, "01W01W10W10R"),
    # -- Several pieces, and units without streams.
    # Units 2, 3 and 4 without streams.
    (4, 1, "01A10A"),
    # A metered piece, a loop, and unit 4 alone.
    (4, 1, "01A10A23W32W"),
    # Two metered pieces, neither with the outside.
    (4, 2, "12A21A34A43A"),
    # Two groups that one meter joins: nothing can cross.
    (4, 1, "12G34G23A"),
    # Two unmetered pieces, no meter at all.
    (4, 0, "12G34G"),
    # Units 1 to 5 each at the outside, by a meter or by none.
    (5, 5, "01A02A03A04A05A"),
    (5, 0, "01G02G03G04G05G"),
    # -- Two rows of three units with three rungs.
    # All rungs metered: two groups.
    (6, 1, "12G23G45G56G14A25A36A"),
    # One rung unmetered: one group without a loop.
    (6, 0, "12G23G45G56G14G25R36R"),
    # The outer rungs unmetered: a loop of six streams.
    (6, 0, "12W23W45W56W14W25R36W"),
    # Two neighbouring rungs unmetered: a loop of four, the rest hangs off it.
    (6, 0, "12W23G45W56G14W25W36R"),
    # -- Plants with all 32 units.
    # One stream to the last unit, metered or not.
    (32, 1, "0wA"),
    (32, 0, "0wG"),
    # There and back.
    (32, 0, "0wGw0R"),
    # All places in a row, metered: as many degrees as there can be.
    (32, 32, "01A12A23A34A45A56A67A78A89A9aAabAbcAcdAdeAefAfgAghAhiAijAjkAklAlmAmnAnoAopApqAqrArsAstAtuAuvAvwA"),
    # The same unmetered.
    (32, 0, "01G12G23G34G45G56G67G78G89G9aGabGbcGcdGdeGefGfgGghGhiGijGjkGklGlmGmnGnoGopGpqGqrGrsGstGtuGuvGvwG"),
    # The same closed to a loop.
    (32, 0, "01W12W23W34W45W56W67W78W89W9aWabWbcWcdWdeWefWfgWghWhiWijWjkWklWlmWmnWnoWopWpqWqrWrsWstWtuWuvWvwWw0W"),
)

KNOWN_FLOWS = Path(__file__).resolve().parent / "known_flows.txt"


def classes():
    for units, degrees, text in CLASSES:
        streams = []
        for k in range(0, len(text), 3):
            source, target = int(text[k], 36), int(text[k + 1], 36)
            # No class hangs on a reading; they differ so that a number tells its stream.
            streams.append(metered(source, target, 100 + k) if text[k + 2] in "AR" else unmetered(source, target))
        result = balance(Plant(units, tuple(streams)))
        assert (result.classes, result.degrees) == (text[2::3], degrees), (units, text, result)
        yield taken(units, streams)


def known_flows():
    """(units, streams, whether it is starred) of each plant of the file, its flows compared."""
    for line in KNOWN_FLOWS.read_text(encoding="utf-8").splitlines():
        if not line or line.startswith("#"):
            continue
        units, _, rest = line.removeprefix("* ").partition(":")
        streams, flows = [], []
        for words in (part.split() for part in rest.split(",") if part.strip()):
            meter = words[2:4] if len(words) == 5 else ()
            streams.append(Stream(*map(int, (*words[:2], *meter))))
            flows.append(int(words[-1]) if len(words) > 2 else None)
        result = balance(Plant(int(units), tuple(streams)))
        assert result.numbers == tuple(flows), (line, result)
        yield int(units), streams, line.startswith("*")


def flows():
    for units, streams, _ in known_flows():
        yield taken(units, streams)


def unhinted():
    for units, streams, starred in known_flows():
        if starred:
            yield Unhinted(plant_file(units, streams))

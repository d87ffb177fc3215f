"""Examples in print, with the figures that print gives for them (docs/PUBLISHED.md says where each stands).

    python3 reference/published_to_try.py    the sheets of these examples, beside the published figures
"""

from typing import NamedTuple

if not __package__:
    import by_path  # started by its path

from reference import solver
from reference.parts import metered, plant_file, ranged, taken, unmetered


class Example(NamedTuple):
    name: str
    units: int
    streams: tuple  # name, from, to; then the reading, the weight, and the value at which a range holds it, where it has these
    classes: str  # as published
    numbers: dict  # published figures, in the example's unit
    within: int = 0  # so far may a sheet's number be from them
    cost: int | None = None  # published, in thousandths
    near: int = 0  # so far may the sheet's cost be from it

    def made(self):
        def stream(source, target, reading=None, weight=10, held=None):
            if reading is None:
                return unmetered(source, target)
            return metered(source, target, reading, weight) if held is None else ranged(source, target, reading, held, held, weight)

        return [stream(*told[1:]) for told in self.streams]

    def sheet(self):
        return solver.balance(solver.Plant(self.units, tuple(self.made())))


# Source 003, equations 15: units A to F are 1 to 6. Print gives classes alone; the readings are ours.
NETWORK = (
    ("m1", 0, 1, 100), ("m2", 1, 2, 60), ("m3", 1, 2, 43), ("x1", 2, 3), ("x2", 3, 4), ("m4", 3, 4, 30), ("m5", 4, 5, 98),
    ("x3", 5, 0), ("x4", 5, 6), ("m6", 6, 0, 25),
)


# Source 001, examples 2.2 and 2.3. Print gives estimable and not; the readings are ours.
def flowsheet(*meters):
    ends = ((0, 1), (1, 2), (2, 4), (0, 4), (4, 0), (3, 0), (1, 3), (3, 2))
    readings = {1: 100, 4: 35, 7: 30, 8: 12}
    return tuple((f"f{k}", *ends[k - 1], *([readings[k]] if k in meters else [])) for k in range(1, 9))


# Source 001, examples 4.4 and 5.3, in units of 0.0001. A weight is 2,260 divided by the variance, made whole; f5 takes no part in the
# adjustment and has the greatest weight that there is. f8, whose variance is a 7,000th of the next, is held at its published value.
RECONCILED = (
    ("f1", 3, 1), ("f2", 6, 1), ("f3", 1, 5, 1_150_663, 289), ("f4", 0, 1, 1_116_730, 299), ("f5", 2, 3, 533_700, 1_000), ("f6", 2, 6),
    ("f7", 7, 2), ("f8", 2, 0, 8_373, 1_000, 8_374), ("f9", 3, 4), ("f10", 5, 4), ("f11", 4, 0, 660_986, 799), ("f12", 6, 5),
    ("f13", 5, 7, 957_552, 429), ("f14", 5, 0, 1_165_318, 267), ("f15", 0, 7, 778_575, 651),
)
RECONCILED_NUMBERS = {
    "f3": 1_150_663, "f4": 1_096_204, "f5": 533_700, "f6": 1_184_626, "f7": 1_726_700, "f8": 8_374, "f11": 668_670, "f13": 957_552,
    "f14": 1_188_308, "f15": 769_148,
}


# Source 001, example 7.3, in units of 0.1: variance 1 is weight 10. f4 reads 4 too much. (For step 2 the published corrections, 0.5 and
# 1.125 on f1 and so on, have squares that sum to 8.344.)
def serial(*left, units=3):
    """The streams of the first units, those left out unmetered."""
    whole = (("f1", 0, 1, 105), ("f2", 1, 2, 145), ("f3", 2, 1, 55), ("f4", 0, 2, 140), ("f5", 2, 3, 195), ("f6", 3, 0, 205))
    inside = [(name, a if a <= units else 0, b if b <= units else 0, r) for name, a, b, r in whole if 1 <= max(a, b) and min(a, b) <= units]
    kept = [told for told in inside if told[1] != told[2]]
    return tuple(told[:3] if told[0] in left else told for told in kept)


EXAMPLES = (
    Example("source 003, equations 15", 6, NETWORK, "AAAGGRAGGR", {}),
    Example("source 001, example 2.2", 4, flowsheet(1, 4, 7, 8), "RGGRGGRR", {}),
    Example("source 001, example 2.3", 4, flowsheet(1, 7, 8), "RGGWWGRR", {}),
    Example("source 001, examples 4.4 and 5.3", 7, RECONCILED, "WWRARGGAWWAWRAA", RECONCILED_NUMBERS, 5),
    Example("source 001, example 7.3, step 1", 1, serial(units=1), "AAA", {"f1": 100, "f2": 150, "f3": 50}, 0, 750),
    Example("source 001, example 7.3, step 2", 2, serial(units=2), "AAAAA", {}, 0, 8_344, 10),
    Example("source 001, example 7.3, f4 left out", 3, serial("f4"), "AAAGAA",
            {"f1": 100, "f2": 150, "f3": 50, "f4": 100, "f5": 200, "f6": 200}, 0, 1_250),
    Example("source 001, example 7.3, f5 left out", 3, serial("f5"), "AAAAGA", {}, 0, 5_340, 10),
    Example("source 001, example 7.3, all six", 3, serial(), "AAAAAA", {}),
)


def compared(example):
    """The example's sheet, if print and sheet agree."""
    sheet = example.sheet()
    if sheet.classes != example.classes:
        raise ValueError(f"{example.name}: {sheet.classes}, published {example.classes}")
    for told, number in zip(example.streams, sheet.numbers):
        published = example.numbers.get(told[0])
        if published is not None and abs(number - published) > example.within:
            raise ValueError(f"{example.name}: {told[0]} {number}, published {published}")
    if example.cost is not None and abs(sheet.cost - example.cost) > example.near:
        raise ValueError(f"{example.name}: cost {sheet.cost}, published {example.cost}")
    return sheet


def published():
    for example in EXAMPLES:
        compared(example)
        yield taken(example.units, example.made())


def main():
    for example in EXAMPLES:
        sheet = compared(example)
        print(f"{example.name}: cost {sheet.cost}, degrees {sheet.degrees}, {('pass', 'fail', 'none', 'close')[sheet.verdict]}, "
              f"{len(plant_file(example.units, example.made()))} bytes")
        for told, kind, number in zip(example.streams, sheet.classes, sheet.numbers):
            figure = example.numbers.get(told[0])
            print(f"  {told[0]} {kind} {'-' if number is None else number}" + (f", published {figure}" if figure is not None else ""))


if __name__ == "__main__":
    main()

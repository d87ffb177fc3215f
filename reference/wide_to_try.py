"""Cases of the check of a flow: each limit at it and beyond it, each rule broken alone, the order of the refusals, short and long slices,
flows of drawn plants with something changed.

A case is a line of whole numbers: what the call returns, units, count, then ten slices, each behind its length. `#` starts a line of words.
"""

import random

from reference import foreign, solver, wide_flows
from reference.wide_flows import Parts

FAR = 2**63 - 1
SLICES = ("source", "target", "metered", "weight", "reading", "ranged", "low", "high", "flow", "numbers")


def site(**words):
    """Two units in a row with 101 through both; behind the second an unmetered stream out, and one with a range that carries 7."""
    parts = Parts(
        2, 4, (0, 1, 2, 2), (1, 2, 0, 0), (1, 1, 0, 1), (30, 10, 0, 5), (100, 104, 0, 7), (0, 0, 0, 1), (0, 0, 0, 0), (0, 0, 0, 9),
        (101, 101, 94, 7), (0, 60, 0),
    )
    return parts._replace(**words)


def put(slice_of, k, value):
    """The slice with another element."""
    return slice_of[:k] + (value,) + slice_of[k + 1 :]


def changed(parts, name, k, value):
    return parts._replace(**{name: put(getattr(parts, name), k, value)})


def limits():
    """(words, parts): each limit at it and beyond it."""
    pinned = changed(changed(site(), "ranged", 0, 1), "low", 0, 101)
    pinned = changed(pinned, "high", 0, 101)
    free = Parts(1, 2, (0, 1), (1, 0), (0, 0), (0, 0), (0, 0), (0, 0), (0, 0), (0, 0), (0, 0), (0, 0))
    held = Parts(1, 2, (0, 1), (1, 0), (1, 1), (1, 1), (0, 0), (1, 1), (0, 0), (0, 0), (0, 0), (0, 0))
    for weight in (0, 1, 2**40, 2**40 + 1, 2**64 - 1):
        yield f"weight {weight}", changed(held, "weight", 0, weight)
    for reading in (2**40, 2**40 + 1, -(2**40), -(2**40) - 1, FAR, -FAR - 1):
        yield f"reading {reading}", changed(held, "reading", 0, reading)
    for low, high in ((0, 0), (-FAR - 1, FAR), (1, 0), (FAR, -FAR - 1), (1, FAR), (-FAR - 1, -1)):
        yield f"range {low} to {high}", changed(changed(held, "low", 0, low), "high", 0, high)
    for flow in (2**55, 2**55 + 1, -(2**55), -(2**55) - 1, FAR, -FAR - 1):
        yield f"flows {flow}", free._replace(flow=(flow, flow))
    for number in (2**61, 2**61 + 1, -(2**61), -(2**61) - 1, FAR, -FAR - 1):
        yield f"numbers {number}", free._replace(numbers=(number, number))
        yield f"numbers {number} and 0", held._replace(numbers=(number, 0))
    yield "numbers as far apart as they go", held._replace(numbers=(-(2**61), 2**61))
    for units in (0, 1, 2, 32, 33, 255):
        yield f"units {units}", site(units=units, numbers=(0, 60) + (0,) * 254)
    for count in (0, 1, 4, 5, 96, 97, 2**64 - 1):
        yield f"count {count}", site(count=count)
    yield "96 streams", spread(96)
    yield "97 streams", spread(97)
    yield "pinned", pinned


def spread(count):
    """So many streams by turns to unit 1 and back, all read right."""
    there, zeros = tuple(k % 2 for k in range(count)), (0,) * count
    return Parts(1, count, there, tuple(1 - k for k in there), (1,) * count, (3,) * count, zeros, zeros, zeros, zeros, zeros, (0, 0))


def rules():
    """(words, parts, the rules that are broken)."""
    yield "as it is", site(), []
    yield "a flow that does not balance", site(flow=(101, 101, 95, 7)), ["balance"]
    yield "numbers that are unequal at an unmetered stream", site(numbers=(0, 60, 1)), ["equal numbers"]
    yield "a flow out of its range", site(high=(0, 0, 0, 6)), ["range"]
    for number, broken in ((49, ["top"]), (50, []), (70, []), (71, ["bottom"]), (91, ["bottom", "top"])):
        yield f"a number of {number}", site(numbers=(0, number, 0)), broken
    yield "another flow of the same streams", site(flow=(102, 102, 95, 7)), ["bottom", "bottom"]
    for low, high, number in ((101, 200, 29), (0, 101, 91), (101, 101, 91), (101, 200, 91), (0, 101, 29)):
        held = Parts(1, 2, (0, 1), (1, 0), (1, 1), (30, 1), (100, 0), (1, 1), (low, 101), (high, 101), (101, 101), (0, number))
        excused = low == 101 and number < 30 or high == 101 and number > 90
        yield f"at an end of {low} to {high} with {number}", held, [] if excused else ["top" if number > 90 else "bottom"]


def orders():
    """Two faults at once, and what is told apart by it."""
    faults = {
        1: {"numbers": (0, 60)}, 6: {"units": 33}, 5: {"count": 97}, 7: ("target", 1, 3), 8: ("target", 1, 1), 9: ("weight", 1, 0),
        10: ("reading", 1, 2**41), 18: ("low", 3, 10), 26: ("flow", 2, 0),
    }  # fmt: skip
    for one in faults:
        for other in faults:
            parts = site()
            for fault in (faults[one], faults[other]):
                parts = parts._replace(**fault) if isinstance(fault, dict) else changed(parts, *fault)
            if 5 in (one, other):
                parts = parts._replace(**{name: getattr(parts, name) * 25 for name in SLICES[:9]})
            if 6 in (one, other) and 1 not in (one, other):
                parts = parts._replace(numbers=parts.numbers + (0,) * 40)
            yield f"{one} and {other}", parts


def slices():
    """Each slice one element short, and one more than is asked."""
    for name in SLICES:
        whole = getattr(site(), name)
        yield f"{name}, one short", site(**{name: whole[:-1]})
        yield f"{name}, none", site(**{name: ()})
        yield f"{name}, one more", site(**{name: whole + (255,)})


def drawn_stream(rng, units):
    source, target = rng.sample(range(units + 1), 2)
    if rng.random() < 0.2:
        return solver.Stream(source, target)
    reading = rng.choice((rng.randint(-20, 20), rng.randint(-(2**20), 2**20)))
    low, high = sorted(reading + rng.randint(-50, 50) for _ in range(2)) if rng.random() < 0.3 else (None, None)
    return solver.Stream(source, target, max(1, int(2 ** rng.uniform(0, 40))), reading, low, high)


def drawn(count=120):
    """Flows of least cost of drawn plants, as they are and with one thing changed."""
    rng = random.Random(42)
    while count:
        units = rng.randint(1, 5)
        plant = solver.Plant(units, tuple(drawn_stream(rng, units) for _ in range(rng.randint(1, 9))))
        try:
            flow = solver.cheapest_flow(plant)
        except solver.Overfull:
            continue
        parts = wide_flows.parts_of(plant, flow, foreign.numbers_for(plant, flow))
        count -= 1
        yield "a drawn plant", parts
        name = rng.choice(SLICES[3:5] + SLICES[8:] * 2)
        k = rng.randrange(len(getattr(parts, name)))
        step = rng.choice((1, 1, -1, 2**20, -(2**40)))
        value = getattr(parts, name)[k] + step
        yield f"with another element of {name}", changed(parts, name, k, max(0, value) if name == "weight" else value)


def line(parts):
    """A case as a line."""
    words = [wide_flows.check_call(parts), parts.units, parts.count]
    for slice_of in parts[2:]:
        words += [len(slice_of), *slice_of]
    return " ".join(map(str, words))


def text():
    """All cases, each behind its words; ValueError where a rule is broken that should not be, or is not that should."""
    lines = []
    for words, parts, broken in rules():
        if sorted(wide_flows.broken(parts)) != sorted(broken):
            raise ValueError(f"{words}: {list(wide_flows.broken(parts))}, not {broken}")
        lines += [f"# {words}", line(parts)]
    for words, parts in (*limits(), *orders(), *slices(), *drawn()):
        lines += [f"# {words}", line(parts)]
    return "\n".join(lines) + "\n"

"""What a desk tool in real numbers finds: the balanced flow in range of least cost, in exact fractions, beside a sheet.

    python3 reference/desk_tool.py < samples/rated_site.bin   the sheet and that flow, stream by stream
    python3 reference/desk_tool.py --hold                     the bound held on drawn plants and on the committed sheets

Unmetered streams cost nothing and have no range, so the places that they join are one group, and only metered streams
between groups are moved. From a flow in range the least cost is sought with the streams at an end of their range held
there; a stream that reaches an end on the way is held too. Then potentials of the groups are sought that show the flow to be
of least cost (Bellman and Ford); a cycle that improves is gone round as far as it pays, and all begins again from there.
Each time the cost has fallen below the least with those streams held, and there are finitely many choices of them.
"""

import pathlib
import random
import sys
import time
from fractions import Fraction
from typing import NamedTuple

if not __package__:
    import by_path  # started by its path

from reference import brute, cases, solver

DATA = pathlib.Path(__file__).parent.parent / "crates" / "vectors" / "data"


class Meter(NamedTuple):
    """A metered stream between two groups: its number in the plant, the groups, and what the file says."""

    index: int
    source: int
    target: int
    stream: solver.Stream

    def marginal(self, amount):
        return 2 * self.stream.weight * (amount - self.stream.reading)

    def moves(self, amount, sign):
        return solver.room(self.stream, amount, sign) != 0


def network(plant):
    """The group of each place, and the meters between groups."""
    groups = sorted(solver.parts_of(solver.links_of(plant, lambda s: not s.metered)), key=min)
    group = {place: k for k, places in enumerate(groups) for place in places}
    meters = [
        Meter(i, group[s.source], group[s.target], s)
        for i, s in enumerate(plant.streams)
        if s.metered and group[s.source] != group[s.target]
    ]
    return [group[place] for place in range(plant.units + 1)], meters


def solved(rows):
    """A solution of linear equations that have one; a row is its coefficients and the right side. What is free is 0."""
    size = len(rows)
    pivots = []
    for column in range(size):
        at = len(pivots)
        pivot = next((r for r in range(at, size) if rows[r][column]), None)
        if pivot is None:
            continue
        rows[at], rows[pivot] = rows[pivot], rows[at]
        for r in range(at + 1, size):
            if rows[r][column]:
                factor = rows[r][column] / rows[at][column]
                rows[r] = [x - factor * y if y else x for x, y in zip(rows[r], rows[at])]
        pivots.append(column)
    found = [Fraction(0)] * size
    for at in reversed(range(len(pivots))):
        known = sum(rows[at][c] * found[c] for c in range(pivots[at] + 1, size) if rows[at][c])
        found[pivots[at]] = (rows[at][size] - known) / rows[at][pivots[at]]
    return found


def face_minimum(count, meters, amounts, held):
    """Potentials at which the cost is least with the held meters as they are: each other amount is reading + climb / 2 weights."""
    rows = [[Fraction(0)] * (count + 1) for _ in range(count)]
    for k, m in enumerate(meters):
        for end, sign in ((m.source, -1), (m.target, 1)):
            if k in held:
                rows[end][count] -= sign * amounts[k]
            else:
                share = Fraction(sign, 2 * m.stream.weight)
                rows[end][m.target] += share
                rows[end][m.source] -= share
                rows[end][count] -= sign * m.stream.reading
    return solved(rows)


def settled(count, meters, amounts):
    """Amounts moved to the least cost with those at an end of their range held there, and its potentials."""
    held = {k for k, m in enumerate(meters) if not (m.moves(amounts[k], 1) and m.moves(amounts[k], -1))}
    while True:
        potentials = face_minimum(count, meters, amounts, held)
        aims = [
            amounts[k] if k in held else m.stream.reading + (potentials[m.target] - potentials[m.source]) / (2 * m.stream.weight)
            for k, m in enumerate(meters)
        ]
        part, stopped = Fraction(1), None
        for k, m in enumerate(meters):
            end = solver.nearest(m.stream, aims[k])
            if end != aims[k] and (end - amounts[k]) / (aims[k] - amounts[k]) < part:
                part, stopped = (end - amounts[k]) / (aims[k] - amounts[k]), k
        amounts = [x + part * (y - x) for x, y in zip(amounts, aims)]
        if stopped is None:
            return amounts, potentials
        held.add(stopped)


def better(count, meters, amounts, potentials):
    """A cycle that improves, a list of (meter, sign), or None; and potentials at which there is none."""
    arcs = []
    for k, m in enumerate(meters):
        slope = m.marginal(amounts[k])
        if m.moves(amounts[k], 1):
            arcs.append((m.source, m.target, slope, k, 1))
        if m.moves(amounts[k], -1):
            arcs.append((m.target, m.source, -slope, k, -1))
    potentials, came = list(potentials), [None] * count
    for _ in range(count + 1):
        last = None
        for source, target, length, k, sign in arcs:
            if potentials[source] + length < potentials[target]:
                potentials[target] = potentials[source] + length
                came[target] = (source, k, sign)
                last = target
        if last is None:
            return None, potentials
    for _ in range(count):
        last = came[last][0]
    cycle, at = [], last
    while True:
        source, k, sign = came[at]
        cycle.append((k, sign))
        at = source
        if at == last:
            return cycle, None


def gone_round(meters, amounts, cycle):
    """Amounts after the cycle was gone round as far as it pays and keeps in range."""
    slope = sum(sign * meters[k].marginal(amounts[k]) for k, sign in cycle)
    rooms = [solver.room(meters[k].stream, amounts[k], sign) for k, sign in cycle]
    far = min([-slope / (2 * sum(meters[k].stream.weight for k, _ in cycle)), *(r for r in rooms if r is not None)])
    amounts = list(amounts)
    for k, sign in cycle:
        amounts[k] += sign * far
    return amounts


def least_in_fractions(plant):
    """The metered amounts of least cost in fractions (None for the other streams), and potentials of the places; or Overfull."""
    group, meters = network(plant)
    count = max(group) + 1
    start = solver.flow_in_range(plant)
    amounts = [Fraction(start[m.index]) for m in meters]
    while True:
        amounts, potentials = settled(count, meters, amounts)
        cycle, potentials = better(count, meters, amounts, potentials)
        if cycle is None:
            break
        amounts = gone_round(meters, amounts, cycle)
    flow = [Fraction(solver.nearest(s, s.reading)) if s.metered else None for s in plant.streams]
    for m, x in zip(meters, amounts):
        flow[m.index] = x
    return flow, [potentials[g] for g in group]


def fault(plant, flow, potentials):
    """What is wrong with a flow and potentials that are to show it of least cost; None where nothing is. Nothing is searched."""
    over = {}
    group, _ = network(plant)
    for s, x in zip(plant.streams, flow):
        climb = potentials[s.target] - potentials[s.source]
        if not s.metered:
            if climb:
                return "prices of one group differ"
            continue
        over[group[s.source]] = over.get(group[s.source], 0) - x
        over[group[s.target]] = over.get(group[s.target], 0) + x
        slope = 2 * s.weight * (x - s.reading)
        if solver.nearest(s, x) != x:
            return "out of range"
        if climb < slope and solver.room(s, x, -1) != 0 or climb > slope and solver.room(s, x, 1) != 0:
            return "a price difference is not the marginal cost"
    return "not balanced" if any(over.values()) else None


class Beside(NamedTuple):
    """A sheet beside the flow in fractions: that flow, the sum of weight times difference squared, and Q."""

    flow: list
    apart: Fraction
    weights: int


def beside(plant, classes, numbers):
    flow, potentials = least_in_fractions(plant)
    wrong = fault(plant, flow, potentials)
    if wrong:
        raise AssertionError(f"{plant}: the flow in fractions: {wrong}")
    apart = sum(s.weight * (x - y) ** 2 for s, x, y in zip(plant.streams, numbers, flow) if s.metered)
    return Beside(flow, Fraction(apart), sum(s.weight for s, letter in zip(plant.streams, classes) if letter == "A"))


# One sheet


def printed(x):
    """A fraction as a whole number and a rest, and to three decimals."""
    whole, rest = divmod(abs(x), 1)
    exact = " ".join([str(whole)] * (whole > 0 or not rest) + [str(rest)] * (rest > 0))
    return ("-" if x < 0 else "") + exact, f"{float(x):.3f}"


def table(plant):
    """The lines of a comparison, as docs/REAL-NUMBERS.md has them."""
    balance = solver.balance(plant)
    b = beside(plant, balance.classes, balance.numbers)
    yield "| stream | class | weight | sheet | in fractions | | difference | weight × difference² | difference at most |"
    yield "|---|---|---|---|---|---|---|---|---|"
    for k, (s, letter, x, y) in enumerate(zip(plant.streams, balance.classes, balance.numbers, b.flow), 1):
        if s.metered:
            part = s.weight * (x - y) ** 2
            most = (b.weights / (4 * s.weight)) ** 0.5 if letter == "A" else 0
            shown = (k, letter, s.weight, x, *printed(y), f"{float(x - y):.3f}", f"{float(part):.3f}", f"{most:.2f}")
            yield f"| {' | '.join(map(str, shown))} |"
    yield f"sum {b.apart} = {float(b.apart):.3f}; Q = {b.weights}, Q / 4 = {b.weights / 4:g}"


# Many sheets


def decoded(case):
    """Plant, classes and numbers of a committed sheet."""
    sheet = solver.read_sheet(case.answer[: case.count])
    return solver.read_plant(case.given), sheet.classes, sheet.flows


def committed():
    for path in sorted(DATA.glob("*.bin")):
        for case in cases.decoded(path.read_bytes()):
            if case.call == cases.SHEET and case.returned == 0:
                yield decoded(case)


def drawn(count):
    rng = random.Random(11)
    for k in range(count):
        plant = (brute.small_plant, brute.ranged_plant)[k % 2](rng)
        try:
            balance = solver.balance(plant)
        except solver.Overfull:
            continue
        yield plant, balance.classes, balance.numbers


def hold(what, sheets):
    """The bound on each sheet; how many meet it, and how many have a stream at an end of its range in fractions."""
    start = time.monotonic()
    count = met = ends = 0
    for plant, classes, numbers in sheets:
        b = beside(plant, classes, numbers)
        if 4 * b.apart > b.weights:
            sys.exit(f"{plant}: {b.apart} apart, above a quarter of {b.weights}")
        count += 1
        met += 4 * b.apart == b.weights > 0
        ends += any(s.ranged and y in (s.low, s.high) for s, y in zip(plant.streams, b.flow))
    seconds = time.monotonic() - start
    print(f"{what}: {count} sheets within the bound, {met} at it, {ends} with a stream at an end of its range, {seconds:.1f} s")
    if not (met and ends):
        sys.exit(f"{what}: none at the bound, or none at an end: nothing is shown")


def main(arguments):
    if arguments == ["--hold"]:
        hold("drawn plants", drawn(20_000))
        hold("committed sheets", committed())
    elif not arguments:
        print("\n".join(table(solver.read_plant(sys.stdin.buffer.read()))))
    else:
        sys.exit(__doc__)


if __name__ == "__main__":
    main(sys.argv[1:])

"""Reference solver for steam and condensate balance sheets, in exact integers.

A balanced flow in range is found along shortest ways, and improved along cycles
of streams until no cycle improves it; the classes come from a depth-first search
over the unmetered streams.
README.md beside this file has the method.

Why that is right:

1. It ends. The objective is an integer, falls with each cycle, and is bounded below.
2. At the end no cycle of ones improves. The last search, with step 1, shows that.
3. Then no flow improves. The difference of two balanced flows falls apart into cycles of ones, none of which runs
   against it on a stream, so each keeps in range. The objective is a sum of convex functions of single streams.
   Several steps in one direction change it by at least the sum of the changes of single steps. If no single cycle
   lowers it, their sum does not.
4. Cost first. Round a cycle of ones the second part of the objective changes by less than 2^m, so it never outweighs
   a change of cost.
5. Then the tie rule. Two flows in range of least cost differ by at most 1 on each metered stream. If they differed by
   2, moving one cycle of the difference from one to the other would lower the sum of both costs, since weights are
   positive. At the first metered stream on which two such flows differ, 2^(m-k) outweighs all later terms. So the
   least objective is the flow that the tie rule takes.
6. Classes. Two balanced flows equal on the metered streams differ by a balanced flow on the unmetered streams alone.
   Such a flow can differ from 0 on a stream exactly if the stream is no bridge. Ranges play no part.
7. No flow in range. If no path leads on, every stream out of the places reached is at its high and every stream into
   them at its low, and together they have too much. So the lows in sum to more than the highs out.

    python3 reference/solver.py < samples/listing.bin
"""

import sys
from typing import NamedTuple

UNITS = 32
STREAMS = 96
WEIGHT = 1_000
READING = 4_000_000
RANGE = 2_000_000_000
FILE_LENGTH = 1_636
SHEET_LENGTH = 880
OFFICES = 8
LAST_SHEET = 4_294_967_295
MOST_COST = 18_446_744_073_709_551_615

SITE, METERED, UNMETERED, END, RANGED = 0x01, 0x02, 0x03, 0x04, 0x06
BODY = {SITE: 1, METERED: 8, UNMETERED: 2, END: 1, RANGED: 16}

KIND = {"A": 0x11, "R": 0x12, "G": 0x13, "W": 0x14}
TOTAL, PLAIN = 0x1E, 0x1F  # with the office that drew the sheet, and without
PASS, FAIL, NONE, CLOSE = 0, 1, 2, 3

# Chi-square, 95 per cent, in thousandths, degrees 1 to 32.
CRITICAL = (
    3841, 5991, 7815, 9488, 11070, 12592, 14067, 15507,
    16919, 18307, 19675, 21026, 22362, 23685, 24996, 26296,
    27587, 28869, 30144, 31410, 32671, 33924, 35172, 36415,
    37652, 38885, 40113, 41337, 42557, 43773, 44985, 46194,
)


class Stream(NamedTuple):
    """A stream; an unmetered one has weight 0 and reading 0, one without a range neither low nor high."""

    source: int
    target: int
    weight: int = 0
    reading: int = 0
    low: int | None = None
    high: int | None = None

    @property
    def metered(self):
        return self.weight > 0

    @property
    def ranged(self):
        return self.low is not None


class Plant(NamedTuple):
    units: int
    streams: tuple


class Balance(NamedTuple):
    """What a sheet shows: a class and a number (None for W) per stream, and the total."""

    classes: str
    numbers: tuple
    cost: int
    degrees: int
    verdict: int


class Refused(Exception):
    """A call refused, with its number in the refusal table."""

    def __init__(self, number):
        super().__init__(number)
        self.number = number


class Overfull(Exception):
    """No balanced flow lies within all ranges: a set of places that must take in more than it can let out."""

    def __init__(self, places):
        super().__init__(places)
        self.places = places


# Plant file


def read_plant(data):
    """The plant of a plant file, or Refused with 3 to 12 or 18."""
    place = 0

    def record(allowed, listed):
        nonlocal place
        if place >= len(data):
            raise Refused(3)
        kind = data[place]
        if kind not in allowed:
            raise Refused(4)
        if kind in (METERED, RANGED, UNMETERED) and listed == STREAMS:
            raise Refused(5)
        body = data[place + 1 : place + 1 + BODY[kind]]
        if len(body) < BODY[kind]:
            raise Refused(3)
        place += 1 + BODY[kind]
        return kind, body

    _, body = record((SITE,), 0)
    units = body[0]
    if not 1 <= units <= UNITS:
        raise Refused(6)
    streams = []
    while True:
        kind, body = record((METERED, RANGED, UNMETERED, END), len(streams))
        if kind == END:
            break
        source, target = body[0], body[1]
        if source > units or target > units:
            raise Refused(7)
        if source == target:
            raise Refused(8)
        if kind == UNMETERED:
            streams.append(Stream(source, target))
            continue
        weight = int.from_bytes(body[2:4], "big")
        reading, *ends = (int.from_bytes(body[k : k + 4], "big", signed=True) for k in range(4, len(body), 4))
        if not 1 <= weight <= WEIGHT:
            raise Refused(9)
        if not -READING <= reading <= READING:
            raise Refused(10)
        if kind == RANGED and not range_taken(*ends):
            raise Refused(18)
        streams.append(Stream(source, target, weight, reading, *ends))
    if body[0] != len(streams):
        raise Refused(11)
    if place < len(data):
        raise Refused(12)
    return Plant(units, tuple(streams))


def range_taken(low, high):
    return -RANGE <= low <= high <= RANGE


def read_call(data):
    """(returned number, units, streams) of the plant reader."""
    try:
        return 0, *read_plant(data)
    except Refused as refusal:
        return refusal.number, 0, ()


def write_call(units, count, streams, slice_length):
    """(returned number, written, file) of the plant writer, for the first `count` of the streams."""
    try:
        if slice_length < FILE_LENGTH:
            raise Refused(1)
        if not 1 <= units <= UNITS:
            raise Refused(6)
        if count > STREAMS:
            raise Refused(5)
        file = bytes((SITE, units))
        for s in streams[:count]:
            if max(s.source, s.target) > units:
                raise Refused(7)
            if s.source == s.target:
                raise Refused(8)
            if s.metered and not 1 <= s.weight <= WEIGHT:
                raise Refused(9)
            if s.metered and abs(s.reading) > READING:
                raise Refused(10)
            if s.metered and s.ranged and not range_taken(s.low, s.high):
                raise Refused(18)
            file += bytes(((RANGED if s.ranged else METERED) if s.metered else UNMETERED, s.source, s.target))
            if s.metered:
                signed = (s.reading, s.low, s.high) if s.ranged else (s.reading,)
                file += s.weight.to_bytes(2, "big") + b"".join(x.to_bytes(4, "big", signed=True) for x in signed)
    except Refused as refusal:
        return refusal.number, 0, b""
    file += bytes((END, count))
    return 0, len(file), file


# A balanced flow in range


def room(stream, amount, sign):
    """How much an amount may move in a direction and keep in range; None where nothing stops it."""
    if not stream.ranged:
        return None
    return stream.high - amount if sign > 0 else amount - stream.low


def nearest(stream, amount):
    """The nearest value in range."""
    return max(stream.low, min(stream.high, amount)) if stream.ranged else amount


def flow_in_range(plant):
    """A balanced flow in range, or Overfull.

    Amounts start as near to 0 as their ranges let them. What a place then has too
    much goes along shortest ways that keep in range to places that have too little
    (Edmonds and Karp). Where no way is left, no stream out of the places reached can
    carry more, and none into them less: they must take in more than they can let out.
    """
    streams = plant.streams
    flow = [nearest(s, 0) for s in streams]
    over = [0] * (plant.units + 1)
    for s, x in zip(streams, flow):
        over[s.source] -= x
        over[s.target] += x
    links = links_of(plant, lambda s: True)
    for start in range(plant.units + 1):
        while over[start] > 0:
            end, came = way_in_range(streams, flow, links, over, start)
            if end is None:
                raise Overfull(frozenset(came))
            way = []
            at = end
            while at != start:
                at, i, sign = came[at]
                way.append((i, sign))
            rooms = [room(streams[i], flow[i], sign) for i, sign in way]
            amount = min(over[start], -over[end], *(r for r in rooms if r is not None))
            for i, sign in way:
                flow[i] += sign * amount
            over[start] -= amount
            over[end] += amount
    return flow


def way_in_range(streams, flow, links, over, start):
    """The first place found that has too little, or None; and for each place reached the hop to it, (from, stream, sign)."""
    came = {start: None}
    todo = [start]
    for at in todo:
        if over[at] < 0:
            return at, came
        for other, i in links[at]:
            sign = 1 if streams[i].source == at else -1
            if other not in came and room(streams[i], flow[i], sign) != 0:
                came[other] = (at, i, sign)
                todo.append(other)
    return None, came


# The cheapest balanced flow in range


def cost_of(streams, flow):
    return sum(s.weight * (x - s.reading) ** 2 for s, x in zip(streams, flow))


def cheapest_flow(plant):
    """A balanced flow in range, least by cost, then by the first metered stream, the second, and so on; or Overfull.

    One objective says both: with m metered streams, 2^m times the cost plus
    2^(m-k) times the flow of the k-th metered stream. Only the metered amounts
    of the answer are unique.
    """
    streams = plant.streams
    metered = [i for i, s in enumerate(streams) if s.metered]
    square = [0] * len(streams)
    slope = [0] * len(streams)
    for k, i in enumerate(metered, 1):
        square[i] = streams[i].weight << len(metered)
        slope[i] = 1 << (len(metered) - k)

    step = 1 << max((abs(x) for s in streams for x in (s.reading, s.low or 0, s.high or 0)), default=0).bit_length()
    return improved(plant, flow_in_range(plant), square, slope, step)


def improved(plant, flow, square, slope, step):
    """A balanced flow in range, improved along cycles until no cycle of ones improves it; the steps begin with this one."""
    flow = list(flow)
    while step:
        while cycles := improving_cycles(plant, flow, square, slope, step):
            for cycle in cycles:
                improve(plant.streams, flow, square, slope, step, cycle)
        step //= 2
    return flow


def improving_cycles(plant, flow, square, slope, step):
    """Cycles, no two with a place in common, along which a step keeps in range and lowers the objective.

    Empty only if there is no such cycle. A cycle is a list of (stream, sign).
    Least lengths of walks, by passes over all hops; a pass that would have to
    go on for ever closes a cycle among the last hops of the walks.
    """
    # The cheapest hop from place to place, along a stream or against it.
    hops = {}
    for i, s in enumerate(plant.streams):
        ahead = 2 * square[i] * (flow[i] - s.reading) + slope[i]
        bend = square[i] * step
        for ends, sign, change in (
            ((s.source, s.target), 1, bend + ahead),
            ((s.target, s.source), -1, bend - ahead),
        ):
            free = room(s, flow[i], sign)
            if free is not None and free < step:
                continue
            if ends not in hops or change < hops[ends][0]:
                hops[ends] = (change, i, sign)
    table = [(a, b, change, i, sign) for (a, b), (change, i, sign) in hops.items()]

    length = [0] * (plant.units + 1)
    came = [None] * (plant.units + 1)
    changed = True
    while changed:
        changed = False
        for a, b, change, i, sign in table:
            if length[a] + change < length[b]:
                length[b] = length[a] + change
                came[b] = (a, i, sign)
                changed = True
        if changed and (cycles := closed_hops(came)):
            return cycles
    return []


def closed_hops(came):
    """The cycles among the last hops, came[b] = (a, stream, sign) being the hop from a to b."""
    cycles = []
    seen = [None] * len(came)
    for first in range(len(came)):
        place = first
        while seen[place] is None and came[place] is not None:
            seen[place] = first
            place = came[place][0]
        if seen[place] != first or came[place] is None:
            continue
        cycle, at = [], place
        while True:
            at, i, sign = came[at]
            cycle.append((i, sign))
            if at == place:
                break
        cycles.append(cycle)
    return cycles


def improve(streams, flow, square, slope, step, cycle):
    """Go along the cycle by the multiple of the step, in range, that lowers the objective most."""
    bend = step * sum(square[i] for i, _ in cycle)
    ahead = sum(sign * (2 * square[i] * (flow[i] - streams[i].reading) + slope[i]) for i, sign in cycle)
    rooms = [room(streams[i], flow[i], sign) for i, sign in cycle]
    times = [(bend - ahead) // (2 * bend)] + [free // step for free in rooms if free is not None]
    amount = step * min(times)
    for i, sign in cycle:
        flow[i] += sign * amount


# Classes and degrees


def links_of(plant, chosen):
    """For each place the (neighbour, stream) pairs over the chosen streams, in either direction."""
    links = [[] for _ in range(plant.units + 1)]
    for i, s in enumerate(plant.streams):
        if chosen(s):
            links[s.source].append((s.target, i))
            links[s.target].append((s.source, i))
    return links


def reached(links, place, without=None):
    """The places that a chain of links joins to the place, the stream `without` left out."""
    found, todo = {place}, [place]
    while todo:
        for other, i in links[todo.pop()]:
            if i != without and other not in found:
                found.add(other)
                todo.append(other)
    return found


def parts_of(links):
    """The sets of places joined by links, each as a frozen set."""
    return {frozenset(reached(links, place)) for place in range(len(links))}


def bridges_of(links):
    """The streams on no cycle of links: Tarjan's bridges, by one depth-first search."""
    order = [None] * len(links)
    low = [None] * len(links)
    bridges = set()
    count = 0

    def visit(place, arrived_by):
        nonlocal count
        order[place] = low[place] = count
        count += 1
        for other, i in links[place]:
            if i == arrived_by:
                continue
            if order[other] is None:
                visit(other, i)
                low[place] = min(low[place], low[other])
                if low[other] > order[place]:
                    bridges.add(i)
            else:
                low[place] = min(low[place], order[other])

    for place in range(len(links)):
        if order[place] is None:
            visit(place, None)
    return bridges


def given_number(plant, flow, links, i):
    """The flow that the metered streams force on the bridge i: what leaves the places beyond it."""
    beyond = reached(links, plant.streams[i].target, without=i)
    return sum(
        x * ((s.source in beyond) - (s.target in beyond))
        for s, x in zip(plant.streams, flow)
        if s.metered
    )


def balance(plant):
    """The balance of a plant, or Overfull."""
    return balance_by(plant, cheapest_flow(plant))


def balance_by(plant, flow):
    """What a sheet shows of a flow."""
    unmetered = links_of(plant, lambda s: not s.metered)
    groups = parts_of(unmetered)
    pieces = parts_of(links_of(plant, lambda s: True))
    bridges = bridges_of(unmetered)
    group_of = {place: group for group in groups for place in group}

    classes, numbers = "", []
    for i, s in enumerate(plant.streams):
        if s.metered:
            classes += "R" if group_of[s.source] == group_of[s.target] else "A"
            numbers.append(flow[i])
        elif i in bridges:
            classes += "G"
            numbers.append(given_number(plant, flow, unmetered, i))
        else:
            classes += "W"
            numbers.append(None)

    cost = cost_of(plant.streams, flow)
    degrees = len(groups) - len(pieces)
    adjusted = sum(s.weight for s, letter in zip(plant.streams, classes) if letter == "A")
    return Balance(classes, tuple(numbers), cost, degrees, verdict_of(degrees, cost, adjusted))


def verdict_of(degrees, cost, adjusted):
    """By the degrees, the cost and the summed weights of the A streams."""
    if degrees == 0:
        return NONE
    value = CRITICAL[degrees - 1]
    if cost <= value:
        return PASS
    return CLOSE if 4 * cost <= 4 * value + adjusted else FAIL


# Sheet


def sheet_bytes(result, number, office=0):
    sheet = b""
    for letter, amount in zip(result.classes, result.numbers):
        sheet += bytes([KIND[letter]])
        if letter != "W":
            sheet += amount.to_bytes(8, "big", signed=True)
    sheet += bytes([TOTAL, office]) + number.to_bytes(4, "big") + min(result.cost, MOST_COST).to_bytes(8, "big")
    return sheet + bytes([result.degrees, result.verdict])


def offices_from(last):
    """The last sheet numbers of the offices, where there was one number before."""
    return (last,) + (0,) * (OFFICES - 1)


def sheet_call(data, office, lasts, slice_length):
    """(returned number, written, last sheet numbers after, sheet bytes) of one call by an office."""
    try:
        if slice_length < SHEET_LENGTH:
            raise Refused(1)
        if office >= OFFICES:
            raise Refused(22)
        if lasts[office] == LAST_SHEET:
            raise Refused(2)
        result = balance(read_plant(data))
    except Refused as refusal:
        return refusal.number, 0, lasts, b""
    except Overfull:
        return 19, 0, lasts, b""
    number = lasts[office] + 1
    sheet = sheet_bytes(result, number, office)
    return 0, len(sheet), lasts[:office] + (number,) + lasts[office + 1 :], sheet


# Kept sheets


class Kept(NamedTuple):
    """A kept sheet: a class and a flow (0 for W) per stream, and the total."""

    classes: str = ""
    flows: tuple = ()
    kind: int = 0
    office: int = 0
    number: int = 0
    cost: int = 0
    degrees: int = 0
    verdict: int = 0


def read_sheet(data):
    """What a kept sheet shows, or Refused with 13 to 15."""
    letters = {kind: letter for letter, kind in KIND.items()}
    classes, flows, place = "", [], 0
    while data[place : place + 1] not in (bytes((TOTAL,)), bytes((PLAIN,))):
        letter = letters.get(data[place]) if place < len(data) else None
        end = place + (1 if letter == "W" else 9)
        if letter is None or len(flows) == STREAMS or end > len(data):
            raise Refused(13)
        classes += letter
        flows.append(int.from_bytes(data[place + 1 : end], "big", signed=True))
        place = end
    kind = data[place]
    shown = 1 if kind == TOTAL else 0  # the office, which a plain total does not show
    total = data[place + 1 + shown :]
    if len(total) < 14:
        raise Refused(13)
    office = data[place + 1] if shown else 0
    number, cost = int.from_bytes(total[:4], "big"), int.from_bytes(total[4:12], "big")
    degrees, verdict = total[12:14]
    if office >= OFFICES or number == 0 or degrees > UNITS or verdict not in ((NONE,) if degrees == 0 else (PASS, FAIL, CLOSE)):
        raise Refused(14)
    if len(total) > 14:
        raise Refused(15)
    return Kept(classes, tuple(flows), kind, office, number, cost, degrees, verdict)


def reopen_call(data):
    """(returned number, what is handed over) of the sheet reader."""
    try:
        return 0, read_sheet(data)
    except Refused as refusal:
        return refusal.number, Kept()


def listing(data):
    """What the program `balance` prints for this input."""
    try:
        result = balance(read_plant(data[: FILE_LENGTH + 1]))
    except Refused as refusal:
        return f"refused {refusal.number}\n"
    except Overfull:
        return "refused 19\n"
    lines = [
        f"{i} {letter} {'-' if amount is None else amount}"
        for i, (letter, amount) in enumerate(zip(result.classes, result.numbers), 1)
    ]
    word = ("pass", "fail", "none", "close")[result.verdict]
    lines.append(f"total 1 {min(result.cost, MOST_COST)} {result.degrees} {word}")
    return "\n".join(lines) + "\n"


if __name__ == "__main__":
    sys.stdout.write(listing(sys.stdin.buffer.read(FILE_LENGTH + 1)))

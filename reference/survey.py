"""The survey of meter layouts, by brute force over all sets of streams.

With the streams of a set metered, nothing is withheld exactly if no balanced flow other than 0 runs on the others alone: if the
columns of the incidence matrix that belong to them, the units' rows, are independent. The matrix is totally unimodular, so its
rank is the same over the field of two elements: a column is a set of bits, and elimination is exclusive or.
"""

from reference import solver

MOST = 12  # streams of a plant that is surveyed
SIZE = MOST + 1
TEXT_LENGTH = 117  # a slice of so many bytes holds every survey's text


def independent(columns):
    kept = []
    for column in columns:
        for other in kept:
            column = min(column, column ^ other)
        if column == 0:
            return False
        kept = sorted(kept + [column], reverse=True)
    return True


def counts_of(ends):
    """For each k from 0 to the number of streams, how many sets of k streams leave none withheld when they are metered."""
    counts = [0] * (len(ends) + 1)
    for chosen in range(2 ** len(ends)):
        left = [(1 << a ^ 1 << b) & ~1 for k, (a, b) in enumerate(ends) if not chosen >> k & 1]
        if independent(left):
            counts[chosen.bit_count()] += 1
    return counts


def layouts_call(data):
    """The number returned, how many streams, the counts."""
    try:
        plant = solver.read_plant(data)
    except solver.Refused as refused:
        return refused.number, 0, []
    if len(plant.streams) > MOST:
        return 23, 0, []
    return 0, len(plant.streams), counts_of([(s.source, s.target) for s in plant.streams])


def text(data):
    number, _, counts = layouts_call(data)
    if number:
        return f"refused {number}\n"
    return "".join(f"{k} {count}\n" for k, count in enumerate(counts))

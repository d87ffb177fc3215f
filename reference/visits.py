"""Meters worth a visit: for every A stream the least cost with that stream, and its range, made unmetered.

A flow of the whole plant is one of the plant with a meter less too. From there it is improved along cycles, by cost alone, until no
cycle of ones improves it (README.md says why it then costs the least). No tie is sought.

    python3 reference/visits.py < samples/listing.bin
"""

import sys

if not __package__:
    import by_path  # started by its path

from reference import solver
from reference.solver import FILE_LENGTH, MOST_COST, Stream

ENTRY = 9  # bytes of a listed stream in a case: its number, then its cost
TEXT_LENGTH = 2_400  # a slice of so many bytes holds the text of every list


def without(plant, k):
    """The plant with stream k, counted from 0, unmetered: its weight, reading and range are gone, the stream stays."""
    bare = Stream(plant.streams[k].source, plant.streams[k].target)
    return plant._replace(streams=plant.streams[:k] + (bare,) + plant.streams[k + 1 :])


def least_cost(plant, flow, step):
    """The least cost of a plant, from a balanced flow in range on; the steps begin with this one."""
    weights = [s.weight for s in plant.streams]
    return solver.cost_of(plant.streams, solver.improved(plant, flow, weights, [0] * len(weights), step))


def least_costs(plant):
    """(stream, least cost without it) of each A stream, in stream order, no cost capped; or Overfull."""
    flow = solver.cheapest_flow(plant)
    for k, letter in enumerate(solver.balance(plant).classes):
        if letter == "A":
            step = 1 << abs(flow[k] - plant.streams[k].reading).bit_length()
            yield k + 1, least_cost(without(plant, k), flow, step)


def visits_of(plant):
    """(stream, cost) of each A stream, costs capped, by cost, equals by number; or Overfull."""
    capped = [(stream, min(cost, MOST_COST)) for stream, cost in least_costs(plant)]
    return sorted(capped, key=lambda entry: (entry[1], entry[0]))


def visits_call(data):
    """The number returned, and the list."""
    try:
        return 0, visits_of(solver.read_plant(data))
    except solver.Refused as refused:
        return refused.number, []
    except solver.Overfull:
        return 19, []


def text(data):
    """What the program `visits` prints for this input."""
    number, listed = visits_call(data)
    if number:
        return f"refused {number}\n"
    return "".join(f"{stream} {cost}\n" for stream, cost in listed)


if __name__ == "__main__":
    sys.stdout.write(text(sys.stdin.buffer.read(FILE_LENGTH + 1)))

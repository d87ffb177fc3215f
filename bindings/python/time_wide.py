#!/usr/bin/env python3
# SPDX-License-Identifier: LicenseRef-Wengeludo
"""Times the solver of the tool with its check, row after row of one plant: microseconds a row, processor time, the best of five runs.

    python3 bindings/python/time_wide.py [ROWS]      in the environment in which the binding is installed; ROWS is 2,000 at first

Each plant is drawn once: a flow in balance over 1,500 to 1, meters of 1 to 3 per cent, one stream in twelve unmetered; each row reads every
meter anew. Ranged: half the meters have a range of 1 per cent about what flows. Status 1 where a limit of the table is passed.
"""

from __future__ import annotations

import random
import sys
import time
from array import array

from wengeludo_balance import Stream, WidePlant, wide_rows

TOP = 2**40
LIMITS = {(26, False): 5, (26, True): 15, (96, False): 50, (96, True): 150}


def drawn_flow(rng: random.Random, units: int, streams: int) -> tuple:
    """Ends of streams through all units, and a flow in balance: rings of several sizes through the outside."""
    ends = [(k, (k + 1) % (units + 1)) for k in range(units + 1)]
    ends += [tuple(rng.sample(range(units + 1), 2)) for _ in range(streams - len(ends))]
    flow = [0] * streams
    for k, (source, target) in enumerate(ends):
        carried = int(10 ** rng.uniform(3, 6.2))
        flow[k] += carried
        place = target
        while place != source:  # home along the first ring
            flow[place] += carried
            place = (place + 1) % (units + 1)
    return ends, flow


def drawn_plant(rng: random.Random, streams: int, ranged: bool) -> tuple:
    """A plant, the deviation of each meter, and what flows."""
    units = {26: 9, 96: 32}[streams]
    ends, flow = drawn_flow(rng, units, streams)
    deviations = [max(1, x * rng.choice((10, 15, 20, 30)) // 1_000) for x in flow]
    least = min(deviations)
    kept = []
    for (source, target), x, deviation in zip(ends, flow, deviations):
        low, high = (x - x // 100, x + x // 100) if ranged and rng.random() < 0.5 else (None, None)
        weight = max(1, TOP * least * least // (deviation * deviation))
        kept.append(Stream(source, target) if rng.random() < 1 / 12 else Stream(source, target, weight, x, low, high))
    return WidePlant(units, tuple(kept)), deviations, flow


def timed(streams: int, ranged: bool, rows: int) -> float:
    """Microseconds a row."""
    rng = random.Random(7)
    plant, deviations, flow = drawn_plant(rng, streams, ranged)
    weights = array("Q", [s.weight or 0 for s in plant.streams] * rows)
    readings = array("q", [round(x + rng.gauss(0, d)) for _ in range(rows) for x, d in zip(flow, deviations)])
    best = float("inf")
    for _ in range(5):
        before = time.process_time()
        answers = wide_rows(plant, weights, readings).answers
        best = min(best, time.process_time() - before)
        if any(answers):
            sys.exit(f"time_wide: of {rows} rows {rows - answers.count(0)} were not passed by the check")
    return best / rows * 1e6


def main() -> None:
    rows, slow = int(sys.argv[1]) if len(sys.argv) > 1 else 2_000, False
    for (streams, ranged), limit in LIMITS.items():
        took = timed(streams, ranged, rows)
        slow |= took > limit
        print(f"{streams} streams{', ranged' if ranged else ''}: {took:.1f} us a row, solved and checked (limit {limit})")
    sys.exit(1 if slow else 0)


if __name__ == "__main__":
    main()

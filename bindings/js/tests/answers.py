# SPDX-License-Identifier: LicenseRef-Wengeludo
"""Drawn plants with the reference solver's answers, one JSON value a line, for differential.test.mjs: python3 answers.py HOW_MANY SEED."""

import json
import os
import random
import struct
import sys

ROOT = os.path.abspath(os.path.join(os.path.dirname(__file__), "..", "..", ".."))
sys.path.insert(0, ROOT)

from reference import charges, foreign, moves, purchases, solver, survey, visits  # noqa: E402


def stream(rng, units):
    """A record of a stream, its ends with it."""
    source, target = rng.sample(range(units + 1), 2)
    if rng.random() < 0.4:
        return bytes((3, source, target)), target, True
    reading = rng.choice((rng.randint(-50, 200), rng.randint(-4_000_000, 4_000_000)))
    weight, middle = rng.choice((1, 10, 444, rng.randint(1, 1_000))), rng.choice((reading, rng.randint(-50, 200)))
    if rng.random() < 0.5:
        return bytes((2, source, target)) + struct.pack(">Hi", weight, reading), target, False
    low, high = middle - rng.randint(0, 90), middle + rng.randint(0, 90)
    return bytes((6, source, target)) + struct.pack(">Hiii", weight, reading, low, high), target, False


def damaged(rng, file):
    """The file, or one time in five a damaged one."""
    what, at = rng.random(), rng.randrange(len(file))
    return file[:at] if what < 0.1 else file[:at] + bytes((rng.randrange(256),)) + file[at + 1 :] if what < 0.2 else file


def answers(rng):
    """A file and what every call tells of it."""
    units = rng.randint(1, 7)
    streams = [stream(rng, units) for _ in range(rng.randint(0, 12))]
    file = damaged(rng, bytes((1, units)) + b"".join(record for record, _, _ in streams) + bytes((4, len(streams))))
    lasts, office = tuple(rng.choice((0, 7, 2**32 - 1, rng.randrange(2**32))) for _ in range(8)), rng.randrange(9)
    prices = [rng.choice((1, 5, rng.randint(1, 1_000_000))) for _, _, bare in streams if bare] + [1] * (rng.random() < 0.2)
    rates = [rng.choice((0, 10_000, rng.randint(0, 10_000))) for _, target, _ in streams if target == 0] + [1] * (rng.random() < 0.2)
    number, _, after, sheet = solver.sheet_call(file, office, lasts, 880)
    return {
        "file": file.hex(), "office": office, "lasts": lasts, "prices": prices, "rates": rates,
        "sheet": [number, sheet.hex(), list(after)] if not number else [number],
        "moves": [[n, moved.hex() if not n else None] for n, _, moved in (moves.move_call(file, 1636, m) for m in (moves.widened, moves.bared))],
        "buying": purchases.buy_call(file, prices, 96), "layouts": survey.layouts_call(file), "visits": visits.visits_call(file),
        "charges": charges.charge_call(file, rates, 96), "numbers": foreign.numbers_call(file, 33)[0],
    }


def main():
    rng = random.Random(int(sys.argv[2]))
    for _ in range(int(sys.argv[1])):
        print(json.dumps(answers(rng), default=list))


main()

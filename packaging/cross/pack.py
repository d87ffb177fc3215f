#!/usr/bin/env python3
# SPDX-License-Identifier: LicenseRef-Wengeludo
"""Files for the driver: all samples, then plants as they are drawn, damaged ones, transmitter files and noise, 2,000 in all.

    python3 packaging/cross/pack.py OUT [HOW_MANY]   each file behind its length in four bytes; the same files in every run
"""
import glob
import os
import random
import struct
import sys

ROOT = os.path.abspath(os.path.join(os.path.dirname(__file__), '..', '..'))
FLOATS = [float('inf'), float('nan'), 4000000.5, 4000000.75, -4000000.5, 1e30]
DEVIATIONS = [float('nan'), 0.0, -1.0, float('inf'), 1e-320, 31.63, 0.99, 1e300, 1e-200]


def ends(rnd, units):
    """Two different places."""
    start = rnd.randrange(units + 1)
    return start, (start + rnd.randrange(1, units + 1)) % (units + 1)


def joined(rnd, units, count):
    """The ends of streams; if there are enough of them, the first ones join every unit to one before it."""
    streams = [ends(rnd, units) for _ in range(count)]
    if count > units and rnd.random() < 0.85:
        for unit in range(1, units + 1):
            pair = (rnd.randrange(unit), unit)
            streams[unit - 1] = pair if rnd.random() < 0.5 else pair[::-1]
    return streams


def balanced(rnd, units, streams, scale):
    """A flow that balances if the first streams join the units, drawn for the others; else any flow."""
    flow = [rnd.randrange(-scale, scale + 1) for _ in streams]
    surplus = [0] * (units + 1)
    for k, (start, end) in list(enumerate(streams))[units:]:
        surplus[end] += flow[k]
        surplus[start] -= flow[k]
    for unit in range(min(units, len(streams)), 0, -1):
        start, end = streams[unit - 1]
        flow[unit - 1] = surplus[unit] if start == unit else -surplus[unit]
        surplus[end if start == unit else start] += flow[unit - 1] if start == unit else -flow[unit - 1]
    return flow


def metered(rnd, stream, flow, noise, ranged):
    """A metered stream near its flow, some with a range about it."""
    weight = rnd.choice([1, 2, 3, 5, 10, 50, 100, 999, 1000, rnd.randrange(1, 1001)])
    reading = max(-4000000, min(4000000, flow + round(rnd.gauss(0, noise))))
    if rnd.random() >= ranged:
        return bytes([2, *stream]) + struct.pack('>Hi', weight, reading)
    width = rnd.choice([0, 1, 3, 10, 100, 1000, 10 ** 6])
    low, high = max(-2 * 10 ** 9, flow - rnd.randrange(width + 1)), min(2 * 10 ** 9, flow + rnd.randrange(width + 1))
    if rnd.random() < 0.02:
        low = high = flow + rnd.choice([-2, 2])
    return bytes([6, *stream]) + struct.pack('>Hiii', weight, reading, low, high)


def plant(rnd):
    """A plant file."""
    units = rnd.choice([1, 2, 3, 5, 8, 12, 20, 32, rnd.randrange(1, 33)])
    streams = joined(rnd, units, rnd.choice([0, 1, 2, 4, 8, 12, 15, 36, 96, rnd.randrange(97)]))
    flow = balanced(rnd, units, streams, rnd.choice([10, 100, 10000, 100000]))
    share, ranged, noise = rnd.choice([0.2, 0.5, 0.7, 0.9, 1]), rnd.choice([0, 0, 0.2, 0.7, 1]), rnd.choice([1, 10, 100, 5000])
    records = [metered(rnd, stream, flow[k], noise, ranged) if rnd.random() < share else bytes([3, *stream]) for k, stream in enumerate(streams)]
    return bytes([1, units]) + b''.join(records) + bytes([4, len(streams)])


def damaged(rnd):
    """A plant file of which some bytes are others, missing or too many."""
    file = bytearray(plant(rnd))
    for _ in range(rnd.choice([1, 1, 2, 5])):
        at, what = rnd.randrange(len(file) + 1), rnd.randrange(4)
        if what == 0:
            file[at:at + 1] = rnd.randbytes(1)
        elif what == 1:
            del file[at:]
        elif what == 2:
            file.insert(at, rnd.randrange(256))
        elif at < len(file):
            file[at] ^= 1 << rnd.randrange(8)
    return bytes(file)


def transmitted(rnd, units):
    """A stream of a transmitter file; a few have a value or a deviation that is none."""
    if rnd.random() < 0.1:
        return bytes([0x23, *ends(rnd, units)])
    value = rnd.choice([rnd.uniform(-5000, 5000), rnd.uniform(-4e6, 4e6), rnd.randrange(-100, 100) + 0.5, rnd.gauss(0, 1e-3), 0.0, -0.0])
    deviation = rnd.choice([rnd.uniform(1, 31.6), 1.0, 31.622776601683793, 10.0, rnd.uniform(1, 5)])
    value = rnd.choice(FLOATS) if rnd.random() < 0.004 else value
    deviation = rnd.choice(DEVIATIONS) if rnd.random() < 0.004 else deviation
    return bytes([rnd.choice([0x21, 0x22]), *ends(rnd, units)]) + struct.pack('>fd', value, deviation)


def transmitter(rnd):
    """A transmitter file."""
    units, count = rnd.randrange(1, 33), rnd.randrange(97)
    return bytes([1, units]) + b''.join(transmitted(rnd, units) for _ in range(count)) + bytes([4, count])


def main(words):
    if len(words) not in (1, 2):
        sys.exit(__doc__)
    many, rnd = int(words[1]) if words[1:] else 2000, random.Random(20261117)
    makers = [plant] * 11 + [damaged] * 5 + [transmitter] * 4
    files = [makers[k % len(makers)](rnd) for k in range(many)]
    for path in sorted(glob.glob(os.path.join(ROOT, 'samples', '*.bin')), reverse=True):
        with open(path, 'rb') as file:
            files.insert(0, file.read())
    files += [rnd.randbytes(rnd.randrange(60)) for _ in range(many // 20)]
    with open(words[0], 'wb') as out:
        out.write(b''.join(struct.pack('>I', len(file)) + file for file in files))
    print(f'{len(files):,} files')


if __name__ == '__main__':
    main(sys.argv[1:])

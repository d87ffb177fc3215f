#!/usr/bin/env python3
# SPDX-License-Identifier: LicenseRef-Wengeludo
"""Files with one fault each, for test.c: sound files with every byte in turn made every other, cut at every length, and too long.

    python3 bindings/c/faults.py OUT   each file behind its length in four bytes
"""
import struct
import sys

PLANT = bytes.fromhex('0103' '020001000A00000064' '030102' '060203000A00000064000000000000012C' '020300000A00000064' '0404')
SENT = bytes((1, 2)) + b'\x21\x00\x01' + struct.pack('>fd', 100.25, 10.0) + b'\x23\x01\x02' + b'\x22\x02\x00' + struct.pack('>fd', 98.5, 5.0) + b'\x04\x03'


def many(record, count):
    """A file of one unit with so many streams."""
    return bytes((1, 1)) + record * count + bytes((4, count % 256))


def edges():
    """Numbers at their limits and one beyond, in plant files and in transmitter files."""
    for reading in (4000000, 4000001, -4000000, -4000001):
        yield many(b'\x02\x00\x01' + struct.pack('>Hi', 1, reading), 1)
    for low, high in ((-2000000000, 2000000000), (-2000000001, 0), (0, 2000000001), (5, 4), (7, 7)):
        yield many(b'\x06\x00\x01' + struct.pack('>Hiii', 1, 0, low, high), 1)
    for value in (4000000.5, 4000000.75, -4000000.5, -4000000.75, -0.0, float('inf'), float('nan'), 3e38):
        yield many(b'\x21\x00\x01' + struct.pack('>fd', value, 10.0), 1)
    for deviation in (1.0, 0.9999, 0.99950037468777, 31.622776601683793, 31.63, 0.0, -0.0, -1.0, float('inf'), float('nan'), 1e-320, 1e-200, 1e200):
        yield many(b'\x22\x00\x01' + struct.pack('>fd', 1.0, deviation), 1)


def files():
    for sound in (PLANT, SENT):
        yield from (sound[:at] + bytes((value,)) + sound[at + 1:] for at in range(len(sound)) for value in range(256))
        yield from (sound[:length] for length in range(len(sound)))
        yield from (sound + bytes(more) for more in (0, 1, 2, 900))
    for record in (b'\x03\x00\x01', b'\x23\x00\x01'):
        yield from (many(record, count) for count in (0, 95, 96, 97, 98))
        yield from (many(record, count)[:-1] for count in (96, 97))
    yield from edges()


def main():
    if len(sys.argv) != 2:
        sys.exit(__doc__)
    with open(sys.argv[1], 'wb') as out:
        out.write(b''.join(struct.pack('>I', len(file)) + file for file in files()))


if __name__ == '__main__':
    main()

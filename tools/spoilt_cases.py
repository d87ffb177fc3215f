#!/usr/bin/env python3
# SPDX-License-Identifier: LicenseRef-Wengeludo
"""Whether `vectors` sees a difference: the compiled program over copies of its cases, each of which has one byte changed.

    ./dev spoilt-cases   after `rt run` in crates/vectors or the gate

In the first copy a byte of what a call tells is changed (its number, its count, the number handed back), in the second a byte of what
it leaves in the slice; in the third nothing. Each changed case must be told as different, by its number, and no other one.
"""

import struct
import subprocess
import sys
import tempfile
from pathlib import Path

ROOT = Path(__file__).resolve().parents[1]
PROGRAM = ROOT / 'crates' / 'vectors' / 'out' / 'vectors'
DATA = ROOT / 'crates' / 'vectors' / 'data'
HEAD = 20  # bytes of a case before what is handed in
TOLD = 12  # from here to the end of the head stands what the call tells


def cases(data):
    """The cases of a file: where each begins, where its slice begins, where it ends."""
    found, at = [], 0
    while at < len(data):
        given, known = struct.unpack_from('>HH', data, at + 2)
        found.append((at, at + HEAD + given, at + HEAD + given + known))
        at = found[-1][2]
    return found


def told_spoilt(data, k, begins, slice_begins, ends):
    """Which byte of case k is changed: its number, its count or the number handed back, in turn."""
    return begins + (TOLD, TOLD + 3, HEAD - 1)[k % 3]


def slice_spoilt(data, k, begins, slice_begins, ends):
    """Which byte of case k is changed: one of its slice, if the case has one."""
    return slice_begins + k % (ends - slice_begins) if ends > slice_begins else None


def spoilt(data, which):
    """The file with one byte of each case changed, and the numbers of the cases that have such a byte."""
    changed, numbers = bytearray(data), []
    for k, case in enumerate(cases(data)):
        at = which(data, k, *case) if which else None
        if at is not None:
            changed[at] ^= 1 << k % 8
            numbers.append(k + 1)
    return bytes(changed), numbers


def said(name, numbers, count):
    """What the program is to print of a file."""
    return name + ''.join(f', differs: case {k}' for k in numbers) + f', cases: {count}'


def main():
    if not PROGRAM.exists():
        sys.exit(f'spoilt_cases: no {PROGRAM.relative_to(ROOT)}: build it with `rt run` in crates/vectors')
    tried = 0
    for which in (told_spoilt, slice_spoilt, None):
        with tempfile.TemporaryDirectory() as folder:
            wanted = {}
            for path in sorted(DATA.iterdir()):
                data, numbers = spoilt(path.read_bytes(), which)
                (Path(folder) / path.name).write_bytes(data)
                wanted[path.name] = (numbers, len(cases(data)))
            ran = subprocess.run([PROGRAM, *wanted], cwd=folder, capture_output=True, text=True, check=True)
        for line, (name, (numbers, count)) in zip(ran.stdout.splitlines(), wanted.items()):
            if line != said(name, numbers, count):
                sys.exit(f'spoilt_cases: {name}, spoilt by {which.__name__ if which else "nothing"}: told\n{line[:400]}\nwanted\n{said(name, numbers, count)[:400]}')
            tried += len(numbers)
        if len(ran.stdout.splitlines()) != len(wanted):
            sys.exit(f'spoilt_cases: {len(ran.stdout.splitlines())} files told of {len(wanted)}')
    return f'spoilt_cases: `vectors` told each of {tried:,} spoilt cases, and no other'


if __name__ == '__main__':
    print(main())

#!/usr/bin/env python3
# SPDX-License-Identifier: LicenseRef-Wengeludo
"""What a reader of the crates asks first: no axiom, no path of a machine, and every public function below the promises promises something.

    ./dev texts audit

Status 1 if one is broken (FAULT). It also tells what is only worth a look: public functions of the programs' own crates without
`ensures`; public functions with `requires`; files over 500 lines; functions over 60 lines; libraries without a must-fail edit. Then lines
of code, specs and proofs of each crate.
"""
import os
import re
import sys
from typing import NamedTuple

import crate_list
from made import ROOT

LONG_FILE, LONG_FUNCTION = 500, 60
PARTS = ('src', 'specs', 'proofs')
PATH = re.compile(r'(^|[\s"\'(=`])/(?!/|dev/|usr/bin/env)[a-z]+/[\w.-]+', re.M)
REQUIRES = 'requires something: no call that a customer makes may; is it one of the inner layers, and do its callers meet it?'


class Note(NamedTuple):
    fault: bool
    text: str


def promised():
    """The crates that `promises` leads to: what is linked, and the calls that the programs print by."""
    below = {name: names for _, crates in crate_list.subjects() for name, names in crates.items()}
    found, left = set(), ['promises', 'wengeludo_c']
    while left:
        name = left.pop()
        if name not in found:
            found.add(name)
            left += below.get(name, [])
    return found


def functions(path, text, library, bound):
    """What is to be said of the functions of a file."""
    for found in re.finditer(r'^( *)(pub (?:extern "C" )?)?fn (\w+)', text, re.M):
        rest = text[found.start():]
        head = re.split(r'\n *\{\n|\{\n', rest, maxsplit=1)[0]
        end = re.search(rf'^{found[1]}\}}', rest, re.M)
        long = rest[:end.end()].count('\n') + 1 if end else 0
        if long > LONG_FUNCTION:
            yield Note(False, f'{path}: fn {found[3]} has {long} lines')
        if library and found[2] and 'ensures' not in head:
            yield Note(bound, f'{path}: pub fn {found[3]} promises nothing')
        if library and found[2] and 'requires' in head:
            yield Note(False, f'{path}: pub fn {found[3]} {REQUIRES}')


def file_notes(path, text, count, library, bound):
    if count > LONG_FILE:
        yield Note(False, f'{path} has {count} lines: is it one subject?')
    if re.search(r'^\s*(pub )?axiom\b', text, re.M):
        yield Note(True, f'{path} declares an axiom')
    if PATH.search(text):
        yield Note(True, f'{path} names a path of a machine')
    if path.endswith('.rt'):
        yield from functions(path, text, library, bound)


def look(crate, bound):
    """The notes of a crate, and its lines by part. `bound`: its public functions must promise something."""
    base, counts, notes = f'crates/{crate}', dict.fromkeys(PARTS, 0), []
    library = os.path.exists(f'{base}/src/lib.rt')
    for folder, names in sorted((folder, names) for part in PARTS for folder, _, names in os.walk(f'{base}/{part}')):
        for name in sorted(name for name in names if name.endswith(('.rt', '.antt'))):
            path = f'{folder}/{name}'
            with open(path, encoding='utf-8') as file:
                text = file.read()
            count = sum(1 for line in text.split('\n') if line.strip() and not re.match(r'\s*(--|//)', line))
            counts[path.split('/')[2]] += count
            notes += file_notes(path, text, count, library, bound)
    if library and not os.path.isdir(f'{base}/must-fail'):
        notes.append(Note(False, f'{base} has no must-fail edit'))
    return notes, counts


def main(words):
    if words:
        sys.exit(__doc__.strip())
    os.chdir(ROOT)
    bound = promised()
    found = {crate: look(crate, crate in bound) for crate in sorted(crate_list.names())}
    notes = [note for crate_notes, _ in found.values() for note in crate_notes]
    for note in notes:
        print(('FAULT  ' if note.fault else 'look   ') + note.text)
    rows = [(crate, *(counts[part] for part in PARTS)) for crate, (_, counts) in found.items()]
    rows.append(('all', *(sum(row[k] for row in rows) for k in (1, 2, 3))))
    print(f'{"crate":20}{"code":>7}{"specs":>7}{"proofs":>8}{"proof/code":>12}')
    for crate, code, specs, proofs in rows:
        print(f'{crate:20}{code:7}{specs:7}{proofs:8}{proofs / code if code else 0:12.1f}')
    faults = sum(note.fault for note in notes)
    print(f'audit: {len(found)} crates, {faults} faults, {len(notes) - faults} places worth a look')
    sys.exit(1 if faults else 0)


if __name__ == '__main__':
    main(sys.argv[1:])

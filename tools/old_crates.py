#!/usr/bin/env python3
# SPDX-License-Identifier: LicenseRef-Wengeludo
"""The table of crates that are no more, docs/changes/crates.md, from the history of renames: where their files are now.

    ./dev texts old_crates           compares the table with the history; status 1 if they differ
    ./dev texts old_crates --write   makes it anew

A crate's heirs are the crates to which its files were renamed, those of the last such commit first; an heir that is no more is followed
to its own. A clone without the whole history leaves the table as it is.
"""
import collections
import os
import re
import subprocess
import sys

import made
from made import ROOT

TEXT = 'docs/changes/crates.md'
BEGIN, END = '<!-- old crates: table, from the history -->', '<!-- old crates: end of table -->'
FILE = re.compile(r'crates/(\w+)/(src|specs|proofs)/')


def git(*words):
    return subprocess.run(['git', *words], cwd=ROOT, capture_output=True, text=True, check=True).stdout


def moves():
    """For each crate the crates to which its files were renamed: those of the last such commit first, then those with most files."""
    found, at = collections.defaultdict(dict), 0
    said = git('log', '--reverse', '-M40%', '-l4000', '--diff-filter=R', '--name-status', '--format=tformat:commit', '--', 'crates')
    for line in said.split('\n'):
        at += line == 'commit'
        ends = [FILE.match(path) for path in line.split('\t')[1:]]
        if len(ends) == 2 and all(ends) and ends[0][1] != ends[1][1]:
            before = found[ends[0][1]].get(ends[1][1], (0, 0))
            found[ends[0][1]][ends[1][1]] = (at, before[1] + 1)
    return {name: _ordered(heirs_of) for name, heirs_of in found.items()}


def _ordered(heirs_of):
    last = max(at for at, _ in heirs_of.values())
    return sorted(heirs_of, key=lambda heir: (heirs_of[heir][0] != last, -heirs_of[heir][1], heir))


def ever():
    """Every crate that there was, with the commit that first had it."""
    said = git('log', '--reverse', '--diff-filter=AR', '--name-status', '-M40%', '-l4000', '--format=', '--', 'crates')
    names = (FILE.match(line.split('\t')[-1]) for line in said.split('\n') if line)
    return list(dict.fromkeys(name[1] for name in names if name))


def heirs(name, now, moved, seen=()):
    """The crates of today that have a crate's files, in their order; at most three."""
    if name in now:
        return [name]
    found = []
    for heir in moved.get(name, [])[:3]:
        if heir not in seen:
            found += [each for each in heirs(heir, now, moved, (*seen, name)) if each not in found]
    return found[:3]


def rows():
    now = set(os.listdir(os.path.join(ROOT, 'crates')))
    moved = moves()
    lines = ['| crate of before | its files are now in |', '|---|---|']
    for name in sorted(set(ever()) - now):
        after = heirs(name, now, moved)
        lines.append(f'| `{name}` | {", ".join(f"`{each}`" for each in after) if after else "no crate"} |')
    return lines


def main(words):
    if not os.path.exists(os.path.join(ROOT, '.git')) or git('rev-parse', '--is-shallow-repository').strip() != 'false':
        return print('old_crates: not compared, there is no whole history here')
    lines = rows()
    made.remake('old_crates', words, {TEXT: lambda text: made.between(text, BEGIN, END, lines)}, f'{len(lines) - 2} crates of before')


if __name__ == '__main__':
    main(sys.argv[1:])

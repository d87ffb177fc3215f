#!/usr/bin/env python3
# SPDX-License-Identifier: LicenseRef-Wengeludo
"""Why each must-fail edit is refused, by `rt must-fail`, which tries again only what has changed.

    ./dev refused [CRATE ..]

A line for each edit: what it changes (src or specs), the file and the goal that fails first, and the message, cut. Marks where the
reason deserves a look:

    RANGE  the first goal is a machine operation's range (an overflow, an index), not what the contract says
    FIT    a name is unknown or a law above no longer type-checks, so that the fact itself may still hold
    BOTH   the edit changes specs/ and src/ alike
    BAD    the edit cannot be applied or read, so that it shows nothing

A place to look, not a verdict. What it tells stands in the edit's line `refused at:` (tools/edits.py).
"""
import os
import re
import subprocess
import sys

from made import ROOT

LINE = re.compile(r'^rt: must-fail (\w+)/(\w+)\.edit: (.*)$', re.M)
RANGES = r'^(overflow|index|cast|shift|divi|remainder)|-(fits|in-range)(-\d+)?$'


def read(path):
    with open(path, encoding='utf-8', errors='replace') as file:
        return file.read()


def marks(goal, message, where, places):
    found = []
    if re.search(RANGES, goal):
        found.append('RANGE')
    if re.search(r'not in scope|unknown|has no |only because a proof file names', message) or where.startswith('proofs/') and 'src' in places:
        found.append('FIT')
    if {'src', 'specs'} <= places:
        found.append('BOTH')
    return ''.join(f'{mark} ' for mark in found)


def told(crate, edit, said):
    source = read(f'crates/{crate}/must-fail/{edit}.edit')
    places = {path.split('/')[0] for path in re.findall(r'^file: (\S+)', source, re.M)}
    name = f'{crate}/{edit} [{"+".join(sorted(places))}]'
    if not said.startswith('refused'):
        return f'{"BAD " if "BAD EDIT" in said else ""}{name}: {said[:160]}'
    where = re.search(r'(?:note: )?(?:\./)?((?:src|specs|proofs)/\S+?):\d+', said)
    goal = re.findall(r'`([^`]+)`', said)
    place, goal = where[1] if where else '-', goal[-1] if goal else '-'
    return f'{marks(goal, said, place, places)}{name}: {place} `{goal}`: {said.removeprefix("refused, as it must be: ")[:160]}'


def main(words):
    if any(word.startswith('-') for word in words):
        sys.exit(__doc__.strip())
    os.chdir(ROOT)
    ran = subprocess.run(['rt', 'must-fail', *words], capture_output=True, text=True)
    rows = LINE.findall(ran.stdout + ran.stderr)
    for row in sorted(rows):
        print(told(*row))
    if not rows:
        sys.exit(f'refused: {(ran.stdout + ran.stderr)[-2000:]}')


if __name__ == '__main__':
    main(sys.argv[1:])

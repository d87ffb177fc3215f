#!/usr/bin/env python3
# SPDX-License-Identifier: LicenseRef-Wengeludo
"""Proves: all crates by `rt all check`, or some by `rt check`, easier to read.

    ./dev prove                    every crate that has changed, and those above (rt all check)
    ./dev prove CRATE ..           errors and goals, long module paths shortened, proved functions left out
    ./dev prove CRATE --start F    also writes the files to start the proof of the function F from, and prints its goals
    ./dev prove CRATE --holes      with --allow-holes: each open goal
    ./dev prove CRATE --full       lines are not cut at 700 characters

The whole output is kept in target/dev-CRATE.log. The status is that of rt.
"""
import os
import re
import subprocess
import sys

from made import ROOT

FLAGS = {'--holes', '--full', '--start'}
LONGEST = 700
SHORT = ['Rattle.std.specs.Prelude.', 'Prim.Native.Nat.', 'lib.ListN.', 'lib.IntN.', 'lib.Dec.', 'mathlib.Core.List.', 'mathlib.Core.Bool.', 'mathlib.Core.Path.',
         'mir.Syntax.', 'mir.Val.', 'borrow.Table.Row.']
PASSED = ('library ', 'statements ', 'logic /', 'checked ', 'crate ', 'axioms ', 'rt: chose ', 'rt: rt ')


def shown(lines):
    """The lines that tell something: not notes of names, not what is proved."""
    skip = False
    for line in lines:
        if line.startswith(('    ', '  ')):
            if not skip:
                yield line
            continue
        skip = line.startswith('note') or line.startswith(PASSED) or line.startswith('fn ') and line.endswith(': proved')
        if not skip:
            yield line


def short(line, crate, full):
    for prefix in [f'{ROOT}/crates/', f'Rattle.{crate}.specs.', f'Rattle.{crate}.proofs.'] + SHORT:
        line = line.replace(prefix, '')
    line = re.sub(r'(\(◌∷◌\s+\(c [^()]*\)\s*){5,}', '(… ', line)
    return line if full or len(line) < LONGEST else line[:LONGEST] + ' …'


def prove(crate, flags, start):
    """The status of `rt check`, and what it says that tells something."""
    words = ['--allow-holes'] if '--holes' in flags or start else []
    words += ['--start', start] if start else []
    run = subprocess.run(['rt', 'check', *words], cwd=f'crates/{crate}', capture_output=True, text=True)
    said = run.stdout + run.stderr
    os.makedirs('target', exist_ok=True)
    with open(f'target/dev-{crate}.log', 'w', encoding='utf-8') as log:
        log.write(said)
    for line in shown(said.split('\n')):
        print(short(line, crate, '--full' in flags))
    return run.returncode


def main(words):
    start = ''
    if '--start' in words[:-1]:
        at = words.index('--start')
        start, words = words[at + 1], words[:at + 1] + words[at + 2:]
    flags, crates = {word for word in words if word.startswith('-')}, [word for word in words if not word.startswith('-')]
    if flags - FLAGS or flags and not crates or '--start' in flags and not start:
        sys.exit(__doc__.strip())
    os.chdir(ROOT)
    if not crates:
        os.execvp('rt', ['rt', 'all', 'check'])
    for crate in crates:
        if not os.path.isdir(f'crates/{crate}'):
            sys.exit(f'prove: no crate {crate}')
    sys.exit(max(prove(crate, flags, start) for crate in crates))


if __name__ == '__main__':
    main(sys.argv[1:])

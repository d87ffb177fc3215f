#!/usr/bin/env python3
# SPDX-License-Identifier: LicenseRef-Wengeludo
"""Wrong programs outside the proofs: each edit of tools/wrong is applied to a copy of the tree, and the test that it names must fail.

    ./dev wrong              all of them
    ./dev wrong desk c       those of some files
    ./dev wrong --word flow  those whose fault is told with this word
    ./dev wrong --applies    only whether each still applies, and whether it names a part

An edit has `wrong`, `file`, `old` and `new`; several lines of `old` or `new` stand one below the other. `seen by` names the part of the
tests, and of the desk and the binding also the test file; the one at the head of a file holds for all edits that name none.
"""

import sys
from pathlib import Path

from tried import ROOT, Tree

FOLDER = ROOT / 'tools' / 'wrong'
PARTS = ('c', 'cpp', 'rust', 'archives', 'install', 'python', 'desk')


def edits(path):
    """The edits of a file: what is wrong, what sees it, the file, the old text and the new one."""
    head, *blocks = path.read_text(encoding='utf-8').strip('\n').split('\n\n')
    usual = dict(line.split(': ', 1) for line in head.split('\n'))
    for block in blocks:
        told = {}
        for line in block.split('\n'):
            name, _, words = line.partition(':')
            told.setdefault(name, []).append(words[1:])
        yield (told['wrong'][0], told.get('seen by', [usual['seen by']])[0], told['file'][0], '\n'.join(told['old']), '\n'.join(told['new']))


def faults(found):
    """What is amiss with the edits themselves."""
    for wrong, seen, name, old, new in found:
        if seen.split()[0] not in PARTS:
            yield f'{wrong}: no such part: {seen}'
        elif not (ROOT / name).is_file() or old not in (ROOT / name).read_text(encoding='utf-8'):
            yield f'{wrong}: {name} has no longer what is to be changed: adapt the edit'
        elif old == new:
            yield f'{wrong}: nothing is changed'


def main(words):
    word = words.pop(words.index('--word') + 1) if '--word' in words[:-1] else ''
    names = [one for one in words if not one.startswith('-')]
    found = [edit for path in sorted(FOLDER.glob('*.edits')) if not names or path.stem in names for edit in edits(path) if word in edit[0]]
    amiss = list(faults(found))
    for fault in amiss:
        print(f'wrong: {fault}')
    if '--applies' in words or amiss:
        sys.exit(1) if amiss else print(f'wrong: {len(found)} edits apply')
        return
    tree, unseen = Tree(), []
    tree.baseline(sorted({seen for _, seen, _, _, _ in found}))
    for wrong, seen, name, old, new in found:
        text = (tree.path / name).read_text(encoding='utf-8')
        killed, _ = tree.changed(name, text.replace(old, new, 1), seen)
        print(f'{"seen" if killed else "NOT SEEN"} by {seen}: {wrong}', flush=True)
        unseen += [] if killed else [wrong]
    print(f'wrong: {len(found) - len(unseen)} of {len(found)} wrong programs are seen')
    sys.exit(1 if unseen else 0)


if __name__ == '__main__':
    main(sys.argv[1:])

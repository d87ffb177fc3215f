#!/usr/bin/env python3
# SPDX-License-Identifier: LicenseRef-Wengeludo
"""Whether the names that docs/GLOSSARY.md gives are in the code.

    ./dev texts glossary

In a table whose last column is headed "in code", each word in backticks there must be a name of crates/*/src or crates/*/specs,
outside comments. Under "Words that the code uses for more than one thing" the words in backticks of every column must be. Prints how
many names were found; status 1 where one is not there.
"""
import os
import re
import sys

from made import ROOT

TEXT = 'docs/GLOSSARY.md'
TWICE = 'Words that the code uses for more than one thing'


def names_in_code():
    """All names outside comments, crates' own among them."""
    found = set(os.listdir(os.path.join(ROOT, 'crates')))
    for folder, below, files in os.walk(os.path.join(ROOT, 'crates')):
        below[:] = [name for name in below if name != 'out']
        if '/src' not in folder and '/specs' not in folder:
            continue
        for file in files:
            with open(os.path.join(folder, file), encoding='utf-8') as text:
                code = re.sub(r'(//|-- ).*', '', text.read())
            found |= set(re.findall(r'[^\W\d][\w-]*', code))
    return found | {'requires', 'ensures', 'returns'}


def named():
    """The names that the glossary gives, with the lines on which it does."""
    heading, in_code = '', False
    with open(os.path.join(ROOT, TEXT), encoding='utf-8') as lines:
        for number, line in enumerate(lines, 1):
            if line.startswith('## '):
                heading = line[3:].strip()
            if not line.startswith('|'):
                in_code = False
                continue
            cells = line.strip().strip('|').split('|')
            in_code = in_code or cells[-1].strip() == 'in code'
            given = cells[-1] if in_code else line if heading == TWICE else ''
            for name in re.findall(r'`([^`]+)`', given):
                yield number, name


def main(words):
    if words:
        sys.exit(__doc__.strip())
    known, given = names_in_code(), list(named())
    missing = [(number, name) for number, name in given if name not in known]
    for number, name in missing:
        print(f'glossary: {TEXT}:{number}: the code has no {name}', file=sys.stderr)
    if missing or not given:
        sys.exit(1)
    print(f'glossary: {len(given)} names, all in the code')


if __name__ == '__main__':
    main(sys.argv[1:])

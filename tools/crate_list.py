#!/usr/bin/env python3
# SPDX-License-Identifier: LicenseRef-Wengeludo
"""The list of crates, docs/CRATES.md, from crates.txt and the first sentence of each crate's lib.rt or main.rt.

    ./dev texts crate_list           compares the list with the crates; status 1 where they differ
    ./dev texts crate_list --write   makes it anew

A comment line of crates.txt is a subject, and the crates below it are its rooms. The first sentence of the comment at the head of
src/lib.rt, or src/main.rt, says what a crate holds: one sentence, of at most 160 characters.
"""
import os
import re
import sys

import made
from made import ROOT

TEXT = 'docs/CRATES.md'
BEGIN, END = '<!-- crates: list, from crates.txt and crates/*/src -->', '<!-- crates: end of list -->'
LONGEST = 160


def fail(text):
    sys.exit(f'crate_list: {text}')


def subjects():
    """The subjects of crates.txt in their order: a name, its crates, and the crates that each of these names."""
    found = []
    with open(os.path.join(ROOT, 'crates.txt'), encoding='utf-8') as lines:
        for line in lines:
            name, colon, below = line.split('#')[0].partition(':')
            if line.startswith('# ') and ':' not in line:
                found.append((line[2:].strip(), {}))
            elif colon:
                name = name.split()[0]  # without `staticlib`
                if not found:
                    fail(f'crates.txt: {name} stands under no subject')
                found[-1][1][name] = below.split()
    return [(subject, crates) for subject, crates in found if crates]


def names():
    return [name for _, crates in subjects() for name in crates]


def code(crate):
    """The texts of a crate's code."""
    for folder, _, files in sorted(os.walk(os.path.join(ROOT, 'crates', crate, 'src'))):
        for file in sorted(files):
            if file.endswith('.rt'):
                with open(os.path.join(folder, file), encoding='utf-8') as text:
                    yield text.read()


def head(crate):
    """The first sentence of a crate's root file."""
    for file in ('lib.rt', 'main.rt'):
        where = os.path.join(ROOT, 'crates', crate, 'src', file)
        if os.path.exists(where):
            break
    else:
        fail(f'{crate} has neither src/lib.rt nor src/main.rt')
    comment = []
    with open(where, encoding='utf-8') as text:
        for line in text:
            if not line.startswith('//'):
                break
            comment.append(line.strip().lstrip('/').strip())
    sentence = re.match(r'(.+?\.)(?:\s|$)', ' '.join(comment))
    if sentence is None:
        fail(f'{crate}: src/{file} does not start with a comment of one sentence or more')
    if len(sentence[1]) > LONGEST:
        fail(f'{crate}: the first sentence of src/{file} has {len(sentence[1])} characters, and {LONGEST} are the most')
    return sentence[1]


def kind(crate):
    """What stands in a crate."""
    if os.path.exists(os.path.join(ROOT, 'crates', crate, 'src', 'main.rt')):
        return 'program'
    return 'functions' if any(re.search(r'^\s*(?:pub )?(?:extern "C" )?fn ', text, re.M) for text in code(crate)) else 'definitions'


def listed():
    found = subjects()
    home = {name: subject for subject, crates in found for name in crates}
    order = [subject for subject, _ in found]
    text = []
    for subject, crates in found:
        below = {home[name] for names_below in crates.values() for name in names_below if name in home} - {subject}
        text += [f'## {subject[0].upper()}{subject[1:]}', '']
        if below:
            text += ['Over: ' + ', '.join(sorted(below, key=order.index)) + '.', '']
        text += ['| crate | of | holds |', '|---|---|---|']
        text += [f'| `{name}` | {kind(name)} | {head(name)} |' for name in crates] + ['']
    return text


def main(words):
    made.remake('crate_list', words, {TEXT: lambda text: made.between(text, BEGIN, END, listed())}, f'{len(names())} crates')


if __name__ == '__main__':
    main(sys.argv[1:])

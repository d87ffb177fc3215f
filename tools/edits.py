#!/usr/bin/env python3
# SPDX-License-Identifier: LicenseRef-Wengeludo
"""The tables of docs/EDITS.md, from the must-fail edits themselves.

    ./dev texts edits           compares the tables with the edits; status 1 where they differ
    ./dev texts edits --write   makes the tables anew

An edit (crates/NAME/must-fail/EDIT.edit) starts with three lines, which rt passes over:

    under: HEADING        the heading of docs/EDITS.md under which it is listed
    wrong: WORDS          what the wrong program does, or what the wrong definition says; a subject may stand first, in brackets
    refused at: WORDS     the function, or `laws` and the file of laws, and the fact at which the prover refuses it

A table stands between two marks below its heading, in the order of crates.txt, then of the edits' names. That an edit changes a
definition is seen from the files that it names. The function, or the file of laws, must be there. A name of the code that the line has in
the spelling before today's kit is shown in today's; a goal (`returns-2`) has no name of today's, and ./dev refused prints what it is now.
"""
import os
import re
import sys
from typing import NamedTuple

import crate_list
import made
import names
from made import ROOT

TEXT = 'docs/EDITS.md'
BEGIN, END = '<!-- edits: table, from crates/*/must-fail -->', '<!-- edits: end of table -->'
TOLD = ('under', 'wrong', 'refused at')


class Edit(NamedTuple):
    crate: str
    name: str
    under: str
    wrong: str
    refused: str
    definition: bool

    def row(self):
        subject, words = re.match(r'(?:\(([^)]*)\) )?(.*)', self.wrong).groups()
        if self.definition:
            words = f'**definition**{f" ({subject})" if subject else ""}: {words}'
        else:
            words = self.wrong
        return f'| `{self.crate}/{self.name}` | {words} | {self.refused} |'


def fail(text):
    sys.exit(f'edits: {text}')


def respelt(text, words):
    """A text with its names of code in today's spelling."""
    def today(found):
        name = found[0]
        snake = re.sub('[A-Z]', lambda letter: '_' + letter[0].lower(), name).replace('-', '_') if name[0].islower() else name.replace('-', '')
        camel = re.sub('-([a-z0-9])', lambda letter: letter[1].upper(), name)
        return name if name in words else next((other for other in (snake, camel) if other in words and not re.match(r'(returns|loop)\b', name)), name)
    return re.sub(r'`[^`]*`', lambda piece: re.sub(r"[A-Za-z][\w'-]*", today, piece[0]), text)


def read(crate, name):
    where = f'crates/{crate}/must-fail/{name}.edit'
    with open(os.path.join(ROOT, where), encoding='utf-8') as file:
        lines = file.read().split('\n')
    told = [line.split(': ', 1) for line in lines[:3]]
    if [pair[0] for pair in told] != list(TOLD) or not all(len(pair) == 2 and pair[1].strip() for pair in told):
        fail(f'{where} does not start with its three lines: {", ".join(TOLD)}')
    parts = {line[6:].split('/')[0] for line in lines if line.startswith('file: ')}
    if 'src' in parts and len(parts) > 1:
        fail(f'{where} changes the program and what it is held against')
    if '|' in ''.join(lines[:3]):
        fail(f'{where}: a bar cannot stand in a table')
    edit = Edit(crate, name, *(pair[1].strip() for pair in told), 'src' not in parts)
    look(where, edit)
    return edit


def look(where, edit):
    """What refuses the edit is there: a function of the crate's code, or files of laws."""
    base = os.path.join(ROOT, 'crates', edit.crate)
    named = re.findall(r'`([^`]+)`', edit.refused)
    if not named:
        fail(f'{where}: "refused at" names nothing')
    if edit.refused.startswith('laws '):
        if not os.path.exists(os.path.join(base, 'proofs', f'{named[0]}.antt')):
            fail(f'{where}: there is no file of laws {named[0]}')
    elif not any(re.search(rf'\bfn {re.escape(named[0].split("/")[-1])}\b', text) for text in crate_list.code(edit.crate)):
        fail(f'{where}: the crate has no function {named[0]}')


def edits():
    """All edits, in the order of crates.txt, then of their names."""
    found = []
    for crate in crate_list.names():
        folder = os.path.join(ROOT, 'crates', crate, 'must-fail')
        if os.path.isdir(folder):
            found += [read(crate, file[:-5]) for file in sorted(os.listdir(folder)) if file.endswith('.edit')]
    return found


def table(rows):
    kinds = {row.definition for row in rows}
    head = 'wrong program, or definition' if len(kinds) == 2 else 'wrong definition' if True in kinds else 'wrong program'
    return [f'| edit | {head} | refused at |', '|---|---|---|'] + [row.row() for row in rows]


def tables(text, found):
    """The text with its tables made anew."""
    lines, out, heading, told = text.split('\n'), [], '', set()
    inside = False
    for line in lines:
        if line.startswith('## '):
            heading = line[3:]
        if line == END:
            inside = False
        if not inside:
            out.append(line)
        if line == BEGIN:
            inside = True
            if heading in told:
                fail(f'{TEXT} has two tables under "{heading}"')
            told.add(heading)
            rows = [edit for edit in found if edit.under == heading]
            if not rows:
                fail(f'no edit stands under "{heading}"')
            out += table(rows)
    for edit in found:
        if edit.under not in told:
            fail(f'{TEXT} has no heading "{edit.under}" with a table below it, for {edit.crate}/{edit.name}')
    words = names.written()
    return '\n'.join(respelt(line, words) if line.startswith('| `') else line for line in out)


def main(words):
    found = edits()
    made.remake('edits', words, {TEXT: lambda text: tables(text, found)}, f'{len(found)} wrong programs')


if __name__ == '__main__':
    main(sys.argv[1:])

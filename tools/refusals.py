#!/usr/bin/env python3
# SPDX-License-Identifier: LicenseRef-Wengeludo
"""The refusals, from one list: tools/refusals.tsv has a line for each (number, name in C, name in Rust, sentence, smallest file).

    ./dev texts refusals           compares what is made from the list with the list; status 1 where they differ
    ./dev texts refusals --write   makes it anew

Made from it, each between two marks: the enum and wengeludo_refusal_text in the C header, the enum of wengeludo.hpp, the enum and
the texts of the Rust crate, those of the Python package and of the JavaScript module, the tables in docs/FORMATS.md: the refusals, and which numbers are
used and which are free.
"""
import csv
import os
import re
import sys

import made
from made import ROOT

LIST = os.path.join(ROOT, 'tools', 'refusals.tsv')
DONE = 'done'
UNKNOWN = 'a number that this version does not know'


def rows():
    with open(LIST, encoding='utf-8', newline='') as file:
        lines = list(csv.reader(file, delimiter='\t', quoting=csv.QUOTE_NONE))
    if lines[0] != ['number', 'C', 'Rust', 'sentence', 'smallest file']:
        sys.exit('refusals: the first line of tools/refusals.tsv does not name its five columns')
    found = [(int(number), c, rust, sentence, smallest) for number, c, rust, sentence, smallest in lines[1:]]
    numbers = [row[0] for row in found]
    if numbers != sorted(set(numbers)):
        sys.exit('refusals: the numbers of tools/refusals.tsv do not rise')
    for row in found:
        if '"' in row[3] or not row[3].isascii():
            sys.exit(f'refusals: the sentence of {row[0]} cannot stand in C as it is')
    return found


def c_enum(found):
    """A line for each number, its sentence as the comment behind it."""
    names = [('DONE', 0)] + [(row[1], row[0]) for row in found]
    wide = max(len(f'    WENGELUDO_{name} = {number},') for name, number in names)
    text = ['    WENGELUDO_DONE = 0,']
    for number, name, _, sentence, _ in found:
        start = f'    WENGELUDO_{name} = {number},'.ljust(wide) + ' /* '
        text += comment(start, sentence)
    return text


def comment(start, sentence, most=130):
    """A comment that is broken where the line would grow too long."""
    lines, line, indent = [], start, ' ' * len(start)
    for word in sentence.split(' '):
        if len(line) + len(word) + 3 > most and line.strip() not in ('', start.strip()):
            lines.append(line.rstrip())
            line = indent
        line += word + ' '
    return lines + [line + '*/']


def c_text(found):
    text = ['static inline const char *wengeludo_refusal_text(uint8_t number)', '{', '    switch (number) {']
    text += ['    case WENGELUDO_DONE:', f'        return "{DONE}";']
    for _, name, _, sentence, _ in found:
        text += [f'    case WENGELUDO_{name}:']
        text += literal('        return ', sentence)
    text += ['    default:', f'        return "{UNKNOWN}";', '    }', '}']
    return text


def literal(start, sentence, most=130):
    """A string literal, in two or more pieces where the line would grow too long."""
    pieces, piece = [], ''
    for word in re.findall(r'\S+ ?', sentence):
        if len(start) + len(piece) + len(word) + 3 > most:
            pieces.append(piece)
            piece = ''
        piece += word
    pieces.append(piece)
    lines = [start + f'"{pieces[0]}"'] + [' ' * len(start) + f'"{piece}"' for piece in pieces[1:]]
    lines[-1] += ';'
    return lines


def cpp_enum(found):
    text = ['    done = WENGELUDO_DONE,']
    return text + [f'    {row[1].lower()} = WENGELUDO_{row[1]},' for row in found]


def capital(sentence):
    return sentence[0].upper() + sentence[1:] + '.'


def rust_doc(sentence, most=130):
    lines, line = [], '    ///'
    for word in sentence.split(' '):
        if len(line) + 1 + len(word) > most:
            lines.append(line)
            line = '    ///'
        line += ' ' + word
    return lines + [line]


MORE = {
    'NoFlow': 'The places that the sheet call marks must take in more than they can let out: every stream across their edge has a '
              'range, and the lows in sum to more than the highs out. Other calls mark none.',
}


def rust_enum(found):
    text = []
    for _, _, name, sentence, _ in found:
        text += rust_doc(' '.join([capital(sentence)] + ([MORE[name]] if name in MORE else [])))
        text.append(f'    {name}(Places),' if name == 'NoFlow' else f'    {name},')
    return text


def rust_texts(found):
    text = [f'const ALL: [(u8, Refusal, &str); {len(found)}] = [']
    for number, _, name, sentence, _ in found:
        case = f'Refusal::{name}(Places(0))' if name == 'NoFlow' else f'Refusal::{name}'
        line = f'    ({number}, {case}, "{sentence}"),'
        text += [line] if len(line) <= 130 else ['    (', f'        {number},', f'        {case},', f'        "{sentence}",', '    ),']
    return text + ['];', '', f'const UNKNOWN: &str = "{UNKNOWN}";']


def by_number(found):
    """Sentences by their numbers, as Python and JavaScript both take them."""
    return [f'    {number}: "{sentence}",' for number, _, _, sentence, _ in found]


def table(found):
    text = ['| number | `WENGELUDO_…` | `Refusal::…` | when | smallest file |', '|---|---|---|---|---|']
    for number, c, rust, sentence, smallest in found:
        when = re.sub(r'(?<![0-9])-(?=[0-9])', '−', sentence)
        text.append(f'| {number} | `{c}` | `{rust}` | {when} | {smallest} |')
    return text


def runs(numbers):
    """Numbers that follow on one another, as pairs of the first and the last."""
    found = []
    for number in sorted(numbers):
        if found and found[-1][1] == number - 1:
            found[-1][1] = number
        else:
            found.append([number, number])
    return found


def free(found):
    """Which numbers of one byte are used, and which are free."""
    used = {row[0] for row in found}
    left = set(range(1, 256)) - used
    says = [(0, 0, f'{DONE}: no refusal')]
    says += [(*run, 'used: the table above') for run in runs(used)]
    says += [(*run, f'free; a new refusal takes {run[0]}' if run[0] == min(left) else 'free') for run in runs(left)]
    text = ['| numbers | |', '|---|---|']
    return text + [f'| {first if first == last else f"{first} to {last}"} | {what} |' for first, last, what in sorted(says)]


MADE = [
    ('include/wengeludo_balance.h', '    /* refusals: {} */', 'enum', c_enum),
    ('include/wengeludo_balance.h', '/* refusals: {} */', 'texts', c_text),
    ('include/wengeludo.hpp', '    // refusals: {}', 'enum', cpp_enum),
    ('bindings/rust/src/refusal.rs', '    // refusals: {}', 'enum', rust_enum),
    ('bindings/rust/src/refusal.rs', '// refusals: {}', 'texts', rust_texts),
    ('docs/FORMATS.md', '<!-- refusals: {} -->', 'table', table),
    ('docs/FORMATS.md', '<!-- refusals: {} -->', 'free numbers', free),
    ('bindings/python/src/wengeludo_balance/refusal.py', '    # refusals: {}', 'texts', by_number),
    ('bindings/js/wengeludo.js', '    // refusals: {}', 'texts', by_number),
]


def texts(found):
    """For each text a function that makes its parts anew."""
    parts = {}
    for path, mark, name, make in MADE:
        parts.setdefault(path, []).append((mark.format(f'{name}, from tools/refusals.tsv'), mark.format(f'end of {name}'), make(found)))

    def remade(marked):
        def make(text):
            for begin, end, lines in marked:
                text = made.between(text, begin, end, lines) if text is not None else None
            return text
        return make

    return {path: remade(marked) for path, marked in parts.items()}


def main(words):
    found = rows()
    made.remake('refusals', words, texts(found), f'{len(found)} numbers')


if __name__ == '__main__':
    main(sys.argv[1:])

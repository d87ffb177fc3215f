#!/usr/bin/env python3
# SPDX-License-Identifier: LicenseRef-Wengeludo
"""Runs of lines that stand twice in the .antt and .rt files below a folder, alike but for names and numbers.

    ./dev repeats [DIR] [--lines N] [--most N] [--exact]

A row names two places and how many lines they share (at least --lines, 6; at most --most rows, 12). Comments, blank lines, imports
and lines of punctuation are passed over. With --exact only runs that are the same to the letter count. A row is a place to look at:
where two proofs differ only in a name, a width or a number, one lemma over it can serve both.
"""
import argparse
import os
import re
from collections import defaultdict

from made import ROOT

KEEP = set('''where let in elim record rw simp cc omega search arith refl sym ap subst unfolding abbrev pub data use mod fn if else
while for match return ensures requires struct enum impl λ ℕ ℤ'''.split())
NAME = re.compile(r"[^\W\d][\w'′₀₁₂₃₄₅₆₇₈₉·-]*|\d+")
COMMENT = re.compile(r'(--|//).*$')
MOST_PLACES = 12  # what stands in more places is a habit, not a repetition


def shape(line, exact):
    """A line without its comment, and without its names and numbers unless they are to count."""
    line = COMMENT.sub('', line).strip()
    if not exact:
        line = NAME.sub(lambda m: m[0] if m[0] in KEEP else '#' if m[0][0].isdigit() else 'x', line)
    return re.sub(r'\s+', ' ', line)


def shapes(path, exact):
    """The lines that count, each with its number."""
    found = []
    with open(path, encoding='utf-8', errors='replace') as lines:
        for number, line in enumerate(lines, 1):
            bare, said = COMMENT.sub('', line).strip(), shape(line, exact)
            if len(said) >= 3 and not bare.startswith(('use ', 'ghost use ', 'pub mod ', 'mod ')) and re.search(r'[\w#]', said):
                found.append((number, said))
    return found


def windows(texts, size):
    """Where each run of so many lines stands, by what it says."""
    at = defaultdict(list)
    for path, text in texts.items():
        for i in range(len(text) - size + 1):
            window = tuple(said for _, said in text[i:i + size])
            if sum(map(len, window)) >= 20 * size:
                at[window].append((path, i))
    return [places for places in at.values() if 2 <= len(places) <= MOST_PLACES]


def length(one, i, other, j, same, size):
    """How far two runs go on alike."""
    k = size
    while i + k < len(one) and j + k < len(other) and one[i + k][1] == other[j + k][1] and not (same and i + k >= j):
        k += 1
    return k


def pairs(texts, size):
    """Two places and how many lines they share, the longest first."""
    rows, done = [], set()
    for places in windows(texts, size):
        for (f, i), (g, j) in zip(places, places[1:]):
            begun = (f, i - 1, g, j - 1) in done
            done.add((f, i, g, j))
            if begun or (f == g and j < i + size):
                continue
            k = length(texts[f], i, texts[g], j, f == g, size)
            rows.append((k, f, texts[f][i][0], texts[f][i + k - 1][0], g, texts[g][j][0], texts[g][j + k - 1][0]))
    shown, seen = [], set()
    for row in sorted(rows, reverse=True):
        key = (row[1], row[2] // 4, row[4], row[5] // 4)
        if key not in seen:
            seen.add(key)
            shown.append(row)
    return shown


def main():
    words = argparse.ArgumentParser(description=__doc__, formatter_class=argparse.RawDescriptionHelpFormatter)
    words.add_argument('dir', nargs='?', default='crates')
    words.add_argument('--lines', type=int, default=6)
    words.add_argument('--most', type=int, default=12)
    words.add_argument('--exact', action='store_true')
    given = words.parse_args()
    os.chdir(ROOT)
    files = sorted(os.path.join(folder, name) for folder, _, names in os.walk(given.dir) if not {'target', 'out'} & set(folder.split(os.sep))
                   for name in names if name.endswith(('.antt', '.rt')))
    found = pairs({path: shapes(path, given.exact) for path in files}, given.lines)
    print(f'{len(found)} repeated runs of {given.lines} or more lines in {len(files)} files')
    for k, f, f_first, f_last, g, g_first, g_last in found[:given.most]:
        print(f'{k:3} lines  {f}:{f_first}-{f_last} ~ {g}:{g_first}-{g_last}')


if __name__ == '__main__':
    main()

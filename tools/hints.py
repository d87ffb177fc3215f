#!/usr/bin/env python3
# SPDX-License-Identifier: LicenseRef-Wengeludo
"""Whether the solver's start is worth something: how many improvements fifty drawn plants take, beside a recorded count of each.

    ./dev hints                  the counts, compared with tools/improvements.tsv
    ./dev hints --write          records them anew, after a change of the start that is meant
    ./dev hints --worthless      spoils the start in eleven ways, one after the other: each must show

A start is free to be anything: every sheet stays right and only takes longer, so no proof and no sheet shows that it is worthless. The
crates are compiled without proof (tools/unproved.sh), with one more call that hands over the solver's own counter.
"""

import ctypes
import os
import shutil
import struct
import subprocess
import sys
import tempfile
from pathlib import Path

ROOT = Path(__file__).resolve().parents[1]
COUNTS = ROOT / 'tools' / 'improvements.tsv'
PLANTS = 50
CALL = """
pub fn wengeludo_improvements(file: &[u8]) -> u64 {
    let Ok(plant) = plant_read::read_plant(file) else {
        return 0;
    };
    let mut arcs = [solve_arcs::NONE as u8; solve_arcs::ARCS];
    let mut rows = [0u64; solve_arcs::ROWS];
    solve_arcs_fill::lay(plant.streams, plant.count as usize, &mut arcs, &mut rows);
    let labels = flow_components::group(&arcs, &rows, flow_def::Which::Unmetered);
    let solved = solve_call::solve(plant.units, labels, &arcs, &rows);
    solved.made
}
"""
# What a start may do and be worth nothing: file, what stands there, what takes its place.
WORTHLESS = (
    ('elimination that adds', 'newton_laplacian/src/elimination.rt', ' -= f * ', ' += f * '),
    ('amounts routed with the wrong sign', 'solve_forest/src/lib.rt', 'forest.into[forest.len] = inwards;', 'forest.into[forest.len] = !inwards;'),
    ('a forest from the outside alone', 'solve_forest/src/lib.rt', 'reached[u] = *label as usize == u;', 'reached[u] = u == 0 && *label == 0;'),
    ('no forest', 'solve_forest/src/lib.rt', 'n += usize::from(rows[4 * i] == 0);', 'n += usize::from(rows[4 * i] == 1);'),
    ('no conductance off the diagonal', 'newton_laplacian/src/equations.rt', 'add(a, h, g + 1, -c);', 'add(a, h, g + 1, 0.0);'),
    ('conductances with the wrong sign', 'newton_laplacian/src/equations.rt', 'add(a, g, h + 1, -c);', 'add(a, g, h + 1, c);'),
    ('ranges never looked at', 'newton_descend/src/lib.rt', 'if some_range(rows, count_of(arcs)) {', 'if count_of(arcs) > 200 {'),
    ('a single Newton step', 'newton_descend/src/descents.rt', 'const STEPS: usize = 23;', 'const STEPS: usize = 1;'),
    ('steps uphill', 'newton_descend/src/descents.rt', 'return 1.0;', 'return -1.0;'),
    ('no steps', 'newton_descend/src/descents.rt', 'return 1.0;', 'return 0.0;'),
    ('nets that count as near at once', 'newton_descend/src/descents.rt', 'const NEAR: f64 = 4.0;', 'const NEAR: f64 = 4.0e9;'),
)


class Draw:
    """Numbers by splitmix64, the same on every machine."""

    def __init__(self, seed):
        self.state = seed

    def below(self, limit):
        self.state = (self.state + 0x9E3779B97F4A7C15) % 2**64
        z = self.state
        z = (z ^ z >> 30) * 0xBF58476D1CE4E5B9 % 2**64
        z = (z ^ z >> 27) * 0x94D049BB133111EB % 2**64
        return (z ^ z >> 31) % limit


def plant(seed):
    """A plant file: up to 32 units and 96 streams, a third of them unmetered, every other plant with ranges."""
    draw = Draw(seed)
    units = 4 + draw.below(29)
    streams = [stream(draw, k, units, seed % 2) for k in range(min(96, 2 * units + draw.below(33)))]
    return bytes((1, units)) + b''.join(streams) + bytes((4, len(streams)))


def stream(draw, k, units, ranged):
    """A stream's record; the first ones join each unit to one before it."""
    source = (k + 1) if k < units else draw.below(units + 1)
    target = draw.below(k + 1) if k < units else (source + 1 + draw.below(units)) % (units + 1)
    reading = draw.below(200_001) - 20_000
    if draw.below(3) == 0:
        return struct.pack('>BBB', 3, source, target)
    meter = struct.pack('>BBHi', source, target, 1 + draw.below(1_000), reading)
    if ranged and draw.below(2):
        return b'\6' + meter + struct.pack('>ii', -4_000_000, reading + draw.below(2_000))
    return b'\2' + meter


def spoilt(tree, edit):
    """The crates' sources below a folder, with the call that counts and one edit."""
    shutil.copy(ROOT / 'crates.txt', tree / 'crates.txt')
    for source in (*(ROOT / 'crates').glob('*/src'), *(ROOT / 'crates').glob('*/specs')):
        shutil.copytree(source, tree / 'crates' / source.parent.name / source.name)
    root = tree / 'crates' / 'wengeludo' / 'src' / 'lib.rt'
    root.write_text(root.read_text(encoding='utf-8') + CALL, encoding='utf-8')
    if edit:
        name, path, old, new = edit
        text = (tree / 'crates' / path).read_text(encoding='utf-8')
        if old not in text:
            sys.exit(f'hints: {name}: {path} has no "{old}" any more: adapt the list in {Path(__file__).name}')
        (tree / 'crates' / path).write_text(text.replace(old, new), encoding='utf-8')


def counts(edit=None):
    """The improvements of the fifty plants, by the crates as they are or with one edit."""
    with tempfile.TemporaryDirectory() as folder:
        tree = Path(folder)
        spoilt(tree, edit)
        made = subprocess.run(['bash', ROOT / 'tools/unproved.sh', tree / 'hints.so', tree], capture_output=True, text=True)
        if made.returncode:
            sys.exit(f'hints: the crates do not compile without proof:\n{made.stderr[-2000:]}')
        call = ctypes.CDLL(str(tree / 'hints.so')).wengeludo_improvements
        call.restype, call.argtypes = ctypes.c_uint64, (ctypes.c_char_p, ctypes.c_size_t)
        files = [plant(seed) for seed in range(PLANTS)]
        return [call(file, len(file)) for file in files]


def recorded():
    lines = COUNTS.read_text(encoding='utf-8').splitlines()[1:]
    return [int(line.split('\t')[1]) for line in lines]


def differences(found):
    """How many plants take another number of improvements than is recorded, and what it adds up to."""
    other = sum(one != two for one, two in zip(found, recorded())) + abs(len(found) - len(recorded()))
    return other, f'{sum(found):,} improvements in {len(found)} plants, {sum(recorded()):,} recorded; {other} plants differ'


def main(words):
    if words == ['--write']:
        rows = [f'{seed}\t{made}\n' for seed, made in enumerate(counts())]
        COUNTS.write_text('plant\timprovements\n' + ''.join(rows), encoding='utf-8')
        return f'hints: {len(rows)} counts written to {os.path.relpath(COUNTS)}'
    if words == ['--worthless']:
        for edit in WORTHLESS:
            other, told = differences(counts(edit))
            print(f'hints: {edit[0]}: {told}', flush=True)
            if not other:
                sys.exit(f'hints: {edit[0]}: nothing shows it')
        return f'hints: {len(WORTHLESS)} worthless starts, each is seen'
    if words:
        sys.exit('usage: ./dev hints [--write | --worthless]')
    other, told = differences(counts())
    if other:
        sys.exit(f'hints: {told}\nhints: if the start was changed on purpose: ./dev hints --write')
    return f'hints: {told}'


if __name__ == '__main__':
    print(main(sys.argv[1:]))

#!/usr/bin/env python3
# SPDX-License-Identifier: LicenseRef-Wengeludo
"""The archive is the same byte for byte wherever it is built: its SHA-256 stands in docs/MEASURED.md, beside the kit that wrote it.

    ./dev archive                    compares target/staticlib/libwengeludo.a with it, where the kit is the same
    ./dev archive --write            records it, after a change of the engine or of the kit, and those of the other
                                                     processors, which it builds by packaging/cross/build.sh
    ./dev archive --of TARGET FILE   compares what packaging/cross/build.sh has built for another processor
"""
import hashlib
import os
import re
import shutil
import subprocess
import sys

ROOT = os.path.abspath(os.path.join(os.path.dirname(__file__), '..'))
ARCHIVE = os.path.join(ROOT, 'target', 'staticlib', 'libwengeludo.a')
TEXT = os.path.join(ROOT, 'docs', 'MEASURED.md')
ROW = re.compile(r'^\| `(rattle-[^`]+)` \| `([0-9a-f]{64})` \| ([0-9,]+) \|$', re.M)
TARGETS = {'aarch64': 'aarch64.a', 'riscv64': 'riscv64.a', 'wasm32': 'wengeludo.wasm'}  # what each is built as, in target/cross


def target_row(target):
    """The row of another processor: its SHA-256 and its bytes."""
    return re.compile(rf'^\| {target} \| `([0-9a-f]{{64}})` \| ([0-9,]+) \|$', re.M)


def read(path):
    """The bytes of a file, with their SHA-256."""
    with open(path, 'rb') as file:
        content = file.read()
    return content, hashlib.sha256(content).hexdigest()


def text_of():
    """docs/MEASURED.md."""
    with open(TEXT, encoding='utf-8') as file:
        return file.read()


def put(row, line):
    """Puts a line of docs/MEASURED.md in place of the one that is there."""
    text = row.sub(line, text_of())
    with open(TEXT, 'w', encoding='utf-8') as file:
        file.write(text)


def compare(kit, found):
    """The archive against its row; ends the program if they differ for the same kit."""
    recorded_kit, recorded, _ = ROW.findall(text_of())[0]
    if kit != recorded_kit:
        print(f'archive: {found}, by {kit}; not compared, the one recorded is by {recorded_kit}')
    elif found != recorded:
        sys.exit(f'archive: {found}, and docs/MEASURED.md has {recorded} for the same kit ({kit}).\n'
                 'Either the engine has changed and ./dev archive --write was not run, or it was not built from this text.')
    else:
        print(f'archive: {found}, as recorded for {kit}')


def compare_target(kit, target, path):
    """What was built for another processor against its row, in the same way."""
    rows, found = target_row(target).findall(text_of()), read(path)[1]
    if len(rows) != 1:
        sys.exit(f'archive: docs/MEASURED.md does not have one row for {target}')
    if kit == ROW.findall(text_of())[0][0] and found != rows[0][0]:
        sys.exit(f'archive: {found} for {target}, and docs/MEASURED.md has {rows[0][0]}. If the engine has changed, run\n'
                 '    ./dev archive --write')


def write(kit, archive, found):
    """Records the archive, then what it becomes on the other processors."""
    put(ROW, f'| `{kit}` | `{found}` | {len(archive):,} |')
    print(f'archive: {found} recorded')
    for target, name in TARGETS.items():
        out = os.path.join(ROOT, 'target', 'cross', name)
        subprocess.run(['bash', os.path.join(ROOT, 'packaging', 'cross', 'build.sh'), target, out], check=True, stdout=subprocess.DEVNULL)
        content, sum_of = read(out)
        put(target_row(target), f'| {target} | `{sum_of}` | {len(content):,} |')
        print(f'archive: {sum_of} recorded for {target}')


def main(words):
    if words not in ([], ['--write']) and not (len(words) == 3 and words[0] == '--of' and words[1] in TARGETS):
        sys.exit('usage: ./dev archive [--write | --of TARGET FILE]')
    if shutil.which('rt') is None or not os.path.exists(ARCHIVE):
        sys.exit('archive: build it first, with `bash packaging/archive.sh` (Rattle kit rattle-kit-13f or later)')
    kit = subprocess.run(['rt', 'version'], capture_output=True, text=True, check=True).stdout.strip()
    if len(ROW.findall(text_of())) != 1:
        sys.exit('archive: docs/MEASURED.md does not have one row with a kit and a SHA-256')
    archive, found = read(ARCHIVE)
    if not words:
        compare(kit, found)
    elif words[0] == '--of':
        compare_target(kit, words[1], words[2])
    else:
        write(kit, archive, found)


if __name__ == '__main__':
    main(sys.argv[1:])

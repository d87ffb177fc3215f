#!/usr/bin/env python3
# SPDX-License-Identifier: LicenseRef-Wengeludo
"""One version everywhere: the definition and the code of the crate `version`, the C header, the Rust crate, the newest heading of
CHANGELOG.md, docs/LINKING.md, and the Python packages where there are any. Prints it; status 1 where two differ."""
import os
import re
import sys

ROOT = os.path.abspath(os.path.join(os.path.dirname(__file__), '..'))
PARTS = r'{0} = (\d+)[\s\S]*?{1} = (\d+)[\s\S]*?{2} = (\d+)'
PLACES = [
    ('crates/version/specs/Version.antt', PARTS.format('major', 'minor', 'patch')),
    ('crates/version/src/lib.rt', PARTS.format('MAJOR: u32', 'MINOR: u32', 'PATCH: u32')),
    ('include/wengeludo_balance.h', r'VERSION_MAJOR (\d+)\n#define WENGELUDO_VERSION_MINOR (\d+)\n#define WENGELUDO_VERSION_PATCH (\d+)'),
    ('bindings/rust/Cargo.toml', r'^version = "(\d+)\.(\d+)\.(\d+)"'),
    ('bindings/rust/src/lib.rs', r'pub const VERSION: u32 = ([\d_]+);'),  # one number
    ('bindings/js/package.json', r'^    "version": "(\d+)\.(\d+)\.(\d+)"'),
    ('bindings/js/wengeludo.js', r"^export const VERSION = '(\d+)\.(\d+)\.(\d+)'"),
    ('CHANGELOG.md', r'^## (\d+)\.(\d+)\.(\d+)'),
    ('docs/LINKING.md', r'^\*\*v(\d+)\.(\d+)\.(\d+)\*\*'),
]
# These are made elsewhere in the repository, and looked at where they are.
PYTHON = [(f'{folder}/pyproject.toml', r'^version = "(\d+)\.(\d+)\.(\d+)"') for folder in ('bindings/python', 'desk')]
PYTHON.append(('desk/src/wengeludo/__init__.py', r'^__version__ = "(\d+)\.(\d+)\.(\d+)"'))


def numbers(told):
    """Three numbers, or one that has two digits for each of the last two."""
    if len(told) == 3:
        return [int(part) for part in told]
    number = int(told[0].replace('_', ''))
    return [number // 10000, number // 100 % 100, number % 100]


def main():
    found = {}
    for path, pattern in PLACES + [place for place in PYTHON if os.path.exists(os.path.join(ROOT, place[0]))]:
        with open(os.path.join(ROOT, path), encoding='utf-8') as file:
            told = re.search(pattern, file.read(), re.M)
        if told is None and (path, pattern) in PYTHON:
            continue  # it takes its version from elsewhere
        if told is None:
            sys.exit(f'versions: none in {path}')
        found[path] = '.'.join(str(part) for part in numbers(told.groups()))
    if len(set(found.values())) != 1:
        sys.exit('versions: ' + ', '.join(f'{version} in {path}' for path, version in found.items()))
    print(f'versions: {next(iter(found.values()))} in {len(found)} places')


if __name__ == '__main__':
    main()

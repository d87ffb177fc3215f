#!/usr/bin/env python3
# SPDX-License-Identifier: LicenseRef-Wengeludo
"""Every source file outside crates/ and reference/ names the licence in one line, as SPDX has it; LICENCE is its text.

    ./dev texts spdx           names the files that do not; status 1 if there are any
    ./dev texts spdx --write   puts the line into them: behind the first comment of C and shell, else at the top
"""
import os
import re
import subprocess
import sys

ROOT = os.path.abspath(os.path.join(os.path.dirname(__file__), '..'))
FOLDERS = ('bench', 'bindings', 'desk', 'include', 'packaging', 'programs', 'tests', 'tools')
LINE = 'SPDX-License-Identifier: ' + 'LicenseRef-Wengeludo'
MARKS = {'.py': '# {}', '.sh': '# {}', '.rs': '// {}', '.mjs': '// {}', '.ts': '// {}', '.c': '/* {} */', '.h': '/* {} */', '.cpp': '/* {} */', '.hpp': '/* {} */'}
HEAD = {'.sh': r'(?:#.*\n)+', '.py': r'(?:#!.*\n)?', '.mjs': r'(?:#!.*\n)?', '.rs': '', '.ts': ''}
COMMENT = r'(?:/\*(?:[^*]|\*(?!/))*\*/[ \t]*\n)?'


def sources():
    """The source files that are kept in the repository, or are new in it."""
    told = subprocess.run(['git', '-C', ROOT, 'ls-files', '-co', '--exclude-standard', '-z', *FOLDERS], capture_output=True, text=True)
    paths = told.stdout.split('\0') if told.returncode == 0 else walked()  # an unpacked archive of the sources is no clone
    return sorted(path for path in paths if os.path.splitext(path)[1] in MARKS and os.path.isfile(os.path.join(ROOT, path)))


def walked():
    """All files of the folders but those that are built."""
    for top in FOLDERS:
        for folder, below, names in os.walk(os.path.join(ROOT, top)):
            below[:] = [name for name in below if name not in ('target', 'build', '__pycache__')]
            yield from (os.path.relpath(os.path.join(folder, name), ROOT) for name in names)


def text_of(path):
    with open(os.path.join(ROOT, path), encoding='utf-8', newline='') as file:
        return file.read()


def marked(path, text):
    """The text with the line in it."""
    kind = os.path.splitext(path)[1]
    ends = re.match(HEAD.get(kind, COMMENT), text).end()
    return text[:ends] + MARKS[kind].format(LINE) + '\n' + text[ends:]


def main():
    paths = sources()
    lacking = [path for path in paths if LINE not in text_of(path)]
    if sys.argv[1:] == ['--write']:
        for path in lacking:
            new = marked(path, text_of(path))
            with open(os.path.join(ROOT, path), 'w', encoding='utf-8', newline='') as file:
                file.write(new)
        print(f'spdx: {len(lacking)} files marked')
    elif sys.argv[1:]:
        sys.exit(__doc__)
    elif lacking:
        sys.exit('spdx: no licence line (./dev texts spdx --write puts it there): ' + ', '.join(lacking))
    else:
        print(f'spdx: {len(paths)} files name {LINE.split()[-1]}')


if __name__ == '__main__':
    main()

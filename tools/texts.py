#!/usr/bin/env python3
# SPDX-License-Identifier: LicenseRef-Wengeludo
"""Every check of the texts: what is made from lists is what the lists make, and what a text names is there.

    ./dev texts                   all of them; status 1 if one fails, after all have been run
    ./dev texts --write           makes anew what is made, then checks
    ./dev texts --list            names them, with what each holds
    ./dev texts NAME [WORDS ..]   one of them; --write makes its texts anew, if it makes any
"""
import ast
import os
import subprocess
import sys

TOOLS = os.path.dirname(os.path.abspath(__file__))
CHECKS = ('versions', 'refusals', 'crate_list', 'edits', 'glossary', 'legible', 'audit', 'picture', 'believe', 'names', 'style', 'spdx')
ALONE = ('old_crates',)  # run by name
WHOLE = ('versions', 'crate_list', 'edits', 'glossary', 'believe', 'names')  # these need every crate that the texts tell of
LEFT = os.path.join(TOOLS, '..', 'PORTING-LEFT.md')  # crates that are still to come
MADE = ('refusals', 'crate_list', 'edits', 'believe', 'picture', 'spdx')  # these take --write


def run(name, *words):
    """Whether a check passes, and its last line; all that it says, if it does not."""
    ran = subprocess.run([sys.executable, os.path.join(TOOLS, f'{name}.py'), *words], capture_output=True, text=True, stdin=subprocess.DEVNULL)
    said = (ran.stdout + ran.stderr).rstrip('\n')
    print(said.split('\n')[-1] or f'{name}: nothing to be made anew' if ran.returncode == 0 else f'{said}\ntexts: {name} FAILED', flush=True)
    return ran.returncode == 0


def sentence(name):
    with open(os.path.join(TOOLS, f'{name}.py'), encoding='utf-8') as file:
        return ' '.join(ast.get_docstring(ast.parse(file.read())).split('\n\n')[0].split())


def main(words):
    if words and words[0] in CHECKS + ALONE:
        os.execv(sys.executable, [sys.executable, os.path.join(TOOLS, f'{words[0]}.py'), *words[1:]])
    if words == ['--list']:
        for name in CHECKS + ALONE:
            print(f'{name + (" *" if name in MADE else ""):13} {sentence(name)}')
        print('* makes its texts anew with --write')
        return
    if words not in ([], ['--write']):
        sys.exit(__doc__.strip())
    made = all([run(name, '--write') for name in MADE]) if words else True
    left = WHOLE if os.path.exists(LEFT) else ()
    for name in left:
        print(f'texts: {name} is SKIPPED, as crates are still to come: PORTING-LEFT.md')
    if not all([run(name) for name in CHECKS if name not in left]) or not made:
        sys.exit(1)


if __name__ == '__main__':
    main(sys.argv[1:])

#!/usr/bin/env python3
# SPDX-License-Identifier: LicenseRef-Wengeludo
"""Names that nothing uses, specs that lean on proofs, and how the crates lean on one another.

    ./dev unused            names defined at the top of a .antt file, or functions of src/, that occur nowhere else
    ./dev unused --leans    for each crate the files that it uses of other crates; specs that cite proofs are marked

A place to look, not a verdict: a theorem that is the end of the reading is cited by nothing. What the prover itself looks for in a
function's Invariants.antt and Answers.antt (or Proof.antt) is left out.
"""
import os
import re
import sys
from collections import Counter

from made import ROOT

USED = re.compile(r'Rattle\.(\w+)\.(specs|proofs)\.([\w.]+?)(?:\.\{|\s|$|;)')
WORD = re.compile(r'[^\s(){};,.\[\]⌜⌝`"]+')
DEFINED = re.compile(r'^(?:(?:abbrev|unfoldable) )?(?:pub )?(?:abbrev |unfoldable )?([^\s:(){}]+) :', re.M)


def read_all():
    found = {}
    for folder, _, names in sorted(os.walk('crates')):
        for name in sorted(names) if '/out' not in folder else ():
            if name.endswith(('.antt', '.rt')):
                with open(f'{folder}/{name}', encoding='utf-8') as file:
                    found[f'{folder}/{name}'] = file.read()
    return found


def leans(files):
    for crate in sorted(os.listdir('crates')):
        seen, bad = {}, set()
        for path, text in files.items():
            parts = path.split('/')
            if parts[1] != crate:
                continue
            for other, kind, name in USED.findall(text):
                if other != crate:
                    seen.setdefault(other, set()).add(f'{kind}/{name}')
                if parts[2] == 'specs' and kind == 'proofs':
                    bad.add(f'{path} cites {other}/proofs/{name}')
        print(f'{crate}: ' + '; '.join(f'{other} ({", ".join(sorted(used))})' for other, used in sorted(seen.items())))
        for line in sorted(bad):
            print(f'  SPECS CITE PROOFS  {line}')


def unused_laws(path, text, count):
    """Names of a file that occur no more often than where they are defined."""
    for name in DEFINED.findall(text):
        own = len(re.findall(rf'(?m)^{re.escape(name)}(?=\s)', text))
        inline = len(re.findall(rf'(?m)^(?:(?:abbrev|unfoldable) )?pub (?:abbrev |unfoldable )?{re.escape(name)} :', text))
        if count[name] <= own + inline and name != 'use':
            print(f'{path}: {name}')


def unused_functions(path, text, said):
    for name in re.findall(r'^\s*(?:pub )?fn (\w+)', text, re.M):
        if name != 'main' and f'extern "C" fn {name}' not in text and said[name] <= 1:
            print(f'{path}: fn {name}')


def unused(files):
    bodies = {path: re.sub(r'--.*|//.*', '', text) for path, text in files.items()}
    count = Counter(word for body in bodies.values() for word in WORD.findall(body))
    code = [re.sub(r'//.*', '', text) for path, text in files.items() if path.endswith('.rt')]
    said = Counter(word for text in code for word in re.findall(r'\b\w+\b', text))
    for path, text in files.items():
        if path.endswith('.rt'):
            unused_functions(path, text, said)
        elif not path.endswith(('/Proof.antt', '/Invariants.antt', '/Answers.antt')):
            unused_laws(path, text, count)


def main(words):
    if words not in ([], ['--leans']):
        sys.exit(__doc__.strip())
    os.chdir(ROOT)
    (leans if words else unused)(read_all())


if __name__ == '__main__':
    main(sys.argv[1:])

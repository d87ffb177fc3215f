#!/usr/bin/env python3
# SPDX-License-Identifier: LicenseRef-Wengeludo
"""The crates can be read: the rules of CONTRIBUTING.md on functions, contracts and proofs that a program can tell.

    ./dev texts legible    status 1 where a rule is broken, with each place

- A line of code has at most 160 characters, one of definitions 190, one of a proof 220, one that answers goals 600 (today's spelling of
  names is longer, and code stays as it was broken before); a chain has at most six `.before`, but in answers.
- A function's body is under 40 lines, with one loop at most; it has at most 7 parameters, an exported call as many as C wants.
- What a contract says in one clause has at most 200 characters: more than that goes through a definition.
- A file imports no name that it does not use.
- Every public definition and law has a line above it that says what it is. (A function's own theorem, `…_spec`, is what its file is
  about; fields of a record and constructors have the line of their type. What answers a function's goals has their names.)
"""
import glob
import os
import re
import sys

from made import ROOT

LINE, ANSWER = {'src': 160, 'specs': 190, 'proofs': 220}, 600
CHAIN, BODY, PARAMETERS, LOOPS, CONTRACT = 6, 40, 7, 1, 200
FUNCTION = re.compile(r'^( *)(?:pub )?(extern "C" )?fn (\w+)\(', re.M)
CLAUSE = re.compile(r'^ *(?:requires|ensures)[^{\n]*\{(.*?)\}$', re.M | re.S)
GOALS = ('/Invariants.antt', '/Answers.antt')  # what stands there has the names of a function's goals
IMPORT = re.compile(r'^(?:ghost )?use \S+?\.\{([^}]*)\};?$', re.M)
USE = re.compile(r'^use (?:\w+::)*(\w+);$', re.M)
LAW = re.compile(r'( *)(?:(?:abbrev|unfoldable) )*pub (?!mod |use )(?:(?:record|data) )?(\S+)')

# Imports that nothing uses since the move to today's kit: taking one out proves every crate above anew. The set can only shrink.
LEFT = {
    'certify_def/proofs/Answer': {'values'},
    'flow_bridges/proofs/taken_by/Answers': {'⊎_elim'},
    'foreign_call/proofs/check_sheet/Answers': {'rules'},
    'newton_descend/proofs/greatest/Answers': {'⊎_elim'},
    'newton_descend/proofs/guesses/least_into/Answers': {'⊎_elim'},
    'newton_descend/proofs/nets/greatest_net/Answers': {'⊎_elim'},
    'plant_def/proofs/Loop': {'◌⊎◌', '⊎_elim'},
    'purchase_choose/proofs/Telling': {'not'},
    'ranged_def/proofs/Trip': {'moved'},
    'sheet_def/proofs/Unfit': {'not'},
    'sheet_entries/proofs/Entering': {'values'},
    'sheet_read/proofs/Loop': {'◌⊎◌', '⊎_elim', 'tag_of', 'declared'},
    'solve_compress/proofs/raise/Answers': {'⊎_elim', 'not-true', 'not-false'},
    'solve_compress/proofs/sunk/Answers': {'⊎_elim'},
    'solve_def/proofs/Counted': {'sum'},
    'solve_forest/proofs/unreached/Answers': {'⊎_elim'},
    'solve_path/proofs/walking/nearest/Answers': {'⊎_elim'},
    'solve_settle/proofs/clamp/Answers': {'⊎_elim'},
    'solve_start/proofs/start/Answers': {'Start'},
    'solve_ties/proofs/tie_all/Answers': {'⊎_elim'},
    'survey_count/proofs/count_all/Answers': {'⊎_elim'},
    'transmitter_def/proofs/Sendings': {'◌⊎◌', '⊎_elim', 'tag_of', 'declared'},
}


def lines(path, text):
    """Lines that are too long, and chains."""
    most = ANSWER if path.endswith(GOALS) else LINE[path.split('/')[2]]
    for number, line in enumerate(text.split('\n'), 1):
        if len(line) > most:
            yield f'{path}:{number}: {len(line)} characters'
        if not path.endswith(GOALS) and re.search(r'(?:\.before ?){%d}' % (CHAIN + 1), line):
            yield f'{path}:{number}: a chain of more than {CHAIN} .before'


def functions(path, text):
    """Functions that are too long, and contracts."""
    for found in FUNCTION.finditer(text):
        rest = text[found.end():]
        head, body = re.split(rf'^{found[1]}\{{$|\{{$', rest[:re.search(rf'^{found[1]}\}}$', rest, re.M).end()], maxsplit=1, flags=re.M)
        count = len(re.findall(r'\w+: ', head.split(')\n')[0].split(') ->')[0])) + head.lstrip().startswith(('self', '&self', '&mut self'))
        loops = len(re.findall(r'^ *(?:while|loop|for)\b', body, re.M))
        if body.count('\n') >= BODY:
            yield f'{path}: fn {found[3]} has {body.count(chr(10))} lines'
        if count > PARAMETERS and not found[2] and not path.startswith('crates/wengeludo/'):
            yield f'{path}: fn {found[3]} has {count} parameters'
        if loops > LOOPS:
            yield f'{path}: fn {found[3]} has {loops} loops'
        for clause in CLAUSE.finditer(head):
            said = re.sub(r'\s+', ' ', clause[1]).strip()
            if len(said) > CONTRACT:
                yield f'{path}: fn {found[3]}: {len(said)} characters in one clause of its contract'


def imports(path, text):
    """Names that a file imports and does not use. An operator `◌≤◌` is used where its sign stands."""
    body = re.sub(r'--.*|//.*', '', re.sub(r'^(?:(?:pub |ghost )?use|pub mod) .*$', '', text, flags=re.M))
    words = set(re.findall(r'[^\s(){}.,;⌜⌝]+', body)) | set(re.findall(r'\w+', body))
    left = LEFT.get(path.removeprefix('crates/').removesuffix('.antt'), ())
    for found in IMPORT.finditer(text):
        for name in found[1].split(','):
            if name.strip() in left:
                continue
            if not all(sign in words for sign in name.strip().split('◌') if sign) and name.strip() not in words:
                yield f'{path}: {name.strip()} is imported and not used'
    for found in USE.finditer(text):
        if found[1] not in words:
            yield f'{path}: {found[1]} is imported and not used'


def laws(path, text):
    """Public definitions and laws without a line above them."""
    above, modules = '', []
    for number, line in enumerate(text.split('\n'), 1):
        inset = len(line) - len(line.lstrip())
        if line.strip() and not line.lstrip().startswith('--'):
            modules = [at for at in modules if at < inset]
            found = LAW.match(line)
            if found and len(modules) * 2 == inset and not found[2].endswith('_spec') and not above.lstrip().startswith('--'):
                yield f'{path}:{number}: no line above {found[2]}'
            if line.lstrip().startswith('module '):
                modules.append(inset)
        above = line


def main(words):
    if words:
        sys.exit(__doc__.strip())
    os.chdir(ROOT)
    found, files = [], 0
    for part in LINE:
        for path in sorted(glob.glob(f'crates/*/{part}/**/*.*t', recursive=True)):
            with open(path, encoding='utf-8') as file:
                text = file.read()
            files += 1
            found += lines(path, text)
            found += imports(path, text)
            found += functions(path, text) if part == 'src' else [] if path.endswith(GOALS) else laws(path, text)
    print('\n'.join(found) if found else f'{files} files can be read: lines, chains, functions, contracts, imports, and a line above each public law')
    sys.exit(1 if found else 0)


if __name__ == '__main__':
    main(sys.argv[1:])

#!/usr/bin/env python3
# SPDX-License-Identifier: LicenseRef-Wengeludo
"""Every file, crate, definition's file and edit that the texts name is there, and every crate and edit is named.

    ./dev texts names          status 1 where one is not
    ./dev texts names --list   prints each name, and what it stands for

A name is a path below a folder of the repository, anywhere in a text; in a piece of code also `crate/specs/File`, `crate/proofs/File`,
`crate/src/file` and `crate/edit`. `{a,b}` stands for both, `*` for anything. A relative link must lead somewhere. docs/EDITS.md names
every edit, docs/CRATES.md and crates.txt every crate. A piece of code that is one word, or two with a dot or colons between them,
stands in the code: a definition, field, function or variable that was renamed is found so. docs/changes, docs/PORT.md, docs/DESIGN-PASS.md, docs/LOOK-BACK.md and CHANGELOG.md
tell of older versions and are left out.
"""
import glob
import os
import re
import sys

ROOT = os.path.abspath(os.path.join(os.path.dirname(__file__), '..'))
TEXTS = ['README.md', 'CONTRIBUTING.md', 'docs/*.md', 'docs/decisions/*.md', 'samples/README.md', 'reference/README.md', 'desk/*.md', 'docs/desk/*.md',
         'SECURITY.md', 'bindings/*/README.md', 'include/*.h', 'test_all.sh', '.ci/run']
FOLDERS = r'(?:crates|docs|include|bindings|programs|tests|bench|packaging|tools|reference|samples|desk|\.ci)'
TESTED = ('desk', 'bindings/python', 'bindings/rust')  # a command that is run in one of these names its own tests
PATH = re.compile(r'(?<![\w/.$-])' + FOLDERS + r'/[\w./{},*-]*[\w}*]')
CODE = re.compile(r'`([^`\n]+)`')
WORD = re.compile(r'(?<![\w/.$-])[a-z0-9_]+/[\w/{},.*-]*[\w}*]')
LINK = re.compile(r'\]\(([^)#:]+)(?:#[^)]*)?\)')
ROW = re.compile(r'^\| `([a-z0-9_]+/[a-z0-9_]+)` \|', re.M)  # an edit's own row
TOKEN = re.compile(r'(?=([\w-]+))(\w+)')  # with its hyphens, and up to the first of them
KIT = re.compile(r'rattle-kit|sha256sum$|[A-Z_]+_PROOFS$|NOT_COVERED$')  # not ours
SUM = re.compile(r'[0-9a-f]{64}')  # a SHA-256
FORM = re.compile(r'\b(?:NAME|EDIT|FAMILY)(?:\b|_)')  # any crate, any edit, any family of commands


def read(path):
    with open(os.path.join(ROOT, path), encoding='utf-8') as file:
        return file.read()


def opened(name):
    """The names that a name with braces stands for."""
    found = re.search(r'\{([^{}]*)\}', name)
    if found is None:
        return [name]
    return [each for part in found[1].split(',') for each in opened(name[:found.start()] + part + name[found.end():])]


def is_there(path):
    return any(glob.glob(os.path.join(ROOT, path + end)) for end in ('', '.antt', '.rt', '.py', '.edit'))


def of_crate(name, crates):
    """What `crate/rest` may stand for; nothing where it names no crate."""
    crate, rest = name.split('/', 1)
    if crate not in crates and not re.match('(specs|proofs)/', rest):
        return []
    return [name] + [f'crates/{crate}/{folder}{rest}' for folder in ('', 'must-fail/', 'proofs/', 'src/')]


def names(path, crates):
    """The names in a text, each with the places where what it stands for may be."""
    text = read(path)
    for name in PATH.findall(text):
        for each in opened(name):
            if not FORM.search(each):
                yield each, [each] + [f'{folder}/{each}' for folder in TESTED if each.startswith('tests/')]
    for name in (word for code in CODE.findall(text) for word in WORD.findall(code)):
        for each in opened(name):
            places = of_crate(each, crates)
            if places and not FORM.search(each):
                yield each, places
    for edit in ROW.findall(text) if path == 'docs/EDITS.md' else []:
        yield edit, [f"crates/{edit.replace('/', '/must-fail/')}.edit"]
    for link in LINK.findall(text) if path.endswith('.md') else []:
        yield link, [os.path.normpath(os.path.join(os.path.dirname(path), link))]


def written():
    """Every word of the code, its files and folders."""
    words = set()
    for folder, below, files in os.walk(ROOT):
        below[:] = [name for name in below if name not in ('target', 'out', 'docs', 'data', '.git', 'corpus')]
        words.update(os.path.relpath(folder, ROOT).split(os.sep))
        for name in files:
            words.update(re.split(r'[.]', name))
            if name == 'run' or re.search(r'\.(rt|antt|py|rs|c|h|hpp|cpp|sh|toml|txt|tsv|cmake|in|mjs|js|ts)$', name):
                with open(os.path.join(folder, name), encoding='utf-8') as file:
                    words.update(word for line in file for both in TOKEN.findall(line) for word in both)
    return words


def unwritten(path, words):
    """Pieces of code in a text that stand nowhere in the code."""
    for code in sorted(set(CODE.findall(read(path)))):
        if FORM.search(code):
            continue
        if re.fullmatch(r'[A-Za-z][\w-]*(?:(?:\.|::)[\w-]+)?', code) and not KIT.match(code) and not SUM.fullmatch(code):
            if not set(re.split(r'\.|::', code)) <= words and not (path == 'docs/EDITS.md' and '-' in code):  # a goal of the older kit
                yield f'{path} names {code}, which stands nowhere in the code'


def unnamed(crates):
    """Crates and edits that the texts leave out."""
    listed = set(re.findall(r'^(\w+)[^:\n]*:', read('crates.txt'), re.M))
    drawn = set(re.findall(r'\w+', read('docs/CRATES.md')))
    edits = {each for code in CODE.findall(read('docs/EDITS.md')) for each in opened(code)}
    for crate in sorted(crates):
        if crate not in listed:
            yield f'crate {crate} is not in crates.txt'
        if crate not in drawn:
            yield f'crate {crate} is not in docs/CRATES.md'
    for path in sorted(glob.glob(os.path.join(ROOT, 'crates', '*', 'must-fail', '*.edit'))):
        parts = path.split(os.sep)
        if f'{parts[-3]}/{parts[-1][:-5]}' not in edits:
            yield f'edit {parts[-3]}/{parts[-1][:-5]} is not in docs/EDITS.md'


def main(words):
    if words not in ([], ['--list']):
        sys.exit('usage: ./dev texts names [--list]')
    crates = {os.path.basename(path) for path in glob.glob(os.path.join(ROOT, 'crates', '*'))}
    faults, count, words_written = list(unnamed(crates)), 0, written()
    texts = sorted(os.path.relpath(path, ROOT) for pattern in TEXTS for path in glob.glob(os.path.join(ROOT, pattern)))
    texts = [path for path in texts if path not in ('docs/PORT.md', 'docs/DESIGN-PASS.md', 'docs/LOOK-BACK.md')]
    for path in texts:
        for name, places in {name: places for name, places in names(path, crates)}.items():
            count += 1
            found = [place for place in places if is_there(place)]
            if words:
                print(f'{path}: {name}: {found[0] if found else "NOT THERE"}')
            if not found:
                faults.append(f'{path} names {name}, which is not there')
        if path.endswith('.md'):
            faults += unwritten(path, words_written)
    for fault in faults:
        print(f'names: {fault}', file=sys.stderr)
    if faults:
        sys.exit(1)
    print(f'names: {count:,} names in {len(texts)} texts, {len(crates)} crates')


if __name__ == '__main__':
    main(sys.argv[1:])

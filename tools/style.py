#!/usr/bin/env python3
# SPDX-License-Identifier: LicenseRef-Wengeludo
"""The style of the texts, as far as a program can tell it: sentences, words that CONTRIBUTING.md asks not to use, words by document.

    ./dev texts style           status 1 if a rule is broken, with each place
    ./dev texts style --words   prints the words of each document, written by hand, beside the most that it may have
    ./dev texts style FILE ..   the rules on sentences and words, for these files alone

- A sentence has at most 40 words. A piece of code counts as one word; an item of a list and a cell of a table are texts of their own.
- "if" and not "where" for a condition; "is" and not "stands"; a noun before "who"; no verb before its subject ("Compared are"); "the
  desk", and "a real-number solver" for another's.
- An entry of docs/decisions has at most 80 words and says what would change it.
- A document has at most the words of LIMITS, and all together at most 33,000. What is made by a script (between its two marks), blocks of
  code, docs/changes and the pages of the move to today's kit are not counted.

What a rule must let pass is in ALLOWED, with its document. tools/wrong/style.md breaks every rule on sentences and words, and is read first:
a rule that it does not break is an error.
"""
import glob
import os
import re
import subprocess
import sys

from made import ROOT

LONGEST, ENTRY, TOGETHER = 40, 80, 33000
WRONG = 'tools/wrong/style.md'
MOVE = ('docs/PORT.md', 'docs/PORT-OTHER.md', 'docs/DESIGN-PASS.md', 'docs/LOOK-BACK.md', 'PORTING-LEFT.md')  # these quote old and new words side by side
LIMITS = {
    'README.md': 950, 'CONTRIBUTING.md': 900, 'CHANGELOG.md': 500, 'SECURITY.md': 250, 'bindings/js/README.md': 500, 'bindings/python/README.md': 600,
    'bindings/rust/README.md': 500, 'desk/README.md': 2100, 'docs/ARCHITECTURE.md': 1400, 'docs/BELIEVE.md': 100, 'docs/CRATES.md': 100, 'docs/DECISIONS.md': 200,
    'docs/EDITS.md': 500, 'docs/FORMATS.md': 1100, 'docs/GLOSSARY.md': 2000, 'docs/GUIDE.md': 2200, 'docs/HISTORY.md': 1100, 'docs/HOWTO.md': 1500,
    'docs/LINKING.md': 900, 'docs/MEASURED.md': 300, 'docs/PROMISES.md': 3800, 'docs/PROVING.md': 2700, 'docs/PUBLISHED.md': 800,
    'docs/REAL-NUMBERS.md': 700, 'docs/RELEASING.md': 400, 'docs/SOLVER.md': 2400, 'docs/SPEED.md': 1200, 'docs/TESTING.md': 1300,
    'docs/decisions': 4700, 'docs/desk/browser.md': 500, 'docs/desk/wide.md': 700, 'reference/README.md': 1500, 'samples/README.md': 950,
}
TICS = [
    (r'(?:^|[.;:|] )Where\b(?! (?:to|it is|a line|from)\b)[^?.]{0,90},', '"If …,", not "Where …,"'),
    (r'\b(?:only|also|even|except|but|exactly|unless|is|are|or|told|done|so) where\b', '"if" for a condition, not "where"'),
    (r'\b(?:stands?|stood)\b(?! for\b|-)', '"is", not "stands"'),
    (r'(?:^|[.;:] )Who\b[^?.|]*[.|]', 'a noun before "who"'),
    (r'\b(?:for|by|to|of|from|that|and) who(?:ever)?\b', 'a noun before "who"'),
    (r'(?:^|[.;:] )(?:Compared|Wanted|Told|Shown|Tried|Asked|Looked|Counted|Added|Left|Meant) (?:is|are|was|were)\b', 'the subject first'),
    (r'\bso many\b', '"as many", or the number'),
    (r'\bcomes? to the same\b', '"is the same"'),
    (r'\bdesk[- ]tool', '"the desk", or "a real-number solver"'),
]
ALLOWED = {  # document: what the text has
}
CODE = re.compile(r'`[^`]*`')
LINK = re.compile(r'!?\[([^\]]*)\]\([^)]*\)')
QUOTED = re.compile(r'"[^"]{1,20}"')  # a word that is spoken of
MARK = re.compile(r'\s*<!--(.*?)-->\s*$')


def documents():
    """Every text, by its path; in a copy without a history, every one that is there."""
    listed = subprocess.run(['git', 'ls-files', '-co', '--exclude-standard', '*.md'], cwd=ROOT, capture_output=True, text=True, check=False)
    inside = os.path.exists(os.path.join(ROOT, '.git')) and listed.returncode == 0
    found = listed.stdout.split('\n') if inside else walked()
    return [path for path in sorted(found) if path and path != WRONG and path not in MOVE and not path.startswith('docs/changes/') and os.path.exists(os.path.join(ROOT, path))]


def walked():
    for folder, below, files in os.walk(ROOT):
        below[:] = [name for name in below if name not in ('target', 'build', '.git', '.pytest_cache') and not name.endswith('.egg-info')]
        yield from (os.path.relpath(os.path.join(folder, name), ROOT) for name in files if name.endswith('.md'))


def by_hand(path):
    """The numbered lines of a text that a person wrote: no block of code, nothing between the marks of a script."""
    made = block = False
    with open(os.path.join(ROOT, path), encoding='utf-8') as file:
        for number, line in enumerate(file.read().split('\n'), 1):
            mark = MARK.match(line)
            if line.startswith('```'):
                block = not block
            elif mark and not block:
                made = 'end of' not in mark[1]
            elif not made and not block and not line.startswith('    '):
                yield number, line


def count(text):
    return sum(1 for word in LINK.sub(r'\1', text).split() if re.search(r'\w', word))


def pieces(path):
    """The texts of a document, each with the number of its first line: a paragraph, an item, a cell."""
    first, found = 0, ''
    for number, line in list(by_hand(path)) + [(0, '')]:
        plain = line.strip()
        if plain.startswith('|'):
            for part in re.split(r'(?<!\\)\||; ', plain):
                yield number, part.strip(), True
        elif not plain or re.match(r'#|[-*] |\d+\. |>', plain):
            if found:
                yield first, found, False
            first, found = number, re.sub(r'^(#+|[-*>]|\d+\.) ', '', plain) if plain else ''
            if plain.startswith('#'):
                first, found = 0, ''
        else:
            first, found = first or number, f'{found} {plain}'.strip()
        if not found:
            first = 0
    if found:
        yield first, found, False


def sentences(text):
    plain = CODE.sub('Code', LINK.sub(r'\1', text)).replace('**', '').replace('*', '')
    return re.split(r'(?<=[.!?])["”)]* (?=["“(]?[A-Z0-9…])', plain)


def faults(path):
    allowed = ALLOWED.get(path, [])
    for number, text, _ in pieces(path):
        for sentence in sentences(text):
            if count(sentence) > LONGEST and not any(each in sentence for each in allowed):
                yield f'{path}:{number}: a sentence of {count(sentence)} words: {sentence[:60]}…'
        plain = QUOTED.sub('Word', LINK.sub(r'\1', CODE.sub('Code', text)).replace('**', '').replace('*', ''))
        for pattern, rule in TICS:
            for found in re.finditer(pattern, plain):
                around = plain[max(0, found.start() - 20):found.end() + 20]
                if not any(each in around for each in allowed):
                    yield f'{path}:{number}: {rule}: …{around}…'


def blind():
    """Rules that the wrong text does not break."""
    seen = '\n'.join(faults(WRONG))
    return [f'{WRONG} does not break: {rule}' for rule in (f'a sentence of {LONGEST + 1} words', *(rule for _, rule in TICS)) if rule not in seen]


def entries(path):
    """The entries of decisions: at most so many words, and what would change them."""
    with open(os.path.join(ROOT, 'docs/DECISIONS.md'), encoding='utf-8') as index:
        if f'({path[len("docs/"):]})' not in index.read():
            yield f'{path}: docs/DECISIONS.md does not link it'
    for number, text, cell in pieces(path):
        if not cell and text.startswith('**'):
            if count(text) > ENTRY:
                yield f'{path}:{number}: an entry of {count(text)} words, {ENTRY} are the most'
            if not re.search(r'\bChanges\b', text):
                yield f'{path}:{number}: an entry that does not say what would change it'


def words():
    """Words by hand of each document; those of docs/decisions together."""
    found = {}
    for path in documents():
        name = 'docs/decisions' if path.startswith('docs/decisions/') else path
        found[name] = found.get(name, 0) + sum(count(line) for _, line in by_hand(path))
    return found


def main(given):
    found = words()
    if given == ['--words']:
        for path, number in found.items():
            print(f'{number:6,}  {LIMITS.get(path, ""):>6}  {path}')
        print(f'{sum(found.values()):6,}  {TOGETHER:>6}  together')
        return
    if any(word.startswith('-') for word in given):
        sys.exit('usage: ./dev texts style [--words | FILE ..]')
    told = blind() + [fault for path in given or documents() for fault in faults(path)]
    if not given:
        told += [fault for path in documents() if path.startswith('docs/decisions/') for fault in entries(path)]
        told += [f'{path}: {number:,} words by hand, {LIMITS[path]:,} are the most' for path, number in found.items() if number > LIMITS.get(path, number)]
        if sum(found.values()) > TOGETHER:
            told.append(f'{sum(found.values()):,} words by hand in all documents, {TOGETHER:,} are the most')
    for fault in told:
        print(f'style: {fault}', file=sys.stderr)
    if told:
        sys.exit(1)
    print(f'style: {sum(found.values()):,} words by hand in {len(found)} documents, no sentence over {LONGEST} words')


if __name__ == '__main__':
    main(sys.argv[1:])

#!/usr/bin/env python3
# SPDX-License-Identifier: LicenseRef-Wengeludo
"""A mutation run: small changes of the desk, the bindings, C, C++, Rust and what installs, drawn by a seed; each must fail a test of the
short run that is meant for it.

    ./dev mutants                       300 mutants from seed 1, by the short run
    ./dev mutants --count 50 --seed 7   other ones
    ./dev mutants --long                by the long run's numbers of draws
    ./dev mutants --only desk,rust      of some parts
    ./dev mutants --list                prints them, and tries none
    ./dev mutants --map FILE            of the desk by the tests that run the changed line (tools/seen.py), the map kept in FILE
    ./dev mutants --jobs 3              three copies of the tree at a time
    ./dev mutants --again FILE          those of a log that survived, once more

A comparison is turned, a number moved by one, a sign or a word exchanged, a line dropped, a text changed. A change that no compiler takes is
no mutant, and another is drawn in its place. A survivor is printed with its file, line and change; --log FILE keeps all of them.
"""

import argparse
import ast
import io
import random
import re
import sys
import threading
import time
import tokenize
from pathlib import Path

import seen
from tried import ROOT, Tree

# Part, how many of a hundred, and the files.
AREAS = (
    ('desk', 50, ('desk/src/wengeludo/**/*.py', 'desk/src/wengeludo/**/*.js')),
    ('python', 14, ('bindings/python/src/wengeludo_balance/*.py', 'bindings/python/native/rows.c', 'bindings/python/native/wide_checked.c')),
    ('c', 10, ('programs/*_file.c', 'programs/meters_to_buy.c', 'programs/check_sheet.c', 'programs/check_flow.c', 'programs/place_numbers.c', 'programs/*.h')),
    ('cpp', 8, ('include/wengeludo.hpp',)),
    ('rust', 10, ('bindings/rust/src/*.rs',)),
    ('install', 8, ('install.sh', 'packaging/install/man.py', 'packaging/install/*.cmake', 'packaging/install/*.in')),
)
TURNED = {'<': '<=', '<=': '<', '>': '>=', '>=': '>', '==': '!=', '!=': '==', '+': '-', '-': '+', '*': '/', '/': '*', '&&': '||', '||': '&&',
          'and': 'or', 'or': 'and', 'True': 'False', 'False': 'True', 'true': 'false', 'false': 'true', 'min': 'max', 'max': 'min', 'any': 'all',
          'all': 'any', 'not': '', 'in': 'not in', 'is': 'is not', '%': '//', '+=': '-=', '-=': '+=', '<<': '>>', '>>': '<<', 'ceil': 'floor',
          'floor': 'ceil', 'sorted': 'list', 'abs': '', 'if': 'if not', 'break': 'continue', 'continue': 'break'}
EMPTY = re.compile(r'let mut|let \(|vec!|= \{0\}|= 0[,;]')  # what a call overwrites: another number there changes nothing
SIGNS = re.compile(r'(?<![<>=!&|+\-*/:])(<=|>=|==|!=|&&|\|\||<<|>>|(?<= )[<>+\-*/%](?= )|\b(?:true|false|min|max)\b|\b\d+\b)(?![<>=&|])')


def python_spots(text):
    """Where a Python file may be changed: (from, to, what stands there), comments, docstrings and imports left out."""
    starts, at = [], 0
    for line in text.splitlines(keepends=True):
        starts.append(at)
        at += len(line)
    found, before, hints = [], None, set(hinted(text))
    for token in tokenize.generate_tokens(io.StringIO(text).readline):
        start, end = (starts[min(row, len(starts)) - 1] + column for row, column in (token.start, token.end))
        if any(first <= token.start < last for first, last in hints):
            before = token.type
            continue
        if token.line.lstrip().startswith(('import ', 'from ', '"""', 'class ', 'def ')) and '=' not in token.line:
            continue
        first = before in (None, tokenize.NEWLINE, tokenize.INDENT, tokenize.DEDENT, tokenize.NL)
        if token.type == tokenize.NUMBER or token.string in TURNED or (token.type == tokenize.STRING and not first and len(token.string) > 3):
            found.append((start, end, token.string))
        if first and token.type == tokenize.NAME and re.match(r'\s+[\w.\[\]]+(\(.*\)| [+\-|*/]?= .*)$', token.line.rstrip('\n')):
            found.append((start, starts[token.start[0] - 1] + len(token.line.rstrip('\n')), '-- line'))
        before = token.type
    return found


def hinted(text):
    """From where to where types stand, which no program of ours reads."""
    for node in ast.walk(ast.parse(text)):
        for hint in (getattr(node, 'annotation', None), getattr(node, 'returns', None)):
            if isinstance(hint, ast.AST):
                yield (hint.lineno, hint.col_offset), (hint.end_lineno, hint.end_col_offset)


def plain_spots(text):
    """Where another file may be changed: lines of comment and tests that stand below the code of Rust left out."""
    text = text.partition('#[cfg(test)]\n')[0]
    found, at, comment = [], 0, False
    for line in text.splitlines(keepends=True):
        bare = line.strip()
        comment = comment or bare.startswith('/*')
        if not comment and not bare.startswith(('//', '#', '*', '.')) and bare:
            found += [(at + m.start(1), at + m.end(1), m[1]) for m in SIGNS.finditer(line) if m[1] != '0' or not EMPTY.search(line)]
            found += [(at + m.start(), at + m.end(), m[0]) for m in re.finditer(r'"[^"\\{}%]{3,}"', line)]
            if re.fullmatch(r'\s+[\w.*&\[\]>-]+( [+\-|*/]?= .*|\(.*\));?', line.rstrip('\n')) and 'return' not in line:
                found.append((at + len(line) - len(line.lstrip()), at + len(line.rstrip('\n')), '-- line'))
        comment = comment and '*/' not in bare
        at += len(line)
    return found


def changed(draw, what, name):
    """What takes its place."""
    if what == '-- line':
        return 'pass' if name.endswith('.py') else ':' if name.endswith('.sh') else ''
    if what in TURNED:
        return TURNED[what]
    if what[0] in '"\'' or what[-1] in '"\'':
        return what[:-1] + '~' + what[-1] if not what.endswith('"""') else what
    number = re.match(r'\d[\d_]*$', what)
    return str(int(what.replace('_', '')) + draw.choice((-1, 1))) if number else f'({what} + 1)'


def mutants(seed, count, only):
    """Mutants without end, part after part by their shares: part, file, line, what stood there, what stands now, the text."""
    draw = random.Random(seed)
    files = {part: sorted(str(path.relative_to(ROOT)) for one in patterns for path in ROOT.glob(one)) for part, _, patterns in AREAS}
    spots = {}
    for part, names in files.items():
        for name in names:
            text = (ROOT / name).read_text(encoding='utf-8')
            for spot in python_spots(text) if name.endswith('.py') else plain_spots(text):
                spots.setdefault(part, []).append((name, *spot))
    parts = [(part, share) for part, share, _ in AREAS if not only or part in only]
    drawn = set()
    while True:
        part = draw.choices([one for one, _ in parts], [share for _, share in parts])[0]
        name, start, end, what = draw.choice(spots[part])
        if (name, start, what) in drawn:
            continue
        drawn.add((name, start, what))
        text, new = (ROOT / name).read_text(encoding='utf-8'), changed(draw, what, name)
        if new != what:
            yield part, name, start, what if what != '-- line' else text[start:end], new


def logged(path):
    """The mutants of a log that survived."""
    for line in Path(path).read_text(encoding='utf-8').splitlines():
        found = re.fullmatch(r'SURVIVES (\S+) (\S+?):(\d+):(\d+): (.*) becomes (.*)', line)
        if found:
            part, name, row, column = found.group(1, 2, 3, 4)
            start = sum(map(len, (ROOT / name).read_text(encoding='utf-8').splitlines(keepends=True)[: int(row) - 1])) + int(column)
            yield part, name, start, ast.literal_eval(found[5]), ast.literal_eval(found[6])


def stillborn(name, text, said):
    """Whether no compiler takes it."""
    if name.endswith('.py'):
        try:
            compile(text, name, 'exec')
        except (SyntaxError, ValueError):
            return True
        return False
    if name.endswith('.rs'):  # of a test that fails cargo says `error: test failed`
        return 'could not compile' in said
    return bool(re.search(r'\berror: |static assertion failed|SyntaxError|CompileError', said)) and 'limits:' not in said and 'expected:' not in said


def failed(said):
    """The test that failed, as its program names it, or the last line that was said; 'no end after' tells that the time was up."""
    named = re.search(r'^(?:FAILED|ERROR) (\S+)', said, re.M)
    return named[1] if named else (said.strip().splitlines() or ['a status'])[-1][:100]


def statement(name, line):
    """The lines of the statement that a line belongs to, a block's own lines left out."""
    best = range(line, line + 1)
    for node in ast.walk(ast.parse((ROOT / name).read_text(encoding='utf-8'))) if name.endswith('.py') else ():
        end = node.body[0].lineno - 1 if isinstance(node, ast.stmt) and getattr(node, 'body', None) else getattr(node, 'end_lineno', 0)
        if isinstance(node, ast.stmt) and node.lineno <= line <= end:
            best = range(node.lineno, end + 1)
    return best


def in_function(name, line):
    """Whether a line is run by calls; others are run once, by whichever test is the first to import the file."""
    tree = ast.parse((ROOT / name).read_text(encoding='utf-8')) if name.endswith('.py') else ast.Module([], [])
    return any(node.body[0].lineno <= line <= node.end_lineno for node in ast.walk(tree) if isinstance(node, (ast.FunctionDef, ast.AsyncFunctionDef)))


def tests(tree, known, part, name, line):
    """The part with the tests that run a line, if there is a map; the copy waits for them no longer than they can take."""
    found = (seen.tests(tree, known, name, statement(name, line) if in_function(name, line) else ()) or tree.desk_files(name)[:4]) if known and part == 'desk' else []
    tree.seconds = 60 + 10 * seen.SECONDS if found and not tree.long else 900
    return ' '.join((part, *found, *(tree.browsed(name) if found and tree.long else ())))


class Run:
    """A run: copies of the tree take one mutant after the other, until enough were tried."""

    def __init__(self, asked):
        self.asked, self.lock, self.began = asked, threading.Lock(), time.monotonic()
        self.tried, self.tally, self.waiting, self.sure, self.amiss = 0, {}, [], set(), ''
        self.locks = {part: threading.Lock() for part, _, _ in AREAS}
        only = set(filter(None, asked.only.split(',')))
        self.drawn = logged(asked.again) if asked.again else mutants(asked.seed, asked.count, only)

    def passes(self, tree, part):
        """Whether the tests of a part pass in the tree as it is, tried once; if not, that ends the run."""
        with self.locks[part]:
            if part not in self.sure:
                self.amiss = self.amiss or tree.amiss(part)
                self.sure.add(part)
        return not self.amiss

    def next(self, first=True):
        """The next mutant that a compiler may take, or None. Those of Rust are for the first copy, which has built the crate."""
        with self.lock:
            if first and self.waiting:
                return self.waiting.pop()
            while self.tried < self.asked.count:
                part, name, start, what, new = next(self.drawn, (None,) * 5)
                if part is None:
                    return None
                text = (ROOT / name).read_text(encoding='utf-8')
                if not text.startswith(what, start):
                    print(f'mutants: {name} has no longer {what!r} there', flush=True)
                    continue
                text, line = text[:start] + new + text[start + len(what):], text[:start].count('\n') + 1
                if name.endswith('.py') and stillborn(name, text, ''):
                    continue
                self.tried += 1
                one = part, name, line, text, f'{part} {name}:{line}:{start - text.rfind(chr(10), 0, start) - 1}: {what!r} becomes {new!r}'
                if first or part != 'rust':
                    return one
                self.waiting.append(one)
            return None

    def took(self, part, killed, told, said):
        """Notes the end of a mutant, and of a killed one the test that failed."""
        with self.lock:
            self.tally.setdefault(part, []).append(killed)
            told = f'killed {told}, by {failed(said)}' if killed else f'SURVIVES {told}'
            if self.asked.log:
                with open(self.asked.log, 'a', encoding='utf-8') as log:
                    log.write(told + '\n')
            if not killed or not sys.stdout.isatty():
                print(f'{told} [{sum(map(len, self.tally.values()))}, {time.monotonic() - self.began:.0f} s]', flush=True)

    def work(self, tree, known, first):
        """One copy of the tree takes mutants until there are enough."""
        while one := self.next(first):
            part, name, line, text, told = one
            if not self.passes(tree, part):
                return
            killed, said = tree.changed(name, text, tests(tree, known, part, name, line))
            if killed and stillborn(name, text, said):
                with self.lock:
                    self.tried -= 1
                continue
            self.took(part, killed, told, said)

    def end(self):
        if self.amiss:
            sys.exit(self.amiss)
        for part, found in self.tally.items():
            print(f'mutants: {part}: {sum(found)} of {len(found)} killed')
        every = [killed for found in self.tally.values() for killed in found]
        if every:
            share = 100 * sum(every) / len(every)
            print(f'mutants: {sum(every)} of {len(every)} killed, {share:.1f} %, seed {self.asked.seed}, {"long" if self.asked.long else "short"} run')


def main():
    words = argparse.ArgumentParser(description=__doc__.split('\n\n')[0])
    words.add_argument('--seed', type=int, default=1)
    words.add_argument('--count', type=int, default=300)
    words.add_argument('--only', default='')
    words.add_argument('--jobs', type=int, default=1)
    words.add_argument('--again', default='')
    words.add_argument('--long', action='store_true')
    words.add_argument('--list', action='store_true')
    words.add_argument('--log', default='')
    words.add_argument('--map', default='')
    asked = words.parse_args()
    run = Run(asked)
    if asked.list:
        while one := run.next():
            print(one[-1])
        return
    trees = [Tree(asked.long) for _ in range(asked.jobs)]
    known = seen.made(trees, asked.map) if asked.map else None
    threads = [threading.Thread(target=run.work, args=(tree, known, tree is trees[0])) for tree in trees]
    for thread in threads:
        thread.start()
    for thread in threads:
        thread.join()
    run.end()


if __name__ == '__main__':
    main()

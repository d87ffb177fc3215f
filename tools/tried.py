# SPDX-License-Identifier: LicenseRef-Wengeludo
"""A copy of the tree in which a change is tried: made once, changed, tested by the narrowest part of the short run, and put right again.

Used by tools/wrong.py and tools/mutants.py. It needs target/staticlib/libwengeludo.a and Debian's packages for the desk.
"""

import os
import re
import shutil
import subprocess
import sys
import tempfile
from pathlib import Path

ROOT = Path(__file__).resolve().parents[1]
PYTHON = '/usr/bin/python3'
SECONDS = 900  # so long may the tests of one change take
SHORT = {'WENGELUDO_EXAMPLES': '5', 'WENGELUDO_DRAWN': '30', 'WENGELUDO_HOURS': '20', 'WENGELUDO_INPUTS': '400', 'CHROMIUM': 'none', 'CXX': 'g++'}
LONG = {'WENGELUDO_EXAMPLES': '100', 'WENGELUDO_DRAWN': '300', 'WENGELUDO_HOURS': '200', 'WENGELUDO_INPUTS': '20000', 'WENGELUDO_AGREED': '100000', 'CXX': 'g++ clang++'}
# Which tests of the desk come first, by the package that is changed; the others follow.
FIRST = {
    'read': ('reading', 'lists', 'figures', 'shapes', 'commands'), 'balance': ('rule', 'golden', 'shapes', 'figures'),
    'explain': ('golden', 'rule', 'shapes', 'commands'), 'write': ('shown', 'written', 'golden', 'drawing', 'figures', 'commands'),
    'keep': ('runs', 'kept_lists', 'book', 'batch', 'upgrade', 'stores'), 'cli': ('commands', 'golden', 'runs', 'book'), 'history': ('history',),
    'serve': ('serve', 'serve_any'),
}
QUICK = ('settings', 'limits', 'refusals', 'samples', 'rows', 'faults', 'version')  # of the binding's tests
BROWSED = ('page', 'live', 'serve_browser')
NEVER = ('install', 'page')  # those of desk/install.sh, and those that open a browser
# What the long run has besides for a change of a part, tried after the part's own tests; the short run has some of it too, and not trying it
# there can only leave a change unseen. `desk` stands for tests of the desk, the others are commands.
LATER = {'c': ('bash bindings/c/test.sh', 'cargo test --offline --quiet --features rules --manifest-path bindings/rust/Cargo.toml'),
         'cpp': ('bash packaging/install/test.sh',),
         'rust': ('bash bindings/rust/test_archives.sh', 'bash packaging/install/test.sh', 'cargo test --offline --quiet --manifest-path bench/Cargo.toml'),
         'python': ('desk rule golden stories shapes figures history_rows history_findings any_list',),
         'install': ('bash packaging/debian/test.sh',)}
# Tests that need servers or many rows are run for changes of these packages alone: that can only leave a change unseen.
NEEDED = {'history': ('history', 'balance'), 'stores': ('keep', 'cli'), 'upgrade': ('keep', 'cli'), 'book': ('keep', 'cli', 'balance'), 'batch': ('keep', 'cli'),
          'any_list': ('read', 'balance', 'explain'), 'live': ('write',)}


class Tree:
    """The copy."""

    def __init__(self, long=False):
        self.folder = tempfile.TemporaryDirectory(prefix='wengeludo-tried-')
        self.path = Path(self.folder.name) / 'tree'
        self.long, self.failing, self.passing, self.seconds = long, [], [], SECONDS
        listed = subprocess.run(['git', 'ls-files', '-z'], cwd=ROOT, capture_output=True, check=True).stdout.decode().split('\0')
        for name in listed:
            if name and (ROOT / name).is_file() and (not name.startswith('crates/') or name.startswith('crates/version/')):
                (self.path / name).parent.mkdir(parents=True, exist_ok=True)
                shutil.copy2(ROOT / name, self.path / name)
        (self.path / 'target').mkdir()
        for part in ('staticlib', 'cross'):
            if (ROOT / 'target' / part).is_dir():
                shutil.copytree(ROOT / 'target' / part, self.path / 'target' / part)
        if long:  # packages have the time of the newest commit
            for words in ('init -q', 'add -A', '-c user.name=tried -c user.email=tried@localhost commit -qm tried'):
                subprocess.run(['git', *words.split()], cwd=self.path, check=True)
        self.built = ''

    def environment(self):
        python = ':'.join(str(self.path / part) for part in ('bindings/python/src', 'bindings/python', 'desk/src'))
        own = {'WENGELUDO_INCLUDE': str(self.path / 'include'), 'WENGELUDO_ARCHIVE': str(self.path / 'target/staticlib/libwengeludo.a')}
        own |= {'PYTHONPATH': python, 'PYTHONDONTWRITEBYTECODE': '1', 'CARGO_TARGET_DIR': str(self.path / 'target/cargo')}
        return {**os.environ, **(LONG if self.long else SHORT), **own}

    def run(self, words, where='.', last=3000):
        """Whether a command ends well, and what it said last."""
        with subprocess.Popen(words, cwd=self.path / where, env=self.environment(), stdout=subprocess.PIPE, stderr=subprocess.STDOUT,
                              stdin=subprocess.DEVNULL, start_new_session=True) as ran:
            try:
                said = ran.communicate(timeout=self.seconds)[0]
            except subprocess.TimeoutExpired:
                os.killpg(ran.pid, 9)
                return False, f'no end after {self.seconds} seconds'
        return ran.returncode == 0, said.decode(errors='replace')[-last:]

    def binding(self):
        """Compiles the binding anew if its C, the header or what builds it has changed."""
        sources = [self.path / 'include/wengeludo_balance.h', *(self.path / 'bindings/python').glob('*.py'), *(self.path / 'bindings/python/native').glob('*')]
        state = repr([path.read_bytes() for path in sorted(sources)])
        if state == self.built:
            return True, ''
        good, said = self.run([PYTHON, 'build_native.py'], 'bindings/python')
        for made in (self.path / 'bindings/python/wengeludo_balance').glob('_native*.so'):
            shutil.move(made, self.path / 'bindings/python/src/wengeludo_balance' / made.name)
        self.built = state if good else ''
        return good, said

    def pytest(self, where, files, *words):
        good, said = self.binding()
        if not good:
            return False, said
        left = [word for name in self.failing for word in ('--deselect', name)]
        return self.run([PYTHON, '-m', 'pytest', '-x', '-q', '-p', 'no:cacheprovider', *left, *words, *files], where)

    def tests(self, part, changed=''):
        """Whether the tests of a part pass, by the long run those that come later too: (passed, what was said)."""
        good, said = self.own_tests(part, changed)
        for words in map(str.split, LATER.get(part.split()[0], ()) if self.long and changed else ()):
            if good:
                good, said = self.pytest('desk', [f'tests/test_{name}.py' for name in words[1:]]) if words[0] == 'desk' else self.run(words)
        return good, said

    def own_tests(self, part, changed):
        """Whether the tests of a part alone pass."""
        name, *files = part.split()
        good, said = self.texts() if changed.startswith(('include', 'bindings')) else (True, '')
        if not good:
            return False, said
        if name == 'c':
            good, said = self.run(['bash', 'programs/build.sh'])
            return self.run(['bash', 'programs/test.sh']) if good else (False, said)
        if name in ('cpp', 'install', 'archives'):
            return self.run(['bash', {'cpp': 'bindings/cpp/test.sh', 'install': 'packaging/install/test.sh', 'archives': 'bindings/rust/test_archives.sh'}[name]])
        if name == 'rust':
            narrow = ['--lib', '--test', 'limits', '--test', 'version_and_refusals']
            good, said = self.run(['cargo', 'test', '--offline', '--quiet', *narrow], 'bindings/rust')
            return self.run(['cargo', 'test', '--offline', '--quiet', '--features', 'rules', *files], 'bindings/rust') if good else (False, said)
        if name == 'python':
            return self.pytest('bindings/python', files or self.python_files())
        return self.pytest('desk', files or self.desk_files(changed))

    def texts(self):
        """Refusals and versions, which stand in several languages."""
        good, said = self.run([PYTHON, 'tools/refusals.py'])
        return self.run([PYTHON, 'tools/versions.py']) if good else (False, said)

    def desk_files(self, changed):
        """The desk's test files, the likeliest first."""
        first = next((names for package, names in FIRST.items() if f'/{package}/' in changed), ())
        files = [path for path in sorted((self.path / 'desk/tests').glob('test_*.py')) if path.stem[5:] not in NEVER]
        files = [path for path in files if all(any(f'/{package}/' in changed for package in packages) or not path.stem[5:].startswith(start)
                                               for start, packages in NEEDED.items()) or not changed]
        rank = {name: k for k, name in enumerate(first)}
        return [f'tests/{path.name}' for path in sorted(files, key=lambda path: (rank.get(path.stem[5:], 99), path.stat().st_size))]

    def python_files(self):
        """The binding's test files, the quick ones first."""
        files = sorted((self.path / 'bindings/python/tests').glob('test_*.py'))
        return [f'tests/{path.name}' for path in sorted(files, key=lambda path: QUICK.index(path.stem[5:]) if path.stem[5:] in QUICK else 99)]

    def browsed(self, changed):
        """Test files of the long run alone, which open a browser, for a change of what it shows."""
        shown = any(f'/{package}/' in changed for package in ('write', 'serve', 'history'))
        return [f'tests/test_{name}.py' for name in BROWSED] if shown else []

    def amiss(self, part):
        """What the tests of a part say of the tree as it is if they fail. Those of pytest are looked at when one sees something (`sound`)."""
        good, said = (True, '') if part.split()[0] in ('python', 'desk') else self.tests(part)
        return '' if good else f'tried: the tests of {part} fail in the tree as it is:\n{said}'

    def baseline(self, parts):
        """Runs the tests of the tree as it is; a failure ends the program."""
        for part in parts:
            if said := self.amiss(part):
                sys.exit(said)

    def sound(self, part, said):
        """Whether the test of pytest that failed passes in the tree as it is; one that does not is told and left out from then on."""
        failed = re.search(r'^(?:FAILED|ERROR) ([^\s\[]+)', said, re.M)  # a name of a parameter may have blanks
        if part.split()[0] not in ('python', 'desk') or not failed or failed[1] in self.passing:
            return True
        good, _ = self.pytest('bindings/python' if part.startswith('python') else 'desk', [failed[1]])
        (self.passing if good else self.failing).append(failed[1])
        if not good:
            print(f'tried: {failed[1]} fails in the tree as it is, and is left out', flush=True)
        return good

    def changed(self, name, text, part):
        """Whether the tests of a part see a file with another text; what they said."""
        path = self.path / name
        before = path.read_bytes()
        while True:
            path.write_text(text, encoding='utf-8', newline='')
            try:
                good, said = self.tests(part, name)
            finally:
                path.write_bytes(before)
            if good or self.sound(part, said):
                return not good, said

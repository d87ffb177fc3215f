# SPDX-License-Identifier: LicenseRef-Wengeludo
"""Which tests of the desk run a line: a map by Debian's python3-coverage, made once for a copy of the tree (tools/tried.py).

Used by tools/mutants.py --map FILE, so that a change is tried by the tests that run its line, the quickest first. What another process runs
is not seen: such a line is tried by the tests that import its file or run any line of it.
"""

import hashlib
import json
import re
import threading
from pathlib import Path

from tried import PYTHON

PACKAGE = 'desk/src/wengeludo'
SECONDS = 60  # tests that take longer together are cut off: that can only leave a change unseen
WHOLE = ('tests/test_stories.py', 'tests/test_golden.py')  # whole outputs: never cut off
SETTINGS_TESTS = ('tests/test_settings.py', 'tests/test_stories.py::test_lists')  # the constants of every module, the options of every command
SCRIPTS = ['tests/test_scripts.py', 'tests/test_shown.py']  # what runs the pages' scripts
WORKERS = ('history/sites.py', 'keep/batch.py', 'serve/upload.py')  # what these do is done by other processes, in most tests
SETTINGS = '[run]\ndynamic_context = test_function\nsource = {source}\ndata_file = {data}\n'
LISTED = """
import coverage, json
data = coverage.CoverageData({data!r})
data.read()
print(json.dumps({{name: data.contexts_by_lineno(name) for name in data.measured_files()}}))
"""


def made(trees, path):
    """The map, read from a file and written there; what a test file runs is looked at anew, by any of the copies, if its text or the desk's has changed."""
    kept = json.loads(Path(path).read_text())['parts'] if Path(path).exists() else {}
    first = trees[0].path
    package = hashlib.sha256(b''.join(one.read_bytes() for one in sorted((first / PACKAGE).rglob('*.py')))).hexdigest()
    names = trees[0].desk_files('')
    states = {name: package + hashlib.sha256((first / 'desk' / name).read_bytes()).hexdigest() for name in names}
    left, lock = iter([name for name in names if kept.get(name, {}).get('state') != states[name]]), threading.Lock()

    def work(tree):
        while True:
            with lock:
                name = next(left, None)
            if name is None:
                return
            found = {'state': states[name], **looked_at(tree, name)}
            with lock:
                kept[name] = found
                Path(path).write_text(json.dumps({'parts': kept}))

    threads = [threading.Thread(target=work, args=(tree,)) for tree in trees]
    for thread in threads:
        thread.start()
    for thread in threads:
        thread.join()
    return joined([kept[name] for name in names])


def joined(parts):
    """The maps of the test files as one."""
    seconds = {test: spent for part in parts for test, spent in part['seconds'].items()}
    files = {}
    for part in parts:
        for name, lines in part['files'].items():
            for line, tests in lines.items():
                files.setdefault(name, {}).setdefault(line, []).extend(tests)
    return {'seconds': seconds, 'files': {name: {line: sorted(tests, key=seconds.get) for line, tests in lines.items()} for name, lines in files.items()}}


def looked_at(tree, name):
    """What the tests of one file run."""
    settings, data = tree.path / 'seen.rc', str(tree.path / 'seen.data')
    settings.write_text(SETTINGS.format(source=tree.path / PACKAGE, data=data))
    Path(data).unlink(missing_ok=True)
    tree.binding()
    words = [PYTHON, '-m', 'coverage', 'run', f'--rcfile={settings}', '-m', 'pytest', '-q', '-p', 'no:cacheprovider', '--durations=0', '--durations-min=0']
    said = tree.run([*words, name], 'desk', last=1_000_000)[1]
    lines = json.loads(tree.run([PYTHON, '-c', LISTED.format(data=data)], last=100_000_000)[1]) if Path(data).exists() else {}
    return told(lines, said)


def told(lines, said):
    """The tests of each line of each file, the quickest first, and the seconds that each takes."""
    seconds = {}
    for spent, name in re.findall(r'^([\d.]+)s (?:call|setup|teardown) +(tests/\w+\.py::\w+)', said, re.M):
        seconds[name] = seconds.get(name, 0) + float(spent)
    known = {f'{Path(name).stem.split(".py")[0]}.{name.split("::")[1]}': name for name in seconds}
    files = {}
    for path, found in lines.items():
        name = f'{PACKAGE}/{path.split(PACKAGE + "/")[1]}'
        files[name] = {line: sorted({known[one] for one in tests if one in known}, key=seconds.get) for line, tests in found.items()}
    return {'seconds': seconds, 'files': files}


def importing(tree, name):
    """The test files of a copy of the tree that import a module by its name: they may hold its tables, and run no line of it."""
    named = re.compile(rf'^(?:from|import) .*\b{Path(name).stem}\b', re.M)
    return [f'tests/{path.name}' for path in sorted((tree.path / 'desk/tests').glob('test_*.py')) if named.search(path.read_text(encoding='utf-8'))]


def tests(tree, seen, name, lines):
    """The tests that run some lines of a file; if these belong to its import or to another process, those that import the file or run any of its
    lines."""
    if name.endswith('.js'):
        return SCRIPTS
    found = seen['files'].get(name, {})
    own = {one for line in (() if name.endswith(WORKERS) else lines) for one in found.get(str(line), ())}
    taken = [] if own else [*SETTINGS_TESTS, *importing(tree, name)]
    every = sorted(own or {one for some in found.values() for one in some}, key=lambda one: (not one.startswith(WHOLE), seen['seconds'].get(one, 0)))
    spent = 0.0
    for one in every:
        spent += seen['seconds'][one]
        if spent <= SECONDS or not taken or one.startswith(WHOLE):
            taken.append(one)
    return taken

#!/usr/bin/env python3
# SPDX-License-Identifier: LicenseRef-Wengeludo
"""Where the time of the check goes, in seconds of processor time (user and system), one check at a time.

    ./dev time crates [NAME ...]   proves the crates in order, from nothing: a line for each, and the sum
    ./dev time edits [NAME ...]    tries the must-fail edits: a line for each, and the sum
    ./dev time modules NAME        checks one crate: its modules, the slowest first (seconds of the clock)

With names, these crates alone: those below them must have been proved by an earlier `crates`, as for `edits` and `modules`.
What it writes stands in the folder wengeludo-seconds of the system's temporary folder, apart from what rt keeps and outside the checkout,
where rt ci takes no copies of crates. It gives no verdict: rt does. WENGELUDO_TREE names another checkout that is measured.
"""
import os
import resource
import shutil
import subprocess
import sys
import tempfile

ROOT = os.path.abspath(os.environ.get('WENGELUDO_TREE') or os.path.join(os.path.dirname(__file__), '..'))
WORK = os.path.join(tempfile.gettempdir(), 'wengeludo-seconds')
RLIBS = os.path.join(WORK, 'rlib')
SHOWN = 30


def fail(text):
    sys.exit(f'seconds: {text}')


def kit():
    """The kit's folder."""
    rt = shutil.which('rt')
    if rt is None:
        fail('no rt on the PATH: install the Rattle kit (rattle-kit-13f or later)')
    return os.path.dirname(os.path.dirname(os.path.realpath(rt)))


KIT = kit()


def read_crates():
    """The crates below each crate, those below first, and those that are made into an archive."""
    below, order, archives = {}, [], set()
    with open(os.path.join(ROOT, 'crates.txt'), encoding='utf-8') as lines:
        for line in lines:
            name, colon, rest = line.split('#')[0].partition(':')
            if colon:
                name, *kind = name.split()
                below[name] = rest.split()
                archives |= {name} if 'staticlib' in kind else set()

    def visit(name):
        if name in below and name not in order:
            for other in below[name]:
                visit(other)
            order.append(name)

    for name in below:
        visit(name)
    return below, order, archives


BELOW, ORDER, ARCHIVES = read_crates()


def source(folder):
    """The root file of the crate in a folder."""
    program = os.path.join(folder, 'src', 'main.rt')
    return program if os.path.exists(program) else os.path.join(folder, 'src', 'lib.rt')


def words(name, root_file):
    """What every command on a crate is handed, as rt hands it."""
    said = ['--crate-name', name, root_file, '--extern', f'std={KIT}/rlibs/std.rlib']
    for other in BELOW[name]:
        folder = RLIBS if other in BELOW else f'{KIT}/rlibs'
        if other in BELOW and not os.path.isdir(f'{folder}/{other}.rlib'):
            fail(f"{other}, below {name}, is not proved: run 'seconds.py crates' first")
        said += ['--extern', f'{other}={folder}/{other}.rlib']
    said += ['-L', f'dependency={RLIBS}', '-L', f'dependency={KIT}/rlibs', '--links', f'{name}=']
    said += ['--crate-type', 'staticlib'] if name in ARCHIVES else []
    return said + ['--antt-project', f'{KIT}/rattle/logic/antt-project.json', '--logic-built', f'{KIT}/logic_built']


def run(log, cwd, verb, *said):
    """Runs the prover: its status and its seconds."""
    before = resource.getrusage(resource.RUSAGE_CHILDREN)
    with open(log, 'w', encoding='utf-8') as out:
        status = subprocess.run([f'{KIT}/bin/rattle', verb, *said], cwd=cwd, stdout=out, stderr=subprocess.STDOUT).returncode
    after = resource.getrusage(resource.RUSAGE_CHILDREN)
    return status, after.ru_utime + after.ru_stime - before.ru_utime - before.ru_stime


def anew(path):
    shutil.rmtree(path, ignore_errors=True)
    os.makedirs(path)
    return path


def prove(name):
    root_file = source(f'{ROOT}/crates/{name}')
    said = words(name, root_file)
    if root_file.endswith('main.rt'):
        said += ['--toolchain', f'{KIT}/toolchain', '-o', f'{WORK}/{name}.o']
    elif name in ARCHIVES:
        said += ['--toolchain', f'{KIT}/toolchain', '-o', f'{WORK}/lib{name}.a']
    else:
        said += ['--statements', '-o', f'{RLIBS}/{name}.rlib']
    return run(f'{WORK}/{name}.log', os.path.dirname(os.path.dirname(root_file)), 'build', *said)


def edited(name, edit):
    """A copy of the crate with the edit in it."""
    folder = anew(f'{WORK}/edits/{name}/{edit}')
    for part in ('src', 'specs', 'proofs'):
        if os.path.isdir(f'{ROOT}/crates/{name}/{part}'):
            shutil.copytree(f'{ROOT}/crates/{name}/{part}', f'{folder}/{part}')
    path = old = ''
    with open(f'{ROOT}/crates/{name}/must-fail/{edit}.edit', encoding='utf-8') as lines:
        for line in lines.read().split('\n'):
            if line.startswith('file: '):
                path = f'{folder}/{line[6:]}'
            elif line.startswith('old: '):
                old = line[5:]
            elif line.startswith('new:'):
                with open(path, encoding='utf-8') as text:
                    before = text.read()
                if before.count(old) != 1:
                    fail(f'{name}/{edit}: its old text stands {before.count(old)} times in the file')
                with open(path, 'w', encoding='utf-8') as text:
                    text.write(before.replace(old, line[4:].removeprefix(' ')))
    return folder


def refused(name, edit):
    folder = edited(name, edit)
    status, seconds = run(f'{WORK}/edits/{name}-{edit}.log', folder, 'check', *words(name, source(folder)))
    return 0 if status == 1 else 1, seconds


def edits_of(name):
    folder = f'{ROOT}/crates/{name}/must-fail'
    return sorted(file[:-5] for file in os.listdir(folder) if file.endswith('.edit')) if os.path.isdir(folder) else []


def tell(rows):
    """A line for each (what it is, status and seconds), and the sum."""
    total, wrong = 0.0, 0
    for what, (status, seconds) in rows:
        total, wrong = total + seconds, wrong + (status != 0)
        print(f'{seconds:6.1f} {what}{"" if status == 0 else "  NOT AS IT MUST BE"}', flush=True)
    print(f'{total:6.1f} in all')
    sys.exit(1 if wrong else 0)


def modules(name):
    """When each module was written tells how long it took."""
    kept = anew(f'{WORK}/modules')
    folder = f'{ROOT}/crates/{name}'
    status, seconds = run(f'{WORK}/{name}.log', folder, 'check', *words(name, source(folder)), '--incremental', kept)
    written = []
    for folder, _, files in os.walk(kept):
        if os.path.basename(folder) != 'records':
            written += [(os.stat(f'{folder}/{file}').st_mtime_ns, file) for file in files if file.endswith('.oantt')]
    written.sort()
    took = [(after - before, file) for (before, _), (after, file) in zip(written, written[1:])]
    for nanoseconds, file in sorted(took, reverse=True)[:SHOWN]:
        print(f'{nanoseconds / 1e9:6.2f} {file.removesuffix(".oantt").removeprefix(f"Rattle-{name}-").removeprefix("proofs.")}')
    print(f'{seconds:6.1f} of processor time in all')
    sys.exit(status)


def main():
    verb, names = (sys.argv[1] if len(sys.argv) > 1 else ''), sys.argv[2:]
    for name in names:
        if name not in BELOW:
            fail(f'{name} is no crate of crates.txt')
    if verb == 'crates':
        if not names:
            anew(WORK)
        os.makedirs(RLIBS, exist_ok=True)
        tell((name, prove(name)) for name in ORDER if not names or name in names)
    elif verb == 'edits':
        tell((f'{name}/{edit}', refused(name, edit)) for name in ORDER if not names or name in names for edit in edits_of(name))
    elif verb == 'modules' and len(names) == 1:
        modules(names[0])
    else:
        fail('usage: seconds.py crates [NAME ...] | edits [NAME ...] | modules NAME')


main()

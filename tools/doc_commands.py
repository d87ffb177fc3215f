#!/usr/bin/env python3
# SPDX-License-Identifier: LicenseRef-Wengeludo
"""Every command that README.md, CONTRIBUTING.md, docs/ and the README of samples, reference, bindings and desk name, read out of the text and run.

    ./dev doc-commands          runs them; status 1 where one fails or prints something else than the text says
    ./dev doc-commands --all    also those that take minutes
    ./dev doc-commands --list   prints what would be done with each

A command is a line that starts with `$ ` in a block marked sh (the lines below it are what it prints; `...` stands for any lines), a
line of an indented block, or a piece of code in a sentence, where it starts with the name of a program. Blocks marked c, cpp, rust and
python are compiled, those in Rust and Python run too. docs/changes tells of older versions and is left out; the blocks of desk/README.md
marked console are run by desk/tests/test_readme.py. The archive must be there (`bash packaging/archive.sh`). What test_all.sh runs by itself is
not run again, unless the text has what it prints. Commands that write into the tree (--write, pip) are run in a copy of it, $COPY.

The rules below say which commands are run with other words, and which are not run and why; a rule that fits no command is an error. What
Debian's packages are needed for is left out where they are missing, and counted.
"""
import glob
import os
import re
import shutil
import subprocess
import sys
import tempfile
from typing import NamedTuple

ROOT = os.path.abspath(os.path.join(os.path.dirname(__file__), '..'))
ARCHIVE = 'target/staticlib/libwengeludo.a'
FIRST = re.compile(r'^(?:[A-Z_]+=\S+ )*(?:(?:rt|bash|sh|wengeludo|cargo|(?:/usr/bin/)?python3|cc|c\+\+|cmake|ctest|pkg-config|man|time|mkdir|cp|git'
                   r'|pip|dot|\./dev) +\S|target/(?:bin|built|python)/\S+(?: |$))')
HOME = subprocess.run(['bash', os.path.join(ROOT, 'desk', 'test.sh'), '--home'], capture_output=True, text=True, check=True).stdout.strip()
DESK = f'{HOME}/bin/wengeludo'  # there where Debian's packages are, by desk/test.sh
LIMIT = 900  # seconds for one command


class Rule(NamedTuple):
    pattern: str
    do: str  # run, long, not
    word: str  # the words that are run, or why none are
    needs: str = ''  # a file or a program without which it is left out


RULES = [
    Rule(r'time bash \.ci/run', 'not', 'test_all.sh runs it, without a clock'),
    Rule(r'bash test_all\.sh( --after-gate)?', 'not', 'this test is a part of it'),
    Rule(r'rt must-fail( \[NAME\.\.\]| CRATE)', 'run', 'rt must-fail version'),
    Rule(r'rt ci( vectors)?', 'not', 'the gate runs it'),
    Rule(r'rt all check', 'not', 'the gate proves all'),
    Rule(r'rt (check|tidy|fmt)( --only PATH)?', 'run', 'cd crates/version && rt check'),
    Rule(r'\./dev prove CRATE', 'run', './dev prove version'),
    Rule(r'\./dev where CRATE FUNCTION', 'run', './dev where num_lent put_bytes'),
    Rule(r'\./dev refused.*', 'run', 'rt must-fail version && ./dev refused version'),
    Rule(r'\./dev repeats( \[DIR\])?', 'run', './dev repeats crates/version'),
    Rule(r'\./dev unproved OUT\.(s?o)', 'run', r'./dev unproved target/built/unproved.\1'),
    Rule(r'\./dev COMMAND --help', 'run', './dev unproved --help'),
    Rule(r'\./dev time commits BEFORE AFTER', 'not', 'it proves two versions from nothing'),
    Rule(r'(\./dev (?:archive|texts (?:refusals|crate_list|edits))) --write', 'run', r'cd "$COPY" && \g<0> && \1'),
    Rule(r'(\./dev texts(?: picture)?) --write', 'run', r'cd "$COPY" && \g<0> && \1', 'dot'),
    Rule(r'\./dev time (crates|edits|modules).*', 'run', r'./dev time \1 version'),
    Rule(r'bash install\.sh (--uninstall )?PREFIX', 'run', r'bash install.sh \1"$PREFIX"'),
    Rule(r'bash packaging/cross/build\.sh( TARGET OUT)?', 'not', 'a form; the commands of docs/LINKING.md are run'),
    Rule(r'bash packaging/cross/test\.sh \S+', 'not', 'test_all.sh runs it for each processor whose emulator is there'),
    Rule(r'bash packaging/debian/build\.sh OUT', 'not', 'a form; packaging/debian/test.sh runs it'),
    Rule(r'cc -I include program\.c .*', 'not', 'a form; the code in C of the texts is compiled'),
    Rule(r'bash packaging/release/make\.sh OUT', 'not', 'a form; test_all.sh runs it in the long run'),
    Rule(r'target/built/(balance_file samples/overfull_site|charges_file samples/twin_lines)\.bin.*', 'run', r'\g<0> || [ $? = 1 ]'),
    Rule(r'bash desk/install\.sh', 'run', r'WENGELUDO_APT=no \g<0> "$PREFIX/desk"', DESK),
    Rule(r'(bash desk/install\.sh && )?wengeludo serve( site\.book)?', 'run', 'WENGELUDO_APT=no bash desk/install.sh "$PREFIX/desk" && cd "$PREFIX" && '
         '{ timeout 10 desk/bin/wengeludo serve --port 8437 >served || [ $? = 124 ]; } && grep -q http served', DESK),
    Rule(r'wengeludo sheet( … -o page\.html)? --live', 'not', 'a form; desk/tests/test_live.py runs it'),
    Rule(r'wengeludo .*[A-Z]{4}.*|wengeludo (suspects|buy|why|history|histories)', 'not', 'a form; desk/tests/test_readme.py runs the commands of desk/README.md'),
    Rule(r'(/usr/bin/python3 -m venv|target/python/bin/pip install) .*', 'run', r'cd "$COPY" && \g<0>', DESK),
    Rule(r'(?:WENGELUDO_\w+=\d+ )*python3 -m pytest.*', 'not', 'desk/test.sh runs it, in an environment of its own'),
    Rule(r'bash (?:bindings/python/)?native/(bench|sanitize)\.sh.*', 'run', r'bash bindings/python/native/\1.sh 500'),
    Rule(r'python3 (?:bindings/python/)?time_wide\.py.*', 'run', f'{HOME}/bin/python3 bindings/python/time_wide.py 200 || [ $? = 1 ]', DESK),
    Rule(r'python3 (desk/tests/draws\.py) (rates) .*', 'run', fr'PYTHONPATH=desk/src:desk/tests {HOME}/bin/python3 \1 \2 2 3', DESK),
    Rule(r'python3 (desk/tests/draws\.py) (check) .*', 'run', fr'PYTHONPATH=desk/src:desk/tests {HOME}/bin/python3 \1 \2 1000', DESK),
    Rule(r'python3 (desk/tests/million\.py) FOLDER', 'run', fr'mkdir -p "$PREFIX" && PYTHONPATH=desk/src:desk/tests {HOME}/bin/python3 \1 "$PREFIX" 2000', DESK),
    Rule(r'cargo doc --open', 'run', 'cargo doc --offline --no-deps'),
    Rule(r'(?:WENGELUDO_\w+=\d+ )*(cargo test .*)', 'run', r'WENGELUDO_INPUTS=2000 \1'),
    Rule(r'\./dev mutants.*', 'run', './dev mutants --list --count 5'),  # a run of them takes hours
    Rule(r'bash bench/run\.sh --before LIBRARY.*', 'run', f'bash bench/run.sh --before {ARCHIVE} 2 0'),
    Rule(r'bash bench/(run|visits|checks|flows)\.sh.*', 'run', r'bash bench/\1.sh 2 1'),
    Rule(r'bash tests/fuzz/run\.sh \S+', 'run', 'bash tests/fuzz/run.sh 1'),
    Rule(r'python3 (desk/tests/monte_carlo|desk/tests/test_history_findings)\.py \d+', 'long', fr'{HOME}/bin/python3 \1.py 1', DESK),
    Rule(r'python3 (desk/bench_history|desk/tests/bench_serve)\.py', 'long', fr'PYTHONPATH=desk/tests {HOME}/bin/python3 \1.py', DESK),
    Rule(r'python3 reference/desk_tool\.py --hold', 'long', r'\g<0>'),
    Rule(r'python3 reference/make_cases\.py --write', 'long', r'cd "$COPY" && \g<0> && diff -rq crates "$TREE/crates" && diff -rq samples "$TREE/samples" && diff reference/README.md "$TREE/reference/README.md"'),
]


class Command(NamedTuple):
    text: str
    where: str
    folder: str
    prints: list  # lines


class Code(NamedTuple):
    language: str
    text: str
    where: str


def texts():
    found = ['README.md', 'CONTRIBUTING.md', 'CHANGELOG.md', 'samples/README.md', 'reference/README.md', 'bindings/python/README.md', 'bindings/js/README.md',
             'bindings/rust/README.md', 'desk/README.md', 'SECURITY.md']
    found += sorted(os.path.relpath(path, ROOT) for pattern in ('*.md', 'decisions/*.md', 'desk/*.md') for path in glob.glob(os.path.join(ROOT, 'docs', pattern)))
    return [path for path in found if os.path.exists(os.path.join(ROOT, path))]


def folder_of(command, after):
    """Where a command is run: as the text says behind it, cargo in the Rust crate, all else at the root."""
    told = re.match(r'[^`.;|]{0,20}\bin `?((?:bindings|packaging|tests)/\w+|bench|programs|desk)', after)
    if told:
        return told.group(1)
    return 'bindings/rust' if re.search(r'(^| )cargo ', command) else '.'


def read(path):
    """The commands and the code of a text, in their order."""
    with open(os.path.join(ROOT, path), encoding='utf-8') as file:
        lines = file.read().split('\n')
    commands, codes, block = [], [], None
    for number, line in enumerate(lines, 1):
        where = f'{path}:{number}'
        if line.startswith('```'):
            if block is None:
                block = (line[3:].strip(), where, [])
            else:
                language, start, inside = block
                block = None
                if language == 'sh':
                    commands += session(inside, start)
                elif language in ('c', 'cpp', 'rust', 'python'):
                    codes.append(Code(language, '\n'.join(inside) + '\n', start))
        elif block is not None:
            block[2].append(line)
        elif line.startswith('    ') and FIRST.match(line.strip()):
            text = re.sub(r'\s+#.*$', '', line.strip())
            commands.append(Command(text, where, folder_of(text, ''), []))
        else:
            for piece in re.finditer(r'`([^`]+)`', line):
                if FIRST.match(piece.group(1)):
                    after = line[piece.end():]
                    commands.append(Command(piece.group(1), where, folder_of(piece.group(1), after), []))
    return commands, codes


def session(lines, start):
    """The commands of a block marked sh, each with what it prints."""
    found = []
    for line in lines:
        if line.startswith('$ '):
            found.append((line[2:].strip(), []))
        elif found and line.strip():
            found[-1][1].append(line)
    return [Command(text, start, folder_of(text, ''), prints if set(prints) != {'...'} else []) for text, prints in found]


def plan(command):
    """What is done with a command, the words that are run, and the rule that says so."""
    if not command.prints and command.text in ELSEWHERE:
        return 'elsewhere', 'test_all.sh', None
    for rule in RULES:
        if re.fullmatch(rule.pattern, command.text):
            words = rule.word if rule.do == 'not' else re.sub(rule.pattern, rule.word, command.text, count=1)
            return rule.do, words, rule
    return 'run', command.text, None


class InTestAll:
    """The commands that test_all.sh runs by itself, without comparing what they print."""

    def __init__(self):
        with open(os.path.join(ROOT, 'test_all.sh'), encoding='utf-8') as file:
            self.lines = [line for line in file.read().split('\n') if not line.lstrip().startswith('#')]

    def __contains__(self, command):
        whole = re.compile(r'(?<![\w/."])' + re.escape(command) + r'(?![\w/.-])')
        return any(whole.search(line) for line in self.lines)


ELSEWHERE = InTestAll()


def fits(prints, said):
    """Whether the lines are those that the text has, `...` standing for any."""
    if '...' not in prints:
        return list(prints) == said
    parts, part = [], []
    for line in prints:
        if line == '...':
            parts.append(part)
            part = []
        else:
            part.append(line)
    parts.append(part)
    if said[:len(parts[0])] != parts[0] or (parts[-1] and said[-len(parts[-1]):] != parts[-1]):
        return False
    at = len(parts[0])
    for part in parts[1:-1]:
        while part and said[at:at + len(part)] != part:
            at += 1
            if at > len(said):
                return False
        at += len(part)
    return at <= len(said) - len(parts[-1])


def environment(work):
    """A scratch prefix for install.sh, in which compilers and tools look; a copy of the tree, with the archive."""
    prefix, copy = os.path.join(work, 'prefix'), os.path.join(work, 'copy')
    more = {'PREFIX': prefix, 'PKG_CONFIG_PATH': f'{prefix}/lib/pkgconfig', 'CMAKE_PREFIX_PATH': prefix, 'CPATH': f'{prefix}/include',
            'LIBRARY_PATH': f'{prefix}/lib', 'LD_LIBRARY_PATH': f'{prefix}/lib', 'COPY': copy, 'TREE': ROOT}
    return {**os.environ, **more}


def copied(copy):
    """The tree without what is built, and its archive with the module that the proof handed to the compiler (packaging/cross/build.sh)."""
    shutil.copytree(ROOT, copy, ignore=shutil.ignore_patterns('.git', 'target', 'out', 'build', '__pycache__', '*.egg-info'))
    os.makedirs(os.path.join(copy, 'target'))
    os.symlink(os.path.join(ROOT, 'target', 'staticlib'), os.path.join(copy, 'target', 'staticlib'))
    if os.path.isdir(os.path.join(ROOT, 'target', 'cross')):
        shutil.copytree(os.path.join(ROOT, 'target', 'cross'), os.path.join(copy, 'target', 'cross'))


def absent(rule):
    """Whether what a rule needs is not here."""
    return bool(rule and rule.needs) and not os.path.exists(os.path.join(ROOT, rule.needs)) and shutil.which(rule.needs) is None


def run(words, folder, env):
    """Status, what was printed on standard output, and all that was said."""
    done = subprocess.run(['bash', '-c', 'set -e; ' + words], cwd=os.path.join(ROOT, folder), env=env, text=True, errors='replace',
                          stdin=subprocess.DEVNULL, stdout=subprocess.PIPE, stderr=subprocess.PIPE, timeout=LIMIT)
    return done.returncode, done.stdout.rstrip('\n').split('\n') if done.stdout else [], done.stdout + done.stderr


def compiled(code, work, env):
    """Compiles a piece of code as a text has it: what is wrong with it, or nothing."""
    if code.language == 'python':
        path, python = os.path.join(work, 'code.py'), os.path.join(env['COPY'], 'target', 'python', 'bin', 'python3')
        with open(path, 'w', encoding='utf-8') as file:
            file.write(code.text)
        words = f'{python} {path}' if os.path.exists(python) else f'python3 -m py_compile {path}'
    elif code.language == 'rust':
        folder = os.path.join(work, 'user')
        os.makedirs(os.path.join(folder, 'src'), exist_ok=True)
        with open(os.path.join(folder, 'Cargo.toml'), 'w', encoding='utf-8') as file:
            file.write('[package]\nname = "user"\nversion = "0.1.0"\nedition = "2021"\n[dependencies]\n'
                       f'wengeludo_balance = {{ path = "{ROOT}/bindings/rust" }}\n[workspace]\n')
        with open(os.path.join(folder, 'src', 'main.rs'), 'w', encoding='utf-8') as file:
            file.write(code.text)
        words = f'cd {folder} && cargo run --offline --quiet'
    else:
        heads = [line for line in code.text.split('\n') if line.startswith('#include')]
        inside = [line for line in code.text.split('\n') if not line.startswith('#include')]
        plus = code.language == 'cpp'
        ahead = ['#include <array>', '#include <cstdio>', '#include <vector>'] if plus else []
        given = 'const std::vector<std::uint8_t> &file, std::uint8_t office' if plus else 'const uint8_t *file, size_t file_length, uint8_t office'
        path = os.path.join(work, 'code.' + code.language)
        with open(path, 'w', encoding='utf-8') as file:
            file.write('\n'.join(ahead + heads + [f'int customer({given});', f'int customer({given})', '{'] + inside + ['return 0;', '}', '']))
        words = f'{"g++ -std=c++17" if plus else "cc -std=c11"} -Wall -Wextra -Werror -fsyntax-only -I include {path}'
    status, _, said = run(words, '.', env)
    return '' if status == 0 else f'{code.where}: the code in {code.language} is not taken:\n{said[-2000:]}'


def gathered():
    """Each command of the texts where it stands first, with all that they say of what it prints; and the pieces of code."""
    once, codes = {}, []
    for path in texts():
        found = read(path)
        codes += found[1]
        for command in found[0]:
            first = once.setdefault((command.text, command.folder), command._replace(prints=[]))
            if command.prints:
                first.prints.append(command.prints)
    return list(once.values()), codes


def tried(command, words, env):
    """Runs a command: what is wrong with it, or nothing."""
    try:
        status, printed, said = run(words, command.folder, env)
    except subprocess.TimeoutExpired:
        status, printed, said = 124, [], f'still running after {LIMIT} seconds'
    if status != 0:
        return f'{command.where}: `{words}` ended with status {status}:\n{said[-2000:]}'
    if not all(fits(prints, printed) for prints in command.prints):
        return f'{command.where}: `{words}` does not print what the text says:\n{said[-2000:]}'
    return ''


def listed(commands):
    for command in commands:
        do, words, _ = plan(command)
        print(f'{do:9} {command.where:28} {command.text}' + (f'  =>  {words}' if words != command.text else ''))


def run_all(commands, codes, everything):
    """What is wrong, and how many commands there are of each kind."""
    failed, counts, ran = [], dict.fromkeys(('run', 'elsewhere', 'long', 'not', 'absent', 'code'), 0), set()
    work = tempfile.mkdtemp(prefix='commands')
    env = environment(work)
    try:
        copied(env['COPY'])
        for command in commands:
            do, words, rule = plan(command)
            do = 'absent' if do in ('run', 'long') and absent(rule) else do
            counts[do] += 1
            again = (words, command.folder) in ran and not command.prints
            if do == 'run' and not again or do == 'long' and everything and not again:
                ran.add((words, command.folder))
                failed.append(tried(command, words, env))
        counts['code'] = len(codes)
        failed += [compiled(code, work, env) for code in codes]
    finally:
        shutil.rmtree(work)
    return [text for text in failed if text], counts


def main(args):
    if args not in ([], ['--all'], ['--list']):
        sys.exit('usage: ./dev doc-commands [--all | --list]')
    commands, codes = gathered()
    if args == ['--list']:
        return listed(commands)
    if not os.path.exists(os.path.join(ROOT, ARCHIVE)):
        sys.exit(f'commands: no {ARCHIVE}: build it with `bash packaging/archive.sh`')
    os.makedirs(os.path.join(ROOT, 'target', 'built'), exist_ok=True)
    failed, counts = run_all(commands, codes, bool(args))
    fitted = {rule.pattern for rule in (plan(command)[2] for command in commands) if rule}
    failed += [f'tools/doc_commands.py: no text has a command for the rule {rule.pattern}' for rule in RULES if rule.pattern not in fitted]
    for text in failed:
        print(f'commands: {text}', file=sys.stderr)
    if failed:
        sys.exit(1)
    later = '' if args else f', {counts["long"]} take minutes (--all)'
    more = f', {counts["absent"]} left out for want of Debian\'s packages' if counts['absent'] else ''
    print(f'commands: {len(commands)} commands of {len(texts())} texts: {counts["run"] + (counts["long"] if args else 0)} run{later}, '
          f'{counts["elsewhere"]} run by test_all.sh itself, {counts["not"]} not to be run{more}; {counts["code"]} pieces of code compiled')


if __name__ == '__main__':
    main(sys.argv[1:])

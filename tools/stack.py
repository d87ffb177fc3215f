#!/usr/bin/env python3
# SPDX-License-Identifier: LicenseRef-Wengeludo
"""The most stack that each exported call takes, by its instructions: what every function pushes and sets aside, along the deepest chain.

    ./dev stack [ARCHIVE]   the calls with their bytes, for x86-64; status 1 if the header says another most

A bound for every input, since no function calls itself and none sets aside a number of bytes that it works out. memcpy and memset are the
C library's and are not counted.
"""
import os
import re
import subprocess
import sys

ROOT = os.path.abspath(os.path.join(os.path.dirname(__file__), '..'))
ARCHIVE = os.path.join(ROOT, 'target', 'staticlib', 'libwengeludo.a')
HEADER = os.path.join(ROOT, 'include', 'wengeludo_balance.h')
LIBC = {'memcpy', 'memset', 'memmove'}


def functions(archive):
    """The instructions of each function, with the names of what it calls."""
    told = subprocess.run(['objdump', '-dr', '--no-show-raw-insn', archive], capture_output=True, text=True, check=True).stdout
    found, lines = {}, []
    for line in told.split('\n'):
        head = re.match(r'^[0-9a-f]+ <(.*)>:$', line)
        if head:
            lines = found.setdefault(head.group(1), [])
        else:
            lines.append(line.strip())
    return found


def frame(name, lines):
    """Bytes that a function takes by itself, its return address with them."""
    taken, probed = 8, False
    for line in lines:
        code = line.split('\t')[-1].strip() if '\t' in line else line
        far = re.match(r'lea\s+-(0x[0-9a-f]+)\(%rsp\),%r11$', code)
        aside = re.match(r'sub\s+\$(0x[0-9a-f]+),%rsp$', code)
        if far:  # the stack is touched page by page, down to that place
            taken, probed = taken + int(far.group(1), 16), True
        elif aside and probed and aside.group(1) == '0x1000':
            probed = False  # the step of that loop
        elif aside:
            taken += int(aside.group(1), 16)
        elif re.match(r'push\s', code):
            taken += 8
        elif re.search(r',%rsp$', code) and not re.match(r'(add|lea|cmp|mov)\s', code):
            sys.exit(f'stack: {name} moves the stack in a way that is not known: {code}')
    return taken


def below(lines):
    """What a function calls, or ends in."""
    jumps = [line for line in lines if re.search(r'R_X86_64_(PLT32|PC32|GOTPCREL\w*|REX_GOTPCRELX|GOTPCRELX)\s', line)]
    return {re.sub(r'[-+]0x[0-9a-f]+$', '', line.split()[-1]).removeprefix('.text.') for line in jumps}


def deepest(name, all_of, seen, chain=()):
    """The most bytes from this function down."""
    if name in chain:
        sys.exit(f'stack: {name} calls itself')
    if name not in seen:
        called = [other for other in below(all_of[name]) - LIBC if not other.startswith('.')]
        lost = [other for other in called if other not in all_of]
        if lost:
            sys.exit(f'stack: {name} calls {lost[0]}, which is not in the archive')
        seen[name] = frame(name, all_of[name]) + max((deepest(other, all_of, seen, (*chain, name)) for other in called), default=0)
    return seen[name]


def main(words):
    if len(words) > 1:
        sys.exit(__doc__)
    all_of, seen = functions(words[0] if words else ARCHIVE), {}
    calls = sorted(name for name in all_of if re.fullmatch(r'wengeludo_\w+', name))
    for name in calls:
        print(f'{name} {deepest(name, all_of, seen):,}')
    with open(HEADER, encoding='utf-8') as file:
        text = ' '.join(file.read().replace(' * ', ' ').split())
    found = re.search(r'at most ([\d,]+) bytes of stack, which is (\w+); balance_plant takes ([\d,]+) and check_flow ([\d,]+)', text)
    said = found and (found.group(2), *(int(found.group(k).replace(',', '')) for k in (1, 3, 4)))
    most = max(calls, key=lambda name: seen[name])
    true = (most[len('wengeludo_'):], seen[most], seen['wengeludo_balance_plant'], seen['wengeludo_check_flow'])
    if said != true:
        sys.exit(f'stack: the header says {said}, and it is {true}')


if __name__ == '__main__':
    main(sys.argv[1:])

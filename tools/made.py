# SPDX-License-Identifier: LicenseRef-Wengeludo
"""Texts that are made from lists: what stands between two marks is compared with what the list makes of it, or made anew."""
import os
import sys

ROOT = os.path.abspath(os.path.join(os.path.dirname(__file__), '..'))


def between(text, begin, end, lines):
    """The text with these lines between two marks; None where it does not have the marks once each."""
    if text.count(begin + '\n') != 1 or text.count(end + '\n') != 1:
        return None
    before, rest = text.split(begin + '\n')
    return before + '\n'.join([begin] + lines + [end]) + '\n' + rest.split(end + '\n')[1]


def remake(program, words, texts, told):
    """Compares texts with what is made of them, or writes them: `texts` has for each path a function from the old text to the new."""
    if words not in ([], ['--write']):
        sys.exit(f'usage: ./dev texts {program} [--write]')
    differ = False
    for path, make in texts.items():
        with open(os.path.join(ROOT, path), encoding='utf-8') as file:
            old = file.read()
        new = make(old)
        if new is None:
            sys.exit(f'{program}: {path} does not have its marks once each')
        if new == old:
            continue
        if words == ['--write']:
            with open(os.path.join(ROOT, path), 'w', encoding='utf-8') as file:
                file.write(new)
            print(f'{program}: {path} made anew')
        else:
            differ = True
            print(f'{program}: {path} is not what it is made from; run ./dev texts {program} --write', file=sys.stderr)
    if differ:
        sys.exit(1)
    if words != ['--write']:
        print(f'{program}: {told}, the same wherever they are told')

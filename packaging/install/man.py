#!/usr/bin/env python3
# SPDX-License-Identifier: LicenseRef-Wengeludo
"""The manual page wengeludo(3), made from the C header: its calls, its constants and its refusals, in the header's own words.

    python3 packaging/install/man.py           prints the page
    python3 packaging/install/man.py --names   prints the names of the calls, one a line

The header is read as it stands: a comment, then what it speaks of, a blank line after each. What does not fit stops the script.
"""
import os
import re
import sys

HEADER = os.path.join(os.path.dirname(os.path.abspath(__file__)), '..', '..', 'include', 'wengeludo_balance.h')
CALL = re.compile(r'^(?:static inline )?[a-z0-9_]+ \*?(?:const )?\*?(wengeludo_[a-z_]+)\(', re.M)


def escaped(text):
    """Text in roff: no line starts a request, no backslash and no hyphen is taken for something else."""
    text = text.replace('\\', '\\e').replace('-', '\\-').replace("'", "\\(aq").replace('`', '')
    return re.sub(r'^([.\'])', r'\\&\1', text, flags=re.M)


def blocks(text):
    """Comments of the header with the declarations behind each, in their order."""
    found, comment, code = [], [], []
    for line in text.split('\n'):
        if comment and not comment[-1].endswith('*/'):
            comment.append(line)
        elif line.startswith('/*'):
            found.append((comment, code))
            comment, code = [line], []
        else:
            code.append(line)
    found = found[1:] + [(comment, code)]
    return [(words(comment), '\n'.join(code).strip('\n')) for comment, code in found]


def words(comment):
    """A comment without its marks; its lines keep their indentation."""
    text = '\n'.join(comment)
    text = text[2:-2] if text.endswith('*/') else text[2:]
    return [re.sub(r'^ \* ?', '', line).rstrip() if i else line.strip() for i, line in enumerate(text.split('\n'))]


def paragraphs(lines):
    """Runs of lines that stand together: a line that starts with a word at the margin opens one, an indented line goes on."""
    out = []
    for line in lines:
        if not line.strip():
            out.append([])
        elif not out or re.match(r'^(Reads|Returns|Writes|What|No|A|The|With)\b', line) and not line.startswith(' '):
            out.append([line])
        else:
            out[-1].append(line)
    return [p for p in out if p]


def body(lines):
    """Paragraphs in roff: Reads, Returns and Writes with their text indented, the rest as it comes."""
    out = []
    for paragraph in paragraphs(lines):
        text = ' '.join(line.strip() for line in paragraph)
        head = re.match(r'^(Reads|Returns|Writes, where it returns 0:|Writes, where it returns another number:)\s+(.*)$', text)
        if head:
            out += ['.TP', f'.B {escaped(head.group(1))}'] + numbered(head.group(2))
        else:
            out += ['.PP'] + numbered(text)
    return out


def numbered(text):
    """A text in which refusals are told by number, each on a line of its own."""
    pieces = re.split(r' (?=\d+:  ?[a-z`])', text)
    out = [escaped(pieces[0])]
    for piece in pieces[1:]:
        out += ['.br', escaped(re.sub(r':  ?', ': ', piece, 1))]
    return out


def sentence(lines):
    return ' '.join(' '.join(line.strip() for line in lines).split())


def refusals(text):
    """Number, name and sentence of each refusal."""
    enum = re.search(r'refusals: enum.*?\*/\n(.*?)/\* refusals: end of enum', text, re.S).group(1)
    found = re.findall(r'(WENGELUDO_[A-Z_]+) = (\d+),\s*/\*(.*?)\*/', enum, re.S)
    return [(name, number, ' '.join(said.split())) for name, number, said in found]


def constants(text):
    """The macros, each group with the comment above it."""
    out = []
    for comment, macros in re.findall(r'/\* ((?:[^*]|\*(?!/))*?) \*/\n((?:#define WENGELUDO_[A-Z_]+ [^\n]+\n)+)', text):
        out += ['.PP', escaped(' '.join(comment.split())), '.nf']
        out += [f'.B "{escaped(line)}"' for line in macros.strip().split('\n')] + ['.fi']
    return out


def enums(text):
    """The enums of kinds and verdicts, with their comments."""
    out = []
    for comment, inside in re.findall(r'/\* ([^\n]*?) \*/\nenum \{\n(.*?)\};', text, re.S):
        if 'refusals:' in inside:
            continue
        out += ['.PP', escaped(comment)]
        for name, value, said in re.findall(r'(WENGELUDO_[A-Z_]+) = (\w+),?\s*/\*(.*?)\*/', inside, re.S):
            out += ['.TP', f'.BR {name} " = {value}"', escaped(' '.join(said.split()))]
    return out


def calls(text):
    """The comment of each call, or of a group of calls, with its declarations."""
    found = []
    for comment, code in blocks(text):
        names = [] if code.lstrip().startswith(('#', 'enum', 'static')) else CALL.findall(code)
        if names:
            found.append((comment, re.split(r'\n\n|\n#|\n/\*', code)[0], names))
    return found


def version(text):
    return '.'.join(re.search(rf'#define WENGELUDO_VERSION_{part} (\d+)', text).group(1) for part in ('MAJOR', 'MINOR', 'PATCH'))


def page(text):
    found = calls(text)
    names = [name for _, _, group in found for name in group]
    told = set(re.findall(r'^(?:uint8_t|uint32_t) (wengeludo_[a-z_]+)\(', text, re.M))
    if set(names) != told:
        sys.exit(f'man: calls without a comment before them: {sorted(told - set(names))}')
    out = [f'.TH WENGELUDO 3 "" "wengeludo {version(text)}" "Wengeludo"', '.SH NAME',
           'wengeludo \\- steam and condensate balance sheets', '.SH SYNOPSIS', '.nf', '.B #include <wengeludo_balance.h>', '.PP']
    for _, code, _ in found:
        out += [f'.B "{escaped(line)}"' for line in code.split('\n') if line.strip()] + ['.PP']
    out += ['.B "const char *wengeludo_refusal_text(uint8_t number);"', '.fi', '.PP', 'Link with \\fI\\-lwengeludo\\fP.']
    out += ['.SH DESCRIPTION']
    head = blocks(text)[0][0]
    for paragraph in '\n'.join(head).split('\n\n'):
        items = re.split(r'\n  - ', paragraph)
        out += ['.PP', escaped(sentence(items[0].split('\n')))]
        for item in items[1:]:
            parts = re.split(r'\n(?=\S)', item)
            out += ['.IP \\(bu 2', escaped(sentence(parts[0].split('\n')))]
            out += [line for rest in parts[1:] for line in ('.PP', escaped(sentence(rest.split('\n'))))]
    for comment, code, group in found:
        out += ['.SS ' + ' '.join(name for name in group)] + body(comment)
    out += ['.SH RETURN VALUE', '.B wengeludo_version', 'returns the version of the library, 10000 being 1.0.0.',
            'The other calls return 0, or the number of a refusal.', '.B wengeludo_refusal_text', 'gives the sentence of a number.']
    for name, number, said in refusals(text):
        out += ['.TP', f'.BR {name} " ({number})"', escaped(said)]
    out += ['.SH CONSTANTS'] + constants(text) + enums(text)
    out += ['.SH THREADS', 'Every call may run in several threads at once, on memory of their own.', '.SH SEE ALSO',
            'FORMATS.md and LINKING.md among the documents of the library.']
    return '\n'.join(out) + '\n'


def main(args):
    with open(HEADER, encoding='utf-8') as file:
        text = file.read()
    if args == ['--names']:
        print('\n'.join(name for _, _, group in calls(text) for name in group))
    elif not args:
        sys.stdout.write(page(text))
    else:
        sys.exit('usage: python3 packaging/install/man.py [--names]')


if __name__ == '__main__':
    main(sys.argv[1:])

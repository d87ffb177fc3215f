#!/usr/bin/env python3
# SPDX-License-Identifier: LicenseRef-Wengeludo
"""The module of the proving run as text, for another processor: searched for what depends on its own, then without its name.

    python3 packaging/cross/retarget.py IN.ll OUT.ll aarch64|riscv64|wasm32
    python3 packaging/cross/retarget.py --fused IN.s TARGET   status 1 if the assembly has a fused multiply-add

What is searched: numbers made of pointers and back, pointers inside a layout, other address spaces, assembly, vectors, words that let a
floating-point operation be joined with another, and calls of the compiler's own that are not the same on every processor. A pair with a
pointer in it may be handed over and taken apart; where one is read from memory, its parts are read by the bytes that they were put at.
"""
import math
import re
import sys

# The compiler's own calls that mean the same everywhere. (A fence keeps a floating-point operation from being joined with another.) Tables
# are bytes, numbers in them with the low byte first: so is memory on each of these processors.
PLAIN = re.compile(r'^llvm\.(mem(move|cpy|set)\.[a-z0-9.]+|trap|arithmetic\.fence\.f64|(cttz|ctlz|ctpop|bswap|fsh[lr]|[us](min|max)|abs)\.i\d+'
                   r'|[us](add|sub|mul)\.with\.overflow\.i\d+|[us](add|sub)\.sat\.i\d+)$')
FOREIGN = [
    ('a pointer made a number, or a number a pointer', re.compile(r'\b(inttoptr|ptrtoint|ptrtoaddr)\b')),  # but for BOTH
    ('another address space', re.compile(r'\baddrspace\b')),
    ('assembly', re.compile(r'\basm\b(?!")')),
    ('a pointer inside a layout', re.compile(r'x ptr\]|\{[^}]*\bptr\b[^}]*\}|getelementptr( inbounds| nuw| nusw)* ptr,')),
    ('a vector', re.compile(r'<\d+ x ')),
    ('a word of the processor', re.compile(r'x86', re.I)),
    ('floating point that may be joined', re.compile(r'\bf(add|sub|mul|div|rem|neg)( \w+)* (fast|nnan|ninf|nsz|arcp|contract|afn|reassoc)\b')),
]
OWN = ' "target-cpu"="x86-64"'  # what rt writes of its processor, beside layout and triple
# What moves a number of bytes asks how far two places are apart: an address is a number there, and no number becomes an address.
BOTH = re.compile(r'^  %[\w.]+ = ptrtoaddr ptr %[\w.]+ to i64$')
MOVER = 'core::ptr::copy_drop::copy_bits'
# A pair in a register has no layout. One that is read from memory is read part by part (parted).
PAIR = re.compile(r'^ *(?:%[\w.]+ = )?(?:(?:tail )?call|extractvalue|insertvalue|phi|select|ret|define)\b(?!.*\b(?:byval|sret)\()(?!.*x ptr\])')
SIZES = {'i1': 1, 'i8': 1, 'i16': 2, 'i32': 4, 'i64': 8, 'double': 8, 'float': 4, 'ptr': 8}
PART = f'(?:{"|".join(SIZES)})'
READ = re.compile(rf'^  (%[\w.]+) = load (?=[^}}]*\bptr\b.*\}})(\{{ {PART}(?:, {PART})* \}}), ptr (%[\w.]+), align (\d+)$', re.M)
EMPTIED = r'  call void @llvm\.memset\.p0\.i64\(ptr (%[\w.]+), i8 0, i64 8, i1 false\)'  # a variable that holds a pointer
FUSED = {
    'aarch64': re.compile(r'^\s+(fn?m(add|sub)|fml[as])\b.*$', re.M),
    'riscv64': re.compile(r'^\s+fn?m(add|sub)\.[hsd]\b.*$', re.M),
    'wasm32': re.compile(r'^\s+\S*relaxed_n?madd\b.*$', re.M),
}
# How C hands over numbers shorter than a register: the calling conventions say it, x86-64's does not.
WIDENED = {'aarch64': {}, 'riscv64': {'i8': 'zeroext', 'i16': 'zeroext', 'i32': 'signext'}, 'wasm32': {'i8': 'zeroext', 'i16': 'zeroext'}}


def faults(text):
    """What in the module depends on its processor, with its line."""
    mover = False
    for number, line in enumerate(text.split('\n'), 1):
        if line.startswith(('target ', 'attributes ')) or line.startswith((';', 'source_filename')):
            continue
        if line.startswith('define '):
            mover = MOVER in line
        bare = re.sub(r'@"[^"]*"', '@', line)  # without the names of functions
        if not (mover and BOTH.match(bare)):
            yield from (f'line {number}: {said}: {line.strip()[:100]}' for said, found in FOREIGN
                        if found.search(bare) and not (said == 'a pointer inside a layout' and (PAIR.match(bare) or READ.match(bare))))
        yield from (f'line {number}: a call of the compiler that is not known: {name}'
                    for name in re.findall(r'@(llvm\.[\w.]+)\(', line) if not PLAIN.match(name))


def pointers(text):
    """Variables that hold a pointer and are used otherwise than by taking it out whole or putting it in whole."""
    for function in re.split(r'^(?=define )', text, flags=re.M):
        held = set(re.findall(r'(%[\w.]+) = alloca ptr\b', function))
        # A pointer is moved whole if its place, or the address of a table that is known when all is linked, is stored by one instruction.
        for line in function.split('\n') if held else []:
            whole = re.sub(r' = alloca ptr\b.*|(= load ptr,|store ptr [%@][\w.]+,) ptr %[\w.]+, align .*|' + EMPTIED, '', line)
            if held & set(re.findall(r'%[\w.]+', whole)) and ' = alloca ptr' not in line:
                yield f'a pointer not moved whole: {line.strip()[:100]}'


def attributes(text):
    """Attributes that name a processor or its features, but for the one that rt writes."""
    named = re.findall(r'"(?:target-|tune-)[^ }]*', ''.join(re.findall(r'^attributes .*$', text, re.M)).replace(OWN, ''))
    return [f'an attribute of the processor: {word}' for word in named]


def widened(text, words):
    """The entry points with numbers shorter than a register widened as the target's calling convention asks."""
    def entry(line):
        for kind, word in words.items():
            line = re.sub(rf'\b{kind} noundef %', f'{kind} noundef {word} %', line)
            line = line.replace(f'define noundef {kind} @', f'define noundef {word} {kind} @')
        return line
    return re.sub(r'^define [^\n]*@wengeludo_[^\n]*', lambda found: entry(found.group()), text, flags=re.M)


def parted(text):
    """Pairs that are read from memory, read part by part at the bytes that x86-64 puts them at; pointers are emptied whole."""
    def parts(found):
        name, kind, place, align = found.groups()
        lines, at, made = [], 0, 'poison'
        fields = kind.strip('{ }').split(', ')
        for k, field in enumerate(fields):
            at = -(-at // SIZES[field]) * SIZES[field]
            lines += [f'{name}.at{k} = getelementptr i8, ptr {place}, i64 {at}',
                      f'{name}.part{k} = load {field}, ptr {name}.at{k}, align {math.gcd(at, int(align))}']
            at += SIZES[field]
        for k, field in enumerate(fields):
            whole = name if k == len(fields) - 1 else f'{name}.made{k}'
            lines.append(f'{whole} = insertvalue {kind} {made}, {field} {name}.part{k}, {k}')
            made = whole
        return '\n'.join('  ' + line for line in lines)

    def emptied(function):
        held = set(re.findall(r'(%[\w.]+) = alloca ptr\b', function))
        return re.sub(EMPTIED, lambda found: f'  store ptr null, ptr {found[1]}, align 8' if found[1] in held else found[0], function)
    return ''.join(emptied(function) for function in re.split(r'^(?=define )', READ.sub(parts, text), flags=re.M))


def narrow(text):
    """Moves of memory with lengths of 32 bits, for pointers of 32 bits: a length that is worked out is one of memory, and fits."""
    text = re.sub(r'= ptrtoaddr ptr ', '= ptrtoint ptr ', text)
    text = re.sub(r'(@llvm\.mem(?:move|cpy)\.p0\.p0|@llvm\.memset\.p0)\.i64\(', r'\1.i32(', text)
    text = re.sub(r'(@llvm\.mem\w+[.p0]*\.i32\(.*, )i64 (\d+), i1 ', r'\1i32 \2, i1 ', text)
    text = re.sub(r'^(declare .*@llvm\.mem\w+[.p0]*\.i32\(.*, )i64, i1', r'\1i32, i1', text, flags=re.M)
    lengths = iter(range(len(text)))
    text = re.sub(r'^(  call void @llvm\.memmove\.p0\.p0\.i32\(.*, )i64 (%[\w.]+), i1 ',
                  lambda found: (lambda k: f'  %short.{k} = trunc i64 {found[2]} to i32\n{found[1]}i32 %short.{k}, i1 ')(next(lengths)), text, flags=re.M)
    left = re.findall(r'^.*@llvm\.mem\w+[.p0]*\.i32\(.*\bi64\b.*$', text, re.M)
    if left:
        sys.exit(f'cross: a move of memory whose length is not written out: {left[0].strip()}')
    return text


def retarget(text, target):
    """The module for a target; ends the program where it depends on its own processor."""
    found = [*faults(text), *pointers(text), *attributes(text)]
    if found:
        sys.exit('cross: the module depends on its processor:\n' + '\n'.join(found[:10]))
    text = re.sub(r'^target (datalayout|triple) = .*\n', '', text, flags=re.M).replace(OWN, '')
    text = parted(widened(text, WIDENED[target]))
    return narrow(text.replace(' "probe-stack"="inline-asm"', '')) if target == 'wasm32' else text


def main(words):
    if len(words) != 3 or words[-1] not in FUSED:
        sys.exit(__doc__)
    with open(words[1] if words[0] == '--fused' else words[0], encoding='utf-8') as file:
        text = file.read()
    if words[0] == '--fused':
        found = FUSED[words[2]].search(text)
        sys.exit(f'cross: a fused multiply-add: {found.group().strip()}' if found else 0)
    with open(words[1], 'w', encoding='utf-8') as file:
        file.write(retarget(text, words[2]))


if __name__ == '__main__':
    main(sys.argv[1:])

#!/usr/bin/env python3
# SPDX-License-Identifier: LicenseRef-Wengeludo
"""The picture of a sample's sheet, docs/sheet.svg: the plant of samples/blind_site.bin, each stream with what its sheet shows
(samples/blind_site.expected, which `balance` prints, byte for byte).

    ./dev texts picture           holds the picture against the sample: every stream with its number, class and flow
    ./dev texts picture --write   draws it, by Graphviz (Debian: apt-get install graphviz)
"""
import html
import math
import os
import re
import subprocess
import sys

ROOT = os.path.abspath(os.path.join(os.path.dirname(__file__), '..'))
PICTURE = os.path.join(ROOT, 'docs', 'sheet.svg')
sys.path.insert(0, ROOT)
from reference import samples  # noqa: E402

SAMPLE = samples.BLIND_SITE
# Colour, line and words of each class; the line alone tells them apart too.
LOOKS = {
    'A': ('#1b6ca8', 'solid', 'A adjusted: metered, and corrected'),
    'R': ('#8a6d00', 'solid', 'R as read: metered, nothing can check it'),
    'G': ('#2e7d32', 'dashed', 'G given: not metered, forced by the others'),
    'W': ('#6a3d9a', 'dotted', 'W withheld: not metered, not forced, blank'),
}


def sheet():
    """Class and flow of each stream, and the total, as the program prints them."""
    with open(os.path.join(ROOT, 'samples', SAMPLE.name + '.expected'), encoding='ascii') as file:
        lines = file.read().split('\n')
    streams = [line.split(' ') for line in lines if line[:1].isdigit()]
    total = next(line for line in lines if line.startswith('total')).split(' ')
    return [(letter, None if flow == '-' else int(flow)) for _, letter, flow in streams], total[1:]


def shown(k, letter, flow):
    """A stream's number, class and flow, as they stand beside it."""
    return f'{k} {letter}', '–' if flow is None else f'{flow:,}'


def caption(total):
    number, cost, degrees, verdict = total
    return f'sheet {number}: cost {int(cost):,}, degrees {degrees}, {verdict}; flows in kg per hour'


def dot():
    """The plant in Graphviz's language, from left to right, a point for each end outside."""
    records, total = sheet()
    out = ['digraph {', 'rankdir=LR; nodesep=0.3; ranksep=0.45; fontname="DejaVu Sans"; fontsize=12; labelloc=b;',
           'node [fontname="DejaVu Sans", fontsize=11, shape=box, style="filled,rounded", fillcolor="#f4f6f8", color="#54606c",'
           ' height=0.3, margin="0.08,0.04"];',
           'edge [fontname="DejaVu Sans", fontsize=10, arrowsize=0.6];', f'label=<{legend(total)}>;']
    for number, name in enumerate(SAMPLE.units, 1):
        look = ', style=filled, fillcolor="#d9e4ee"' if 'header' in name else ''
        out.append(f'u{number} [label="{name}"{look}];')
    for k, (stream, (letter, flow)) in enumerate(zip(SAMPLE.streams, records), 1):
        ends = [f'u{place}' if place else f'o{k}' for place in (stream.source, stream.target)]
        if 0 in (stream.source, stream.target):
            out.append(f'o{k} [shape=circle, label="", width=0.08, height=0.08, fixedsize=true, fillcolor=white];')
        colour, line, _ = LOOKS[letter]
        width = 2 if flow is None else 1 + min(3, math.sqrt(abs(flow)) / 45)
        name, value = shown(k, letter, flow)
        label = f'<font color="#54606c">{name} </font><font color="{colour}"><b>{value}</b></font>'
        out.append(f'{ends[0]} -> {ends[1]} [label=<{label}>, color="{colour}", style={line}, penwidth={width:.1f},'
                   f' tooltip="{html.escape(SAMPLE.stream_names[k - 1])}"];')
    return '\n'.join(out + ['}'])


def legend(total):
    rows = [f'<tr><td align="left"><font color="{colour}">{html.escape(text)} ({line})</font></td></tr>' for colour, line, text in LOOKS.values()]
    return f'<table border="0" cellspacing="0"><tr><td align="left"><b>{caption(total)}</b></td></tr>{"".join(rows)}</table>'


def write():
    try:
        drawn = subprocess.run(['dot', '-Tsvg'], input=dot(), text=True, capture_output=True, check=True).stdout
    except FileNotFoundError:
        sys.exit('picture: no dot on the PATH: install Graphviz (Debian: apt-get install graphviz)')
    drawn = re.sub(r'<!--.*?-->\n?', '', drawn, flags=re.S).replace('<title>%3</title>', '<title>The sheet of samples/blind_site.bin</title>')
    with open(PICTURE, 'w', encoding='utf-8') as file:
        file.write(drawn)


def check():
    """Every stream of the sheet stands in the picture, with the names of its ends' units, and the total."""
    with open(PICTURE, encoding='utf-8') as file:
        texts = [html.unescape(text).strip() for text in re.findall(r'<text[^>]*>([^<]*)</text>', file.read())]
    records, total = sheet()
    wanted = [caption(total), *SAMPLE.units]
    missing = [text for text in wanted if text not in texts]
    pairs = list(zip(texts, texts[1:]))
    missing += [f'{a} {b}' for a, b in (shown(k, *r) for k, r in enumerate(records, 1)) if (a, b) not in pairs]
    if missing:
        sys.exit(f'picture: docs/sheet.svg lacks {missing}; run ./dev texts picture --write')
    print(f'picture: docs/sheet.svg shows the {len(records)} streams of the sample\'s sheet and its total')


if __name__ == '__main__':
    if sys.argv[1:] == ['--write']:
        write()
    elif sys.argv[1:]:
        sys.exit('usage: ./dev texts picture [--write]')
    check()

#!/usr/bin/env bash
# How long the check takes at each of some commits, crate by crate, measured one after the other on this machine: for the note of a
# change (docs/changes).
#
#     ./dev time commits BEFORE AFTER ..
#
# Each commit is cloned and proved from nothing (seconds.py beside this file: no edits, no programs), one crate at a time so that times
# compare. Prints a table in markdown: seconds of processor time by crate, their sum, then lines of specs, code and proofs. A commit of an
# older kit cannot be measured by today's.
# SPDX-License-Identifier: LicenseRef-Wengeludo
set -eu
cd "$(dirname "$0")/.."
[ $# -ge 1 ] || { sed -n '2,9s/^# \{0,1\}//p' "$0" >&2; exit 2; }
top=$PWD
work=$(mktemp -d)
trap 'rm -rf "$work"' EXIT
k=0
for commit in "$@"; do
    k=$((k + 1))
    git clone -q "$top" "$work/$k"
    (cd "$work/$k" && git checkout -q "$commit")
    TMPDIR=$work WENGELUDO_TREE=$work/$k python3 tools/seconds.py crates >"$work/$k.log" 2>"$work/$k.err" || {
        echo "check_time: $commit is not proved; the last lines:" >&2
        tail -5 "$work/$k.log" "$work/$k.err" >&2
        exit 1
    }
done
python3 - "$work" "$@" <<'P'
import os
import re
import sys

work, commits = sys.argv[1], sys.argv[2:]
KINDS = ('specs', 'src', 'proofs')


def seconds(k):
    with open(f'{work}/{k}.log', encoding='utf-8') as log:
        return {name: round(float(taken)) for taken, name in re.findall(r'^ *([\d.]+) (\w+)$', log.read(), re.M)}


def sizes(k):
    size = dict.fromkeys(KINDS, 0)
    root = f'{work}/{k}/crates'
    for folder, _, files in os.walk(root):
        parts = os.path.relpath(folder, root).split(os.sep)
        for file in files:
            if file.endswith(('.rt', '.antt')) and len(parts) > 1 and parts[1] in size:
                with open(os.path.join(folder, file), encoding='utf-8') as text:
                    size[parts[1]] += sum(1 for _ in text)
    return size


runs = [seconds(k) for k in range(1, len(commits) + 1)]
lines = [sizes(k) for k in range(1, len(commits) + 1)]
names = list(dict.fromkeys(name for run in runs for name in run))
print('| crate | ' + ' | '.join(commits) + ' |')
print('|---' * (len(commits) + 1) + '|')
for name in names:
    print(f'| {name} | ' + ' | '.join(str(run.get(name, '-')) for run in runs) + ' |')
print('| **sum, s** | ' + ' | '.join(str(sum(run.values())) for run in runs) + ' |')
for kind in KINDS:
    print(f'| lines of {kind} | ' + ' | '.join(str(size[kind]) for size in lines) + ' |')
P

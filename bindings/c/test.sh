#!/usr/bin/env bash
# The host code beside the archive: where a file is refused, against the proved calls; the sentence of a refusal as a function. And what
# the header says of the floating-point environment.
# SPDX-License-Identifier: LicenseRef-Wengeludo
set -euo pipefail
cd "$(dirname "$0")/../.."
archive=${WENGELUDO_ARCHIVE:-target/staticlib/libwengeludo.a}
work=$(mktemp -d)
trap 'rm -rf "$work"' EXIT
words=(-std=c99 -pedantic -O2 -Wall -Wextra -Wconversion -Werror -I include -I bindings/c)
python3 bindings/c/faults.py "$work/faults"
python3 packaging/cross/pack.py "$work/drawn" "${CROSS_FILES:-2000}" >/dev/null
"${CC:-cc}" "${words[@]}" bindings/c/test.c bindings/c/fault.c "$archive" -o "$work/test"
"$work/test" "$work/faults" "$work/drawn"
"${CC:-cc}" "${words[@]}" -shared -fPIC bindings/c/refusal_text.c -o "$work/texts.so"
python3 - "$work/texts.so" <<'P'
import csv
import ctypes
import sys

text = ctypes.CDLL(sys.argv[1]).wengeludo_refusal_text
text.restype, text.argtypes = ctypes.c_char_p, [ctypes.c_uint8]
with open('tools/refusals.tsv', encoding='utf-8', newline='') as file:
    rows = list(csv.reader(file, delimiter='\t', quoting=csv.QUOTE_NONE))[1:]
assert all(text(int(row[0])).decode() == row[3] for row in rows) and text(0) == b'done' and b'not know' in text(255)
print(f'refusal_text: {len(rows)} sentences by dlopen')
P
if [ "$(uname -m)" = x86_64 ] && "${CC:-cc}" -std=gnu11 -O2 -Wall -Wextra -Werror -I include bindings/c/floats.c "$archive" -lm -o "$work/floats"; then
    "$work/floats" "$work/drawn"
fi

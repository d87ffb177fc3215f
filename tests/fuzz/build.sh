#!/usr/bin/env bash
# Builds target/built/fuzz/target, the fuzz target over libwengeludo.a, with clang's libFuzzer, and the list of its basic blocks.
# SPDX-License-Identifier: LicenseRef-Wengeludo
set -eu
cd "$(dirname "$0")/../.."
archive=target/staticlib/libwengeludo.a
out=target/built/fuzz
need() { command -v "$1" >/dev/null || { echo "no $1: install it (Debian: apt-get install $2)" >&2; exit 2; }; }
need clang "clang libclang-rt-dev"
need objdump binutils
need nm binutils
[ -e "$archive" ] || { echo "no $archive: build it with 'bash packaging/archive.sh' (Rattle kit rattle-kit-13f or later)" >&2; exit 2; }
mkdir -p "$out"
clang -std=gnu11 -O1 -g -Wall -Wextra -Werror -fno-pie -no-pie -fsanitize=fuzzer -DBLOCKS="\"$PWD/$out/blocks.txt\"" \
    -I include tests/fuzz/*.c "$archive" -lm -o "$out/target" ||
    { echo "clang's libFuzzer is missing? (Debian: apt-get install clang; the archive libclang_rt.fuzzer-x86_64.a)" >&2; exit 2; }
# A basic block starts at a function's first instruction, at a jump's target and after a jump.
nm "$archive" | awk '$2 == "t" || $2 == "T" {$1 = ""; $2 = ""; sub(/^ */, ""); print}' >"$out/functions.txt"
objdump -d --no-show-raw-insn "$out/target" | awk '
    NR == FNR {mine[$0] = 1; next}
    /^[0-9a-f]+ <.*>:$/ {name = $0; sub(/^[0-9a-f]+ </, "", name); sub(/>:$/, "", name); inside = name in mine; due = 1; next}
    inside && /^ +[0-9a-f]+:/ {
        at = $1; sub(/:$/, "", at); there[at] = 1
        if (due && $2 !~ /^(nop|xchg|data16|cs)/) {start[at] = 1; due = 0}
        if ($2 ~ /^j/) {due = 1; if ($3 ~ /^[0-9a-f]+$/) start[$3] = 1}
        if ($2 ~ /^ret/) due = 1
    }
    END {for (a in start) if (a in there) print a}' "$out/functions.txt" - | sort >"$out/blocks.txt"
echo "built $out/target, $(wc -l <"$out/blocks.txt") basic blocks"

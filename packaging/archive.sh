#!/usr/bin/env bash
# Proves the calls and writes their archive for x86-64 Linux, target/staticlib/libwengeludo.a.
#
#     bash packaging/archive.sh              the archive
#     bash packaging/archive.sh OUT.a TOOLS  the same to OUT.a, compiled by the clang of the folder TOOLS (packaging/cross/build.sh)
#
# `rt lib` makes it of the crate wengeludo_c, whose exports call those of the library `wengeludo`: a crate is a library or an archive.
# It runs on every processor of x86-64, and not on rt's own default, x86-64-v2, alone.
#
# WENGELUDO_AFTER_GATE=1   takes the libraries that `rt ci` has just left in crates/*/out as they are, and proves wengeludo_c over them
# SPDX-License-Identifier: LicenseRef-Wengeludo
set -euo pipefail
[ $# -eq 0 ] || [ $# -eq 2 ] || { sed -n '2,5s/^# \{0,1\}//p' "$0" >&2; exit 2; }
out=$(realpath -m "${1:-$(dirname "$0")/../target/staticlib/libwengeludo.a}")
tools=${2:+$(realpath "$2")}
cd "$(dirname "$0")/.."
crate=wengeludo_c made=libwengeludo_c.a
fail() { echo "archive: $*" >&2; exit 1; }
command -v rt >/dev/null || fail "no rt on the PATH: install the Rattle kit (rattle-kit-13f or later)"
[ -d crates/$crate ] || fail "there is no crate $crate, of which the archive is made$([ ! -e PORTING-LEFT.md ] || echo ': see PORTING-LEFT.md')"
kit=$(dirname "$(dirname "$(readlink -f "$(command -v rt)")")")
cpu=(--cpu x86-64)
log=$(mktemp)
trap 'rm -f "$log"' EXIT

# By rattle itself, over the libraries that stand in crates/*/out.
over_libraries() { # folder of the tools, where to
    local words=(--crate-name $crate src/lib.rt --extern "std=$kit/rlibs/std.rlib" -L "dependency=$kit/rlibs") name line
    for name in $(sed -n "s/^$crate staticlib: *//p" crates.txt); do words+=(--extern "$name=../$name/out/rlib/$name.rlib"); done
    while read -r line; do
        [ ! -d "crates/$line/out/rlib/$line.rlib" ] || words+=(-L "dependency=../$line/out/rlib")
    done < <(sed -n 's/^\([a-z][a-z0-9_]*\).*:.*/\1/p' crates.txt)
    words+=(--antt-project "$kit/rattle/logic/antt-project.json" --logic-built "$kit/logic_built" --jobs 2 --links $crate=)
    (cd crates/$crate && "$kit/bin/rattle" build "${words[@]}" --crate-type staticlib "${cpu[@]}" --toolchain "$1" --backend llvm -o "$2")
}

proved() { # command
    "$@" >"$log" 2>&1 || { tail -20 "$log" >&2; fail "the calls are not proved"; }
    grep '^logic=proved ' "$log" | tail -1 || { tail -20 "$log" >&2; fail "the last line does not say that the calls are proved"; }
}

mkdir -p "$(dirname "$out")"
by_rt() { (cd crates/$crate && rt lib "${cpu[@]}"); }
[ -n "${WENGELUDO_AFTER_GATE:-}" ] || proved by_rt
if [ -z "${WENGELUDO_AFTER_GATE:-}" ] && [ -z "$tools" ]; then
    cp crates/$crate/out/$made "$out"
else
    proved over_libraries "${tools:-$kit/toolchain}" "$out"
fi

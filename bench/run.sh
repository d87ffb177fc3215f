#!/usr/bin/env bash
# Measures the sheet call of the archive beside the same in plain Rust, a real-number solve, and Eigen's QR and LEMON where they are
# installed: all in turns in one run, each plant once in a round with all the others between (docs/SPEED.md).
#
#     bash bench/run.sh [PLANTS [SECONDS [ROUNDS]]]   prints the tables; 1000 plants of each kind and size, 60 seconds of the
#                                                     search for bad plants for each of its three aims, 9 rounds; plot and
#                                                     worst plants go to target/built/bench
#     bash bench/run.sh --before LIBRARY [...]        the same with another archive in the run, a .a or a .so of version 1
#     bash bench/run.sh --record [...]                the same, and puts the tables into docs/SPEED.md, the plot beside it, and
#                                                     the worst plants into bench
# SPDX-License-Identifier: LicenseRef-Wengeludo
set -euo pipefail
start=$PWD
cd "$(dirname "$0")/.."
words=
record=
options=()
out=target/built/bench
need() { command -v "$1" >/dev/null || { echo "no $1: install $2" >&2; exit 2; }; }
usage() { echo "usage: bash bench/run.sh [--record] [--before LIBRARY] [PLANTS [SECONDS [ROUNDS]]]" >&2; exit 2; }

object() { # name, archive or shared object: prints the shared object, made from an archive as install.sh makes it
    [ -f "$2" ] || { echo "no archive $2" >&2; exit 2; }
    if [ "${2%.so}" != "$2" ]; then
        realpath "$2"
    else
        "${CC:-cc}" -shared -nostartfiles -Wl,--version-script,bench/calls.map -Wl,-z,defs -Wl,-z,now \
            -Wl,--whole-archive "$2" -Wl,--no-whole-archive -o "$out/$1.so" || exit 2
        realpath "$out/$1.so"
    fi
}

need cargo "Rust 1.66 or later (https://rustup.rs, or Debian: apt-get install cargo-web)"
need "${CC:-cc}" "a C compiler (Debian: apt-get install gcc libc6-dev)"
mkdir -p "$out"
while [ $# -gt 0 ]; do
    case "$1" in
    --record)
        record=yes
        words+=' --record'
        shift
        ;;
    --before)
        [ $# -gt 1 ] || usage
        before=$(object before "$(cd "$start" && realpath "$2")")
        options+=(--before "$before")
        words+=' --before LIBRARY'
        shift 2
        ;;
    -*) usage ;;
    *) break ;;
    esac
done
[ $# -le 3 ] || usage
for word in "$@"; do [[ $word =~ ^[0-9]+$ ]] || usage; done
words+=${*:+ $*}
if [ ! -e target/staticlib/libwengeludo.a ]; then
    echo "no target/staticlib/libwengeludo.a: building it with 'bash packaging/archive.sh'" >&2
    need rt "the Rattle kit (rattle-kit-13f or later)"
    bash packaging/archive.sh >&2
fi
library=$(object library target/staticlib/libwengeludo.a)
bash bench/peers/build.sh "$out/peers" >"$out/peers.txt"
while read -r peer; do options+=(--peer "$peer"); done <"$out/peers.txt"
(cd bench && cargo build --release --offline --quiet)
{
    printf 'Measured with `bash bench/run.sh%s`; processor: %s, %s of them; load average before the run: %s.\n\n' "$words" \
        "$(awk -F ': *' '/^model name/ {print $2; exit}' /proc/cpuinfo)" "$(nproc)" "$(cut -d ' ' -f 1 /proc/loadavg)"
    bench/target/release/wengeludo_bench "${options[@]}" "$library" "${1:-1000}" "${2:-60}" "${3:-9}" "$out"
} | tee "$out/tables.md"
[ -n "$record" ] || exit 0
awk -v tables="$out/tables.md" '
    /<!-- end of the tables -->/ {inside = 0}
    !inside {print}
    /<!-- the tables -->/ {inside = 1; while ((getline line < tables) > 0) print line}' docs/SPEED.md >"$out/SPEED.md"
cp "$out/SPEED.md" docs/SPEED.md
cp "$out/speed.svg" docs/speed.svg
cp "$out/worst.bin" "$out/worst_ranges.bin" "$out/most_improvements.bin" bench/

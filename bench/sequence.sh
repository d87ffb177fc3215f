#!/usr/bin/env bash
# Measures a call beside the sheet call on plants in sequence, by a program of bench/examples.
#
#     bash bench/sequence.sh EXAMPLE DEFAULT [PLANTS [ROUNDS]]   prints the table; DEFAULT plants of each kind and size, 9 rounds
# SPDX-License-Identifier: LicenseRef-Wengeludo
set -euo pipefail
cd "$(dirname "$0")/.."
[ $# -ge 2 ] || { sed -n '2,4s/^# \{0,1\}//p' "$0" >&2; exit 2; }
example=$1 most=$2
shift 2
command -v cargo >/dev/null || { echo "no cargo: install Rust 1.66 or later (https://rustup.rs)" >&2; exit 2; }
[ -e target/staticlib/libwengeludo.a ] || { echo "no target/staticlib/libwengeludo.a: build it with 'bash packaging/archive.sh'" >&2; exit 2; }
(cd bench && cargo build --release --offline --quiet --example "$example")
echo "Microseconds and quotients, medians of ${1:-$most} plants of each kind and size over ${2:-9} rounds; load average before the run:" \
    "$(cut -d ' ' -f 1 /proc/loadavg)."
echo
"bench/target/release/examples/$example" "$@"

#!/usr/bin/env bash
# Runs the fuzz target for so many seconds (default 60) over a copy of the corpus. Findings are left in target/built/fuzz/.
# SPDX-License-Identifier: LicenseRef-Wengeludo
set -eu
cd "$(dirname "$0")/../.."
out=target/built/fuzz
[ -x "$out/target" ] || { echo "no $out/target: build it with 'bash tests/fuzz/build.sh'" >&2; exit 2; }
mkdir -p "$out/corpus"
"$out/target" -max_total_time="${1:-60}" -max_len=2000 -timeout=10 -print_final_stats=1 -artifact_prefix="$out/" "$out/corpus" tests/fuzz/corpus

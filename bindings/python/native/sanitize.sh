#!/usr/bin/env bash
# Runs the rows function over drawn plants and rows, then the solver over drawn and hostile plants, under ASan and UBSan; a row or a plant
# may be refused, no byte may be touched that is not its own.
#
#     bash bindings/python/native/sanitize.sh [ROUNDS]     3 rows and a plant a round, default 2000; 30000 takes a minute
#
# WENGELUDO_ARCHIVE, WENGELUDO_INCLUDE   another archive and its header's folder
# SPDX-License-Identifier: LicenseRef-Wengeludo
set -eu
cd "$(dirname "$0")"
root=$(cd ../../.. && pwd)
out=$(mktemp -d)
trap 'rm -rf "$out"' EXIT
built() { # what is tried, its sources
    "${CC:-cc}" -std=gnu11 -O1 -g -Wall -Wextra -Werror -fsanitize=address,undefined,float-cast-overflow -fno-sanitize-recover=all \
        -I "${WENGELUDO_INCLUDE:-$root/include}" -I . "$1_fuzz.c" "${@:2}" "${WENGELUDO_ARCHIVE:-$root/target/staticlib/libwengeludo.a}" -lm -o "$out/$1"
}
built rows rows.c
built wide wide_checked.c wide_solve.c
"$out/rows" "${1:-2000}"
"$out/wide" "${1:-2000}"

#!/usr/bin/env bash
# How many sheets a second of processor the rows function draws, and what it adds to the time of the archive's calls below it.
#
#     bash bindings/python/native/bench.sh
#
# WENGELUDO_ARCHIVE, WENGELUDO_INCLUDE   another archive and its header's folder
# SPDX-License-Identifier: LicenseRef-Wengeludo
set -eu
cd "$(dirname "$0")"
root=$(cd ../../.. && pwd)
out=$(mktemp -d)
trap 'rm -rf "$out"' EXIT
"${CC:-cc}" -std=gnu11 -O2 -Wall -Wextra -Werror -I "${WENGELUDO_INCLUDE:-$root/include}" -I . rows_bench.c rows.c \
    "${WENGELUDO_ARCHIVE:-$root/target/staticlib/libwengeludo.a}" -o "$out/bench"
"$out/bench"

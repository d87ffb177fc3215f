#!/usr/bin/env bash
# Builds balance_file, meters_to_buy, layouts_file, visits_file, charges_file, check_sheet, check_flow, place_numbers and what tests them in target/built with the system's C compiler (CC, else cc).
#
#     bash programs/build.sh [FOLDER]   another folder; CFLAGS has further words for the compiler
# SPDX-License-Identifier: LicenseRef-Wengeludo
set -eu
cd "$(dirname "$0")/.."
archive=target/staticlib/libwengeludo.a
if ! command -v "${CC:-cc}" >/dev/null; then
    echo "no C compiler: install one (Debian: apt-get install gcc libc6-dev) or name it in CC" >&2
    exit 2
fi
if [ ! -e "$archive" ]; then
    echo "no $archive: build it with 'bash packaging/archive.sh' (Rattle kit rattle-kit-13f or later)" >&2
    exit 2
fi
folder=${1:-target/built}
mkdir -p "$folder"
for program in balance_file meters_to_buy layouts_file visits_file charges_file check_sheet check_flow place_numbers empty_slices limits; do
    "${CC:-cc}" -std=c11 -O2 -Wall -Wextra -Werror ${CFLAGS:-} -I include "programs/$program.c" -I bindings/c bindings/c/fault.c "$archive" -o "$folder/$program"
    echo "built $folder/$program"
done

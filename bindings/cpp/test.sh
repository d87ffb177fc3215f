#!/usr/bin/env bash
# wengeludo.hpp with g++ and clang++, warnings as errors: the example's sheet, what slices take, and what each call is handed, in C++17 and C++20.
# SPDX-License-Identifier: LicenseRef-Wengeludo
set -eu
cd "$(dirname "$0")/../.."
archive=target/staticlib/libwengeludo.a
[ -e "$archive" ] || { echo "no $archive: build it with 'bash packaging/archive.sh'" >&2; exit 2; }
mkdir -p target/built/cpp
tried=""
for compiler in ${CXX:-g++ clang++}; do
    command -v "$compiler" >/dev/null || { echo "no $compiler: install it (Debian: apt-get install g++ clang)" >&2; exit 2; }
    for standard in c++17 c++20; do
        for program in balance_site slices handed; do
            calls=$archive
            [ "$program" != handed ] || calls= # it has calls of its own
            "$compiler" -std="$standard" -Wall -Wextra -pedantic -Wconversion -Werror -fno-exceptions -fno-rtti -O1 -I include \
                "bindings/cpp/$program.cpp" $calls -o "target/built/cpp/$program"
        done
        target/built/cpp/handed
        target/built/cpp/slices
        target/built/cpp/balance_site | cmp - samples/listing.expected
    done
    tried="$tried $compiler"
done
echo "wengeludo.hpp: the listing's sheet and every call, in C++17 and C++20, by$tried"

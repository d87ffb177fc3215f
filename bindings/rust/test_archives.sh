#!/usr/bin/env bash
# The Rust crate with archives that it was not made for, each made here in C with the calls of target/staticlib/libwengeludo.a:
#   one whose calls all return 99 (no call of the crate may take that for done), one whose sheet reader answers what is not known (not
#   taken for what is), one of a later minor version (taken),
#   one of another major version, one without a version, and none at all (the build fails and says why).
# SPDX-License-Identifier: LicenseRef-Wengeludo
set -eu
cd "$(dirname "$0")/../.."
archive=target/staticlib/libwengeludo.a
[ -e "$archive" ] || { echo "no $archive: build it with 'bash packaging/archive.sh'" >&2; exit 2; }
work=$PWD/target/built/archives
rm -rf "$work"
mkdir -p "$work"
part() { sed -n "s/^#define WENGELUDO_VERSION_$1 //p" include/wengeludo_balance.h; }
major=$(part MAJOR) minor=$(part MINOR)
calls=$(nm -g --defined-only "$archive" | awk '$2 == "T" { print $3 }' | grep -v '^wengeludo_version$')

made() { # folder, version or none: an archive whose calls return 99
    mkdir -p "$work/$1"
    {
        for call in $calls; do echo "unsigned char $call(void) { return 99; }"; done
        [ "$2" = none ] || echo "unsigned wengeludo_version(void) { return $2; }"
    } >"$work/$1/engine.c"
    "${CC:-cc}" -std=c11 -Wall -Wextra -Werror -ffunction-sections -c "$work/$1/engine.c" -o "$work/$1/engine.o"
    ar rcs "$work/$1/libwengeludo.a" "$work/$1/engine.o"
}
crate() { # folder, words for cargo
    (cd bindings/rust && WENGELUDO_ARCHIVE_DIR="$work/$1" CARGO_TARGET_DIR="$work/target" cargo "$2" --offline --quiet "${@:3}")
}
refused() { # folder, what must be said
    if crate "$1" build >"$work/log" 2>&1; then
        echo "test_archives: the crate was built with the archive of $1" >&2
        exit 1
    fi
    grep -qF "$2" "$work/log" || { echo "test_archives: the build with $1 does not say '$2':" >&2; cat "$work/log" >&2; exit 1; }
}

made returns_99 $((10000 * major + 100 * minor))
crate returns_99 test --test unknown_number -- --ignored 2>"$work/log" >&2 || { cat "$work/log" >&2; exit 1; }
grep -q '1 passed' "$work/log" || { cat "$work/log" >&2; exit 1; }
made answers $((10000 * major + 100 * minor))
{
    grep -v 'wengeludo_read_sheet(' "$work/answers/engine.c"
    cat <<'C'
#include <stddef.h>
#include <stdint.h>
unsigned char wengeludo_read_sheet(const uint8_t *bytes, size_t length, uint8_t *kinds, size_t room, int64_t *flows, size_t flow_room,
                                   size_t *count, uint8_t *kind, uint8_t *office, uint32_t *sheet, uint64_t *cost, uint8_t *degrees,
                                   uint8_t *verdict)
{
    if (length < 3 || room < 1 || flow_room < 1)
        return 99;
    *count = 1;
    kinds[0] = bytes[0];
    flows[0] = 7;
    *kind = bytes[1];
    *verdict = bytes[2];
    *office = *degrees = 0;
    *sheet = 1;
    *cost = 0;
    return 0;
}
C
} >"$work/answers/answers.c"
"${CC:-cc}" -std=c11 -Wall -Wextra -Werror -ffunction-sections -c "$work/answers/answers.c" -o "$work/answers/engine.o"
rm "$work/answers/libwengeludo.a"
ar rcs "$work/answers/libwengeludo.a" "$work/answers/engine.o"
crate answers test --test unknown_answer -- --ignored 2>"$work/log" >&2 || { cat "$work/log" >&2; exit 1; }
grep -q '1 passed' "$work/log" || { cat "$work/log" >&2; exit 1; }
made later_minor $((10000 * major + 100 * minor + 100))
crate later_minor build
made another_major $((10000 * major + 10000))
refused another_major "libwengeludo.a is version $((major + 1)).0.0; this crate needs $major.$minor or a later $major"
made no_version none
refused no_version "libwengeludo.a is older than 1.0.0"
mkdir "$work/none"
refused none "no libwengeludo.a in"
echo "rust crate: fails closed at 99 and at kinds and verdicts that it does not know; takes $major.$((minor + 1)).0; refuses $((major + 1)).0.0, an archive without a version, and none"

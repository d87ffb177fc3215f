#!/usr/bin/env bash
# install.sh in a scratch prefix, as a customer uses it: pkg-config, plain cc, CMake, the manual pages, the Rust crate, DESTDIR, and
# that uninstalling leaves nothing.
# SPDX-License-Identifier: LicenseRef-Wengeludo
set -eu
cd "$(dirname "$0")/../.."
for tool in pkg-config cmake man groff readelf cargo; do
    command -v "$tool" >/dev/null || { echo "install/test: no $tool (Debian: apt-get install pkgconf cmake man-db groff-base binutils)" >&2; exit 2; }
done
work=$(mktemp -d)
trap 'rm -rf "$work"' EXIT
prefix=$work/prefix
fail() { echo "install/test: $*" >&2; exit 1; }
listing() { # program and its words: prints the listing's sheet
    "$@" samples/listing.bin | cmp -s - samples/listing.expected || fail "$1 does not print the sheet of samples/listing.bin"
}
sheet() { "$1" | cmp -s - samples/listing.expected || fail "$1 does not print the listing's sheet"; }
quiet() { "$@" >"$work/log" 2>&1 || { cat "$work/log" >&2; fail "$*"; }; }

quiet bash install.sh "$prefix"
quiet bash install.sh "$prefix" # a second time over the first
grep -qE "^ *export PKG_CONFIG_PATH=$prefix/lib/pkgconfig CMAKE_PREFIX_PATH=$prefix LD_LIBRARY_PATH=$prefix/lib\$" "$work/log" || fail "install.sh does not say what to export"
version=$(sed -n 's/^Version: //p' "$prefix/lib/pkgconfig/wengeludo.pc")
manifest=$prefix/share/wengeludo/manifest-$version
grep -qxF "install: wengeludo $version in $prefix ($(wc -l <"$manifest") files, listed in $manifest); if the system does not look there by itself:" "$work/log" ||
    fail "install.sh does not say what it has put where"
export PKG_CONFIG_PATH=$prefix/lib/pkgconfig LD_LIBRARY_PATH=$prefix/lib

# The shared library: its name, and the calls of the headers and nothing else.
readelf -d "$prefix/lib/libwengeludo.so" | grep -q "SONAME.*\[libwengeludo.so.${version%%.*}\]" || fail "soname"
nm -D --defined-only "$prefix/lib/libwengeludo.so" | awk '$2 == "T" { sub("@.*", "", $3); print $3 }' | sort >"$work/exported"
grep -oE '^uint(8|32)_t wengeludo_[a-z_]+' "$prefix/include/wengeludo_balance.h" | awk '{ print $2 }' | sort >"$work/declared"
{ cat "$work/declared"; printf 'wengeludo_%s\n' plant_fault_at refusal_text transmitter_fault_at; } | sort | cmp "$work/exported" - ||
    fail "the shared library does not export the calls of the headers"
python3 - "$prefix/lib/libwengeludo.so" <<'P' || fail "the sentence of a refusal and the place of a fault by dlopen"
import ctypes
import sys

library = ctypes.CDLL(sys.argv[1])
library.wengeludo_refusal_text.restype = ctypes.c_char_p
byte, stream = ctypes.c_size_t(), ctypes.c_size_t()
library.wengeludo_plant_fault_at.restype = ctypes.c_uint8
number = library.wengeludo_plant_fault_at(bytes.fromhex('0101 030001 020001 0000 00000000 0402'), ctypes.c_size_t(16), ctypes.byref(byte), ctypes.byref(stream))
assert (number, byte.value, stream.value) == (9, 8, 2) and library.wengeludo_refusal_text(9).startswith(b'weight 0')
P
nm -g --defined-only "$prefix/lib/libwengeludo.a" | awk '$2 == "T" { print $3 }' | sort | cmp - "$work/declared" || fail "the archive's calls"
nm -u "$prefix/lib/libwengeludo.a" | awk 'NF == 2 { print $2 }' | sort | tr '\n' ' ' >"$work/needs"
[ "$(cat "$work/needs")" = "memcpy memset " ] || fail "the archive needs $(cat "$work/needs")"

# pkg-config, plain cc, the archive by its name.
[ "$(pkg-config --modversion wengeludo)" = "$version" ] || fail "pkg-config --modversion"
# shellcheck disable=SC2046
"${CC:-cc}" programs/balance_file.c $(pkg-config --cflags --libs wengeludo) -o "$work/by_pkg_config"
listing "$work/by_pkg_config"
(cd "$work" && cp "$OLDPWD/programs/balance_file.c" x.c && cp "$OLDPWD/programs/common.h" . && CPATH=$prefix/include LIBRARY_PATH=$prefix/lib "${CC:-cc}" x.c -lwengeludo -o by_cc)
listing "$work/by_cc"
readelf -d "$work/by_cc" | grep -q 'NEEDED.*libwengeludo.so.1' || fail "cc -lwengeludo did not take the shared library"
(cd "$work" && CPATH=$prefix/include LIBRARY_PATH=$prefix/lib "${CC:-cc}" x.c -l:libwengeludo.a -o by_archive)
LD_LIBRARY_PATH='' listing "$work/by_archive"

# CMake: three programs; a version that is not there is not found.
quiet cmake -S packaging/install/cmake -B "$work/cmake" -DCMAKE_PREFIX_PATH="$prefix" -DSOURCES="$PWD"
quiet cmake --build "$work/cmake"
listing "$work/cmake/shared"
LD_LIBRARY_PATH='' listing "$work/cmake/fixed"
sheet "$work/cmake/plus"
for asked in 2 0.9 1.99; do
    mkdir -p "$work/asks"
    sed "s/find_package(wengeludo 1 /find_package(wengeludo $asked /" packaging/install/cmake/CMakeLists.txt >"$work/asks/CMakeLists.txt"
    rm -rf "$work/asks/build"
    if cmake -S "$work/asks" -B "$work/asks/build" -DCMAKE_PREFIX_PATH="$prefix" -DSOURCES="$PWD" >"$work/log" 2>&1; then
        fail "find_package(wengeludo $asked) took $version"
    fi
    grep -q 'not compatible\|compatible with requested version\|not accepted' "$work/log" || { cat "$work/log" >&2; fail "find_package(wengeludo $asked)"; }
done

# The version itself is found where exactly it is asked for, another is not.
mkdir -p "$work/exact"
for asked in "$version" "${version%.*}.99"; do
    sed "s/find_package(wengeludo 1 /find_package(wengeludo $asked EXACT /" packaging/install/cmake/CMakeLists.txt >"$work/exact/CMakeLists.txt"
    grep -q EXACT "$work/exact/CMakeLists.txt" || fail "the customer's project asks for no version"
    rm -rf "$work/exact/build"
    found=no
    ! cmake -S "$work/exact" -B "$work/exact/build" -DCMAKE_PREFIX_PATH="$prefix" -DSOURCES="$PWD" >"$work/log" 2>&1 || found=yes
    [ "$found" = "$([ "$asked" = "$version" ] && echo yes || echo no)" ] || { cat "$work/log" >&2; fail "find_package(wengeludo $asked EXACT): found: $found"; }
done

# Manual pages: one for each call, nothing that groff warns of, every refusal in it.
while read -r call; do
    man -M "$prefix/share/man" -w "$call" >/dev/null || fail "no manual page of $call"
done < <(cat "$work/declared" && echo wengeludo_refusal_text)
groff -man -ww -z "$prefix/share/man/man3/wengeludo.3" 2>"$work/log"
[ ! -s "$work/log" ] || { cat "$work/log" >&2; fail "groff warns of the manual page"; }
MANWIDTH=200 man -M "$prefix/share/man" wengeludo_balance_plant >"$work/page" 2>/dev/null
MANWIDTH=1000 man --no-hyphenation --no-justification -M "$prefix/share/man" wengeludo >"$work/wide" 2>/dev/null
python3 packaging/install/test_page.py "$work/wide" "$prefix/include/wengeludo_balance.h" || fail "the manual page does not say what the header says"
while read -r call; do
    grep -qE "^ +uint[0-9]+_t $call\\(" "$work/page" || fail "$call is not in the synopsis of the manual page"
    grep -qE "^   [a-z_ ]*\\b$call\\b" "$work/page" || fail "$call is not described in the manual page"
done <"$work/declared"
for word in $(grep -oE '^#define WENGELUDO_[A-Z_]+ [^(]' "$prefix/include/wengeludo_balance.h" | awk '{ print $2 }'); do
    grep -q "#define $word " "$work/page" || fail "$word is not in the manual page"
done
for word in $(cut -f2 tools/refusals.tsv | tail -n +2); do
    grep -q "WENGELUDO_$word (" "$work/page" || fail "WENGELUDO_$word is not in the manual page"
done

# The Rust crate by itself, over the installed archive that pkg-config names.
mkdir -p "$work/rust/bindings" "$work/user/src"
cp -r bindings/rust "$work/rust/bindings/rust"
rm -rf "$work/rust/bindings/rust/target"
cp LICENCE "$work/rust/"
cat >"$work/user/Cargo.toml" <<TOML
[package]
name = "user"
version = "0.1.0"
edition = "2021"
[dependencies]
wengeludo_balance = { path = "../rust/bindings/rust" }
[workspace]
TOML
cp packaging/install/user.rs "$work/user/src/main.rs"
(cd "$work/user" && LD_LIBRARY_PATH='' cargo run --offline --quiet) >"$work/said" 2>"$work/log" || { cat "$work/log" >&2; fail "the Rust crate over the installed archive"; }
printf '1 A 101\n2 A 101\ntotal 1 50 1 pass\n' | cmp - "$work/said" || fail "the Rust crate prints something else"

# docs.rs has no archive: the pages are made all the same.
(cd "$work/rust/bindings/rust" && PKG_CONFIG_PATH='' DOCS_RS=1 RUSTDOCFLAGS=-Dwarnings cargo doc --no-deps --offline --quiet) 2>"$work/log" ||
    { cat "$work/log" >&2; fail "cargo doc without an archive"; }

# DESTDIR and LIBDIR: the files lie below it, and name the prefix alone.
quiet env DESTDIR="$work/dest" LIBDIR=lib/x86_64-linux-gnu bash install.sh /usr
grep -qx 'prefix=/usr' "$work/dest/usr/lib/x86_64-linux-gnu/pkgconfig/wengeludo.pc" || fail "DESTDIR stands in the pkg-config file"
quiet cmake -S packaging/install/cmake -B "$work/cmake2" -DCMAKE_PREFIX_PATH="$work/dest/usr" -DSOURCES="$PWD" -DCMAKE_LIBRARY_ARCHITECTURE=x86_64-linux-gnu
quiet cmake --build "$work/cmake2" --target fixed
LD_LIBRARY_PATH='' listing "$work/cmake2/fixed"

# A prefix that is not absolute stands in the pkg-config file as an absolute one; what is put there can be read by all.
(cd "$work" && umask 077 && bash "$OLDPWD/install.sh" below/here >log 2>&1) || { cat "$work/log" >&2; fail "install.sh below/here"; }
grep -qx "prefix=$work/below/here" "$work/below/here/lib/pkgconfig/wengeludo.pc" || fail "the prefix below/here stands in the pkg-config file as it is"
[ "$(find "$work/below/here" -type f ! -name '*.so.*' -printf '%m\n' | sort -u)" = 644 ] || fail "modes of the files"
[ "$(find "$work/below/here" -type f -name '*.so.*' -printf '%m\n' | sort -u)" = 755 ] || fail "the mode of the shared library"
(cd "$work" && bash "$OLDPWD/install.sh" --uninstall below/here >log 2>&1) || { cat "$work/log" >&2; fail "install.sh --uninstall below/here"; }
[ -z "$(find "$work/below/here" ! -type d)" ] || fail "left after --uninstall below/here"

# A prefix with a blank and an ampersand, libraries in a folder of their own.
odd="$work/R & D/here"
quiet env LIBDIR="$work/own libs" bash install.sh "$odd"
PKG_CONFIG_PATH="$work/own libs/pkgconfig" sh -c 'eval "${CC:-cc} programs/balance_file.c $(pkg-config --cflags --libs wengeludo) -o \"$1\""' - "$work/by_odd"
LD_LIBRARY_PATH="$work/own libs" listing "$work/by_odd"
quiet env LIBDIR="$work/own libs" bash install.sh --uninstall "$odd"
[ -z "$(find "$odd" "$work/own libs" ! -type d)" ] || fail "left after --uninstall $odd"

# Another archive than the recorded one, or one of another version, is refused unless it is asked for, and nothing is put there.
cp target/staticlib/libwengeludo.a "$work/other.a"
chmod u+w "$work/other.a"
echo 'int other;' | "${CC:-cc}" -x c -c - -o "$work/other.o" && ar rcs "$work/other.a" "$work/other.o"
if WENGELUDO_ARCHIVE=$work/other.a bash install.sh "$work/refused" >"$work/log" 2>&1; then fail "an archive that is not the recorded one is taken"; fi
sum=$(sha256sum <"$work/other.a" | cut -d' ' -f1)
grep -qxF "install: $work/other.a is not the archive that docs/MEASURED.md records ($sum); --unproved installs it all the same" "$work/log" || { cat "$work/log" >&2; fail "what is said of another archive"; }
[ ! -e "$work/refused" ] || fail "something of an archive that is refused is installed"
quiet env WENGELUDO_ARCHIVE="$work/other.a" bash install.sh --unproved "$work/refused"
grep -q '^install: UNPROVED: ' "$work/log" || fail "an archive without proof is not told"
printf '#include <stdint.h>\nuint32_t wengeludo_version(void);\nuint32_t wengeludo_version(void) { return 990000; }\n' >"$work/version.c"
"${CC:-cc}" -c -fPIC "$work/version.c" -o "$work/version.o" && rm -f "$work/version.a" && ar rcs "$work/version.a" "$work/version.o"
quiet env WENGELUDO_ARCHIVE="$work/version.a" bash install.sh --unproved "$work/refused"
grep -q "is of version 99.0.0, and the header of $version" "$work/log" || { cat "$work/log" >&2; fail "the version of an archive is not told"; }

# What another version has put into the prefix stays: its own files, files that it lists too, and files that it has replaced.
two=$work/two
quiet bash install.sh "$two"
echo other >"$two/lib/libwengeludo.so.9.9.9"
ln -sf libwengeludo.so.9.9.9 "$two/lib/libwengeludo.so"
grep ' .*/LICENCE$' "$two/share/wengeludo/manifest-$version" >"$two/share/wengeludo/manifest-9.9.9"
quiet bash install.sh --uninstall "$two"
grep -qE "^install: [0-9]+ files of wengeludo $version taken away from $two, 2 left that are another version's or were changed\$" "$work/log" ||
    { cat "$work/log" >&2; fail "install.sh does not say what it has left"; }
(cd "$two" && find . ! -type d | sort | tr '\n' ' ') >"$work/log"
[ "$(cat "$work/log")" = "./lib/libwengeludo.so ./lib/libwengeludo.so.9.9.9 ./share/doc/wengeludo/LICENCE ./share/wengeludo/manifest-9.9.9 " ] ||
    fail "after --uninstall of one of two versions there is $(cat "$work/log")"
if bash install.sh --uninstall "$two" >/dev/null 2>&1; then fail "what is not installed is taken away"; fi

# For another processor, if there is a compiler for it and its archive.
if command -v aarch64-linux-gnu-gcc >/dev/null && [ -e target/cross/aarch64.a ]; then
    quiet env CC=aarch64-linux-gnu-gcc bash install.sh --target aarch64 "$work/arm"
    readelf -h "$work/arm/lib/libwengeludo.so" | grep -q AArch64 || fail "--target aarch64 installs something else"
    if command -v qemu-aarch64-static >/dev/null; then
        aarch64-linux-gnu-gcc -static programs/balance_file.c -I "$work/arm/include" "$work/arm/lib/libwengeludo.a" -o "$work/by_arm"
        listing qemu-aarch64-static "$work/by_arm"
    fi
fi

# Away again.
count=$(wc -l <"$manifest")
quiet bash install.sh --uninstall "$prefix"
[ "$(cat "$work/log")" = "install: $count files of wengeludo $version taken away from $prefix" ] || { cat "$work/log" >&2; fail "what is said of an uninstall"; }
quiet env DESTDIR="$work/dest" LIBDIR=lib/x86_64-linux-gnu bash install.sh --uninstall /usr
left=$(find "$prefix" "$work/dest" ! -type d)
[ -z "$left" ] || fail "left after --uninstall: $left"

# What is said, word for word, of wrong use and of what is missing; nothing is put there.
says() { # what is said, words
    local status=0
    bash install.sh "${@:2}" >"$work/log" 2>&1 || status=$?
    [ "$status $(cat "$work/log")" = "2 $1" ] || { cat "$work/log" >&2; fail "install.sh ${*:2}: status $status, and it does not say: $1"; }
}
none=$work/none usage='usage: bash install.sh [--target aarch64|riscv64] [--unproved] PREFIX | --uninstall PREFIX'
says "$usage"
says "$usage" ''
says "$usage" --bad
says "$usage" --bad "$none"
says "$usage" --target sparc "$none"
says 'install: PREFIX and LIBDIR take no line end, backslash, quote or |' "$none|"
LIBDIR='lib"' says 'install: PREFIX and LIBDIR take no line end, backslash, quote or |' "$none"
says "install: no $none/share/wengeludo/manifest-$version: wengeludo $version was not installed in $none by this script" --uninstall "$none"
WENGELUDO_ARCHIVE=$work/none.a says "install: no $work/none.a: build it with 'bash packaging/archive.sh'" "$none"
for other in aarch64 riscv64; do
    WENGELUDO_ARCHIVE=$work/none.a says "install: no $work/none.a: build it with 'bash packaging/cross/build.sh $other target/cross/$other.a'" --target $other "$none"
done
CC=no-such-cc says "install: no no-such-cc: the shared library is made by a C compiler (Debian: apt-get install gcc libc6-dev) or name one in CC" "$none"
mkdir "$work/few"
for tool in bash cat dirname mktemp rm sed; do ln -s "$(command -v $tool)" "$work/few/$tool"; done
PATH=$work/few says 'install: no python3: the manual pages are made from the header by a script (Debian: apt-get install python3)' "$none"
[ ! -e "$none" ] || fail "something is installed by wrong use"
echo "install: wengeludo $version by pkg-config, cc -lwengeludo, find_package and the Rust crate; $(wc -l <"$work/declared") calls with manual pages; nothing left after --uninstall"

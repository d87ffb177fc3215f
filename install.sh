#!/usr/bin/env bash
# Installs the library that `bash packaging/archive.sh` has proved and written, for C, C++ and Rust programs on 64-bit Linux.
#
#     bash install.sh [--target TARGET] [--unproved] PREFIX   the archive, the shared library, headers, pkg-config and CMake files,
#                                                             manual pages, and a list of all that was put there
#     bash install.sh --uninstall PREFIX                      takes away what that list names, and nothing else
#
# --target aarch64|riscv64   the archive that packaging/cross/build.sh has written to target/cross; CC must make programs for it
# --unproved                 takes an archive that is not the one docs/MEASURED.md records, or not of the header's version
#
# DESTDIR (default: none)    a folder before PREFIX in which the files are put, for who makes a package
# LIBDIR (default: lib)      the folder of libraries below PREFIX, as lib/x86_64-linux-gnu, or with a / before it anywhere
# WENGELUDO_ARCHIVE          another archive than target/staticlib/libwengeludo.a
# CC (default: cc)           makes the shared library from the archive
set -eu
here=$(cd "$(dirname "$0")" && pwd)
usage() { echo "usage: bash install.sh [--target aarch64|riscv64] [--unproved] PREFIX | --uninstall PREFIX" >&2; exit 2; }
fail() { echo "install: $*" >&2; exit 2; }
uninstall=0 unproved=0 target=x86_64
while [ $# -gt 1 ]; do
    case "$1" in
    --uninstall) uninstall=1 ;;
    --unproved) unproved=1 ;;
    --target) target=$2; shift ;;
    *) usage ;;
    esac
    shift
done
[ $# = 1 ] && [ -n "$1" ] || usage
case "$target" in x86_64 | aarch64 | riscv64) ;; *) usage ;; esac
case "$1" in -*) usage ;; /*) prefix=$1 ;; *) prefix=$PWD/$1 ;; esac
prefix=${prefix%/}
case "$prefix${LIBDIR:-}" in *'
'* | *'\'* | *'"'* | *'|'*) fail "PREFIX and LIBDIR take no line end, backslash, quote or |" ;; esac
case "${LIBDIR:-lib}" in /*) libdir=${LIBDIR%/} ;; *) libdir=$prefix/${LIBDIR:-lib} ;; esac
dest=${DESTDIR:-}
header=$here/include/wengeludo_balance.h
number() { sed -n "s/^#define WENGELUDO_VERSION_$1 \([0-9]*\)$/\1/p" "$header"; }
major=$(number MAJOR)
version=$major.$(number MINOR).$(number PATCH)
lists=$prefix/share/wengeludo
manifest=$lists/manifest-$version

# A file or a link as the list has it: what it holds, then where it is.
listed() { # where
    if [ -L "$dest$1" ]; then echo "link:$(readlink "$dest$1") $1"; else echo "$(sha256sum <"$dest$1" | cut -d' ' -f1) $1"; fi
}
# Takes away every file that the list names, unless another version has put something else there since, or lists it as well.
taken_away() {
    local gone=0 left=0 line file
    while IFS= read -r line; do
        file=${line#* }
        [ -e "$dest$file" ] || [ -L "$dest$file" ] || continue
        if [ "$(listed "$file")" = "$line" ] && ! grep -qxF -- "$line" "$work/others"; then
            rm -f "$dest$file" && gone=$((gone + 1))
        else
            left=$((left + 1))
        fi
    done <"$dest$manifest"
    rm -f "$dest$manifest"
    rmdir "$dest$libdir/cmake/wengeludo" "$dest$prefix/share/doc/wengeludo" "$dest$lists" 2>/dev/null || true
    echo "install: $gone files of wengeludo $version taken away from $dest$prefix$([ $left = 0 ] || echo ", $left left that are another version's or were changed")"
}
work=$(mktemp -d)
trap 'rm -rf "$work"' EXIT
if [ "$uninstall" = 1 ]; then
    [ -e "$dest$manifest" ] || fail "no $dest$manifest: wengeludo $version was not installed in $prefix by this script"
    find "$dest$lists" -name 'manifest-*' ! -name "manifest-$version" -exec cat {} + >"$work/others"
    taken_away
    exit 0
fi

need() { command -v "$1" >/dev/null || fail "no $1: $2"; }
need python3 "the manual pages are made from the header by a script (Debian: apt-get install python3)"
calls="$(python3 "$here/packaging/install/man.py" --names) wengeludo_refusal_text"
archive=${WENGELUDO_ARCHIVE:-$here/target/staticlib/libwengeludo.a}
[ "$target" = x86_64 ] || archive=${WENGELUDO_ARCHIVE:-$here/target/cross/$target.a}
how="build it with 'bash packaging/archive.sh'"
[ "$target" = x86_64 ] || how="build it with 'bash packaging/cross/build.sh $target target/cross/$target.a'"
[ -e "$archive" ] || fail "no $archive: $how"
need "${CC:-cc}" "the shared library is made by a C compiler (Debian: apt-get install gcc libc6-dev) or name one in CC"

# An archive that is not the recorded one, or of another version than the header's, is refused unless it is asked for.
waived() { # what is not as it should be
    [ "$unproved" = 1 ] || fail "$1; --unproved installs it all the same"
    echo "install: UNPROVED: $1"
}
row='^| `rattle-'
[ "$target" = x86_64 ] || row="^| $target "
recorded=$(sed -n "/$row/s/.*\`\([0-9a-f]\{64\}\)\`.*/\1/p" "$here/docs/MEASURED.md")
sum=$(sha256sum <"$archive" | cut -d' ' -f1)
[ "$sum" = "$recorded" ] || waived "$archive is not the archive that docs/MEASURED.md records ($sum)"

# What stands beside the proved calls: the sentence of a refusal, and where a file is refused.
for part in refusal_text fault; do
    "${CC:-cc}" -std=c99 -O2 -fPIC -ffp-contract=off -I "$here/include" -I "$here/bindings/c" -c "$here/bindings/c/$part.c" -o "$work/$part.o"
done
"${AR:-ar}" rcsD "$work/libwengeludo_host.a" "$work/refusal_text.o" "$work/fault.o"
printf 'WENGELUDO_%s {\n    global:\n        wengeludo_*;\n    local:\n        *;\n};\n' "$major" >"$work/wengeludo.map"
"${CC:-cc}" -shared -nostartfiles -Wl,-soname,"libwengeludo.so.$major" -Wl,--version-script,"$work/wengeludo.map" \
    -Wl,-z,defs -Wl,-z,relro -Wl,-z,now -Wl,--whole-archive "$archive" -Wl,--no-whole-archive "$work/refusal_text.o" "$work/fault.o" \
    -o "$work/libwengeludo.so" || fail "${CC:-cc} makes no shared library of $archive: is it a compiler for $target?"
if [ "$target" = "$(uname -m)" ]; then
    told=$(python3 -c 'import ctypes, sys
call = ctypes.CDLL(sys.argv[1]).wengeludo_version
call.restype = ctypes.c_uint32
number = call()
print(f"{number // 10000}.{number // 100 % 100}.{number % 100}")' "$work/libwengeludo.so")
    [ "$told" = "$version" ] || waived "$archive is of version $told, and the header of $version"
fi

# Templates with this prefix and this version; blanks in a path stand behind a backslash for pkg-config.
filled() { # template
    python3 - "$1" "$prefix" "$libdir" "$version" "$major" <<'P'
import sys

path, prefix, libdir, version, major = sys.argv[1:]
with open(path, encoding='utf-8') as file:
    text = file.read()
below = libdir[len(prefix):] if libdir.startswith(prefix + '/') else None
blank = (lambda word: word.replace(' ', '\\ ')) if path.endswith('.pc.in') else (lambda word: word)
words = {'PREFIX': blank(prefix), 'LIBDIR': '${prefix}' + blank(below) if below else blank(libdir), 'VERSION': version, 'MAJOR': major}
for name, word in words.items():
    text = text.replace(f'@{name}@', word)
sys.stdout.write(text)
P
}
filled "$here/packaging/install/wengeludo.pc.in" >"$work/wengeludo.pc"
filled "$here/packaging/install/wengeludo-config.cmake.in" >"$work/wengeludo-config.cmake"
filled "$here/packaging/install/wengeludo-config-version.cmake.in" >"$work/wengeludo-config-version.cmake"
python3 "$here/packaging/install/man.py" >"$work/wengeludo.3"
echo ".so man3/wengeludo.3" >"$work/call.3"

: >"$work/manifest"
put() { # source, where, mode
    install -d -m 755 "$(dirname "$dest$2")"
    install -m "${3:-644}" "$1" "$dest$2"
    listed "$2" >>"$work/manifest"
}
link() { # what it leads to, where
    ln -sf "$1" "$dest$2"
    listed "$2" >>"$work/manifest"
}
put "$header" "$prefix/include/wengeludo_balance.h"
put "$here/include/wengeludo.hpp" "$prefix/include/wengeludo.hpp"
put "$here/bindings/c/wengeludo_fault.h" "$prefix/include/wengeludo_fault.h"
put "$archive" "$libdir/libwengeludo.a"
put "$work/libwengeludo_host.a" "$libdir/libwengeludo_host.a"
put "$work/libwengeludo.so" "$libdir/libwengeludo.so.$version" 755
link "libwengeludo.so.$version" "$libdir/libwengeludo.so.$major"
link "libwengeludo.so.$major" "$libdir/libwengeludo.so"
put "$work/wengeludo.pc" "$libdir/pkgconfig/wengeludo.pc"
put "$work/wengeludo-config.cmake" "$libdir/cmake/wengeludo/wengeludo-config.cmake"
put "$work/wengeludo-config-version.cmake" "$libdir/cmake/wengeludo/wengeludo-config-version.cmake"
put "$work/wengeludo.3" "$prefix/share/man/man3/wengeludo.3"
for call in $calls; do put "$work/call.3" "$prefix/share/man/man3/$call.3"; done
for text in LICENCE CHANGELOG.md docs/FORMATS.md docs/LINKING.md docs/PROMISES.md; do put "$here/$text" "$prefix/share/doc/wengeludo/${text##*/}"; done
install -d -m 755 "$dest$lists"
install -m 644 "$work/manifest" "$dest$manifest"
echo "install: wengeludo $version in $dest$prefix ($(wc -l <"$work/manifest") files, listed in $manifest); if the system does not look there by itself:"
printf '    export PKG_CONFIG_PATH=%q CMAKE_PREFIX_PATH=%q LD_LIBRARY_PATH=%q\n' "$libdir/pkgconfig" "$prefix" "$libdir"

#!/usr/bin/env bash
# Compiles the module of the proving run for another processor.
#
#     bash packaging/cross/build.sh aarch64|riscv64 OUT.a    an archive for 64-bit Linux on ARM or RISC-V
#     bash packaging/cross/build.sh wasm32 OUT.wasm          a module for browsers and Node
#
# packaging/archive.sh has the calls proved, and their module handed to the kit's clang. A clang in front of that one keeps a copy, so what
# is compiled here is the module of the run that ended in logic=proved, and of no other. The x86-64 archive of that run must be the one
# that docs/MEASURED.md records, and the module, compiled for x86-64 once more, must come to that archive's object, byte for byte.
# Assumed beside what the x86-64 archive assumes: that the module does not depend on its processor (retarget.py looks for what would), and
# clang's back end for the other one.
#
# CROSS_OBJECT=OUT.o   keeps the object as well: test.sh links its driver with it
# SPDX-License-Identifier: LicenseRef-Wengeludo
set -euo pipefail
usage() { sed -n '2,5s/^# \{0,1\}//p' "$0" >&2; exit 2; }
[ $# -eq 2 ] || usage
case $1 in
aarch64) words=(--target=aarch64-unknown-linux-gnu -fPIC) ;;
riscv64) words=(--target=riscv64-unknown-linux-gnu -march=rv64gc -mabi=lp64d -fPIC) ;;
wasm32) words=(--target=wasm32-unknown-unknown -mcpu=mvp) ;;
*) usage ;;
esac
target=$1
out=$(realpath -m "$2")
cd "$(dirname "$0")/../.."
kit=$(dirname "$(dirname "$(readlink -f "$(command -v rt)")")")
tools=$kit/toolchain
clang=$tools/bin/clang
archive=target/staticlib/libwengeludo.a
tmp=$(mktemp -d)
trap 'rm -rf "$tmp"' EXIT

# The kit's tools by links, but for its clang, which keeps the module and the words it is called with.
kept_tools() {
    local f
    mkdir -p "$tmp/tools/bin"
    ln -s "$tools/lib" "$tmp/tools/lib"
    for f in "$tools"/bin/*; do [ "${f##*/}" = clang ] || ln -s "$f" "$tmp/tools/bin/"; done
    printf '#!/bin/sh\n[ ! -e module.bc ] || cp module.bc "%s/module.bc"\nfor word; do printf "%%s\\n" "$word"; done >"%s/words"\nexec "%s" "$@"\n' \
        "$tmp" "$tmp" "$clang" >"$tmp/tools/bin/clang"
    chmod +x "$tmp/tools/bin/clang"
}

# The module, compiled by the very words of the run, is the archive's object.
same_object() { # module, words
    local again
    mapfile -t again < <(sed -e "s|^module\.bc$|$1|" -e "s|^module\.o$|$tmp/again.o|" -e "s|^--sysroot=.*|--sysroot=$tools|" "$2")
    "$clang" "${again[@]}"
    rm -rf "$tmp/member" && mkdir "$tmp/member"
    (cd "$tmp/member" && "$tools/bin/llvm-ar" x "$OLDPWD/$archive")
    cmp -s "$tmp/again.o" "$tmp"/member/*
}

# The module stays in target/cross under the sum of the archive that it came to.
module() {
    local sum
    if [ -e "$archive" ] && ./dev archive >/dev/null 2>&1; then
        sum=$(sha256sum <"$archive" | cut -d' ' -f1)
        kept=target/cross/$sum
        if [ -e "$kept.bc" ] && [ -e "$kept.words" ] && same_object "$kept.bc" "$kept.words"; then return; fi
    fi
    kept_tools
    bash packaging/archive.sh "$tmp/proved.a" "$tmp/tools" >"$tmp/log" 2>&1 || { tail -20 "$tmp/log" >&2; exit 1; }
    grep -q '^logic=proved ' "$tmp/log" && [ -e "$tmp/module.bc" ] || { echo "cross: no proved module was handed to the compiler" >&2; exit 1; }
    mkdir -p target/staticlib
    cp "$tmp/proved.a" "$archive"
    kept=target/cross/$(sha256sum <"$archive" | cut -d' ' -f1)
    mkdir -p target/cross
    cp "$tmp/words" "$kept.words"
    cp "$tmp/module.bc" "$kept.bc"
    same_object "$kept.bc" "$kept.words" || { echo "cross: the module that was kept does not come to the archive" >&2; exit 1; }
}

module
./dev archive
"$clang" --target=x86_64-unknown-linux-gnu -x ir -S -emit-llvm -Xclang -disable-llvm-passes "$kept.bc" -o "$tmp/proved.ll"
python3 packaging/cross/retarget.py "$tmp/proved.ll" "$tmp/$target.ll" "$target"
common=(-O3 -ffp-contract=off -ffunction-sections -fdata-sections --no-default-config -no-canonical-prefixes -fno-crash-diagnostics)
compiled() { # -S for its instructions as text, -c for the object; where to
    "$clang" "${words[@]}" "${common[@]}" -mllvm -trap-unreachable -mllvm -no-trap-after-noreturn -Wno-override-module \
        "$1" -x ir "$tmp/$target.ll" -o "$2"
}
compiled -S "$tmp/wengeludo.s"
python3 packaging/cross/retarget.py --fused "$tmp/wengeludo.s" "$target"
compiled -c "$tmp/wengeludo.o"
[ -z "${CROSS_OBJECT:-}" ] || cp "$tmp/wengeludo.o" "$CROSS_OBJECT"

mkdir -p "$(dirname "$out")"
if [ "$target" = wasm32 ]; then
    # What the module needs of a C library, and a link: the calls, memory, and where free memory starts.
    "$clang" "${words[@]}" "${common[@]}" -ffreestanding -fno-builtin -I packaging/cross/free -c packaging/cross/memory.c -o "$tmp/memory.o"
    ln -s "$clang" "$tmp/wasm-ld"
    exports=()
    while read -r call; do exports+=("--export=$call"); done < <(python3 packaging/install/man.py --names)
    "$tmp/wasm-ld" --no-entry "${exports[@]}" --export=__heap_base --gc-sections --strip-all --stack-first -z stack-size=131072 \
        "$tmp/wengeludo.o" "$tmp/memory.o" -o "$tmp/out"
else
    "$tools/bin/llvm-ar" rcsD "$tmp/out" "$tmp/wengeludo.o"
fi
cp "$tmp/out" "$out"
echo "cross: $out for $target, $(stat -c %s "$out") bytes, sha256 $(sha256sum <"$out" | cut -d' ' -f1)"

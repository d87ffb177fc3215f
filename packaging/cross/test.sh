#!/usr/bin/env bash
# The calls on another processor give what they give on x86-64: every byte of every answer, and the bytes past it, over all samples and
# some 2,000 files that are drawn, damaged or a transmitter's.
#
#     bash packaging/cross/test.sh aarch64|riscv64   under qemu-user-static
#     bash packaging/cross/test.sh wasm32            in Node
#     bash packaging/cross/test.sh --search          that what depends on a processor is found where it is put in
#
# CROSS_FILES (default 2000)   how many files are drawn
# SPDX-License-Identifier: LicenseRef-Wengeludo
set -euo pipefail
cd "$(dirname "$0")/../.."
bin=$(dirname "$(dirname "$(readlink -f "$(command -v rt)")")")/toolchain/bin
work=target/cross
mkdir -p "$work"
tmp=$(mktemp -d)
trap 'rm -rf "$tmp"' EXIT
fail() { echo "cross/test: $*" >&2; exit 1; }
words=(-O2 -ffreestanding -fno-builtin -Wall -Wextra -Werror -I packaging/cross/free -I packaging/cross -I include)

searched() { # words to put into the module, what is to be said of them
    printf 'target triple = "x86_64-unknown-linux-gnu"\ndefine void @f() #0 {\n%s\n}\nattributes #0 = { nounwind "target-cpu"="x86-64"%s }\n' \
        "$1" "${3:-}" >"$tmp/module.ll"
    if python3 packaging/cross/retarget.py "$tmp/module.ll" "$tmp/out.ll" wasm32 2>"$tmp/said"; then fail "not found: $1 ${3:-}"; fi
    grep -q "$2" "$tmp/said" || fail "of '$1' it says $(cat "$tmp/said")"
}
search() {
    searched '  %a = ptrtoint ptr %b to i64' 'made a number'
    searched '  %a = ptrtoaddr ptr %b to i64' 'made a number'
    searched '  %a = load ptr, ptr addrspace(1) %b' 'address space'
    searched '  call void asm "nop", ""()' 'assembly'
    searched '  %a = alloca { i64, ptr }, align 8' 'inside a layout'
    searched '  %a = alloca [2 x ptr], align 8' 'inside a layout'
    searched '  store { i8, ptr } %a, ptr %b, align 8' 'inside a layout'
    searched '  %a = load { i8, { ptr, i64 } }, ptr %b, align 8' 'inside a layout'
    searched '  %a = load { i8, ptr }, ptr %b, align 8, !noundef !1' 'inside a layout'
    searched '  %a = getelementptr { i8, ptr }, ptr %b, i64 0, i32 1' 'inside a layout'
    searched '  call void @g(ptr byval({ i8, ptr }) %a)' 'inside a layout'
    searched '  %a = alloca ptr, align 8
  call void @llvm.memset.p0.i64(ptr %a, i8 1, i64 8, i1 false)' 'not moved whole'
    searched '  %a = fmul contract double %b, %c' 'may be joined'
    searched '  %a = call double @llvm.fmuladd.f64(double %b, double %c, double %d)' 'not known: llvm.fmuladd'
    searched '  %a = call i64 @llvm.x86.rdtsc()' 'word of the processor'
    searched '  call void @llvm.memset.p0.i64(ptr %a, i8 0, i64 %b, i1 false)' 'length is not written out'
    searched '  ret void' 'attribute of the processor' ' "target-features"="+fma"'
    printf '\tfmadd d0, d1, d2, d3\n' >"$tmp/a.s"
    ! python3 packaging/cross/retarget.py --fused "$tmp/a.s" aarch64 2>/dev/null || fail "fmadd is not found"
    printf '\tfnmsub.d fa0, fa1, fa2, fa3\n' >"$tmp/a.s"
    ! python3 packaging/cross/retarget.py --fused "$tmp/a.s" riscv64 2>/dev/null || fail "fnmsub.d is not found"
    echo "cross: what depends on a processor is found"
}

# The rows of the driver are the calls of the header.
listed() {
    python3 packaging/install/man.py --names | sort >"$tmp/declared"
    sed -n '/^static void (\*const calls/,/^};/p' packaging/cross/drive.c | sed -n 's/^    //p' | tr ',' '\n' | sed -n 's/^ *\([a-z_]*\)$/wengeludo_\1/p' |
        grep -v '^wengeludo_$' | sort | diff "$tmp/declared" - || fail "the driver does not run the calls of the header"
}

driver() { # target, triple, archive: a program of the driver and the archive, without a C library
    local object
    for object in drive start memory; do
        "$bin/clang" "--target=$2" "${words[@]}" -c "packaging/cross/$object.c" -o "$tmp/$object.o"
    done
    "$bin/ld.lld" -static -o "$tmp/$1" "$tmp"/{drive,start,memory}.o "$3"
}
module() { # the same as a WebAssembly module
    local object
    for object in drive memory; do
        "$bin/clang" --target=wasm32-unknown-unknown -mcpu=mvp "${words[@]}" -c "packaging/cross/$object.c" -o "$tmp/$object.o"
    done
    ln -s "$bin/clang" "$tmp/wasm-ld"
    "$tmp/wasm-ld" --no-entry --export=drive --export=__heap_base --allow-undefined --stack-first -z stack-size=131072 \
        "$tmp"/{drive,memory}.o "$tmp/wengeludo.o" -o "$tmp/wasm32"
}
same() { # target, command
    "${@:2}" <"$tmp/pack" >"$tmp/out"
    cmp "$tmp/native" "$tmp/out" || fail "$1 gives other bytes than x86-64"
    echo "cross: $1 gives the same $(stat -c %s "$tmp/out") bytes as x86-64 over $files"
}

case "${1:-}" in
--search) search; exit 0 ;;
aarch64 | riscv64 | wasm32) ;;
*) sed -n '5,7s/^# \{0,1\}//p' "$0" >&2; exit 2 ;;
esac
listed
files=$(python3 packaging/cross/pack.py "$tmp/pack" "${CROSS_FILES:-2000}")
out=$work/$1.a
[ "$1" != wasm32 ] || out=$work/wengeludo.wasm
CROSS_OBJECT=$tmp/wengeludo.o bash packaging/cross/build.sh "$1" "$out"
driver x86_64 x86_64-unknown-linux-gnu target/staticlib/libwengeludo.a
"$tmp/x86_64" <"$tmp/pack" >"$tmp/native"
case $1 in
wasm32) module; same wasm32 node packaging/cross/run.mjs "$tmp/wasm32" ;;
*) driver "$1" "$1-unknown-linux-gnu" "$out"; same "$1" "qemu-$1-static" "$tmp/$1" ;;
esac
./dev archive --of "$1" "$out"

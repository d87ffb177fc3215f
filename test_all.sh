#!/usr/bin/env bash
# The gate, then the archive and all that is built over it: the C programs, the programs themselves, C++, what is installed, the Rust
# crate with its differential tests, the Python binding and the desk tool (where Debian's packages are there), short runs of the
# benchmarks, the fuzz target, and every command that the texts name; and what the reference and the lists of the documentation must
# agree with.
#
#     bash test_all.sh               everything
#     bash test_all.sh --after-gate  what follows the gate
#
# WENGELUDO_INPUTS (default 100000)  inputs of the differential tests
# FUZZ_SECONDS (default 60)          how long the fuzz target runs
# SHORT=1                            no benchmark, no older Rust, and the commands of the texts are not run
# SKIP_MISSING=1                     a part whose tool is missing is left out, and the last lines say so
set -euo pipefail
cd "$(dirname "$0")"

case "${1:-}" in
"" | --after-gate) ;;
*) echo "usage: bash test_all.sh [--after-gate]" >&2; exit 2 ;;
esac
if [ "$(uname -m)" != x86_64 ]; then
    echo "test_all: the archive is for x86-64, and this machine is $(uname -m)" >&2
    exit 2
fi

# What a tool is installed by; cargo must be 1.66 or later, python3 3.10.
advice() { # tool
    case "$1" in
    rt) echo "install the Rattle kit (rattle-kit-13f or later)" ;;
    cargo) echo "install Rust 1.66 or later (https://rustup.rs, or Debian 12: apt-get install cargo-web); the crate itself takes 1.63" ;;
    clang | clang++) echo "install clang with its libFuzzer (Debian: apt-get install clang)" ;;
    g++) echo "install a C++ compiler (Debian: apt-get install g++)" ;;
    objdump | nm | ar) echo "install the binary utilities (Debian: apt-get install binutils)" ;;
    python3) echo "install Python 3.10 or later (Debian: apt-get install python3)" ;;
    cmake) echo "install CMake (Debian: apt-get install cmake)" ;;
    pkg-config) echo "install pkg-config (Debian: apt-get install pkgconf)" ;;
    qemu-*) echo "install the emulators of other processors (Debian: apt-get install qemu-user-static)" ;;
    node) echo "install Node 18 or later (Debian: apt-get install nodejs)" ;;
    man | groff) echo "install man and groff (Debian: apt-get install man-db groff-base)" ;;
    *) echo "install a C compiler (Debian: apt-get install gcc libc6-dev) or name one in CC" ;;
    esac
}
there() { # tool
    command -v "$1" >/dev/null || return 1
    case "$1" in
    cargo) printf '1.66\n%s\n' "$(cargo --version | cut -d' ' -f2)" | sort -V -C ;;
    python3) python3 -c 'import sys; sys.exit(sys.version_info < (3, 10))' ;;
    esac
}
compiler=${CC:-cc}
if [ "${SKIP_MISSING:-0}" != 1 ]; then
    missing=0
    for tool in rt "$compiler" g++ clang clang++ cargo python3 cmake pkg-config man groff objdump nm ar node qemu-aarch64-static qemu-riscv64-static; do
        there "$tool" || { echo "test_all: no $tool on the PATH, or too old: $(advice "$tool")" >&2; missing=1; }
    done
    [ "$missing" = 0 ] || exit 2
fi

now="its own set-up"
trap '[ $? = 0 ] || echo "test_all: FAILED in: $now" >&2' EXIT
skipped=()
skip() { # what, why
    skipped+=("$1: $2")
    echo "== skipped, $2: $1"
}
part() { # what, tools: true where it is to be run
    local tool
    for tool in "${@:2}"; do
        there "$tool" || { skip "$1" "no $tool, or too old"; return 1; }
    done
    now=$1
    echo "== $1"
}
long() { [ "${SHORT:-0}" != 1 ]; }
# Where a part of the crates is not there (PORTING-LEFT.md), what is built over the archive is left out.
over() { # what is needed of the crates: the archive's, or a program's; then as `part`
    if [ ! -d "crates/$1" ] && [ -e PORTING-LEFT.md ]; then
        skip "$2" "no crate $1: see PORTING-LEFT.md"
        return 1
    fi
    part "${@:2}"
}
over_archive() { over wengeludo_c "$@"; }
quietly() { # log, lines to show, command
    mkdir -p target/built
    "${@:3}" >"$1" 2>&1 || { tail -20 "$1" >&2; exit 1; }
    grep -aE "$2" "$1"
}
rows='^\| (plants|random extremes|as a site has them|tie-rich) \| (units|32) '

if [ "${1:-}" = "" ]; then
    part "the gate"
    bash .ci/run --gate
fi
if part "the texts: what is made from lists and samples, what they name, and what is to be believed" python3; then
    ./dev texts
fi
if over_archive "the archive" rt; then
    bash packaging/archive.sh
fi
if over_archive "the archive's bytes" python3; then
    ./dev archive
fi
if over_archive "the archive's stack" python3 objdump; then
    ./dev stack
fi
if over_archive "the C programs" "$compiler"; then
    bash programs/build.sh
    bash programs/test.sh
    target/built/empty_slices
fi
if over_archive "the host code beside the archive, and the floating-point environment" "$compiler" python3; then
    bash bindings/c/test.sh
fi
programs=balance
for name in layouts visits; do [ -d crates/$name ] || programs=$name; done
if over $programs "the programs themselves" python3; then
    python3 tests/programs.py
fi
if over vectors "cases that are spoilt" python3; then
    ./dev spoilt-cases
fi
if over solve_call "a start that must be worth something" python3 rt; then
    ./dev hints
    ! long || quietly target/built/hints.log '^hints: [0-9]+ worthless' ./dev hints --worthless
fi
if over_archive "C++" g++ clang++; then
    bash bindings/cpp/test.sh
fi
if over_archive "what is installed" "$compiler" pkg-config cmake man groff objdump cargo; then
    bash packaging/install/test.sh
fi
if part "the search for what depends on a processor" python3; then
    bash packaging/cross/test.sh --search
fi
for target in aarch64 riscv64; do
    if over_archive "the calls on $target, against x86-64" python3 "qemu-$target-static"; then
        bash packaging/cross/test.sh "$target"
    fi
done
if over_archive "the calls as WebAssembly, against x86-64" python3 node; then
    bash packaging/cross/test.sh wasm32
fi
if over_archive "JavaScript" python3 node; then
    (long || export CHROMIUM=none; bash bindings/js/test.sh)
fi
if over vectors "the cases and samples, made anew, and checked by themselves" python3; then
    quietly target/built/cases.log '^[0-9,]+ ' python3 reference/make_cases.py --check
    python3 reference/certify.py
    ! long || quietly target/built/brute.log . python3 reference/brute.py | tail -1
fi
if over_archive "the Rust crate and the differential tests" cargo "$compiler" nm ar; then
    (cd bindings/rust && cargo test --offline --quiet --features rules -- --nocapture)
    bash bindings/rust/test_archives.sh
    ! long || bash bindings/rust/test_oldest.sh
fi
absent=$(bash desk/test.sh --missing)
if [ -n "$absent" ]; then
    skip "the Python binding and the desk tool" "no$absent"
elif over_archive "the Python binding and the desk tool" "$compiler"; then
    ! long || export WENGELUDO_AGREED=${WENGELUDO_AGREED:-100000}
    bash desk/test.sh
fi
if over_archive "wrong programs outside the proofs" python3 "$compiler"; then
    if long && [ -z "$absent" ]; then
        quietly target/built/wrong.log '^wrong: ' ./dev wrong
    else
        ./dev wrong c
        ./dev wrong --applies || echo "wrong: the long run asks for them"
    fi
fi
if long && over_archive "the benchmark's own tests, and a short run of it" cargo; then
    quietly target/built/bench_tests.log '^test result: ok. [1-9]' cargo test --offline --quiet --manifest-path bench/Cargo.toml
    quietly target/built/bench.log "$rows" bash bench/run.sh 5 1 | head -4
fi
if long && over_archive "the list of meters worth a visit, a short run" cargo; then
    quietly target/built/visits.log "$rows" bash bench/visits.sh 20 1
fi
if long && over_archive "the check of a sheet, a short run" cargo; then
    quietly target/built/checks.log "$rows" bash bench/checks.sh 20 1
    quietly target/built/flows.log "$rows" bash bench/flows.sh 20 1
fi
fuzzer() { echo 'int LLVMFuzzerTestOneInput(const char *d, long n) { return n < 0 && *d; }' | clang -fsanitize=fuzzer -x c - -o /dev/null 2>/dev/null; }
if there clang && ! fuzzer && [ "${SKIP_MISSING:-0}" = 1 ]; then
    skip "the fuzz target" "clang has no libFuzzer"
elif over_archive "the fuzz target, ${FUZZ_SECONDS:-60} seconds" clang objdump nm; then
    bash tests/fuzz/build.sh
    quietly target/built/fuzz/log '^(Done|fuzz target:)' bash tests/fuzz/run.sh "${FUZZ_SECONDS:-60}"
fi
if long && over_archive "the files of a release" python3 dpkg-deb dpkg-shlibdeps; then
    rm -rf target/release
    WENGELUDO_CHANGED=1 bash packaging/release/make.sh target/release | tail -1
    (cd target/release && sha256sum -c --quiet SHA256SUMS)
fi
if long && over_archive "the Debian packages" dpkg-deb dpkg-shlibdeps lintian fakeroot pkg-config "$compiler"; then
    bash packaging/debian/test.sh
fi
if long && over_archive "every command of the texts" python3; then
    ./dev doc-commands
fi
for what in "${skipped[@]+"${skipped[@]}"}"; do
    echo "test_all: SKIPPED $what"
done
echo "test_all: all that was run passed"

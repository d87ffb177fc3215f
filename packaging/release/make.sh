#!/usr/bin/env bash
# Makes the files of a release and their sums, from a tree without changes.
#
#     bash packaging/release/make.sh OUT
#
# In OUT: the source, the archives for x86-64, AArch64 and RISC-V, the WebAssembly with its JavaScript, the Python binding as source and
# as wheel, the Debian packages, the headers, a bill of materials (SPDX), and SHA256SUMS over all of them. Nothing is uploaded, no tag is
# set: docs/RELEASING.md.
#
# WENGELUDO_CHANGED=1   takes a tree with changes, to try this script
# SPDX-License-Identifier: LicenseRef-Wengeludo
set -euo pipefail
[ $# -eq 1 ] || { sed -n '2,8s/^# \{0,1\}//p' "$0" >&2; exit 2; }
out=$(realpath -m "$1")
cd "$(dirname "$0")/../.."
fail() { echo "release: $*" >&2; exit 1; }
[ ! -e "$out" ] || fail "$out is there already: another folder would do"
[ -n "${WENGELUDO_CHANGED:-}" ] || [ -z "$(git status --porcelain)" ] || fail "the tree has changes that are not committed: a release is made of a commit"
./dev versions
./dev texts refusals
[ -e target/staticlib/libwengeludo.a ] || bash packaging/archive.sh >/dev/null
./dev archive
version=$(sed -n 's/^version = "\(.*\)"/\1/p' bindings/python/pyproject.toml)
work=$(mktemp -d)
trap 'rm -rf "$work"' EXIT
parts=$work/parts
mkdir -p "$parts"
git archive --format=tar --prefix="wengeludo-$version/" HEAD | gzip -n9 >"$parts/wengeludo-$version.tar.gz"
cp target/staticlib/libwengeludo.a "$parts/libwengeludo-$version-x86_64.a"
cp include/wengeludo_balance.h include/wengeludo.hpp bindings/c/wengeludo_fault.h LICENCE "$parts/"
for target in aarch64 riscv64; do
    bash packaging/cross/build.sh "$target" "$parts/libwengeludo-$version-$target.a" >/dev/null
    ./dev archive --of "$target" "$parts/libwengeludo-$version-$target.a"
done
bash packaging/cross/build.sh wasm32 "$work/js/wengeludo.wasm" >/dev/null
./dev archive --of wasm32 "$work/js/wengeludo.wasm"
cp bindings/js/{wengeludo.js,wengeludo.d.ts,package.json,README.md} LICENCE "$work/js/"
stamp=$(git log -1 --format=%ct)
packed() { tar -C "$1" --sort=name --mtime="@$stamp" --owner=0 --group=0 --numeric-owner --mode=go-w -cf - "$2" | gzip -n9; } # where, folder: the same bytes each time
packed "$work" js >"$parts/wengeludo-js-$version.tar.gz"
cp -r bindings/python "$work/python"
(cd "$work/python" && WENGELUDO_INCLUDE=$OLDPWD/include WENGELUDO_ARCHIVE=$OLDPWD/target/staticlib/libwengeludo.a SOURCE_DATE_EPOCH=$stamp \
    CFLAGS=-g0 LDFLAGS=-s /usr/bin/python3 setup.py -q sdist -d "$parts" bdist_wheel -d "$parts" >/dev/null 2>"$work/log") || { cat "$work/log" >&2; fail "no Python package"; }
tar -xzf "$parts/wengeludo_balance-$version.tar.gz" -C "$work"
packed "$work" "wengeludo_balance-$version" >"$parts/wengeludo_balance-$version.tar.gz"
WENGELUDO_WASM=$work/js/wengeludo.wasm bash packaging/debian/build.sh "$parts" >/dev/null
python3 packaging/release/sbom.py "$parts" >"$work/sbom.spdx.json"
mv "$work/sbom.spdx.json" "$parts/"
(cd "$parts" && sha256sum -- * >"$work/SHA256SUMS" && mv "$work/SHA256SUMS" .)
mkdir -p "$(dirname "$out")"
mv "$parts" "$out"
echo "release: wengeludo $version, $(wc -l <"$out/SHA256SUMS") files in $out"

#!/usr/bin/env bash
# Puts the engine for pages, JavaScript and WebAssembly, into a copy of the desk tool's source, for `wengeludo sheet --live`.
#
#     bash desk/engine.sh COPY
#
# Without target/cross/wengeludo.wasm, or the one that WENGELUDO_WASM names, nothing is put there, and --live says what it lacks.
# SPDX-License-Identifier: LicenseRef-Wengeludo
set -eu
root=$(cd "$(dirname "$0")/.." && pwd)
wasm=${WENGELUDO_WASM:-$root/target/cross/wengeludo.wasm}
[ -e "$wasm" ] || exit 0
mkdir -p "$1/src/wengeludo/write/engine"
cp "$wasm" "$1/src/wengeludo/write/engine/wengeludo.wasm"
cp "$root/bindings/js/wengeludo.js" "$1/src/wengeludo/write/engine/"

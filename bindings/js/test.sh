#!/usr/bin/env bash
# The JavaScript module: samples, refusals, every committed case of an exported call, drawn plants against the reference, in Node; and a
# page from file: with the engine inside, in Chromium.
#
# WENGELUDO_WASM (default: target/cross/wengeludo.wasm)   the WebAssembly module
# WENGELUDO_DRAWN (default 300)   drawn plants
# CHROMIUM (default: chromium)    the browser; "none" leaves it out
# SPDX-License-Identifier: LicenseRef-Wengeludo
set -euo pipefail
cd "$(dirname "$0")/../.."
export WENGELUDO_WASM=${WENGELUDO_WASM:-$PWD/target/cross/wengeludo.wasm}
[ -e "$WENGELUDO_WASM" ] || { echo "js/test: no $WENGELUDO_WASM: build it with 'bash packaging/cross/build.sh wasm32 target/cross/wengeludo.wasm'" >&2; exit 2; }
log=$(mktemp)
trap 'rm -f "$log"' EXIT
node --test bindings/js/tests/ >"$log" 2>&1 || { grep -vE '^(ok|# Subtest)' "$log" | head -80 >&2; exit 1; }
sed -n 's/^# pass /js: tests passed: /p' "$log"
if [ "${CHROMIUM:-chromium}" != none ] && command -v "${CHROMIUM:-chromium}" >/dev/null; then
    python3 bindings/js/tests/browser.py "$WENGELUDO_WASM"
else
    echo "js: no browser, the page from file: is not tried"
fi

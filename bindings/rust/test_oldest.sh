#!/usr/bin/env bash
# The Rust crate with the oldest Rust that Cargo.toml names (rust-version), where there is one: `cargo` and `rustc` in the folder that
# OLDEST_RUST names, else the system's (Debian 12 has 1.63), else rustup's. All tests and the documentation's examples.
# SPDX-License-Identifier: LicenseRef-Wengeludo
set -eu
cd "$(dirname "$0")"
oldest=$(sed -n 's/^rust-version = "\(.*\)"$/\1/p' Cargo.toml)
found=""
for folder in "${OLDEST_RUST:-}" /usr/bin "${RUSTUP_HOME:-$HOME/.rustup}/toolchains/$oldest"*/bin; do
    if [ -n "$folder" ] && [ -x "$folder/cargo" ] && [ -x "$folder/rustdoc" ] && "$folder/rustc" --version 2>/dev/null | grep -q "^rustc $oldest\."; then
        found=$folder
        break
    fi
done
if [ -z "$found" ]; then
    echo "rust crate: no Rust $oldest here, not tried with it (Debian 12: apt-get install cargo)"
    exit 0
fi
RUSTC=$found/rustc RUSTDOC=$found/rustdoc CARGO_TARGET_DIR=$PWD/../../target/built/oldest WENGELUDO_INPUTS=${WENGELUDO_INPUTS:-2000} \
    "$found/cargo" test --offline --quiet >../../target/built/oldest.log 2>&1 || { cat ../../target/built/oldest.log >&2; exit 1; }
echo "rust crate: all tests pass with $("$found/rustc" --version), the oldest that Cargo.toml names"

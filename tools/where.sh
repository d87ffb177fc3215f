#!/usr/bin/env bash
# The goals of a function's proof in their order, as its Answers.antt names them, and between them the places that a lemma can take.
#
#     ./dev where CRATE FUNCTION
#
# FUNCTION is its path under proofs/, as read_plant or scan/find.
# SPDX-License-Identifier: LicenseRef-Wengeludo
set -eu
cd "$(dirname "$0")/.."
[ $# -eq 2 ] || { sed -n '2,6s/^# \{0,1\}//p' "$0" >&2; exit 2; }
out=$(mktemp -d)
trap 'rm -rf "$out"' EXIT
(cd "crates/$1" && rt check --generated "$out") >/dev/null 2>&1 || true # a proof that is not done yet has goals too
goals=$(find "$out" -path "*-proofs/$2/Goals.antt" | head -1)
[ -n "$goals" ] || { echo "where: nothing was generated for $2 of $1; is it a function of the crate?" >&2; exit 1; }
sed -n 's/^abbrev pub \([^ ]*\) : Type 0$/\1/p' "$goals" | grep -v '^the-' | sed 's/^[A-Z]/    &/'

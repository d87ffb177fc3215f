#!/usr/bin/env bash
# Measures the check of a sheet and the call over numbers of the places beside the sheet call, on plants in sequence.
#
#     bash bench/checks.sh [PLANTS [ROUNDS]]   prints the table; 400 plants of each kind and size, 9 rounds
# SPDX-License-Identifier: LicenseRef-Wengeludo
exec bash "$(dirname "$0")/sequence.sh" checks 400 "$@"

#!/usr/bin/env bash
# Measures the call over meters worth a visit beside the sheet call, on plants in sequence.
#
#     bash bench/visits.sh [PLANTS [ROUNDS]]   prints the table; 200 plants of each kind and size, 9 rounds
# SPDX-License-Identifier: LicenseRef-Wengeludo
exec bash "$(dirname "$0")/sequence.sh" visits 200 "$@"

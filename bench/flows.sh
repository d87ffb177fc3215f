#!/usr/bin/env bash
# Measures the check of a flow beside the sheet call, on plants in sequence.
#
#     bash bench/flows.sh [PLANTS [ROUNDS]]   prints the table; 400 plants of each kind and size, 9 rounds
# SPDX-License-Identifier: LicenseRef-Wengeludo
exec bash "$(dirname "$0")/sequence.sh" flows 400 "$@"

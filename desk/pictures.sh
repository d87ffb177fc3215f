#!/usr/bin/env bash
# Draws the pictures of docs/desk anew, by the tool itself: bash desk/pictures.sh (wengeludo on the PATH)
# SPDX-License-Identifier: LicenseRef-Wengeludo
set -eu
cd "$(dirname "$0")"
for name in steam_site steam_site_off blind_site overfull_site; do
    wengeludo sheet "samples/$name.csv" -o "../docs/desk/$name.svg" >/dev/null || [ $? -lt 4 ]
done
wengeludo sheet samples/steam_site.xlsx -o ../docs/desk/own_drawing.svg >/dev/null
wengeludo history samples/history/steam_site.csv samples/history/export.csv --zone Europe/Vienna -o ../docs/desk/history.svg >/dev/null || [ $? = 3 ]

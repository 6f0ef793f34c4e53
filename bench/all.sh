#!/usr/bin/env bash
# Runs all measurements, one after another, and prints of each what tells a ratio: the rows of its table, or its lines with
# the word `ratio`. A script that lacks something says what, and the others are run. See README.md beside this file.
# usage: bench/all.sh [ROUNDS]
set -uo pipefail
cd "$(dirname "$0")"
rounds=${1:-3}
failed=0
for script in console graph objects files items matching flow shortest; do
    echo "## $script.sh"
    told=$("./$script.sh" "$rounds" 2>&1)
    if [ $? -ne 0 ]; then
        failed=1
        echo "$told" | tail -3
    else
        echo "$told" | grep -E '^\||ratio|lines$|labels' || true
    fi
done
exit "$failed"

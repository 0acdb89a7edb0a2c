#!/usr/bin/env bash
# Compares `check` and `show` of the built program with what Privoxy gives for Debian's stock configuration. The comparison
# and what it fetches lie beside the repository, in ../shared/stock; where they can't be had it says so and is skipped.
set -u
program=$1
stock="$(dirname "$0")/../../shared/stock"
if [ ! -f "$stock/compare.py" ] || [ ! -f "$stock/fetch.sh" ]; then
    echo "stock: skipped, since $stock isn't there"
    exit 0
fi
folder=$(mktemp -d)
trap 'rm -rf "$folder"' EXIT
if ! timeout 120 bash "$stock/fetch.sh" "$folder" > "$folder.log" 2>&1; then
    echo "stock: skipped, since the package can't be fetched:"
    tail -n 2 "$folder.log"
    rm -f "$folder.log"
    exit 0
fi
rm -f "$folder.log"
python3 "$stock/compare.py" "$folder" "$program"

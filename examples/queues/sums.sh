#!/bin/sh
# Puts ten lots together: the number of samples, the mean energy per spin, and its error bar. Where lots
# are missing it names them, and ends with 1: hand in the same job again, which does those alone.
#
#   sums.sh [FOLDER]
set -eu

folder=${1:-.}
missing=
for lot in 0 1 2 3 4 5 6 7 8 9; do
    if [ ! -s "$folder/lot-$lot.txt" ]; then missing="$missing $lot"; fi
done
if [ -n "$missing" ]; then
    echo "lots are missing:$missing" >&2
    exit 1
fi
cat "$folder"/lot-*.txt | awk -F, '
    $1 == "energy" { n++; x += $2; q += $2 * $2 }
    END { mean = x / n; print n, mean / 576, sqrt((q / n - mean * mean) / (n - 1)) / 576 }'

#!/bin/sh
# One lot of a study: the least energies of a hundred drawn square lattices of 24 by 24, the seeds
# 100 * LOT + 1 to 100 * LOT + 100. They stand in lot-LOT.txt when all of them are there, and not before,
# so a lot that was broken off leaves no such file, and one that is there is not done again.
#
#   lot.sh LOT [FOLDER]
#
# Set PROGRAM for another program than built/ising2d of this clone, or ising2d where that is missing. The
# exit status is 2 if LOT is no number, and 127 if there is no program.
set -eu

case ${1:-} in
'' | *[!0-9]*)
    echo "lot.sh: expected the number of a lot, not '${1:-}'" >&2
    exit 2
    ;;
esac
here=$(cd "$(dirname "$0")" && pwd)
top=$here/../..
program=${PROGRAM:-$top/built/ising2d}
if [ -z "${PROGRAM:-}" ] && [ ! -x "$program" ]; then program=$top/ising2d; fi
if ! command -v "$program" >/dev/null 2>&1; then
    echo "lot.sh: there is no program $program" >&2
    exit 127
fi
lot=$1
folder=${2:-.}
whole=$folder/lot-$lot.txt

if [ -s "$whole" ]; then exit 0; fi
part=$(mktemp "$folder/part-$lot-XXXXXX")
trap 'rm -f "$part"' EXIT
trap 'exit 143' TERM INT HUP
seed=$((100 * lot))
last=$((seed + 100))
while [ "$seed" -lt "$last" ]; do
    seed=$((seed + 1))
    "$program" sample pm "$seed" 24 24
done >"$part"
# mktemp lets nobody else read it; a lot has the mode that the umask leaves.
chmod "$(printf '%o' $((0666 & ~$(umask))))" "$part"
mv "$part" "$whole"

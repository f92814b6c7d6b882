#!/bin/sh
# Ten lots by GNU parallel, as many at once as there are processors, and their sums. Run again after it
# was broken off, it does the lots that are missing. Set PARALLEL for its options, as --sshloginfile of
# other machines.
#
#   parallel.sh [FOLDER]
set -eu

here=$(cd "$(dirname "$0")" && pwd)
folder=${1:-.}
printf '%s\n' 0 1 2 3 4 5 6 7 8 9 | parallel --halt soon,fail=1 "$here/lot.sh" {} "$folder"
exec "$here/sums.sh" "$folder"

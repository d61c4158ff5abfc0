#!/usr/bin/env bash
# Counts the library's instructions and branches: bench/branches.sh PROGRAM FRAME_LOOP SHOW... prints a line for each row
# of the benchmark, per call, and one for each show, for all of its feeds: what was called, the instructions, the
# branches, and how many of these valgrind's predictor misses. Branches are conditional jumps and jumps by a table.
# The lines of two revisions are joined by: join -t $'\t' <(sort BEFORE) <(sort AFTER)
set -eu -o pipefail

program=$1
frame_loop=$2
shows=("${@:3}")
folder=$(mktemp -d)
trap 'rm -rf "$folder"' EXIT
source "$(dirname "$0")"/tunables.sh

# From valgrind's counts: instructions, conditional jumps, those missed, jumps by a table, those missed.
sums='{ printf "%d\t%d\t%d\n", $1, $2 + $4, $3 + $5 }'

"$program" --count 1 >"$folder/names"
"$(dirname "$0")"/count_rows.sh "$program" --branch-sim=yes | sed -n '1~2p' | awk "$sums" | paste "$folder/names" -

for show in "${shows[@]}"; do
    valgrind --tool=callgrind --branch-sim=yes --toggle-collect=wosthile_feed \
        --callgrind-out-file="$folder/show" "$frame_loop" "$show" --fast --seed 1 >"$folder/log" 2>&1 || {
        cat "$folder/log" >&2
        exit 1
    }
    printf '%s\t' "Feed, $(basename "$show" .show)"
    sed -n 's/^totals: //p' "$folder/show" | awk "$sums"
done

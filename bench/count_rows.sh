#!/usr/bin/env bash
# Counts what the calls of every row execute, by valgrind: bench/count_rows.sh PROGRAM [WORD]... prints two lines for
# each row, the library's counts per call and then the second interpreter's. The first count on a line is that of
# instructions; the words are valgrind's, and can ask for more.
set -eu -o pipefail

program=$1
times=10
counted=wosthile_bench_repeat
folder=$(mktemp -d)
trap 'rm -rf "$folder"' EXIT

source "$(dirname "$0")"/tunables.sh

# One dump is written whenever the counted function ends, and nothing outside it is counted.
valgrind --tool=callgrind --toggle-collect=$counted --dump-after=$counted \
    --callgrind-out-file="$folder/part" "${@:2}" "$program" --count $times >"$folder/log" 2>&1 || {
    cat "$folder/log" >&2
    exit 1
}

# The dumps are numbered in the order of the calls: library, second interpreter, library, and so on.
printf '%s\n' "$folder"/part.* | sort -V | xargs sed -n 's/^totals: //p' |
    awk -v times=$times '{ for (i = 1; i <= NF; i++) printf "%d%s", $i / times, i < NF ? " " : "\n" }'

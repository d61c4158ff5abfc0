#!/usr/bin/env bash
# Counts the instructions of every row: bench/instructions.sh PROGRAM prints a line for each row, the library's
# instructions per call and then the second interpreter's. Without valgrind it prints nothing, and the table has dashes.
set -eu -o pipefail

if ! command -v valgrind >/dev/null; then
    echo "valgrind is missing: no instruction counts" >&2
    exit 0
fi

"$(dirname "$0")"/count_rows.sh "$1" | paste -d ' ' - -

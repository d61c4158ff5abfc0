#!/usr/bin/env bash
# Writes what a program draws to a file: examples/draw.sh FILE COMMAND. If the program fails, the file stays as it was.
set -u
file=$1
shift
if "$@" >"$file.new"; then
    mv "$file.new" "$file"
    echo "$file: open it in a browser."
else
    status=$?
    rm -f "$file.new"
    exit "$status"
fi

#!/usr/bin/env bash
# The pictures: the time line and the diagram, built by a compiler with some words, drawn and looked at. What they count
# is held to what the frame loop tells.
#   tests/c/pictures.sh ARCHIVE [COMPILER [WORDS]]
#   tests/c/pictures.sh target/staticlib/libwosthile.a gcc -O1 -g -fsanitize=address,undefined
# The exit status tells whether everything held.
# shellcheck source=tests/c/building.sh
source "$(dirname "$0")/building.sh"

for program in timeline diagram frame_loop; do
    build "$program" "examples/$program.c" || exit 1
done
python3 tests/c/pictures.py "$folder" || exit 1
echo "the pictures, $compiler ${words[*]}: all held"

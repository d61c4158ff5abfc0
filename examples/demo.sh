#!/usr/bin/env bash
# What `make demo` shows, on a show file: examples/demo.sh SHOW. The programs are in target/ (`make programs`).
set -eu
cd "$(dirname "$0")/.."
show=$1
name=$(basename "$show" .show)
seed=19

title() {
    printf '\n== %s\n\n' "$1"
}

title "Explained: the patch of $name as a person reads it, the first and the last lines of all that explain prints."
target/explain "$show" >"target/$name.explained"
head -n 16 "target/$name.explained"
echo "  .. ($(wc -l <"target/$name.explained") lines in target/$name.explained)"
tail -n 8 "target/$name.explained"

title "A refusal: a slice of a cue and a level side by side that says that a cue comes where the level is due."
target/explain --slice '0 3 4 1 2' '0 3 7 2 2' && exit 1

title "$name at 60 frames a second. Slices are late (seed $seed), so that two or three come as one.
   Behind each second, how many cues and levels arrived and were sent in it:"
target/frame_loop "$show" --seed "$seed"

title "Rehearsed: the recording is cut anew a thousand times. Every joined output and last patch is compared, and how much
   arrived and was sent in all."
target/rehearsal "$show" 1000 "$seed"

half=$(($(sed -n 's/^Patch: .*; slices behind it: //p' "target/$name.explained") / 2))
title "Moved to the spare box: $name is stopped behind slice $half, its patch file is carried to another process, and the show
   goes on there. The totals go on; what both boxes have sent, joined, is what one box sends:"
target/spare_box "$show" --until "$half" "target/$name.carried" "target/$name.first"
echo
target/spare_box "$show" --from "$half" "target/$name.carried" "target/$name.second" "target/$name.last"
echo
target/spare_box "$show" --compare "target/$name.first" "target/$name.second" "target/$name.last"

title "Drawn: the show as it was recorded and as seed $seed cuts it, and its patch."
examples/draw.sh "target/$name.svg" target/timeline "$show" 0 "$seed"
examples/draw.sh "target/${name}_patch.svg" target/diagram "$show"

title "Fed by the program, runner: for each slice a number and, if it is 0, what is sent and the input type left, in hexadecimal.
   The last lines that differ from the one before, with the number of their slice:"
target/bin/runner <"$show" >"target/$name.lines"
awk '$0 != last { print NR ": " $0 } { last = $0 }' "target/$name.lines" | tail -n 8

#!/usr/bin/env bash
# A show that is moved to another box in the middle, by the program that does it, built by a compiler with some words:
#   tests/c/spare_box.sh ARCHIVE [COMPILER [WORDS]]
#   tests/c/spare_box.sh target/staticlib/libwosthile.a clang -O1 -g -fsanitize=address,undefined
# The exit status tells whether everything held.
# shellcheck disable=SC2317 # the functions below are called by `holds`
# shellcheck source=tests/c/building.sh
source "$(dirname "$0")/building.sh"

# Runs the program on a show and holds its exit status; its answer is left in out: box STATUS SHOW WORDS
box() {
    ends "$1" spare_box "${@:2}"
}

# The totals in the answer, each on a line: at the stop one, in the spare box those that it takes over and the last.
totals() {
    sed -n "s/^In all, by the patch's totals: //p" "$folder/out"
}

# The first box, stopped behind some slices: stop SHOW N
stop() {
    box 0 "$1" --until "$2" "$folder/carried" "$folder/first" && grep -q "^Stopped behind slice $2 of " "$folder/out" &&
        totals >"$folder/stopped"
}

# The spare box, with a patch that was carried: go_on SHOW N PATCH
go_on() {
    box 0 "$1" --from "$2" "$3" "$folder/second" "$folder/last"
}

# The totals that the frame loop ends with: it plays the show in one box, and is another program.
played_totals() {
    "$folder/frame_loop" "$1" --fast 2>"$folder/messages" | sed -n "s/^In all, by the patch's totals: //p"
}

# Moved behind so many slices, a show sends the same and leaves the same patch, which is that of every other move; its
# totals go on from those at the stop, up to those of the show that is not moved: moves SHOW N
moves() {
    local show=$1 place=$2
    stop "$show" "$place" && go_on "$show" "$place" "$folder/carried" && totals >"$folder/spare" &&
        diff "$folder/stopped" <(head -n 1 "$folder/spare") &&
        diff <(played_totals "$show") <(tail -n 1 "$folder/spare") && [ "$(wc -l <"$folder/spare")" -eq 2 ] &&
        box 0 "$show" --compare "$folder/first" "$folder/second" "$folder/last" &&
        diff <(tail -n 1 "$folder/spare") <(totals) && [ "$(grep -c 'the same as of one box\.$' "$folder/out")" -eq 2 ] &&
        cmp "$folder/last" "$folder/unmoved"
}

# With totals of zero in the patch that is carried, the same is sent, but the last patch is another: the comparison has
# to find it, wherever anything has been counted before: misses_totals SHOW N
misses_totals() {
    local show=$1 place=$2
    stop "$show" "$place" || return 1
    # shellcheck disable=SC2059 # the totals are a format
    { head -c -10 "$folder/carried"; printf "$zero_totals"; } >"$folder/zero"
    if cmp -s "$folder/zero" "$folder/carried"; then
        grep -qx '0 arrived, 0 sent\.' "$folder/stopped"
        return
    fi
    go_on "$show" "$place" "$folder/zero" && ! cmp -s "$folder/last" "$folder/unmoved" &&
        box 1 "$show" --compare "$folder/first" "$folder/second" "$folder/last" &&
        grep -q '^Sent by two boxes, joined: .*, the same as of one box\.$' "$folder/out" &&
        grep -q '^The last patch of two boxes: .*, others than the [0-9]* of one box from byte [0-9]* on\.$' "$folder/out"
}

# The places at which a show is moved: its ends, each place at which something comes, and some others: places SHOW
places() {
    local slices
    slices=$("$folder/frame_loop" "$1" --fast 2>"$folder/messages" | sed -n 's/^The show is over: .* frames, \([0-9]*\) slices.*/\1/p')
    {
        printf '%d\n' 0 1 "$((slices / 3))" "$((slices / 2))" "$((slices - 1))" "$slices"
        "$folder/frame_loop" "$1" --fast 2>"$folder/messages" | sed -n 's/^frame \([0-9]*\).*/\1/p' | awk 'NR % 3 == 1'
    } | sort -nu
}

moves_everywhere() {
    local show=$1 place lost=0
    stop "$show" 0 && go_on "$show" 0 "$folder/carried" && cp "$folder/last" "$folder/unmoved" || return 1
    [ ! -s "$folder/first" ] || return 1
    for place in $(places "$show"); do
        moves "$show" "$place" && misses_totals "$show" "$place" || return 1
        lost=$((lost + 1 - $(grep -cx '0 arrived, 0 sent\.' "$folder/stopped")))
    done
    [ "$lost" -ge 2 ]
}

# What the comparison has to find besides: outputs in the other order, one that is missing, another last patch, one that is
# cut, and another show.
compares() {
    local show=examples/shows/comet_to_saturn.show
    stop "$show" 121 && go_on "$show" 121 "$folder/carried" && : >"$folder/nothing" &&
        box 1 "$show" --compare "$folder/second" "$folder/first" "$folder/last" &&
        grep -q 'second cannot be joined: it is refused with 14: ' "$folder/out" &&
        box 1 "$show" --compare "$folder/first" "$folder/nothing" "$folder/last" &&
        grep -q '^Sent by two boxes, joined: .*, others than the ' "$folder/out" &&
        box 1 "$show" --compare "$folder/first" "$folder/second" "$folder/carried" &&
        grep -q '^The last patch of two boxes: .*, others than the ' "$folder/out" && head -c -1 "$folder/last" >"$folder/cut" &&
        box 1 "$show" --compare "$folder/first" "$folder/second" "$folder/cut" &&
        box 1 examples/shows/house_fills.show --compare "$folder/first" "$folder/second" "$folder/last" &&
        box 0 "$show" --compare "$folder/first" "$folder/second" "$folder/last"
}

# The spare box takes nothing from the patch of the show: with another one there it does the same.
needs_the_patch_alone() {
    local show=examples/shows/comet_to_saturn.show end
    end=$(patch_end "$show")
    # shellcheck disable=SC2059 # the totals are a format
    { printf "\0\20\0\1\1\0\1\5$zero_totals"; tail -c "+$((end + 1))" "$show"; } >"$folder/slices.show"
    stop "$show" 121 && go_on "$show" 121 "$folder/carried" && cp "$folder/last" "$folder/due" &&
        cp "$folder/second" "$folder/due.second" && go_on "$folder/slices.show" 121 "$folder/carried" &&
        cmp "$folder/last" "$folder/due" && cmp "$folder/second" "$folder/due.second"
}

# Patches that cannot be taken over are told with what is wrong; files that cannot be written, and the show itself, stay.
refuses() {
    local show=$folder/evening.show
    cp examples/shows/lamp_fade.show "$show" && stop "$show" 60 || return 1
    head -c -10 "$folder/carried" >"$folder/old"
    head -c -1 "$folder/carried" >"$folder/cut"
    box 1 "$show" --from 60 "$folder/old" "$folder/a" "$folder/b" && grep -q 'refused with 1: ' "$folder/messages" &&
        grep -q 'add_totals' "$folder/messages" &&
        box 1 "$show" --from 60 "$folder/cut" "$folder/a" "$folder/b" &&
        grep -q 'the count promises 8 bytes, and 7 follow' "$folder/messages" &&
        box 1 "$show" --from 60 "$show" "$folder/a" "$folder/b" &&
        grep -q 'The file is a show and no patch\.' "$folder/messages" && [ ! -e "$folder/a" ] && [ ! -e "$folder/b" ] &&
        box 2 "$show" --from 60 "$folder/not_there" "$folder/a" "$folder/b" &&
        box 2 "$show" --until 60 "$folder/missing/patch" "$folder/a" && box 2 "$show" --until 60 /dev/null "$folder/a" &&
        [ -c /dev/null ] && box 2 "$show" --until 60 "$show" "$folder/a" && box 2 "$show" --until 60 "$folder/a" "$show" &&
        box 2 "$show" --from 60 "$folder/carried" "$folder/a" "$show" && cmp "$show" examples/shows/lamp_fade.show &&
        cp "$folder/carried" "$folder/kept" && box 2 "$show" --from 60 "$folder/carried" "$folder/carried" "$folder/b" &&
        box 2 "$show" --from 60 "$folder/carried" "$folder/a" "$folder/carried" && cmp "$folder/carried" "$folder/kept"
}

# The slices of a second and a half come as one, so that many feeds are saved: the messages of refused ones are the same.
tells_refused_slices() {
    local show=examples/shows/damaged.show
    box 0 "$show" --until 47 "$folder/carried" "$folder/first" && grep -c 'is refused with' "$folder/messages" >"$folder/due" &&
        box 0 "$show" --until 0 "$folder/carried" "$folder/first" && go_on "$show" 0 "$folder/carried" &&
        grep -c 'is refused with' "$folder/messages" | diff "$folder/due" - && grep -qx 5 "$folder/due" &&
        grep -q 'ends inside the slice of frame 48' "$folder/messages" &&
        grep -qx '47 slices came while the boxes were exchanged, and are fed as one\.' "$folder/out"
}

for program in spare_box frame_loop; do
    holds "build $program" build "$program" "examples/$program.c"
done
[ "$failed" -eq 0 ] || exit 1
for show in examples/shows/*.show; do
    holds "$show moved" moves_everywhere "$show"
done
holds "what the comparison finds" compares
holds "the patch file alone" needs_the_patch_alone
holds "patches and files that cannot be used" refuses
holds "refused slices" tells_refused_slices
[ "$failed" -eq 0 ] && echo "shows moved to another box, $compiler ${words[*]}: all held"
exit "$failed"

#!/usr/bin/env bash
# The program that adds totals to shows of before release 1.5.0, built by a compiler with some words and run:
#   tests/c/add_totals.sh ARCHIVE [COMPILER [WORDS]]
#   tests/c/add_totals.sh target/staticlib/libwosthile.a clang -O1 -g -fsanitize=address,undefined
# The exit status tells whether everything held.
# shellcheck disable=SC2317 # the functions below are called by `holds`
# shellcheck source=tests/c/building.sh
source "$(dirname "$0")/building.sh"

# A shipped show as it was before totals: its patch ends ten bytes earlier, and its length says so: old_of SHOW
old_of() {
    local end length
    end=$(patch_end "$1")
    length=$((end - 2 - 10))
    # shellcheck disable=SC2059 # the length is a format
    printf "\\$(printf %o $((length / 256)))\\$(printf %o $((length % 256)))"
    head -c $((end - 10)) "$1" | tail -c +3
    tail -c +$((end + 1)) "$1"
}

# Runs the program and holds its exit status: adds STATUS WORDS
adds() {
    ends "$1" add_totals "${@:2}"
}

# With totals added, a show is the shipped one, byte for byte; the old one stays, and is refused by the frame loop.
makes_the_shipped_show() {
    local show=$1 end
    end=$(patch_end "$show")
    old_of "$show" >"$folder/old.show" && cp "$folder/old.show" "$folder/copy" && rm -f "$folder/new.show" || return 1
    "$folder/frame_loop" "$folder/old.show" --fast >"$folder/out" 2>"$folder/messages"
    [ $? -eq 1 ] && grep -q 'The program add_totals gives it totals of zero' "$folder/messages" || return 1
    adds 0 "$folder/old.show" "$folder/new.show" && cmp "$folder/new.show" "$show" && cmp "$folder/old.show" "$folder/copy" &&
        [ ! -s "$folder/messages" ] && [ ! -e "$folder/new.show.new" ] &&
        grep -qF ".show is written: totals of zero at bytes $((end - 10)) to $((end - 1)), and $(($(stat -c %s "$show") - end)) bytes" \
            "$folder/out"
}

# A patch alone, as a file and as bytes.
makes_a_patch() {
    printf '\0\1\1\0\1\0' >"$folder/old.patch"
    # shellcheck disable=SC2059 # the totals are a format
    printf "\0\1\1\0\1\0$zero_totals" >"$folder/due.patch"
    adds 0 --patch "$folder/old.patch" "$folder/new.patch" && cmp "$folder/new.patch" "$folder/due.patch" &&
        rm "$folder/new.patch" && adds 0 --patch '0 1 1 0 1 0' "$folder/new.patch" &&
        cmp "$folder/new.patch" "$folder/due.patch"
}

# A patch to which nothing is added, as one alone and in a show, what is told of it, and that nothing is written:
# leaves TOLD PATCH, in decimal
leaves() {
    local told=$1 patch=$2 bytes
    rm -f "$folder"/new.*
    bytes=$(for byte in $patch; do printf '\\%o' "$byte"; done)
    # shellcheck disable=SC2059 # the bytes are a format
    printf "\0\\$(printf %o "$(wc -w <<<"$patch")")$bytes\0\3\0\1\1" >"$folder/left.show"
    adds 1 --patch "$patch" "$folder/new.patch" && grep -qF "$told" "$folder/messages" && [ ! -s "$folder/out" ] &&
        adds 1 "$folder/left.show" "$folder/new.show" && grep -qF "$told" "$folder/messages" && [ ! -s "$folder/out" ] &&
        [ -z "$(ls "$folder"/new.* 2>/dev/null)" ] && return 0
    cat "$folder/messages"
    ls "$folder"/new.*
    echo "'$told' is due for $patch"
    return 1
}

# One that has totals, whatever they are; one that would be refused with totals; one that has a part of them, or others;
# and one that is wrong before them.
leaves_the_others() {
    leaves 'the patch has totals, 0 arrived and 0 sent in all, and nothing is written' "0 1 1 0 1 0 $zeros" &&
        leaves 'the patch has totals, 300 arrived and 4294967295 sent in all' '0 1 1 0 1 0 0 8 0 0 1 44 255 255 255 255' &&
        leaves 'is refused with 7 when it has totals, and nothing is written: ' '0 1 1 0 1 5' &&
        leaves 'is refused with 6 when it has totals' '0 1 1 0 2 1 1' &&
        leaves 'is refused with 30 when it has totals' '0 3 5 1 2 0 3 15 0 0' &&
        leaves 'is refused with 1, and nothing is written: ' '0 1 1 0 1 0 0' &&
        leaves 'is refused with 1, and nothing is written: ' '0 1 1 0 1 0 0 8 0 0 0 0 0 0 0' &&
        leaves 'is refused with 1, and nothing is written: ' '0 1 1 0 1 0 0 7 0 0 0 0 0 0 0' &&
        leaves 'is refused with 3, and nothing is written: ' '0 1 1 0 1 0 0 9 0 0 0 0 0 0 0 0 0' &&
        leaves 'is refused with 3, and nothing is written: ' "0 1 1 0 1 0 $zeros 0" &&
        leaves 'is refused with 1, and nothing is written: ' '0 1 1' &&
        leaves 'is refused with 1, and nothing is written: ' '0 1 1 0 1' &&
        leaves 'is refused with 2, and nothing is written: ' '0 1 9 0 1 0' &&
        leaves 'is refused with 3, and nothing is written: ' '0 1 1 0 2 0 0'
}

# Whatever name leads to the old show, it is not written over: its own, a link, and the name that a file is written
# under first.
never_over_the_old_show() {
    local new
    old_of examples/shows/lamp_fade.show >"$folder/kept.show" && cp "$folder/kept.show" "$folder/copy" &&
        ln -sf kept.show "$folder/symbolic.show" && ln -f "$folder/kept.show" "$folder/hard.show" &&
        ln -f "$folder/kept.show" "$folder/first.show.new" || return 1
    for new in kept symbolic hard first; do
        adds 2 "$folder/kept.show" "$folder/$new.show" && grep -q 'is read, and is not written over' "$folder/messages" &&
            cmp "$folder/kept.show" "$folder/copy" || return 1
    done
    [ ! -e "$folder/first.show" ] && adds 2 "$folder/symbolic.show" "$folder/kept.show" &&
        cmp "$folder/kept.show" "$folder/copy"
}

# What cannot be written whole is not written, and what was there stays; a device is left alone.
writes_whole_or_not() {
    old_of examples/shows/lamp_fade.show >"$folder/old.show" && echo before >"$folder/there.show" &&
        ln -sf /dev/full "$folder/there.show.new" || return 1
    adds 2 "$folder/old.show" "$folder/there.show" && grep -q 'there.show.new cannot be written: No space' "$folder/messages" &&
        [ "$(cat "$folder/there.show")" = before ] && [ ! -e "$folder/there.show.new" ] && [ ! -s "$folder/out" ] &&
        adds 2 "$folder/old.show" "$folder/missing/new.show" && adds 2 "$folder/old.show" /dev/null &&
        grep -q '/dev/null cannot be written: it is no regular file' "$folder/messages" && [ -c /dev/null ] &&
        adds 0 "$folder/old.show" "$folder/there.show" && cmp "$folder/there.show" examples/shows/lamp_fade.show
}

for program in add_totals frame_loop; do
    holds "build $program" build "$program" "examples/$program.c"
done
[ "$failed" -eq 0 ] || exit 1
for show in examples/shows/*.show; do
    holds "$show of before totals" makes_the_shipped_show "$show"
done
holds "a patch alone" makes_a_patch
holds "patches that are left as they are" leaves_the_others
holds "the old show stays" never_over_the_old_show
holds "what cannot be written" writes_whole_or_not
[ "$failed" -eq 0 ] && echo "totals added to old shows, $compiler ${words[*]}: all held"
exit "$failed"

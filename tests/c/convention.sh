#!/usr/bin/env bash
# The example programs keep one convention: exit status 0 done, 1 refused or a difference, 2 words or files that cannot
# be used; answers on standard output, messages on the error stream; what cannot be written is told.
#   tests/c/convention.sh ARCHIVE [COMPILER [WORDS]]
# The exit status tells whether everything held.
# shellcheck disable=SC2317 # some functions below are called by `expect`
# shellcheck source=tests/c/building.sh
source "$(dirname "$0")/building.sh"

mkdir "$folder/made" "$folder/empty"

# A program, how it is called with a FILE, and what its answer is: text on standard output, or files in a folder. FOLDER
# is that of this test.
programs='
frame_loop  FILE --fast  text
rehearsal   FILE 3       text
timeline    FILE         text
diagram     FILE         text
explain     FILE         text
spare_box   FILE --until 3 FOLDER/carried.patch FOLDER/sent.slice  text
add_totals  FILE FOLDER/new.show  text
make_show   examples/shows/lamp_fade.score FILE  files
'

# A show with nothing wrong, and one that add_totals takes; one whose patch is refused, left on a cue; one that ends before
# its patch does; and a patch, and one without totals. Then a file with the name of a score and the bytes of the refused
# show, and one with no bytes.
shipped=examples/shows/lamp_fade.show
old=$folder/old.show
refused=$folder/refused.show
cut=$folder/cut.show
patch=$folder/alone.patch
old_patch=$folder/old.patch
printf '\0\6\0\1\1\0\1\0\0\3\0\1\2' >"$old"
# shellcheck disable=SC2059 # the totals are a format
printf "\0\20\0\1\1\0\1\5$zero_totals" >"$refused"
printf '\0\20\0\1\1' >"$cut"
# shellcheck disable=SC2059
printf "\0\1\1\0\1\0$zero_totals" >"$patch"
printf '\0\1\1\0\1\0' >"$old_patch"
cp "$refused" "$folder/refused.score"
: >"$folder/empty.score"

wrong() {
    head -n 20 "$folder/answer" "$folder/messages"
    echo "$*: FAILED"
    failed=1
}

# Runs a command and holds it to an exit status, and to what it writes on the two streams, each some, none or any:
# expect STATUS ANSWER MESSAGES COMMAND
expect() {
    local status=$1 answer=$2 messages=$3 met
    shift 3
    "$@" >"$folder/answer" 2>"$folder/messages"
    met=$?
    if [ "$met" -ne "$status" ] || ! has "$answer" "$folder/answer" || ! has "$messages" "$folder/messages"; then
        wrong "${*#"$folder/"}: status $met where $status is due, answer $answer, messages $messages"
    fi
}

has() {
    case $1 in
    some) [ -s "$2" ] ;;
    none) [ ! -s "$2" ] ;;
    *) true ;;
    esac
}

# The same command with an output that cannot be written; called by `expect`.
to_full_disk() { "$@" >/dev/full; }
to_closed_output() { "$@" >&-; }
with_closed_messages() { "$@" 2>&-; }

# Words alone: help, none, one that the program does not know.
try_words() {
    local program=$1
    expect 0 some none "$folder/$program" --help
    head -n 1 "$folder/answer" | grep -q "^$program " || wrong "$program --help does not begin with its name"
    expect 2 none some "$folder/$program"
    expect 2 none some "$folder/$program" --unknown
    expect 2 none some to_full_disk "$folder/$program" --help
    expect 2 none some to_closed_output "$folder/$program" --help
}

# A word that cannot be used is told, or the value that is wrong: name_words COMMANDS, each with what is told of a word.
name_words() {
    local command told
    while IFS='|' read -r command told; do
        # shellcheck disable=SC2086 # the command is several words
        expect 2 none some "$folder"/${command/SHOW/$shipped}
        grep -qF ": $told" "$folder/messages" || wrong "$command: '$told' is due"
    done
}

# Shows, for a program that writes text: try_shows PROGRAM WORDS, with FILE in place of the show.
try_shows() {
    local program=$folder/$1
    shift
    expect 0 some any "$program" "${@/FILE/$good}"
    expect 1 any any "$program" "${@/FILE/$refused}"
    grep -q 'refused with 7' "$folder/answer" "$folder/messages" || wrong "$program does not tell the number, 7"
    expect 2 none some "$program" "${@/FILE/$cut}"
    expect 2 none some "$program" "${@/FILE/$folder/not_there.show}"
    expect 2 none some to_full_disk "$program" "${@/FILE/$good}"
    grep -q 'standard output cannot be written: No space left on device' "$folder/messages" || wrong "$program: no reason"
    expect 0 some none with_closed_messages "$program" "${@/FILE/$good}"
    expect 2 none none with_closed_messages "$program" "${@/FILE/$folder/not_there.show}"
    expect 2 none none with_closed_messages to_closed_output "$program" "${@/FILE/$good}"
    expect 2 none some to_closed_output "$program" "${@/FILE/$good}"
}

# Files that are no show, for a program that takes shows: a status, the file, and what it is told to be, if anything.
try_other_files() {
    local program=$folder/$1 status file told
    shift
    while IFS='|' read -r status file told; do
        expect "$status" any any "$program" "${@/FILE/$file}"
        [ "$(cat "$folder/answer" "$folder/messages" | grep '^    The file')" = "$told" ] ||
            wrong "$program: '$told' is due for $file"
    done <<END
1|$patch|    The file is a patch file and no show; explain, diagram and add_totals take it with --patch.
1|$old_patch|    The file is a patch file and no show; explain, diagram and add_totals take it with --patch.
1|$folder/refused.score|    The file is a score; make_show makes a show of it.
2|examples/shows/lamp_fade.score|    The file is a score; make_show makes a show of it.
2|examples/shows/lamp_fade.lanes|    The file has the names of lanes; the show beside it ends in .show.
2|$folder/empty.score|
2|$folder/not_there.score|
1|$refused|
END
}

# Folders, for a program that writes files.
try_folders() {
    local program=$folder/$1
    shift
    expect 0 none none "$program" "${@/FILE/$folder/made}"
    expect 2 none some "$program" "${@/FILE/$folder/not_there}"
    # A file would take the place of the closed stream, so none is opened.
    expect 2 none some to_closed_output "$program" "${@/FILE/$folder/empty}"
    [ -z "$(ls -A "$folder/empty")" ] || wrong "$program writes files without a standard output"
    expect 0 none none with_closed_messages "$program" "${@/FILE/$folder/empty}"
    diff -r "$folder/made" "$folder/empty" || wrong "$program writes other files without a stream for its messages"
}

tried=0
while read -r program called; do
    [ -f "examples/$program.c" ] || continue
    build "$program" "examples/$program.c" || exit 1
    try_words "$program"
    read -ra call <<<"${called% *}"
    call=("${call[@]/#FOLDER/$folder}")
    good=$shipped
    [ "$program" = add_totals ] && good=$old
    case ${called##* } in
    text)
        try_shows "$program" "${call[@]}"
        try_other_files "$program" "${call[@]}"
        ;;
    files) try_folders "$program" "${call[@]}" ;;
    esac
    tried=$((tried + 1))
done < <(grep . <<<"$programs")

name_words <<'END'
frame_loop SHOW --sed 1|"--sed" is not one of its words
frame_loop SHOW --seed|"--seed" cannot be used like this
frame_loop SHOW --seed 99999999999999999999|"99999999999999999999" where a number from 0 to 18446744073709551615 is due
frame_loop SHOW --seed x|"x" where a number from 0 to 18446744073709551615 is due
frame_loop SHOW --seed --fast|"--fast" where a number from 0 to 18446744073709551615 is due
frame_loop SHOW --frames-per-second 0|"0" where a number from 1 to 1000 is due
frame_loop SHOW --frames-per-second 1001|"1001" where a number from 1 to 1000 is due
frame_loop SHOW --fast --frames-per-second 60|"--frames-per-second" cannot be used like this
frame_loop SHOW second.show|"second.show" cannot be used here
frame_loop --fast|the words are: frame_loop SHOW
rehearsal SHOW 0|"0" where a number from 1 to 18446744073709551615 is due
rehearsal SHOW 5 -1|"-1" where a number from 0 to 18446744073709551615 is due
rehearsal SHOW 5 x|"x" where a number from 0 to 18446744073709551615 is due
rehearsal SHOW 5x|the words are: rehearsal SHOW
make_show a.score b more|"more" cannot be used here
rehearsal SHOW 5 1 more|"more" cannot be used here
rehearsal --cuts|"--cuts" is not one of its words
explain --patch|"--patch" cannot be used like this
explain --slice 0|"--slice" cannot be used like this
explain --type 0 more|"more" cannot be used here
explain SHOW more|"more" cannot be used here
explain SHOW --all more|"more" cannot be used here
explain --al|"--al" is not one of its words
spare_box SHOW|the words are: spare_box SHOW
spare_box --until|the words are: spare_box SHOW
spare_box --until 3 a b|"--until" cannot be used like this
spare_box SHOW 3|"3" cannot be used here
spare_box SHOW --to 3 a b|"--to" is not one of its words
spare_box SHOW --until 3 a|"--until" cannot be used like this
spare_box SHOW --until 181 a b|"181" where a number from 0 to 180 is due
spare_box SHOW --from 181 a b c|"181" where a number from 0 to 180 is due
spare_box SHOW --from x a b c|"x" where a number from 0 to 180 is due
spare_box SHOW --until 3 a b more|"more" cannot be used here
spare_box SHOW --from 3 a b c more|"more" cannot be used here
spare_box SHOW --compare a b|"--compare" cannot be used like this
spare_box SHOW --compare a b c more|"more" cannot be used here
add_totals SHOW|the words are: add_totals OLD NEW
add_totals a b more|"more" cannot be used here
add_totals a --new|"--new" is not one of its words
add_totals --old b|"--old" is not one of its words
add_totals --patch a|"--patch" cannot be used like this
add_totals --patch a b more|"more" cannot be used here
END

# The README's example takes no words.
build calls examples/calls.c || exit 1
expect 0 some none "$folder/calls"
expect 2 none some to_full_disk "$folder/calls"
expect 2 none some to_closed_output "$folder/calls"
[ "$failed" -eq 0 ] && echo "the convention of the programs, $tried of them and calls, $compiler ${words[*]}: all held"
exit "$failed"

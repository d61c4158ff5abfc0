#!/usr/bin/env bash
# The program that explains, and the places of faults, built by a compiler with some words and run:
#   tests/c/explain.sh ARCHIVE [COMPILER [WORDS]]
#   tests/c/explain.sh target/staticlib/libwosthile.a clang -O1 -g -fsanitize=address,undefined
# The exit status tells whether everything held. The stored texts are written anew by
#   for show in examples/shows/*.show; do target/explain "$show" >"${show%.show}.explained"; done
# shellcheck disable=SC2317 # the functions below are called by `holds`
# shellcheck source=tests/c/building.sh
source "$(dirname "$0")/building.sh"

# Explains and holds the exit status: explains STATUS WORDS
explains() {
    ends "$1" explain "${@:2}"
}

# A shipped show; the damaged one has refused slices and a broken end.
explains_as_stored() {
    local show=$1 status=0
    [ "$(basename "$show")" = damaged.show ] && status=1
    explains "$status" "$show" && diff "${show%.show}.explained" "$folder/out" && counts_what_it_lists
}

# In each frame as many cues and levels are counted as are listed below the count, and all of them at the end; no type
# has fewer.
counts_what_it_lists() {
    awk '
        function close_list() { if (listed != counted) { print "frame " frame ": " listed " of " counted; failed = 1 } }
        /^(frame|[0-9]+ slices?: )/ { close_list(); listed = counted = 0; frame = $2 }
        /^  (comes|is sent) \(cues and levels: [0-9]+\)$/ {
            close_list()
            listed = 0
            counted = $NF + 0
            sum[$1] += counted
        }
        /^    .*: (cue|level [0-9]+)$/ { listed++ }
        /^Most cues and levels of the (input|output) type: / { most[$7] = $NF }
        /^Cues and levels: / {
            told = $4 == sum["comes"] + 0 && $6 == sum["is"] + 0 && $4 <= most["input"] + 0 && $6 <= most["output"] + 0
        }
        END { exit failed || !told }' "$folder/out"
}

# With --all every slice is listed, and nothing else changes.
explains_all_slices() {
    local show=$1 listed='^ +byte|^ +[0-9]+ +[0-9]+  |^frame [0-9]+, '
    explains "$2" "$show" --all && grep -Ev "$listed" "$folder/out" |
        diff <(grep -Ev "$listed" "${show%.show}.explained") - &&
        [ "$(grep -c '^frame [0-9]*, the slice' "$folder/out")" -eq "$3" ]
}

# A refusal with its number and its place in words, with no longest slice and no count: refused NUMBER PLACE WORDS
refused() {
    local number=$1 place=$2
    shift 2
    explains 1 "$@" || return 1
    tail -n 2 "$folder/out" >"$folder/refusal"
    if ! grep -q " is refused with $number: [A-Z].*\.$" "$folder/refusal" || ! grep -qxF "    $place" "$folder/refusal"; then
        cat "$folder/out"
        echo "explain $*: not refused with $number at '$place'"
        return 1
    fi
    tells_no_longest && ! grep -i 'cues and levels' "$folder/out"
}

tells_no_longest() {
    grep -i 'longest' "$folder/out" && echo "a longest slice of what is refused, or was not asked for" && return 1
    return 0
}

# Bytes again and again: times 3 '4 1'
times() {
    local bytes=''
    for _ in $(seq "$1"); do
        bytes+="$2 "
    done
    echo "$bytes"
}

# Each number, and each kind of place that it can have.
explains_each_number() {
    local doubled
    doubled=$(times 8 '10 4 0 0')
    refused 1 'byte 0: the patch ends where a section is due' --patch '' &&
        refused 1 'byte 1: the patch ends inside a count of two bytes' --patch '0' &&
        refused 1 'byte 0: the count promises 5 bytes, and 2 follow' --type '0 5 4 1' &&
        refused 1 'byte 0: the count promises 1 byte, and 0 follow' --type '0 1' &&
        refused 1 'byte 1: the type ends inside a count of two bytes' --type '0' &&
        refused 1 'byte 4, behind lane 1: the section ends, and its type needs another byte' --type '0 2 4 1' &&
        refused 1 'byte 3: the patch ends where a section is due' --patch '0 1 1' &&
        refused 1 'byte 3: the count promises 2 bytes, and 1 follows' --patch '0 1 1 0 2 0' &&
        refused 1 'byte 7: the section ends, and its tree of nodes needs another byte' --patch '0 1 1 0 2 4 0' &&
        refused 2 'byte 4, behind lane 1: kind 77 is not listed here; 0 to 5 are' --patch '0 3 3 1 77 0 1 0' &&
        refused 2 'byte 6: kind 99 is not listed here; 0 to 17 are' --patch '0 1 1 0 3 4 99 0' &&
        refused 2 'byte 7: kind 55 is not listed here; 0 to 5 are' --patch '0 1 1 0 4 1 4 55 0' &&
        refused 3 'byte 3, behind lane 1: the tree is whole, and 2 bytes of its section follow it' --type '0 3 1 1 1' &&
        refused 3 'byte 3: the last section ends, and 1 byte follows it' --type '0 1 1 1' &&
        refused 3 'byte 6: the tree is whole, and 1 byte of its section follows it' --patch '0 1 1 0 2 5 0' &&
        refused 4 'byte 256, behind lane 127: the type has 255 nodes up to here and needs another' \
            --type "1 145 $(times 200 '4 1') 1" &&
        refused 4 'byte 260: the type has 255 nodes up to here and needs another' --patch "0 1 1 1 44 1 $(times 299 4)" &&
        refused 4 'byte 34, node both: its parts give a type of 255 nodes and a type of 255 nodes' \
            --patch "0 1 1 0 33 $doubled 0 $zeros" &&
        refused 5 'byte 67: the patch has 63 nodes up to here and needs another' --patch "0 1 1 0 81 $(times 40 '4 0') 0" &&
        refused 6 'byte 6, node silent: it carries empty then empty' --patch "0 1 1 0 6 4 1 3 0 0 0 $zeros" &&
        refused 7 'byte 9, node left: it takes s beside t, and its input is cue' --patch "0 3 3 1 1 0 3 9 0 5 $zeros" &&
        refused 7 'byte 5, node spread: it takes s then (t beside r), and its input is cue' --patch "0 1 1 0 1 13 $zeros" &&
        explains_wrong_totals && explains_each_slice_number && explains_choices
}

# The third section: cut, of another length, and with bytes behind it. What is wrong there comes before what is wrong
# with the types of nodes, here of left on a cue, and behind what is wrong with the nodes' bytes.
explains_wrong_totals() {
    local patch='0 1 1 0 1 5' eight='1 2 3 4 5 6 7 8'
    refused 1 'byte 7: the patch ends inside a count of two bytes' --patch "$patch 0" &&
        refused 1 'byte 6: the count promises 8 bytes, and 7 follow' --patch "$patch 0 8 1 2 3 4 5 6 7" &&
        refused 1 'byte 6: the count promises 9 bytes, and 8 follow' --patch "$patch 0 9 $eight" &&
        refused 1 'byte 6: the count promises 8 bytes, and 0 follow' --patch "$patch 0 8" &&
        refused 1 'byte 8: the section ends, and has 0 of the 8 bytes of the totals' --patch "$patch 0 0" &&
        refused 1 'byte 15: the section ends, and has 7 of the 8 bytes of the totals' --patch "$patch 0 7 1 2 3 4 5 6 7" &&
        refused 1 'byte 15: the section ends, and has 7 of the 8 bytes of the totals' --patch "$patch 0 7 $eight" &&
        refused 3 'byte 16: the totals are whole, and 1 byte of their section follows them' --patch "$patch 0 9 $eight 9" &&
        refused 3 'byte 16: the totals are whole, and 248 bytes of their section follow them' \
            --patch "$patch 1 0 $(times 256 1)" &&
        refused 3 'byte 16: the totals are whole, and 1 byte of their section follows them' --patch "$patch 0 9 $eight 9 9" &&
        refused 3 'byte 16: the last section ends, and 2 bytes follow it' --patch "$patch 0 8 $eight 0 0" &&
        refused 7 'byte 5, node left: it takes s beside t, and its input is cue' --patch "$patch 0 8 $eight" &&
        refused 2 'byte 5: kind 99 is not listed here; 0 to 17 are' --patch '0 1 1 0 1 99 0 7 1' &&
        refused 3 'byte 6: the tree is whole, and 1 byte of its section follows it' --patch '0 1 1 0 2 5 0 0 7 1'
}

# A patch or a show in which the totals are missing, and nothing else is wrong, is told so, with the program that adds
# them; not so one that is wrong in another way, or whose totals are there in part.
names_add_totals() {
    local told='    Nothing else is wrong: it is a patch of before release 1.5.0. The program add_totals gives it totals of zero.'
    local patch
    printf '\0\6\0\1\1\0\1\0\0\3\0\1\2' >"$folder/old.show"
    explains 1 --patch '0 1 1 0 1 0' && tail -n 3 "$folder/out" | diff - <(
        refusal_of_1
        echo '    byte 6: the patch ends where its totals are due'
        echo "$told"
    ) && explains 1 "$folder/old.show" && tail -n 4 "$folder/out" | diff - <(
        refusal_of_1
        echo '    byte 6 of the patch, byte 8 of the show: the patch ends where its totals are due; the length of the patch, at bytes 0 to 1 of the show, says 6'
        echo "$told"
        echo 'Without a patch no slice can be fed.'
    ) || return 1
    for patch in '0 1 1 0 1 5' '0 1 1 0 1 0 0' '0 1 1 0 1 0 0 8' '0 1 1 0 1 0 0 7 1 2 3 4 5 6 7' '0 1 1' '0 1 1 0 2 4 0'; do
        explains 1 --patch "$patch" && ! grep 'add_totals' "$folder/out" || return 1
    done
}

refusal_of_1() {
    echo 'The patch is refused with 1: A section is longer than the bytes that remain, or what it holds needs a byte past it.'
}

# The totals of a patch: of one alone as they are in it, of a show at its start and at its end. The greatest is no fault.
explains_totals() {
    explains 0 --patch '0 1 1 0 1 0 0 8 0 0 1 44 255 255 255 255' &&
        diff - <(sed -n '/^Totals/,/ sent$/p' "$folder/out") <<'END' || return 1
Totals: 300 arrived, 4294967295 sent in all
    byte
       8  300 arrived
      12  4294967295 sent
END
    printf '\0\20\0\1\1\0\1\0\0\10\0\0\1\54\1\0\0\0\0\3\0\1\2' >"$folder/later.show"
    explains 0 "$folder/later.show" && diff - <(grep -E 'arrived' "$folder/out") <<'END'
Totals: 300 arrived, 16777216 sent in all
       8       10  300 arrived
Cues and levels: 1 arrived, 1 sent.
In all, by the patch's totals: 301 arrived, 16777217 sent.
END
}

# The two types of choose, and where they first differ; the type that a mark carries; choices in slices.
explains_choices() {
    local type='0 5 3 5 1 2 1' # a cue or a level, and then a cue
    refused 30 'byte 7, node choose: its parts give cue and level' --patch "0 3 5 1 2 0 3 15 0 0 $zeros" &&
        refused 30 'byte 14, node choose: its parts give cue beside level and cue beside (cue then cue); these first differ at their lane 2: level in the first, cue then cue in the second' \
            --patch "0 9 5 4 1 2 4 1 3 1 1 0 5 10 15 0 0 0 $zeros" &&
        refused 7 'byte 5, node choose: it takes s or t, and its input is cue' --patch "0 1 1 0 3 15 0 0 $zeros" &&
        refused 4 'byte 5, node mark first: its input is a type of 1 node, and it carries a type of 255 nodes' \
            --patch "0 1 1 1 0 16 $(times 127 '4 1') 1 $zeros" &&
        refused 12 'byte 3, lanes 1 to 2: kind 99 (not listed) where 8 to 10 (either) is due' --slice "$type" '0 3 5 99 1' &&
        refused 14 'byte 3, lanes 1 to 2: kind 8 (none chosen) where 9 or 10 (either) is due; the first part of a crossing has to be complete' \
            --slice "$type" '0 3 6 8 1' &&
        refused 14 'byte 4, lane 1: kind 3 (level awaited) where 1 or 2 (cue) is due' --slice "$type" '0 3 5 9 3' &&
        refused 14 'byte 2, lane 1: kind 8 (none chosen) where 1 or 2 (cue) is due' --slice '0 1 1' '0 1 8' &&
        explains 0 --slice "$type" '0 5 5 10 4 1 44' && grep -qx ' *3    10 second chosen  *lanes 1 to 2' "$folder/out" &&
        explains 0 --patch "0 1 1 0 2 17 2 $zeros" && grep -qx ' *carries level' "$folder/out" &&
        grep -qx ' *gives level or cue' "$folder/out" && explains_second_choice
}

# A show that chooses twice: in its second frame the choice has come already.
explains_second_choice() {
    # shellcheck disable=SC2059 # the totals are a format
    printf "\0\22\0\3\5\1\2\0\1\0$zero_totals\0\4\0\2\11\1\0\4\0\2\12\3" >"$folder/twice.show"
    explains 1 "$folder/twice.show" &&
        grep -qF 'kind 10 (second chosen) where 1 or 2 (cue) is due; its choice has come already' "$folder/out"
}

explains_each_slice_number() {
    local type='0 5 4 1 3 2 1' # a cue beside a level and then a cue
    local not_come='the slice takes it for come, and it has not come'
    refused 11 'byte 0: the slice ends where a section is due' --slice "$type" '' &&
        refused 11 'byte 0: the count promises 4 bytes, and 2 follow' --slice "$type" '0 4 7 2' &&
        refused 11 'byte 4, lanes 2 to 3: the section ends where 5 or 6 (sequence) is due' --slice "$type" '0 2 7 2' &&
        refused 11 'byte 7, lane 2: the section ends where a byte of a value is due' --slice "$type" '0 5 7 2 5 4 1' &&
        refused 12 'byte 3, lane 1: kind 200 (not listed) where 1 or 2 (cue) is due' --slice "$type" '0 2 7 200' &&
        refused 13 'byte 6: the tree is whole, and 2 bytes of its section follow it' --slice "$type" '0 6 7 1 5 3 3 3' &&
        refused 13 'byte 6: the last section ends, and 1 byte follows it' --slice "$type" '0 4 7 1 5 3 9' &&
        refused 14 'byte 5, lane 2: kind 2 (cue come) where 3 or 4 (level) is due' --slice "$type" '0 4 7 1 5 2' &&
        refused 14 'byte 5, lane 2: kind 3 (level awaited) where 4 (level come) is due; the first part of a crossing has to be complete' \
            --slice "$type" '0 5 7 1 6 3 1' &&
        refused 14 "byte 3, lane 1: kind 0 (nothing) where 1 or 2 (cue) is due; $not_come" --slice "$type" '0 4 7 0 5 3' &&
        refused 14 "byte 5, lane 2: kind 0 (nothing) where 3 or 4 (level) is due; $not_come" --slice "$type" '0 4 7 1 5 0' &&
        refused 14 "byte 5, lane 2: kind 0 (nothing) where 4 (level come) is due; $not_come" --slice "$type" '0 5 7 1 6 0 1' &&
        refused 14 'byte 4, lanes 2 to 3: kind 0 (nothing) where 5 or 6 (sequence) is due' --slice "$type" '0 3 7 1 0' &&
        refused 14 'byte 2, lanes 1 to 3: kind 5 (in first part) where 7 (side by side) is due' --slice "$type" '0 2 5 1' &&
        refused 2 'byte 2: kind 99 is not listed here; 0 to 5 are' --slice '0 1 99' '0 1 0'
}

# Where a count in a show is wrong, its file's length may be, and is told with its place. Each show is a patch of a cue
# and a slice, with one of them damaged; Z are totals of zero.
explains_wrong_lengths() {
    local wrong=0 told bytes
    while IFS='|' read -r told bytes; do
        # shellcheck disable=SC2059 # the bytes are a format
        printf "${bytes/Z/$zero_totals}" >"$folder/length.show"
        explains 1 "$folder/length.show" && grep -qF "$told" "$folder/out" && continue
        cat "$folder/out"
        echo "'$told' is due"
        wrong=1
    done <<'END'
the patch ends where a section is due; the length of the patch, at bytes 0 to 1 of the show, says 3|\0\3\0\1\1
the patch ends inside a count of two bytes; the length of the patch, at bytes 0 to 1 of the show, says 4|\0\4\0\1\1\0
the count promises 9 bytes, and 1 follows; the length of the patch, at bytes 0 to 1 of the show, says 6|\0\6\0\1\1\0\11\0
the patch ends inside a count of two bytes; the length of the patch, at bytes 0 to 1 of the show, says 7|\0\7\0\1\1\0\1\0\0
the count promises 8 bytes, and 1 follows; the length of the patch, at bytes 0 to 1 of the show, says 9|\0\11\0\1\1\0\1\0\0\10\0
the last section ends, and 1 byte follows it; the length of the patch, at bytes 0 to 1 of the show, says 17|\0\21\0\1\1\0\1\0Z\0
the slice ends where a section is due; the length of the slice, at bytes 18 to 19 of the show, says 0|\0\20\0\1\1\0\1\0Z\0\0
the count promises 2 bytes, and 1 follows; the length of the slice, at bytes 18 to 19 of the show, says 3|\0\20\0\1\1\0\1\0Z\0\3\0\2\1
the last section ends, and 3 bytes follow it; the length of the slice, at bytes 18 to 19 of the show, says 6|\0\20\0\1\1\0\1\0Z\0\6\0\1\1\0\0\0
the slice's length, at bytes 18 to 19 of the show, says 7, and 1 byte follows; the last 3 bytes are left out|\0\20\0\1\1\0\1\0Z\0\7\0
byte 18 of the show is half of the slice's length, and is left out|\0\20\0\1\1\0\1\0Z\0
END
    return "$wrong"
}

# What follows a count that promises too much has not been read by the library; it is listed only so far as it can be.
explains_unread_sections() {
    local type
    type="0 255 $(times 127 '4 1') 1"
    refused 1 'byte 0: the count promises 65535 bytes, and 60000 follow' --type "255 255 $(times 60000 3)" &&
        refused 1 'byte 0: the count promises 2000 bytes, and 1200 follow' --patch "7 208 $(times 600 '4 1')" &&
        refused 1 'byte 3: the count promises 65535 bytes, and 60000 follow' --patch "0 1 1 255 255 $(times 60000 4)" &&
        refused 1 'byte 6: the count promises 65535 bytes, and 60000 follow' --patch "0 1 1 0 1 0 255 255 $(times 60000 4)" &&
        refused 3 'byte 16: the totals are whole, and 59992 bytes of their section follow them' \
            --patch "0 1 1 0 1 0 234 96 $(times 60000 4)" &&
        refused 11 'byte 0: the count promises 65535 bytes, and 3000 follow' --slice "$type" "255 255 $(times 3000 7)" &&
        refused 11 'byte 0: the count promises 65535 bytes, and 3000 follow' --slice "$type" "255 255 $(times 3000 6)"
}

# What is accepted; a file does as well as its bytes.
explains_what_is_accepted() {
    # shellcheck disable=SC2059 # the totals are a format
    printf "\0\1\1\0\1\0$zero_totals" >"$folder/patch"
    explains 0 --type '0 5 4 1 3 2 1' && grep -qx 'Type: cue beside (level then cue)' "$folder/out" &&
        explains 0 --slice '0 3 3 1 2' '0 5 6 2 4 1 44' && grep -q '4 level come 300' "$folder/out" &&
        grep -qx 'The slice is complete. It leaves: empty' "$folder/out" &&
        explains 0 --patch "0 1 1 0 1 0 $zeros" && mv "$folder/out" "$folder/by-bytes" &&
        explains 0 --patch "$folder/patch" && diff "$folder/by-bytes" "$folder/out"
}

# How many cues and levels a slice brings: brings COUNT TYPE SLICE
brings() {
    explains 0 --slice "$2" "$3" && grep -qx "Cues and levels that come in it: $1" "$folder/out" && return 0
    cat "$folder/out"
    echo "explain --slice '$2' '$3': $1 is due"
    return 1
}

# The two bytes of a value are no kinds; a crossing, a choice and what came before are not counted.
explains_arrivals() {
    brings 0 '0 1 0' '0 1 0' && brings 0 '0 1 1' '0 1 1' && brings 1 '0 1 1' '0 1 2' && brings 0 '0 1 2' '0 1 3' &&
        brings 1 '0 1 2' '0 3 4 2 4' && brings 2 '0 5 3 1 3 2 1' '0 6 6 2 5 4 2 4' &&
        brings 0 '0 3 3 0 1' '0 3 6 0 1' && brings 0 '0 3 5 1 2' '0 1 8' && brings 0 '0 3 5 1 2' '0 2 9 1' &&
        brings 1 '0 3 5 1 2' '0 4 10 4 2 2' && brings 2 '0 5 4 1 4 0 2' '0 7 7 2 7 0 4 0 2' &&
        brings 128 "0 255 $(times 127 '4 2') 2" "1 255 $(times 127 '7 4 2 4')4 4 2"
}

# The most cues and levels of a type: most COUNT TYPE
most() {
    explains 0 --type "$2" && grep -qx "Most cues and levels of this type: $1" "$folder/out" && return 0
    cat "$folder/out"
    echo "explain --type '$2': $1 is due"
    return 1
}

# Of an either the part that has more counts, which need not be that of the longest slice. A patch has a number for its
# input and one for its output.
explains_most() {
    most 0 '0 1 0' && most 1 '0 1 1' && most 1 '0 1 2' && most 3 '0 5 4 1 3 2 1' && most 1 '0 3 5 1 2' &&
        most 2 '0 5 5 2 4 1 1' && most 1 '0 5 5 4 0 0 2' && most 3 '0 7 3 5 3 1 1 0 2' && most 128 "0 255 $(times 127 '4 2') 2" &&
        explains 0 --patch "0 5 3 4 1 2 1 0 3 4 0 8 $zeros" && diff - <(grep 'cues and levels' "$folder/out") <<'END'
Most cues and levels of the input type: 3
Most cues and levels of the output type: 4
END
}

# What is told of the cues and levels of a patch, from the first to the last: moments 'waits sends' PATCH, which gets
# totals of zero
moments() {
    local told
    explains 0 --patch "$2 $zeros" || return 1
    told=$(sed -n 's/^ *waits for the first .* in what it takes$/waits/p; s/^ *sends at its first feed: .*/sends/p' "$folder/out" |
        paste -sd ' ')
    [ "$told" = "$1" ] && return 0
    cat "$folder/out"
    echo "explain --patch '$2': '$1' is due"
    return 1
}

# A cue or level waits if anything is owed in what it takes: a cue, a level, a crossing or a choice. No other node does.
explains_waiting() {
    moments 'waits' '0 1 1 0 1 2' && moments 'waits' '0 1 2 0 3 3 1 44' && moments 'waits' '0 3 3 0 0 0 1 2' &&
        moments 'waits' '0 3 5 0 0 0 3 3 0 0' && moments 'sends' '0 1 0 0 1 2' && moments 'sends' '0 3 4 0 0 0 3 3 1 44' &&
        moments 'sends' '0 1 1 0 5 10 14 9 2 0' && moments 'waits sends' '0 3 4 1 2 0 6 4 2 10 1 0 2' &&
        moments 'sends waits' '0 3 4 0 2 0 7 4 10 5 2 10 6 2' && moments '' '0 1 1 0 4 4 14 16 2'
}

# A type's longest slice, its length and its bytes: longest LENGTH BYTES TYPE. Given back, it is a complete slice.
longest() {
    local length=$1 bytes=$2 type=$3
    explains 0 --type "$type" || return 1
    if [ "$(tail -n 2 "$folder/out")" != "Longest slice of this type: $length bytes as a file"$'\n'"    $bytes" ]; then
        cat "$folder/out"
        echo "explain --type '$type': '$bytes' of $length bytes is due"
        return 1
    fi
    explains 0 --slice "$type" "$(tail -n 1 "$folder/out")" && grep -q '^The slice is complete\.' "$folder/out" &&
        tells_no_longest
}

# The longest slices of a patch, of its input and of its output: longest_both INPUT OUTPUT WORDS
longest_both() {
    local input=$1 output=$2
    shift 2
    explains 0 "$@" && diff - <(grep -i 'longest' "$folder/out") <<END
Longest slice of the input type: $input bytes as a file
Longest slice of the output type: $output bytes as a file
END
}

# Where both sides of an either are equally long the first is told; bytes count, and not nodes.
explains_longest_types() {
    longest 3 '0 1 0' '0 1 0' &&
        longest 9 '0 7 7 2 6 4 255 255 2' '0 5 4 1 3 2 1' &&
        longest 6 '0 4 10 4 255 255' '0 3 5 1 2' &&
        longest 6 '0 4 9 7 2 2' '0 5 5 4 1 1 2' &&
        longest 6 '0 4 9 4 255 255' '0 5 5 2 4 1 1' &&
        longest 513 "1 255 $(times 127 '7 4 255 255')4 255 255" "0 255 $(times 127 '4 2') 2"
}

# A patch has one for its input and one for its output; a show's patch too, and none if it is refused.
explains_longest_of_patches() {
    # shellcheck disable=SC2059 # the totals are a format
    printf "\0\20\0\1\1\0\1\5$zero_totals" >"$folder/refused.show"
    # shellcheck disable=SC2059
    printf "\0\21\0\1\1\0\2\21\2$zero_totals\0\3\0\1\2" >"$folder/marked.show"
    longest_both 3 3 --patch "0 1 1 0 1 0 $zeros" &&
        longest_both 3 6 --patch "0 1 1 0 2 17 2 $zeros" &&
        longest_both 9 3 --patch "0 5 3 4 1 2 1 0 1 8 $zeros" &&
        longest_both 3 6 "$folder/marked.show" && longest_both 3 6 "$folder/marked.show" --all &&
        explains 1 "$folder/refused.show" && tells_no_longest
}

# The README tells a link engineer what is stored for the show that it names.
readme_tells_longest() {
    grep '^Longest slice of ' README.md | diff - <(grep '^Longest slice of ' examples/shows/choose_a_sky_north.explained)
}

# Words and files that cannot be used.
explains_nothing() {
    explains 2 && explains 2 --patch && explains 2 --slice '0 1 1' && explains 2 --type '0 1 300' &&
        explains 2 --patch "$folder/missing" && explains 2 "$folder/missing" && explains 2 --unknown && [ ! -s "$folder/out" ]
}

# Each line that tells a refusal is followed by its place.
has_places() {
    awk '/refused with [0-9]+: / { due = 1; next }
         due && !/^    byte [0-9]+ of the (patch|slice), byte [0-9]+ of the show[,:]/ { print "no place: " $0; missing = 1 }
         { due = 0 }
         END { exit missing || due }' "$folder/out"
}

# The program itself on a damaged show: it ends with 0 or 1; or with 2, and says that the patch is cut, and where.
explains_damaged() {
    "$folder/explain" "$1" >"$folder/out" 2>"$folder/messages"
    local ended=$?
    if [ "$ended" -eq 2 ]; then
        grep -q "before its patch does: \(it has [01] of\|.*, at bytes 0 to 1 of the show, says [0-9]*, and [0-9]* byte\)" \
            "$folder/messages" && [ ! -s "$folder/out" ]
    else
        [ "$ended" -le 1 ] && has_places
    fi && return 0
    cat "$folder/out" "$folder/messages"
    return 1
}

explains_damaged_shows() {
    local show=$1 length patch_end place
    length=$(stat -c %s "$show")
    patch_end=$(patch_end "$show")
    for place in $(seq 0 $((length / 7 + 1)) "$length") 1 2 3 4 9 30 $(seq $((patch_end - 11)) 3 "$patch_end"); do
        head -c "$place" "$show" >"$folder/hurt.show"
        explains_damaged "$folder/hurt.show" || return 1
        { head -c "$place" "$show"; printf '\11'; tail -c "+$((place + 2))" "$show"; } >"$folder/hurt.show"
        explains_damaged "$folder/hurt.show" || return 1
    done
}

holds "build explain" build explain examples/explain.c
for test in kinds faults damaged_shows; do
    holds "build the test of $test" build "$test" "tests/c/$test.c"
done
[ "$failed" -eq 0 ] || exit 1
holds "the tables of kinds" "$folder/kinds"
holds "the places of faults" "$folder/faults"
holds "damaged shows" "$folder/damaged_shows" "$folder/damaged.show" examples/shows/*.show
for show in examples/shows/*.show; do
    holds "$show explained" explains_as_stored "$show"
    holds "$show damaged and explained" explains_damaged_shows "$show"
done
holds "all slices" explains_all_slices examples/shows/comet_to_saturn.show 0 240
holds "all slices of the damaged show" explains_all_slices examples/shows/damaged.show 1 47
holds "counts that promise too much" explains_unread_sections
holds "each number" explains_each_number
holds "totals" explains_totals
holds "missing totals, and the program that adds them" names_add_totals
holds "wrong lengths in a show" explains_wrong_lengths
holds "what is accepted" explains_what_is_accepted
holds "cues and levels that come in a slice" explains_arrivals
holds "the most cues and levels" explains_most
holds "cues and levels that wait" explains_waiting
holds "longest slices of types" explains_longest_types
holds "longest slices of patches" explains_longest_of_patches
holds "longest slices in the README" readme_tells_longest
holds "words and files that cannot be used" explains_nothing
[ "$failed" -eq 0 ] && echo "explain, $compiler ${words[*]}: all held"
exit "$failed"

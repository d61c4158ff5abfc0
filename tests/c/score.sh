#!/usr/bin/env bash
# The program that makes a show of a score, built by a compiler with some words and run:
#   tests/c/score.sh ARCHIVE [COMPILER [WORDS]]
#   tests/c/score.sh target/staticlib/libwosthile.a clang -O1 -g -fsanitize=address,undefined
# The exit status tells whether everything held. That the shipped shows come of their scores is held by shows.sh.
# shellcheck disable=SC2317 # the functions below are called by `holds`
# shellcheck source=tests/c/building.sh
source "$(dirname "$0")/building.sh"

# Makes a show of the score on standard input, and holds the exit status: makes STATUS
makes() {
    local status=$1 ended
    cat >"$folder/made.score"
    rm -f "$folder"/made.show* "$folder"/made.lanes*
    (cd "$folder" && ./make_show made.score) >"$folder/answer" 2>"$folder/messages"
    ended=$?
    [ "$ended" -eq "$status" ] && [ ! -s "$folder/answer" ] && return 0
    cat "$folder/made.score" "$folder/answer" "$folder/messages"
    echo "status $ended in place of $status"
    return 1
}

# The bytes of a file, in decimal on one line.
bytes_of() {
    od -An -v -tu1 "$1" | tr -s ' \n' ' ' | sed 's/^ //; s/ $//'
}

# A score is refused with a message about a line, and no file is left: wrong STATUS LINE MESSAGE, and the score on
# standard input.
wrong() {
    local status=$1 line=$2 message=$3
    makes "$status" || return 1
    grep -qxF "make_show: made.score, line $line: $message" "$folder/messages" &&
        [ ! -e "$folder/made.show" ] && [ ! -e "$folder/made.lanes" ] && return 0
    ls "$folder"
    cat "$folder/made.score" "$folder/messages"
    echo "'line $line: $message' is due"
    return 1
}

# The lines before the frames, of a score in which three parts come one after the other.
three_parts='type
  (cue "fanfare" beside level "lamp") then (cue "curtain" then level "house lamp")
patch pass
frames 9'

# Lines of frames that cannot be read, behind those four: wrong_line MESSAGE LINES
wrong_lines() {
    local message=$1 line=$((4 + $# - 1))
    shift
    wrong 2 "$line" "$message" < <(printf '%s\n' "$three_parts" "$@")
}

# The same, where the line can be read, and what it says cannot come at that time.
early_or_late() {
    local message=$1 line=$((4 + $# - 1))
    shift
    wrong 1 "$line" "$message" < <(printf '%s\n' "$three_parts" "$@")
}

tells_wrong_frames() {
    wrong_lines '"10" where a frame from 1 to 9 is due' '10 cue 1' &&
        wrong_lines '"0" where a frame from 1 to 9 is due' '0 cue 1' &&
        wrong_lines '"2" where a frame from 3 to 9 is due' '3 cue 1' '2 level 2 0' &&
        wrong_lines '"3x" where a frame from 1 to 9 is due' '3x cue 1' &&
        wrong_lines '"clue" where "cue", "level", "cross", "choose" or "bytes" is due' '3 clue 1' &&
        wrong_lines '"empty" where "cue", "level", "cross", "choose" or "bytes" is due' '3 empty 1' &&
        wrong_lines 'the line ends where "cue", "level", "cross", "choose" or "bytes" is due' '3' &&
        wrong_lines '"10" where frame 9 is due' '9 cue 1' '10 level 2 7' &&
        wrong_lines '"5" where a lane from 1 to 4 is due' '3 cue 5' &&
        wrong_lines '"lamp" where the name of a lane in quotation marks or its number is due' '3 level lamp 7' &&
        wrong_lines 'the line ends where the name of a lane in quotation marks or its number is due' '3 cue' &&
        wrong_lines 'no lane of the type has the name "lamps"' '3 level "lamps" 7' &&
        wrong_lines 'lane 2 "lamp" is of kind level, not cue' '3 cue "lamp"' &&
        wrong_lines 'the line ends where a value from 0 to 65535 is due' '3 level 2' &&
        wrong_lines '"65536" where a value from 0 to 65535 is due' '3 level 2 65536' &&
        wrong_lines '"-1" where a value from 0 to 65535 is due' '3 level 2 -1' &&
        wrong_lines '"8" where the end of the line is due' '3 level 2 7 8' &&
        wrong_lines '"3" where "to" is due' '3 cross 3' &&
        wrong_lines 'lane 2 "lamp" is not the first lane of a second part, so no crossing leads to it' '3 cross to 2' &&
        wrong_lines 'a name has no quotation mark at its end' '3 cue "fanfare'
}

tells_wrong_bytes() {
    wrong_lines '"256" where a byte from 0 to 255 is due' '3 bytes 0 1 256' &&
        wrong_lines 'the line ends where a byte from 0 to 255 is due' '3 bytes' &&
        wrong_lines 'the name "lamp" where a byte from 0 to 255 is due' '3 bytes "lamp"' &&
        wrong_lines 'the name "lamp" where the end of the line is due' '3 bytes 0 1 "lamp"' &&
        wrong_lines '"3" where a frame from 4 to 9 is due' '3 bytes 0 1 1' '3 bytes 0 1 1' &&
        wrong_lines 'frame 3 has other lines, and bytes are all of a frame' '3 cue 1' '3 bytes 0' &&
        wrong_lines 'frame 9, the last one, has its bytes, which are all of a frame' '9 bytes 0' '9 cue 1' &&
        wrong_lines '"8" where a number of bytes of the last slice from 1 to 7 is due' 'cut 8' &&
        wrong_lines '"0" where a number of bytes of the last slice from 1 to 7 is due' 'cut 0' &&
        wrong_lines '"cut" where the end of the score is due' 'cut 1' 'cut 1' &&
        wrong_lines '"end" where a line of a frame, "cut" or the end of the score is due' '3 cue 1' 'end'
}

tells_early_and_late() {
    early_or_late 'lane 1 "fanfare" has come already' '3 cue 1' '4 cue "fanfare"' &&
        early_or_late 'lane 1 "fanfare" has come already' '3 cue 1' '3 cue "fanfare"' &&
        early_or_late 'lane 1 "fanfare" has come already' '3 cue 1' '4 level 2 7' '5 cross to 3' '6 cue "fanfare"' &&
        early_or_late 'lane 3 "curtain" is behind the crossing to lane 3 "curtain", which has not come' '3 cue 3' &&
        early_or_late 'lane 4 "house lamp" is behind the crossing to lane 3 "curtain", which has not come' '3 level 4 7' &&
        early_or_late 'lane 4 "house lamp" is behind the crossing to lane 4 "house lamp", which has not come' \
            '3 cue 1' '4 level 2 7' '5 cross to 3' '6 level 4 7' &&
        early_or_late 'the crossing to lane 4 "house lamp" is behind the crossing to lane 3 "curtain", which has not come' \
            '3 cross to 4' &&
        early_or_late 'the crossing to lane 3 "curtain" has to wait for lane 2 "lamp", which has not come' \
            '3 cue 1' '4 cross to 3' &&
        early_or_late 'the crossing to lane 4 "house lamp" has to wait for lane 3 "curtain", which has not come' \
            '3 cue 1' '4 level 2 7' '5 cross to 3' '6 cross to 4' &&
        early_or_late 'the crossing to lane 3 "curtain" has come already' '3 cue 1' '4 level 2 7' '5 cross to 3' '6 cross to 3' &&
        wrong 1 2 'the crossing to lane 3 has to wait for lane 1, which has not come' \
            <<<$'type (cue then cue) then cue patch pass frames 9\n2 cross to 3' &&
        wrong 1 3 'the crossing to lane 3 has to wait for the crossing to lane 2, which has not come' \
            <<<$'type (cue then empty) then cue patch pass frames 9\n1 cue 1\n2 cross to 3'
}

tells_wrong_trees() {
    wrong 2 1 'the score ends where "type" is due' </dev/null &&
        wrong 2 2 '"tipe" where "type" is due' <<<$'# a comment\ntipe cue' &&
        wrong 2 2 '"with" where "then", "beside", "or" or "patch" is due' <<<$'type cue "a"\nwith cue' &&
        wrong 2 2 '"with" where "then", "beside", "or" or ")" is due' <<<$'type (cue "a"\nwith cue)' &&
        wrong 2 1 '"comet" where "then", "beside", "or", "patch" or a name in quotation marks is due' <<<'type cue comet then cue' &&
        wrong 2 1 "\"'comet'\" where \"then\", \"beside\", \"or\", \")\" or a name in quotation marks is due" <<<"type (cue 'comet')" &&
        wrong 2 1 'the name "b" where "then", "beside", "or" or "patch" is due' <<<'type cue "a" "b"' &&
        wrong 2 1 '"a" where "then", "beside", "or" or ")" is due' <<<'type cue patch silent (empty a)' &&
        wrong 2 1 '")" where "then", "beside", "or" or "patch" is due' <<<'type (cue then cue))' &&
        wrong 2 1 '"lamp" where "empty", "cue", "level" or "(" is due' <<<'type cue then lamp' &&
        wrong 2 1 '"not" where "empty", "cue", "level" or "(" is due' <<<'type not listed' &&
        wrong 2 2 '"beside" behind "then": parentheses have to say which parts belong together' \
            <<<$'type cue then cue\nbeside cue patch pass' &&
        wrong 2 1 '"or" behind "beside": parentheses have to say which parts belong together' \
            <<<'type cue beside cue or cue patch pass' &&
        wrong 2 1 'a name has 1 to 63 bytes, and this one has 0' <<<'type cue ""' &&
        wrong 2 1 'a name has 1 to 63 bytes, and this one has 64' <<<"type cue \"$(printf '%064d' 7)\"" &&
        wrong 2 1 'the name "a?b" has a character that cannot be printed, here a ?' <<<$'type cue "a\tb"' &&
        wrong 2 1 'the name " " begins or ends with a blank' <<<'type cue " "' &&
        wrong 2 1 'the name " a" begins or ends with a blank' <<<'type cue " a" beside cue "a"' &&
        wrong 2 2 'the name "a " begins or ends with a blank' <<<$'type cue patch pass\nout 1 "a "' &&
        wrong 2 2 'the name "a" where "then", "beside", "or" or "patch" is due' <<<$'type (cue then cue)\n"a"' &&
        wrong 2 2 '"middle" where "pass", "silent", "cue", "level", "both", "left", "right", "first", "second", "then", "chain", "regroup right", "regroup left", "spread", "front", "choose", "mark first", "mark second" or "(" is due' \
            <<<$'type cue\npatch middle' &&
        wrong 2 1 '"frames" where ")" is due' <<<'type cue patch (pass frames 1' &&
        wrong 2 1 'the name "a" where "out" or "frames" is due' <<<'type cue patch silent empty "a" frames 1' &&
        wrong 2 2 '"65536" where a value from 0 to 65535 is due' <<<$'type cue patch\nlevel 65536 frames 1' &&
        wrong 2 2 '"2" where lane 1 is due' <<<$'type cue patch pass\nout 2 "a"' &&
        wrong 2 3 'lane 1 of the output has a name already, "a"' <<<$'type cue patch pass\nout 1 "a"\nout 1 "b"' &&
        wrong 2 2 '"a" where a name in quotation marks is due' <<<$'type cue patch pass\nout 1 a' &&
        wrong 2 2 '"432001" where a number of frames from 1 to 432000 is due' <<<$'type cue patch pass\nframes 432001' &&
        wrong 2 2 'lanes 1 and 3 have the name "a": say the number' \
            <<<$'type cue "a" beside cue "b" beside cue "a" patch pass frames 1\n1 cue "a"' &&
        wrong 2 1 'parts in parts lie deeper than 255' <<<"type $(times 300 '(')" &&
        wrong 2 1 'parts in parts lie deeper than 255' <<<"type cue patch $(times 300 'chain ')" &&
        wrong 2 2 'no type and no patch is so long' <<<$'type\n'"$(times 5000 'cue beside ')"
}

# A text again and again: times 3 'cue beside '
times() {
    printf "%0$1d" 0 | sed "s/0/$2/g"
}

# Patches that the library refuses: the number, and the line of the node or the lane.
tells_refused_patches() {
    local many
    many=$(times 127 'cue beside ')
    refused_patch 4 3 'byte 256, behind lane 127: the type has 255 nodes up to here and needs another' \
        $'type\n'"$many"$'\ncue beside cue patch pass frames 1' &&
        refused_patch 4 3 'byte 256, behind lane 126: the type has 255 nodes up to here and needs another' \
            "type $(times 127 '(')cue$(times 125 ' beside cue)')"$'\nbeside\ncue)\nbeside cue) beside cue patch pass frames 1' &&
        refused_patch 4 2 'byte 259, node both: its parts give a type of 255 nodes and a type of 1 node' \
            "type $many cue patch"$'\nboth\npass silent empty frames 1' &&
        refused_patch 5 3 'byte 67: the patch has 63 nodes up to here and needs another' \
            $'type cue patch\n'"$(times 31 'both pass ')"$'\nboth pass pass frames 1' &&
        refused_patch 6 3 'byte 6, node silent: it carries level' $'type cue patch\nboth\nsilent\nlevel pass frames 1' &&
        refused_patch 7 4 'byte 9, node left: it takes s beside t, and its input is level' \
            $'type cue then level\npatch\nthen pass\nleft frames 1' &&
        refused_patch 30 2 'byte 11, node choose: its parts give cue and level' \
            $'type cue or (cue then level) patch chain pass\n(choose\npass second) frames 1'
}

# refused_patch NUMBER LINE PLACE SCORE
refused_patch() {
    makes 1 <<<"$4" && grep -q "^make_show: made.score, line $2: the patch is refused with $1: [A-Z].*\.$" \
        "$folder/messages" && grep -qxF "    $3" "$folder/messages" && [ ! -e "$folder/made.show" ] && return 0
    cat "$folder/messages"
    echo "a patch refused with $1 in line $2, $3, is due"
    return 1
}

# The patch file of a score, behind its length, and before its frames: the sections of its type and its nodes, and totals
# of zero: patch_is SECTIONS SCORE
patch_is() {
    local length patch="$1 $zeros"
    makes 0 <<<"$2 frames 1" || return 1
    length=$(wc -w <<<"$patch")
    [ "$(bytes_of "$folder/made.show" | cut -d ' ' -f "1-$((length + 2))")" = "0 $length $patch" ] && return 0
    bytes_of "$folder/made.show"
    echo "'$2' is to give the patch $patch"
    return 1
}

# Every kind of type and of node by its words.
reads_each_kind() {
    patch_is '0 7 4 0 3 1 4 2 1 0 1 0' 'type empty beside (cue then (level beside cue)) patch pass' &&
        patch_is '0 5 3 2 3 2 2 0 1 0' 'type level then level then level patch pass' &&
        patch_is '0 5 3 3 2 2 2 0 1 0' 'type (level then level) then level patch (((pass)))' &&
        patch_is '0 1 1 0 4 1 4 0 0' 'type cue patch silent (empty beside empty)' &&
        patch_is '0 1 1 0 5 4 2 3 1 44' 'type cue patch both cue (level 300)' &&
        patch_is '0 3 4 1 2 0 3 4 6 5' 'type cue beside level patch both right left' &&
        patch_is '0 3 3 1 2 0 3 4 7 8' 'type cue then level patch both first second' &&
        patch_is '0 3 3 1 2 0 3 9 0 0' 'type cue then level patch then pass pass' &&
        patch_is '0 5 3 1 3 1 1 0 3 10 12 11' 'type cue then cue then cue patch chain regroup left regroup right' &&
        patch_is '0 5 3 1 4 1 1 0 3 10 13 14' 'type cue then (cue beside cue) patch chain spread front' &&
        patch_is '0 5 5 1 5 2 0 0 1 0' 'type cue or level or empty patch pass' &&
        patch_is '0 3 5 1 2 0 3 15 2 2' 'type cue or level patch choose cue cue' &&
        patch_is '0 1 1 0 4 16 3 1 2' 'type cue patch mark first (cue then level)' &&
        patch_is '0 1 1 0 2 17 2' 'type cue patch mark second level'
}

# Lines of one frame come as one slice; a frame without lines has the empty slice; bytes that are a good slice count.
joins_lines() {
    makes 0 <<<"${three_parts/frames 9/frames 4}
1 cue 1
1 level 2 300
1 cross to \"curtain\"
1 cue 3
3 bytes 0 3 6 0 3
4 level 4 7
cut 2" && [ "$(bytes_of "$folder/made.show" | cut -d ' ' -f 25-)" = \
        '0 10 0 8 6 7 2 4 1 44 5 2 0 4 0 2 5 0 0 5 0 3 6 0 3 0 5 0 3 4' ]
}

# The lines before the frames of a score with a choice in a choice, behind a crossing.
choices='type
  cue "bell" then ((cue "comet" or level "aurora") or (cue "cross" then level "clouds"))
patch pass
frames 9'

# A choice is said by the first lane of a part; of those that begin with the same lane the outermost comes first.
chooses() {
    chosen '10 5 1' '1 choose 4' && chosen '9 8' '1 choose "comet"' &&
        chosen '9 9 2' '1 choose "comet"' '1 choose "comet"' '1 cue "comet"' &&
        chosen '9 10 4 0 7' '1 choose 3' '1 choose 3' '1 level 3 7' &&
        chosen '9 9 1' '1 choose 3' '1 choose 2' &&
        chosen '10 6 2 4 0 7' '1 choose 4' '1 cue 4' '1 cross to 5' '1 level 5 7'
}

# What the frame's slice has behind the crossing, to which each first lane of the second part leads: chosen BYTES LINES
chosen() {
    local lane bytes=$1
    shift
    for lane in 2 3 4; do
        printf '%s\n' "${choices/frames 9/frames 1}" '1 cue "bell"' "1 cross to $lane" "$@" | makes 0 || return 1
        [ "$(bytes_of "$folder/made.show" | cut -d ' ' -f 31-)" = "6 2 $bytes" ] && continue
        bytes_of "$folder/made.show"
        echo "'$*' is to give $bytes"
        return 1
    done
}

tells_wrong_choices() {
    local past='1 cue 1' cross='1 cross to 2'
    wrong_choice 2 'lane 1 "bell" is not the first lane of a part that can be chosen' '3 choose 1' &&
        wrong_choice 2 'lane 5 "clouds" is not the first lane of a part that can be chosen' '3 choose 5' &&
        wrong_choice 2 '"to" where the name of a lane in quotation marks or its number is due' '3 choose to 2' &&
        wrong_choice 1 'the choice between lane 2 "comet" and lane 4 "cross" is behind the crossing to lane 2 "comet", which has not come' \
            '3 choose 4' &&
        wrong_choice 1 'lane 4 "cross" is behind the choice between lane 2 "comet" and lane 4 "cross", which has not come' \
            "$past" "$cross" '3 cue 4' &&
        wrong_choice 1 'lane 2 "comet" is behind the choice between lane 2 "comet" and lane 3 "aurora", which has not come' \
            "$past" "$cross" '2 choose 2' '3 cue 2' &&
        wrong_choice 1 'lane 2 "comet" is gone: the other part was chosen' "$past" "$cross" '2 choose 4' '3 cue 2' &&
        wrong_choice 1 'the crossing to lane 5 "clouds" is gone: the other part was chosen' \
            "$past" "$cross" '2 choose 2' '3 cross to 5' &&
        wrong_choice 1 'the choice between lane 2 "comet" and lane 4 "cross" has come already' \
            "$past" "$cross" '2 choose 4' '3 choose 2' &&
        wrong_choice 1 'the choice between lane 2 "comet" and lane 4 "cross" has come already' \
            "$past" "$cross" '2 choose 2' '2 choose 2' '3 choose 3' &&
        wrong_choice 1 'lane 2 "comet" has come already' "$past" "$cross" '2 choose 2' '2 choose 2' '2 cue 2' '3 cue 2' &&
        wrong 1 2 'the crossing to lane 3 has to wait for the choice between lane 1 and lane 2, which has not come' \
            <<<$'type (cue or cue) then cue patch pass frames 9\n1 cross to 3' &&
        wrong 1 3 'lane 2 is gone: the other part was chosen' <<<$'type (cue or cue) then cue patch pass frames 9
1 bytes 0 4 6 9 2 1\n2 cue 2'
}

# What cannot be chosen, or not now, or comes in a part that is not chosen: wrong_choice STATUS MESSAGE LINES
wrong_choice() {
    local status=$1 message=$2 line=$((4 + $# - 2))
    shift 2
    wrong "$status" "$line" "$message" < <(printf '%s\n' "$choices" "$@")
}

# The show of the page on formats, and its lanes; its third frame is refused, so the score has its bytes.
makes_page() {
    makes 0 <<'END' || return 1
# the show above
type cue "comet" then (cue "Saturn" beside level "dome lamp")
patch then pass (both right left)
out 1 "comet"
out 2 "dome lamp"
out 3 "Saturn"
frames 5
1 cue "comet"
3 bytes 0 2 5 2
4 cross to "Saturn"
4 cue "Saturn"
5 level "dome lamp" 300
END
    sed -n 's/^000000[0-9a-f]*: //p' docs/FORMATS.md | diff - <(od -An -v -tx1 "$folder/made.show" | sed 's/^ //') &&
        grep -xE '(in|out) [0-9]+ .*' docs/FORMATS.md | diff - "$folder/made.lanes"
}

# The score in the help is one, and its show has nothing wrong.
makes_help() {
    "$folder/make_show" --help | sed -n '/score:$/,/^type /s/^    //p' | makes 0 &&
        "$folder/explain" "$folder/made.show" && grep -qx 'out 3 Saturn' "$folder/made.lanes"
}

# Each node that a patch may have is in the help's list; the nodes are those that the message about another word lists.
lists_each_node() {
    local node nodes
    "$folder/make_show" --help | sed -n '/^The nodes/,/^Status/p' >"$folder/listed"
    makes 2 <<<'type cue patch middle' || return 1
    nodes=$(sed 's/.*where//' "$folder/messages" | grep -o '"[a-z ]*"' | tr -d '"')
    [ "$(wc -l <<<"$nodes")" -eq 18 ] || return 1
    while read -r node; do
        grep -qE "^  ([a-z]+, )?$node(,| )" "$folder/listed" && continue
        echo "the help does not list $node"
        return 1
    done <<<"$nodes"
}

# Ends of lines, and a mark in front of the text, as editors on other systems write them.
reads_other_editors() {
    local score=examples/shows/damaged.score
    { printf '\357\273\277'; sed 's/$/\r/' "$score"; } | makes 0 &&
        cmp "$folder/made.show" examples/shows/damaged.show && cmp "$folder/made.lanes" examples/shows/damaged.lanes
}

# A show that cannot be written whole is not written at all, and the show that was there stays.
writes_whole_or_not() {
    makes 0 <examples/shows/lamp_fade.score || return 1
    local ending
    for ending in show lanes; do
        ln -s /dev/full "$folder/made.$ending.new"
        "$folder/make_show" "$folder/made.score" 2>"$folder/messages"
        [ $? -eq 2 ] && grep -q "made.$ending.new cannot be written: No space" "$folder/messages" || return 1
        cmp "$folder/made.$ending" "examples/shows/lamp_fade.$ending" && [ ! -e "$folder/made.$ending.new" ] || return 1
    done
}

# Words and files that cannot be used.
needs_a_score() {
    local path message
    mkdir "$folder/folder.score" && printf 'type\0' >"$folder/zero.score" &&
        cp examples/shows/damaged.score "$folder/.score" || return 1
    while read -r path message; do
        "$folder/make_show" "$path" 2>"$folder/messages"
        [ $? -eq 2 ] && grep -qF "$message" "$folder/messages" || return 1
    done <<END
examples/shows/damaged.show damaged.show: the name of a score ends in .score
$folder/.score .score: the name of a score ends in .score
--score "--score" is not one of its words
$folder/folder.score cannot be read: Is a directory
$folder/zero.score is no text: it has a byte 0
$folder/no.score cannot be opened: No such file
END
}

# Writes scores that are damaged at random: bytes that are changed, taken out and put in, and words and lines that
# change places.
damage_scores() {
    python3 - "$folder" examples/shows/*.score <<'END'
import random, re, sys
random.seed(7)
folder, paths = sys.argv[1], sys.argv[2:]
number = 0
for path in paths:
    text = open(path, "rb").read()
    for _ in range(60):
        pieces = re.split(rb"(\n)" if random.random() < 0.3 else rb"(\s+|[()])", text)
        for _ in range(random.choice([1, 1, 2, 5])):
            first, second = random.randrange(len(pieces)), random.randrange(len(pieces))
            way = random.randrange(4)
            if way == 0:
                pieces[first], pieces[second] = pieces[second], pieces[first]
            elif way == 1:
                pieces[first] = pieces[second]
            elif way == 2:
                pieces[first] = b""
            else:
                pieces.insert(first, bytes([random.randrange(1, 256)]))
        open(f"{folder}/hurt.{number}.score", "wb").write(b"".join(pieces))
        number += 1
END
}

# Each is made or gets a message with its line; a show that is made has a patch and slices that explain reads.
survives_damage() {
    local score show ended made=0 told=0
    damage_scores || return 1
    for score in "$folder"/hurt.*.score; do
        show=${score%.score}.show
        "$folder/make_show" "$score" >"$folder/answer" 2>"$folder/messages"
        ended=$?
        if [ "$ended" -eq 0 ] && [ ! -s "$folder/messages" ]; then
            "$folder/explain" "$show" >"$folder/answer" 2>&1
            [ $? -le 1 ] || return 1
            made=$((made + 1))
        elif [ "$ended" -le 2 ] && grep -q '^make_show: .*score, line [0-9]*: ' "$folder/messages" && [ ! -e "$show" ]; then
            told=$((told + 1))
        else
            cat "$score" "$folder/messages"
            return 1
        fi
    done
    [ "$made" -ge 20 ] && [ "$told" -ge 100 ]
}

holds "build make_show" build make_show examples/make_show.c
holds "build explain" build explain examples/explain.c
[ "$failed" -eq 0 ] || exit 1
holds "each kind by its words" reads_each_kind
holds "lines of one frame" joins_lines
holds "the show of the page on formats" makes_page
holds "the score of the help" makes_help
holds "the nodes in the help" lists_each_node
holds "scores of other editors" reads_other_editors
holds "types, patches and names that cannot be read" tells_wrong_trees
holds "patches that are refused" tells_refused_patches
holds "lines of frames that cannot be read" tells_wrong_frames
holds "bytes that cannot be recorded" tells_wrong_bytes
holds "lines that come too early or too late" tells_early_and_late
holds "choices" chooses
holds "choices that cannot be made" tells_wrong_choices
holds "a show that cannot be written" writes_whole_or_not
holds "words and files that cannot be used" needs_a_score
holds "damaged scores" survives_damage
[ "$failed" -eq 0 ] && echo "scores, $compiler ${words[*]}: all held"
exit "$failed"

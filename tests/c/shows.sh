#!/usr/bin/env bash
# The example programs and the shows, built by a compiler with some words and run:
#   tests/c/shows.sh ARCHIVE [COMPILER [WORDS]]
#   tests/c/shows.sh target/staticlib/libwosthile.a clang -O1 -g -fsanitize=thread
# The exit status tells whether everything held.
# shellcheck disable=SC2317 # the functions below are called by `holds`
# shellcheck source=tests/c/building.sh
source "$(dirname "$0")/building.sh"

for program in make_show frame_loop rehearsal timeline explain; do
    holds "build $program" build "$program" "examples/$program.c"
done
holds "build the test of lanes" build lanes tests/c/lanes.c
[ "$failed" -eq 0 ] || exit 1

# The shipped shows are what make_show writes of the scores beside them, byte for byte, and there are no others.
same_shows() {
    local score
    mkdir "$folder/shows" || return 1
    for score in examples/shows/*.score; do
        "$folder/make_show" "$score" "$folder/shows" || return 1
    done
    diff -r --exclude='*.score' --exclude='*.expected' --exclude='*.messages' --exclude='*.explained' \
        --exclude='*.svg' "$folder/shows" examples/shows
}

# What the frame loop sends with the seed in the name of the stored text, X.seed-7.expected, and what it tells on the
# error stream, X.seed-7.messages; without that file it tells nothing. Each stream is written by one thread.
prints_as_stored() {
    local stored=$1 name seed messages
    name=$(basename "$stored" .expected)
    seed=${name##*.seed-}
    messages=${stored%.expected}.messages
    [ -f "$messages" ] || messages=/dev/null
    "$folder/frame_loop" "examples/shows/${name%.seed-*}.show" --fast --seed "$seed" 2>"$folder/messages" |
        diff "$stored" - && diff "$messages" "$folder/messages"
}

# However the show is cut, the same is sent, as many arrive and are sent, the totals at the end are the same, and the same
# is owed.
sends_the_same() {
    local show=$1 seed
    sent "$show" --fast >"$folder/recorded"
    grep -q '^The input is' "$folder/recorded" && grep -q '^Cues and levels: ' "$folder/recorded" &&
        grep -q '^In all, ' "$folder/recorded" || return 1
    for seed in 1 2 3 19 1000003; do
        sent "$show" --fast --seed "$seed" | diff "$folder/recorded" - || return 1
    done
}

# What the frame loop sends, how much arrived and was sent, the totals at the end, and what is owed. In one frame the
# lanes decide the order, so it is left out; so are the counts of each second, which a late slice changes.
sent() {
    timeout 60 "$folder/frame_loop" "$@" | grep -E '^(    |The input|Cues and levels|In all, )' | sort
}

# What the frame loop has printed is on standard input: there is a line for each second, in order, of so many frames; it
# has as many sent as are printed in it; and the sums are those at the end: adds_up FRAMES
adds_up() {
    awk -v per_second="$1" '
        function wrong(why) { print why ": " $0; failed = 1 }
        /^frame / { if (int(($2 - 1) / per_second) != seconds) wrong("in another second") }
        /^    / && !/^    (came in, |crossing: |first chosen: |second chosen: )/ { printed++ }
        /^second / {
            if ($2 + 0 != ++seconds) wrong("out of turn")
            frames += $3 == "only" ? $4 : per_second
            line = $0
            sub(/^[^:]*: /, "", line)
            if (line == "no slice was fed") line = "nothing arrived in 0 slices, nothing sent"
            if (line !~ /^(nothing|[0-9]+) arrived in [0-9]+ slices?, (nothing|[0-9]+) sent$/) wrong("no counts")
            split(line, word, " ")
            if (word[6] + 0 != printed) wrong(printed + 0 " were printed")
            arrived += word[1]
            sent += word[6]
            printed = 0
        }
        /^The show is over: / { if ($5 != frames + 0) wrong(frames + 0 " frames are in the seconds") }
        /^Cues and levels: / {
            if ($4 != arrived + 0 || $6 != sent + 0) wrong(arrived + 0 " and " sent + 0 " are in the seconds")
            told = 1
        }
        END { exit failed || !told }'
}

# However the show is cut, the seconds add up.
counts_every_second() {
    local show=$1 seed
    for seed in 0 1 2 3 19 1000003; do
        "$folder/frame_loop" "$show" --fast --seed "$seed" >"$folder/sent" && adds_up 60 <"$folder/sent" || return 1
    done
}

# As recorded, in each second arrives what the score has in its frames.
counts_the_score() {
    local show=$1
    awk '/^frames / { frames = $2 }
         frames && /^ +[0-9]+ (cue|level) / { arrive[int(($1 - 1) / 60)]++ }
         END { for (second = 0; second * 60 < frames; second++) print second + 1, arrive[second] + 0 }' \
        "${show%.show}.score" >"$folder/due" &&
        "$folder/frame_loop" "$show" --fast |
        sed -n 's/: nothing arrived/: 0 arrived/; s/^second \([0-9]*\).*: \([0-9]*\) arrived .*/\1 \2/p' | diff "$folder/due" -
}

# A second in which nothing comes is seen, and so is one without a slice: in the second one all slices are refused. The
# patch sends twice what arrives.
tells_dead_seconds() {
    {
        printf 'type cue "call" patch both pass pass frames 181\n'
        printf '%d bytes 0 1 9\n' $(seq 61 120)
        printf '150 cue 1\n'
    } >"$folder/dead.score"
    "$folder/make_show" "$folder/dead.score" &&
        "$folder/frame_loop" "$folder/dead.show" --fast >"$folder/sent" 2>"$folder/messages" &&
        adds_up 60 <"$folder/sent" && diff - <(grep -v '^    \|^frame' "$folder/sent") <<'END'
second 1: nothing arrived in 60 slices, nothing sent
second 2: no slice was fed
second 3: 1 arrived in 60 slices, 2 sent
second 4, only 1 frame: nothing arrived in 1 slice, nothing sent
The show is over: 181 frames, 181 slices, 121 feeds, 60 refused.
Cues and levels: 1 arrived, 2 sent.
In all, by the patch's totals: 1 arrived, 2 sent.
The input is complete: nothing is owed.
END
}

# Of one show three programs tell the same counts and the same totals, and the rehearsal those of every cut.
counts_the_same() {
    local show=$1 lines='^Cues and levels: |^In all, '
    "$folder/frame_loop" "$show" --fast | grep -E "$lines" >"$folder/told" && [ "$(wc -l <"$folder/told")" -eq 2 ] &&
        "$folder/explain" "$show" | grep -E "$lines" | diff "$folder/told" - &&
        "$folder/rehearsal" "$show" 3 | sed 's/^Cues and levels, in every cut:/Cues and levels:/' | grep -E "$lines" |
        diff "$folder/told" -
}

# A show with other totals in its patch: with_totals ARRIVED SENT SHOW, each total as four bytes for printf
with_totals() {
    local show=$3 end
    end=$(patch_end "$show")
    head -c "$((end - 8))" "$show"
    # shellcheck disable=SC2059 # the totals are a format
    printf "$1$2"
    tail -c "+$((end + 1))" "$show"
}

# The totals go on from those that the patch has at the start: 1000 arrived and 70000 sent more, and nothing else changes.
totals_go_on() {
    local show=$1 program
    with_totals '\0\0\3\350' '\0\1\21\160' "$show" >"$folder/later.show"
    cp "${show%.show}.lanes" "$folder/later.lanes"
    for program in frame_loop explain rehearsal; do
        tells_totals "$program" "$show" >"$folder/told" && tells_totals "$program" "$folder/later.show" >"$folder/later" &&
            awk '/^In all, / { $7 += 1000; $9 += 70000; changed++ } { print } END { exit changed != 1 }' "$folder/told" |
            diff - "$folder/later" || return 1
    done
}

# What a program tells of how much arrived and was sent, and of what is left: tells_totals PROGRAM SHOW
tells_totals() {
    local words=()
    [ "$1" = frame_loop ] && words=(--fast)
    [ "$1" = rehearsal ] && words=(20)
    "$folder/$1" "$2" "${words[@]}" 2>"$folder/messages" | grep -E '^(    [^ ]|Cues and levels|In all, |The input is )' |
        grep -v '^    byte'
}

# A slice with which a total would be too large is refused with 31, and told with the totals; one with which it gets to
# the greatest is not. The first of two cues takes the last place: what is behind it stays.
tells_full_totals() {
    printf 'type cue beside cue patch pass frames 4\n2 cue 1\n4 cue 2\n' >"$folder/full.score"
    "$folder/make_show" "$folder/full.score" &&
        with_totals '\377\377\377\376' '\0\0\0\0' "$folder/full.show" >"$folder/filling.show" &&
        with_totals '\0\0\0\7' '\377\377\377\376' "$folder/full.show" >"$folder/sending.show" &&
        tells_full filling 4294967295 1 && tells_full sending 8 4294967295
}

# tells_full NAME ARRIVED SENT, with the totals that are left
tells_full() {
    local show=$folder/$1.show arrived=$2 sent=$3 call
    for call in "frame_loop $show --fast" "rehearsal $show 3" "explain $show"; do
        # shellcheck disable=SC2086 # the call is several words
        "$folder"/$call >"$folder/sent" 2>&1
        grep -q 'is refused with 31' "$folder/sent" &&
            grep -qxF "    the patch has counted $arrived arrived and $sent sent in all; with this slice 1 more would arrive and 1 more be sent" \
                "$folder/sent" && grep -qxF "In all, by the patch's totals: $arrived arrived, $sent sent." "$folder/sent" && continue
        cat "$folder/sent"
        echo "$call: 31 is due, with $arrived and $sent"
        return 1
    done
    "$folder/timeline" "$show" 0 3 >"$folder/sent" &&
        grep -q 'refused with 31: A total of the patch would pass 4,294,967,295' "$folder/sent"
}

# The two recordings of choose_a_sky have one patch, and are played one way and the other.
chooses_both_ways() {
    local shows=examples/shows/choose_a_sky length
    length=$(patch_end "${shows}_north.show")
    cmp -n "$length" "${shows}_north.show" "${shows}_south.show" && comes_in 'first chosen: "comet"' "${shows}_north.show" &&
        comes_in 'second chosen: "Southern Cross, dim"' "${shows}_south.show"
}

# However house_fills is cut, its sign is lit while the house fills, and its opening cue and lamp wait for the greeting.
opens_with_the_greeting() {
    local seed
    for seed in 1 2 3 19 1000003; do
        "$folder/frame_loop" examples/shows/house_fills.show --fast --seed "$seed" >"$folder/sent" || return 1
        awk '/^frame / { frame = $2 + 0 }
             /^    / { sub(/:.*/, ""); sub(/^ */, ""); sent[$0] = frame }
             END { greeting = sent["greeting"]; sign = sent["opening sign"]
                   exit !(sign >= 1 && sign < 10 && greeting >= 120 && sent["opening cue"] == greeting &&
                          sent["opening lamp"] == greeting) }' "$folder/sent" && continue
        cat "$folder/sent"
        return 1
    done
}

# The README shows what the frame loop prints for house_fills, as it was recorded.
readme_plays_house_fills() {
    "$folder/frame_loop" examples/shows/house_fills.show --fast >"$folder/sent" || return 1
    sed -n '/^\$ .*house_fills\.show --fast$/,/^```$/p' README.md | sed '1d;$d' | diff - "$folder/sent"
}

# The frame loop tells one choice of the input, this one: comes_in WORDS SHOW
comes_in() {
    "$folder/frame_loop" "$2" --fast | grep 'came in' >"$folder/chosen"
    [ "$(wc -l <"$folder/chosen")" -eq 1 ] && grep -q "^    came in, $1" "$folder/chosen"
}

# What is owed at the end of a show of some type, in one frame of which something may come.
tells_owed() {
    local type line told
    while IFS='|' read -r type line told; do
        printf 'type %s patch pass frames 2\n%s\n' "$type" "$line" >"$folder/owed.score"
        "$folder/make_show" "$folder/owed.score" || return 1
        "$folder/frame_loop" "$folder/owed.show" --fast | tail -n 1 | grep -qxF "The input is $told" && continue
        echo "$type, $line: '$told' is due"
        return 1
    done <<'END'
cue then empty|1 cue 1|not complete; crossings still owed: 1.
cue then cue|1 cue 1|not complete; still owed: "in 2"; crossings: 1.
cue or (cue then level)||not complete; choices still owed: 1.
cue or (cue then level)|1 choose 1|not complete; still owed: "in 1".
cue or (cue then level)|1 choose 2|not complete; still owed: "in 2", "in 3"; crossings: 1.
empty or cue|1 choose 1|complete: nothing is owed.
(cue or cue) then empty||not complete; crossings still owed: 1; choices still owed: 1.
level beside (cue or cue)||not complete; still owed: "in 1"; choices: 1.
END
}

# Cut short at some bytes, and damaged there, a show ends by itself: played, refused or not read, never with a fault.
survives_damage() {
    local show=$1 length patch_end place
    length=$(stat -c %s "$show")
    patch_end=$(patch_end "$show")
    for place in $(seq 0 $((length / 17 + 1)) "$length") 1 2 3 4 30 31 32 $(seq $((patch_end - 11)) 3 "$patch_end"); do
        head -c "$place" "$show" >"$folder/cut.show"
        tries "$folder/cut.show" || return 1
        { head -c "$place" "$show"; printf '\377'; tail -c "+$((place + 2))" "$show"; } >"$folder/hurt.show"
        tries "$folder/hurt.show" || return 1
    done
}

# A sanitizer's or a signal's exit status is none of the three that the programs have.
tries() {
    local command
    for command in "frame_loop $1 --fast --seed 3" "timeline $1 5" "rehearsal $1 3"; do
        # shellcheck disable=SC2086 # the command is several words
        "$folder"/$command >"$log.out" 2>&1
        if [ $? -gt 2 ] || grep -q 'runtime error\|Sanitizer' "$log.out"; then
            cat "$log.out"
            return 1
        fi
    done
}

# Where threads decide how the show is cut, the same is sent.
plays_in_time() {
    sent examples/shows/damaged.show --fast >"$folder/recorded" &&
        sent examples/shows/damaged.show --seed 2 | diff "$folder/recorded" - &&
        sent examples/shows/damaged.show --seed 3 --frames-per-second 1000 | diff "$folder/recorded" -
}

# A second has as many frames as are asked for.
counts_seconds_in_time() {
    timeout 60 "$folder/frame_loop" examples/shows/damaged.show --frames-per-second 40 >"$folder/sent" 2>"$folder/messages" &&
        adds_up 40 <"$folder/sent" && grep -q '^second 2, only [1-9][0-9]* frames\?: ' "$folder/sent"
}

# A show without slices, whose only lane has no name; the rehearsal has nothing to compare.
ends_by_itself() {
    cue_comes 0 >"$folder/empty.show"
    timeout 60 "$folder/frame_loop" "$folder/empty.show" | grep -q '^The show is over: 0 frames, 0 slices' || return 1
    timeout 60 "$folder/frame_loop" "$folder/empty.show" --fast | grep -q 'still owed: "in 1"' || return 1
    "$folder/rehearsal" "$folder/empty.show" 2>"$folder/messages"
    [ $? -eq 2 ] && grep -q 'nothing to compare' "$folder/messages"
}

# All that is wrong with the damaged show is told: five slices with number and place of their faults, the broken end.
tells_all_six() {
    local command wrong
    for command in "frame_loop examples/shows/damaged.show --fast" "rehearsal examples/shows/damaged.show 3"; do
        # shellcheck disable=SC2086 # the command is several words
        "$folder"/$command 2>"$folder/messages" || return 1
        for wrong in 'slice 10 is refused with 14' 'slice 14 is refused with 11' 'slice 18 is refused with 14' \
            'slice 22 is refused with 12' 'slice 26 is refused with 13' 'ends inside the slice of frame 48'; do
            grep -q "$wrong" "$folder/messages" || return 1
        done
        [ "$(grep -c 'is refused with\|ends inside' "$folder/messages")" -eq 6 ] || return 1
        [ "$(grep -c '^    byte [0-9]' "$folder/messages")" -eq 5 ] || return 1
    done
}

# Of a show whose patch is refused nothing else is told: what follows may not be slices.
tells_refused_patch_alone() {
    local program
    # shellcheck disable=SC2059 # the totals are a format
    printf "\0\20\0\1\1\0\1\5$zero_totals\0\7\0" >"$folder/refused.show"
    for program in frame_loop rehearsal timeline; do
        "$folder/$program" "$folder/refused.show" >"$folder/sent" 2>"$folder/messages"
        [ $? -eq 1 ] && grep -q 'refused with 7' "$folder/messages" && ! grep -q 'file ends' "$folder/messages" || return 1
    done
}

# A show of one cue that comes so many times: cue_comes TIMES
cue_comes() {
    # shellcheck disable=SC2059 # the totals are a format
    printf "\0\20\0\1\1\0\1\0$zero_totals"
    for _ in $(seq "$1"); do
        printf '\0\3\0\1\2'
    done
}

# Several refusals may have one cause, and this is said once. Counts of one are told as such.
tells_counts() {
    local times command told
    while IFS='|' read -r times command told; do
        cue_comes "$times" >"$folder/cues.show"
        # shellcheck disable=SC2086 # the command is several words
        "$folder"/${command/SHOW/$folder/cues.show} >"$folder/told" 2>&1
        grep -qF "$told" "$folder/told" &&
            [ "$(grep -c 'the first refusal first' "$folder/told")" -eq $((times > 2)) ] && continue
        cat "$folder/told"
        echo "'$told' is due"
        return 1
    done <<'END'
1|frame_loop SHOW --fast|The show is over: 1 frame, 1 slice, 1 feed, 0 refused.
1|frame_loop SHOW --fast|second 1, only 1 frame: 1 arrived in 1 slice, 1 sent
2|frame_loop SHOW --fast|Cues and levels: 1 arrived, 1 sent.
2|frame_loop SHOW --fast|The show is over: 2 frames, 2 slices, 1 feed, 1 refused.
3|frame_loop SHOW --fast|The show is over: 3 frames, 3 slices, 1 feed, 2 refused.
2|rehearsal SHOW 1|1 of 2 recorded slices was refused and left out.
2|rehearsal SHOW 1|: 1 cut of 1 slice, 1 feed in all, the largest of 1 joined
4|rehearsal SHOW 2|3 of 4 recorded slices were refused and left out.
4|rehearsal SHOW 2|Cues and levels, in every cut: 1 arrived, 1 sent.
1|explain SHOW|1 slice: 1 brings something, 0 bring nothing, 0 are refused.
2|explain SHOW|2 slices: 1 brings something, 0 bring nothing, 1 is refused.
3|explain SHOW|3 slices: 1 brings something, 0 bring nothing, 2 are refused.
3|explain SHOW|Cues and levels: 1 arrived, 1 sent.
END
}

# The rehearsal's answer ends with the slices that it is not about; if there are none, with what it counted and the
# totals.
answers_for_all_slices() {
    "$folder/rehearsal" examples/shows/damaged.show 3 2>"$folder/messages" | tail -n 1 |
        grep -qx '5 of 47 recorded slices were refused and left out\.' &&
        "$folder/rehearsal" examples/shows/lamp_fade.show 3 2>"$folder/messages" | tail -n 3 >"$folder/answer" &&
        head -n 1 "$folder/answer" | grep -q '^All joined outputs and all final patches are the same' &&
        tail -n 2 "$folder/answer" | diff - <(echo 'Cues and levels, in every cut: 8 arrived, 10 sent.' &&
            echo "In all, by the patch's totals: 8 arrived, 10 sent.")
}

# For each place at which a show file can be cut: the place, the frame loop's exit status, and what has to be told.
# Found from the lengths alone; where the cut is between two files, there is nothing to tell.
cuts_of() {
    od -An -v -tu1 -w1 "$1" | awk -v OFS='\t' '
        { byte[NR - 1] = $1 }
        function told(begin, have, due, files) {
            if (files == 0 && have < 2) {
                return "it has " have " of the two bytes"
            }
            if (have < 2) {
                return have == 0 ? "" : "slice of frame " files ": byte " begin " of the show is half of the slice"
            }
            length_says = "s length, at bytes " begin " to " begin + 1 " of the show, says " due - 2 ", and " \
                (have == 3 ? "1 byte follows" : have - 2 " bytes follow")
            return files == 0 ? "before its patch does: the patch\047" length_says : \
                "slice of frame " files ": the slice\047" length_says "; the last " have " bytes are left out"
        }
        END {
            for (place = begin = files = 0; place <= NR; place++) {
                due = place < begin + 2 ? 0 : 2 + byte[begin] * 256 + byte[begin + 1]
                if (due > 0 && place == begin + due) {
                    begin = place
                    files++
                }
                print place, files == 0 ? 2 : 0, told(begin, place - begin, due, files)
            }
        }'
}

# A show that is cut at a place is told so, with the frame and the bytes: tells_cuts SHOW STEP
tells_cuts() {
    local show=$1 step=$2 place status told
    while IFS=$'\t' read -r place status told; do
        [ $((place % step)) -eq 0 ] || continue
        head -c "$place" "$show" >"$folder/cut.show"
        "$folder/frame_loop" "$folder/cut.show" --fast >"$folder/sent" 2>"$folder/messages"
        [ $? -eq "$status" ] && tells_of_end "$told" || return 1
        "$folder/rehearsal" "$folder/cut.show" 1 >"$folder/sent" 2>"$folder/messages"
        [ $? -le 2 ] && tells_of_end "$told" || return 1
    done < <(cuts_of "$show")
}

# The messages have these words; without words they say nothing of an end.
tells_of_end() {
    if [ -n "$1" ]; then
        grep -qF "$1" "$folder/messages" && return
    else
        ! grep -q 'file ends' "$folder/messages" && return
    fi
    cat "$folder/messages"
    echo "'$1' is due, in a show of $(stat -c %s "$folder/cut.show") bytes"
    return 1
}

# Lines that name no lane of the show are told, and the others count.
tells_wrong_names() {
    cp examples/shows/damaged.show "$folder/names.show"
    printf '%s\n' '# a comment' '' 'in 1 fanfare' 'inn 2 lamp' 'in 2' 'in 2x lamp' 'in 4 curtain' 'out 0 lamp' \
        'in 1 trumpets' "out 2 $(printf '%064d' 7)" 'in -1 lamp' 'in 18446744073709551617 lamp' >"$folder/names.lanes"
    (cd "$folder" && ./frame_loop names.show --fast >sent 2>messages) || return 1
    diff - <(grep 'names.lanes' "$folder/messages") <<'END' && grep -q '^    out 1: cue$' "$folder/sent"
frame_loop: names.lanes, line 4: "inn 2 lamp" names no lane; a line that does is as: in 3 Saturn's rings
frame_loop: names.lanes, line 5: "in 2" names no lane; a line that does is as: in 3 Saturn's rings
frame_loop: names.lanes, line 6: "in 2x lamp" names no lane; a line that does is as: in 3 Saturn's rings
frame_loop: names.lanes, line 7: "in 4 curtain" is left out: the lanes of that side are in 1 to in 3
frame_loop: names.lanes, line 8: "out 0 lamp" is left out: the lanes of that side are out 1 to out 3
frame_loop: names.lanes, line 9: "in 1 trumpets" is left out: line 3 has named that lane
frame_loop: names.lanes, line 10: "out 2 0000000000000000000000000000000000000000000000000000000000000007" is too long: of a name 63 bytes are kept
frame_loop: names.lanes, line 11: "in -1 lamp" names no lane; a line that does is as: in 3 Saturn's rings
frame_loop: names.lanes, line 12: "in 18446744073709551617 lamp" is left out: the lanes of that side are in 1 to in 3
END
}

# What an editor may put around the words of a line counts for nothing; what is no text is told. Every name but the
# third, of two control characters, is seen in what is sent as it is written.
reads_odd_names() {
    cp examples/shows/damaged.show "$folder/odd.show"
    printf '%b' '\0357\0273\0277out 1 first\r\n' ' \t# a comment\n' ' \t\n' '\tout \t 2\t se\0303\0247ond \t \r\n' \
        'out 3 t\01h\0302\0205ird\n' 'in 1 a\0b\n' 'in 1 Br\0374cke\n' 'in 1 \0355\0240\0200\n' '\0\n' 'in 1   \n' 'in2 b\n' \
        >"$folder/odd.lanes"
    (cd "$folder" && ./frame_loop odd.show --fast >sent 2>messages) || return 1
    diff - <(grep 'odd.lanes' "$folder/messages") <<'END' || return 1
frame_loop: odd.lanes, line 5: "out 3 t?h?ird" has a character that cannot be printed; ? takes its place
frame_loop: odd.lanes, line 6: "in 1 a?b" is left out: it is no text in UTF-8
frame_loop: odd.lanes, line 7: "in 1 Br?cke" is left out: it is no text in UTF-8
frame_loop: odd.lanes, line 8: "in 1 ???" is left out: it is no text in UTF-8
frame_loop: odd.lanes, line 9: "?" is left out: it is no text in UTF-8
frame_loop: odd.lanes, line 10: "in 1" names no lane; a line that does is as: in 3 Saturn's rings
frame_loop: odd.lanes, line 11: "in2 b" names no lane; a line that does is as: in 3 Saturn's rings
END
    diff - <(grep -e ': cue' -e ': level' -e crossing "$folder/sent") <<'END'
    first: cue
    seçond: level 33000
    crossing: "first" .. "seçond" -> "t?h?ird"
END
}

# Of many wrong lines the first ten are told, and how many more there are: tells_ten_lines LINES MORE
tells_ten_lines() {
    cp examples/shows/damaged.show "$folder/many.show"
    yes lane | head -n "$1" >"$folder/many.lanes"
    (cd "$folder" && ./frame_loop many.show --fast >sent 2>messages) || return 1
    [ "$(grep -c 'many.lanes, line' "$folder/messages")" -eq 10 ] || return 1
    [ "$(grep 'many.lanes: ' "$folder/messages")" = "$2" ]
}

holds "shipped shows" same_shows
holds "lanes" "$folder/lanes"
for stored in examples/shows/*.expected; do
    holds "$stored" prints_as_stored "$stored"
done
for show in examples/shows/*.show; do
    holds "$show is sent the same however it is cut" sends_the_same "$show"
    holds "$show is counted second by second" counts_every_second "$show"
    holds "$show is counted as its score has it" counts_the_score "$show"
    holds "$show is counted the same by all" counts_the_same "$show"
    holds "$show counted on from other totals" totals_go_on "$show"
    holds "$show rehearsed" "$folder/rehearsal" "$show" 200
    holds "$show damaged" survives_damage "$show"
done
holds "choose_a_sky is played both ways" chooses_both_ways
holds "house_fills opens with the greeting" opens_with_the_greeting
holds "house_fills in the README" readme_plays_house_fills
holds "seconds in which nothing comes" tells_dead_seconds
holds "what is owed" tells_owed
holds "totals that are full" tells_full_totals
holds "damaged.show says what is wrong with it" tells_all_six
holds "a refused patch" tells_refused_patch_alone
holds "counts of refused slices" tells_counts
holds "the end of the rehearsal's answer" answers_for_all_slices
holds "damaged.show cut at every byte" tells_cuts examples/shows/damaged.show 1
holds "comet_to_saturn.show cut" tells_cuts examples/shows/comet_to_saturn.show 17
holds "lines that name no lane" tells_wrong_names
holds "lines as editors leave them" reads_odd_names
holds "10 lines that name no lane" tells_ten_lines 10 ''
holds "11 lines that name no lane" tells_ten_lines 11 'frame_loop: many.lanes: and 1 more line'
holds "10000 lines that name no lane" tells_ten_lines 10000 'frame_loop: many.lanes: and 9990 more lines'
holds "60 frames a second" plays_in_time
holds "40 frames a second, counted" counts_seconds_in_time
holds "no slices" ends_by_itself
[ "$failed" -eq 0 ] && echo "the example programs and the shows, $compiler ${words[*]}: all held"
exit "$failed"

#!/usr/bin/env bash
# The rehearsal finds feeds that lose or miscount something, and finds nothing in the library's own:
# tests/c/rehearsal_finds.sh ARCHIVE. The exit status tells.
# shellcheck source=tests/c/building.sh
source "$(dirname "$0")/building.sh" "$1" gcc -O1 -g -fsanitize=address,undefined -fno-sanitize-recover=all
program=$folder/rehearsal

build rehearsal -Wl,--wrap=wosthile_feed examples/rehearsal.c tests/c/losing_feed.c || exit 1

# Rehearses a show with a feed that is wrong in some way, or with the right one: expect STATUS TOLD SHOW [LOSING].
expect() {
    local status=$1 told=$2 show=$3 losing=${4-}
    if [ -n "$losing" ]; then
        LOSING=$losing "$program" "examples/shows/$show.show" 20 1 >"$log" 2>&1
    else
        "$program" "examples/shows/$show.show" 20 1 >"$log" 2>&1
    fi
    local met=$?
    if [ "$met" -ne "$status" ] || ! grep -q "$told" "$log"; then
        cat "$log"
        echo "$show, losing ${losing:-nothing}: exit status $met where $status and '$told' were expected"
        failed=1
    fi
}

# The right feed and wrong ones, with one show: try_show SHOW LOSING.. If steps count as cues and levels they do so in
# every cut alike, so no cut makes a difference; what Admit counts does. Nor does one if the totals stay as they were;
# what Feed counts does. Counts of Feed that are wrong do not go with the totals either.
try_show() {
    local losing
    expect 0 'are the same, byte for byte' "$1"
    for losing in "${@:2}"; do
        expect 1 'makes a difference' "$1" "$losing"
    done
    expect 1 '^Feed and Admit do not count the same' "$1" steps
    expect 1 'are the same, byte for byte' "$1" steps
    expect 1 '^The totals do not go on as Feed counts' "$1" steps
    expect 1 '^The totals do not go on as Feed counts' "$1" totals
    expect 1 'are the same, byte for byte' "$1" totals
    expect 1 'makes a difference' "$1" feeds
    expect 1 '^The totals do not go on as Feed counts' "$1" feeds
}

for show in comet_to_saturn two_skies_evening lamp_fade; do
    try_show "$show" crossing behind patch arrived sent
done
for show in choose_a_sky_north choose_a_sky_south; do
    try_show "$show" crossing behind patch choice arrived sent
done
[ "$failed" -eq 0 ] && echo "the rehearsal finds nine wrong feeds, in five shows, and nothing wrong in the right one"
exit "$failed"

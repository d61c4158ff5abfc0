# shellcheck shell=bash disable=SC2034 # the scripts read what is set here
# What the scripts beside this one begin with. Their words are ARCHIVE [COMPILER [WORDS]]; this leaves them in the root
# of the repository, with a folder for what they build and write, a log, and whether anything failed.
set -u
archive=$(realpath "$1") || exit 2
compiler=${2-gcc}
words=("${@:3}")
[ "${#words[@]}" -gt 0 ] || words=(-O2)
cd "$(dirname "$0")/../.." || exit 2

folder=$(mktemp -d)
trap 'rm -rf "$folder"' EXIT

# A sanitizer's exit status is none of the three that the programs have.
export ASAN_OPTIONS=exitcode=99 UBSAN_OPTIONS=halt_on_error=1:exitcode=99 TSAN_OPTIONS=exitcode=99

# A program is its sources and what all programs share: build PROGRAM SOURCES
build() {
    "$compiler" -std=c11 -Wall -Wextra -Werror -pedantic -Iinclude -Iexamples/shared -pthread "${words[@]}" "${@:2}" \
        examples/shared/*.c "$archive" -o "$folder/$1"
}

# Totals of zero, the section with which the patch of a show ends: as bytes for printf, and in decimal.
zero_totals='\0\10\0\0\0\0\0\0\0\0'
zeros='0 8 0 0 0 0 0 0 0 0'

# The byte of a show behind its patch, whose totals are the ten bytes before it: patch_end SHOW
patch_end() {
    od -An -tu1 -N2 "$1" | awk '{ print 2 + $1 * 256 + $2 }'
}

log=$folder/log
failed=0

# One thing that holds or does not; its output is shown only if it does not: holds WHAT COMMAND
holds() {
    local what=$1
    shift
    if ! "$@" >"$log" 2>&1; then
        cat "$log"
        echo "$what: FAILED"
        failed=1
    fi
}

# Runs a program and holds its exit status; its answer is left in out, and what it tells in messages: ends STATUS PROGRAM WORDS
ends() {
    local status=$1 program=$2 ended
    shift 2
    "$folder/$program" "$@" >"$folder/out" 2>"$folder/messages"
    ended=$?
    [ "$ended" -eq "$status" ] && return 0
    cat "$folder/out" "$folder/messages"
    echo "$program $*: status $ended in place of $status"
    return 1
}

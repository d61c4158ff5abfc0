#!/usr/bin/env bash
# A program links with an archive of its header's interface, and with no other, older or newer; and one that does not
# include the header can ask the archive: tests/c/wrong_archive.sh ARCHIVE.
# The exit status tells.
# shellcheck source=tests/c/building.sh
source "$(dirname "$0")/building.sh"

interface=$(sed -n 's/^#define WOSTHILE_ABI \([0-9]*\)$/\1/p' include/wosthile.h)
newer=$((interface + 1))
older=(1 2)
mkdir "$folder/$interface" "$folder/$newer" "${older[@]/#/$folder/}"
cp include/wosthile.h "$folder/$interface"

# The header of another interface: with_number NUMBER
with_number() {
    sed "s/^#define WOSTHILE_ABI $interface\$/#define WOSTHILE_ABI $1/" include/wosthile.h
}
with_number "$newer" >"$folder/$newer/wosthile.h"

# Interface 2, of release 1.4.0: a patch file had two sections, and so ten bytes less at most.
with_number 2 | sed 's/^#define WOSTHILE_PATCH_FILE_MAX 8492$/#define WOSTHILE_PATCH_FILE_MAX 8482/' >"$folder/2/wosthile.h"

# Interface 1, of the releases before: its answers of Admit and Feed had no counts. The header holds itself to the sizes
# that they had, so it does not compile if what is taken out here is too little.
sed -e 's/^#define WOSTHILE_ABI 2$/#define WOSTHILE_ABI 1/' \
    -e '/^    uint32_t arrived; /d' -e '/^    uint32_t sent; /d' \
    -e '/^WOSTHILE_HOLDS(offsetof(wosthile_[a-z]*, arrived)/d' -e '/^WOSTHILE_HOLDS(offsetof(wosthile_[a-z]*, sent)/d' \
    -e 's/^WOSTHILE_HOLDS(sizeof(wosthile_admitted) == [0-9]*,/WOSTHILE_HOLDS(sizeof(wosthile_admitted) == 8,/' \
    -e 's/^WOSTHILE_HOLDS(sizeof(wosthile_fed) == [0-9]*,/WOSTHILE_HOLDS(sizeof(wosthile_fed) == 24,/' \
    "$folder/2/wosthile.h" >"$folder/1/wosthile.h"

# The same program for C and for C++: what it calls is no matter.
program=$folder/program.c
cat >"$program" <<'END'
#include <wosthile.h>
#if WOSTHILE_ABI != BUILT_FOR || (BUILT_FOR < 3) != (WOSTHILE_PATCH_FILE_MAX == 8482)
#error "this is not the header of that interface"
#endif
int main(void) { return (int)wosthile_admit(0, 0, 0, 0).number - 1; }
END

# One that has declarations of its own, as a caller in another language has. It is built for an interface, and finds out
# whether the archive has another.
asking=$folder/asking.c
cat >"$asking" <<'END'
#include <stdint.h>
#ifdef __cplusplus
extern "C" uint32_t wosthile_abi(void);
#else
uint32_t wosthile_abi(void);
#endif
int main(void) { return wosthile_abi() == BUILT_FOR ? 0 : 1; }
END

# The ways to build it; a linker that removes what nothing uses must not remove the reference.
ways='
gcc -x c -std=c11 -O0
gcc -x c -std=c11 -O2
gcc -x c -std=c11 -O2 -fdata-sections -ffunction-sections -Wl,--gc-sections
gcc -x c -std=c11 -O2 -flto -Wl,--gc-sections
clang -x c -std=c11 -O0
clang -x c -std=c11 -O2 -fdata-sections -ffunction-sections -Wl,--gc-sections
g++ -x c++ -std=c++11 -O2
g++ -x c++ -std=c++11 -O2 -fdata-sections -ffunction-sections -Wl,--gc-sections
clang++ -x c++ -std=c++11 -O2 -fdata-sections -ffunction-sections -Wl,--gc-sections
'

# Builds a program for an interface: builds SOURCE NUMBER WAY
builds() {
    local source=$1 number=$2
    shift 2
    rm -f "$folder/program"
    "$@" -Wall -Wextra -Werror -pedantic -DBUILT_FOR="$number" -I"$folder/$number" "$source" -x none "$archive" \
        -o "$folder/program" >"$log" 2>&1
}

wrong() {
    cat "$log"
    echo "$*: FAILED"
    failed=1
}

# With a header of another interface the program does not link: refused NUMBER WAY
refused() {
    ! builds "$program" "$@" && grep -q "wosthile_abi_$1" "$log"
}

# The program that asks ends with this status: answers STATUS NUMBER WAY
answers() {
    local status=$1
    shift
    builds "$asking" "$@" || return 1
    "$folder/program"
    [ $? -eq "$status" ]
}

holds "every older interface is tried" [ "${#older[@]}" -eq $((interface - 1)) ]
for number in "${older[@]}" "$interface" "$newer"; do
    holds "the header of interface $number compiles" gcc -std=c11 -Wall -Wextra -Werror -pedantic -fsyntax-only \
        -DBUILT_FOR="$number" -I"$folder/$number" "$program"
done
while read -r -a way; do
    [ "${#way[@]}" -gt 0 ] || continue
    builds "$program" "$interface" "${way[@]}" && "$folder/program" || wrong "the header of the archive, ${way[*]}"
    answers 0 "$interface" "${way[@]}" || wrong "a program without the header, ${way[*]}"
    for number in "${older[@]}" "$newer"; do
        refused "$number" "${way[@]}" || wrong "a header of interface $number, ${way[*]}"
        answers 1 "$number" "${way[@]}" || wrong "a program of interface $number without the header, ${way[*]}"
    done
done <<<"$ways"
[ "$failed" -eq 0 ] &&
    echo "an archive of interface $interface is linked with its header, and not with one of ${older[*]} or $newer"
exit "$failed"

#!/bin/sh
# Times the drawing of frames of 24 rows of 80 columns, full of one text, into one buffer. If
# valgrind is installed, it also counts the allocations of a run of 10 frames and of one of 90. A
# frame of ASCII should take at most 80 microseconds, and the two counts should be equal.
# PROGRAM is what `rt run` in crates/textarea_bench builds.
# usage: bench/paint.sh PROGRAM
set -e
program=$1
[ -x "$program" ] || { echo "usage: bench/paint.sh PROGRAM"; exit 1; }

# one job: frames, width, height, text
nanoseconds() {
    begin=$(date +%s%N)
    printf '%s\n' "paint $1 $2 $3 $4" | "$program" > /dev/null
    end=$(date +%s%N)
    echo $(( (end - begin) / $1 ))
}

allocations() {
    printf '%s\n' "paint $1 $2 $3 $4" | valgrind "$program" 2>&1 > /dev/null | sed -n 's/.*heap usage: \([0-9,]*\) allocs.*/\1/p'
}

# the best of five runs
row() {
    best=
    for run in 1 2 3 4 5; do
        time=$(nanoseconds 10000 80 24 "$2")
        if [ -z "$best" ] || [ "$time" -lt "$best" ]; then best=$time; fi
    done
    printf '%-22s %8d.%d microseconds a frame' "$1" $((best / 1000)) $((best % 1000 / 100))
    if command -v valgrind > /dev/null; then
        printf ', allocations in a run of 10 and of 90 frames: %s, %s' "$(allocations 10 80 24 "$2")" "$(allocations 90 80 24 "$2")"
    fi
    printf '\n'
}

row "ASCII" "The quick brown fox jumps over the lazy dog, 12 times. "
row "wide" "$(printf '\347\212\254')"
row "accents, one character" "$(printf '\303\251')"
row "accents, two" "$(printf 'e\314\201')"
row "flags" "$(printf '\360\237\207\251\360\237\207\252')"

#!/bin/bash
# Prints one table of what a terminal's bytes and frames cost, in markdown. Times are processor
# time, the fastest of some runs, less the time of the same program with nothing done.
# - Bytes of each kind, 10 MB of them, decoded in calls of 4,096 bytes, as a program reads them, and
#   a paste also in one call: the time for each byte. Letters in calls of one byte: the time for
#   each call.
# - Frames of 80 by 24 cells, painted one after another: equal ones, ones that differ in turns in
#   one row, ones that differ in each cell, and the last with a reset before each. In rows of words
#   the style changes every nine cells. The times are compared with the time to compare the cells of
#   two buffers. If valgrind is installed, also the allocations of a paint.
# PROGRAM is what `rt run` in crates/textarea_bench builds, by default that of this repository.
# usage: bench/terminal.sh [PROGRAM]
set -e
program=${1:-$(dirname "$0")/../crates/textarea_bench/out/textarea_bench}
[ -x "$program" ] || { echo "usage: bench/terminal.sh PROGRAM"; exit 1; }
cells=$((80 * 24))

# the nanoseconds of processor time that a run of the program on a job takes, the fastest of seven
best() {
    local fastest= taken
    local TIMEFORMAT='%U %S'
    for (( turn = 0; turn < 7; turn++ )); do
        taken=$( { time "$program" <<< "terminal $1" > /dev/null 2>&1; } 2>&1 | awk '{ printf "%.0f", ($1 + $2) * 1e9 }')
        if [ -z "$fastest" ] || [ "$taken" -lt "$fastest" ]; then fastest=$taken; fi
    done
    echo "$fastest"
}

# the nanoseconds of a job for each unit: it is done $2 times, with $3 units each
each() { awk -v all="$(best "$1 $2")" -v none="$(best "$1 0")" -v parts="$(( $2 * $3 ))" 'BEGIN { printf "%.2f", (all - none) / parts }'; }

row() { printf '| %s | %s | %s |\n' "$1" "$2" "$3"; }

bytes_row() { row "$1" "nanoseconds a byte" "$(each "decode $2 10000000 $3" 10 10000000)"; }

frames_row() {
    local taken
    taken=$(each "paint $2 80 24" "$3" "$cells")
    row "$1" "nanoseconds a cell" "$taken"
    row "the same, to a comparison" times "$(awk -v taken="$taken" -v compared="$compared" 'BEGIN { printf "%.2f", taken / compared }')"
}

requests() { valgrind "$program" <<< "terminal $1" 2>&1 > /dev/null | sed -n "s/.*heap usage: \([0-9,]*\) allocs.*/\1/p" | tr -d ,; }

requests_row() {
    command -v valgrind > /dev/null || return 0
    row "$1" "requests a paint" "$(awk -v more="$(requests "paint $2 80 24 60")" -v less="$(requests "paint $2 80 24 10")" 'BEGIN { printf "%.2f", (more - less) / 50 }')"
}

printf '| what | unit | |\n|---|---|---:|\n'
bytes_row "letters" letters 4096
bytes_row "letters with accents, and wide ones" accents 4096
bytes_row "keys that are sequences" keys 4096
bytes_row "reports of a mouse" mouse 4096
bytes_row "a paste, in one piece" paste 20000000
bytes_row "a paste" paste 4096
row "letters, byte by byte" "nanoseconds a call" "$(each "decode letters 1000000 1" 20 1000000)"
compared=$(each "paint compared 80 24" 20000 "$cells")
row "the cells of two buffers, compared" "nanoseconds a cell" "$compared"
frames_row "a frame that is shown already" same 20000
frames_row "a frame of which one row is another" line 20000
frames_row "a frame of other cells" whole 10000
frames_row "the same after a reset" reset 10000
requests_row "a frame of which one row is another" line
requests_row "a frame of other cells" whole
requests_row "the same after a reset" reset

#!/bin/sh
# Times the wrapping of lines of 10, 100 and 1,000 KB in each mode, with the same number of bytes in
# all. A line of n bytes costs O(n): the times of one mode and text should be within 2x of each
# other.
# PROGRAM is what `rt run` in crates/textarea_bench builds.
# usage: bench/wrap.sh PROGRAM
set -e
program=$1
[ -x "$program" ] || { echo "usage: bench/wrap.sh PROGRAM"; exit 1; }

marks=$(printf 'e\314\201\314\201\314\201')
flags=$(printf '\360\237\207\251\360\237\207\252')
joined=$(printf '\360\237\221\251\342\200\215')

# one job: mode, kilobytes, times, width, text
seconds() {
    begin=$(date +%s%N)
    printf '%s\n' "wrap $1 $2 $3 $4 $5" | "$program" > /tmp/wrap_rows.$$
    end=$(date +%s%N)
    echo $(( (end - begin) / 1000000 ))
}

row() {
    printf '%-12s %-22s' "$1" "$2"
    for size in "10 1000" "100 100" "1000 10"; do
        set -- "$1" "$2" "$3" "$4" $size
        printf '%8s ms' "$(seconds "$1" "$5" "$6" "$3" "$4")"
        printf ' (%s rows)' "$(cat /tmp/wrap_rows.$$)"
    done
    printf '\n'
}

printf '%-12s %-22s%s\n' mode text "  10 KB x 1000, 100 KB x 100, 1,000 KB x 10"
for mode in None Word Glyph WordOrGlyph; do
    row "$mode" prose 80 "The quick brown fox jumps over the lazy dog, 12 times. "
    row "$mode" "one word" 80 "abcdefghijkl"
    row "$mode" blanks 80 "    "
done
for mode in Word Glyph; do
    row "$mode" "accents" 80 "$marks"
    row "$mode" "flags" 80 "$flags"
    row "$mode" "joined pictures" 80 "$joined"
    row "$mode" "prose, width 1" 1 "The quick brown fox jumps over the lazy dog, 12 times. "
    row "$mode" "one line of marks" 80 "$(printf '\314\201\314\201\314\201\314\201')"
done
rm -f /tmp/wrap_rows.$$

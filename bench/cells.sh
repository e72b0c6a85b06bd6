#!/bin/bash
# Prints a table, in markdown, of the instructions that a frame of 80 by 24 takes for each of its
# cells, where all rows are full of one text and lines aren't wrapped. `valgrind --tool=callgrind`
# counts them, so other work on the machine makes no difference: those of a script of `tascript`
# with 25 frames less those of one with 5.
# PROGRAM is what `rt run` in crates/tascript builds, by default that of this repository.
# usage: bench/cells.sh [PROGRAM]
set -e
program=${1:-$(dirname "$0")/../crates/tascript/out/tascript}
[ -x "$program" ] && command -v valgrind > /dev/null || { echo "usage: bench/cells.sh PROGRAM, with valgrind installed"; exit 1; }
counted=$(mktemp /tmp/bench_cells.XXXXXX)
trap 'rm -f "$counted"' EXIT

# 24 lines of the text $1, $2 times in each, and $3 frames
frames() {
    local line
    line=$(yes "$1" | head -n "$2" | tr -d '\n')
    printf 'set_wrap_mode None\nset_lines 0 0 '
    yes "$line\\n" | head -n 24 | tr -d '\n'
    echo
    yes 'render 0 0 80 24' | head -n "$3"
}

instructions() {
    valgrind --tool=callgrind --callgrind-out-file="$counted" "$program" 2>&1 > /dev/null | sed -n 's/.*Collected : \([0-9]*\).*/\1/p'
}

# a column: its label, a text, and how often it is in a line of 80 columns
column() {
    local few many
    few=$(frames "$2" "$3" 5 | instructions)
    many=$(frames "$2" "$3" 25 | instructions)
    labels+=" $1 |"
    dashes+='---:|'
    values+=" $(( (many - few) / (20 * 80 * 24) )) |"
}

labels='| rows of |' dashes='|---|' values='| instructions a cell |'
column words 'word ' 16
column é é 80
column "e and an accent" $'e\u0301' 80
column café 'café ' 16
column Cyrillic д 80
column ideographs 犬 40
column Hangul 한 40
column emoji 😀 40
column "joined emoji" 👩‍🚀 40
column flags 🇩🇪 40
printf '%s\n' "$labels" "$dashes" "$values"

#!/bin/bash
# Prints the first part of the page bench/RESULTS.md: one table of what keys, frames, cuts and
# scripts cost, at 1,000, 10,000, 100,000 and 1,000,000 lines, characters or commands, and the last
# time divided by the first. Times are processor time, the fastest of some runs, less the time of
# the same program on the same text with nothing done to it.
# - A key in a wrapped text of lines of 80 columns: into a line of some 1,000 characters, which is
#   wrapped from scratch; one that gives a line a second row, or removes it; and in turns a line
#   break and Backspace, in the first line, which moves all lines after it, and in the last one,
#   which moves none. The same break in only the screen map, in its middle, and only its move of the
#   lines' headers.
# - A character that is typed, or removed by Backspace, in an unwrapped line, by the line's length
#   in characters: of one byte and of two, at the line's end and in its middle, where the rest of
#   the line is moved; and only that move.
# - A new width, and one whose rows were measured before: the time for each line.
# - A key and then a frame of 80 by 24; only a frame; and one with line numbers, all lines selected
#   and matches in each row. If valgrind is installed, also the allocations of a frame for each of
#   its rows.
# - Scripts of `tascript`: edits all over a text, a quarter of them line breaks, each undone and
#   redone; all lines cut, and the cut undone; a run of characters typed and removed by Backspace,
#   including reading and printing.
# - Only reading: scripts whose last line is unparsed, so that nothing is run. A `set_lines` of that
#   many lines of 100 bytes, and that many short commands. If GNU time is installed, also the peak
#   memory for each byte of the script, and the same if the `set_lines` is run and printed.
# CRATES is the folder of the crates in which `rt run` built textarea_bench and tascript, by default
# that of this repository. A row whose program is missing has dashes. A run takes some ten
# minutes.
# usage: bench/table.sh [CRATES]
. "$(dirname "$0")/measure.sh"
sizes=(1000 10000 100000 1000000)

# the number of runs at a size
turns() { if [ "$1" -ge 1000000 ]; then echo 3; else echo 8; fi; }

# the microseconds of one job: its topic, its word, the size, and the number of times it is done
once() {
    local path none
    path=$(program textarea_bench)
    echo "$1 $2 $3 0" > "$script"
    none=$(best "$path" "$(turns "$3")")
    echo "$1 $2 $3 $4" > "$script"
    quotient $(( $(best "$path" "$(turns "$3")") - none )) $(( $4 * 1000 ))
}

# a row of a job: its label, its topic, its word, and the number of times it is done at each size
jobs_row() {
    local what=$1 topic=$2 word=$3 values=()
    shift 3
    [ -x "$(program textarea_bench)" ] || { unmeasured "$what" microseconds; return; }
    for size in "${sizes[@]}"; do values+=("$(once "$topic" "$word" "$size" "$1")"); shift; done
    row "$what" microseconds "${values[@]}"
}

# the same for each line, in nanoseconds
lines_row() {
    local what=$1 topic=$2 word=$3 values=()
    shift 3
    [ -x "$(program textarea_bench)" ] || { unmeasured "$what" "nanoseconds a line"; return; }
    for size in "${sizes[@]}"; do
        values+=("$(quotient "$(once "$topic" "$word" "$size" "$1")" "$(quotient "$size" 1000)")")
        shift
    done
    row "$what" "nanoseconds a line" "${values[@]}"
}

# rows of plain frames, of full ones, and the quotient of the two; for each size the number of
# frames. The two run in turns, in short runs and three times as often, so that a slow phase of the
# machine slows both
frame_rows() {
    local path plain=(- - - -) full=(- - - -) times=(- - - -) both
    path=$(program textarea_bench)
    if [ -x "$path" ]; then plain=() full=() times=(); else set --; fi
    for size in "${sizes[@]:0:$#}"; do
        read -r -a both <<< "$(frames_by_turns "$path" "$size" "$1")"
        plain+=("$(quotient "${both[0]}" $(( $1 * 1000 )))")
        full+=("$(quotient "${both[1]}" $(( $1 * 1000 )))")
        times+=("$(quotient "${both[1]}" "${both[0]}")")
        shift
    done
    row "a plain frame, by lines" microseconds "${plain[@]}"
    row "a frame with numbers, selection and matches, by lines" microseconds "${full[@]}"
    row "the same, to a plain one" times "${times[@]}"
}

# the nanoseconds of $3 plain frames at a size, and those of $3 full ones
frames_by_turns() {
    local -A least=()
    local job taken
    for (( turn = 0; turn < 3 * $(turns "$2"); turn++ )); do
        for job in "plain $2 0" "full $2 0" "plain $2 $3" "full $2 $3"; do
            echo "frames $job" > "$script"
            taken=$(run_time "$1")
            if [ "$taken" -lt "${least[$job]:-$(( taken + 1 ))}" ]; then least[$job]=$taken; fi
        done
    done
    echo $(( ${least[plain $2 $3]} - ${least[plain $2 0]} )) $(( ${least[full $2 $3]} - ${least[full $2 0]} ))
}

# the allocations of a frame for each of its 24 rows
requests_row() {
    local path values=()
    path=$(program textarea_bench)
    [ -x "$path" ] && command -v valgrind > /dev/null || { unmeasured "$1" "requests a row"; return; }
    for size in 1000 10000; do
        values+=("$(quotient $(( $(requests "$path" "$2 $size 60") - $(requests "$path" "$2 $size 10") )) $(( 50 * 24 )))")
    done
    row "$1" "requests a row" "${values[@]}" - -
}

requests() {
    echo "frames $2" | valgrind "$1" 2>&1 > /dev/null | sed -n 's/.*heap usage: \([0-9,]*\) allocs.*/\1/p' | tr -d ,
}

# ---- scripts: a function writes each, for a size and a number of rounds

some_lines() {
    awk -v lines="$1" 'BEGIN {
        print "set_max_histories 40000"
        printf "set_lines 0 0 a line of some text, as it is written"
        for (i = 1; i < lines; i++) printf "\\na line of some text, as it is written"
        print ""
    }'
}

edits() {
    some_lines "$1"
    awk -v lines="$1" -v edits="$2" 'BEGIN {
        for (i = 0; i < edits; i++) {
            print "jump " (i * 7919) % (lines < 65536 ? lines : 65536) " " i % 19
            print (i % 4 == 0 ? "insert_newline" : (i % 4 == 1 ? "delete_char" : "insert_str word"))
        }
        for (i = 0; i < edits; i++) print "undo"
        for (i = 0; i < edits; i++) print "redo"
    }'
}

cuts() {
    some_lines "$1"
    awk -v cuts="$2" 'BEGIN { for (i = 0; i < cuts; i++) print "select_all\ncut\nundo" }'
}

a_run() {
    awk -v keys="$1" -v times="$2" 'BEGIN {
        print "set_undo_coalescing true"
        for (t = 0; t < times; t++) {
            for (i = 0; i < keys; i++) print "insert_char a"
            for (i = 0; i < keys; i++) print "delete_char"
        }
    }'
}

long_lines() {
    awk -v lines="$1" 'BEGIN {
        line = "a line of some text, of which there are a hundred characters, so that it is as long as lines are, no"
        line = substr(line, 1, 98)
        printf "set_lines 0 0 %s", line
        for (i = 1; i < lines; i++) printf "\\n%s", line
        print ""
    }'
}

short_commands() {
    awk -v commands="$1" 'BEGIN { for (i = 0; i < commands; i++) print (i % 2 ? "jump 3 4" : "insert_char a") }'
}

unread() { "$1" "$2"; echo x; }

# a row of a script: its label, its unit, the number of units in one round, the function that writes
# the script, and the number of rounds for each size
script_row() {
    local what=$1 unit=$2 per=$3 write=$4 values=() path none
    path=$(program tascript)
    shift 4
    [ -x "$path" ] || { unmeasured "$what" "$unit"; return; }
    for size in "${sizes[@]}"; do
        "$write" "$size" 0 > "$script"
        none=$(best "$path" "$(turns "$size")")
        "$write" "$size" "$1" > "$script"
        values+=("$(quotient $(( $(best "$path" "$(turns "$size")") - none )) $(( $1 * ($per) )))")
        shift
    done
    row "$what" "$unit" "${values[@]}"
}

# rows of a script that is only read: the time and the peak memory. A small script takes less time
# than the start of the program
reading_rows() {
    local what=$1 unit=$2 write=$3 times=() held=() path none
    path=$(program tascript)
    [ -x "$path" ] || { unmeasured "$what" "nanoseconds $unit"; unmeasured "$what, held" "bytes a byte"; return; }
    echo > "$script"
    none=$(best "$path" 8)
    for size in "${sizes[@]}"; do
        unread "$write" "$size" > "$script"
        if [ "$size" -lt 10000 ]; then
            times+=(-)
        else
            times+=("$(quotient $(( $(best "$path" 8) - none )) "$size")")
        fi
        held+=("$(bytes_held "$path" "$size")")
    done
    row "$what" "nanoseconds $unit" "${times[@]}"
    row "$what, held" "bytes a byte" "${held[@]}"
}

# the peak memory of a program, in bytes for each byte of the script; not measured for small scripts
bytes_held() {
    if [ "$2" -lt 100000 ] || [ ! -x /usr/bin/time ]; then echo -; return; fi
    quotient $(( ($(kilobytes "$1" "$script") - $(kilobytes "$1" /dev/null)) * 1024 )) "$(wc -c < "$script")"
}

kilobytes() {
    /usr/bin/time -o "$script.held" -f %M "$1" < "$2" > /dev/null 2>&1 || true
    tail -n 1 "$script.held"
}

run_row() {
    local path held=()
    path=$(program tascript)
    [ -x "$path" ] || { unmeasured "$1" "bytes a byte"; return; }
    for size in "${sizes[@]}"; do
        long_lines "$size" > "$script"
        held+=("$(bytes_held "$path" "$size")")
    done
    row "$1" "bytes a byte" "${held[@]}"
}

cat << END
# Measurements

$(made_by 'bench/table.sh')

Times are processor time, the fastest of some runs, less the time of the same program with nothing
to do. The last column is the last value divided by the first. A dash: not measured.

END
printf '| what | unit | 1,000 | 10,000 | 100,000 | 1,000,000 | last to first |\n|---|---|---:|---:|---:|---:|---:|\n'
jobs_row "a key into a long wrapped line, by lines" typing text 100000 100000 100000 200000
jobs_row "a key that changes a line's rows, by lines" typing rows 200000 200000 400000 1000000
jobs_row "a line break in the first line, by lines" typing breaks 100000 50000 4000 200
jobs_row "a line break in the last line, by lines" typing last_breaks 100000 100000 200000 1000000
jobs_row "the same in only the screen map, by lines" typing map 400000 400000 400000 1000000
jobs_row "only the move of the lines' headers, by lines" typing headers 1000000 100000 4000 400
jobs_row "a character of one byte at a line's end, by its length" typing ascii 1000000 1000000 1000000 1000000
jobs_row "a character of two bytes at a line's end, by its length" typing wide 1000000 1000000 1000000 1000000
jobs_row "a character of two bytes in a line's middle, by its length" typing middle 100000 100000 20000 4000
jobs_row "only the move of bytes, by the length of the line" typing bytes 100000 100000 20000 4000
lines_row "another width, by lines" typing width 400 40 6 2
lines_row "another width, measured before, by lines" typing measured 400 40 6 2
jobs_row "a key and a frame, wrapped at words, by lines" frames Word 10000 10000 10000 100000
jobs_row "a key and a frame, not wrapped, by lines" frames None 10000 10000 10000 100000
frame_rows 2000 2000 2000 40000
requests_row "a plain frame" plain
requests_row "a frame with numbers, selection and matches" full
script_row "an edit, undone and redone, by lines" microseconds 1000 edits 4000 4000 2000 200
script_row "all lines cut, and an undo" "nanoseconds a line" 'size' cuts 1000 100 10 2
script_row "a key of a run that is typed and removed, by its length" nanoseconds '2 * size' a_run 400 40 4 1
reading_rows "a \`set_lines\` is read, by lines of 100 bytes" "a line" long_lines
run_row "the same, run and printed"
reading_rows "short commands are read" "a command" short_commands

#!/bin/sh
# Times calls of a text area from inside, in nanoseconds a call, to be compared with what
# bindings/c/cost.c and bindings/rust/examples/cost.rs print: the least of nine runs, less the least of
# nine runs with nothing to do. PROGRAM is what `rt run` in crates/textarea_bench builds.
# usage: bench/calls.sh PROGRAM
set -e
program=$1
[ -x "$program" ] || { echo "usage: bench/calls.sh PROGRAM"; exit 1; }

# nine runs of one job: the least processor time, in nanoseconds
least() {
    python3 - "$program" "$1" <<'END'
import resource, subprocess, sys

def used():
    times = resource.getrusage(resource.RUSAGE_CHILDREN)
    return times.ru_utime + times.ru_stime

def once():
    before = used()
    subprocess.run([sys.argv[1]], input=sys.argv[2].encode(), check=True, stdout=subprocess.DEVNULL)
    return used() - before

print(round(min(once() for _ in range(9)) * 1e9))
END
}

# The job insert_char types 20,000 characters into one line, a hundred times; cursor has one line.
row() {
    jobs=$(awk -v call="$1" -v count="$2" -v times="$3" 'BEGIN { for (i = 0; i < times; i++) print "calls " call " " count }')
    empty=$(awk -v times="$3" 'BEGIN { for (i = 0; i < times; i++) print "calls none 0" }')
    time=$(( $(least "$jobs") - $(least "$empty") ))
    awk -v call="$1" -v time="$time" -v count="$(( $2 * $3 ))" 'BEGIN { printf "%-14s %8.1f\n", call, time / count }'
}

row insert_char 20000 100
row cursor 2000000 20

# What bench/table.sh and bench/long.sh share; they source it. The first argument is the folder of
# the crates in which `rt run` built the programs, by default that of this repository. A program is
# run on the file $script, and a row has a value for each of the sizes.
set -e
crates=${1:-$(dirname "$0")/../crates}
script=$(mktemp /tmp/bench_script.XXXXXX)
trap 'rm -f "$script" "$script.held"' EXIT

program() { echo "$crates/$1/out/$1"; }

# the nanoseconds of processor time that one run of a program takes on the script
run_time() {
    local TIMEFORMAT='%U %S'
    { time "$1" < "$script" > /dev/null 2>&1; } 2>&1 | awk '{ printf "%.0f", ($1 + $2) * 1e9 }'
}

# the same, for the fastest of $2 runs
best() {
    local fastest= taken
    for (( turn = 0; turn < $2; turn++ )); do
        taken=$(run_time "$1")
        if [ -z "$fastest" ] || [ "$taken" -lt "$fastest" ]; then fastest=$taken; fi
    done
    echo "$fastest"
}

# a row: its label, its unit, and a value for each size
row() {
    local what=$1 unit=$2 first= last=
    shift 2
    printf '| %s | %s |' "$what" "$unit"
    for value in "$@"; do
        printf ' %s |' "$value"
        if [ "$value" != - ]; then first=${first:-$value}; last=$value; fi
    done
    awk -v first="$first" -v last="$last" 'BEGIN { if (first > 0) printf " %.2f |\n", last / first; else print " - |" }'
}

# a row that isn't measured
unmeasured() { row "$1" "$2" "${sizes[@]/*/-}"; }

quotient() { awk -v n="$1" -v d="$2" 'BEGIN { printf "%.2f", n / d }'; }

# the sentence that says by what a table is made, when, and where
made_by() {
    local model
    model=$(sed -n 's/^model name[^:]*: //p' /proc/cpuinfo | head -n 1)
    echo "Made by \`$1\` on $(date -u +%F), with commit"
    echo "$(git -C "$crates" rev-parse --short HEAD 2> /dev/null || echo unknown), on $(nproc) processors: ${model:-unknown}."
}

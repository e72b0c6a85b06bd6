# Runs a program in the terminal, and restores the terminal on every way out. A script reads this file
# with `.`, and ends with
#
#     run_in_terminal NAME ENTER LEAVE PROGRAM [ARGUMENT ..]
#
# NAME is what the user knows the program by; ENTER and LEAVE are for `printf`: what the terminal is sent
# before and after. With `program_enters=yes` the program sends ENTER first, once it has read its file;
# if it says that this was `not opened:`, it has not. What it says on standard error is printed once the
# terminal is restored. LINES and COLUMNS tell the program the size at first. TEXTAREA_SIZE names a private
# file, which has the size whenever it may have changed; where there can be none, the size stays the first
# one. The terminal is never asked while the program draws, since the question could get into a frame.
# Ctrl T suspends the program.

# Prints the name of a new private file, in the first folder that can have one.
private_file() {
    for folder in "${TMPDIR:-/tmp}" /tmp "$XDG_RUNTIME_DIR" "$HOME"; do
        [ -n "$folder" ] && mktemp "$folder/$name-$1-XXXXXX" 2> /dev/null && return
    done
}
tell_size() {
    writes=$((writes + 1))
    [ -z "$TEXTAREA_SIZE" ] || { echo "$(stty size) $writes" > "$TEXTAREA_SIZE"; } 2> /dev/null
}

# Gives the terminal to the program: a read returns after a tenth of a second if nothing comes, and of
# the keys that send signals only Ctrl T is left, which suspends.
take_terminal() {
    stty raw -echo isig noflsh intr undef quit undef susp '^T' min 0 time 1
}
give_terminal_back() {
    grep -q 'not opened:' "$errors" 2> /dev/null || printf "$leave"
    stty "$settings"
}
restore_terminal() {
    trap '' INT QUIT TERM HUP USR1 USR2 ALRM PIPE SEGV BUS ABRT ILL TRAP FPE SYS XCPU XFSZ VTALRM PROF TSTP CONT WINCH
    trap - EXIT
    [ -z "$child" ] || kill "$child" 2> /dev/null
    give_terminal_back
    [ -z "$TEXTAREA_SIZE" ] || rm -f "$TEXTAREA_SIZE"
    [ -f "$errors" ] || return
    sed "s/^Error: /$name: /" "$errors" >&2
    rm -f "$errors"
}
# The program stops and goes on with the script.
suspend() {
    give_terminal_back
    [ -z "$child" ] || kill -STOP "$child" 2> /dev/null
    kill -STOP $$
}
# The terminal's size may be another one now, and the program draws all again. A shell's fg has the program
# go on too, maybe before the terminal is raw: its read then waits for a line, and is begun again by a stop.
go_on() {
    printf "$enter"
    take_terminal
    [ -z "$child" ] || { kill -STOP "$child" && kill -CONT "$child"; } 2> /dev/null
    tell_size
}

run_in_terminal() {
    name=$1 enter=$2 leave=$3
    shift 3
    settings=$(stty -g) || exit 1
    size=$(stty size)
    LINES=${size% *} COLUMNS=${size#* }
    [ "$LINES" -gt 0 ] 2> /dev/null && [ "$COLUMNS" -gt 0 ] || { LINES=24 COLUMNS=80; }
    TEXTAREA_SIZE=$(private_file size)
    export LINES COLUMNS TEXTAREA_SIZE
    errors=$(private_file errors)
    errors=${errors:-/dev/null}
    writes=0 child=
    trap restore_terminal EXIT
    for signal in HUP:129 INT:130 QUIT:131 ILL:132 TRAP:133 ABRT:134 BUS:135 FPE:136 USR1:138 SEGV:139 USR2:140 PIPE:141 ALRM:142 TERM:143 \
            XCPU:152 XFSZ:153 VTALRM:154 PROF:155 SYS:159; do
        trap "exit ${signal#*:}" "${signal%:*}"
    done
    trap suspend TSTP
    trap go_on CONT
    trap tell_size WINCH
    [ "$program_enters" = yes ] || printf "$enter"
    take_terminal
    [ "$size" != "0 0" ] || printf '\033[18t'
    # In the background, so that signals reach the script at once; the terminal stays its input.
    exec 3<&0
    "$@" <&3 3<&- 2> "$errors" &
    child=$!
    wait $child
    status=$?
    while [ $status -gt 128 ] && kill -0 $child 2> /dev/null; do
        wait $child
        status=$?
    done
    child=
    restore_terminal
    [ $status -le 128 ] || echo "$name: the program was ended by signal $((status - 128)); what was not saved is lost" >&2
    exit $status
}

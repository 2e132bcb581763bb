# shellcheck shell=bash
# shellcheck disable=SC2034 # store_figures.bash has what takes the programs
# Measures sessions of ./mailfile and intakes of ./mailfile-store beside libsqlite3, which scripts/captures.c calls with prepared
# statements on the same rows. scripts/speed.bash sources this file after store_figures.bash.

: "${folder:?}" "${root:?}" "${RUNS:?}"

# The messages, their octets, of which the second number just passes a page of the file, and the octets of the line of an event.
readonly CAPTURED=${CAPTURED:-10000} LENGTHS=(2000 2048) LINE=226

# What libsqlite3 takes for the messages, with so many in a transaction and, where that is asked, events: the microseconds of the
# processor, and those on the clock. Each is the least of some runs.
by_libsqlite3() {
    local turn
    for ((turn = 0; turn < RUNS; turn++)); do
        rm -f -- "$here/plain"*
        "$folder/captures" "$here/plain" "$here/all" "$length" "$@" || return
    done | least_of_both
}

# The least of each of two columns.
least_of_both() {
    awk 'NR == 1 || $1 < a { a = $1 } NR == 1 || $2 < b { b = $2 } END { print a, b }'
}

# The same of a command, each time after another one.
by_command() {
    local turn TIMEFORMAT='%U %S %R'
    for ((turn = 0; turn < RUNS; turn++)); do
        $1 || return
        if ! { time "${@:2}" > "$here/said" 2> "$here/told"; } 2> "$here/spent"; then
            cat -- "$here/told" >&2
            return 1
        fi
        awk '{ print ($1 + $2) * 1e6, $3 * 1e6 }' "$here/spent"
    done | least_of_both
}

# A row of two measures: microseconds of the processor for each message, those on the clock, and how much of the rate is reached.
capture_row() {
    awk -v what="$1" -v own="$2" -v other="$3" -v beside="$4" -v count="$CAPTURED" 'BEGIN {
        split(own, a); split(beside, b)
        printf "| %s | %.0f | %.0f | %s | %.0f | %.0f | %.2f | %.2f |\n", what, a[1] / count, a[2] / count, other,
            b[1] / count, b[2] / count, b[1] / a[1], b[2] / a[2]
    }'
}

new_maildir_with_history() {
    rm -rf -- "$here/store"* "$here/box" && "$keeper" create --store "$here/store" --plan "$here/plan.toml" --by bench &&
        mkdir -p -- "$here/box/new" "$here/box/cur" && write_messages "$CAPTURED" "$length" "$here/box/new"
}

take_over_with_history() {
    "$keeper" intake --store "$here/store" --rules "$here/rules" --by bench ann "$here/box"
}

# The rows of a length: sessions, and intakes with a history, beside libsqlite3 with one message in a transaction and with 64.
length_rows() {
    local length=$1 own what="$CAPTURED messages of $1 octets, $place"
    mkdir -p -- "$here/messages" && write_messages "$CAPTURED" "$length" "$here/messages" && cat -- "$here/messages"/* > "$here/all" &&
        { cat -- "$here/commands" && write_messages "$CAPTURED" "$length"; } > "$here/session" && rm -rf -- "$here/messages" || return
    own=$(by_command new_store serve_file "$here/session") || return
    capture_row "a session with BEGIN, TURN and FINISH of $what" "$own" "one in a transaction" "$(by_libsqlite3 1)"
    own=$(by_command new_maildir_with_history take_over_with_history) || return
    capture_row "an intake with a history, of $what" "$own" "one in a transaction" "$(by_libsqlite3 1 "$LINE")"
    capture_row "the same" "$own" "64 in a transaction" "$(by_libsqlite3 64 "$LINE")"
}

# The rows of a place, in a folder.
capture_rows_in() {
    local here=$1 place=$2 octets
    write_rules || return
    for octets in "${LENGTHS[@]}"; do
        length_rows "$octets" || return
    done
}

# The table of captures.
capture_figures() {
    local keeper mailfile
    ensure_program mailfile
    ensure_program mailfile_store
    mailfile=$(program_of mailfile) keeper=$(program_of mailfile_store)
    cc -O2 -o "$folder/captures" "$root/scripts/captures.c" -lsqlite3 || give_up "there is no libsqlite3 to be measured beside"
    echo "| measure | µs | on the clock | libsqlite3 | µs | on the clock | of its rate | on the clock |"
    echo "|---|---|---|---|---|---|---|---|"
    [[ -z $memory ]] || capture_rows_in "$memory" "over files in memory" || return
    capture_rows_in "$folder" "in a file" || return
}

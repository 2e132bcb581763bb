# shellcheck shell=bash
# shellcheck disable=SC2317 # count calls its checks by name
# Lets streams fail, and what the program does with the file of its store. scripts/failing.bash sources this file.

: "${root:?}" "${work:?}"

readonly CAPTURES=1000 KILLS=100

# The octets of a page, of a log's header, and of a page's header in the log (SQLite's file format, sections 1.3 and 4.1).
readonly PAGE=4096 LOG_HEAD=32 FRAME_HEAD=24

# Ends a mail server that was started, and removes a disk that was made, and the files.
clear_up() {
    end_lanes
    stop_postfix
    umount -- "$work/disk" 2> /dev/null
    rm -rf -- "$work" ${in_memory:+"$in_memory"}
}

# The sessions that are also cut, by number.
readonly CUT=('' a-first-class-and-a-first-message scripts-of-an-officer-that-include-each-other captures-with-images-turn-by-turn
    a-record-that-is-held-revised-and-destroyed commands-that-are-refused)

# The commands of such a session, as the programs of trials/ read them: a line `send TEXT` for each, in which each octet is `\xHH`,
# and after it a line `want TEXT` for each line of its answers.
commands_of() {
    local octets said end lines from=0 shown=0
    octets=$(od -A n -v -t x1 -- sessions/*/"$1.session" | tr -d ' \n' | sed 's/../\\x&/g')
    mapfile -t said < <(cat -- sessions/*/"$1.expected")
    while read -r end lines _; do
        ((end > 0)) || continue
        echo "send ${octets:from * 4:(end - from) * 4}"
        for ((; shown < lines; shown++)); do
            echo "want ${said[shown]}"
        done
        from=$end
    done < <(cat -- sessions/*/"$1.cuts")
}

# All of these sessions, without their answers.
cut_sessions() {
    local name
    for name in "${CUT[@]:1}"; do
        echo "case $name" && commands_of "$name" | grep '^send '
    done
}

# Lets streams and files fail, with a line for each session and each trial.
streams() {
    local file=$work/said
    ensure_trial trials
    cut_sessions > "$work/cut"
    count "reads, writes and files that fail" "$(trial_program trials)" failing < "$work/cut" > "$file"
    cat -- "$file"
    count "something was tried" test -s "$file"
    group streams
}

# A session of a number of captures. Each makes one record; the first is due two days after 1970-01-01, the next three days, and so
# on.
captures() {
    local number
    printf 'PLAN 23\nroot = "1 days review"\n'
    for ((number = 1; number <= $1; number++)); do
        printf 'BEGIN ann %d 6\nhello\nTURN %d 1\nFINISH %d\n' $((86400 * number)) "$number" "$number"
    done
}

# Serves a session over a store.
serve() {
    "$program" --store "$1" 2> "$work/error"
}

# The record lines of a store, as a new session reports them.
records_of() {
    echo "DUE 9999-12-31" | serve "$1" | grep '^record '
}

# The record lines in some replies, without one that is cut off.
reported_records() {
    if [[ -n $(tail -c 1 -- "$1") ]]; then
        sed '$d' -- "$1"
    else
        cat -- "$1"
    fi | grep '^record '
}

# Whether a store has each record that was reported, in order, at most a given number more, and no gap in their numbers.
keeps_what_was_reported() {
    local reported kept
    records_of "$1" > "$work/kept"
    reported_records "$2" > "$work/reported"
    reported=$(wc -l < "$work/reported")
    kept=$(wc -l < "$work/kept")
    ((reported <= kept && kept <= reported + $3)) && head -n "$reported" -- "$work/kept" | cmp -s - "$work/reported" &&
        cut -d ' ' -f 2 -- "$work/kept" | cmp -s - <(seq 1 "$kept")
}

# Whether a store takes one more capture, under the next number.
goes_on() {
    local kept
    kept=$(records_of "$1" | wc -l)
    printf 'BEGIN ann 0 0\nTURN 1 1\nFINISH 1\n' | serve "$1" > "$work/answer" &&
        grep -q "^record $((kept + 1)) class unfiled " "$work/answer"
}

# Kills the program a number of seconds after its start, in a session of captures.
kill_after() {
    local process store=$work/killed
    rm -f -- "$store"*
    "$program" --store "$store" < "$work/session" > "$work/replies" 2> "$work/error" &
    process=$!
    sleep "$1"
    {
        kill -KILL "$process"
        wait "$process"
    } 2> "$work/said"
    keeps_what_was_reported "$store" "$work/replies" 1 && goes_on "$store"
}

# The least time of five runs of the session of captures, in microseconds.
session_span() {
    local began turn
    for turn in {1..5}; do
        began=$(date +%s%N)
        serve "$work/whole$turn" < "$work/session" > "$work/replies"
        echo $((($(date +%s%N) - began) / 1000))
    done | sort -n | head -n 1
}

# Kills the program at random moments, and reports how many records there were.
kills() {
    local span number kept=()
    span=$(session_span)
    for ((number = 1; number <= KILLS; number++)); do
        count "kill $number" kill_after "$(awk -v span="$span" -v by="$RANDOM" 'BEGIN { printf "%.6f", span * by / 32768 / 1e6 }')"
        kept+=("$(wc -l < "$work/kept")")
    done
    echo "kept after a kill: $(printf '%s\n' "${kept[@]}" | sort -n | tr '\n' ' ')records"
    group "a process that is killed"
}

# Serves the session of captures where no file can grow above a number of kilobytes.
serve_limited() (
    trap '' XFSZ
    ulimit -f "$1"
    exec "$program" --store "$2" < "$work/session" 2> "$work/said"
)

# Whether everything reported is in the store although files could not grow, and the store works again once they can.
survives_a_limit() {
    rm -f -- "$work/limited"*
    serve_limited "$1" "$work/limited" | cat > "$work/replies"
    keeps_what_was_reported "$work/limited" "$work/replies" 1 && goes_on "$work/limited"
}

# Whether the same holds, and a session met the limit: a command was refused 89.
meets_a_limit() {
    survives_a_limit "$1" && grep -q -x "refused 89" "$work/replies"
}

# Whether the same holds of a disk of a number of kilobytes, which is then made larger.
survives_a_full_disk() {
    local store=$work/disk/store
    mount -t tmpfs -o "size=$1k" none "$work/disk" || return
    serve "$store" < "$work/session" > "$work/replies"
    mount -o remount,size=64m "$work/disk" && grep -q -x "refused 89" "$work/replies" &&
        keeps_what_was_reported "$store" "$work/replies" 1 && goes_on "$store"
    local status=$?
    umount "$work/disk"
    return "$status"
}

# Files that can't grow, and full disks. 200 kilobytes have no room even for the tables of an empty store.
full_disks() {
    local size
    for size in 0 4 8 16 32 64 100 150 200; do
        count "files of $size kilobytes" survives_a_limit "$size"
    done
    for size in 350 400 500 700 1000 2000 4000; do
        count "files of $size kilobytes" meets_a_limit "$size"
    done
    mkdir -- "$work/disk"
    if ((EUID == 0)) && mount -t tmpfs none "$work/disk" 2> "$work/said" && umount "$work/disk"; then
        for size in 400 700 1000 2000 4000; do
            count "a disk of $size kilobytes" survives_a_full_disk "$size"
        done
    else
        echo "no disk was filled: that takes the rights of root"
    fi
    group "a disk that is full"
}

# Whether the program finds no store in a file, and the file stays as it is.
is_no_store() {
    local status=0
    cp -- "$1" "$work/before"
    as_other "$work/program" --store "$1" < "$work/session" > "$work/answer" 2> "$work/error" || status=$?
    [[ $status -eq 3 && ! -s $work/answer && $(< "$work/error") == "mailfile: no store" ]] && cmp -s "$1" "$work/before"
}

# Starts a program as a user who is bound by file permissions.
as_other() {
    if ((EUID == 0)); then
        setpriv --reuid=65534 --regid=65534 --clear-groups "$@"
    else
        "$@"
    fi
}

# Makes a store of few captures under a name.
small_store() {
    captures 20 | serve "$work/$1" > "$work/answer"
}

# Whether a store of another version is refused, while one copied in the same way is not.
refuses_another_version() {
    local copy=$work/other-version
    sqlite3 "$work/small" .dump | sqlite3 "$copy" && [[ $(records_of "$copy" | wc -l) -eq 20 ]] &&
        sqlite3 "$copy" "PRAGMA wal_checkpoint(TRUNCATE); UPDATE meta SET value = '3' WHERE key = 'version';" > "$work/answer" &&
        chmod 666 "$copy"* && is_no_store "$copy"
}

# Whether a store with read-only files is refused.
refuses_read_only() {
    small_store fixed && chmod 444 "$work/fixed"* && is_no_store "$work/fixed"
}

# Tries files that are no store of the program.
other_files() {
    cp -- "$program" "$work/program" && chmod 755 "$work" "$work/program"
    small_store small
    count "a file that can only be read" refuses_read_only
    cp -- README.md "$work/page" && chmod 666 "$work/page"
    count "a text" is_no_store "$work/page"
    head -c 100000 < /dev/urandom > "$work/noise" && chmod 666 "$work/noise"
    count "octets by chance" is_no_store "$work/noise"
    if command -v sqlite3 > "$work/said"; then
        count "another version" refuses_another_version
    else
        echo "no store of another version was tried: that takes sqlite3"
    fi
    group "a file that is no store"
}

# Notes what a store reported after its log or file was damaged.
note_outcome() {
    local what=$1
    if (($2 == 3)); then
        echo "$what was refused"
    elif grep -q -x "refused 89" "$work/answer"; then
        echo "$what reported a refusal"
    else
        echo "$what reported $(if cmp -s "$work/reported" "$work/all"; then echo all; else echo "some of the first records, or none"; fi)"
    fi >> "$work/outcomes"
}

# Whether a damaged store reports the first of its records and nothing else, or is refused and stays as it is.
reports_no_other() {
    local status=0
    cp -- "$1" "$work/before"
    echo "DUE 9999-12-31" | serve "$1" > "$work/answer" || status=$?
    grep '^record ' "$work/answer" > "$work/reported"
    note_outcome "$2" "$status"
    if ((status == 3)); then
        [[ ! -s $work/answer ]] && cmp -s "$1" "$work/before"
        return
    fi
    ((status == 0)) && head -n "$(wc -l < "$work/reported")" -- "$work/all" | cmp -s - "$work/reported" &&
        ! grep -v '^record ' "$work/answer" | grep -q -v -E -x '(ok|end|refused 89)'
}

# Copies the whole store to one that will be damaged.
copy_store() {
    rm -f -- "$work/damaged"*
    cp -- "$work/small" "$work/damaged" && cp -- "$work/small-wal" "$work/damaged-wal"
}

# Whether the store reports no other records when one of its files, named by its ending, is cut off at a place.
survives_a_cut() {
    copy_store && truncate -s "$2" -- "$work/damaged$1" && reports_no_other "$work/damaged" "$3 cut off"
}

# Whether the same holds when an octet of a file is changed.
survives_an_octet() {
    copy_store && printf '\x5a' | dd of="$work/damaged$1" bs=1 seek="$2" conv=notrunc status=none && reports_no_other "$work/damaged" "$3 with another octet"
}

# Cuts a file of the store off at each page, and changes an octet of each page. The arguments are the file's ending, its name, and
# the octets of its header and of a page.
damage_file() {
    local ending=$1 name=$2 head=$3 page=$4 size place octet
    size=$(stat -c %s -- "$work/small$ending")
    for ((place = 0; place < size; place += place == 0 && head > 0 ? head : page)); do
        octet=$((place + RANDOM % page))
        count "$name cut off at $place" survives_a_cut "$ending" "$place" "$name"
        count "$name with another octet at $octet" survives_an_octet "$ending" $((octet < size ? octet : place)) "$name"
    done
}

# Makes a store of few captures whose program was killed, so that they are in the log next to the file. A normal end would copy the
# log into the file.
small_store_with_log() {
    local to process
    mkfifo -- "$work/captures"
    "$program" --store "$work/$1" < "$work/captures" > "$work/replies" 2> "$work/error" &
    process=$!
    exec {to}> "$work/captures"
    captures 20 >&"$to"
    until (($(grep -c '^record ' "$work/replies") == 20)); do sleep 0.05; done
    {
        kill -KILL "$process"
        wait "$process"
    } 2> "$work/said"
    exec {to}>&-
}

# Damages stores: first the log that a killed program leaves, and then the file, once the log is copied into it.
damages() {
    rm -f -- "$work/small"*
    small_store_with_log small
    grep '^record ' "$work/replies" > "$work/all"
    damage_file -wal "a log" "$LOG_HEAD" $((PAGE + FRAME_HEAD))
    count "the log is put into the file" cmp -s "$work/all" <(records_of "$work/small")
    : >> "$work/small-wal"
    damage_file '' "a file" 0 "$PAGE"
    sort -- "$work/outcomes" | uniq -c
    group "a store that is damaged"
}

# Whether a second program on a store is refused while the first has it, and the first continues.
refuses_a_second() {
    local to session status=0
    mkfifo -- "$work/to"
    "$program" --store "$work/shared" < "$work/to" > "$work/answer" 2> "$work/error" &
    session=$!
    exec {to}> "$work/to"
    echo "CLASS finance" >&"$to"
    until grep -q ok "$work/answer"; do sleep 0.05; done
    "$program" --store "$work/shared" < "$work/session" > "$work/second" 2> "$work/said" || status=$?
    echo "CLASS tax" >&"$to"
    exec {to}>&-
    wait "$session" && [[ $status -eq 3 && ! -s $work/second && $(< "$work/said") == "mailfile: no store" ]] &&
        [[ $(< "$work/answer") == $'ok\nok\nend' && $(echo "CLASS tax" | serve "$work/shared") == $'refused 54\nend' ]]
}

# Tries what the program does with the file of its store.
files() {
    ensure_program mailfile
    program=$(program_of mailfile)
    captures "$CAPTURES" > "$work/session"
    kills
    full_disks
    other_files
    damages
    count "a second program" refuses_a_second
    group "two programs on one store"
}

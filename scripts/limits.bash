# shellcheck shell=bash
# shellcheck disable=SC2317,SC2034 # count calls its checks by their names, and variables are for what is sourced
# Plays each command at its limits, in the cases of sessions/limits.bash. scripts/hostile.bash sources this file after store_limits.bash.

: "${root:?}" "${work:?}"

# The room in megabytes that the stores of a case may take.
readonly STORE_ROOM=1500

# The greatest size of a process in kilobytes, and the ticks of a processor that it has had; nothing where it has ended.
size_and_ticks() {
    awk '
        $1 == "VmHWM:" { size = $2 }
        FILENAME == ARGV[2] { sub(/.*\) /, ""); ticks = $12 + $13 }
        END { if (size > 0) print size, ticks }' "/proc/$1/status" "/proc/$1/stat" 2> /dev/null
}

# Runs a program with its words, and adds its seconds and those of a processor; keeps the greatest size that the system reports of the
# process. It looks some fifty times a second, so of a short run it sees too little, or nothing.
measured() {
    local process seen size ticks=0 began=${EPOCHREALTIME/[.,]/} status=0
    "$@" <&0 &
    process=$!
    while seen=$(size_and_ticks "$process") && [[ -n $seen ]]; do
        read -r size ticks <<< "$seen"
        ((size <= greatest)) || greatest=$size
        sleep 0.01
    done
    wait "$process" || status=$?
    spent=$((spent + ${EPOCHREALTIME/[.,]/} - began))
    worked=$((worked + ticks))
    return "$status"
}

# Serves a session in place of the program.
served() {
    measured "$mailfile" "$@"
}

# Whether the rows that a query of the store finds are those of a file, where sqlite3 is there to ask.
has_rows() {
    [[ ! -f $1.sql || -z $sqlite3 ]] || "$sqlite3" -batch "$2" < "$1.sql" | cmp -s - "$1.rows"
}

# Plays the parts of a case over one store, and looks into the store after each. Where mailfile-store is asked after them, what that
# takes is measured alone.
limit_as_expected() {
    local part here=$scratch after=after_${1##*/}
    rm -f -- "$scratch/store"*
    [[ ! -f $1/0.sql ]] || "$sqlite3" -batch "$scratch/store" < "$1/0.sql" || return
    for ((part = 1; part <= $(find "$1" -name '*.session' | wc -l); part++)); do
        answers_as_expected "$1/$part.session" "$scratch" --store "$scratch/store" || return
        has_rows "$1/$part" "$scratch/store" || {
            echo "failed: the rows of part $part in the store"
            return 1
        }
    done
    if declare -F "$after" > "$work/said"; then
        spent=0 worked=0 greatest=0
        "$after" "$1"
    fi
}

# Writes and plays a case, of which the second argument says what it shows, and says what it took.
limit() {
    local spent=0 worked=0 greatest=0 folder=$work/$1
    mkdir -- "$folder" || return
    if ! "$root/sessions/limits.bash" "$1" "$folder"; then
        count "the case $1 is written" false
    elif [[ -f $folder/0.sql && -z $sqlite3 ]]; then
        echo "not played: $2; that takes sqlite3"
    else
        count "$2" limit_as_expected "$folder"
        awk -v spent=$spent -v worked=$worked -v each="$(getconf CLK_TCK)" -v size=$greatest -v what="$2" \
            'BEGIN { printf("%6.1f s %6.1f s of a processor %5.0f MB   %s\n", spent / 1e6, worked / each, size / 1000, what) }'
    fi
    rm -rf -- "$folder" "${scratch:?}"/*
}

# Makes a folder for the stores, in memory if the system has room there. Elsewhere each command that changes one waits for a disk.
make_scratch() {
    if (($(df --output=avail -m /dev/shm 2> /dev/null | tail -n 1) > STORE_ROOM)); then
        scratch=$(mktemp -d -p /dev/shm 2> /dev/null) && return
    fi
    scratch=$(mktemp -d) || give_up "no folder could be made for the stores"
}

# Plays the cases of some names, or all.
limits() {
    local name what mailfile program=served sqlite3 status
    ensure_program mailfile
    ensure_program mailfile_store
    mailfile=$(program_of mailfile)
    keeper=(measured "$(program_of mailfile_store)")
    sqlite3=$(command -v sqlite3) || echo "no store is looked into: that takes sqlite3"
    make_scratch
    while read -r name what; do
        if (($# == 0)) || [[ " $* " == *" $name "* ]]; then
            limit "$name" "$what"
        fi
    done < <("$root/sessions/limits.bash")
    group limits
}

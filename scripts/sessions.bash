#!/usr/bin/env bash
# Plays sessions: what `mailfile` answers to NAME.session has to be the octets of NAME.expected. A folder has parts 1.session,
# 2.session and so on, which are played in this order over one store in a file that is new at first. ./test sources this file, which
# sets `program`; run by itself, it plays the files and folders that it is given.

# Plays a session by a program with its options. What it answers goes into a folder. Prints how the answers differ, if they do.
answers_as_expected() {
    local wanted=${1%.session}.expected status=0
    "$program" "${@:3}" < "$1" > "$2/replies" 2> "$2/error" || status=$?
    if ((status == 0)) && [[ ! -s $2/error ]] && cmp -s -- "$wanted" "$2/replies"; then
        return
    fi
    echo "failed: $1, with status $status"
    { head -n 3 -- "$2/error"; diff --text -- "$wanted" "$2/replies"; } 2>&1 | head -n 8 | cut -c 1-200 | sed 's/^/| /'
    return 1
}

# Plays the parts of a folder over one store.
parts_as_expected() {
    local part=1
    rm -f -- "$2/store"*
    while [[ -f $1/$part.session ]]; do
        answers_as_expected "$1/$part.session" "$2" --store "$2/store" || return
        part=$((part + 1))
    done
}

# Plays each of `sessions` whose place, counted round by the lanes, is that of a lane.
play_lane() {
    local place session folder=$scratch/lane.$1
    mkdir -p -- "$folder" || return
    for ((place = $1; place < ${#sessions[@]}; place += lanes)); do
        session=${sessions[place]}
        if [[ -d $session ]]; then
            parts_as_expected "$session" "$folder"
        else
            answers_as_expected "$session" "$folder"
        fi && echo "ok $session"
    done > "$work/played.$1"
}

# Plays `sessions`, with one at a time on each processor, and counts them. Their stores are in memory if the system has a folder there.
play_sessions() {
    local lane lanes scratch
    scratch=$(mktemp -d -p /dev/shm 2> /dev/null) || scratch=$work
    lanes=$(nproc)
    for ((lane = 0; lane < lanes; lane++)); do
        play_lane "$lane" &
    done
    wait
    [[ $scratch == "$work" ]] || rm -rf -- "$scratch"
    cat -- "$work"/played.* > "$work/played"
    grep -v '^ok ' "$work/played"
    reported sessions "${#sessions[@]}" "$work/played" '^ok ' '^failed: '
}

# The sessions and folders of parts in a folder.
sessions_in() {
    compgen -G "$1/*.session"
    compgen -G "$1/*/1.session" | sed 's:/1\.session$::'
}

# The names in the tables of a folder's README.md, and those of its sessions.
names_shown() {
    # shellcheck disable=SC2016 # these backticks are those of the page
    sed -n -E 's/^\| `([a-z0-9-]+)` \| .+ \|$/\1/p' "$1/README.md" | sort
}
names_there() {
    sessions_in "$1" | sed 's:.*/::; s:\.session$::' | sort
}

# Whether each session of a chapter has one line in its README.md, and each line has its session.
has_titles() {
    diff <(names_there "$1") <(names_shown "$1")
}

# Makes the sessions that are too large or too many for files, and plays all, from the top of the repository.
all_sessions() {
    local folder sessions
    if [[ -x sessions/large.bash ]]; then
        mkdir -- "$work/large"
        count "the large sessions are made" sessions/large.bash "$work/large"
    fi
    for folder in sessions/[0-9]*; do
        count "each session of ${folder##*/} has its line in README.md" has_titles "$folder"
    done
    group "large sessions, and the titles of all"
    mapfile -t sessions < <(for folder in examples sessions/[0-9]* "$work/large"; do sessions_in "$folder"; done)
    play_sessions
}

if [[ ${BASH_SOURCE[0]} == "$0" ]]; then
    root=$(dirname -- "$(dirname -- "$(readlink -f -- "$0")")")
    self=sessions
    work=$(mktemp -d) || exit 125
    trap 'rm -rf -- "$work"' EXIT
    # shellcheck source=scripts/counts.bash
    . "$root/scripts/counts.bash" || exit 125
    # shellcheck source=scripts/build.bash
    . "$root/scripts/build.bash" || exit 125
    ensure_program mailfile
    program=$(program_of mailfile)
    sessions=("$@")
    play_sessions
    finish
fi

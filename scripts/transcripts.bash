#!/usr/bin/env bash
# Plays the transcripts in examples/archive/cases: types what is there, each in a folder of its own, and compares what comes. README.md
# there says how one is written. ./test sources this file; run by itself, it plays the transcripts that it is given, or all.

# Reads a transcript: sets `after` and `needs`, the words at its head, `typed`, its commands, and `wanted`, what comes of each.
read_transcript() {
    local line blanks=''
    after='' needs='' typed=() wanted=()
    while IFS= read -r line; do
        case $line in
            '$ '*) typed+=("${line#'$ '}") wanted+=('') blanks='' ;;
            '# '*) ;;
            '') blanks+=$'\n' ;;
            *)
                if ((${#typed[@]} == 0)); then
                    read_head "$line"
                elif [[ -z ${wanted[-1]}$blanks && $line == '> '* ]]; then
                    typed[-1]+=$'\n'${line#'> '}
                else
                    wanted[-1]+=$blanks$line$'\n' blanks=''
                fi
                ;;
        esac
    done < "$1"
}

# Reads a line of a head.
read_head() {
    case $1 in
        'after '*) after=${1#after } ;;
        'needs '*) needs=${1#needs } ;;
        *) echo "failed: no line of a head: $1" ;;
    esac
}

# What a file has, and a word more where its last line does not end.
lines_of() {
    cat -- "$1"
    [[ ! -s $1 || -z $(tail -c 1 -- "$1" | tr -d '\0') ]] || echo ' (without a line end)'
}

# Types a command. Sets `answer` to what it writes, each line of standard error after `! `, and to a status that is not 0, after `= `.
type_in() {
    local status=0
    eval "$1" > "$work/said" 2> "$work/error" < /dev/null || status=$?
    answer=$(
        lines_of "$work/said"
        lines_of "$work/error" | sed 's/^/! /; s/^! $/!/'
        ((status == 0)) || echo "= $status"
    )
}

# A pattern of the wanted lines, in which words in braces stand for what varies.
pattern_of() {
    local day='[0-9]{4}-[0-9]{2}-[0-9]{2}' time='[0-9]{2}:[0-9]{2}:[0-9]{2}' sum='[0-9a-f]{64}'
    # shellcheck disable=SC2016 # that is no expression
    sed -E -e 's/[][\\.*^$()+?{}|]/\\&/g' -e "s/\\\\\{today\\\\\}/$(date -u +%F)/g" -e "s/\\\\\{day\\\\\}/$day/g" \
        -e "s/\\\\\{time\\\\\}/$time/g" \
        -e "s/\\\\\{sum\\\\\}/$sum/g" <<< "$1"
}

# Plays the commands of a transcript, and says of each whether what comes is as wanted.
play_commands() {
    local index answer pattern
    cd -- "$2" || return
    set -o pipefail
    export PATH=$work/bin:$PATH LC_ALL=C LOGNAME=tess
    for index in "${!typed[@]}"; do
        type_in "${typed[index]}"
        pattern=$(pattern_of "${wanted[index]%$'\n'}")
        if [[ $answer =~ ^$pattern$ ]]; then
            echo ok
        else
            printf 'failed: %s: %s\nwhat comes:\n' "$1" "${typed[index]}"
            head -c 10000 <<< "$answer" | sed 's/^/| /'
        fi
    done
}

# Plays a transcript in a folder that is as another one has left its own, or as all begin. That other one is played first.
play_transcript() {
    local after needs typed wanted folder=$work/archives/${1//\//,} from=$root/examples/archive/inputs
    [[ ! -d $folder ]] || return 0
    read_transcript "$root/examples/archive/cases/$1.txt" || return
    [[ $(head -n 1 -- "$root/examples/archive/cases/$1.txt") == '# '* ]] || echo "failed: $1 does not begin with what it shows"
    if [[ -n $needs ]] && ! command -v "$needs" > "$work/found"; then
        return
    fi
    if [[ -n $after ]]; then
        play_transcript "$after"
        from=$work/archives/${after//\//,}
    fi
    cp -a -- "$from" "$folder"
    commands=$((commands + ${#typed[@]}))
    (play_commands "$1" "$folder")
}

# Makes a folder of commands: the programs, each with a minute at most.
make_commands() {
    local name
    mkdir -p -- "$work/archives" "$work/bin" || return
    for name in mailfile mailfile-store mailfile-tool; do
        printf "#!/bin/sh\nexec timeout --foreground 60 '%s' \"\$@\"\n" "${root//\'/\'\\\'\'}/$name" > "$work/bin/$name" &&
            chmod +x "$work/bin/$name"
    done
}

# Makes a folder that is as a transcript has left its own.
archive_after() {
    local commands=0
    make_commands && play_transcript "$1" > "$work/played" && ! grep '^failed' "$work/played" && rm -rf -- "$2" &&
        cp -a -- "$work/archives/${1//\//,}" "$2"
}

# The names of all transcripts.
transcript_names() {
    (cd -- "$root/examples/archive/cases" && find . -name '*.txt' | sed 's:^\./::; s:\.txt$::' | LC_ALL=C sort)
}

# Plays the transcripts of some names, or all.
transcripts() {
    local name names=("$@") commands=0
    (($# > 0)) || mapfile -t names < <(transcript_names)
    make_commands
    for name in "${names[@]}"; do
        play_transcript "$name"
    done > "$work/played"
    grep -v '^ok$' "$work/played"
    reported "transcripts of mailfile-store" "$commands" "$work/played" '^ok$' '^failed: '
}

if [[ ${BASH_SOURCE[0]} == "$0" ]]; then
    root=$(dirname -- "$(dirname -- "$(readlink -f -- "$0")")")
    work=$(mktemp -d) || exit 125
    trap 'rm -rf -- "$work"' EXIT
    # shellcheck source=scripts/counts.bash
    . "$root/scripts/counts.bash" || exit 125
    transcripts "$@"
    finish
fi

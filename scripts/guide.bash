#!/usr/bin/env bash
# Plays docs/GUIDE.md and README.md: types what is there after each `$`, in one shell for each page that begins at the top of the repository,
# with an empty home. The output must be what the page shows below. A last line `...` means any further output. ./test sources this file;
# run by itself, it plays the pages.

# Reads a page: `typed` has its commands, and `wanted` the output of each.
read_page() {
    local line end='' shown=''
    typed=() wanted=()
    while IFS= read -r line; do
        if [[ -n $end ]]; then
            typed[-1]+=$'\n'${line#    }
            [[ ${line#    } != "$end" ]] || end=''
        elif [[ $line == '    $ '* ]]; then
            typed+=("${line#    \$ }") wanted+=('') shown=yes
            [[ ! $line =~ \<\<\ *\'([A-Z]+)\' ]] || end=${BASH_REMATCH[1]}
        elif [[ $line == '    '* && -n $shown ]]; then
            wanted[-1]+=${line#    }$'\n'
        elif [[ -n $line ]]; then
            shown=''
        fi
    done < "$1"
}

# Whether a file has the wanted output.
is_wanted() {
    local written
    written=$(cat -- "$1"; echo .)
    written=${written%.}
    if [[ $2 == *$'...\n' ]]; then
        [[ $written == "${2%$'...\n'}"* ]]
    else
        [[ $written == "$2" ]]
    fi
}

# Has the days that README.md shows, that on which it was typed and the due date of its record, be those of today.
shown_today() {
    local today due
    today=$(date -u +%F)
    due=$((${today%%-*} + 7))-${today#*-}
    wanted=("${wanted[@]//2026-11-28/$today}")
    wanted=("${wanted[@]//2033-11-28/${due/-02-29/-02-28}}")
}

# Types the commands, and reports for each whether it wrote the wanted output.
play_page() {
    local index
    export HOME=$work/home LOGNAME=tess
    rm -rf -- "$HOME" && mkdir -p -- "$HOME" || return
    for index in "${!typed[@]}"; do
        eval "${typed[index]}" > "$work/written" 2>&1 < /dev/null
        if is_wanted "$work/written" "${wanted[index]}"; then
            echo "ok"
        else
            printf 'failed: %s\nit wrote:\n' "${typed[index]}"
            sed 's/^/| /' "$work/written"
        fi
    done
}

# Plays a page that was read.
played() {
    (play_page) > "$work/played"
    reported "commands of $1" "${#typed[@]}" "$work/played" '^ok$' '^failed: '
    grep -v '^ok$' "$work/played"
}

guide() {
    read_page README.md
    shown_today
    played README.md
    read_page docs/GUIDE.md
    played docs/GUIDE.md
}

if [[ ${BASH_SOURCE[0]} == "$0" ]]; then
    root=$(dirname -- "$(dirname -- "$(readlink -f -- "$0")")")
    cd -- "$root" || exit 125
    work=$(mktemp -d) || exit 125
    trap 'rm -rf -- "$work"' EXIT
    # shellcheck source=scripts/counts.bash
    . scripts/counts.bash || exit 125
    guide
    finish
fi

# shellcheck shell=bash
# Texts, lines and octets, for the scripts that write sessions.

# A text so many times.
times() {
    if ((${#2} == 1)); then
        printf '%*s' "$1" '' | tr ' ' "${2/\\/\\\\}"
    else
        # What `yes` says when its reader goes away is of no interest.
        yes "$2" 2> /dev/null | head -n "$1" | tr -d '\n'
    fi || true
}

# A line so many times.
lines() {
    yes "$2" 2> /dev/null | head -n "$1" || true
}

# Lines from texts.
answers() {
    printf '%s\n' "$@"
}

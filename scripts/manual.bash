# shellcheck shell=bash
# shellcheck disable=SC2317 # count calls its checks by their names
# Checks the manual pages: their form, and that they have all that --help lists. ./test sources this file.

: "${work:?}"

# The options and subcommands that the help of a program or subcommand lists.
listed_in_help() {
    "$@" --help | sed -n -E 's/^ {2,6}(-[a-zA-Z], )?(--[a-z-]+|-[a-zA-Z]|[a-z]+)( .*|$)/\2/p' | grep -v -x -E -e 'help|--help|--version'
}

# The subcommands of a program.
subcommands_of() {
    listed_in_help "$1" | grep -v '^-'
}

# All that the help of a program lists, also for its subcommands.
listed() {
    local word
    listed_in_help "$1"
    for word in $(subcommands_of "$1"); do
        listed_in_help "$1" "$word"
    done
}

# Whether a page names each option and subcommand of its program.
has_all() {
    local word
    for word in $(listed "./$1"); do
        has_item "$1" "${word#-}" || return
    done
}

# Whether a page has an item for a word.
has_item() {
    grep -q -E -e "^\.It (Fl|Cm|Ic) $2( |$)" "man/$1.1" && return
    echo "not in man/$1.1: $2"
    return 1
}

# Whether the page of mailfile has each command of a session that docs/SPECIFICATION.md has.
has_commands() {
    local word
    # shellcheck disable=SC2013 # a name is one word
    for word in $(sed -n '/^### 8.2/,/^### 8.3/s/^| `\([A-Z]*\).*/\1/p' docs/SPECIFICATION.md); do
        has_item mailfile "$word" || return
    done
}

# Whether mandoc finds nothing to say of a page. It looks for the pages that a page names where it is started.
is_well_formed() {
    [[ -z $(cd man && mandoc -T lint "$1.1" | tee -a /dev/stderr) ]]
}

manual() {
    local name
    count "the commands of a session are in man/mailfile.1" has_commands
    for name in "${PROGRAMS[@]//_/-}"; do
        count "what --help lists is in man/$name.1" has_all "$name"
        if command -v mandoc > "$work/said"; then
            count "the form of man/$name.1" is_well_formed "$name"
        fi
    done
    group "manual pages"
}

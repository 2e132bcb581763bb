#!/usr/bin/env bash
# shellcheck disable=SC2317,SC2016,SC2034 # count calls its checks by names, variables are for what is sourced, and `$` is for inner shells
# Checks that bash and zsh complete each subcommand and option that --help lists. ./test sources this file; run by itself, it checks them.

: "${work:=$(mktemp -d)}"

# What bash offers for the last of some words.
offered_by_bash() {
    bash -c 'compopt() { :; }; . completions/mailfile.bash; COMP_WORDS=("$@") COMP_CWORD=$(($# - 1)); _mailfile; printf "%s\n" "${COMPREPLY[@]}"' - "$@"
}

# What zsh offers for the last of some words: the subcommands and options that the function gives to those of zsh.
offered_by_zsh() {
    zsh -f -c '
        setopt extendedglob
        _arguments() { print -rl -- ${${@#\(*\)}%%[=\[]*} }
        _describe() { print -rl -- ${${(P)argv[-1]}%%:*} }
        fpath=($PWD/completions) words=("$@") CURRENT=$#
        autoload -Uz _mailfile && _mailfile' - "$@"
}

# Whether a shell offers each word that the help of a program, or of its subcommand, lists.
offers_all() {
    local word
    { "offered_by_$1" "${@:2}" '' && "offered_by_$1" "${@:2}" -; } > "$work/offered"
    for word in $(listed_in_help "${@:2}") --help; do
        grep -q -x -F -e "$word" "$work/offered" && continue
        echo "not offered by $1 after ${*:2}: $word"
        return 1
    done
}

# Whether zsh itself, at a terminal, completes an option.
completes_in_zsh() {
    timeout 20 zsh -f -c '
        zmodload zsh/zpty
        zpty shell TERM=dumb zsh -f -i
        zpty -w shell "fpath=($PWD/completions \$fpath) PS1=; autoload -Uz compinit && compinit -D && echo re""ady"
        zpty -r -m shell said "*ready*"
        zpty -w -n shell "./mailfile-store list --store records.db --cs"$'"'\\t'"'
        zpty -r -m shell said "*--csv*"'
}

completions() {
    local shell command word
    for shell in bash zsh; do
        command -v "$shell" > "$work/said" || continue
        for command in "${PROGRAMS[@]//_/-}"; do
            count "$shell, $command" offers_all "$shell" "./$command"
            for word in $(subcommands_of "./$command"); do
                count "$shell, $command $word" offers_all "$shell" "./$command" "$word"
            done
        done
    done
    if command -v zsh > "$work/said"; then
        count "zsh at a terminal" completes_in_zsh
    else
        echo "there is no zsh to try"
    fi
    group "words that shells complete"
}

if [[ ${BASH_SOURCE[0]} == "$0" ]]; then
    cd -- "$(dirname -- "$(dirname -- "$(readlink -f -- "$0")")")" || exit 125
    trap 'rm -rf -- "$work"' EXIT
    root=$PWD self=completions
    for part in programs counts manual; do
        # shellcheck source=/dev/null
        . "scripts/$part.bash" || exit 125
    done
    completions
    finish
fi

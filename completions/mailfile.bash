# shellcheck shell=bash
# Completes subcommands, options, files, folders and officers of mailfile, mailfile-store and mailfile-tool in bash. What there is, is read
# from what the program itself says by --help. ./install puts this file where bash-completion looks for it.

# Reads the help of a program or subcommand: sets `commands`, `arguments`, and for each option in `values` the name of its value, if any.
_mailfile_read_help() {
    local line part='' option
    local command='^  ([a-z]+) ' argument='^  [<[]([A-Z]+)[]>]([.]*)' options='^  (-[a-zA-Z])?(, |    )?(--[a-z-]+)?( <([^>]+)>)?'
    while IFS= read -r line; do
        if [[ $line =~ ^([A-Z][a-z]+): ]]; then
            part=${BASH_REMATCH[1]}
        elif [[ $part == Commands && $line =~ $command ]]; then
            commands+=("${BASH_REMATCH[1]}")
        elif [[ $part == Arguments && $line =~ $argument ]]; then
            arguments+=("${BASH_REMATCH[1]}${BASH_REMATCH[2]}")
        elif [[ $part == Options && $line =~ $options ]]; then
            for option in ${BASH_REMATCH[1]} ${BASH_REMATCH[3]}; do
                values[$option]=${BASH_REMATCH[5]}
            done
        fi
    done < <("$@" --help 2> /dev/null < /dev/null)
}

# The path that a typed word means, where it has no more than quotation marks, backslashes and a tilde in front.
_mailfile_plain() {
    local word=${1//[\\\"\']/}
    printf '%s' "${word/#\~\//$HOME/}"
}

# Takes the words between the subcommand and the one that is completed: leaves in `values` the options that were not given, in `arguments`
# those that are still to come, and sets `expected` to the name of the value that comes next, and `rules` to the folder of the rules.
_mailfile_pass() {
    local word
    expected='' rules=''
    for word in "$@"; do
        if [[ $expected != '' ]]; then
            [[ $word != = ]] || continue
            [[ $expected != FOLDER ]] || rules=${rules:-$word}
            expected=''
        elif [[ $word == -* && ${values[$word]+listed} ]]; then
            expected=${values[$word]}
            unset -v "values[$word]"
        elif [[ $word != -* && ${arguments[0]-} != *... ]]; then
            arguments=("${arguments[@]:1}")
        fi
    done
}

# Offers what may stand for a value. Files and folders are found by readline.
_mailfile_offer() {
    local script officer
    case ${1%...} in
        FILE | PLAN | SCRIPT | MESSAGE | IMAGE | NEW | SOURCE) compopt -o default ;;
        FOLDER | DIR | MAILDIR) compopt -o dirnames ;;
        OFFICER)
            for script in "$(_mailfile_plain "$rules")"/*/main.sieve; do
                officer=${script%/main.sieve} && officer=${officer##*/}
                [[ ! -f $script || $officer == global || $officer != "$word"* ]] || COMPREPLY+=("$officer")
            done
            ;;
        *) return 1 ;;
    esac
}

_mailfile() {
    local program word=${COMP_WORDS[COMP_CWORD]} first=1 commands=() arguments=() expected rules
    local -A values=()
    COMPREPLY=()
    [[ $word != = ]] || word=''
    program=$(_mailfile_plain "${COMP_WORDS[0]}")
    _mailfile_read_help "$program"
    if ((COMP_CWORD > 1 && ${#commands[@]} > 0)); then
        first=2 values=()
        if [[ ${COMP_WORDS[1]} != help ]]; then
            commands=()
            _mailfile_read_help "$program" "${COMP_WORDS[1]}"
        fi
    fi
    _mailfile_pass "${COMP_WORDS[@]:first:COMP_CWORD - first}"
    if [[ $expected != '' ]]; then
        _mailfile_offer "$expected"
    elif [[ $word == -* ]] || ! _mailfile_offer "${arguments[0]-}"; then
        mapfile -t COMPREPLY < <(compgen -W "${commands[*]} ${!values[*]}" -- "$word")
    fi
}

complete -F _mailfile mailfile mailfile-store mailfile-tool

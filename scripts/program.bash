# shellcheck shell=bash
# shellcheck disable=SC2317 # count calls its checks by their names
# Tests what ./mailfile does with command lines, streams and the file of its store. ./test sources this file.

: "${work:?}"

# Whether the program ends with that status and that text on standard error; standard input and output are the caller's.
ends() {
    local status=0
    ./mailfile "${@:3}" 2> "$work/error" || status=$?
    [[ $status -eq $1 && $(cat "$work/error") == "$2" ]]
}

# Whether a command line is refused with a text on standard error and nothing on standard output.
refuses() {
    local status=0
    ./mailfile "$@" < /dev/null > "$work/answer" 2> "$work/error" || status=$?
    [[ $status -eq 2 && -s $work/error && ! -s $work/answer ]]
}

# Whether a command line is answered on standard output alone.
tells() {
    ./mailfile "$@" < /dev/null > "$work/answer" 2> "$work/error" && [[ -s $work/answer && ! -s $work/error ]]
}

write_to_full() {
    ends 1 "mailfile: write fault" < examples/first.session > /dev/full
}

read_folder() {
    ends 1 "mailfile: read fault" < / > "$work/answer"
}

word_that_is_no_text() {
    ends 2 "" $'\xff' < /dev/null > "$work/answer"
}

# Whether a session over the store in a file is answered with that text.
answers_over() {
    ./mailfile --store "$1" > "$work/answer" 2> "$work/error" && [[ $(cat "$work/answer") == "$2" && ! -s $work/error ]]
}

# Whether the records of a session are there in the next one over the same file.
keeps_records() {
    local store=$work/kept
    printf 'PLAN 25\nroot = "7 years destroy"\nBEGIN ann 1700000000 0\nTURN 1 1\nFINISH 1\n' |
        answers_over "$store" $'ok\nticket 1 budget 1\nended 1\nrecord 1 class unfiled due 2030-11-14\nend' || return 1
    printf 'HOLD audit 1\nDUE 2030-11-14\nQUIT\n' | answers_over "$store" $'ok\nok\nend' || return 1
    printf 'DESTROY 1 2030-11-14\nRELEASE audit 1\nDUE 2030-11-14\nDESTROY 1 2030-11-14\nBEGIN ann 0 0\nTURN 1 1\nFINISH 1\n' |
        answers_over "$store" $'refused 81\nok\nrecord 1 class unfiled due 2030-11-14\nok\nok\nticket 1 budget 1\nended 1\nrecord 2 class unfiled due 1977-01-01\nend'
}

# Whether the program finds no store at a path.
finds_no_store() {
    ends 3 "mailfile: no store" --store "$1" < /dev/null > "$work/answer" && [[ ! -s $work/answer ]]
}

# Whether a reply can be read before more is written; standard input stays open meanwhile.
replies_at_once() {
    local to from session reply='' rest=''
    mkfifo "$work/to" "$work/from"
    ./mailfile < "$work/to" > "$work/from" 2> "$work/error" &
    session=$!
    exec {to}> "$work/to" {from}< "$work/from"
    (echo "CLASS finance" >&"$to")
    read -r -t 60 -u "$from" reply
    (echo "QUIT" >&"$to")
    read -r -t 60 -u "$from" rest
    exec {to}>&- {from}<&-
    wait "$session" && [[ $reply == ok && $rest == end ]]
}

program() {
    count "help" tells --help
    count "version" tells --version
    count "a word too many" refuses word
    count "an unknown option" refuses --nothing
    count "a word that is not UTF-8" word_that_is_no_text
    count "a store without a file" refuses --store
    count "records in a file" keeps_records
    count "a store in a folder" finds_no_store /
    count "a store in a folder that is not there" finds_no_store "$work/nowhere/store"
    cp -- README.md "$work/page"
    count "a store in a file of another kind" finds_no_store "$work/page"
    count "a reply before more is read" replies_at_once
    count "a write that fails" write_to_full
    count "a read that fails" read_folder
    group program
}

# shellcheck shell=bash
# shellcheck disable=SC2317 # count calls its checks by their names
# Tests that the path after --store is the path of the file, octet by octet, and what is made there. ./test sources this file, which
# uses its `count` and its folder `work`, and calls `paths` once ./mailfile can be started.

: "${work:?}"

# Whether a session over a path, in its folder, adds a class and is answered with that text.
adds_class() {
    (cd -- "$folder" && echo 'CLASS finance' | "$program" --store "$1") > "$work/answer" 2> "$work/error" &&
        [[ $(< "$work/answer") == "$2" && ! -s $work/error ]]
}

# Whether a session over a path keeps its class in the file of exactly that path, and makes no other file but the log beside it. A
# second session over the path then refuses the class, since it is there.
keeps_at() {
    local folder=$work/paths program=$PWD/mailfile
    rm -rf -- "$folder" && mkdir -- "$folder" || return 1
    adds_class "$1" $'ok\nend' && [[ -s $folder/$1 ]] && adds_class "$1" $'refused 54\nend' &&
        ! find "$folder" -mindepth 1 -printf '%f\n' | grep -q -v -x -F -e "$1" -e "$1-wal"
}

# A name of that many octets.
name_of() {
    printf "%0$1d" 0
}

# Whether a new store may be read and written by its owner alone, whatever the program's mask allows.
makes_a_private_store() {
    local folder=$work/paths program=$PWD/mailfile
    rm -rf -- "$folder" && mkdir -- "$folder" && (umask 0 && adds_class new.db $'ok\nend') &&
        [[ $(stat -c %a -- "$folder/new.db") == 600 ]]
}

# Whether a session over a store is refused before it reads its commands.
has_no_store() {
    local status=0
    (cd -- "$folder" && echo 'CLASS finance' | "$program" --store "$1") > "$work/answer" 2> "$work/error" || status=$?
    ((status == 3)) && [[ ! -s $work/answer && $(< "$work/error") == 'mailfile: no store' ]]
}

# Whether nothing is made beside a log or a journal that is there, be it empty.
makes_nothing_beside() {
    local folder=$work/paths program=$PWD/mailfile
    rm -rf -- "$folder" && mkdir -- "$folder" && : > "$folder/new.db$1" && chmod 666 "$folder/new.db$1" && has_no_store new.db &&
        [[ $(ls -A -- "$folder") == "new.db$1" && ! -s $folder/new.db$1 ]]
}

# Whether a store is refused while its log may be read by others than the file, and served again when it may not.
refuses_an_open_log() {
    local folder=$work/paths program=$PWD/mailfile
    rm -rf -- "$folder" && mkdir -- "$folder" && adds_class new.db $'ok\nend' && touch -- "$folder/new.db-wal" &&
        chmod 644 "$folder/new.db-wal" && has_no_store new.db && chmod 600 "$folder/new.db-wal" && adds_class new.db $'refused 54\nend'
}

# Counts the paths, and what is made there. Each is tried from a folder of its own.
paths() {
    count "a path that begins with a blank" keeps_at ' records.db'
    count "a path that ends with a blank" keeps_at 'records.db '
    count "a path with blanks around and inside it" keeps_at '  the  records .db  '
    count "a path of 230 octets" keeps_at "$(name_of 230)"
    count "a path with letters outside ASCII" keeps_at 'Akten für März – 記録.db'
    count "a path with a quote, a question mark and a percent sign" keeps_at "a'b?c%20d.db"
    count "a new store, which is its owner's alone" makes_a_private_store
    count "an empty log beside the path of a new store" makes_nothing_beside -wal
    count "an empty journal beside the path of a new store" makes_nothing_beside -journal
    count "a log that others may read" refuses_an_open_log
    group "paths of stores"
}

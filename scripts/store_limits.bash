# shellcheck shell=bash
# shellcheck disable=SC2154,SC2317,SC2015 # `here` and `status` come from limits.bash, which calls the functions `after_CASE` by their
# names; and `|| shows_run` only reports
# Asks mailfile-store of the stores that the sessions of some cases have left. What it is given and has to answer is in the folder of the
# case (sessions/limits/stores.bash). scripts/hostile.bash sources this file after store.bash; `here` is the folder of the store.

: "${work:?}"

# Whether the program does what its words say, and writes nothing to standard error.
does() {
    run "$@"
    ((status == 0)) && [[ ! -s $work/error ]] || shows_run
}

# The program over the store of a case, with the other words of a subcommand.
over() {
    does "$1" --store "$here/store" "${@:2}"
}

# Whether it answers with exactly that text.
over_says() {
    over "${@:2}" && [[ $(cat -- "$work/said"; echo .) == "$1." ]] || shows_run
}

# Whether it ends with that status, has those words on standard error, and answers nothing. Its input is the caller's.
over_refuses() {
    run "$3" --store "$here/store" "${@:4}"
    ((status == $1)) && [[ ! -s $work/said && $(< "$work/error") == *"$2"* ]] || shows_run
}

# Whether `list` and `check` answer of a store as a case says.
tells() {
    does list --store "$2" && cmp -- "$1/list" "$work/said" && does check --store "$2" && cmp -- "$1/check" "$work/said"
}

# Whether the report by the day of a case has its lines, in their order, and no other record for signature. Tags are no words of it.
reports_as_expected() {
    local day
    day=$(sed -n '1s/.* //p' "$1/report")
    over report --day "$day" || return
    sed -E 's/<[^>]*>/ /g; s/ +/ /g; s/^ | $//g' "$work/said" > "$work/words"
    awk 'NR == FNR { wanted[$0]; next } $0 in wanted' "$1/report" "$work/words" | cmp -- "$1/report" - &&
        (($(grep -c 'class="sign"></td>' "$work/said") == $(grep -c -E '(: audit|May be destroyed)$' "$1/report")))
}

# Whether each message of a case is shown, octet by octet, and its fields.
shows_messages() {
    local file
    for file in "$1/mail"/*; do
        over show "${file##*/}" && cmp -- "$file" "$work/said" || return
    done
    for file in "$1/fields"/*; do
        over show --fields "${file##*/}" && cmp -- "$file" "$work/said" || return
    done
}

# Whether an export of a store has the messages of a case, octet by octet, their manifest, their sums, an index, and no other file.
exports_messages() {
    local file out=$here/out messages=0
    does export --store "$2" --live "$out" && cmp -- "$1/manifest.csv" "$out/manifest.csv" || return
    for file in "$1/mail"/*; do
        cmp -- "$file" "$out/${file##*/}.eml" || return
        messages=$((messages + 1))
    done
    (cd -- "$out" && sha256sum --quiet --strict -c SHA256SUMS) && (($(wc -l < "$out/SHA256SUMS") == messages)) &&
        [[ -f $out/index.html ]] && (($(find "$out" -type f | wc -l) == messages + 3))
}

# Copies the store, as a case says.
copies_as_expected() {
    over copy "$here/copy" && cmp -- "$1/copied" "$work/said"
}

# Whether the copy, which has no log, tells what the store told.
copy_tells() {
    [[ ! -e $here/copy-wal ]] && tells "$1" "$here/copy"
}

# Whether the copy has no line of what was destroyed, and has those of other messages. A line is looked for whole, since the sum at the end
# of a page may look like the end of another line.
copy_has_nothing_destroyed() {
    grep -q -x -a -F -f "$1/kept" -- "$here/copy" && ! grep -q -x -a -F -f "$1/gone" -- "$here/copy"
}

# Whether a message of 8 MiB is delivered, and one with an octet more is refused (65), and captured nowhere.
delivers_up_to_the_limit() {
    over_refuses 65 '95: ' deliver --rules "$1/rules" --at 0 ann < "$1/over" &&
        over_says $'record 3 class finance due never\n' deliver --rules "$1/rules" --as-is --at 0 ann < "$1/mail/3" && tells "$1" "$here/store"
}

# Whether an intake captures such a message, and the other one stays.
takes_over_up_to_the_limit() {
    run intake --store "$here/store" --rules "$1/rules" ann "$1/Maildir"
    ((status == 65)) && [[ $(< "$work/said") == $'at: record 4 class finance due never\ntaken 1, stay 1, since '* ]] &&
        [[ $(wc -l < "$work/error") -eq 1 && $(< "$work/error") == 'mailfile-store: over stays: '* ]] || shows_run || return
    cmp -- "$1/over" "$1/Maildir/new/over" && cmp -- "$1/mail/3" "$1/Maildir/cur/at:2," &&
        over show 4 && cmp -- "$1/mail/3" "$work/said" && over_refuses 65 '5: 80: ' show 5
}

after_listed_records() {
    tells "$1" "$here/store" && reports_as_expected "$1" && copies_as_expected "$1" && copy_tells "$1"
}

after_shown_messages() {
    delivers_up_to_the_limit "$1" && shows_messages "$1" && exports_messages "$1" "$here/store" && takes_over_up_to_the_limit "$1"
}

after_copied_messages() {
    tells "$1" "$here/store" && copies_as_expected "$1" && copy_has_nothing_destroyed "$1" && copy_tells "$1" &&
        exports_messages "$1" "$here/copy"
}

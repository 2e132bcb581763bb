#!/usr/bin/env bash
# shellcheck disable=SC2317,SC2015 # count calls its checks by their names, and `|| shows_run` only reports
# Tests what ./mailfile-store does where no transcript can say it: for a user who may not read or write, by a wrong clock, on a disk that
# fails, where files change while it runs, where a message is damaged in the file, and where it is killed at random moments. ./test sources this file after transcripts.bash; run by itself, it plays these tests.

: "${root:=$(dirname -- "$(dirname -- "$(readlink -f -- "$0")")")}" "${work:=$(mktemp -d)}" "${self:=store}"

# What starts the program: it has a minute at most.
keeper=(timeout 60 ./mailfile-store)

# Runs the program with its words. Sets `status`, and leaves what it wrote in the files `said` and `error`.
run() {
    status=0
    "${keeper[@]}" "$@" > "$work/said" 2> "$work/error" || status=$?
}

# Does the same once a program that was killed has let go of the file, which takes it a moment.
run_once_free() {
    local turn
    for ((turn = 0; turn < 100; turn++)); do
        run "$@"
        ((status == 75)) || break
        sleep 0.1
    done
}

# Reports how the last run ended, with the beginning of what it wrote, and fails.
shows_run() {
    printf 'status %s: %s\n' "$status" "$(head -n 3 -- "$work/error")"
    head -c 10000 -- "$work/said"
    return 1
}

# ---- standard streams that are closed

# Exports without standard error, on which a number that is not found is told: that stands in none of the files.
tells_no_file() {
    archive_after captured "$here" || return
    status=0
    "${keeper[@]}" export --store "$here/records.db" "$here/out" 1 999 > "$work/said" 2>&- || status=$?
    ((status == 65)) && [[ $(< "$work/said") == "exported records 1 messages 1 octets 22 to $here/out" ]] &&
        ! grep -r 'no record of that number' "$here/out" &&
        (cd -- "$here/out" && sha256sum --quiet --strict -c SHA256SUMS) > "$work/error" 2>&1 || shows_run
}

# ---- folders and files that may not be written

# Starts the program as a user who is bound by file permissions, for whom the files of the check are.
run_as_other() {
    status=0
    if ((EUID == 0)); then
        timeout 60 setpriv --reuid=65534 --regid=65534 --clear-groups "$work/program" "$@" > "$work/said" 2> "$work/error" || status=$?
    else
        timeout 60 "$work/program" "$@" > "$work/said" 2> "$work/error" || status=$?
    fi
}
other_refuses() {
    run_as_other "${@:3}"
    ((status == $1)) && [[ $(< "$work/error") == *"$2"* ]] || shows_run
}

# Makes an archive with a Maildir that this user owns, and notes its records.
make_other_archive() {
    archive_after maildir "$here" && run list --store "$here/records.db" && ((status == 0)) && cp -- "$work/said" "$work/listed" &&
        [[ -s $work/listed ]] && cp -- "$(program_of mailfile_store)" "$work/program" && chmod 755 "$work" "$work/program" || return
    ((EUID > 0)) || chown -R 65534:65534 "$here"
}

# Whether the archive has the records that were noted, and no other.
has_its_records() {
    run list --store "$here/records.db"
    ((status == 0)) && [[ ! -s $work/error ]] && cmp -- "$work/listed" "$work/said" || shows_run
}

may_not_be_read() {
    make_other_archive && chmod 000 "$here/records.db" && other_refuses 66 'denied' list --store "$here/records.db" &&
        chmod 444 "$here/records.db" && other_refuses 66 'denied' list --store "$here/records.db" && chmod 644 "$here/records.db" &&
        has_its_records
}

makes_nothing_in_a_fixed_folder() {
    make_other_archive && mkdir "$here/fixed" && chmod 555 "$here/fixed" &&
        other_refuses 73 'denied' create --store "$here/fixed/store" --plan "$here/plan.toml" &&
        other_refuses 73 'denied' export --store "$here/records.db" "$here/fixed" &&
        other_refuses 73 'denied' export --store "$here/records.db" "$here/fixed/out" && [[ -z $(ls -A -- "$here/fixed") ]]
}

# The number of messages in a folder of the Maildir.
mail_in() {
    find "$here/Maildir/$1" -type f ! -name '.*' -printf x | wc -c
}

# Takes the Maildir over as that user, who is refused.
intake_is_refused() {
    other_refuses 75 'denied' intake --store "$here/records.db" --rules "$here/rules" ann "$here/Maildir"
}

# Where no message can be moved, none is captured.
captures_nothing_it_cannot_move() {
    local folder
    for folder in new cur; do
        make_other_archive && chmod 555 "$here/Maildir/$folder" && intake_is_refused || return
        [[ ! -s $work/said && $(mail_in new) -eq 3 && $(mail_in cur) -eq 0 ]] && has_its_records || return
    done
}

# A Maildir that may not be opened may be opened later.
may_not_open_a_maildir() {
    make_other_archive && chmod 000 "$here/Maildir" || return
    intake_is_refused
    local result=$?
    chmod 755 "$here/Maildir"
    ((result == 0)) && has_its_records
}

# A store in a folder in which no log can be made.
needs_its_folder() {
    make_other_archive && rm -f -- "$here/records.db-wal" && chmod 555 "$here" || return
    other_refuses 66 'permissions of its folder' list --store "$here/records.db"
    local result=$?
    chmod 755 "$here"
    ((result == 0)) && has_its_records
}

# ---- a disk that fails

# Delivers a message over a disk that fails at the n-th call that waits for it.
delivers_as_it_fails() {
    status=0
    strace -f -o "$here/trace" -e trace=fdatasync -e inject="fdatasync:error=EIO:when=$1" "$(program_of mailfile_store)" deliver \
        --store "$here/records.db" --rules "$here/rules" --at 0 ann < "$here/mail/bill.eml" > "$work/said" 2> "$work/error" || status=$?
}

# Whether the store has the record of that message, and no other.
has_the_delivery() {
    run list --store "$here/records.db"
    ((status == 0)) && [[ ! -s $work/error && $(< "$work/said") == 'record 1 class finance day 1970-01-01 due 1977-01-01' ]] || shows_run
}

# Wherever the disk fails, a delivery ends with 0 only where the store has its record, also where it fails while the log is copied.
# Otherwise it prints none and ends with 75.
fails_in_a_delivery() {
    local at is_doubted=no is_kept=no
    for ((at = 1; at < 100; at++)); do
        archive_after create/new "$here" && delivers_as_it_fails "$at" || return
        grep -q INJECTED "$here/trace" || break
        if ((status == 0)); then
            has_the_delivery || return
            is_kept=yes
        elif ((status != 75)) || [[ -s $work/said || ! -s $work/error ]]; then
            shows_run || return
        elif grep -q 'records.db: the disk failed, and what was done may not be kept$' "$work/error"; then
            is_doubted=yes
        fi
    done
    ((status == 0 && at > 1 && at < 100)) && [[ $is_doubted == yes && $is_kept == yes ]] || shows_run
}

# ---- a clock that is wrong

# Starts the program by a clock that shows these seconds since 1970, one look after the other.
run_by() {
    status=0
    CLOCK=$1 LD_PRELOAD=$work/clock.so timeout 60 "$(program_of mailfile_store)" "${@:2}" > "$work/said" 2> "$work/error" || status=$?
}

# Whether it ends with that status and those words by such a clock.
refuses_by() {
    run_by "$1" "${@:4}" < "$here/mail/bill.eml"
    ((status == $2)) && [[ $(< "$work/error") == "mailfile-store: $3" && ! -s $work/said ]] || shows_run
}

# The last second of 2199, and the first one after it.
readonly LAST_SECOND=7258118399 AFTER=7258118400

# By a clock after 2199 or before 1970 nothing is captured, and the mail waits (75), also with --at now and for unfiled. What --at names is
# taken by a clock that is ahead; only a moment after 2199 is a wrong command line (64).
captures_nothing_outside_the_years() {
    local -a delivery=(deliver --store "$here/records.db" --rules "$here/rules") intake=(intake --store "$here/records.db" --rules "$here/rules")
    archive_after maildir "$here" && run list --store "$here/records.db" && cp -- "$work/said" "$work/listed" || return
    refuses_by $AFTER 75 'the clock is after 2199' "${delivery[@]}" ann &&
        refuses_by $AFTER 75 'the clock is after 2199' "${delivery[@]}" --at now ann &&
        refuses_by $AFTER 75 'the clock is after 2199' "${delivery[@]}" --unfiled-on-fault ann &&
        refuses_by $AFTER 75 'the clock is after 2199' "${intake[@]}" ann "$here/Maildir" &&
        refuses_by $AFTER 75 'the clock is after 2199' "${intake[@]}" --at now ann "$here/Maildir" &&
        refuses_by -1 75 'no clock' "${delivery[@]}" ann && refuses_by -1 75 'no clock' "${intake[@]}" ann "$here/Maildir" &&
        [[ $(mail_in new) -eq 3 ]] && has_its_records &&
        refuses_by $AFTER 64 '--at: 94: the moment is not one of the years 1970 to 2199, in seconds since 1970' "${delivery[@]}" --at $AFTER ann ||
        return
    run_by $AFTER "${delivery[@]}" --at $LAST_SECOND ann < "$here/mail/bill.eml"
    ((status == 0)) && [[ $(< "$work/said") == 'record 5 class finance due 2206-12-31' ]] || shows_run
}

# A clock that is set back during an intake, after the first message: the others stay.
captures_nothing_once_the_clock_is_behind() {
    archive_after maildir "$here" || return
    run_by '1893456000 1893456000 1893456000 1893456000 1893456000 0' intake --store "$here/records.db" --rules "$here/rules" ann "$here/Maildir"
    ((status == 75)) && [[ $(head -n 1 "$work/said") == 'a: record 5 class finance due 2037-01-01' && $(mail_in new) -eq 2 ]] &&
        [[ $(< "$work/error") == 'mailfile-store: the clock says 1970-01-01, but the store has a record of 2030-01-01; '* ]] || shows_run
}

# Whether an intake at a moment of the clock ends by 65, and says this of what stays.
names_what_stays() {
    run_by "$1" intake --store "$here/records.db" --rules "$here/rules" ann "$here/Maildir"
    ((status == 65)) && [[ $(< "$work/error") == "$2" ]] || shows_run
}

# What stays is named once a day, by the clock, and again for another cause.
names_what_stays_once_a_day() {
    local folder='mailfile-store: a stays: not a regular file' taken='mailfile-store: a stays: cur has a message of this name'
    archive_after maildir "$here" && rm -- "$here/Maildir/new/"* && mkdir "$here/Maildir/new/a" || return
    names_what_stays 1893456000 "$folder" && names_what_stays 1893542399 '' && names_what_stays 1893542400 "$folder" &&
        touch "$here/Maildir/cur/a:2," && names_what_stays 1893542401 "$taken" && names_what_stays 1893542402 '' &&
        rm -- "$here/Maildir/cur/a:2," && names_what_stays 1893542403 "$folder"
}

# ---- files that change while the program runs

# Starts a subcommand, which waits for five seconds where it makes a call of the system of that kind for a path. Meanwhile a command of
# this shell is run. Sets `status`, and leaves what the program wrote in `said` and `error`.
meanwhile() {
    local call=$1 path=$2 command=$3 started tries
    rm -f -- "$work/trace"
    timeout 60 strace -f -P "$path" -o "$work/trace" -e trace="$call" -e inject="$call:delay_enter=5000000" "$(program_of mailfile_store)" \
        "${@:4}" <&0 > "$work/said" 2> "$work/error" &
    started=$!
    for ((tries = 0; tries < 1000; tries++)); do
        [[ ! -s $work/trace ]] || break
        sleep 0.01
    done
    "$command" || return
    status=0
    wait "$started" || status=$?
}

# Makes another store where a copy is to have its place, and captures a message in it.
makes_another_store() {
    cp -- "$here/records.db" "$here/new.db" &&
        "$(program_of mailfile_store)" deliver --store "$here/new.db" --rules "$here/rules" ann < "$here/mail/bill.eml" > "$work/captured"
}

# A copy or a new store that another store comes before takes nothing of it away, and is not left.
leaves_another_store() {
    archive_after captured "$here" && meanwhile link,linkat "$here/new.db" makes_another_store "$@" || return
    ((status == 73)) && [[ $(< "$work/error") == *'/new.db: there is a file already' && ! -e $here/new.db.mailfile-new ]] ||
        shows_run || return
    run show --store "$here/new.db" 5
    ((status == 0)) && cmp -- "$work/said" "$here/mail/bill.eml" || shows_run
}

# Puts a pipe, or a link to another file, in the place of a message.
puts_a_pipe() {
    rm -- "$here/Maildir/new/a" && mkfifo "$here/Maildir/new/a"
}
puts_a_link() {
    ln -sf -- ../../plan.toml "$here/Maildir/new/a"
}

# A pipe or a link in the place of a message is neither waited for nor captured.
takes_nothing_in_the_place_of_a_message() {
    local command
    for command in puts_a_pipe puts_a_link; do
        archive_after maildir "$here" && meanwhile openat "$here/Maildir/new/a" "$command" \
            intake --store "$here/records.db" --rules "$here/rules" ann "$here/Maildir" || return
        ((status == 65)) && [[ $(< "$work/error") == 'mailfile-store: a stays: not a regular file' && $(wc -l < "$work/said") -eq 4 ]] ||
            shows_run || return
    done
}

# Puts a pipe in the place of a script.
puts_a_pipe_for_a_script() {
    rm -- "$here/rules/ann/main.sieve" && mkfifo "$here/rules/ann/main.sieve"
}

# A pipe in the place of a script is not waited for, and the store is free again.
waits_for_no_pipe_in_the_place_of_a_script() {
    archive_after captured "$here" && meanwhile openat "$here/rules/ann/main.sieve" puts_a_pipe_for_a_script \
        deliver --store "$here/records.db" --rules "$here/rules" ann < "$here/mail/bill.eml" || return
    ((status == 75)) && [[ $(< "$work/error") == *'/rules/ann/main.sieve: not a regular file' && ! -s $work/said ]] || shows_run || return
    run list --store "$here/records.db" --from 4
    ((status == 0)) && [[ $(wc -l < "$work/said") -eq 1 ]] || shows_run
}

# A log of another user is none of this user's store.
refuses_a_log_of_another_user() {
    archive_after captured "$here" && chown 65534 "$here/records.db-wal" || return
    run list --store "$here/records.db"
    ((status == 66)) && [[ $(< "$work/error") == *'is open to others than the file'* ]] || shows_run
}

# ---- a message that is damaged in the file

# A message of 9,018 octets, the last of which are in two pages of their own.
long_message() {
    printf 'Subject: long\n\n'
    head -c 8978 /dev/zero | tr '\0' 'x'
    printf '\nthe end of that message\n'
}

# Makes an archive with a history, in which such a message is the fourth, and puts a page of zeros in the place of its last page in the
# file. The check sum of such a page, which is zero too, is right.
make_damaged_archive() {
    local place
    archive_after captured "$here" && long_message > "$here/long.eml" && [[ $(stat -c %s "$here/long.eml") -eq 9018 ]] &&
        "$(program_of mailfile_store)" deliver --store "$here/records.db" --rules "$here/rules" --at 1700265600 ann < "$here/long.eml" \
            > "$work/captured" && cp -- "$here/records.db" "$here/whole.db" || return
    place=$(LC_ALL=C grep -abo 'the end of that message' "$here/records.db" | cut -d : -f 1)
    [[ $place =~ ^[0-9]+$ ]] &&
        dd if=/dev/zero of="$here/records.db" bs=4096 seek=$((place / 4096)) count=1 conv=notrunc status=none &&
        ! cmp -s -- "$here/records.db" "$here/whole.db"
}

# Whether it ends by a status, writes these lines, and then these on standard error.
ends_with() {
    ((status == $1)) && [[ $(< "$work/said") == "$2" && $(< "$work/error") == "$3" ]] || shows_run
}

# Such a message is named by a check, and neither shown nor exported nor copied; all others are. The words for each are those of a text.
finds_a_damaged_message() {
    local it='its message is not the one that was captured' store=$here/records.db
    make_damaged_archive || return
    run check --store "$store"
    ((status == 65)) && [[ $(< "$work/error") == "mailfile-store: record 5: $it; the last event about it is 5" ]] || shows_run || return
    run show --store "$store" 5
    ends_with 65 '' "mailfile-store: record 5: $it (event 5)" || return
    run why --store "$store" --rules "$here/rules" ann 5
    ends_with 65 '' "mailfile-store: record 5: $it (event 5)" || return
    run show --store "$store" 1
    ((status == 0)) && cmp -- "$work/said" "$here/mail/bill.eml" || shows_run || return
    run copy --store "$store" "$here/new.db"
    ((status == 65)) && [[ ! -s $work/said && $(head -n 1 "$work/error") == "mailfile-store: record 5: $it" ]] || shows_run || return
    [[ -z $(find "$here" -name 'new.db*') ]]
}

# An export leaves it out, and has all else. A copy takes it along as it is where that is asked for.
leaves_a_damaged_message_out() {
    local it='its message is not the one that was captured' store=$here/records.db
    make_damaged_archive || return
    run export --store "$store" "$here/out"
    ends_with 65 "exported records 5 messages 3 octets 139 to $here/out" "mailfile-store: record 5: $it" || return
    [[ ! -e $here/out/5.eml ]] && (cd -- "$here/out" && sha256sum --quiet --strict -c SHA256SUMS) &&
        [[ $(tail -n 1 "$here/out/manifest.csv") == "5,unfiled,2023-11-18,never,,no,,9018,$(sha256sum < "$here/long.eml" | cut -d ' ' -f 1),,," ]] ||
        return
    run copy --store "$store" --damaged "$here/new.db"
    ends_with 0 'copied records 5 messages 4 octets 9157' "mailfile-store: record 5: $it" || return
    run show --store "$here/new.db" 5
    ends_with 65 '' "mailfile-store: record 5: $it (event 5)"
}

# ---- kills

# How many changes are killed.
readonly CHANGES=100

# Captures a message, holds its record, ends that, and destroys what is due.
change_once() {
    local -x LOGNAME=tess
    "$keeper_program" deliver --store "$1" --rules "$here/rules" --at 0 ann < "$here/mail/bill.eml" &&
        "$keeper_program" hold --store "$1" audit --live --class finance &&
        "$keeper_program" release --store "$1" audit --live --class finance && "$keeper_program" dispose --store "$1" --yes
}

# Does so over and over, until it is killed.
change_over_and_over() {
    while true; do
        change_once "$1"
    done > "$work/changed" 2>&1
}

# The time of one turn of changes, in microseconds.
change_span() {
    local began
    began=$(date +%s%N)
    change_once "$1" > "$work/changed" 2>&1 || return
    echo $((($(date +%s%N) - began) / 1000))
}

# Kills the changes of a store a number of seconds after their start. Whatever was done then has its event, and each event is of something
# that was done: a check finds nothing. The store goes on.
keeps_its_history() {
    local process
    set -m
    change_over_and_over "$here/records.db" &
    process=$!
    set +m
    sleep "$1"
    {
        kill -KILL -- "-$process"
        wait "$process"
    } 2> "$work/error"
    run_once_free check --store "$here/records.db"
    ((status == 0)) && [[ ! -s $work/error ]] || shows_run || return
    sed -n 's/^events //p' "$work/said" >> "$work/events"
}

# Kills changes at random moments of two turns.
changes_are_killed() {
    local number span keeper_program
    keeper_program=$(program_of mailfile_store)
    : > "$work/events"
    archive_after create/new "$here" && span=$(change_span "$here/records.db") || return
    for ((number = 1; number <= CHANGES; number++)); do
        count "changes that are killed, $number" keeps_its_history \
            "$(awk -v span="$span" -v by="$RANDOM" 'BEGIN { printf "%.6f", span * by / 16384 / 1e6 }')"
    done
    count "events were noted between the kills" test "$(sort -n -u "$work/events" | wc -l)" -gt $((CHANGES / 2))
    echo "events after a kill: $(head -n 1 "$work/events") to $(tail -n 1 "$work/events")"
}

# How many messages an mbox has, and how often its import is killed.
readonly IMPORTED=10000 IMPORTS=10

# Writes an mbox of small messages, and their sums.
write_mbox() {
    rm -rf -- "$work/parts" && mkdir -p -- "$work/parts" || return
    awk -v count="$IMPORTED" -v parts="$work/parts" 'BEGIN {
        for (number = 1; number <= count; number++) {
            message = sprintf("Date: Wed, 7 Jan 2009 10:00:00 +0000\nSubject: old mail %d\n\nNumber %d.\n", number, number)
            printf "From ann@example.org Wed Jan  7 10:00:00 2009\n%s\n", message
            part = parts "/" number
            printf "%s", message > part
            close(part)
        }
    }' > "$here/old.mbox" && (cd -- "$work/parts" && sha256sum -- * | cut -d ' ' -f 1 | sort) > "$work/sums"
}

# Imports that mbox, or what is left of it.
import_old() {
    LOGNAME=tess "$keeper_program" import --store "$here/records.db" --rules "$here/rules" --dated date --quiet ann "$here/old.mbox"
}

# Kills an import a number of seconds after its start. Whatever it has captured then has its event, so a check finds nothing.
survives_a_kill_of_an_import() {
    local process
    LOGNAME=tess "$keeper_program" import --store "$here/records.db" --rules "$here/rules" --dated date --quiet ann "$here/old.mbox" \
        > "$work/changed" 2>&1 &
    process=$!
    sleep "$1"
    {
        kill -KILL "$process"
        wait "$process"
    } 2> "$work/error"
    run check --store "$here/records.db"
    ((status == 0)) && [[ ! -s $work/error ]] || shows_run || return
    sed -n 's/^records //p' "$work/said" >> "$work/imported"
}

# Whether each message of the mbox is captured once, after the rest was imported.
has_each_message_once() {
    import_old > "$work/changed" 2>&1 && "$keeper_program" export --store "$here/records.db" "$here/out" > "$work/said" &&
        grep '\.eml$' "$here/out/SHA256SUMS" | cut -d ' ' -f 1 | sort | cmp - "$work/sums"
}

# Kills imports of one mbox at random moments, each of which goes on where the one before it was killed.
imports_are_killed() {
    local number keeper_program
    keeper_program=$(program_of mailfile_store)
    : > "$work/imported"
    archive_after create/new "$here" && write_mbox || return
    for ((number = 1; number <= IMPORTS; number++)); do
        count "an import that is killed, $number" survives_a_kill_of_an_import \
            "$(awk -v by="$RANDOM" 'BEGIN { printf "%.3f", 0.1 + by / 32768 }')"
    done
    count "each message of an import that was killed, once" has_each_message_once
    echo "records after a kill of an import: $(tr '\n' ' ' < "$work/imported")of $IMPORTED"
}

store() {
    local status here=$work/archive
    count "an export without standard error" tells_no_file
    if ((EUID > 0)) || command -v setpriv > "$work/found"; then
        count "a store that may not be read" may_not_be_read
        count "folders that may not be written" makes_nothing_in_a_fixed_folder
        count "a Maildir that may not be written" captures_nothing_it_cannot_move
        count "a Maildir that may not be opened" may_not_open_a_maildir
        count "a store in a folder that may not be written" needs_its_folder
    fi
    ((EUID > 0)) || count "a log of another user" refuses_a_log_of_another_user
    if command -v cc > "$work/said" && cc -O1 -shared -fPIC -o "$work/clock.so" scripts/clock.c; then
        count "a clock after 2199 or before 1970" captures_nothing_outside_the_years
        count "a clock that is set back during an intake" captures_nothing_once_the_clock_is_behind
        count "what stays, on one day and on the next" names_what_stays_once_a_day
    fi
    if strace -o "$work/error" true > "$work/said" 2>&1; then
        count "a disk that fails in a delivery" fails_in_a_delivery
        count "another store in the place of a copy" leaves_another_store copy --store "$here/records.db" "$here/new.db"
        count "another store in the place of a new one" leaves_another_store create --store "$here/new.db" --plan "$here/plan.toml"
        count "a pipe or a link in the place of a message" takes_nothing_in_the_place_of_a_message
        count "a pipe in the place of a script" waits_for_no_pipe_in_the_place_of_a_script
    fi
    group "mailfile-store without permissions, by a wrong clock, on a disk that fails, and where files change"
    count "a message that is damaged in the file" finds_a_damaged_message
    count "a damaged message among others" leaves_a_damaged_message_out
    changes_are_killed
    imports_are_killed
    group "mailfile-store with a damaged message, and killed in the midst of changes and imports"
}

if [[ ${BASH_SOURCE[0]} == "$0" ]]; then
    cd -- "$root" || exit 125
    trap 'rm -rf -- "$work"' EXIT
    for part in counts build transcripts; do
        # shellcheck source=/dev/null
        . "scripts/$part.bash" || exit 125
    done
    ensure_program mailfile_store
    store
    finish
fi

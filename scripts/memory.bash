# shellcheck shell=bash
# shellcheck disable=SC2317 # count and refuse_each call their checks and trials by name
# Refuses the allocations of the built programs, one in each run: those of sessions of mailfile, and those of a delivery and of an intake
# of mailfile-store. scripts/failing.bash sources this file.
#
# A trial is a function that runs a program with the allocation of a given number refused, and then does what is to be done after that,
# with nothing refused. It works in the folder `here`. It sets `made` to the number of allocations of the first run, and `outcome` to a
# word for how it went, or to `failed: ` and what was wrong. With the number 0 nothing is refused, and what is answered and left then is
# noted: it is what the other trials are to answer and to leave.

: "${root:?}" "${work:?}"

# How many seconds a reply may take.
readonly PATIENCE=60

# A folder in memory for the files of the trials, if there is one.
in_memory=

# Sets `made` to the number of allocations of the run that has ended.
count_allocations() {
    made=0
    read -r made < "$here/allocations" && rm -- "$here/allocations"
}

# Whether a file of a trial is as it was noted.
is_as_noted() {
    if (($1 == 0)); then
        cp -- "$here/$2" "$noted/$2"
    else
        cmp -s -- "$here/$2" "$noted/$2"
    fi
}

# All that the store has, as starts of mailfile-store tell it. Where it has no record, nothing is exported.
whole_archive() {
    rm -rf -- "$here/out"
    "$keeper" plan --store "$here/store" && "$keeper" check --store "$here/store" || return
    if "$keeper" export --store "$here/store" "$here/out"; then
        cat -- "$here/out/manifest.csv"
    else
        [[ ! -e $here/out ]]
    fi
}

# Whether a later session finds the archive, and all of it is as it should be. That session ends with all in the file, so a file of the
# same octets has the same archive.
has_the_archive() {
    echo "DUE 9999-12-31" | "$program" --store "$here/store" > "$here/due" 2>&1 && is_as_noted "$1" due || return
    is_as_noted "$1" store && (($1 > 0)) && return
    whole_archive > "$here/archive" 2>&1 && is_as_noted "$1" archive
}

# ---- sessions

# Reads a session: sets `commands`, in which each octet is `\xHH`, `wanted` to the replies to them, and `ending` to what is answered after
# the last one.
read_session() {
    local word text
    commands=()
    wanted=()
    ending=$(cat -- sessions/*/"$1.expected")$'\n'
    while read -r word text; do
        if [[ $word == send ]]; then
            commands+=("$text")
            wanted+=('')
        else
            wanted[-1]+=$text$'\n'
            ending=${ending#"$text"$'\n'}
        fi
    done < <(commands_of "$1")
}

# Starts a session with an allocation refused. Sets `process`, and `to` and `from`, its streams.
open_session() {
    REFUSED=$1 LD_PRELOAD=$refuser "$program" "${options[@]}" < "$here/to" > "$here/from" 2> "$here/error" &
    process=$!
    exec {to}> "$here/to" {from}< "$here/from"
}

# Sends a command. Sets `reply` to as many lines as are wanted, or up to one that says that there was no memory.
ask() {
    local line lines=${wanted[$1]//[^$'\n']/}
    reply=
    printf '%b' "${commands[$1]}" >&"$to" || return
    for ((lines = ${#lines}; lines > 0; lines--)); do
        IFS= read -r -t "$PATIENCE" -u "$from" line || return
        reply+=$line$'\n'
        [[ $line != "refused 99" ]] || return 0
    done
}

# Sends each command, once again where there was no memory for it, and counts these in `again`. Where a reply is not the one that is
# wanted, it fails with that in `reply`. Sets `answered` to the number of those before it.
converse() {
    for ((answered = 0; answered < ${#commands[@]}; answered++)); do
        ask "$answered" || return
        if [[ $reply == $'refused 99\n' ]]; then
            again=$((again + 1))
            ask "$answered" || return
        fi
        [[ $reply == "${wanted[answered]}" ]] || return
    done
}

# Closes the input of a session. Sets `rest` to what it still answers, `error` to what it has told, and `status`.
close_session() {
    local ended=0
    exec {to}>&-
    IFS= read -r -d '' -t "$PATIENCE" -u "$from" rest || ended=$?
    ((ended <= 128)) || kill -KILL "$process"
    exec {from}<&-
    status=0
    wait "$process" || status=$?
    IFS= read -r -d '' error < "$here/error"
}

# Whether the program served no session, since there was no memory for its command line or for the store.
is_unserved() {
    [[ $answered -eq 0 && -z $reply$rest ]] &&
        [[ $status -eq 2 && $error == $'error: out of memory\n' || $status -eq 3 && $error == $'mailfile: no store\n' ]]
}

# Holds the session with a new process, and sets `outcome`.
hold_session() {
    local to from process rest error status again=0 answered reply
    open_session "$1"
    converse
    close_session
    if ((answered == ${#commands[@]} && status == 0)) && [[ $rest == "$ending" && -z $error ]]; then
        outcome=alike
        ((again == 0)) || outcome=again
    elif is_unserved; then
        outcome=unserved
    else
        outcome="failed: command $((answered + 1)) is answered ${reply@Q}, at the end ${rest@Q}, status $status, ${error@Q}"
    fi
}

# Holds the session again after a start that served none.
hold_anew() {
    hold_session 0
    if [[ $outcome == alike ]]; then
        outcome=unserved
    else
        outcome="failed: after a start that served none, $outcome"
    fi
}

# The trial of a session.
try_session() {
    local options=()
    if [[ $over == files ]]; then
        rm -f -- "$here/store"*
        options=(--store "$here/store")
    fi
    hold_session "$1"
    count_allocations
    [[ $outcome != unserved ]] || hold_anew
    if [[ $over == files && $outcome != failed:* ]] && ! has_the_archive "$1"; then
        outcome="failed: another archive, after $outcome"
    fi
}

# ---- deliveries and intakes

# Makes rules, an archive of two records, and a message and a Maildir of three others for it.
lay_mail() {
    local number
    mkdir -p -- "$work/rules/ann" "$work/rules/global" "$work/Maildir/new" "$work/Maildir/cur" "$work/Maildir/tmp" || return
    printf 'root = "permanent"\n[[class]]\npath = "finance"\nschedule = "10 years destroy"\n' > "$work/plan.toml"
    printf 'require ["fileinto", "include"];\nif header :contains "subject" "invoice" { fileinto "finance"; }\ninclude :global "copy";\n' \
        > "$work/rules/ann/main.sieve"
    echo 'if header :contains "subject" "copy" { keep; }' > "$work/rules/global/copy.sieve"
    for number in 1 2 3; do
        printf 'Subject: mail %d\n\nNumber %d.\n' "$number" "$number" > "$work/Maildir/new/$number"
    done
    printf 'Subject: copy of an invoice\n\nTo be paid.\n' > "$work/letter"
    "$keeper" create --store "$work/store" --plan "$work/plan.toml" &&
        "$keeper" deliver --store "$work/store" --rules "$work/rules" --at 1700006400 ann < "$work/letter" > "$work/said" &&
        (($(wc -l < "$work/said") == 2))
}

# Runs a subcommand with an allocation refused. Sets `status`.
run_keeper() {
    status=0
    REFUSED=$1 LD_PRELOAD=$refuser "$keeper" "$2" --store "$here/store" --rules "$work/rules" "${@:3}" > "$here/said" 2> "$here/error" ||
        status=$?
}

# Delivers the message.
deliver_letter() {
    run_keeper "$1" deliver --at 1700092800 ann < "$work/letter"
}

# Sets `outcome` to what is wrong with the last run.
fail_run() {
    local said error
    IFS= read -r -d '' said < "$here/said"
    IFS= read -r -d '' error < "$here/error"
    outcome="failed: $1status $status, said ${said@Q}, told ${error@Q}"
}

# Whether the last run has ended by 75, and names the cause.
has_no_memory() {
    ((status == 75)) && grep -q 'out of memory' -- "$here/error"
}

# Whether the last run has done all. It may have said less of that, where there was no memory to say it. Sets `outcome`.
has_done_all() {
    outcome=alike
    [[ $status -eq 0 && ! -s $here/error ]] || return
    is_as_noted "$1" said && return
    outcome=silent
    ! grep -q -v -x -F -f "$noted/said" -- "$here/said"
}

# Runs once more what has ended by 75; now it is to end well.
run_again() {
    "$1" 0
    outcome=again
    [[ $status -eq 0 && ! -s $here/error ]] || fail_run "after a status of 75, "
}

# The trial of a delivery. It is captured (0), or it is not, and is delivered once again (75).
try_delivery() {
    local status
    rm -f -- "$here/store"*
    cp -- "$work/store" "$here/store"
    deliver_letter "$1"
    count_allocations
    if has_no_memory && [[ ! -s $here/said ]]; then
        run_again deliver_letter
    elif ! has_done_all "$1"; then
        fail_run ""
    fi
    if [[ $outcome != failed:* ]] && ! has_the_archive "$1"; then
        outcome="failed: another archive, after $outcome"
    fi
}

# Takes the Maildir over. The time at which that began is left out of what it says.
take_mail() {
    run_keeper "$1" intake ann "$here/Maildir"
    sed -i 's/^\(taken .*\), since .*/\1/' -- "$here/said"
}

# Whether each message of the Maildir is in one of its folders, as it was. Sets `moved` to how many are in `cur`.
has_all_mail() {
    local number new cur
    moved=0
    for number in 1 2 3; do
        new=$here/Maildir/new/$number
        cur=$here/Maildir/cur/$number:2,
        if [[ -e $new ]]; then
            [[ ! -e $cur ]] && cmp -s -- "$new" "$work/Maildir/new/$number" || return
        else
            cmp -s -- "$cur" "$work/Maildir/new/$number" || return
            moved=$((moved + 1))
        fi
    done
}

# Whether an intake that has ended early lost nothing: what was moved has its record, and so has what was told. At most one more has one,
# the first in `new`; `twice` is set to that.
loses_nothing() {
    local moved records told
    records=$("$keeper" list --store "$here/store" --from 3 | wc -l)
    told=$(grep -c ': record ' "$here/said")
    has_all_mail && ((moved <= records && records <= moved + 1 && told <= records)) || return
    ((records == moved)) || twice=$((moved + 1))
}

# Whether the archive has the messages that were noted. One for which there was no memory comes after the others.
has_mail_as_noted() {
    if (($1 == 0)); then
        is_as_noted 0 mail
    else
        cmp -s -- <(sort -- "$here/mail") <(sort -- "$noted/mail")
    fi
}

# Whether all messages are moved and in the archive, and none twice but the one that is said to be. Where the file has other octets, the
# days are not compared: they are those of the clock.
has_taken_all() {
    local moved
    has_all_mail && ((moved == 3)) && [[ $(find "$here/Maildir" -type f | wc -l) -eq 3 ]] || return
    is_as_noted "$1" store && (($1 > 0)) && return
    rm -rf -- "$here/out"
    "$keeper" export --store "$here/store" "$here/out" > "$here/exported" && cut -d , -f 2,8,9 "$here/out/manifest.csv" > "$here/all" || return
    uniq "$here/all" > "$here/mail" && has_mail_as_noted "$1" && (($(wc -l < "$here/all") == 6 + ${#twice})) &&
        [[ $(uniq -d "$here/all") == "${twice:+$(sed -n "$((3 + twice))p" "$noted/mail")}" ]]
}

# The trial of an intake. It takes all (0), or it ends early, and the next one takes the rest (75).
try_intake() {
    local status twice=
    rm -rf -- "$here/store"* "$here/Maildir"
    cp -r -- "$work/store" "$work/Maildir" "$here"
    take_mail "$1"
    count_allocations
    if has_no_memory && loses_nothing; then
        run_again take_mail
        [[ $outcome != again || -z $twice ]] || outcome=twice
    elif ! has_done_all "$1"; then
        fail_run ""
    fi
    if [[ $outcome != failed:* ]] && ! has_taken_all "$1"; then
        outcome="failed: another archive, after $outcome"
    fi
}

# ---- each allocation

# Makes the folder of a lane, and has the programs that start there write their counts into it. A write to a program that has ended then
# fails, and does not end the shell.
lay_lane() {
    trap : PIPE
    here=$folder/$1
    if ! { mkdir -- "$here" && mkfifo -- "$here/to" "$here/from"; }; then
        give_up "there is no place for the files of the trials"
    fi
    export ALLOCATIONS=$here/allocations
}

# Does the trials of a lane, and tells their outcomes. The last of all trials has no allocation that is refused, and no other has none.
play_lane() {
    local here number made outcome
    lay_lane "$1"
    for ((number = $1; number <= all + 1; number += lanes)); do
        "$trial" "$number"
        if ((made < number && number == all + 1)) && [[ $outcome == alike ]]; then
            outcome=whole
        elif ((made < number || number > all)); then
            outcome="failed: $made allocations, $outcome"
        fi
        echo "$number $outcome"
    done
}

# Refuses each allocation of a trial in turn, shared out to the processors, and counts how that went.
refuse_each() {
    local title=$1 trial=$2 folder noted here made outcome all lane lanes
    folder=$(mktemp -d -p "${in_memory:-$work}") || give_up "there is no place for the files of the trials"
    noted=$folder/noted
    mkdir -- "$noted" && lay_lane 0
    "$trial" 0
    all=$made
    lanes=$(nproc)
    if [[ $outcome == alike && $all -gt 0 ]]; then
        for ((lane = 1; lane <= lanes; lane++)); do
            play_lane "$lane" > "$folder/told.$lane" 2> "$folder/lost.$lane" &
        done
        wait
    else
        echo "0 failed: $all allocations, of which none is refused: $outcome" > "$folder/told.0"
    fi
    cat -- "$folder"/told.* > "$work/told"
    rm -rf -- "$folder"
    grep failed: "$work/told" | sort -n | head -n 20
    cut -d ' ' -f 2 -- "$work/told" | sort | uniq -c |
        awk -v title="$title" '{ printf "%s%d %s", NR == 1 ? title ": " : ", ", $1, $2 } END { print "" }'
    reported "$title" $((all + 1)) "$work/told" '^[0-9]+ [a-z]+$' 'failed:'
}

# Refuses each allocation of the sessions that are also cut, in memory and in files, and of a delivery and an intake.
memory() {
    local session over refuser=$work/refuse.so keeper commands wanted ending
    if ! command -v cc > "$work/said"; then
        echo "no memory was refused: that takes a C compiler, cc"
        return
    fi
    cc -O1 -shared -fPIC -o "$refuser" scripts/refuse.c || give_up "scripts/refuse.c was not compiled"
    ensure_program mailfile
    ensure_program mailfile_store
    program=$(program_of mailfile)
    keeper=$(program_of mailfile_store)
    in_memory=$(mktemp -d -p /dev/shm 2> /dev/null) || in_memory=
    for over in memory files; do
        for session in "${CUT[@]:1}"; do
            read_session "$session"
            refuse_each "${session//-/ }, in $over" try_session
        done
    done
    lay_mail || give_up "there is no archive for the mail"
    refuse_each "a delivery" try_delivery
    refuse_each "an intake" try_intake
}

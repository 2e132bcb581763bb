#!/usr/bin/env bash
# shellcheck disable=SC2317,SC2015,SC2154 # count calls its checks by their names, `|| shows_run` only reports, and store.bash sets keeper
# Tests what ./mailfile-store does with an archive of volumes where no transcript can say it: where it is killed, or a call of the system
# fails, at each moment while a volume is begun, a folder is made or copied, a store is moved to one or a plan is set; where several programs begin volumes at once; on a disk
# that is full; without permissions; and by a wrong clock. ./test sources this file after store.bash; run by itself, it plays these tests.

: "${root:=$(dirname -- "$(dirname -- "$(readlink -f -- "$0")")")}" "${work:=$(mktemp -d)}" "${self:=volumes}"

# The calls of the system by which something changes, before each of which the program is killed.
readonly CHANGING=openat,write,pwrite64,ftruncate,fallocate,fsync,fdatasync,rename,renameat,renameat2,link,linkat,unlink,unlinkat,mkdir,rmdir,flock,fchmod

# Those of which each fails in turn.
readonly FAILING=write,pwrite64,ftruncate,fsync,fdatasync,rename,renameat,renameat2,link,linkat,unlink,unlinkat,mkdir

# Makes a message of so many octets, which are no part of another one.
message_of() {
    printf 'Subject: scans\n\n'
    head -c "$1" /dev/zero | tr '\0' x | fold -w 70
}

# Makes an archive of volumes of a megabyte in `full`, whose only volume is over its size, beside the rules, the mail and the plan.
make_full_archive() {
    archive_after create/new "$here" && message_of 1200000 > "$here/large.eml" &&
        run create --store "$here/full" --by ann --roll 1M --plan "$here/plan.toml" && ((status == 0)) && deliver_to full large.eml && ((status == 0)) || shows_run
}

# Captures a message in an archive of that folder.
deliver_to() {
    status=0
    LOGNAME=tess "${keeper[@]}" deliver --store "$here/$1" --rules "$here/rules" --at 0 ann < "$here/$2" > "$work/said" 2> "$work/error" || status=$?
}

# Takes a new copy of the archive that is full.
take_copy() {
    rm -rf -- "${here:?}/kept" && cp -a -- "$here/full" "$here/kept"
}

# Runs a subcommand, and has the kernel do something at one of its calls of the system: kill it before the call, or let that fail. Leaves
# the calls in `trace`, in which INJECTED stands if it came so far.
run_with() {
    status=0
    {
        LOGNAME=tess timeout 60 strace -f -o "$work/trace" -e trace="$1" -e inject="$1:$2" "$(program_of mailfile_store)" "${@:3}" \
            < "$here/mail/bill.eml" > "$work/said" 2> "$work/error" || status=$?
    } 2> "$work/killed"
}

# Whether that call was made.
came_so_far() {
    grep -q -e INJECTED -e 'killed by SIGKILL' "$work/trace"
}

# Whether an archive is whole, has so many records at least and one more at most, and no draft of a volume.
is_whole_archive() {
    local counted
    run_once_free check --store "$here/$1"
    ((status == 0)) && [[ ! -s $work/error ]] || shows_run || return
    run list --store "$here/$1" --count
    counted=$(< "$work/said")
    ((status == 0 && counted >= $2 && counted <= $2 + 1)) || shows_run
}

# After a delivery that did not end, the archive is whole, and the next one finds the second volume and leaves no draft.
goes_on_after_a_roll() {
    is_whole_archive kept 1 || return
    deliver_to kept mail/bill.eml
    ((status == 0)) && [[ $(< "$work/said") =~ ^record\ 2/[12]\ class\ finance ]] || shows_run || return
    [[ $(cd -- "$here/kept" && echo *) =~ ^0001.db(\ 0001.db-wal)?\ 0002.db(\ 0002.db-wal)?\ volumes\ volumes.lock$ &&
        $(tail -n 1 -- "$here/kept/volumes") == 'begun 2' ]] || {
        ls -- "$here/kept"
        return 1
    }
    is_whole_archive kept 2
}

# Ends a subcommand at each of its calls, with what was made before it and what has to be so after it.
ends_at_each() {
    local number calls=$1 how=$2 before=$3 after=$4 name=$5
    for ((number = 1; number < 2000; number += step)); do
        "$before" || return
        run_with "$calls" "$how:when=$number" "${@:6}"
        came_so_far || break
        count "$name, at call $number" "$after"
    done
    count "$name, to the end" test "$number" -gt 5
    echo "$name: calls up to $number"
}

rolls_end_early() {
    local deliver=(deliver --store "$here/kept" --rules "$here/rules" --at 0 ann)
    make_full_archive || return
    ends_at_each "$CHANGING" signal=KILL take_copy goes_on_after_a_roll "a volume whose beginning is killed" "${deliver[@]}"
    ends_at_each "$FAILING" error=EIO take_copy goes_on_after_a_roll "a volume on a disk that fails" "${deliver[@]}"
    ends_at_each "$FAILING" error=ENOSPC take_copy goes_on_after_a_roll "a volume on a full disk" "${deliver[@]}"
}

remove_made() {
    rm -rf -- "${here:?}/made"
}

# A folder that was not made to its end is not there, has no volume, or is whole.
is_made_or_not() {
    [[ ! -e $here/made ]] && return
    run_once_free check --store "$here/made"
    case $status in
        0) [[ ! -s $work/error ]] ;;
        66) grep -q -e 'create was cut off; remove the folder' -e 'a folder; a store is a file' "$work/error" ;;
        *) false ;;
    esac || shows_run
}

# A folder that could not be made is not there.
is_made_or_gone() {
    if ((status == 0)); then
        is_made_or_not
    else
        [[ ! -e $here/made ]] || {
            ls -a -- "$here/made"
            shows_run
        }
    fi
}

folders_end_early() {
    remove_made && ends_at_each "$CHANGING" signal=KILL remove_made is_made_or_not "a folder that is not made to its end" \
        create --store "$here/made" --roll 1M --plan "$here/plan.toml"
    ends_at_each "$FAILING" error=ENOSPC remove_made is_made_or_gone "a folder on a full disk" \
        create --store "$here/made" --roll 1M --plan "$here/plan.toml"
}

# Makes an archive of two volumes in `two`, and another plan for it.
make_two_volumes() {
    take_copy && deliver_to kept mail/bill.eml && ((status == 0)) && rm -rf -- "${here:?}/two" && cp -a -- "$here/kept" "$here/two" &&
        sed 's/7 years/9 years/' "$here/plan.toml" > "$here/new.toml" || shows_run
}

# Takes a new copy of it.
take_two_volumes() {
    rm -rf -- "${here:?}/kept" && cp -a -- "$here/two" "$here/kept"
}

# Whether a volume has the new plan.
has_new_plan() {
    run_once_free plan --store "$here/kept/$1"
    grep -q '9 years' "$work/said"
}

# Where a plan was not set to its end, the first volume has it only if the last one has it, and the next run sets it in both.
goes_on_after_a_plan() {
    if has_new_plan 0001.db; then
        has_new_plan 0002.db || shows_run || return
    fi
    run_once_free plan --store "$here/kept" --by ann --set "$here/new.toml" --yes
    ((status == 0)) || shows_run || return
    is_whole_archive kept 2 && has_new_plan 0001.db && has_new_plan 0002.db
}

plans_end_early() {
    local set=(plan --store "$here/kept" --by ann --set "$here/new.toml" --yes)
    make_two_volumes || return
    ends_at_each "$CHANGING" signal=KILL take_two_volumes goes_on_after_a_plan "a plan of volumes that is not set to its end" "${set[@]}"
    ends_at_each "$FAILING" error=EIO take_two_volumes goes_on_after_a_plan "a plan of volumes on a disk that fails" "${set[@]}"
    ends_at_each "$FAILING" error=ENOSPC take_two_volumes goes_on_after_a_plan "a plan of volumes on a full disk" "${set[@]}"
}

remove_copied() {
    rm -rf -- "${here:?}/new" "$here/new.mailfile-new"
}

# The archive of a copy that was not made to its end is as it was. The copy is not there, or it is whole.
is_copied_or_not() {
    is_whole_archive two 2 || return
    [[ ! -e $here/new ]] || is_whole_archive new 2
}

# Where it could not be made, nothing is left of it either.
is_copied_or_gone() {
    is_copied_or_not || return
    [[ ! -e $here/new.mailfile-new ]] || grep -q -e 'unlink.*INJECTED' -e 'rmdir.*INJECTED' "$work/trace" || {
        ls -a -- "$here/new.mailfile-new"
        shows_run
    }
}

copies_end_early() {
    local copy=(copy --store "$here/two" "$here/new")
    ends_at_each "$CHANGING" signal=KILL remove_copied is_copied_or_not "a copy of volumes that is not made to its end" "${copy[@]}"
    ends_at_each "$FAILING" error=EIO remove_copied is_copied_or_gone "a copy of volumes on a disk that fails" "${copy[@]}"
    ends_at_each "$FAILING" error=ENOSPC remove_copied is_copied_or_gone "a copy of volumes on a full disk" "${copy[@]}"
}

# Makes a store of one file in `one.db`, with a record.
make_one() {
    run create --store "$here/one.db" --by ann --plan "$here/plan.toml" && ((status == 0)) && deliver_to one.db mail/bill.eml && ((status == 0)) ||
        shows_run
}

# Takes a new copy of it.
take_one() {
    rm -rf -- "${here:?}/adopted" "$here"/single.db* && cp -- "$here/one.db" "$here/single.db"
}

adopt_one() {
    run create --store "$here/adopted" --adopt "$here/single.db" --roll 1M
    ((status == 0)) && [[ ! -s $work/error ]] || shows_run
}

# A store that was not moved to its end is where it was, or it is the first volume of a whole archive. Where it is where it was, the folder
# is not there, or is told to be removed, and then the store is moved by the same command.
goes_on_after_a_move() {
    if [[ -e $here/single.db ]]; then
        run_once_free check --store "$here/single.db"
        ((status == 0)) || shows_run || return
        if [[ -e $here/adopted ]]; then
            run_once_free create --store "$here/adopted" --adopt "$here/single.db" --roll 1M
            ((status == 73)) && grep -q -e 'remove the folder' -e 'there is something already' "$work/error" && [[ -e $here/single.db ]] ||
                shows_run || return
            rm -r -- "${here:?}/adopted"
        fi
        adopt_one || return
    fi
    is_whole_archive adopted 1 && deliver_to adopted mail/bill.eml && ((status == 0)) && is_whole_archive adopted 2 || shows_run
}

moves_end_early() {
    local adopt=(create --store "$here/adopted" --adopt "$here/single.db" --roll 1M)
    make_one || return
    ends_at_each "$CHANGING" signal=KILL take_one goes_on_after_a_move "a store that is not moved to its end" "${adopt[@]}"
    ends_at_each "$FAILING" error=EIO take_one goes_on_after_a_move "a store that is moved on a disk that fails" "${adopt[@]}"
    ends_at_each "$FAILING" error=ENOSPC take_one goes_on_after_a_move "a store that is moved on a full disk" "${adopt[@]}"
}

# Whether another file system than that of the archive is at hand.
has_other_disk() {
    [[ -w /dev/shm ]] && [[ $(stat -c %d /dev/shm) != "$(stat -c %d "$work")" ]]
}

# A store on another file system is not moved.
stays_on_its_disk() {
    local result=0 far
    far=$(mktemp -d /dev/shm/mailfile.XXXXXX) || return
    take_one && cp -- "$here/one.db" "$far/far.db" && run create --store "$here/adopted" --adopt "$far/far.db" --roll 1M
    ((status == 73)) && grep -q 'far.db: on another file system than the new folder; copy it to that one' "$work/error" &&
        [[ ! -e $here/adopted && -e $far/far.db ]] || {
        shows_run
        result=1
    }
    rm -rf -- "$far"
    return "$result"
}

# How many programs capture at once.
readonly AT_ONCE=8

# Captures a message, as a mail server does that tries again, and notes its record.
deliver_at_last() {
    local turn
    for ((turn = 0; turn < 600; turn++)); do
        LOGNAME=tess timeout 60 "$keeper_program" deliver --store "$here/kept" --rules "$here/rules" --at 0 ann < "$here/$1" > "$work/said.$2" \
            2> "$work/error.$2" && break
        sleep 0.05
    done
}

# Programs that capture at once begin the volumes one after the other. Each message is there once.
capture_at_once() {
    local keeper_program number
    keeper_program=$(program_of mailfile_store)
    take_copy || return
    for ((number = 1; number <= AT_ONCE; number++)); do
        deliver_at_last "$1" "$number" &
    done
    wait
    cat -- "$work"/said.* | sort > "$work/captured"
    [[ $(wc -l < "$work/captured") -eq $AT_ONCE && $(sort -u "$work/captured" | wc -l) -eq $AT_ONCE &&
        $(tail -n 1 -- "$here/kept/volumes") == "begun $2" ]] || {
        cat -- "$work/captured" "$here/kept/volumes"
        return 1
    }
    run check --store "$here/kept"
    ((status == 0)) && [[ ! -s $work/error ]] && grep -q "^records $((AT_ONCE + 1))$" "$work/said" || shows_run
}

# By a clock that is behind the last day of the volume before, none is begun, but for a moment that is named.
begins_none_by_a_wrong_clock() {
    take_copy && cp -- "$here/mail/bill.eml" "$work/bill.eml" &&
        LOGNAME=tess "${keeper[@]}" deliver --store "$here/later" --rules "$here/rules" ann < "$here/large.eml" > "$work/said" || return
    status=0
    CLOCK=1700000000 LD_PRELOAD=$work/clock.so LOGNAME=tess "${keeper[@]}" deliver --store "$here/later" --rules "$here/rules" ann \
        < "$work/bill.eml" > "$work/said" 2> "$work/error" || status=$?
    ((status == 75)) && grep -q 'the clock says 2023-11-14, but the store has a record of ' "$work/error" && [[ ! -e $here/later/0002.db ]] ||
        shows_run || return
    status=0
    CLOCK=1700000000 LD_PRELOAD=$work/clock.so LOGNAME=tess "${keeper[@]}" deliver --store "$here/later" --rules "$here/rules" --at now ann \
        < "$work/bill.eml" > "$work/said" 2> "$work/error" || status=$?
    ((status == 0)) && [[ $(< "$work/said") == 'record 2/1 class finance due '* ]] || shows_run
}

# A file or a folder of an archive that may not be read is named.
names_what_may_not_be_read() {
    local result=0
    take_copy && cp -- "$(program_of mailfile_store)" "$work/program" && chmod 755 "$work" "$work/program" || return
    ((EUID > 0)) || chown -R 65534:65534 "$here/kept"
    chmod 000 "$here/kept/volumes"
    other_refuses 66 "kept: volumes: Permission denied" list --store "$here/kept" || result=1
    chmod 600 "$here/kept/volumes"
    chmod 000 "$here/kept"
    other_refuses 66 "kept: volumes: Permission denied" list --store "$here/kept" || result=1
    chmod 700 "$here/kept"
    return "$result"
}

volumes() {
    local status here=$work/archive step=${1:-1}
    if strace -o "$work/error" true > "$work/said" 2>&1; then
        rolls_end_early
        folders_end_early
        plans_end_early
        copies_end_early
        moves_end_early
        ! has_other_disk || count "a store on another file system" stays_on_its_disk
    fi
    count "an archive whose volume is over its size" make_full_archive
    count "programs that capture at once in a new volume" capture_at_once mail/bill.eml 2
    count "programs that capture at once, each in a new volume" capture_at_once large.eml $((AT_ONCE + 1))
    if ((EUID > 0)) || command -v setpriv > "$work/found"; then
        count "an archive that may not be read" names_what_may_not_be_read
    fi
    if command -v cc > "$work/said" && cc -O1 -shared -fPIC -o "$work/clock.so" scripts/clock.c; then
        run create --store "$here/later" --by ann --roll 1M --plan "$here/plan.toml"
        count "a clock that is behind the volume before" begins_none_by_a_wrong_clock
    fi
    group "archives of volumes that are killed, on disks that fail, and where programs come at once"
}

if [[ ${BASH_SOURCE[0]} == "$0" ]]; then
    cd -- "$root" || exit 125
    trap 'rm -rf -- "$work"' EXIT
    for part in counts build transcripts store; do
        # shellcheck source=/dev/null
        . "scripts/$part.bash" || exit 125
    done
    ensure_program mailfile_store
    volumes "$@"
    finish
fi

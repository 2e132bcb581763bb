# shellcheck shell=bash
# shellcheck disable=SC2317 # count calls its checks by name
# Kills ./mailfile-store while it takes a Maildir over, and lets it find full disks, folders that can only be read, and a store that was
# moved away; and lets it take over a Maildir of ten thousand messages. scripts/failing.bash sources this file.

: "${work:?}"

# How many intakes are killed, and of how many messages; and how many messages a large Maildir has.
readonly INTAKES=100 MESSAGES=300 LARGE=10000

# The store, its folder, and the Maildir.
readonly TAKEN=$work/archive/store PLACE=$work/archive BOX=$work/box

# Makes that many messages, each of them another one, and the rules and the plan by which they are filed.
write_messages() {
    local number
    rm -rf -- "$work/mails"
    mkdir -p -- "$work/mails" "$work/rules/ann" || return
    for ((number = 1; number <= $1; number++)); do
        printf 'Subject: mail %d\n\nNumber %d.\n' "$number" "$number" > "$work/mails/$(printf '%05d' "$number")"
    done
    { printf 'Subject: long\n\n' && head -c 20000 /dev/zero | tr '\0' 'x'; } > "$work/long"
    echo 'keep;' > "$work/rules/ann/main.sieve"
    echo 'root = "7 years destroy"' > "$work/plan.toml"
    (cd -- "$work/mails" && sha256sum -- *) > "$work/sums"
}

# Runs a subcommand on the store, as a user who is bound by file permissions.
on_store() {
    as_other "$work/mailfile-store" "$1" --store "$TAKEN" "${@:2}"
}

# Gives a folder and what is in it to that user.
give() {
    ((EUID > 0)) || chown -R 65534:65534 "$@"
}

lay_store() {
    rm -rf -- "$TAKEN"* "$work/out"*
    mkdir -p -- "$PLACE" && give "$PLACE" && on_store create --plan "$work/plan.toml"
}

# A new store, and a Maildir with the messages.
lay_maildir() {
    lay_store && rm -rf -- "$BOX" && mkdir -p -- "$BOX/cur" "$BOX/tmp" && cp -r -- "$work/mails" "$BOX/new" && give "$BOX"
}

take_over() {
    on_store intake --rules "$work/rules" ann "$BOX"
}

# Whether a command ends by a status, and names a cause.
ends_by() {
    local status=0
    "${@:3}" > "$work/said" 2> "$work/error" || status=$?
    ((status == $1)) && grep -q -e "$2" "$work/error" && return
    echo "status $status: $(head -n 1 -- "$work/error")"
    return 1
}

deliver_long() {
    on_store deliver --rules "$work/rules" ann < "$work/long"
}

# How many messages were moved.
moved() {
    find "$BOX/cur" -type f | wc -l
}

# How many records the store has.
records_there() {
    on_store list | wc -l
}

# Whether each message is as it was, in one of the folders.
has_all_files() {
    (cd -- "$BOX" && find new cur -type f -exec sha256sum -- {} +) | sed 's:  \(new\|cur\)/:  :; s/:2,$//' | sort -k 2 | cmp - "$work/sums"
}

# Whether an intake that was ended has lost nothing: each message that was moved has a record, and so has each that was reported. At most
# one more has one; then it is the first in `new`. Sets `twice` to its sum, or to nothing.
is_between() {
    local moved records reported
    moved=$(moved)
    records=$(records_there)
    reported=$(grep -c ': record .* due ....-..-..$' "$work/reported")
    echo "$moved" >> "$work/moved"
    twice=
    if ((records == moved + 1)); then
        twice=$(find "$BOX/new" -type f -printf '%f\n' | sort | head -n 1 | xargs -I NAME sha256sum -- "$BOX/new/NAME" | cut -d ' ' -f 1)
    fi
    has_all_files && ((moved <= reported && reported <= records)) && [[ $records -eq $moved || -n $twice ]]
}

# The sums of the messages in the archive, by their numbers.
sums_there() {
    mkdir -- "$work/out" && give "$work/out" && on_store export "$work/out" > "$work/exported" && (cd -- "$work/out" && sha256sum --quiet -c SHA256SUMS) &&
        sed -n 's/  [0-9]*\.eml$//p' "$work/out/SHA256SUMS"
}

# Whether each message is in the archive, in the order of their names, once the rest is taken over, and none twice but the one that is
# said to be.
is_completed() {
    take_over > "$work/said" && [[ $(moved) -eq $MESSAGES && -z $(ls -A -- "$BOX/new") ]] && has_all_files && sums_there > "$work/kept" &&
        uniq "$work/kept" | cmp - <(cut -d ' ' -f 1 "$work/sums") && [[ $(uniq -d "$work/kept") == "$twice" ]] &&
        (($(wc -l < "$work/kept") == MESSAGES + ${#twice} / 64))
}

# Starts an intake as that user, and sets `process`.
start_intake() {
    local user=()
    ((EUID > 0)) || user=(setpriv --reuid=65534 --regid=65534 --clear-groups)
    rm -f -- "$work/reported"
    "${user[@]}" "$work/mailfile-store" intake --store "$TAKEN" --rules "$work/rules" ann "$BOX" > "$work/reported" 2> "$work/lost" &
    process=$!
}

# Kills an intake a number of seconds after its start.
survives_a_kill() {
    local process twice
    lay_maildir && start_intake || return
    sleep "$1"
    {
        kill -KILL "$process"
        wait "$process"
    } 2> "$work/said"
    is_between && is_completed || return
    [[ -z $twice ]] || echo "$1" >> "$work/twice"
}

# The time of an intake, in microseconds.
intake_span() {
    local began
    lay_maildir || return
    began=$(date +%s%N)
    take_over > "$work/said" || return
    echo $((($(date +%s%N) - began) / 1000))
}

# Kills intakes at random moments, and reports how many messages had been moved.
intake_kills() {
    local span number
    : > "$work/moved"
    : > "$work/twice"
    span=$(intake_span) || return
    for ((number = 1; number <= INTAKES; number++)); do
        count "kill $number" survives_a_kill "$(awk -v span="$span" -v by="$RANDOM" 'BEGIN { printf "%.6f", span * by / 32768 / 1e6 }')"
    done
    echo "moved before a kill: $(sort -n "$work/moved" | tr '\n' ' ')messages; one is there twice after $(wc -l < "$work/twice") kills"
    group "an intake that is killed"
}

# Runs a command where no file can grow above a number of kilobytes.
limited() (
    trap '' XFSZ
    ulimit -f "$1"
    "${@:2}"
)

# Whether an intake with files that cannot grow above a number of kilobytes ends by 75 and loses nothing.
intake_survives_a_limit() {
    local twice status=0
    lay_maildir || return
    limited "$1" take_over > "$work/reported" 2> "$work/error" || status=$?
    ((status == 75)) && is_between && is_completed
}

# Delivers by a command, and sets `kept` to the list of the archive before that, and `status`.
deliver_by() {
    status=0
    kept=$(on_store list)
    "$@" > "$work/said" 2> "$work/error" || status=$?
}

# Whether the last delivery has ended by 75, said why, and captured nothing.
has_captured_nothing() {
    ((status == 75)) && [[ ! -s $work/said && -s $work/error && $(on_store list) == "$kept" ]]
}

# Whether the last delivery has ended by 0, and its record has the next number.
has_captured_one() {
    ((status == 0)) && grep -q "^record $(($(grep -c . <<< "$kept") + 1)) " "$work/said" && [[ $(on_store list | head -n -1) == "$kept" ]]
}

# Whether each delivery that meets such a limit is captured or ends by 75. The log and the file reach it in turn, so one that ended by 75
# may be followed by others that do not.
delivery_survives_a_limit() {
    local kept status turn
    lay_store || return
    for ((turn = 0; turn < 40; turn++)); do
        deliver_by limited "$1" deliver_long
        if has_captured_nothing; then
            echo "$1" >> "$work/refused"
        elif ! has_captured_one; then
            return 1
        fi
    done
    deliver_by deliver_long && has_captured_one
}

# Lays the store on a disk of a number of kilobytes.
mount_disk() {
    mkdir -p -- "$PLACE" && mount -t tmpfs -o "size=$1k" none "$PLACE"
}

grow_disk() {
    mount -o remount,size=64m "$PLACE"
}

# Takes a Maildir over on a full disk.
fills_the_disk() {
    local twice status=0
    lay_maildir || return
    take_over > "$work/reported" 2> "$work/error" || status=$?
    ((status == 75)) && grow_disk && is_between && is_completed
}

# Delivers until the disk is full.
delivers_to_a_full_disk() {
    local kept status turn
    lay_store || return
    for ((turn = 0; turn < 100; turn++)); do
        deliver_by deliver_long
        has_captured_one || break
    done
    grow_disk && has_captured_nothing && deliver_by deliver_long && has_captured_one
}

# Does this with the store on a disk of a number of kilobytes.
on_small_disk() {
    local status=0
    mount_disk "$1" || return
    "$2" || status=$?
    umount "$PLACE"
    return "$status"
}

intake_limits() {
    local size
    for size in 150 200 300 400; do
        count "an intake with files of $size kilobytes" intake_survives_a_limit "$size"
        count "deliveries with files of $size kilobytes" delivery_survives_a_limit "$size"
    done
    count "deliveries that such a limit refuses" test -s "$work/refused"
    mkdir -p -- "$PLACE"
    if ((EUID == 0)) && mount_disk 64 2> "$work/said" && umount "$PLACE"; then
        for size in 330 400 500 600 700; do
            count "an intake on a disk of $size kilobytes" on_small_disk "$size" fills_the_disk
            count "deliveries on a disk of $size kilobytes" on_small_disk "$size" delivers_to_a_full_disk
        done
    else
        echo "no disk was filled: that takes the rights of root"
    fi
    group "an intake or a delivery with a full disk"
}

# Whether both find no store where a file or folder has other permissions, and nothing changes.
finds_it_closed() {
    local twice='' before
    lay_maildir && before=$(sha256sum < "$TAKEN") && chmod "$2" "$1" && ends_by 75 'denied' deliver_long && ends_by 66 'denied' take_over &&
        [[ $(moved) -eq 0 && $(sha256sum < "$TAKEN") == "$before" ]]
    local status=$?
    chmod 755 "$PLACE" && chmod 600 "$TAKEN" && ((status == 0)) && has_all_files && is_completed
}

# Whether an intake captures nothing where it can move nothing, and goes on once it can.
stops_where_it_cannot_move() {
    local twice=''
    lay_maildir && chmod 555 "$BOX/$1" && ends_by 75 'box: ' take_over && [[ ! -s $work/said && $(records_there) -eq 0 ]]
    local status=$?
    chmod 755 "$BOX/$1" && ((status == 0)) && has_all_files && is_completed
}

# Whether no other store is made where it was moved away, and all goes on when it is back.
survives_a_move() {
    local twice=''
    lay_maildir && mv -- "$TAKEN" "$work/away" && ends_by 75 'no such file' deliver_long && ends_by 66 'no such file' take_over &&
        [[ ! -e $TAKEN ]] && has_all_files && mv -- "$work/away" "$TAKEN" && is_completed
}

# Whether the same holds where it is moved while an intake has it, and a delivery comes meanwhile.
survives_a_move_meanwhile() {
    local process twice='' status=0
    lay_maildir && start_intake || return
    until [[ -s $work/reported ]]; do :; done
    mv -- "$TAKEN" "$work/away" && ends_by 75 '' deliver_long && wait "$process" || status=$?
    mv -- "$work/away" "$TAKEN" && ((status == 0)) && is_between && is_completed
}

# Whether a second intake and a delivery report that the store is taken, while the first captures each message.
keeps_others_out() {
    local process twice='' status=0
    lay_maildir && start_intake || return
    until [[ -s $work/reported ]]; do :; done
    kill -STOP "$process" && ends_by 75 'another program has' take_over && ends_by 75 'another program has' deliver_long || status=$?
    kill -CONT "$process" && wait "$process" && ((status == 0)) && is_between && [[ $(moved) -eq $MESSAGES ]] && is_completed
}

intake_obstacles() {
    count "a folder of the store that may not be entered" finds_it_closed "$PLACE" 000
    count "a store that can only be read" finds_it_closed "$TAKEN" 400
    count "a folder new that can only be read" stops_where_it_cannot_move new
    count "a folder cur that can only be read" stops_where_it_cannot_move cur
    count "a store that was moved away" survives_a_move
    count "a store that is moved away meanwhile" survives_a_move_meanwhile
    count "a second program on the store" keeps_others_out
    group "what an intake or a delivery meets"
}

# The names of the messages and the numbers of their records, as an intake prints them.
wanted_lines() {
    local number
    for ((number = 1; number <= LARGE; number++)); do
        printf '%05d: record %d \n' "$number" "$number"
    done
}

# Whether an intake takes each message of a large Maildir once, in the order of their names.
takes_a_large_maildir() {
    lay_maildir && take_over > "$work/said" 2> "$work/error" && [[ ! -s $work/error ]] && sed 's/class .*//' "$work/said" | cmp - <(wanted_lines) &&
        [[ $(moved) -eq $LARGE && -z $(ls -A -- "$BOX/new") ]] && sums_there | cmp - <(cut -d ' ' -f 1 "$work/sums")
}

large_maildir() {
    write_messages "$LARGE"
    count "a Maildir of $LARGE messages" takes_a_large_maildir
    group "a large Maildir"
}

intakes() {
    ensure_program mailfile_store
    chmod 755 "$work" && cp -- "$(program_of mailfile_store)" "$work/mailfile-store" && chmod 755 "$work/mailfile-store" || return
    write_messages "$MESSAGES"
    intake_kills
    intake_limits
    intake_obstacles
    large_maildir
}

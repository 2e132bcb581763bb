# shellcheck shell=bash
# shellcheck disable=SC2317 # count calls its checks by name
# Sends mail to ./mailfile-store through a real mail server. scripts/failing.bash sources this file.
#
# It is a Postfix with a configuration, a queue and data of its own, all below the folder of the tests. It listens on a port of the
# loopback interface alone. It gives mail for records.example to `deliver`, one at a time, and mail for crowd.example many at a time.
# Mail for door.example goes the way of records.example, but at the door a map is asked whether there is such an officer. Mail for
# maildir.example goes to a Maildir, which `intake` empties.

: "${root:?}" "${work:?}"

# How many mails are sent, by how many senders at once; how many come while the store is locked, to many deliveries at once, and beside
# intakes.
readonly MAILS=1000 SENDERS=8 LOCKED=50 CROWD=100 BESIDE=200

# A recipient longer than any officer's name.
LONG=$(printf 'a%.0s' {1..70}) && readonly LONG

# Recipients that are no officers. Each is one that a script could take for something else.
readonly STRANGERS=("$LONG" ../ann ann/../ann .ann global --help --unfiled-on-fault '"ann bob"' '"ann -h"')

# Lines that a session would obey: they destroy a record and forge another.
readonly ORDERS=$'DESTROY 1 9999-12-31\nBEGIN ann 0 7\nforged\nTURN 1 1000000\nFINISH 1\nQUIT'

# The folder of the mail server, and that of what is sent.
readonly SERVER=$work/postfix SENT=$work/sent

# Whether there is a Postfix to be started. It is installed where that was asked for.
has_postfix() {
    ((EUID == 0)) || return
    if [[ ${1-} == install ]] && ! command -v postfix > "$work/said"; then
        apt-get update > "$work/said" 2>&1
        DEBIAN_FRONTEND=noninteractive apt-get install -y --no-install-recommends postfix > "$work/said" 2>&1
    fi
    command -v postfix > "$work/said"
}

# Runs a program of Postfix on the configuration of the tests.
with_postfix() {
    "$1" -c "$SERVER/etc" "${@:2}"
}

# Sets `port` to one on which nothing listens.
find_port() {
    local other
    for ((port = 20000 + RANDOM % 10000; ; port++)); do
        { exec {other}<> "/dev/tcp/127.0.0.1/$port"; } 2> /dev/null || return 0
        exec {other}>&-
    done
}

write_main() {
    cat << END
compatibility_level = 3.6
queue_directory = $SERVER/queue
data_directory = $SERVER/data
maillog_file_prefixes = $SERVER
maillog_file = $SERVER/log
myhostname = server.example
mydestination = records.example
inet_interfaces = loopback-only
inet_protocols = ipv4
mynetworks = 127.0.0.0/8
allow_min_user = yes
alias_maps =
alias_database =
local_recipient_maps =
local_transport = records
records_destination_recipient_limit = 1
crowd_destination_recipient_limit = 1
transport_maps = inline:{crowd.example=crowd:, door.example=records:}
relay_domains = crowd.example door.example
relay_recipient_maps = hash:$SERVER/officers, inline:{@crowd.example=crowd}
recipient_delimiter = +
virtual_mailbox_domains = maildir.example
virtual_mailbox_base = $SERVER
virtual_mailbox_maps = static:Maildir/
virtual_uid_maps = static:65534
virtual_gid_maps = static:65534
END
}

# The services of Postfix, and the two that give mail to the archive, the first of them as in docs/GUIDE.md. `--` stands before the
# recipient, which may begin with `-`.
write_master() {
    local deliver="$SERVER/mailfile-store deliver --store $SERVER/store/records --rules $SERVER/rules -- \${user}"
    cat << END
127.0.0.1:$port inet n - n - - smtpd
pickup unix n - n 1 1 pickup
cleanup unix n - n - 0 cleanup
qmgr unix n - n 300 1 qmgr
rewrite unix - - n - - trivial-rewrite
bounce unix - - n - 0 bounce
defer unix - - n - 0 bounce
trace unix - - n - 0 bounce
flush unix n - n 1000? 0 flush
showq unix n - n - - showq
error unix - - n - - error
retry unix - - n - - error
anvil unix - - n - 1 anvil
postlog unix-dgram n - n - 1 postlogd
virtual unix - n n - - virtual
records unix - n n - 1 pipe
  flags=Ru user=nobody argv=$(command -v flock) -w 600 -E 75 $SERVER/store/lock
  $deliver
crowd unix - n n - 10 pipe
  flags=R user=nobody argv=$deliver
END
}

# The officers of the folder of rules, as recipients that Postfix is to take at the door.
write_officers() {
    "$tools" recipients --rules "$SERVER/rules" door.example > "$SERVER/officers" && with_postfix postmap "hash:$SERVER/officers"
}

# Starts the server, and sets `port`.
start_postfix() {
    mkdir -p -- "$SERVER/etc" "$SERVER/queue" "$SERVER/data" && chmod 755 "$work" "$SERVER" && chown postfix "$SERVER/data" &&
        cp -- "$runs" "$SERVER/mailfile-store" && cp -- "$program" "$SERVER/mailfile" && chmod 755 "$SERVER/mailfile"* || return
    find_port
    lay_rules && write_main > "$SERVER/etc/main.cf" && write_master > "$SERVER/etc/master.cf" && write_officers > "$work/said" 2>&1 &&
        with_postfix postfix start > "$work/said" 2>&1 && return
    cat -- "$work/said"
    return 1
}

stop_postfix() {
    [[ ! -d $SERVER/etc ]] || with_postfix postfix abort > "$work/said" 2>&1
}

# Runs a subcommand as the user for whom Postfix delivers.
archive() {
    as_other "$SERVER/mailfile-store" "$1" --store "$SERVER/store/records" "${@:2}"
}

# The rules and the plan.
lay_rules() {
    mkdir -p -- "$SERVER/rules/"{ann,bob,global} || return
    echo 'keep;' | tee "$SERVER/rules/"{ann,bob,global}/main.sieve > "$work/said"
    echo 'root = "7 years destroy"' > "$SERVER/plan.toml"
}

# A new store, and a Maildir, for the user for whom Postfix delivers. Nothing is sent yet.
lay_records() {
    rm -rf -- "$SERVER/store" "$SERVER/Maildir" "$SERVER/out" "$SENT"
    mkdir -p -- "$SERVER/store" "$SERVER/Maildir/"{new,cur,tmp} "$SENT" || return
    chown -R 65534:65534 "$SERVER/store" "$SERVER/Maildir" && archive create --plan "$SERVER/plan.toml"
}

# A mail, by the names of its sender and of itself, with some lines that could be read as commands or as an end.
write_mail() {
    printf 'Message-Id: <%s.%s@sender.example>\nFrom: %s@sender.example\nTo: ann@records.example\n' "$1" "$2" "$1"
    printf 'Date: Thu, 26 Nov 2026 12:00:00 +0000\nSubject: mail %s\n\n.\n..\n%s\n' "$2" "$ORDERS"
}

# Waits for a reply of the server, and fails where it is none of that number.
expect() {
    local line
    while IFS= read -r -t 60 -u "$to" line; do
        [[ $line == ???-* ]] || break
    done
    [[ $line == "$1"* ]] || { echo "the server said $line"; return 1; }
}

# Sends a file in an SMTP session.
send_file() {
    printf 'MAIL FROM:<%s@sender.example>\r\n' "$1" >&"$to" && expect 250 && printf 'RCPT TO:<%s>\r\n' "$2" >&"$to" && expect 250 &&
        printf 'DATA\r\n' >&"$to" && expect 354 && sed 's/^\./../; s/$/\r/' -- "$3" >&"$to" && printf '.\r\n' >&"$to" && expect 250
}

# Opens an SMTP session. Sets `to`.
open_smtp() {
    exec {to}<> "/dev/tcp/127.0.0.1/$port" && expect 220 && printf 'EHLO %s.example\r\n' "$1" >&"$to" && expect 250
}

close_smtp() {
    printf 'QUIT\r\n' >&"$to" && expect 221
    exec {to}>&-
}

# Sends a number of mails of a sender to a recipient in one session.
send_by_smtp() {
    local to number file
    open_smtp "$1" || return
    for ((number = 1; number <= $3; number++)); do
        file=$SENT/$1.$number
        write_mail "$1" "$number" > "$file" && send_file "$1" "$2" "$file" || return
    done
    close_smtp
}

# Sends a number of mails of a sender to a recipient, each by a process of its own.
send_by_sendmail() {
    local number file
    for ((number = 1; number <= $3; number++)); do
        file=$SENT/$1.$number
        write_mail "$1" "$number" > "$file" && sendmail -C "$SERVER/etc" -i -f "$1@sender.example" -- "$2" < "$file" || return
    done
}

# Sends a number of mails to a recipient, by several senders at once: half of them by SMTP, half by `sendmail`.
send_all() {
    local sender senders=() status=0
    for ((sender = 0; sender < SENDERS; sender++)); do
        if ((sender % 2 == 0)); then
            send_by_smtp "sender$sender" "$1" $(($2 * (sender + 1) / SENDERS - $2 * sender / SENDERS)) &
        else
            send_by_sendmail "sender$sender" "$1" $(($2 * (sender + 1) / SENDERS - $2 * sender / SENDERS)) &
        fi
        senders+=($!)
    done
    for sender in "${senders[@]}"; do
        wait "$sender" || status=1
    done
    return "$status"
}

# How many mails are in the queue, or how many with a text in what Postfix says of them.
queued() {
    with_postfix postqueue -j | grep -c -e "${1-}"
}

# Waits until the queue has a number of mails with a text, five minutes at most. A mail may be missed while it moves between the folders
# of the queue, so this must be seen three times in a row.
await_queue() {
    local turn seen=0
    for ((turn = 0; turn < 3000; turn++)); do
        if (($(queued "${2-}") == $1)); then
            seen=$((seen + 1))
            ((seen < 3)) || return 0
        else
            seen=0
        fi
        sleep 0.1
    done
    echo "the queue has $(queued) mails, and $(queued "${2-}") of them ${2-}"
    return 1
}

# Whether the archive has exactly the mails that were sent, each once, octet by octet below what the server put before them.
has_each_once() {
    local records=$1 name
    rm -rf -- "$SERVER/out"
    [[ $(find "$SENT" -type f | wc -l) -eq $records && $(archive list | wc -l) -eq $records ]] && mkdir -- "$SERVER/out" &&
        chown 65534 "$SERVER/out" && archive export "$SERVER/out" > "$work/exported" || return
    for name in "$SERVER/out"/*.eml; do
        sed -n '/^Message-Id:/,$p' "$name" > "$work/mail" && name=$(sed -n 's/^Message-Id: <\(.*\)@sender.example>$/\1/p' "$work/mail") &&
            cmp -- "$work/mail" "$SENT/$name" && echo "$name"
    done | sort | cmp - <(cd -- "$SENT" && printf '%s\n' * | sort)
}

# Whether `show` answers with the same octets as `export`, for a few records.
shows_the_same() {
    local number
    for number in 1 $((1 + RANDOM % MAILS)) $((1 + RANDOM % MAILS)) "$MAILS"; do
        archive show "$number" | cmp - "$SERVER/out/$number.eml" || return
    done
}

takes_each_by_a_pipe() {
    lay_records && send_all ann@records.example "$MAILS" && await_queue 0 && has_each_once "$MAILS" && shows_the_same
}

# Deliveries that meet one another: all but one of them find the store locked, and come again later.
takes_each_of_a_crowd() {
    local turn
    lay_records && send_all ann@crowd.example "$CROWD" || return
    for ((turn = 0; turn < 300; turn++)); do
        (($(queued) > 0)) || break
        with_postfix postqueue -f
        sleep 1
    done
    echo "mails that came again later: $(grep -c 'status=deferred .*another program has' "$SERVER/log")"
    await_queue 0 && has_each_once "$CROWD"
}

empty_maildir() {
    archive intake --rules "$SERVER/rules" ann "$SERVER/Maildir" > "$work/answer"
}

# Empties the Maildir while mail comes in, and once all is there.
takes_each_from_a_maildir() {
    local sending turns=1
    lay_records || return
    send_all ann@maildir.example "$MAILS" &
    sending=$!
    while kill -0 "$sending" 2> /dev/null; do
        empty_maildir || return
        turns=$((turns + 1))
    done
    echo "times that the Maildir was emptied: $turns"
    wait "$sending" && await_queue 0 && empty_maildir && [[ -z $(ls -A -- "$SERVER/Maildir/new") ]] && has_each_once "$MAILS"
}

# Deliveries beside intakes, each of them started by `flock`: none finds the store locked, and none is put off.
takes_each_beside_intakes() {
    local sending=() turns=0 sender deferred
    lay_records || return
    deferred=$(grep -c 'status=deferred' "$SERVER/log")
    for sender in smtp1 smtp2; do
        send_by_smtp "$sender" ann@records.example "$BESIDE" &
        sending+=($!)
    done
    send_by_smtp maildir ann@maildir.example "$BESIDE" &
    sending+=($!)
    while kill -0 "${sending[@]}" 2> /dev/null || (($(queued) > 0)); do
        as_other flock "$SERVER/store/lock" "$SERVER/mailfile-store" intake --store "$SERVER/store/records" --rules "$SERVER/rules" \
            ann "$SERVER/Maildir" > "$work/answer" || return
        turns=$((turns + 1))
    done
    echo "times that the Maildir was emptied beside deliveries: $turns"
    wait "${sending[@]}" && await_queue 0 && empty_maildir && has_each_once $((3 * BESIDE)) &&
        [[ $(grep -c 'status=deferred' "$SERVER/log") -eq $deferred ]]
}

# Holds the store by a session that waits for its input, which `lock` is.
lock_store() {
    rm -f -- "$work/lock" "$work/answer"
    mkfifo -- "$work/lock" || return
    as_other "$SERVER/mailfile" --store "$SERVER/store/records" < "$work/lock" > "$work/answer" 2> "$work/error" &
    holder=$!
    exec {lock}> "$work/lock"
    echo "CLASS other" >&"$lock"
    until [[ -s $work/answer ]]; do sleep 0.05; done
}

unlock_store() {
    exec {lock}>&-
    wait "$holder"
}

waits_for_a_lock() {
    local lock holder kept
    lay_records && send_by_smtp first ann@records.example 3 && await_queue 0 && kept=$(archive list) && lock_store || return
    send_all ann@records.example "$LOCKED" && await_queue "$LOCKED" 'another program has' && unlock_store &&
        [[ $(archive list) == "$kept" && $(queued) -eq $LOCKED ]] && with_postfix postfix flush && await_queue 0 &&
        has_each_once $((LOCKED + 3))
}

# Mail for a Maildir waits there, and the intake says why.
maildir_waits_for_a_lock() {
    local lock holder status=0
    lay_records && lock_store && send_all ann@maildir.example "$LOCKED" && await_queue 0 || return
    archive intake --rules "$SERVER/rules" ann "$SERVER/Maildir" > "$work/said" 2> "$work/error" || status=$?
    unlock_store && ((status == 75)) && [[ ! -s $work/said ]] && grep -q 'another program has' "$work/error" &&
        [[ $(find "$SERVER/Maildir/new" -type f | wc -l) -eq $LOCKED ]] &&
        empty_maildir && has_each_once "$LOCKED"
}

# Whether the lines of the mails are such that a session would obey them: after a line that it refuses, it reads octets as commands.
a_session_obeys() {
    cp -- "$SERVER/store/records" "$SERVER/store/copy" && chown 65534 "$SERVER/store/copy" || return
    { echo "BEGIN $LONG 0 7" && write_mail hostile 1; } | as_other "$SERVER/mailfile" --store "$SERVER/store/copy" > "$work/answer"
    as_other "$SERVER/mailfile-store" list --store "$SERVER/store/copy" > "$work/listed"
    grep -q '^record 1 .* destroyed$' "$work/listed" && [[ $(wc -l < "$work/listed") -eq 4 ]]
}

# Sends a mail to each of the recipients that are no officers.
send_to_strangers() {
    local to stranger
    write_mail hostile 1 > "$work/hostile" && open_smtp hostile || return
    for stranger in "${STRANGERS[@]}"; do
        send_file hostile "$stranger@records.example" "$work/hostile" || return
    done
    close_smtp
}

# Whether mail to recipients that are no officers stays in the queue, and leaves the archive as it is.
strangers_do_nothing() {
    local kept
    lay_records && send_by_smtp first ann@records.example 3 && await_queue 0 && kept=$(archive list) && a_session_obeys &&
        send_to_strangers && await_queue "${#STRANGERS[@]}" 'not a name of an officer\|not there' && [[ $(archive list) == "$kept" ]] && has_each_once 3
    local status=$?
    with_postfix postsuper -d ALL 2> "$work/error"
    return "$status"
}

# Whether a recipient is refused at the door.
is_refused_at_the_door() {
    printf 'MAIL FROM:<hostile@sender.example>\r\n' >&"$to" && expect 250 && printf 'RCPT TO:<%s@door.example>\r\n' "$1" >&"$to" &&
        expect 5 && printf 'RSET\r\n' >&"$to" && expect 250
}

# Whether the officers of the folder of rules have mail, in any case and with an extension, and all others are refused at the door.
door_knows_the_officers() {
    local to recipient number=0
    lay_records && open_smtp door || return
    for recipient in ann ANN ann+tax Bob+vat; do
        number=$((number + 1))
        write_mail door "$number" > "$SENT/door.$number" && send_file door "$recipient@door.example" "$SENT/door.$number" || return
    done
    for recipient in carl "${STRANGERS[@]}"; do
        is_refused_at_the_door "$recipient" || return
    done
    close_smtp && await_queue 0 && has_each_once 4
}

# Whether a mail to two officers is captured once for each.
takes_it_for_two_officers() {
    lay_records && write_mail both 1 > "$SENT/both.1" && sendmail -C "$SERVER/etc" -i -f both@sender.example -- {ann,bob}@records.example < "$SENT/both.1" &&
        await_queue 0 && [[ $(archive list | wc -l) -eq 2 ]]
}

# Whether a mail that is longer than any that the archive takes is given back to its sender.
gives_back_what_is_too_long() {
    local turn status=1
    lay_records && { write_mail long 1 && head -c 9000000 /dev/zero | tr '\0' x | fold -w 70; } > "$work/long" || return
    sendmail -C "$SERVER/etc" -i -f long@sender.example -- ann@records.example < "$work/long" || return
    for ((turn = 0; turn < 600 && status > 0; turn++)); do
        ! grep -q 'to=<ann@records.example>.*status=bounced' "$SERVER/log" || status=0
        sleep 0.1
    done
    with_postfix postsuper -d ALL 2> "$work/error"
    ((status == 0)) && [[ -z $(archive list) ]]
}

# Sends mail through Postfix, which is installed where that was asked for.
mail_through_postfix() {
    local runs tools port
    if ! has_postfix "${1-}"; then
        echo "no mail was sent: that takes the rights of root and Postfix, which ./test failing mail installs"
        return
    fi
    ensure_program mailfile
    ensure_program mailfile_store
    ensure_program mailfile_tool
    program=$(program_of mailfile)
    runs=$(program_of mailfile_store)
    tools=$(program_of mailfile_tool)
    start_postfix || give_up "Postfix does not start"
    count "$MAILS mails, by a pipe" takes_each_by_a_pipe
    count "$CROWD mails, by deliveries at once" takes_each_of_a_crowd
    count "$MAILS mails, through a Maildir" takes_each_from_a_maildir
    count "$((3 * BESIDE)) mails, by deliveries beside intakes" takes_each_beside_intakes
    count "a store that another program has, and a pipe" waits_for_a_lock
    count "a store that another program has, and a Maildir" maildir_waits_for_a_lock
    count "mail to recipients that are no officers" strangers_do_nothing
    count "officers, and others at the door" door_knows_the_officers
    count "a mail to two officers" takes_it_for_two_officers
    count "a mail over the limit" gives_back_what_is_too_long
    stop_postfix
    group "mail through Postfix"
}

#!/usr/bin/env bash
# Writes a case at the limits of the commands, with what it is to be answered. The answers come from the rule, and the dates from the
# system's `date`.
#
#     sessions/limits.bash                the names of the cases, and what each shows
#     sessions/limits.bash CASE FOLDER
#
# In the folder there are then the parts of the case: 1.session and 1.expected, 2.session and so on, which are played in this order over
# one store (README.md). With them there may be 0.sql, by which the system's sqlite3 makes the store, and N.sql, a query of the store
# after part N, whose rows are in N.rows. What `mailfile-store` is given and has to answer after the last part is in files that
# limits/stores.bash names.
set -euo pipefail

here=$(dirname -- "$(readlink -f -- "${BASH_SOURCE[0]}")")
# shellcheck source=scripts/octets.bash
. "$here/../scripts/octets.bash"
readonly MESSAGE=8388608 PLAN=1048576
readonly CASES='archive an archive of 300,000 records, made, listed, held, revised and destroyed
version_1 an archive of 300,000 records that is moved from version 1
late_days captures of 2150 to 2199, revised and destroyed
messages messages of 8 MiB, filed, captured and destroyed
flights 64 captures of 8 MiB in flight
classes a capture in 4,096 classes of the longest paths, and their destruction
plan plans of 1 MiB with 4,096 classes, and a script that files in all of them
fields messages of 200,000 fields and of 2,796,202, and tests of 29,992 names and of 19,995 keys
procedures a script of 256 procedures, and one of 257
too_many_procedures 64 scripts that all include each other
images images at their limits
holds a record with 200,000 holds
officers 100,000 officers, each with a script and without
words names, paths, lines, words, numbers and strings at their limits
numbers the last record numbers
listed_records 300,000 records that mailfile-store lists, counts, reports and copies
shown_messages messages of 8 MiB that mailfile-store delivers, takes over, shows and exports
copied_messages a copy of messages of 8 MiB, two of which were destroyed before'

# Ends the part before, and begins one: its session is written to 3, and its answers to 4.
part() {
    (($1 == 1)) || echo end >&4
    exec 3> "$folder/$1.session" 4> "$folder/$1.expected"
}

# Adds a command to the part, and what it is to be answered.
ask() {
    echo "$1" >&3
    (($# == 1)) || answers "${@:2}" >&4
}

# Adds a command with a payload from standard input, whose length stands where the command has `@`.
ask_with() {
    cat > "$folder/payload"
    ask "${1/@/$(stat -c %s -- "$folder/payload")}" "${@:2}"
    cat -- "$folder/payload" >&3
    rm -- "$folder/payload"
}

# Adds a dry run of a script on a message, which a file has.
ask_file() {
    ask "FILE ${#1} $(stat -c %s -- "$2")" "${@:3}"
    printf %s "$1" >&3
    cat -- "$2" >&3
}

# Adds a capture by an officer at a moment, with what its run is answered and then its FINISH. The message is standard input.
ask_capture() {
    ask_with "BEGIN $1 $2 @" "ticket $3 budget $4"
    ask "TURN $3 1000000" "ended $5"
    ask "FINISH $3" "${@:6}"
}

# Octets from what awk prints of an image: numbers of two and of four octets, instructions, and texts, each octet of which is that of
# its character.
octets() {
    printf '%b' "$(awk '
        function two(n) { return sprintf("\\x%02x\\x%02x", int(n / 256) % 256, n % 256) }
        function four(n) { return two(int(n / 65536)) two(n % 65536) }
        function code(operation, a, b) { return sprintf("\\x%02x\\x%02x", operation, a) two(b) }
        function text(octets) { return two(length(octets)) octets }
        BEGIN { ORS = ""; '"$1"' }')"
}

# The dates of the days from 1970-01-01 to one.
dates() {
    awk -v last="$1" 'BEGIN { for (day = 0; day <= last; day++) printf "@%.0f\n", day * 86400 }' | date -u -f - +%F
}

# The records that are due by a day, from their lines in any order.
in_due_order() {
    LC_ALL=C sort -k 6,6 -k 2,2n
    echo ok
}

# Replaces the plan by one of a root schedule alone.
ask_root() {
    echo "root = \"$1\"" | ask_with 'PLAN @' ok
}

# A query of the octets of a message, which a file has.
ask_octets() {
    echo "SELECT hex(body) FROM message WHERE number = $2;" >> "$folder/$1.sql"
    { od -A n -v -t x1 -- "$3" | tr -d ' \n' | tr a-f A-F && echo; } >> "$folder/$1.rows"
}

# A message of a number of octets: a line with each octet, over and over, after a header.
message_of() {
    local octet
    {
        printf 'Subject: invoice\n\n'
        for ((octet = 0; octet < 256; octet++)); do
            printf '%b' "\\x$(printf %02x "$octet")"
        done > "$folder/line"
        yes "$folder/line" | head -n 32768 | xargs cat --
    } 2> /dev/null | head -c "$1" || true
    rm -- "$folder/line"
}

# A message of a number of octets that is one field, and one whose field is one encoded word. Both values are of `x` and end with
# ` invoice`; the first has 17 octets fewer of `x` than the message has octets, and the second 29.
field_of() {
    printf 'Subject: ' && times $(($1 - 17)) x && printf ' invoice'
}
word_of() {
    printf 'Subject: =?utf-8?q?' && times $(($1 - 29)) x && printf '_invoice?='
}

# Messages of 8 MiB: one that is nearly all body, one that is one field, and one whose field is one encoded word.
messages() {
    local last='if header :contains "subject" "invoice" { discard; }' over='if size :over 8388607 { discard; }'
    message_of $MESSAGE > "$folder/body"
    field_of $MESSAGE > "$folder/field"
    word_of $MESSAGE > "$folder/word"
    part 1
    ask_file 'if header :contains "subject" "xx invoice" { discard; }' "$folder/word" discarded
    ask_file 'if header :contains "subject" "_" { discard; }' "$folder/word" 'class unfiled'
    ask_file "$last" "$folder/body" discarded
    ask_file "$last" "$folder/field" discarded
    ask_file 'if header :matches "subject" "x*x invoice" { discard; }' "$folder/field" discarded
    ask_file 'if header :is "subject" "invoice" { discard; }' "$folder/field" 'class unfiled'
    ask_file "$over" "$folder/field" discarded
    ask_file 'if size :over 8388608 { discard; }' "$folder/field" 'class unfiled'
    ask_capture ann 0 1 1 1 'record 1 class unfiled due never' < "$folder/body"
    echo y >> "$folder/field"
    ask_file "$over" "$folder/field" 'refused 95'
    ask_with 'BEGIN ann 0 @' 'refused 95' < "$folder/field"
    truncate -s $MESSAGE "$folder/field"
    ask_capture ann 0 2 1 1 'record 2 class unfiled due never' < "$folder/field"
    ask_root '1 days destroy'
    ask_octets 1 1 "$folder/body"
    ask_octets 1 2 "$folder/field"
    part 2
    ask 'DUE 9999-12-31' 'record 1 class unfiled due 1970-01-02' 'record 2 class unfiled due 1970-01-02' ok
    ask 'DESTROY 1 1970-01-02' ok
    echo 'SELECT count(*) FROM message WHERE number = 1;' > "$folder/2.sql"
    echo 0 > "$folder/2.rows"
    ask_octets 2 2 "$folder/field"
    rm -- "$folder/body" "$folder/field" "$folder/word"
}

# 64 captures in flight, each of a message of 8 MiB that ends with its ticket, and then finished the last one first.
flights() {
    local ticket
    times $((MESSAGE - 2)) m > "$folder/message"
    part 1
    for ((ticket = 1; ticket <= 64; ticket++)); do
        { cat -- "$folder/message" && printf %02d "$ticket"; } | ask_with 'BEGIN ann 0 @' "ticket $ticket budget 1"
    done
    ask_with 'BEGIN ann 0 @' 'refused 90' < "$folder/message"
    for ((ticket = 1; ticket <= 64; ticket++)); do
        ask "TURN $ticket 1" 'ended 1'
    done
    for ((ticket = 64; ticket >= 1; ticket--)); do
        ask "FINISH $ticket" "record $((65 - ticket)) class unfiled due never"
    done
    echo "SELECT number, length(body), CAST(substr(body, -3) AS TEXT) FROM message ORDER BY number;" > "$folder/1.sql"
    for ((ticket = 64; ticket >= 1; ticket--)); do
        printf '%d|%d|m%02d\n' $((65 - ticket)) $MESSAGE "$ticket"
    done > "$folder/1.rows"
    part 2
    ask_capture ann 0 1 1 1 'record 65 class unfiled due never' < "$folder/message"
    rm -- "$folder/message"
}

# The paths of 4,095 classes, each as long as it may be or above such a one, in any order.
long_paths() {
    awk 'BEGIN {
        for (depth = 1; depth <= 7; depth++) {
            path = path (depth > 1 ? "/" : "") sprintf("%036d", 0) "-" depth "-a"
            print path
        }
        for (last = 1; last <= 4088; last++) print path sprintf("/%040d", last)
    }'
}

# An image that files in classes, whose paths are the lines of a file, and keeps.
image_of_classes() {
    octets '
        while (getline path < "'"$1"'") { texts = texts text(path); codes = codes code(17, 0, count++) }
        print "SFI1" four(count + 2) two(count) two(0) two(0) two(count + 2) texts codes code(18, 0, 0) code(20, 0, 0)'
}

# A capture in 4,096 classes of long paths, whose records are destroyed up to the last, and then the last.
classes() {
    local number
    long_paths > "$folder/paths"
    { cat -- "$folder/paths" && echo unfiled; } | LC_ALL=C sort |
        awk '{ print "record " NR " class " $1 " due 1970-01-02" }' > "$folder/records"
    part 1
    ask_root '1 days destroy'
    sed 's/^/CLASS /' "$folder/paths" >&3
    lines 4095 ok >&4
    ask 'CLASS d' 'refused 56'
    image_of_classes "$folder/paths" | ask_with 'IMAGE ann @' ok
    echo hello | ask_with 'BEGIN ann 0 @' 'ticket 1 budget 4097'
    ask 'TURN 1 4096' 'running 4096'
    ask 'FINISH 1' 'refused 92'
    ask 'TURN 1 1' 'ended 4097'
    ask 'FINISH 1'
    cat -- "$folder/records" >&4
    part 2
    ask 'DUE 1970-01-02'
    in_due_order < "$folder/records" >&4
    ask 'HOLD audit 4096' ok
    for ((number = 1; number < 4096; number++)); do
        ask "DESTROY $number 1970-01-02" ok
    done
    ask 'DESTROY 4096 1970-01-02' 'refused 81'
    echo "SELECT number, hex(body) FROM message; SELECT count(*) FROM record WHERE destroyed = 1;" > "$folder/2.sql"
    answers '1|68656C6C6F0A' 4095 > "$folder/2.rows"
    part 3
    ask 'RELEASE audit 4096' ok
    ask 'DESTROY 4096 1970-01-02' ok
    ask 'DUE 9999-12-31' ok
    echo "SELECT count(*) FROM message; SELECT count(*) FROM hold;" > "$folder/3.sql"
    answers 0 0 > "$folder/3.rows"
    rm -- "$folder/paths" "$folder/records"
}

# A plan of so many classes, each with a comment, and the one above them. Class i is kept i days, or a number less i where that is not 0.
long_plan() {
    awk -v classes="$1" -v from="$2" 'BEGIN {
        print "root = \"5000 days review\"\n[[class]]\npath = \"finance-of-the-department\""
        for (i = 1; i <= classes; i++) {
            printf "# %0150d\n[[class]]\npath = \"finance-of-the-department/c%04d\"\n", i, i
            printf "open = true\nschedule = \"%d days destroy\"\n", (from > 0 ? from - i : i)
        }
    }'
}

# A plan that is filled up to a number of octets.
filled_plan() {
    local octets
    octets=$(long_plan "$2" "$3" | wc -c)
    { long_plan "$2" "$3" && printf '#' && times $(($1 - octets - 2)) z && echo; }
}

# The records of a capture in all classes under such a plan.
plan_records() {
    awk -v from="$1" 'BEGIN {
        print "finance-of-the-department", 5000
        for (i = 1; i <= 4094; i++) printf "finance-of-the-department/c%04d %d\n", i, (from > 0 ? from - i : i)
        print "unfiled", 5000
    }' | awk 'NR == FNR { date[NR - 1] = $1; next } { print "record " FNR " class " $1 " due " date[$2] }' "$folder/dates" -
}

# A plan of 1 MiB and 4,096 classes, a script that files in all, and a capture by it; then another such plan.
plan() {
    dates 5000 > "$folder/dates"
    {
        printf 'require "fileinto"; fileinto "finance-of-the-department";'
        awk 'BEGIN { for (i = 1; i <= 4094; i++) printf "fileinto \"finance-of-the-department/c%04d\";", i }'
        printf 'keep;'
    } > "$folder/script"
    part 1
    filled_plan $PLAN 4094 0 | ask_with 'PLAN @' ok
    filled_plan $((PLAN + 1)) 4094 0 | ask_with 'PLAN @' 'refused 58'
    echo hello > "$folder/message"
    ask_file "$(< "$folder/script")" "$folder/message"
    plan_records 0 | sed 's/^record [0-9]* \(class .*\) due .*/\1/' >&4
    ask_with 'SCRIPT ann main @' ok < "$folder/script"
    ask 'ACTIVE ann main' ok
    # The weight of a command, require among them, is 4; each is one instruction, and one more ends.
    echo hello | ask_with 'BEGIN ann 0 @' "ticket 1 budget $((1 + 4 * 4097))"
    ask 'TURN 1 1000000' 'ended 4097'
    ask 'FINISH 1'
    plan_records 0 >&4
    part 2
    ask 'DUE 9999-12-31'
    plan_records 0 | in_due_order >&4
    filled_plan $PLAN 4093 4096 | ask_with 'PLAN @' 'refused 57'
    filled_plan $PLAN 4094 4096 | ask_with 'PLAN @' ok
    part 3
    ask 'DUE 9999-12-31'
    plan_records 4096 | in_due_order >&4
    rm -- "$folder/dates" "$folder/script" "$folder/message"
}

# Names of 64 octets and of 65, as each command takes them.
names() {
    local name
    name=$(times 64 n)
    ask "SCRIPT $name $name 5" ok && printf 'keep;' >&3
    ask "SCRIPT ${name}n $name 0" 'refused 71'
    ask "SCRIPT $name ${name}n 0" 'refused 71'
    ask "GLOBAL $name 0" ok
    ask "GLOBAL ${name}n 0" 'refused 71'
    ask "ACTIVE $name $name" ok
    ask "ACTIVE ${name}n $name" 'refused 71'
    ask "ACTIVE $name ${name}n" 'refused 71'
    ask_capture "$name" 0 1 5 2 'record 1 class unfiled due never' < /dev/null
    ask "BEGIN ${name}n 0 0" 'refused 71'
    ask "HOLD $name 1" ok
    ask "HOLD ${name}n 1" 'refused 71'
    ask "RELEASE ${name}n 1" 'refused 71'
    ask "RELEASE $name 1" ok
    ask "IMAGE ${name}n 0" 'refused 71'
    ask "INACTIVE ${name}n" 'refused 71'
    ask "INACTIVE $name" ok
}

# Names, paths, lines, words, numbers and strings at their limits, and with one more.
words() {
    local path segment depth
    segment=$(times 40 s)
    path=$segment
    : > "$folder/message"
    part 1
    names
    for ((depth = 1; depth <= 8; depth++)); do
        ask "CLASS $path" ok
        ask "CLASS ${path}s" 'refused 52'
        path=$path/$segment
    done
    ask "CLASS $path" 'refused 52'
    ask "CLASS $(times 506 x)" 'refused 52'
    ask 'TURN 1 1000000' 'refused 91'
    ask 'TURN 1 1000001' 'refused 71'
    ask 'TURN 18446744073709551615 1' 'refused 91'
    ask 'TURN 18446744073709551616 1' 'refused 71'
    ask 'FINISH 4294967296' 'refused 91'
    ask 'HOLD h 4294967295' 'refused 80'
    ask 'HOLD h 18446744073709551615' 'refused 80'
    ask 'HOLD h 18446744073709551616' 'refused 71'
    ask 'BEGIN ann 18446744073709551615 0' 'refused 94'
    ask 'BEGIN ann 0 4294967296' 'refused 71'
    ask 'DUE 9999-12-31' ok
    ask 'DUE 10000-01-01' 'refused 71'
    ask 'DUE 1970-01-01' ok
    ask 'DUE 1969-12-31' 'refused 71'
    ask_file "if header :is \"a\" \"$(times 65535 k)\" { discard; }" "$folder/message" 'class unfiled'
    ask_file "if header :is \"a\" \"$(times 65536 k)\" { discard; }" "$folder/message" 'refused 16 at 18'
    ask "CLASS $(times 507 x)" 'refused 73'
    rm -- "$folder/message"
}

for file in archives scripts images stores; do
    # shellcheck source=/dev/null
    . "$here/limits/$file.bash"
done

if (($# == 0)); then
    echo "$CASES"
    exit
fi
if (($# != 2)) || [[ $'\n'$CASES != *$'\n'"$1 "* || ! -d $2 ]]; then
    echo "usage: sessions/limits.bash [CASE FOLDER]" >&2
    exit 2
fi
folder=$2
"$1"
echo end >&4

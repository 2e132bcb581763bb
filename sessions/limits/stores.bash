# shellcheck shell=bash
# shellcheck disable=SC2154 # sessions/limits.bash, which sources this file, sets `folder`
# Cases in which mailfile-store is asked after the sessions (scripts/store_limits.bash). What it is to answer is in files of the folder:
#
#     list, check, report, copied    the lines of these subcommands; those of a report are in words, and not all are there
#     mail/N, fields/N               the message of record N, and what `show --fields` says of it
#     manifest.csv                   the manifest of an export of the live records
#     rules, Maildir, over           rules and a Maildir that are given, and a message that is refused
#     gone, kept                     lines of messages that were destroyed, and of others

# The messages that are copied, and those of them that are destroyed before.
readonly COPIED=16 GONE='7 16'

# What `check` says of an archive of so many classes with the list of a case. Each live record has a message of its own, of so many
# octets. Which ones are due today is by the day on which this is written.
counts_of_list() {
    awk -v classes="$1" -v octets="$2" -v today="$(date -u +%F)" '
        function count(what, n) { printf "%s %.0f\n", what, n }
        / destroyed$/ { next }
        { live++ }
        $9 == "hold" { held++ }
        $8 <= today { due++ }
        END {
            count("classes", classes)
            count("records", NR)
            count("live", live)
            count("held", held)
            count("due today", due)
            count("messages", live)
            count("octets", live * octets)
            count("next number", NR + 1)
            print "no history"
        }' "$folder/list"
}

# What `copy` says of an archive, from what `check` says of it.
copied_of_counts() {
    awk '{ count[$1] = $2 } END { print "copied records", count["records"], "messages", count["messages"], "octets", count["octets"] }' \
        "$folder/check"
}

# The manifest of the live records of the list, which have no holds, and each a message of its own with a subject alone.
manifest_of_list() {
    local number class day due sum subject
    echo number,class,day,due,holds,destroyed,file,octets,sha256,sender,subject,date
    while read -r _ number _ class _ day _ due; do
        sum=$(sha256sum < "$folder/mail/$number")
        subject=$(sed -n 's/^field 1 Subject "\(.*\)"$/\1/p' "$folder/fields/$number")
        echo "$number,$class,$day,$due,,no,$number.eml,$(stat -c %s -- "$folder/mail/$number"),${sum%% *},,$subject,"
    done < <(grep ' due ' "$folder/list")
}

# What a report by a day says of the archive of 300,000 records with the list, in the order of the page. Of the records that are due by
# that day each is on hold, or has a schedule that destroys.
report_of_list() {
    awk -v day="$1" -v classes=c0,c1,c2,c3,c4,unfiled -v plan="$(IFS=,; echo "${SCHEDULES[*]:4},${SCHEDULES[*]:0:4},permanent")" '
        function row(name, a, b, c, d, e) { printf "%s %.0f %.0f %.0f %.0f %.0f\n", name, a, b, c, d, e }
        { records[$4]++ }
        / destroyed$/ { destroyed[$4]++; gone++; next }
        { live[$4]++; alive++ }
        $8 != "never" { with_date++ }
        $9 == "hold" { held[$4]++; kept[++holds] = $2 }
        $8 <= day {
            due[$4]++
            held_due += $9 == "hold"
            rows[++dues] = $2 " " $4 " " $6 " " $8 " " ($9 == "hold" ? "Hold: audit" : "May be destroyed")
        }
        END {
            printf "Disposal report by %s\nRecords %.0f: %.0f live, %.0f destroyed\nOn hold %.0f\n", day, NR, alive, gone, holds
            printf "Due by %s %.0f, of which %.0f may be destroyed\n", day, dues, dues - held_due
            split(plan, schedules, ",")
            for (i = 1; i <= split(classes, names, ","); i++) {
                name = names[i]
                row(name " " schedules[i] " yes", records[name], live[name], held[name], destroyed[name], due[name])
            }
            row("All classes", NR, alive, holds, gone, dues)
            printf "Live records with a due date %.0f\naudit %.0f ", with_date, holds
            for (i = 1; i <= holds; i++) printf "%s%s", kept[i], i < holds ? ", " : "\n"
            for (i = 1; i <= dues; i++) print rows[i]
        }' "$folder/list"
}

# 300,000 records that were captured, held, revised and destroyed as in the case `archive`; the report is a forecast.
listed_records() {
    local by=2100-06-30
    dates 450005 > "$folder/dates"
    part 1
    ask_records
    part 2
    ask_holds
    ask_plan 2
    ask_destructions "$by"
    each_record "{
        printf \"record %d class c%d day %s\", i, i % 5, date[day(i)]
        print destroyed(i, \"$by\") == \"ok\" ? \" destroyed\" : \" due \" due(i, 2) (is_held(i) ? \" hold audit\" : \"\")
    }" > "$folder/list"
    counts_of_list 6 6 > "$folder/check"
    copied_of_counts > "$folder/copied"
    report_of_list 2110-12-31 > "$folder/report"
}

# Messages of 8 MiB, of which a session captures the first two, and `deliver` the third, by rules. Then an intake has two more: the third
# again, and one with an octet more, which is refused as it is by `deliver`.
shown_messages() {
    local fields="message of $MESSAGE octets"
    mkdir -p -- "$folder/mail" "$folder/fields" "$folder/rules/ann" "$folder/Maildir/new" "$folder/Maildir/cur"
    message_of "$MESSAGE" > "$folder/mail/1"
    field_of "$MESSAGE" > "$folder/mail/2"
    word_of "$MESSAGE" > "$folder/mail/3"
    answers "$fields" 'field 1 Subject "invoice"' > "$folder/fields/1"
    answers "$fields" "field 1 Subject \"$(times $((MESSAGE - 17)) x) invoice\"" > "$folder/fields/2"
    answers "$fields" "field 1 Subject \"$(times $((MESSAGE - 29)) x) invoice\"" > "$folder/fields/3"
    answers 'require "fileinto";' 'if header :contains "subject" "xx invoice" { fileinto "finance"; }' > "$folder/rules/ann/main.sieve"
    part 1
    ask 'CLASS finance' ok
    ask_capture ann 0 1 1 1 'record 1 class unfiled due never' < "$folder/mail/1"
    ask_capture ann 0 2 1 1 'record 2 class unfiled due never' < "$folder/mail/2"
    answers 'record 1 class unfiled day 1970-01-01 due never' 'record 2 class unfiled day 1970-01-01 due never' \
        'record 3 class finance day 1970-01-01 due never' > "$folder/list"
    counts_of_list 2 "$MESSAGE" > "$folder/check"
    manifest_of_list > "$folder/manifest.csv"
    { cat -- "$folder/mail/3" && echo; } > "$folder/over"
    cp -- "$folder/mail/3" "$folder/Maildir/new/at"
    cp -- "$folder/over" "$folder/Maildir/new/over"
}

# The line of which a message consists that is copied.
line_of_message() {
    printf 'the words of message %02d\n' "$1"
}

# Messages of 8 MiB, two of which are destroyed before the store is copied, the last one too.
copied_messages() {
    local number
    mkdir -- "$folder/mail"
    part 1
    ask_root '1 days destroy'
    for ((number = 1; number <= COPIED; number++)); do
        { yes "$(line_of_message "$number")" 2> /dev/null | head -c "$MESSAGE" || true; } > "$folder/mail/$number"
        ask_capture ann 0 "$number" 1 1 "record $number class unfiled due 1970-01-02" < "$folder/mail/$number"
        echo "record $number class unfiled day 1970-01-01 due 1970-01-02"
    done > "$folder/list"
    part 2
    for number in $GONE; do
        ask "DESTROY $number 1970-01-02" ok
        rm -- "$folder/mail/$number"
        sed -i "${number}s/due .*/destroyed/" "$folder/list"
        line_of_message "$number"
    done > "$folder/gone"
    line_of_message 1 > "$folder/kept"
    counts_of_list 1 "$MESSAGE" > "$folder/check"
    copied_of_counts > "$folder/copied"
    manifest_of_list > "$folder/manifest.csv"
}

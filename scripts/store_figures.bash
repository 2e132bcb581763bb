# shellcheck shell=bash
# shellcheck disable=SC2317 # best calls its runs by their names
# Times ./mailfile-store beside a session of ./mailfile over the same messages, beside the opening of the store, and beside `cp`. scripts/speed.bash
# sources this file.

: "${folder:?}" "${root:?}"

# How often each is timed, and the octets of a message.
readonly RUNS=3 SMALL=2048 MIDDLE=10240 LARGE=51200

# Writes a number of messages of a length: each to a file of a folder, or, without one, as the commands that capture them. All are
# different, also from those of another first number.
write_messages() {
    awk -v count="$1" -v octets="$2" -v to="${3-}" -v first="${4:-1}" -v moment="$(date +%s)" '
        BEGIN {
            for (line = 0; line < 70; line++) filler = filler "x"
            filler = filler "\n"
            while (length(body) < octets) body = body filler
            for (number = first; number < first + count; number++) {
                head = sprintf("Message-Id: <%d@sender.example>\nFrom: sender@sender.example\nTo: ann@records.example\nSubject: mail %d\n\n", number, number)
                text = head substr(body, 1, octets - length(head) - 1) "\n"
                if (to != "") {
                    file = sprintf("%s/%07d", to, number)
                    printf "%s", text > file
                    close(file)
                } else {
                    printf "BEGIN ann %d %d\n%sTURN %d 1000000\nFINISH %d\n", moment, length(text), text, number, number
                }
            }
        }'
}

# The rules of an officer, as a folder has them, and as commands.
write_rules() {
    mkdir -p -- "$here/rules/ann" || return
    printf 'root = "7 years destroy"\n\n[[class]]\npath = "finance"\n' > "$here/plan.toml"
    printf 'require "fileinto";\nif header :contains "subject" "invoice" { fileinto "finance"; }\n' > "$here/rules/ann/main.sieve"
    printf 'SCRIPT ann main %d\n%s\nACTIVE ann main\n' "$(stat -c %s "$here/rules/ann/main.sieve")" "$(< "$here/rules/ann/main.sieve")" > "$here/commands"
}

new_store() {
    rm -f -- "$here/store"*
    "$keeper" create --store "$here/store" --plan "$here/plan.toml"
}

serve_file() {
    "$mailfile" --store "$here/store" < "$1"
}

new_maildir() {
    new_store && rm -rf -- "$here/box" && mkdir -p -- "$here/box/new" "$here/box/cur" && write_messages "$1" "$SMALL" "$here/box/new"
}

take_over() {
    "$keeper" intake --store "$here/store" --rules "$here/rules" ann "$here/box"
}

open_store() {
    "$mailfile" --store "$here/store" < /dev/null
}

list_records() {
    "$keeper" list --store "$here/store"
}

no_export() {
    rm -rf -- "$here/export"
}

export_records() {
    "$keeper" export --store "$here/store" "$here/export"
}

no_second_export() {
    rm -rf -- "$here/second"
}

copy_files() {
    cp -r -- "$here/export" "$here/second"
}

no_copy() {
    rm -f -- "$here/copy"*
}

# Copies the files of an export, and sums them, as an export does.
copy_and_sum_files() {
    copy_files && (cd -- "$here/second" && find . -name '*.eml' -exec sha256sum {} +)
}

# Reads the messages of a Maildir, and moves them, as an intake does.
read_and_move() {
    cat -- "$here/box/new"/* > "$here/read" && mv -- "$here/box/new"/* "$here/box/cur"
}

copy_store() {
    "$keeper" copy --store "$here/store" "$here/copy"
}

copy_file() {
    cp -- "$here/store" "$here/copy"
}

copy_and_sum_file() {
    copy_file && sha256sum -- "$here/copy"
}

# Does something a hundred times.
hundred() {
    local turn
    for ((turn = 0; turn < 100; turn++)); do
        "$@" || return
    done
}

# The least time in which a command was done, in microseconds, each time after another one.
best() {
    local turn began spans=()
    for ((turn = 0; turn < RUNS; turn++)); do
        $1 || return
        began=${EPOCHREALTIME/[.,]/}
        "${@:2}" > "$here/said" || return
        spans+=($((${EPOCHREALTIME/[.,]/} - began)))
    done
    printf '%s\n' "${spans[@]}" | sort -n | head -n 1
}

# The greatest size of a program in kilobytes, as the system reports it while it runs.
size_of() {
    local process size=0 seen
    "$@" > "$here/said" < /dev/null &
    process=$!
    while seen=$(sed -n 's/^VmHWM:[^0-9]*\([0-9]*\).*/\1/p' "/proc/$process/status") && [[ -n $seen ]]; do
        size=$seen
        sleep 0.01
    done 2> /dev/null
    wait "$process" && echo "$size"
}

# A row: what was timed and its place, what was asked, the time, what it is compared with, and the time of that. What is asked is that
# the second time, divided by the first, reaches a hundredth of a number.
row() {
    awk -v what="$1" -v asked="$2" -v time="$3" -v other="$4" -v beside="$5" -v least="$6" 'BEGIN {
        share = beside / (time > 0 ? time : 1)
        printf "| %s | %s | %.2f | %s | %.0f | %s | %.0f |\n", what, asked, share, (asked == "–" ? asked : share * 100 >= least ? "yes" : "no"), time / 1000, other, beside / 1000
    }'
}

# The rate of an intake, beside that of a session.
intake_rows() {
    local taken=$1 session files whole
    { cat -- "$here/commands" && write_messages "$taken" "$SMALL"; } > "$here/session"
    session=$(best new_store serve_file "$here/session") && whole=$(best "new_maildir $taken" take_over) || return
    [[ $(list_records | wc -l) -eq $taken ]] || return
    row "intake of $taken messages of 2 KB, $place" "–" "$whole" "a session of the same captures" "$session" 0
    files=$(best "new_maildir $taken" read_and_move) || return
    row "the same" "0.9 of the rate" "$whole" "the session, and \`cat\` and \`mv\` of the messages" $((session + files)) 90
    rm -f -- "$here/session" "$here/read"
}

# The time of an intake, beside that of one of a quarter as many messages, times four.
growth_rows() {
    local taken=$1 whole quarter
    quarter=$(best "new_maildir $((taken / 4))" take_over) && whole=$(best "new_maildir $taken" take_over) || return
    row "intake of $taken messages of 2 KB, $place" "0.8 of the rate" "$whole" "four times that of $((taken / 4))" $((4 * quarter)) 80
}

# The list of a store, beside its opening.
list_rows() {
    local opening listing
    { cat -- "$here/commands" && write_messages "$1" "$SMALL"; } > "$here/session"
    new_store && serve_file "$here/session" > "$here/said" && rm -f -- "$here/session" || return
    opening=$(best true open_store) && listing=$(best true list_records) || return
    row "list of $1 records, $place" "1.5 times at most" "$listing" "the opening, times 1.5" $((opening * 3 / 2)) 100
}

# The memory of a command of a store, beside that of the opening.
memory_line() {
    echo "$1, $place: $(($2 / 1024)) MB of memory, and $(($3 / 1024)) MB for the opening" >> "$here/sizes"
}

# An export of a number of messages of a length after the opening, beside a copy of its files, and beside that with their sums.
export_rows() {
    local what="export of $1 messages of $(($2 / 1024)) KB" time
    time=$(best no_export export_records) || return
    row "$what, $place, after the opening" "–" $((time - opening)) "cp -r of the export" "$(best no_second_export copy_files)" 0
    row "the same" "half the speed" $((time - opening)) "\`cp -r\` and \`sha256sum\` of the export" "$(best no_second_export copy_and_sum_files)" 50
    memory_line "$what" "$(no_export && size_of "$keeper" export --store "$here/store" "$here/export")" "$open"
    no_second_export && no_export
}

# The openings of a new store.
new_store_row() {
    local opening
    new_store && opening=$(best true hundred open_store) || return
    row "a hundred openings of a new store, $place" "2.5 ms each" "$opening" "a hundred times 2.5 ms" 250000 100
}

# Later starts by the script of the checkout, beside those of the program.
start_row() {
    local script=$root/mailfile-store scripted own
    "$script" --version > "$folder/said" || return
    scripted=$(here=$folder best true hundred "$script" --version) && own=$(here=$folder best true hundred "$keeper" --version) || return
    row "a hundred later starts by the script" "–" "$scripted" "a hundred starts of the program, and 4 ms each" $((own + 400000)) 0
}

# A copy of the store with its opening, beside a copy of its file, also with its sum, and beside the opening.
copy_rows() {
    local what="copy of $1 messages of $(($2 / 1024)) KB" time
    time=$(best no_copy copy_store) || return
    row "$what, $place" "–" "$time" "cp of the store" "$(best no_copy copy_file)" 0
    row "the same" "–" "$time" "\`cp\` and \`sha256sum\` of the store" "$(best no_copy copy_and_sum_file)" 0
    row "the same" "8 openings at most" "$time" "the opening, times 8" $((opening * 8)) 100
    memory_line "$what" "$(no_copy && size_of "$keeper" copy --store "$here/store" "$here/copy")" "$open"
    no_copy
}

# Exports and copies of an archive with a number of messages of a length.
archive_rows() {
    local opening open
    { cat -- "$here/commands" && write_messages "$1" "$2"; } > "$here/session"
    new_store && serve_file "$here/session" > "$here/said" && rm -f -- "$here/session" || return
    opening=$(best true open_store) && open=$(size_of "$mailfile" --store "$here/store") && export_rows "$@" && copy_rows "$@"
}

ask_question() {
    "$keeper" list --store "$here/store" --count --where "$question"
}

no_index() {
    rm -rf -- "$here/export/.notmuch"
}

index_mail() {
    HOME=$here NOTMUCH_CONFIG=$here/notmuch notmuch new --quiet
}

ask_notmuch() {
    HOME=$here NOTMUCH_CONFIG=$here/notmuch notmuch count 'subject:"mail 17"'
}

ask_grep() {
    grep -r -l -i -E '^subject:.*mail 17' "$here/export" --include='*.eml' | wc -l
}

# A question on one field of a number of messages of a length, beside the opening, and beside grep and notmuch on the exported files.
question_rows() {
    local what="question on one field of $1 messages of $(($2 / 1024)) KB" question='header :contains "subject" "mail 17"' opening asking
    { cat -- "$here/commands" && write_messages "$1" "$2"; } > "$here/session"
    new_store && serve_file "$here/session" > "$here/said" && rm -f -- "$here/session" || return
    opening=$(best true open_store) && asking=$(best true ask_question) || return
    row "$what, $place" "1.3 times at most" "$asking" "the opening, times 1.3" $((opening * 13 / 10)) 100
    memory_line "$what" "$(size_of "$keeper" list --store "$here/store" --count --where "$question")" "$(size_of "$mailfile" --store "$here/store")"
    no_export && export_records || return
    row "the same" "–" "$asking" "\`grep -r\` over the exported files" "$(best true ask_grep)" 0
    if type notmuch > /dev/null 2>&1; then
        printf '[database]\npath=%s/export\n[user]\nname=a\nprimary_email=a@a.example\n[new]\nignore=manifest.csv;SHA256SUMS\n' "$here" > "$here/notmuch"
        row "the same" "–" "$asking" "making \`notmuch\`'s index of these files" "$(best no_index index_mail)" 0
        row "the same" "–" "$asking" "a question to \`notmuch\`, by its index" "$(best true ask_notmuch)" 0
    fi
    no_export
}

# The rows of a place, in a folder.
rows_in() {
    local here=$1 place=$2
    write_rules && new_store_row && intake_rows 10000 && growth_rows 4000 && growth_rows 40000 && list_rows 100000 && archive_rows 100000 "$SMALL" &&
        archive_rows 5000 "$LARGE" && question_rows 20000 "$MIDDLE" && question_rows 100000 "$SMALL"
}

# The table of the program.
store_figures() {
    local keeper mailfile
    ensure_program mailfile
    ensure_program mailfile_store
    mailfile=$(program_of mailfile) keeper=$(program_of mailfile_store)
    echo "| measure | asked | reached | met | ms | beside | ms |"
    echo "|---|---|---|---|---|---|---|"
    start_row || return
    [[ -z $memory ]] || rows_in "$memory" "over files in memory" || return
    rows_in "$folder" "in a file" || return
    echo
    cat -- ${memory:+"$memory/sizes"} "$folder/sizes"
}

#!/usr/bin/env bash
# shellcheck disable=SC2317 # count calls its checks by their names
# Tests ./mailfile-tool by the table examples/tools/cases. ./test sources this file; run by itself, it plays the table.

# Whether a case of the table is answered as expected. Its arguments are the command line, the output, and the status.
tool_case() {
    local status=0
    (
        cd -- examples/tools || exit 125
        eval "../../mailfile-tool ${1//OUT/\"\$work/image\"}"
    ) > "$work/answer" 2> "$work/error" < /dev/null || status=$?
    cat -- "$work/answer" "$work/error" | sed 's/\r$/\\r/' > "$work/said"
    printf '%s' "$2" | cmp -s - "$work/said" && ((status == $3)) && return
    printf 'asked: %s\nanswered, with status %s:\n' "$1" "$status"
    cat -- "$work/said"
    return 1
}

# Plays the table.
tool_cases() {
    local line words='' wanted='' blanks='' status=0
    while IFS= read -r line; do
        case $line in
            '#'*) ;;
            '$ '*)
                [[ -z $words ]] || count "mailfile-tool $words" tool_case "$words" "$wanted" "$status"
                words=${line#'$ '} wanted='' blanks='' status=0
                ;;
            '= '*) status=${line#= } ;;
            '') blanks+=$'\n' ;;
            *) wanted+=$blanks$line$'\n' blanks='' ;;
        esac
    done < examples/tools/cases
    [[ -z $words ]] || count "mailfile-tool $words" tool_case "$words" "$wanted" "$status"
}

# The refusal numbers that docs/SPECIFICATION.md lists, one on each line.
specified_numbers() {
    awk -F '|' '
        /^## 10\./ { within = 1 }
        /^## 11\./ { within = 0 }
        within && /^\| [0-9]/ {
            count = split($2, parts, ",")
            for (part = 1; part <= count; part++) {
                bounds = split(parts[part], ends, " to ")
                for (number = ends[1] + 0; number <= ends[bounds] + 0; number++) print number
            }
        }
    ' docs/SPECIFICATION.md
}

# Whether the numbers of that page are exactly those that have a text.
numbers_have_texts() {
    ./mailfile-tool explain --numbers | sed -n 's/^refused \([0-9]*\): ..*/\1/p' | sort > "$work/said" && [[ -s $work/said ]] &&
        diff <(specified_numbers | sort) "$work/said"
}

# Whether the tool ends without a message when its reader goes away.
ends_with_its_reader() {
    yes 'refused 34' 2> "$work/said" | ./mailfile-tool explain 2> "$work/error" | head -n 1 > "$work/answer"
    [[ $(< "$work/answer") == 'refused 34: '* && ! -s $work/error ]]
}

# Whether a message with a value of 1,100,000 octets, and one with 17,000 fields, have each field once in a report: in the list of the
# message's fields, and not again below the tests.
fields_are_said_once() {
    printf '%s\n' 'if header :contains ["subject", "x"] "invoice" {' '    keep;' '}' 'if header :is "x" "1" {' '    keep;' '}' \
        'if header :contains "subject" "aaa" {' '    keep;' '}' > "$work/long.sieve"
    { printf 'Subject: '; head -c 1100000 /dev/zero | tr '\0' a; printf '\nX: 1\n\n'; } > "$work/long.eml"
    (cd -- "$work" && "$OLDPWD/mailfile-tool" why long.sieve long.eml --day 2023-11-14) > "$work/answer" || return
    sed -n '/^long.sieve$/,/^$/p' "$work/answer" > "$work/said"
    cmp -s - "$work/said" << 'END' && (($(wc -c < "$work/answer") < 1102000)) || return
long.sieve
  1:1 if: not taken
    1:4 header :contains ["subject", "x"] "invoice": false
      2 of the fields that are listed with the message
  4:1 if: taken
    4:4 header :is "x" "1": true
      field 2 X "1" is "1"
    5:5 keep: keeps the message in unfiled
  7:1 if: taken
    7:4 header :contains "subject" "aaa": true
      field 1, which is listed with the message, contains "aaa"
    8:5 keep: keeps the message in unfiled

END
    { yes X: | head -n 17000; echo; } > "$work/many.eml"
    (cd -- "$work" && "$OLDPWD/mailfile-tool" why long.sieve many.eml --day 2023-11-14) > "$work/answer" || return
    grep -q -x '      17000 of the fields that are listed with the message' "$work/answer" &&
        grep -c '^  field [0-9]* X ""$' "$work/answer" | grep -q -x 17000 && ! grep -q '^      field' "$work/answer"
}

# Whether a folder with a 33rd script is refused by its path, by compile and by why.
full_folder_is_named() {
    local number words
    mkdir -p -- "$work/full" || return
    for ((number = 10; number < 43; number++)); do
        echo 'keep;' > "$work/full/$number.sieve"
    done
    for words in "compile main.sieve -o $work/image" 'why main.sieve mail.eml'; do
        # shellcheck disable=SC2086 # words of a command
        (cd -- examples/tools && ../../mailfile-tool $words --global "$work/full") > "$work/answer" && return 1
        [[ $(< "$work/answer") == "$work/full/42.sieve: 96: "* ]] || return
    done
    rm -- "$work/full/42.sieve"
    (cd -- examples/tools && ../../mailfile-tool compile main.sieve --global "$work/full" -o "$work/image") > "$work/answer" &&
        (cd -- examples/tools && ! ../../mailfile-tool why main.sieve mail.eml --personal "$work/full") > "$work/answer" &&
        [[ $(< "$work/answer") == 'main.sieve: 96: '* ]]
}

# Faults of 13,000 classes that a plan does not have, all named in one line of a script.
faults_of_a_long_line() {
    local status=0
    { printf 'require "fileinto";' && seq -f ' fileinto "n%05g";' 13000 | tr -d '\n'; } > "$work/line.sieve"
    timeout 60 ./mailfile-tool check --plan examples/tools/plan.toml "$work/line.sieve" > "$work/answer" || status=$?
    [[ $status -eq 1 && $(wc -l < "$work/answer") -eq 13000 ]] &&
        [[ $(tail -n 1 "$work/answer") == "$work/line.sieve:1:247011: fault 1: the plan has no class \"n13000\"" ]]
}

# 100,000 replies about offsets in one line of a script. Each has the part of that line that is near its offset.
replies_of_a_long_line() {
    yes 'keep; ' | head -n 40000 | tr -d '\n' > "$work/line.sieve"
    seq -f 'refused 14 at %.0f' 0 2 199998 | timeout 60 ./mailfile-tool explain --script "$work/line.sieve" > "$work/answer" || return
    {
        printf '  %s:1:199999\n  | ' "$work/line.sieve"
        tail -c +199499 "$work/line.sieve" | head -c 1000
        printf '\n  | %500s^\n' ''
    } > "$work/said"
    [[ $(grep -c '^refused 14 at' "$work/answer") -eq 100000 ]] && tail -n 3 "$work/answer" | cmp -s - "$work/said"
}

# A session without counted octets.
typed_session() {
    (cd -- examples/tools && ../../mailfile-tool frame typed.txt) | ./mailfile > "$work/answer" &&
        [[ $(< "$work/answer") == $'ok\nclass finance\nend' ]]
}

# Lines of commands, good ones and wrong ones. No octets follow a good one, and each has one line as its reply.
lines_of_commands() {
    local name word long
    long=$(printf '%065d' 0)
    for word in ann '' "${long:1}" "$long" $'\303\266' $'ann\r'; do
        printf '%s\n' "BEGIN $word 0 0" "IMAGE $word 0" "SCRIPT $word main 0" "SCRIPT ann $word 0" "GLOBAL $word 0"
    done
    for word in 0 00 01 '' -1 x 4294967296 18446744073709551616; do
        printf '%s\n' "BEGIN ann $word 0" "BEGIN ann 0 $word" "PLAN $word" "FILE $word 0" "FILE 0 $word" "TRY 0 $word"
    done
    for name in PLAN SCRIPT GLOBAL IMAGE FILE TRY BEGIN Begin BEGN ''; do
        printf '%s\n' "$name" "$name 0" "$name 0 0" "$name 0 0 0" "$name 0 0 0 0" "$name  0"
    done
    printf 'BEGIN ann 18446744073709551615 0\nPLAN 0%0506d\nCLASS %0507d\n' 0 0
}

# Whether frame refuses exactly those of these lines that a session refuses for their words.
frame_agrees() {
    local line reply status
    lines_of_commands > "$work/lines"
    ./mailfile < "$work/lines" > "$work/replies" || return
    while IFS= read -r line && IFS= read -r reply <&3; do
        status=0
        printf '%s\n' "$line" | ./mailfile-tool frame > "$work/answer" 2> "$work/error" || status=$?
        case $reply in
            'refused 70' | 'refused 71' | 'refused 73') ((status == 2)) ;;
            *) ((status == 0)) ;;
        esac || { printf 'a session says %s, and frame ends with %s: %q\n' "$reply" "$status" "$line"; return 1; }
    done < "$work/lines" 3< "$work/replies"
    [[ $(wc -l < "$work/replies") == $(($(wc -l < "$work/lines") + 1)) ]]
}

# Whether a pattern of 20,000 characters, each after a backslash, is tried on a value of 1 MiB in a second of a processor.
long_pattern_takes_no_time() {
    local piece=$work/piece
    printf '%019999d' 0 | sed 's/0/\\\\a/g' > "$piece"
    printf 'require "fileinto";\nif header :matches "subject" "*%s\\\\b*" { fileinto "x"; }\n' "$(< "$piece")" > "$work/long.sieve"
    printf 'Subject: %01048576d\n\nx\n' 0 | tr 0 a > "$work/long.eml"
    (ulimit -t 1 && exec ./mailfile-tool why "$work/long.sieve" "$work/long.eml") > "$work/answer" &&
        grep -q -x '  2:1 if: not taken' "$work/answer"
}

tools() {
    tool_cases
    count "frame refuses what a session would misread" frame_agrees
    count "the numbers of the specification have texts, and no others" numbers_have_texts
    count "a reader that goes away" ends_with_its_reader
    count "faults of a long line" faults_of_a_long_line
    count "replies of a long line" replies_of_a_long_line
    count "a session without counted octets" typed_session
    count "fields that are said once" fields_are_said_once
    count "a folder with too many scripts" full_folder_is_named
    count "a long pattern on a long value" long_pattern_takes_no_time
    group tools
}

if [[ ${BASH_SOURCE[0]} == "$0" ]]; then
    cd -- "$(dirname -- "$(readlink -f -- "$0")")/.." || exit 125
    work=$(mktemp -d) || exit 125
    trap 'rm -rf -- "$work"' EXIT
    # shellcheck source=scripts/counts.bash
    . scripts/counts.bash || exit 125
    tools
    finish
fi

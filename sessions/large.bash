#!/usr/bin/env bash
# Writes the sessions that are too large to be kept as files, or too many, with what they are to be answered. Their answers come from the
# rule, as in the other files of this folder.
#
#     sessions/large.bash FOLDER
#
# In the folder there are then pairs NAME.session and NAME.expected, and folders of parts (README.md).
set -euo pipefail

if (($# != 1)) || [[ ! -d $1 ]]; then
    echo "usage: sessions/large.bash FOLDER" >&2
    exit 2
fi
here=$(dirname -- "$(readlink -f -- "${BASH_SOURCE[0]}")")
# shellcheck source=scripts/octets.bash
. "$here/../scripts/octets.bash"
folder=$1
readonly SCRIPT=262144 MESSAGE=8388608 IMAGE=16777216 PLAN=1048576

# Writes standard input as a session, and the arguments as its answers.
session() {
    cat > "$folder/$1.session"
    answers "${@:2}" > "$folder/$1.expected"
}

file() {
    echo "FILE $1 $2"
}

# Scripts, messages and images at their greatest length, and over it.
payloads() {
    {
        file $SCRIPT 0 && times $SCRIPT ' '
        file $((SCRIPT + 1)) 0 && times $((SCRIPT + 1)) ' '
        file 0 $MESSAGE && times $MESSAGE ' '
        file 0 $((MESSAGE + 1)) && times $((MESSAGE + 1)) ' '
    } | session payloads-at-their-limits 'class unfiled' 'refused 15' 'class unfiled' 'refused 95' end
    {
        file $((SCRIPT + 1)) $((MESSAGE + 1)) && times $((SCRIPT + 1 + MESSAGE + 1)) ' '
        file 4 $((MESSAGE + 1)) && printf keep && times $((MESSAGE + 1)) ' '
        file 75000 $((MESSAGE + 1)) && times 15000 'keep;' && times $((MESSAGE + 1)) ' '
    } | session which-of-two-payloads-is-judged-first 'refused 15' 'refused 20 at 4' 'refused 95' end
    {
        file $((SCRIPT + 1)) 0 && times $SCRIPT ' '
    } | session a-payload-over-its-limit-that-is-cut-off 'refused 72' end
    {
        echo "TRY $((IMAGE + 1)) 0" && times $((IMAGE + 1)) ' '
        echo "TRY 1 $((MESSAGE + 1))" && printf '\0' && times $((MESSAGE + 1)) ' '
        echo "TRY 20 $((MESSAGE + 1))" && printf 'SFI1\0\0\0\1\0\0\0\0\0\0\0\1\x14\0\0\0' && times $((MESSAGE + 1)) a
        printf 'TRY 1\nTRY 1 2 3\nTRY 5 0\nabc'
    } | session an-image-or-message-that-is-too-long 'refused 61' 'refused 60' 'refused 95' 'refused 71' 'refused 71' 'refused 72' end
    {
        echo 'BEGIN ann 7258118399 0' && echo 'BEGIN ann 7258118400 0'
        echo "BEGIN ann 7258118400 $((MESSAGE + 1))" && times $((MESSAGE + 1)) ' '
        echo "BEGIN ann 0 $((MESSAGE + 1))" && times $((MESSAGE + 1)) ' '
    } | session moments-at-their-limit 'ticket 1 budget 1' 'refused 94' 'refused 94' 'refused 95' end
    {
        echo "GLOBAL g $SCRIPT" && times $SCRIPT ' '
        echo "GLOBAL g $((SCRIPT + 1))" && times $((SCRIPT + 1)) ' '
        echo "GLOBAL g 65544" && printf 'keep "' && times 65536 a && printf '";'
        echo "IMAGE ann $((IMAGE + 1))" && times $((IMAGE + 1)) ' '
        echo "SCRIPT ann main $((SCRIPT + 1))" && times $((SCRIPT + 1)) ' '
    } | session what-is-kept-at-its-limits ok 'refused 15' 'refused 16 at 5' 'refused 61' 'refused 15' end
}

# The longest scripts: of marks, numbers, strings, comments, blocks and tests.
scripts() {
    {
        file $((SCRIPT + 1)) 0 && times $((SCRIPT + 1)) $'\xff'
        file $((SCRIPT + 1)) 0 && times $((SCRIPT + 1)) '('
        file $SCRIPT 0 && printf 'a ' && times $((SCRIPT - 2)) 9
        file $((SCRIPT - 1)) 0 && printf 'a ' && times $((SCRIPT - 3)) '"'
        file $SCRIPT 0 && printf 'a /*' && times $((SCRIPT - 4)) '*'
        file $SCRIPT 0 && times $SCRIPT 1
        file $SCRIPT 0 && times $SCRIPT '('
        file $SCRIPT 0 && times $SCRIPT '['
        file $SCRIPT 0 && times $SCRIPT '{'
        file 262143 0 && times 37449 'if not '
        file 262143 0 && times 87381 'if{'
        file 262140 0 && times 52428 'keep('
        file 262140 0 && times 52428 'keep['
        file 262140 0 && times 52428 'keep;'
    } | session the-longest-scripts 'refused 15' 'refused 15' 'refused 14 at 2' 'refused 12 at 262142' 'refused 13 at 2' 'refused 14 at 0' \
        'refused 20 at 0' 'refused 20 at 0' 'refused 20 at 0' 'refused 21 at 115' 'refused 21 at 98' 'refused 21 at 165' 'refused 20 at 5' \
        'fault 5' 'class unfiled' end
    {
        file 74995 0 && times 14999 'keep;'
        file 75000 0 && times 15000 'keep;'
    } | session scripts-that-are-nearly-too-heavy 'class unfiled' 'fault 5' 'class unfiled' end
    {
        echo 'SCRIPT ann main 75000' && times 15000 'keep;'
        printf 'ACTIVE ann main\nBEGIN ann 0 0\nTURN 1 1\nFINISH 1\n'
    } | session a-script-of-an-officer-that-is-too-heavy ok ok 'ticket 1 budget 1' 'ended 1' 'fault 5' 'record 1 class unfiled due never' end
    {
        echo 'GLOBAL g 74980' && times 14996 'keep;'
        file 48 0 && printf 'require "include"; include :global "g"; discard;'
        echo 'GLOBAL g 74985' && times 14997 'keep;'
        file 48 0 && printf 'require "include"; include :global "g"; discard;'
        file 82 0 && printf 'require "include"; if false { include :global "g"; include :global "g"; } discard;'
    } | session heavy-global-scripts ok 'class unfiled' ok 'fault 5' 'class unfiled' 'fault 5' 'class unfiled' end
}

# Strings of 65,535 octets, which are accepted, and of 65,536. A line end in a string counts as two.
strings() {
    {
        file 65566 0 && printf 'require "fileinto";fileinto "' && times 65535 a && printf '";'
        file 65567 0 && printf 'require "fileinto";fileinto "' && times 65536 a && printf '";'
        file 65537 0 && printf '"' && times 65535 a && printf '"'
        file 65538 0 && printf '"' && times 65536 a && printf '"'
        file 65537 0 && printf '"' && times 65536 a
        file 32769 0 && printf '"' && lines 32767 '' && printf '"'
        file 32770 0 && printf '"' && lines 32768 '' && printf '"'
        file 32770 0 && printf '"a' && lines 32767 '' && printf '"'
        file 131072 0 && printf '"' && times 131070 \\ && printf '"'
        file 65541 0 && printf 'text:\n' && times 65533 a && printf '\n.'
        file 65542 0 && printf 'text:\n..' && times 65532 a && printf '\n.'
        file 65540 0 && printf '; "' && times 65536 a && printf '"'
        file 65539 0 && printf '; "' && times 65536 a
        file 65544 0 && printf '; text:\n' && times 65534 a && printf '\n.'
        file 65545 0 && printf '; text:\n' && times 65534 a && printf '\n. '
    } | session strings-at-their-limit 'fault 1' 'class unfiled' 'refused 16 at 28' 'refused 20 at 0' 'refused 16 at 0' 'refused 12 at 0' \
        'refused 20 at 0' 'refused 16 at 0' 'refused 20 at 0' 'refused 20 at 0' 'refused 20 at 0' 'refused 20 at 0' 'refused 16 at 2' \
        'refused 12 at 2' 'refused 16 at 2' 'refused 12 at 2' end
    {
        echo 'FILE 91 10013' && printf 'if header :comparator "i;octet" :matches "subject" "*a*a*a*a*b" { discard; } else { keep; }'
        printf 'Subject: ' && times 10000 a && printf '\r\n\r\n'
    } | session a-pattern-over-a-long-value 'class unfiled' end
}

# Plans and classes: 4,096 at most, of which `unfiled` is one.
plans() {
    {
        seq -f 'CLASS c%g' 4095
        printf 'CLASS d\nCLASS d/e\nCLASS c1\n'
    } > "$folder/as-many-classes-as-there-may-be.session"
    { lines 4095 ok && answers 'refused 56' 'refused 53' 'refused 54' end; } > "$folder/as-many-classes-as-there-may-be.expected"
    {
        printf 'PLAN 101287\nroot = "permanent"\n' && seq 4095 | sed 's/.*/[[class]]\npath = "c&"/'
        printf 'PLAN 101312\nroot = "permanent"\n' && seq 4096 | sed 's/.*/[[class]]\npath = "c&"/'
        echo 'CLASS d'
    } | session a-plan-of-as-many-classes-as-there-may-be ok 'refused 56' 'refused 56' end
    {
        printf 'PLAN %d\nroot = "permanent"\n' $PLAN && times $((PLAN - 19)) ' '
        printf 'PLAN %d\nroot = "permanent"\n' $((PLAN + 1)) && times $((PLAN - 18)) ' '
        printf 'PLAN %d\n' $((PLAN + 1)) && times $((PLAN + 1)) ' '
        printf 'PLAN %d\n' $((PLAN + 1)) && times $PLAN ' '
    } | session plans-at-their-limit ok 'refused 58' 'refused 58' 'refused 72' end
}

# The last command of a session is its 1,000,000th, or QUIT.
commands() {
    lines 1000001 '' > "$folder/a-command-after-the-last.session"
    { lines 1000000 'refused 70' && echo end; } > "$folder/a-command-after-the-last.expected"
    { lines 999999 '' && answers QUIT QUIT; } > "$folder/the-last-command.session"
    { lines 999999 'refused 70' && echo end; } > "$folder/the-last-command.expected"
}

# Each octet of hexadecimal digits as printf takes it, with a text after each.
escaped() {
    local place
    for ((place = 0; place < ${#1}; place += 2)); do
        printf '\\x%s%s' "${1:place:2}" "$2"
    done
}

# Adds the change of an octet of an image, which is tried on a message, and the answers to it.
change() {
    local changed=("${octets[@]}") octet
    printf -v octet '\\x%02x' "$2"
    [[ $octet != "${octets[$1]}" ]] || return 0
    changed[$1]=$octet
    printf -v octet %s "${changed[@]}"
    # shellcheck disable=SC2059 # these are octets
    printf "TRY ${#changed[@]} $((${#message} / 4))\n$octet$message" >&3
    printf '%s\n' "${3//|/$'\n'}" >&4
}

# Begins the session of an image, from its name, and from the octets of the image and of the message.
begin_changes() {
    local image text
    read -r image text <<< "$2"
    read -r -a octets <<< "$(escaped "$image" ' ')"
    message=$(escaped "$text" '')
    exec 3> "$folder/$1.session" 4> "$folder/$1.expected"
    echo 'CLASS finance' >&3
    echo ok >&4
}

# Sessions that try changes of images, as the file `06-images/changes` has them.
changes() {
    local word values rest part value octets=() message=''
    while read -r word values rest; do
        if [[ $word == image ]]; then
            [[ ${#octets[@]} -eq 0 ]] || echo end >&4
            begin_changes "$values" "$rest"
        else
            for part in ${values//,/ }; do
                for ((value = ${part%-*}; value <= ${part#*-}; value++)); do
                    change "$word" "$value" "$rest"
                done
            done
        fi
    done < <(grep -v '^#' "$here/06-images/changes")
    echo end >&4
    exec 3>&- 4>&-
}

# A session that ends at each of its octets, and after it one that asks for what is in the store.
cuts() {
    local session=$1 name=${1##*/} place=0 lines=0 end=0 archive='' size questions part stages said
    size=$(stat -c %s -- "$session.session")
    questions=$(< "$here/questions")
    mapfile -t stages < "$session.cuts"
    mapfile -t said < "$session.expected"
    for ((place = 0; place <= size; place++)); do
        if [[ ${#stages[@]} -gt 0 && ${stages[0]%% *} -eq $place ]]; then
            read -r end lines archive <<< "${stages[0]}"
            stages=("${stages[@]:1}")
        fi
        part=$folder/$name-cut-at-$place
        mkdir -- "$part"
        head -c "$place" -- "$session.session" > "$part/1.session"
        {
            ((lines == 0)) || answers "${said[@]:0:lines}"
            ((place == end)) || answers 'refused 72'
            [[ $lines -gt 0 && ${said[lines - 1]} == end ]] || answers end
        } > "$part/1.expected"
        answers "$questions" > "$part/2.session"
        answers "${archive//|/$'\n'}" end > "$part/2.expected"
    done
}

# Answers of many lines: a due list, and a capture in each of 4,096 classes.
long_answers() {
    local number script
    {
        printf 'PLAN 23\nroot = "1 days review"\n'
        for number in {1..2000}; do printf 'BEGIN ann 0 0\nTURN %s 1\nFINISH %s\n' "$number" "$number"; done
        echo 'DUE 1970-01-02'
    } | session a-due-list-of-2000-lines ok \
        "$(for number in {1..2000}; do
            printf 'ticket %s budget 1\nended 1\nrecord %s class unfiled due 1970-01-02\n' "$number" "$number"
        done)" \
        "$(printf 'record %s class unfiled due 1970-01-02\n' {1..2000})" ok end
    script=$(printf 'require "fileinto"; keep;' && printf ' fileinto "c%s";' {1..4095})
    {
        printf 'CLASS c%s\n' {1..4095}
        printf 'SCRIPT ann main %s\n%sACTIVE ann main\nBEGIN ann 0 0\nTURN 1 60000\nFINISH 1\n' ${#script} "$script"
    } | session a-capture-in-4096-classes "$(lines 4095 ok)" ok ok 'ticket 1 budget 16389' 'ended 4097' \
        "$(printf '%s\n' c{1..4095} unfiled | LC_ALL=C sort | awk '{print "record " NR " class " $0 " due never"}')" end
}

# A record that many holds keep, and the longest path and name of an officer.
holds_and_names() {
    local number path officer script
    {
        printf 'PLAN 24\nroot = "1 days destroy"\nBEGIN ann 0 0\nTURN 1 1\nFINISH 1\n'
        printf 'HOLD h%s 1\n' {1..1100}
        printf 'DUE 1970-01-02\nDESTROY 1 1970-01-02\n'
        printf 'RELEASE h%s 1\n' {1100..1}
        printf 'DUE 1970-01-02\nDESTROY 1 1970-01-02\n'
    } | session a-record-with-1100-holds ok 'ticket 1 budget 1' 'ended 1' 'record 1 class unfiled due 1970-01-02' \
        "$(lines 1100 ok)" ok 'refused 81' "$(lines 1100 ok)" 'record 1 class unfiled due 1970-01-02' ok ok end
    officer=$(times 64 o)
    path=$(printf 'aaaaaaaaaaaaaaaaaaaaaaaaaaaaaaaaaaaaaaaa/%.0s' {1..8})
    path=${path%/}
    script="require \"fileinto\"; fileinto \"$path\";"
    {
        for number in {1..8}; do echo "CLASS ${path:0:41 * number - 1}"; done
        printf 'SCRIPT %s main %s\n%sACTIVE %s main\n' "$officer" ${#script} "$script" "$officer"
        printf 'BEGIN %s 0 0\nTURN 1 9\nFINISH 1\n' "$officer"
    } | session the-longest-path-and-officer "$(lines 8 ok)" ok ok 'ticket 1 budget 9' 'ended 2' \
        "record 1 class $path due never" end
}

payloads
scripts
strings
plans
long_answers
holds_and_names
commands
changes
for file in "$here"/*/*.cuts; do
    cuts "${file%.cuts}"
done

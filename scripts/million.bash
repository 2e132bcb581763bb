#!/usr/bin/env bash
# Fills an archive of volumes with a million messages, holds and destroys some, and copies it, while the program is killed over and over, at
# random moments. A judge in Python, which reads the volumes by itself, says whether anything is lost or doubled.
#
#     ./test million            1,000,000 messages: half by imports of mboxes, half by intakes of a Maildir. It takes 7 GB of the disk, 1 GB
#                               of memory, and an hour or more
#     ./test million COUNT      that many, in hundreds, at least 1,000; below 100,000 in volumes of 1M in place of 32M
#
# SEED=NUMBER in the environment repeats the choices of a run; the moments of the kills also depend on the machine. Volumes are filled in
# memory, where there is room for files, so that no capture waits for a disk. One that is full goes to the disk, and a link to it stands in
# its place.
# shellcheck disable=SC2317 # count calls its checks by their names
set -uo pipefail

root=$(readlink -f -- "${BASH_SOURCE[0]}") && root=${root%/*/*} || exit 125
self="test million"
# shellcheck source=scripts/build.bash
. "$root/scripts/build.bash" || exit 125
# shellcheck source=scripts/counts.bash
. "$root/scripts/counts.bash" || exit 125
cd -- "$root" || exit 125
export LC_ALL=C PYTHONDONTWRITEBYTECODE=1

# The day by which records are destroyed, and how often each command is killed before it may go on to its end.
readonly BY=2026-06-30 SHOTS=3

# How often commands were killed, by name.
declare -A kills=([import]=0 [intake]=0 [hold]=0 [dispose]=0 [copy]=0)

# Runs the generator or the judge.
make() {
    python3 "$root/scripts/million_mail.py" "$@"
}
judge() {
    python3 "$root/scripts/million_judge.py" "$@"
}

# Lays the plan, the rules and the archive.
lay_archive() {
    mkdir -p -- "$folder/volumes" "$here/rules/ann" "$here/box/new" "$here/box/cur" "$here/box/tmp" || return
    cat > "$here/plan.toml" << 'END' || return
root = "30 years destroy"

[[class]]
path = "finance"
schedule = "7 years destroy"

[[class]]
path = "staff"
schedule = "5 years review"
END
    cat > "$here/rules/ann/main.sieve" << 'END' || return
require "fileinto";
if header :contains "subject" "invoice" { fileinto "finance"; }
if header :contains "subject" "leave" { fileinto "staff"; }
END
    touch -- "$folder"/{list,twice,shots,drafts} && "$keeper" create --store "$here/archive" --plan "$here/plan.toml" --roll "$size"
}

# A random number below one of up to a thousand million.
random_below() {
    echo $(((RANDOM * 32768 + RANDOM) % $1))
}

# Moves the volumes that are full, before the last, to the disk, each with its log.
move_full_volumes() {
    local name last
    last=$(sed -n 's/^begun //p' "$here/archive/volumes")
    for name in "$here/archive"/[0-9][0-9][0-9][0-9].db; do
        name=${name##*/}
        if [[ ! -h $here/archive/$name ]] && ((10#${name%.db} < last)); then
            mv -- "$here/archive/$name" "$here/archive/$name-wal" "$folder/volumes/" &&
                ln -s -- "$folder/volumes/$name" "$here/archive/$name" || return
        fi
    done
}

# How far a command is that prints a line for each record, and how far a copy is: by octets, and by thousands of these.
printed_so_far() {
    stat -c %s -- "$folder/said"
}
copied_so_far() {
    { du -s -- "$folder/copy.mailfile-new" || echo 0; } 2> /dev/null | cut -f 1
}

# Waits until a command has come to a random point of its way, and a little longer; one time in four only for a random time.
wait_for_a_moment() {
    local aim=0 within=$((count_of_all < 20000 ? count_of_all * 10 : 200000))
    if ((RANDOM % 4 > 0)); then
        aim=$(random_below "$2")
    else
        within=$((within * 10))
    fi
    while (($("$1") < aim)) && kill -0 "$process"; do
        sleep 0.05
    done 2> /dev/null
    within=$(random_below "$within")
    sleep "$((within / 1000000)).$(printf '%06d' $((within % 1000000)))"
}

# Starts a subcommand of the store, and kills it at such a moment. Sets `status`: 137 where it was killed.
shoot() {
    local process
    status=0
    : > "$folder/said"
    "$keeper" "$3" --store "$here/archive" "${@:4}" > "$folder/said" 2> "$folder/told" &
    process=$!
    wait_for_a_moment "$1" "$2"
    {
        kill -KILL "$process"
        wait "$process" || status=$?
    } 2> "$folder/killed"
}

# Adds what a run has printed to what all have, without a line that is cut off.
keep_lines() {
    if [[ -n $(tail -c 1 -- "$folder/said") ]]; then
        sed -i '$d' -- "$folder/said"
    fi
    cat -- "$folder/said" >> "$folder/printed-$1"
}

# Counts a kill, and notes how far the command was, and the draft of a volume that it has left. A command that prints what it does goes on
# there; a copy begins anew.
note_kill() {
    kills[$1]=$((kills[$1] + 1))
    echo "$1 $2" >> "$folder/shots"
    ! compgen -G "$here/archive/*.mailfile-new" >> "$folder/drafts"
    [[ $1 == copy ]] || left=$((left - $2))
}

# Has a subcommand done to its end: it is killed some times, each time started again, and then left to itself. After each kill, something
# is looked at. Whatever else ends it is a failure.
done_in_the_end() {
    local after=$1 measure=$2 left=$3 name=$4 status=137 shot
    for ((shot = 0; shot < SHOTS && status == 137; shot++)); do
        shoot "$measure" $((left > 1 ? left : 1)) "${@:4}"
        if ((status == 137)); then
            note_kill "$name" "$("$measure")"
            keep_lines "$name"
            "$after" || return
        fi
    done
    if ((status == 137)); then
        status=0
        "$keeper" "$name" --store "$here/archive" "${@:5}" > "$folder/said" 2> "$folder/told" || status=$?
    fi
    keep_lines "$name"
    ((status == 0)) || {
        echo "$name: status $status: $(tail -n 3 -- "$folder/told")"
        return 1
    }
}

# Captures mail by an import of ten mboxes.
take_mboxes() {
    local first=$1 number=$((count_of_all / 100)) files=() file
    for ((; first < $1 + 10 * number; first += number)); do
        file=$folder/m$(printf '%08d' "$first").mbox
        make mbox "$first" "$number" "$file" "$folder/list" || return
        files+=("$file")
    done
    done_in_the_end true printed_so_far $((10 * number * (${#file} + 45))) import --rules "$here/rules" --dated received ann "${files[@]}" &&
        rm -- "${files[@]}" && move_full_volumes
}

# Notes the message that the next intake will capture a second time: the first in `new`, if it is the last one that was captured. The judge
# looks at copies of the last two volumes, with their logs.
note_twice() {
    local next file
    next=$(find "$here/box/new" -type f -name 'b*' -printf '%f\n' | sort | head -n 1)
    [[ -n $next ]] || return 0
    mkdir -- "$here/look" || return
    for file in $(find "$here/archive" -name '[0-9][0-9][0-9][0-9].db' | sort | tail -n 2); do
        file=$(readlink -f -- "$file")
        cp -- "$file" "$file-wal" "$here/look" || return
    done
    if [[ $(judge last "$here/look") == "$(sha256sum < "$here/box/new/$next" | cut -d ' ' -f 1)" ]]; then
        echo $((10#${next#b})) >> "$folder/twice"
    fi
    rm -r -- "$here/look"
}

# Captures mail by an intake of a Maildir.
take_maildir() {
    local number=$((count_of_all / 50)) day
    day=$(make maildir "$1" "$number" "$here/box/new" "$folder/list") || return
    done_in_the_end note_twice printed_so_far $((number * 50)) intake --rules "$here/rules" --at "$day" ann "$here/box" || return
    [[ -z $(ls -A -- "$here/box/new") ]] && find "$here/box/cur" -type f -delete && move_full_volumes
}

# What a kill met: how many came before the first line or the first octet of a copy, and how many while a volume was being begun.
say_what_was_met() {
    awk '
        { times[$1] += 1; early[$1] += !$2 }
        END { for (name in times) print name ": " times[name] " kills, " early[name] " of them at its start" }' "$folder/shots" | sort
    echo "drafts of a volume after a kill: $(wc -l < "$folder/drafts")"
}

# Says when something was done, and after how many minutes and seconds of the processor, as user and system, in all.
say() {
    times > "$folder/times"
    echo "$(date -u +%T) $1 ($(tail -n 1 -- "$folder/times"))"
}

capture_all() {
    local first
    for ((first = 1; first < count_of_all / 2; first += count_of_all / 10)); do
        count "an import from message $first on" take_mboxes "$first"
        say "imported up to $((first + count_of_all / 10 - 1)), after ${kills[import]} kills"
    done
    for ((; first < count_of_all; first += count_of_all / 50)); do
        count "an intake from message $first on" take_maildir "$first"
        say "taken in up to $((first + count_of_all / 50 - 1)), after ${kills[intake]} kills; to be there twice: $(wc -l < "$folder/twice")"
    done
}

# Whether a list is what the judge makes of the volumes, and then whether as many records are counted.
is_listed() {
    "$keeper" list --store "$here/archive" --csv "${@:2}" > "$folder/csv" && judge csv "$here/archive" ${1:+"$1"} | cmp - "$folder/csv"
}

counts_records() {
    (($("$keeper" list --store "$here/archive" --count) == $(wc -l < "$folder/csv") - 1))
}

is_captured() {
    cat -- "$folder/printed-import" "$folder/printed-intake" > "$folder/printed" &&
        judge captured "$here/archive" "$folder/list" "$folder/twice" "$folder/printed" $((kills[import] + kills[intake])) "$folder/where"
}

# Places a hold on all records that some conditions choose. It prints so many octets for a hundred messages.
hold_all() {
    done_in_the_end true printed_so_far $((count_of_all * $1 / 100)) hold --reason 'order 12/3' "${@:2}"
}

is_destroyed() {
    "$keeper" certificates --store "$here/archive" > "$folder/certificates" || return
    judge destroyed "$here/archive" "$folder/list" "$folder/where" "$BY" "$folder/printed-dispose" "${kills[dispose]}" \
        "$folder/certificates"
}

# What a copy that was killed has left is told by the next one, which makes nothing. It is removed.
clear_draft() {
    local status=0
    if [[ -e $folder/copy.mailfile-new ]]; then
        "$keeper" copy --store "$here/archive" "$folder/copy" > "$folder/said" 2> "$folder/told" || status=$?
        ((status == 73)) && [[ ! -e $folder/copy ]] || return
    fi
    rm -rf -- "$folder/copy" "$folder/copy.mailfile-new"
}

copy_all() {
    done_in_the_end clear_draft copied_so_far "$(du -s -L -- "$here/archive" | cut -f 1)" copy "$folder/copy"
}

# Whether a check finds nothing, and ends with the sums that the judge has.
is_whole() {
    local today
    today=$(date -u +%F)
    "$keeper" check --store "$1" > "$folder/said" 2> "$folder/told" && [[ ! -s $folder/told ]] || return
    judge totals "$1" "$today" | cmp - <(tail -n 7 -- "$folder/said") && tail -n 7 -- "$folder/said" | paste -s -d ' '
}

# All of it, stage by stage.
million() {
    count "an archive is made" lay_archive
    capture_all
    count "the list of all records" is_listed ""
    count "the number of records" counts_records
    count "each message is captured once" is_captured
    count "the list of what is due" is_listed "$BY" --due "$BY"
    say "listed"
    count "a case is held by the subject" hold_all 30 --where 'header :contains "subject" "smith"' smith-2026
    count "a case is held by class and days" hold_all 10 --class finance --since 2013-01-01 --until 2013-06-30 audit
    count "what is of a case is held" judge held "$here/archive" "$folder/where" "$folder/printed-hold" "${kills[hold]}"
    say "held, after ${kills[hold]} kills"
    count "what is due is destroyed" done_in_the_end true printed_so_far $((count_of_all * 11)) dispose --day "$BY" --yes
    count "no other record is destroyed" is_destroyed
    count "the list of all records" is_listed ""
    say "destroyed, after ${kills[dispose]} kills"
    count "the archive is copied" copy_all
    say "copied, after ${kills[copy]} kills"
    count "the check of the archive" is_whole "$here/archive"
    count "the check of the copy" is_whole "$folder/copy"
    count "the copy is the archive" judge copied "$here/archive" "$folder/copy"
    say "compared"
}

# Ends what was started, and removes what was made.
clear_up() {
    # shellcheck disable=SC2046 # these are numbers
    kill -KILL $(jobs -p) 2> /dev/null
    rm -rf -- "$folder" "$here"
}

[[ ${1-} != --help ]] || print_help
if (($# > 1)) || [[ ! ${1-1000000} =~ ^[1-9][0-9]{1,5}00$ ]]; then
    usage "./test million [COUNT]"
fi
count_of_all=${1:-1000000} size=32M
((count_of_all >= 100000)) || size=1M
command -v python3 > /dev/null || give_up "there is no python3 on the path, in which the judge is written"
ensure_program mailfile_store
keeper=$(program_of mailfile_store)
folder=$(mktemp -d) || give_up "no folder could be made for the volumes"
here=$(mktemp -d -p /dev/shm 2> /dev/null) || here=$(mktemp -d) || exit 125
trap 'clear_up' EXIT
trap 'exit 143' HUP INT TERM
SEED=${SEED:-$RANDOM} RANDOM=$SEED
say "$count_of_all messages, volumes of $size, SEED=$SEED"
million
say_what_was_met
group "$count_of_all messages, with kills"
finish

#!/usr/bin/env bash
# Builds the program of measures if needed, and prints a table of what was asked and reached.
#
#     ./test speed           each measure compared with a plain pass over the same input in the same run, and each call of the store with
#                            its own statements, run by the kit's library and by the system's sqlite3
#     ./test speed store     ./mailfile-store: an intake beside a session of ./mailfile, lists beside the opening of the store, and
#                            exports and copies beside `cp`
#     ./test speed volumes   ./mailfile-store over an archive of volumes of 1,000,000 records, which it makes first: it takes up to 5 GB
#                            of the disk, and half an hour
#     ./test speed captures  sessions of ./mailfile and intakes beside libsqlite3, called from C by prepared statements
#
# With `--write` as the last word, the table in docs/PERFORMANCE.md is replaced too.
set -uo pipefail

root=$(readlink -f -- "${BASH_SOURCE[0]}") && root=${root%/*/*} || exit 125
self="test speed"
# shellcheck source=scripts/build.bash
. "$root/scripts/build.bash" || exit 125
# shellcheck source=scripts/trials.bash
. "$root/scripts/trials.bash" || exit 125
cd -- "$root" || exit 125
octets=1048576
rounds=50
records=100000
store_rounds=20
capture_rounds=15
page=docs/PERFORMANCE.md

# Describes the machine that the table was measured on.
machine() {
    local processor
    processor=$(sed -n 's/^model name[[:space:]]*: //p' /proc/cpuinfo | head -n 1)
    printf 'Measured on %s, on %s processors (%s), at a load of %s.\n' \
        "$(date -u +%Y-%m-%d)" "$(nproc)" "${processor:-unknown}" "$(cut -d ' ' -f 1 /proc/loadavg)"
}

# Makes the table from what the programs print. Each row is a line with tabs between its parts:
# - the title, and what was asked (a word and a number);
# - the size and nanoseconds, and those of the run on half as much or in the small archive;
# - the plain pass and its nanoseconds;
# - the answer of a run, which is a number of octets where memory is measured, and that of all runs.
table() {
    awk -F '\t' '
        function milliseconds(nanoseconds) {
            return sprintf(nanoseconds < 1e6 ? "%.3f" : nanoseconds < 1e8 ? "%.1f" : "%.0f", nanoseconds / 1e6)
        }
        BEGIN {
            print "| measure | asked | reached | met | size | ms | for twice as much | plain pass | ms | times as long |"
            print "|---|---|---|---|---|---|---|---|---|---|"
        }
        {
            growth = $4 == $6 || $2 == "same" || $2 == "share" ? 0 : 2 * ($5 / $7) / ($4 / $6)
            rate = $4 * 1000 / $5
            asked = "–"; reached = "–"; met = "–"
            if ($2 == "rate") {
                asked = $3 " MB/s"; reached = sprintf("%.0f MB/s", rate); met = rate >= $3
            } else if ($2 == "time") {
                asked = $3 / 1000 " ms"; reached = milliseconds($5) " ms"; met = $5 <= $3 * 1e3
            } else if ($2 == "growth") {
                asked = sprintf("%.1f-fold", $3 / 10); reached = sprintf("%.1f-fold", growth); met = growth <= $3 / 10
            } else if ($2 == "memory") {
                asked = $3 " times"; reached = sprintf("%.1f times", $10 / $4); met = $10 <= $3 * $4
            } else if ($2 == "share") {
                asked = $3 / 10 " of the rate"; reached = sprintf("%.2f", $9 / $5); met = $9 * 10 >= $3 * $5
            } else if ($2 == "above") {
                asked = $3 / 1000 " ms above"; reached = sprintf("%.3f ms", ($5 - $9) / 1e6); met = $5 - $9 <= $3 * 1e3
            } else if ($2 == "same") {
                asked = sprintf("%.1f-fold", $3 / 10); reached = sprintf("%.1f-fold", $5 / $7); met = $5 * 10 <= $3 * $7
            }
            if ($2 != "nothing") {
                figures += 1; good += met; met = met ? "yes" : "no"
            }
            printf "| %s | %s | %s | %s | %d | %s | %s | %s | %s | %s |\n", $1, asked, reached, met, $4, milliseconds($5),
                growth == 0 ? "–" : sprintf("%.1f", growth), $8, $9 == 0 ? "–" : milliseconds($9),
                $9 == 0 ? "–" : sprintf($5 < 10 * $9 ? "%.1f" : "%.0f", $5 / $9)
        }
        END { printf "\nReached: %d of %d figures.\n", good, figures }'
}

# The page, with a text in place of what is between a mark and the next end of a table.
page_with() {
    awk -v text="$1" -v mark="<!-- the table of $2 -->" '
        /^<!-- end of the table -->$/ { inside = 0 }
        !inside { print }
        $0 == mark { print ""; while ((getline line < text) > 0) print line; print ""; inside = 1 }
    ' "$page"
}

# Shows a table, and also puts it into the page where that was asked for. The new page is written as a separate file, and then replaces
# the old one.
show() {
    cat -- "$1"
    [[ $3 == --write ]] || return 0
    if ! { page_with "$1" "$2" > "$page.new" && mv -- "$page.new" "$page"; }; then
        rm -f -- "$page.new"
        give_up "$page was not written"
    fi
}

# The table of ./mailfile-store.
speed_of_store() {
    folder=$(mktemp -d) || give_up "no folder could be made for the files of the store"
    memory=$(mktemp -d -p /dev/shm 2> /dev/null) || memory=
    trap 'rm -rf -- "$folder" ${memory:+"$memory"}' EXIT
    # shellcheck source=scripts/store_figures.bash
    . "$root/scripts/store_figures.bash" || exit 125
    { machine && echo && store_figures; } > "$folder/table" || give_up "the table was not made"
    show "$folder/table" "./test speed store" "$1"
}

# The table of ./mailfile-store over volumes.
speed_of_volumes() {
    folder=$(mktemp -d) || give_up "no folder could be made for the volumes"
    here=$(mktemp -d -p /dev/shm 2> /dev/null) || here=$folder/here
    trap 'rm -rf -- "$folder" "$here"' EXIT
    # shellcheck source=scripts/store_figures.bash
    . "$root/scripts/store_figures.bash" || exit 125
    # shellcheck source=scripts/volume_figures.bash
    . "$root/scripts/volume_figures.bash" || exit 125
    { machine && echo && volume_figures; } > "$folder/table" || give_up "the table was not made"
    show "$folder/table" "./test speed volumes" "$1"
}

# The table of captures beside libsqlite3.
speed_of_captures() {
    folder=$(mktemp -d) || give_up "no folder could be made for the files of the store"
    memory=$(mktemp -d -p /dev/shm 2> /dev/null) || memory=
    trap 'rm -rf -- "$folder" ${memory:+"$memory"}' EXIT
    # shellcheck source=scripts/store_figures.bash
    . "$root/scripts/store_figures.bash" || exit 125
    # shellcheck source=scripts/capture_figures.bash
    . "$root/scripts/capture_figures.bash" || exit 125
    { machine && echo && capture_figures; } > "$folder/table" || give_up "the table was not made"
    show "$folder/table" "./test speed captures" "$1"
}

# The rows of the store, on an archive with a number of holds and with its databases in a folder.
store_rows() {
    "$(trial_program measures)" store "$records" "$2" "$store_rounds" "$1/store" "$3" > "$folder/rows" || return
    cat -- "$folder/rows"
    sqlite3_rows "$1/store-bare.db" "$3" < "$folder/rows" || return
    rm -f -- "$1"/store-*
}

case $#${1-}${2-} in
    0 | 1--write) ;;
    1store | 2store--write)
        speed_of_store "${2-}"
        exit
        ;;
    1volumes | 2volumes--write)
        speed_of_volumes "${2-}"
        exit
        ;;
    1captures | 2captures--write)
        speed_of_captures "${2-}"
        exit
        ;;
    1--help) print_help ;;
    *) usage "./test speed [store | volumes | captures] [--write]" ;;
esac
trap end_lanes EXIT
trap 'kill $(jobs -p) 2> /dev/null; exit 143' HUP INT TERM
ensure_trial measures
measured=$root/trials/measures/out/measured
# Each measure is run once on a small input, for which its answer is known.
if ! "$(trial_program measures)" > "$measured.rows"; then
    give_up "the program ended with a fault"
fi
cmp -s trials/measures/answers "$measured.rows" || give_up "a measure has another answer than in trials/measures/answers"
if ! "$(trial_program measures)" "$octets" "$rounds" > "$measured.rows"; then
    give_up "the program ended with a fault"
fi
# The memory of cases and of commands, each in its own process, whose greatest size the system reports.
for index in 0 1 2 3 4 5 6 7; do
    if ! "$(trial_program measures)" memory "$index" >> "$measured.rows"; then
        give_up "the program ended with a fault"
    fi
done
# The store over files in memory, if the system has a folder of such files, and in real files, also with holds. It is compared
# with sqlite3 on the databases that it leaves.
folder=$(mktemp -d -p "$root/trials/measures/out") || give_up "no folder could be made for the files of the store"
memory=$(mktemp -d -p /dev/shm 2> /dev/null) || memory=
trap 'rm -rf -- "$folder" ${memory:+"$memory"}' EXIT
# shellcheck source=scripts/sqlite3.bash
. "$root/scripts/sqlite3.bash" || exit 125
if [[ -n $memory ]]; then
    store_rows "$memory" 0 "over files in memory" >> "$measured.rows" || give_up "the store was not measured in memory"
fi
store_rows "$folder" 0 "in a file" >> "$measured.rows" || give_up "the store was not measured"
store_rows "$folder" "$((records / 10))" "in a file, one record in ten held" >> "$measured.rows" || give_up "the store was not measured"
# Captures in flight, in memory and in files, and the memory that sixty-four of them take.
if ! "$(trial_program measures)" captures "$capture_rounds" "$folder/captures" >> "$measured.rows"; then
    give_up "captures were not measured"
fi
{
    machine
    echo
    table < "$measured.rows"
} > "$measured" || give_up "the table was not made"
show "$measured" "./test speed" "${1-}"

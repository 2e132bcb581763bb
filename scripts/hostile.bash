#!/usr/bin/env bash
# Compares what is proved with what is plain: generated scripts by their images and by their trees, sessions with their turns shuffled
# and in serial order, and random commands of the store by a plain archive. Then it gives a million inputs that are changed, cut and put
# together at random to the public calls: images, scripts, messages, plans and sessions. It counts the answers to each kind. The last
# line must be `N inputs, 0 crashes, 0 hangs, 0 over budget`; any other line is a failure. The program trials/trials is proved and built
# first.
#
#     ./test hostile            the inputs of seed 1
#     ./test hostile SEED       the inputs of another seed, a number
#     ./test hostile limits [CASE..]    each command at its limits, by sessions of the built mailfile, after some of which mailfile-store
#                                       is asked (sessions/limits.bash)
#
# The inputs come in batches. If a batch crashes or hangs, the command that plays it again is printed.
# shellcheck disable=SC2034 # variables are for what is sourced
set -uo pipefail

root=$(readlink -f -- "${BASH_SOURCE[0]}") && root=${root%/*/*} || exit 125
self="test hostile"
# shellcheck source=scripts/build.bash
. "$root/scripts/build.bash" || exit 125
# shellcheck source=scripts/trials.bash
. "$root/scripts/trials.bash" || exit 125
readonly BATCHES=50 BATCH=20000

# A batch that takes this many seconds is hanging; normally it takes a few.
readonly PATIENCE=300

# The seed of a batch. No two batches of one seed, or of two seeds below 2^32, have the same.
seed_of() {
    echo $(($1 * BATCHES + $2))
}

# Plays a batch, and keeps what it prints, and its status if it failed.
play_batch() {
    local seed status=0
    seed=$(seed_of "$1" "$2")
    timeout -k 5 "$PATIENCE" "$program" hostile "$seed" "$BATCH" > "$work/said.$2" 2> "$work/error.$2" < /dev/null || status=$?
    if ((status != 0)); then
        echo "$status" > "$work/status.$2"
        echo "$self: status $status of: $program hostile $seed $BATCH" >&2
        cat -- "$work/error.$2" >&2
    fi
}

# Plays all batches of a seed, with one at a time on each processor.
play_batches() {
    local batch lanes
    lanes=$(nproc)
    for ((batch = 0; batch < BATCHES; batch++)); do
        if ((batch >= lanes)); then
            wait -n
        fi
        play_batch "$1" "$batch" &
    done
    wait
}

# The counts of all batches, with a line for each kind and answer.
counts() {
    cat -- "$work"/said.* | awk -F '\t' '
        { sum[$1 "\t" $2] += $3 }
        END { for (line in sum) print line "\t" sum[line] }
    ' | sort -t $'\t' -k 1,1 -k 2,2V
}

# The last line, from the counts and from the batches that failed. The statuses 124 and 137 mean that a batch was stopped.
verdict() {
    local inputs over crashes=0 hangs=0 file
    inputs=$(awk -F '\t' '$1 != "command" { sum += $3 } END { print sum + 0 }' "$work/counts")
    over=$(awk -F '\t' '$2 == "over budget" { sum += $3 } END { print sum + 0 }' "$work/counts")
    for file in "$work"/status.*; do
        case $(cat -- "$file" 2> "$work/error") in
            '') ;;
            124 | 137) hangs=$((hangs + 1)) ;;
            *) crashes=$((crashes + 1)) ;;
        esac
    done
    echo "$inputs inputs, $crashes crashes, $hangs hangs, $over over budget"
    ((inputs == BATCHES * BATCH && crashes + hangs + over == 0))
}

[[ ${1-} != --help ]] || print_help
seed=${1-1}
[[ $seed == limits || $# -le 1 && $seed =~ ^[0-9]{1,9}$ ]] || usage "./test hostile [SEED | limits [CASE..]]"
scratch=
work=$(mktemp -d) || give_up "no folder could be made for the results"
trap 'end_lanes; rm -rf -- "$work" ${scratch:+"$scratch"}' EXIT
trap 'kill $(jobs -p) 2> /dev/null; exit 143' HUP INT TERM
if [[ $seed == limits ]]; then
    for part in counts sessions store store_limits limits; do
        # shellcheck source=/dev/null
        . "$root/scripts/$part.bash" || exit 125
    done
    limits "${@:2}"
    finish
fi
ensure_trial trials
program=$(trial_program trials)
"$program" compare || give_up "another answer than the plain one"
play_batches "$((10#$seed))"
counts > "$work/counts"
cat -- "$work/counts"
verdict

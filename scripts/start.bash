#!/usr/bin/env bash
# Starts a program that no earlier start has noted: `start.bash CRATE [WORD..]`.
set -uo pipefail

root=$(readlink -f -- "${BASH_SOURCE[0]}") && root=${root%/*/*} || exit 125
self=${1//_/-}
# shellcheck source=scripts/programs.bash
. "$root/scripts/programs.bash" || exit 125

ensure_program "$1"
program=$(program_of "$1")
# A folder that nothing can keep is removed first: what is started is the open file.
if [[ -n $private ]]; then
    exec {file}< "$program" && rm -rf -- "$private"
    program=/proc/self/fd/$file
fi
exec "$program" "${@:2}"

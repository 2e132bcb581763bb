# shellcheck shell=sh
# Starts a program with the arguments of the script that sources this file, which sets `root`, the folder of the repository, and `name`,
# the crate of the program. A start that found the program has noted it (scripts/programs.bash), and while the note holds the program is
# started at once. This takes one process, `stat`, since each command pays for it.

# Starts the program that a note names, with the arguments after it, or returns where the note does not hold any more. The note sets
# `program`, which is absolute or below `root`; `paths`, all that it was proved from, a line each; and `states`, what `stat` said of the
# program and of these.
start_noted() {
    [ -r "$1" ] || return 0
    # shellcheck source=/dev/null
    . "$1"
    # shellcheck disable=SC2086,SC2154 # a path is a line
    [ "$(cd -- "$root/" && IFS='
' && set -f && LC_ALL=C exec stat -c '%.9Z %s' -- "$program" $paths 2> /dev/null)" = "$states" ] || return 0
    # shellcheck disable=SC2154
    case $program in
        /*) ;;
        *) program=$root/$program ;;
    esac
    shift
    exec "$program" "$@"
}

# A file that may not grow any more is then an error, and does not end the program. The program that is started inherits this.
command trap '' XFSZ 2> /dev/null || :

start_noted "${root:?}/out/${name:?}.note" "$@"
cache=${XDG_CACHE_HOME:-${HOME:+$HOME/.cache}}
case $cache in
    /*) start_noted "$cache/mailfile$(cd -- "$root/" && pwd -P)/out/$name.note" "$@" ;;
esac
exec bash "$root/scripts/start.bash" "$name" "$@"

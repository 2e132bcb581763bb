#!/usr/bin/env bash
# Makes the world around the program fail, and checks the result: reads and writes that fail, files that stop, full disks, damaged
# stores, killed processes, and memory that is refused. It prints one line for each group; the last line has the totals.
#
#     ./test failing            everything
#     ./test failing streams    reads, writes, and files in memory that stop at each call
#     ./test failing files      what the built mailfile does with the file of its store
#     ./test failing intake     intakes of mailfile-store that are killed, find a full disk, read-only folders or no store, and a large one
#     ./test failing mail       mail through a Postfix of its own, and what waits in its queue; it takes the rights of root. Where there is
#                               no Postfix, this alone installs it, from the system's packages
#     ./test failing report     a report with hostile names, read by a browser where one is installed
#     ./test failing volumes    archives of volumes that are killed, or find a full disk, at each call of the system; takes some minutes
#     ./test failing memory     each allocation of sessions, of a delivery and of an intake, refused in turn; that takes a C compiler
# shellcheck disable=SC2034 # variables are for what is sourced
set -uo pipefail

root=$(readlink -f -- "${BASH_SOURCE[0]}") && root=${root%/*/*} || exit 125
self="test failing"
# shellcheck source=scripts/build.bash
. "$root/scripts/build.bash" || exit 125
# shellcheck source=scripts/trials.bash
. "$root/scripts/trials.bash" || exit 125
cd -- "$root" || exit 125
[[ ${1-} != --help ]] || print_help
case $#${1-} in
    0 | 1streams | 1files | 1intake | 1mail | 1report | 1volumes | 1memory) ;;
    *) usage "./test failing [streams | files | intake | mail | report | volumes | memory]" ;;
esac
work=$(mktemp -d) || give_up "no folder could be made for the files of the tests"
trap 'clear_up' EXIT
trap 'kill $(jobs -p) 2> /dev/null; exit 143' HUP INT TERM
for part in counts failing_files intake failing_mail reports memory; do
    # shellcheck source=/dev/null
    . "$root/scripts/$part.bash" || exit 125
done

[[ ${1-streams} != streams ]] || streams
[[ ${1-files} != files ]] || files
[[ ${1-intake} != intake ]] || intakes
[[ ${1-mail} != mail ]] || mail_through_postfix "${1:+install}"
[[ ${1-report} != report ]] || reports
if [[ ${1-volumes} == volumes ]]; then
    count "archives of volumes, at each call of the system" scripts/volumes.bash
    group volumes
fi
[[ ${1-memory} != memory ]] || memory
finish
